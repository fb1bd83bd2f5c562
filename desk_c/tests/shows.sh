# Plans as text: the printed form of each command, and what is printed of a refused plan.
# shellcheck shell=sh

# Tests what show prints of a plan: shown NAME STATUS TEXT BYTE...
shown() {
    shown_name=$1 shown_status=$2 shown_text=$3
    shift 3
    hex one.plan "$@"
    expect "show: $shown_name" "$shown_status" "$shown_text" '' "$desk" show one.plan
}
show_input() {
    "$desk" show - <a.plan
}
text_a='START 1 2
LOOPS 2
SPAN 0 1 2
SPAN 1 1 2
CAPS 1
CLASS 0 1
PUT 1 0
END'
expect 'show plan A' 0 "$text_a" '' "$desk" show a.plan
expect 'show a plan from standard input' 0 "$text_a" '' show_input
shown 'SHELF, DAYS and GLUE' 0 'START 1 2
SHELF 1 7 65535
CAPS 255
CLASS 15 255
PUT 0 15
DAYS 258 772
GLUE 0
END' 01 01 02 0A 01 07 00 FF FF 02 FF 04 0F FF 05 00 0F 0B 02 01 04 03 0C 00 07
shown 'masks' 0 'START 1 4
MOUNTS 9
FIT 0
FIT 1 0
FIT 2 0 8 16 24 31
FIT 3 0 1 2 3 4 5 6 7 8 9 10 11 12 13 14 15 16 17 18 19 20 21 22 23 24 25 26 27 28 29 30 31
END' 01 01 04 08 09 09 00 00 00 00 00 09 01 01 00 00 00 09 02 01 01 01 81 09 03 FF FF FF FF 07

# Refused plans: the whole commands before the place, then the two lines.
shown '1, the empty plan' 1 'REFUSED 1 0
The plan is empty; command 1, at byte 0, has to be START (01).'
shown '1, no START' 1 'REFUSED 1 0
Command 1 of the plan, at byte 0, is 02; it has to be START (01).' 02 01 07
shown '2 at the start' 1 'REFUSED 2 0
Command 1 of the plan, START at byte 0 (01 01), is cut short; it takes 2 operands, and the file ends after 1.' 01 01
shown '2 in a FIT' 1 'START 1 2
MOUNTS 1
REFUSED 2 5
Command 3 of the plan, FIT at byte 5 (09 00 01 00 00), is cut short; it takes 5 bytes of operands, and the file ends after 4.' \
    01 01 02 08 01 09 00 01 00 00
shown '2, no END' 1 'START 1 2
CAPS 1
LOOPS 1
REFUSED 2 7
The plan ends at byte 7 without END (07); its last command is command 3, LOOPS at byte 5.' 01 01 02 02 01 03 01
shown '3' 1 'START 1 2
CAPS 1
REFUSED 3 5
Command 3 of the plan, at byte 5, is 0D, which is no command; commands are 01 to 0C.' 01 01 02 02 01 0D 07
shown '4' 1 'START 1 2
REFUSED 4 3
Command 2 of the plan, END at byte 3 (07), ends a plan without teams; a plan has 1 to 12 teams.' 01 01 02 07 07
shown '5' 1 'START 1 2
CAPS 1
REFUSED 5 5
Command 3 of the plan, PUT at byte 5 (05 02 00), has instrument 2; the plan has the instruments 0 to 1.' \
    01 01 02 02 01 05 02 00 07
shown '6' 1 'START 1 2
CAPS 1
PUT 1 0
PUT 0 0
REFUSED 6 11
Command 5 of the plan, PUT at byte 11 (05 01 02), names instrument 1 a second time in team 0; the first time is command 3 at byte 5.' \
    01 01 02 02 01 05 01 00 05 00 00 05 01 02 07
shown '7' 1 "START 1 2
$(yes 'CAPS 1' | sed 12q)
REFUSED 7 27
Command 14 of the plan, LOOPS at byte 27 (03 05), opens team 12; a plan has at most 12 teams, 0 to 11." \
    01 01 02 02 01 02 01 02 01 02 01 02 01 02 01 02 01 02 01 02 01 02 01 02 01 02 01 03 05 07
shown '8' 1 'START 1 2
LOOPS 1
REFUSED 8 5
Command 3 of the plan, SPAN at byte 5 (06 01 09 09), joins joint 9 to itself; its two joints have to differ.' \
    01 01 02 03 01 06 01 09 09 07
shown '9' 1 'START 1 2
CAPS 1
END
REFUSED 9 6
The plan goes on at byte 6 after command 3, END at byte 5; nothing may follow END.' 01 01 02 02 01 07 07
shown '17' 1 'START 1 2
SHELF 0 0 7
REFUSED 17 9
Command 3 of the plan, SHELF at byte 9 (0A 01 00 02 FF 01), has from 512 and to 511; from has to be below to.' \
    01 01 02 0A 00 00 00 07 00 0A 01 00 02 FF 01 02 01 07
shown '18' 1 'START 1 2
CAPS 1
GLUE 0
REFUSED 18 7
Command 4 of the plan, END at byte 7 (07), ends a plan in which team 0 has the glued instruments 0, which are not independent for it. Instrument 0 has no PUT in the team.' \
    01 01 02 02 01 0C 00 07

# Files that are no plans.
expect 'show an empty file' 1 'REFUSED 1 0
The plan is empty; command 1, at byte 0, has to be START (01).' '' "$desk" show empty
expect 'show empty standard input' 1 'REFUSED 1 0
The plan is empty; command 1, at byte 0, has to be START (01).' '' "$desk" show -
expect 'show a program' 1 'REFUSED 1 0
Command 1 of the plan, at byte 0, is 7F; it has to be START (01).' '' "$desk" show "$desk"
expect 'show a file without an end' 1 'REFUSED 1 0
Command 1 of the plan, at byte 0, is 00; it has to be START (01).' '' "$desk" show /dev/zero
cat a.plan "$desk" >one.plan
expect 'show a program after a plan' 1 "$text_a
REFUSED 9 22
The plan goes on at byte 22 after command 8, END at byte 21; nothing may follow END." '' "$desk" show one.plan
expect 'show a missing plan' 2 '' 'desk: cannot open missing: No such file or directory' "$desk" show missing
expect 'show a folder' 2 '' 'desk: cannot read folder: Is a directory' "$desk" show folder
expect 'show closed standard input' 2 '' 'desk: cannot read standard input: Bad file descriptor' closed_input show -
expect 'show with an empty path' 2 '' 'desk: cannot open : No such file or directory' "$desk" show ''
rm one.plan
