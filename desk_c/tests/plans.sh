# Plans: the listing of good ones, and each refusal of bad ones in words.
# shellcheck shell=sh

listing_a='TOTAL 2
TEAM 0 SHARE 1 HOLDS 0
TEAM 1 SHARE 0 HOLDS 1
POOL'

from_input() {
    "$desk" "$@" <a.plan
}

expect 'listing of plan A' 0 "$listing_a" '' "$desk" explain a.plan
expect 'listing of a plan from standard input' 0 "$listing_a" '' from_input explain -
expect 'listing without instruments' 0 'TOTAL 0
TEAM 0 SHARE 0 HOLDS
POOL' '' "$desk" explain zero.plan
hex pool.plan 01 01 03 02 00 07
expect 'listing of a full pool' 0 'TOTAL 0
TEAM 0 SHARE 0 HOLDS
POOL 0 1 2' '' "$desk" explain pool.plan

hex most.plan 01 01 40 02 00 07
quiet '64 instruments are accepted' "$desk" build most.plan most.sheet
expect '64 instruments pass the check' 0 ACCEPTED '' "$desk" check most.plan most.sheet
hex joint.plan 01 01 02 03 02 06 00 00 27 06 01 27 01 07
expect 'joint 39 is accepted, second and first' 0 'TOTAL 2
TEAM 0 SHARE 2 HOLDS 0 1
POOL' '' "$desk" explain joint.plan
expect 'two instruments on one mount' 0 'TOTAL 1
TEAM 0 SHARE 1 HOLDS 0
POOL 1' '' "$desk" explain mounts.plan mounts.sheet
hex fits.plan 01 01 04 08 02 09 03 00 00 00 80 09 01 00 00 00 00 09 02 FF FF FF FF 07
expect 'FIT with one bit, no bits and all bits, and no FIT' 0 'TOTAL 2
TEAM 0 SHARE 2 HOLDS 2 3
POOL 0 1' '' "$desk" explain fits.plan
hex chain.plan 01 01 05 08 09 09 00 03 00 00 00 09 01 06 00 00 00 09 02 0C 00 00 00 09 03 01 00 00 00 07
expect 'three instruments that make room for a fourth' 0 'TOTAL 4
TEAM 0 SHARE 4 HOLDS 0 1 2 3
POOL 4' '' "$desk" explain chain.plan

refused_plan 'empty plan' 'REFUSED 1 0
The plan is empty; command 1, at byte 0, has to be START (01).'
refused_plan 'no START' 'REFUSED 1 0
Command 1 of the plan, at byte 0, is 02; it has to be START (01).' 02 01 07
refused_plan 'START cut short' 'REFUSED 2 0
Command 1 of the plan, START at byte 0 (01 01), is cut short; it takes 2 operands, and the file ends after 1.' 01 01
refused_plan 'CAPS cut short' 'REFUSED 2 3
Command 2 of the plan, CAPS at byte 3 (02), is cut short; it takes 1 operand, and the file ends after 0.' 01 01 02 02
refused_plan 'MOUNTS cut short' 'REFUSED 2 3
Command 2 of the plan, MOUNTS at byte 3 (08), is cut short; it takes 1 operand, and the file ends after 0.' 01 01 02 08
refused_plan 'FIT without operands' 'REFUSED 2 5
Command 3 of the plan, FIT at byte 5 (09), is cut short; it takes 5 bytes of operands, and the file ends after 0.' \
    01 01 02 08 01 09
refused_plan 'FIT cut short' 'REFUSED 2 5
Command 3 of the plan, FIT at byte 5 (09 00 01 00 00), is cut short; it takes 5 bytes of operands, and the file ends after 4.' \
    01 01 02 08 01 09 00 01 00 00
refused_plan 'no END after FIT' 'REFUSED 2 11
The plan ends at byte 11 without END (07); its last command is command 3, FIT at byte 5.' 01 01 02 08 01 09 00 01 00 00 07
refused_plan 'no END' 'REFUSED 2 7
The plan ends at byte 7 without END (07); its last command is command 3, LOOPS at byte 5.' 01 01 02 02 01 03 01
refused_plan 'no command' 'REFUSED 3 5
Command 3 of the plan, at byte 5, is 0D, which is no command; commands are 01 to 0C.' 01 01 02 02 01 0D
refused_plan 'byte 00' 'REFUSED 3 3
Command 2 of the plan, at byte 3, is 00, which is no command; commands are 01 to 0C.' 01 01 02 00
refused_plan 'second START' 'REFUSED 4 3
Command 2 of the plan, START at byte 3 (01 01 02), is a second START; START stands first and once.' 01 01 02 01 01 02 07
refused_plan 'END without teams' 'REFUSED 4 3
Command 2 of the plan, END at byte 3 (07), ends a plan without teams; a plan has 1 to 12 teams.' 01 01 02 07
refused_plan 'PUT without a team' 'REFUSED 4 3
Command 2 of the plan, PUT at byte 3 (05 00 00), is in the wrong place; it belongs to a CAPS team, and no team is open.' \
    01 01 02 05 00 00 07
refused_plan 'CLASS in a LOOPS team' 'REFUSED 4 7
Command 4 of the plan, CLASS at byte 7 (04 00 01), is in the wrong place; it belongs to a CAPS team, and team 1 is a LOOPS team.' \
    01 01 02 02 01 03 01 04 00 01 07
refused_plan 'SPAN in a CAPS team' 'REFUSED 4 5
Command 3 of the plan, SPAN at byte 5 (06 00 01 02), is in the wrong place; it belongs to a LOOPS team, and team 0 is a CAPS team.' \
    01 01 02 02 01 06 00 01 02 07
refused_plan 'FIT without a team' 'REFUSED 4 3
Command 2 of the plan, FIT at byte 3 (09 00 01 00 00 00), is in the wrong place; it belongs to a MOUNTS team, and no team is open.' \
    01 01 02 09 00 01 00 00 00 07
refused_plan 'FIT in a CAPS team' 'REFUSED 4 5
Command 3 of the plan, FIT at byte 5 (09 00 01 00 00 00), is in the wrong place; it belongs to a MOUNTS team, and team 0 is a CAPS team.' \
    01 01 02 02 01 09 00 01 00 00 00 07
refused_plan 'FIT in a LOOPS team' 'REFUSED 4 7
Command 4 of the plan, FIT at byte 7 (09 02 01 00 00 00), is in the wrong place; it belongs to a MOUNTS team, and team 1 is a LOOPS team.' \
    01 01 02 08 01 03 01 09 02 01 00 00 00 07
refused_plan 'CLASS in a MOUNTS team' 'REFUSED 4 5
Command 3 of the plan, CLASS at byte 5 (04 00 01), is in the wrong place; it belongs to a CAPS team, and team 0 is a MOUNTS team.' \
    01 01 02 08 01 04 00 01 07
refused_plan 'PUT in a MOUNTS team' 'REFUSED 4 5
Command 3 of the plan, PUT at byte 5 (05 02 00), is in the wrong place; it belongs to a CAPS team, and team 0 is a MOUNTS team.' \
    01 01 02 08 01 05 02 00 07
refused_plan 'SPAN in a MOUNTS team' 'REFUSED 4 5
Command 3 of the plan, SPAN at byte 5 (06 00 01 01), is in the wrong place; it belongs to a LOOPS team, and team 0 is a MOUNTS team.' \
    01 01 02 08 01 06 00 01 01 07
refused_plan 'version' 'REFUSED 5 0
Command 1 of the plan, START at byte 0 (01 02 02), has version 2; allowed is 1.' 01 02 02 02 01 07
refused_plan '65 instruments' 'REFUSED 5 0
Command 1 of the plan, START at byte 0 (01 01 41), has instruments 65; allowed is 0 to 64.' 01 01 41 02 00 07
refused_plan 'CLASS with class 16' 'REFUSED 5 5
Command 3 of the plan, CLASS at byte 5 (04 10 01), has class 16; allowed is 0 to 15.' 01 01 02 02 01 04 10 01 07
refused_plan 'PUT of an unknown instrument' 'REFUSED 5 5
Command 3 of the plan, PUT at byte 5 (05 02 00), has instrument 2; the plan has the instruments 0 to 1.' \
    01 01 02 02 01 05 02 00 07
refused_plan 'PUT with class 16' 'REFUSED 5 5
Command 3 of the plan, PUT at byte 5 (05 01 10), has class 16; allowed is 0 to 15.' 01 01 02 02 01 05 01 10 07
refused_plan 'SPAN where there are no instruments' 'REFUSED 5 5
Command 3 of the plan, SPAN at byte 5 (06 00 01 02), has instrument 0; the plan has no instruments.' \
    01 01 00 03 01 06 00 01 02 07
refused_plan 'second joint 40' 'REFUSED 5 5
Command 3 of the plan, SPAN at byte 5 (06 00 00 28), has joint 40; allowed is 0 to 39.' 01 01 01 03 01 06 00 00 28 07
refused_plan 'first joint 40' 'REFUSED 5 5
Command 3 of the plan, SPAN at byte 5 (06 00 28 00), has joint 40; allowed is 0 to 39.' 01 01 01 03 01 06 00 28 00 07
refused_plan 'second joint 63' 'REFUSED 5 5
Command 3 of the plan, SPAN at byte 5 (06 00 27 3F), has joint 63; allowed is 0 to 39.' 01 01 01 03 01 06 00 27 3F 07
refused_plan 'first joint 63' 'REFUSED 5 5
Command 3 of the plan, SPAN at byte 5 (06 00 3F 27), has joint 63; allowed is 0 to 39.' 01 01 01 03 01 06 00 3F 27 07
refused_plan 'equal joints out of range' 'REFUSED 5 5
Command 3 of the plan, SPAN at byte 5 (06 00 28 28), has joint 40; allowed is 0 to 39.' 01 01 01 03 01 06 00 28 28 07
refused_plan 'an instrument spanned twice, the second time to joint 40' 'REFUSED 5 9
Command 4 of the plan, SPAN at byte 9 (06 00 01 28), has joint 40; allowed is 0 to 39.' 01 01 01 03 01 06 00 00 01 06 00 01 28 07
refused_plan 'FIT of an unknown instrument' 'REFUSED 5 5
Command 3 of the plan, FIT at byte 5 (09 02 FF FF FF FF), has instrument 2; the plan has the instruments 0 to 1.' \
    01 01 02 08 01 09 02 FF FF FF FF 07
refused_plan 'FIT where there are no instruments' 'REFUSED 5 5
Command 3 of the plan, FIT at byte 5 (09 00 00 00 00 00), has instrument 0; the plan has no instruments.' \
    01 01 00 08 01 09 00 00 00 00 00 07
refused_plan 'class capped twice' 'REFUSED 6 13
Command 6 of the plan, CLASS at byte 13 (04 03 02), caps class 3 a second time in team 1; the first time is command 4 at byte 7.' \
    01 01 02 02 01 02 01 04 03 01 04 02 01 04 03 02 07
refused_plan 'instrument put twice' 'REFUSED 6 11
Command 5 of the plan, PUT at byte 11 (05 01 02), names instrument 1 a second time in team 0; the first time is command 3 at byte 5.' \
    01 01 02 02 01 05 01 00 05 00 00 05 01 02 07
refused_plan 'instrument spanned twice' 'REFUSED 6 19
Command 7 of the plan, SPAN at byte 19 (06 01 05 04), names instrument 1 a second time in team 1; the first time is command 6 at byte 15.' \
    01 01 02 03 01 06 01 02 03 03 09 06 00 01 02 06 01 07 08 06 01 05 04 07
refused_plan 'instrument fitted twice' 'REFUSED 6 17
Command 5 of the plan, FIT at byte 17 (09 03 02 00 00 00), names instrument 3 a second time in team 0; the first time is command 3 at byte 5.' \
    01 01 04 08 01 09 03 01 00 00 00 09 00 01 00 00 00 09 03 02 00 00 00 07
refused_plan 'instrument fitted twice, first with no bits' 'REFUSED 6 19
Command 6 of the plan, FIT at byte 19 (09 00 00 00 00 00), names instrument 0 a second time in team 1; the first time is command 5 at byte 13.' \
    01 01 01 08 01 09 00 01 00 00 00 08 01 09 00 00 00 00 00 09 00 00 00 00 00 07
refused_plan 'thirteenth team of mounts' 'REFUSED 7 27
Command 14 of the plan, MOUNTS at byte 27 (08 05), opens team 12; a plan has at most 12 teams, 0 to 11.' \
    01 01 02 02 01 08 01 03 01 08 01 02 01 08 01 02 01 08 01 02 01 08 01 02 01 08 01 08 05 07
refused_plan 'thirteenth team' 'REFUSED 7 27
Command 14 of the plan, LOOPS at byte 27 (03 05), opens team 12; a plan has at most 12 teams, 0 to 11.' \
    01 01 02 02 01 02 01 02 01 02 01 02 01 02 01 02 01 02 01 02 01 02 01 02 01 02 01 03 05 07
refused_plan 'equal joints' 'REFUSED 8 5
Command 3 of the plan, SPAN at byte 5 (06 01 09 09), joins joint 9 to itself; its two joints have to differ.' \
    01 01 02 03 01 06 01 09 09 07
refused_plan 'bytes after END' 'REFUSED 9 6
The plan goes on at byte 6 after command 3, END at byte 5; nothing may follow END.' 01 01 02 02 01 07 00

# Long plans: the longest one, with more bytes after it, and files without an end.
verdict 'the longest plan has 5,208 bytes' test "$(wc -c <longest.plan)" -eq 5208
quiet 'the longest plan is built' "$desk" build longest.plan longest.sheet
verdict 'the longest sheet has 2,642 bytes' test "$(wc -c <longest.sheet)" -eq 2642
expect 'the longest sheet is accepted' 0 ACCEPTED '' "$desk" check longest.plan longest.sheet
verdict 'the longest plan without GLUEs has 5,080 bytes' test "$(wc -c <loans.plan)" -eq 5080
quiet 'the longest plan without GLUEs is built' "$desk" build loans.plan loans.sheet
expect 'the sheet of the longest plan without GLUEs is accepted' 0 ACCEPTED '' "$desk" check loans.plan loans.sheet
quiet 'twelve LOOPS teams are built' "$desk" build rings.plan rings.sheet
expect 'the sheet of twelve LOOPS teams is accepted' 0 ACCEPTED '' "$desk" check rings.plan rings.sheet

after_longest='REFUSED 9 5208
The plan goes on at byte 5208 after command 922, END at byte 5207; nothing may follow END.'
hex one.byte 00
cat longest.plan one.byte >long.plan
expect 'the longest plan and a byte' 1 "$after_longest" '' "$desk" explain long.plan
cat longest.plan longest.plan >long.plan
expect 'twice the longest plan' 1 "$after_longest" '' "$desk" explain long.plan
cat longest.plan >huge.plan
dd if=/dev/zero bs=1024 count=2048 2>/dev/null >>huge.plan
expect 'a plan of two megabytes' 1 "$after_longest" '' "$desk" explain huge.plan
expect 'a plan without an end' 1 'REFUSED 1 0
Command 1 of the plan, at byte 0, is 00; it has to be START (01).' '' "$desk" explain /dev/zero
dd if=longest.plan of=cut.plan bs=5207 count=1 2>/dev/null
expect 'the longest plan without END' 1 'REFUSED 2 5207
The plan ends at byte 5207 without END (07); its last command is command 921, GLUE at byte 5205.' '' "$desk" explain cut.plan
dd if=longest.plan of=cut.plan bs=5206 count=1 2>/dev/null
expect 'the longest plan, cut within its last GLUE' 1 'REFUSED 2 5205
Command 921 of the plan, GLUE at byte 5205 (0C), is cut short; it takes 1 operand, and the file ends after 0.' \
    '' "$desk" explain cut.plan
dd if=loans.plan of=cut.plan bs=5078 count=1 2>/dev/null
expect 'the longest plan without GLUEs, cut within its last DAYS' 1 'REFUSED 2 5074
Command 857 of the plan, DAYS at byte 5074 (0B 07 00 0E), is cut short; it takes 4 bytes of operands, and the file ends after 3.' \
    '' "$desk" explain cut.plan
