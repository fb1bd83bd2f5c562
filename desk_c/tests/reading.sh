# Files that cannot be read, and files that are no plans or sheets.
# shellcheck shell=sh

mkdir folder

# Tests every command with a plan that cannot be read: bad_plan NAME PATH MESSAGE
bad_plan() {
    expect "build: $1" 2 '' "desk: $3" "$desk" build "$2" new.sheet
    expect "check: $1" 2 '' "desk: $3" "$desk" check "$2" a.sheet
    expect "page: $1" 2 '' "desk: $3" "$desk" page "$2" a.sheet 0
    expect "explain: $1" 2 '' "desk: $3" "$desk" explain "$2"
    verdict "no sheet: $1" test ! -e new.sheet
}

# Tests every command with a sheet that cannot be read: bad_sheet NAME PATH MESSAGE
bad_sheet() {
    expect "check: $1" 2 '' "desk: $3" "$desk" check a.plan "$2"
    expect "page: $1" 2 '' "desk: $3" "$desk" page a.plan "$2" 0
    expect "explain: $1" 2 '' "desk: $3" "$desk" explain a.plan "$2"
}

bad_plan 'missing plan' missing 'cannot open missing: No such file or directory'
bad_plan 'plan in a missing folder' missing/plan 'cannot open missing/plan: No such file or directory'
bad_plan 'plan is a folder' folder 'cannot read folder: Is a directory'
bad_plan 'plan below a file' a.sheet/plan 'cannot open a.sheet/plan: Not a directory'
bad_sheet 'missing sheet' missing 'cannot open missing: No such file or directory'
bad_sheet 'sheet is a folder' folder 'cannot read folder: Is a directory'
bad_sheet 'sheet below a file' a.plan/sheet 'cannot open a.plan/sheet: Not a directory'

# A file that opens and then fails, for every user.
if [ -r /proc/self/mem ]; then
    bad_plan 'plan with a read error' /proc/self/mem 'cannot read /proc/self/mem: Input/output error'
    bad_sheet 'sheet with a read error' /proc/self/mem 'cannot read /proc/self/mem: Input/output error'
else
    skip 'read errors: there is no /proc/self/mem'
fi

closed_input() {
    "$desk" "$@" <&-
}
folder_input() {
    "$desk" "$@" <folder
}
expect 'closed standard input' 2 '' 'desk: cannot read standard input: Bad file descriptor' closed_input explain -
expect 'folder as standard input' 2 '' 'desk: cannot read standard input: Is a directory' folder_input explain -
expect 'empty standard input' 1 'REFUSED 1 0
The plan is empty; command 1, at byte 0, has to be START (01).' '' "$desk" explain -

# A plan that comes in pieces is read whole.
in_pieces() {
    { dd bs=5 count=1 2>/dev/null && sleep 1 && cat; } <a.plan | "$desk" check - a.sheet
}
expect 'plan in pieces' 0 ACCEPTED '' in_pieces

# Garbage: a program and a script are no plans and no sheets.
expect 'a program as the plan' 1 'REFUSED 1 0
Command 1 of the plan, at byte 0, is 7F; it has to be START (01).' '' "$desk" explain "$desk"
expect 'a text as the plan' 1 'REFUSED 1 0
Command 1 of the plan, at byte 0, is 23; it has to be START (01).' '' "$desk" explain "$tests/run.sh"
expect 'a program as the sheet' 1 'REFUSED 11 0
The sheet has at least 2643 bytes; for this plan, with m = 2 and n = 2, it has to have 54.' '' "$desk" check a.plan "$desk"
cat a.plan "$desk" >bad.plan
expect 'a program after the plan' 1 'REFUSED 9 22
The plan goes on at byte 22 after command 8, END at byte 21; nothing may follow END.' '' "$desk" explain bad.plan
dd if="$desk" of=bad.sheet bs=54 count=1 2>/dev/null
expect 'a program cut to the length of a sheet' 1 'REFUSED 12 0
Byte 0 of the sheet, the command byte of HEAD, is 7F; it has to be 11.' '' "$desk" check a.plan bad.sheet
