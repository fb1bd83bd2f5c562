# Arguments: their number, the names of commands, the numbers of teams.
# shellcheck shell=sh

usage='usage: desk build PLAN SHEET       build the sheet of a plan and write it to the file SHEET
       desk check PLAN SHEET       tell whether the sheet is right for the plan
       desk page PLAN SHEET TEAM   print one team'\''s page of an accepted sheet
       desk explain PLAN [SHEET]   print the weekly listing, or what is wrong in words
       desk write TEXT PLAN        write the plan of a text to the file PLAN
       desk show PLAN              print a plan as text, or what is wrong in words
PLAN (for write: TEXT) may be - for standard input. Exit status: 0 done, 1 refused, 2 usage, text or file trouble.'

expect 'help' 0 "$usage" '' "$desk" --help

# Tests that these arguments are answered by the usage: misused ARGUMENT...
misused() {
    expect "usage for: $*" 2 '' "$usage" "$desk" "$@"
}
misused
misused ''
misused divide a.plan a.sheet
misused build
misused build a.plan
misused build a.plan new.sheet more
misused check
misused check a.plan
misused check a.plan a.sheet more
misused page
misused page a.plan a.sheet
misused page a.plan a.sheet 0 more
misused explain
misused explain a.plan a.sheet more
misused write
misused write a.txt
misused write a.txt new.plan more
misused show
misused show a.plan more
misused WRITE a.txt new.plan
verdict 'misuse writes no sheet' test ! -e new.sheet
verdict 'misuse writes no plan' test ! -e new.plan

for team in 2 12 13 255 256 0002 4294967296 18446744073709551616 99999999999999999999999999; do
    expect "team $team is not in the plan" 1 '' \
        "desk: team $team is not in the plan, its page is empty; the plan has 2 teams, numbered from 0" \
        "$desk" page a.plan a.sheet "$team"
done
expect 'team 1 of one team' 1 '' \
    'desk: team 1 is not in the plan, its page is empty; the plan has 1 team, numbered from 0' \
    "$desk" page zero.plan zero.sheet 1
expect 'team 01 is team 1' 0 'SHARE team 1 share 0 set 0
PART instrument 0 part 0
PART instrument 1 part 0' '' "$desk" page a.plan a.sheet 01
for team in '' x -1 +1 ' 1' 1x 0x1 1.0; do
    expect "team '$team' is no number" 2 '' "desk: cannot use '$team' as a team: It is not a number" \
        "$desk" page a.plan a.sheet "$team"
done

only_plan='desk: cannot use - as the sheet: Only the plan may be standard input'
expect 'build to -' 2 '' "$only_plan" "$desk" build a.plan -
expect 'check of -' 2 '' "$only_plan" "$desk" check a.plan -
expect 'page of -' 2 '' "$only_plan" "$desk" page a.plan - 0
expect 'explain with -' 2 '' "$only_plan" "$desk" explain a.plan -
expect 'write to -' 2 '' 'desk: cannot use - as the plan: Only the text may be standard input' "$desk" write a.txt -
verdict 'no file named -' test ! -e ./-

# Every command of the usage stands in the man page, with its arguments.
# Prints the commands of the usage, a line for each.
used_commands() {
    "$desk" --help | sed -nE 's/^(usage:|      ) (desk [^ ]+( [^ ]+)*)  .*/\2/p'
}
# Tells whether a line of the man page, without its fonts, is this.
in_manual() {
    sed 's/\\f[BIR]//g' "$tests/../desk.1" | grep -qxF "$1"
}
used_commands >used.txt
verdict 'the usage has six commands' test "$(wc -l <used.txt)" -eq 6
while read -r line; do
    verdict "the man page has $line" in_manual "$line"
done <used.txt
