# Round trips: a plan as text and as bytes again, the examples, and the longest plans.
# shellcheck shell=sh

examples=$tests/../../examples

# Tells whether the text of a plan gives its bytes, and these the text again: goes_round PLAN
goes_round() {
    "$desk" show "$1" >round.txt && "$desk" write round.txt round.plan && cmp -s "$1" round.plan &&
        "$desk" show round.plan | cmp -s round.txt -
}
for plan in a zero six mounts week away term glued full longest loans rings some teams all pool most joint fits chain; do
    verdict "round trip of $plan.plan" goes_round $plan.plan
done
verdict 'the longest plan with FITs of all mounts has 5,208 bytes' test "$(wc -c <full.plan)" -eq 5208
"$desk" show full.plan >round.txt
verdict 'its text has 922 lines' test "$(wc -l <round.txt)" -eq 922
verdict 'its text has 72,935 bytes' test "$(wc -c <round.txt)" -eq 72935

# A refused plan of whole commands, shown up to its fault and no further, is refused alike as a text.
# Tells whether write refuses the commands before the fault with a refusal of 2, and explain as well: cut_round PLAN
cut_round() {
    "$desk" show "$1" | sed '/^REFUSED/,$d' >round.txt
    "$desk" write round.txt cut.plan >round.words
    [ $? -eq 1 ] && [ ! -e cut.plan ] && grep -q '^REFUSED 2 ' round.words && grep -q ', the last command: ' round.words
}
rm -f cut.plan
hex one.plan 01 01 02 03 01 06 01 09 09 07
verdict 'what stands before a fault' cut_round one.plan

# Prints the commands of a text: without comments and blank lines, with single spaces.
commands_of() {
    sed 's/#.*//' "$1" | tr -s '\t\r ' ' ' | sed 's/^ //; s/ $//; /^$/d'
}
# Tells whether a text gives an example's plan, and that plan the text's commands: is_example NAME
is_example() {
    "$desk" write "$1.txt" round.plan && cmp -s "$1.plan" round.plan &&
        "$desk" show "$1.plan" >round.txt && commands_of "$1.txt" | cmp -s - round.txt
}
# Tells whether an example has both files: has_both NAME
has_both() {
    [ -f "$1.plan" ] && [ -f "$1.txt" ]
}
verdict 'there are examples' test -e "$examples/footbridge.plan"
for file in "$examples"/*.plan "$examples"/*.txt; do
    name=${file##*/}
    verdict "the example $name is a plan and a text" has_both "${file%.*}"
done
for file in "$examples"/*.plan; do
    verdict "the example ${file##*/}" is_example "${file%.plan}"
done
# The teams' own texts, joined.
joined_week() {
    cat "$examples"/week/week.txt "$examples"/week/team-*.txt "$examples"/week/end.txt | "$desk" write - joined.plan
}
quiet 'the texts of the teams, joined' joined_week
verdict 'their plan is the footbridge' cmp -s "$examples/footbridge.plan" joined.plan
rm -f round.txt round.plan round.words joined.plan one.plan
