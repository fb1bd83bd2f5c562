# The words of refusals that no file leads to, and numbers and places that the library never answers.
# shellcheck shell=sh

expect 'words of refusal 10' 0 'REFUSED 10 54
The buffer lent for the sheet is too short; the sheet has 54 bytes.' '' "$words" 10 54 a.plan -
expect 'words of refusal 10 with a sheet' 0 'REFUSED 10 59
The buffer lent for the listing is too short; the listing has 59 bytes.' '' "$words" 10 59 a.plan a.sheet
expect 'no words for number 19' 0 'REFUSED 19 3
This program has no words for that number and place.' '' "$words" 19 3 a.plan a.sheet
expect 'no words for number 18 at a command other than END' 0 'REFUSED 18 20
This program has no words for that number and place.' '' "$words" 18 20 glued.plan -
expect 'no words for number 18 where nothing is glued' 0 'REFUSED 18 21
This program has no words for that number and place.' '' "$words" 18 21 a.plan -
expect 'no words for number 18 where the glued instruments are independent' 0 'REFUSED 18 64
This program has no words for that number and place.' '' "$words" 18 64 glued.plan -
expect 'no words for number 17 at a command without days' 0 'REFUSED 17 3
This program has no words for that number and place.' '' "$words" 17 3 a.plan a.sheet
expect 'no words for number 6 at a SHELF after a team' 0 'REFUSED 6 5
This program has no words for that number and place.' '' "$words" 6 5 late.plan -
expect 'no words for a place within a command' 0 'REFUSED 5 1
This program has no words for that number and place.' '' "$words" 5 1 a.plan -

# Commands with operands out of range, in wrong places and after END, and GLUEs among them.
hex odd.plan 01 01 FF 0C 05 03 09 0C 05 06 05 FF FE 06 06 FF FE 0C 06 0C 05 07 02 00 05 07 C8 0C 07 07 08 01 0C FE 09 FE \
    00 00 00 00 07 03 01 03 01 03 01 03 01 03 01 03 01 03 01 03 01 03 01 03 01 03 01 06 08 01 02 0C 08 05 08 00 07

# Every number with every place, on right bytes and on wrong ones, is answered without a fault.
answers_all() {
    "$words" all all "$1" "$2" >all.out 2>all.err && [ ! -s all.err ] && [ "$(wc -l <all.out)" -eq 332000 ]
}
while read -r plan sheet; do
    verdict "all words for $plan and $sheet" answers_all "$plan" "$sheet"
done <<END
a.plan a.sheet
a.plan -
six.plan unfair.sheet
longest.plan longest.sheet
mounts.plan mounts.sheet
week.plan week.sheet
away.plan away.sheet
term.plan term.sheet
glued.plan glued.sheet
loose.plan glued.sheet
odd.plan -
huge.plan huge.sheet
empty empty
bad.plan a.sheet
END
rm all.out all.err
