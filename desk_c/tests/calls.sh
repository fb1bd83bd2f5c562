# The library's pool_worth and pool_page, called with the bytes of files; where there are none, with a null pointer.
# shellcheck shell=sh

# Tests the worth of a set to a team: worth PLAN TEAM SET WORTH
worth() {
    expect "the worth of $3 to team $2 of $1" 0 "WORTH $4" '' "$calls" worth "$1" "$2" "$3"
}
greatest=18446744073709551615
for set in 0:0 1:1 2:1 3:1 4:0 $greatest:1; do
    worth a.plan 0 "${set%:*}" "${set#*:}"
done
for set in 0:0 1:0 2:1 3:1 4:0 $greatest:1; do
    worth a.plan 1 "${set%:*}" "${set#*:}"
done
worth zero.plan 0 $greatest 0
worth six.plan 0 0x3F 4
worth six.plan 0 0x0F 2
worth six.plan 1 0x3F 6
worth mounts.plan 0 3 1
worth all.plan 0 $greatest 64
worth all.plan 0 0x8000000000000001 2
worth loans.plan 11 $greatest 6
worth longest.plan 11 $greatest 0
worth rings.plan 3 $greatest 6
worth week.plan 0 15 4
worth week.plan 1 15 0
worth term.plan 0 15 3
worth term.plan 1 15 3
worth term.plan 2 15 2
worth term.plan 0 8 0
worth glued.plan 0 0x3F 1
worth glued.plan 1 0x3F 1
worth glued.plan 2 0x3F 1
worth glued.plan 2 0x08 0
worth glued.plan 0 0x01 0

# Tests that a sheet's page is the stretch of the sheet at this offset: page PLAN SHEET TEAM OFFSET LENGTH
page() {
    expect "the page of team $3 of $2" 0 "PAGE $4 $5 $(od -An -v -tx1 -j "$4" -N "$5" "$2" | tr -s ' \n' ' ' | tr a-f A-F |
        sed 's/^ //; s/ $//')" '' "$calls" page "$1" "$2" "$3"
}
page a.plan a.sheet 0 19 17
page a.plan a.sheet 1 36 17
page zero.plan zero.sheet 0 13 11
page six.plan six.sheet 0 31 29
page six.plan six.sheet 1 60 29
page mounts.plan mounts.sheet 0 19 17
page week.plan week.sheet 0 25 23
page week.plan week.sheet 1 48 23
page week.plan week.sheet 2 71 23
page away.plan away.sheet 1 42 20
page term.plan term.sheet 2 71 23
page glued.plan glued.sheet 2 89 29
page loans.plan dealt.sheet 0 205 203
page loans.plan dealt.sheet 11 2438 203
page rings.plan dealt.sheet 5 1220 203
page longest.plan longest.sheet 11 2438 203

# Teams that are not in the plan: no page, and every set is worth 0.
for team in 2 3 11 12 13 255 256 65535 65536 4294967295 4294967296 9223372036854775807 9223372036854775808 $greatest; do
    expect "the page of team $team of two" 0 'PAGE 0 0' '' "$calls" page a.plan a.sheet "$team"
    worth a.plan "$team" $greatest 0
done
expect 'the page of team 12 of twelve' 0 'PAGE 0 0' '' "$calls" page loans.plan dealt.sheet 12
worth loans.plan 12 $greatest 0

# Tests that Worth refuses a plan, whatever the team and the set, and that there is no page: no_worth NUMBER PLACE BYTE...
no_worth() {
    worth_number=$1 worth_place=$2
    shift 2
    hex bad.plan "$@"
    for team in 0 1 12 $greatest; do
        expect "the worth to team $team refuses $worth_number $worth_place" 0 "REFUSED $worth_number $worth_place" '' \
            "$calls" worth bad.plan "$team" $greatest
        expect "no page of team $team at refusal $worth_number $worth_place" 0 'PAGE 0 0' '' \
            "$calls" page bad.plan a.sheet "$team"
    done
    expect "the worth of the empty set refuses $worth_number $worth_place" 0 "REFUSED $worth_number $worth_place" '' \
        "$calls" worth bad.plan 0 0
}
no_worth 1 0
no_worth 2 0 01 01
no_worth 2 7 01 01 02 02 01 03 01
no_worth 3 3 01 01 02 00
no_worth 4 3 01 01 02 07
no_worth 5 5 01 01 02 02 01 05 02 00 07
no_worth 6 8 01 01 02 02 01 05 01 00 05 01 02 07
no_worth 7 27 01 01 02 02 01 02 01 02 01 02 01 02 01 02 01 02 01 02 01 02 01 02 01 02 01 02 01 03 05 07
no_worth 8 5 01 01 02 03 01 06 01 09 09 07
no_worth 9 6 01 01 02 02 01 07 00
no_worth 17 3 01 01 02 0A 00 07 00 07 00 02 01 07
no_worth 18 7 01 01 02 02 01 0C 00 07

# Refused sheets have no pages.
# Tests one: no_page NAME PLAN SHEET
no_page() {
    for team in 0 1; do
        expect "no page of team $team: $1" 0 'PAGE 0 0' '' "$calls" page "$2" "$3" $team
    done
}
no_page 'no sheet' a.plan empty
no_page 'no plan and no sheet' empty empty
no_page 'the sheet of another plan' zero.plan a.sheet
no_page 'a team below its share' six.plan unfair.sheet
for change in '0 00' '53 17' '9 00' '3 03' '39 00' '30 FF'; do
    # The change is split into words on purpose.
    # shellcheck disable=SC2086
    patch a.sheet bad.sheet $change
    no_page "the sheet with $change" a.plan bad.sheet
done
cat a.sheet one.byte >bad.sheet
no_page 'the sheet and a byte' a.plan bad.sheet
rm bad.sheet
