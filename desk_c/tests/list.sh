# The library's pool_list: buffers of several lengths, and refusals. A byte changed outside the listing is a line of output.
# shellcheck shell=sh

# Tests a listing with buffers that are long enough and with shorter ones: listed PLAN SHEET LENGTH LISTING
listed() {
    for length in "$3" $(($3 + 1)) 512 1024; do
        expect "list $1 with $length bytes" 0 "LISTED $3
$4" '' "$list" "$1" "$2" "$length"
    done
    for length in $(($3 - 1)) 1 0; do
        expect "list $1 with $length bytes" 0 "REFUSED 10 $3" '' "$list" "$1" "$2" "$length"
    done
}

quiet 'a sheet to list of all.plan' "$desk" build all.plan all.sheet
quiet 'a sheet to list of some.plan' "$desk" build some.plan some.sheet
listed a.plan a.sheet 59 "$listing_a"
listed zero.plan zero.sheet 34 "$listing_zero"
listed some.plan some.sheet 102 "$listing_some"
listed all.plan all.sheet 218 "$listing_all"
listed week.plan week.sheet 84 "$listing_week"
listed away.plan away.sheet 61 "$listing_away"
listed term.plan term.sheet 84 "$listing_term"
listed glued.plan glued.sheet 88 "$listing_glued"
listed loans.plan dealt.sheet 450 "$listing_dealt"
listed rings.plan dealt.sheet 450 "$listing_dealt"

# Tests that a refusal of Check comes first, whatever the buffer's length: not_listed PLAN SHEET NUMBER PLACE
not_listed() {
    for length in 1024 1 0; do
        expect "list refuses $3 $4 with $length bytes" 0 "REFUSED $3 $4" '' "$list" "$1" "$2" "$length"
    done
}

# Tests a refused plan: not_listed_plan NUMBER PLACE BYTE...
not_listed_plan() {
    plan_number=$1 plan_place=$2
    shift 2
    hex bad.plan "$@"
    not_listed bad.plan a.sheet "$plan_number" "$plan_place"
}
not_listed_plan 1 0
not_listed_plan 2 0 01 01
not_listed_plan 3 3 01 01 02 00
not_listed_plan 4 3 01 01 02 07
not_listed_plan 5 5 01 01 02 02 01 05 02 00 07
not_listed_plan 6 8 01 01 02 02 01 05 01 00 05 01 02 07
not_listed_plan 2 5 01 01 02 08 01 09 00 01 00 00
not_listed_plan 3 5 01 01 02 08 01 0D 00 01 00 00 00 07
not_listed_plan 4 5 01 01 02 02 01 09 00 01 00 00 00 07
not_listed_plan 5 5 01 01 02 08 01 09 02 01 00 00 00 07
not_listed_plan 6 11 01 01 02 08 01 09 00 00 00 00 00 09 00 01 00 00 00 07
not_listed_plan 7 27 01 01 02 02 01 02 01 02 01 02 01 02 01 02 01 02 01 02 01 02 01 02 01 02 01 02 01 03 05 07
not_listed_plan 8 5 01 01 02 03 01 06 01 09 09 07
not_listed_plan 9 6 01 01 02 02 01 07 00
not_listed_plan 2 3 01 01 02 0A 00 00 00 07
not_listed_plan 4 5 01 01 02 02 01 0A 00 00 00 07 00 07
not_listed_plan 4 3 01 01 02 0B 00 00 07 00 02 01 07
not_listed_plan 5 3 01 01 02 0A 02 07 00 07 00 02 01 07
not_listed_plan 6 9 01 01 02 0A 00 00 00 07 00 0A 00 00 00 07 00 02 01 07
not_listed_plan 17 3 01 01 02 0A 00 07 00 07 00 02 01 07
not_listed_plan 17 10 01 01 02 02 01 0B 00 00 07 00 0B 08 00 07 00 07
not_listed_plan 2 5 01 01 02 02 01 0C
not_listed_plan 4 3 01 01 02 0C 00 02 01 07
not_listed_plan 5 5 01 01 02 02 01 0C 02 07
not_listed_plan 6 7 01 01 02 02 01 0C 00 0C 00 07
not_listed_plan 6 9 01 01 02 02 01 0C 00 03 01 0C 00 07
not_listed_plan 18 7 01 01 02 02 01 0C 00 07
not_listed_plan 18 7 01 01 02 02 01 0C 00 07 00

# Tests plan A's sheet with one byte changed: not_listed_byte OFFSET BYTE NUMBER PLACE
not_listed_byte() {
    patch a.sheet bad.sheet "$1" "$2"
    not_listed a.plan bad.sheet "$3" "$4"
}
not_listed a.plan empty 11 0
not_listed zero.plan a.sheet 11 0
not_listed_byte 0 00 12 0
not_listed_byte 53 17 12 53
not_listed_byte 9 00 13 0
not_listed_byte 3 03 14 0
not_listed_byte 39 00 15 1
not_listed six.plan unfair.sheet 16 0
patch week.sheet bad.sheet 50 01
not_listed week.plan bad.sheet 12 50
patch week.sheet bad.sheet 61 01
not_listed week.plan bad.sheet 12 61
patch mounts.sheet bad.sheet 9 00
not_listed mounts.plan bad.sheet 13 0
patch term.sheet bad.sheet 15 00
not_listed term.plan bad.sheet 13 0
patch glued.sheet bad.sheet 18 02
not_listed glued.plan bad.sheet 13 2
not_listed empty empty 1 0
rm bad.sheet
