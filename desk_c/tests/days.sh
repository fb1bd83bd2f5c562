# Loan days: which instruments a team can have, and each refusal of SHELF and DAYS in words.
# shellcheck shell=sh

listing_term='TOTAL 4
TEAM 0 SHARE 1 HOLDS 2
TEAM 1 SHARE 1 HOLDS 3
TEAM 2 SHARE 0 HOLDS 0 1
POOL'
expect 'a sheet with loan days is accepted' 0 ACCEPTED '' "$desk" check term.plan term.sheet
expect 'listing with loan days' 0 "$listing_term" '' "$desk" explain term.plan term.sheet
expect 'page of a team without DAYS' 0 'SHARE team 2 share 0 set 2 3
PART instrument 0 part 0
PART instrument 1 part 0
PART instrument 2 part 0
PART instrument 3 part 0' '' "$desk" page term.plan term.sheet 2

# Tests a plan of one instrument and one team, by how many instruments the team gets: one NAME COUNT BYTE...
one() {
    one_name=$1 one_pool=$((1 - $2))
    one_words="TOTAL $2
TEAM 0 SHARE $2 HOLDS$([ "$2" -eq 0 ] || echo ' 0')
POOL$([ $one_pool -eq 0 ] || echo ' 0')"
    shift 2
    hex one.plan 01 01 01 "$@" 07
    expect "days: $one_name" 0 "$one_words" '' "$desk" explain one.plan
}
one 'equal ends' 1 0A 00 07 00 0E 00 02 09 0B 07 00 0E 00 04 00 01 05 00 00
one 'from a day early' 0 0A 00 07 00 0E 00 02 09 0B 06 00 0E 00 04 00 01 05 00 00
one 'to a day late' 0 0A 00 07 00 0E 00 02 09 0B 07 00 0F 00 04 00 01 05 00 00
one 'a day less at either end' 1 0A 00 07 00 0E 00 03 09 06 00 01 02 0B 08 00 0D 00
one 'the low byte first' 1 0A 00 01 00 00 02 08 09 0B 00 01 02 01 09 00 01 00 00 00
one 'the low byte first, from a day early' 0 0A 00 01 01 00 02 08 09 0B 00 01 02 01 09 00 01 00 00 00
one 'no DAYS, a SHELF of all days' 1 0A 00 00 00 FF FF 03 09 06 00 01 02
one 'no DAYS, a SHELF of a day less' 0 0A 00 00 00 FE FF 03 09 06 00 01 02
one 'no DAYS, a SHELF from day 1' 0 0A 00 01 00 FF FF 08 09 09 00 01 00 00 00
one 'no SHELF, DAYS of all days' 1 08 09 09 00 01 00 00 00 0B 00 00 FF FF
one 'no SHELF, DAYS of one day' 1 02 09 04 00 01 0B FE FF FF FF 05 00 00

# 13: the lowest instrument that is not on the shelf on the team's days is named, with both days.
# Tests the term's sheet with one byte changed: refused_term OFFSET BYTE WORDS
refused_term() {
    patch term.sheet bad.sheet "$1" "$2"
    refused_sheet "the term's byte $1 changed to $2" "$3" term.plan bad.sheet
    rm bad.sheet
}
refused_term 15 00 "REFUSED 13 0
Team 0 is given the instruments 2 3, which are not independent for it. The team's days, 0 to 7, do not lie within the shelf days of instrument 3, 7 to 14."
refused_term 12 01 "REFUSED 13 1
Team 1 is given the instruments 2 3, which are not independent for it. The team's days, 7 to 14, do not lie within the shelf days of instrument 2, 0 to 7."
refused_term 15 02 "REFUSED 13 2
Team 2 is given the instruments 0 1 3, which are not independent for it. The team's days, 0 to 65535, do not lie within the shelf days of instrument 3, 7 to 14."
refused_term 17 0F 'REFUSED 14 0
HEAD (byte 0) states the total 4, which the set of BOUND (byte 16) does not prove greatest. The instruments outside the set, and the worths of the set to all teams, do not add up to the total.'
refused_term 74 00 'REFUSED 15 2
The SHARE of team 2 (byte 71) states the share 0, which is not proved. One of the parts (p = 3, one for each present team) is worth less than 0 to the team, or the set does not rule out a greater share.'

refused_plan 'SHELF first' 'REFUSED 1 0
Command 1 of the plan, at byte 0, is 0A; it has to be START (01).' 0A 00 00 00 07 00 02 01 07
refused_plan 'SHELF cut short' 'REFUSED 2 3
Command 2 of the plan, SHELF at byte 3 (0A 00 00 00 07), is cut short; it takes 5 bytes of operands, and the file ends after 4.' \
    01 01 02 0A 00 00 00 07
refused_plan 'DAYS without operands' 'REFUSED 2 5
Command 3 of the plan, DAYS at byte 5 (0B), is cut short; it takes 4 bytes of operands, and the file ends after 0.' \
    01 01 02 02 01 0B
refused_plan 'no END after SHELF' 'REFUSED 2 9
The plan ends at byte 9 without END (07); its last command is command 2, SHELF at byte 3.' 01 01 02 0A 00 00 00 07 00
refused_plan 'SHELF after a team' 'REFUSED 4 7
Command 4 of the plan, SHELF at byte 7 (0A 00 00 00 07 00), is in the wrong place; it belongs before the first team, and team 1 is open.' \
    01 01 02 02 01 03 01 0A 00 00 00 07 00 07
refused_plan 'SHELF after a team, with other faults' 'REFUSED 4 5
Command 3 of the plan, SHELF at byte 5 (0A 02 07 00 07 00), is in the wrong place; it belongs before the first team, and team 0 is open.' \
    01 01 02 02 01 0A 02 07 00 07 00 07
refused_plan 'DAYS without a team' 'REFUSED 4 3
Command 2 of the plan, DAYS at byte 3 (0B 00 00 07 00), is in the wrong place; it belongs to a team, and no team is open.' \
    01 01 02 0B 00 00 07 00 02 01 07
refused_plan 'PUT after SHELF' 'REFUSED 4 9
Command 3 of the plan, PUT at byte 9 (05 00 00), is in the wrong place; it belongs to a CAPS team, and no team is open.' \
    01 01 02 0A 00 00 00 07 00 05 00 00 07
refused_plan 'SHELF of an unknown instrument' 'REFUSED 5 3
Command 2 of the plan, SHELF at byte 3 (0A 02 07 00 07 00), has instrument 2; the plan has the instruments 0 to 1.' \
    01 01 02 0A 02 07 00 07 00 02 01 07
refused_plan 'SHELF where there are no instruments' 'REFUSED 5 3
Command 2 of the plan, SHELF at byte 3 (0A 00 00 00 07 00), has instrument 0; the plan has no instruments.' \
    01 01 00 0A 00 00 00 07 00 02 01 07
refused_plan 'a second SHELF' 'REFUSED 6 15
Command 4 of the plan, SHELF at byte 15 (0A 01 00 00 FF FF), names the shelf days of instrument 1 a second time; the first time is command 2 at byte 3.' \
    01 01 02 0A 01 00 00 FF FF 0A 00 00 00 07 00 0A 01 00 00 FF FF 02 01 07
refused_plan 'a second DAYS' 'REFUSED 6 17
Command 6 of the plan, DAYS at byte 17 (0B 01 00 09 00), names the days of team 1 a second time; the first time is command 5 at byte 12.' \
    01 01 02 02 01 0B 00 00 07 00 03 01 0B 00 00 07 00 0B 01 00 09 00 07
refused_plan 'SHELF with from equal to to' 'REFUSED 17 3
Command 2 of the plan, SHELF at byte 3 (0A 01 07 00 07 00), has from 7 and to 7; from has to be below to.' \
    01 01 02 0A 01 07 00 07 00 02 01 07
refused_plan 'SHELF with from above to' 'REFUSED 17 9
Command 3 of the plan, SHELF at byte 9 (0A 01 00 02 FF 01), has from 512 and to 511; from has to be below to.' \
    01 01 02 0A 00 00 00 07 00 0A 01 00 02 FF 01 02 01 07
refused_plan 'DAYS with from equal to to' 'REFUSED 17 5
Command 3 of the plan, DAYS at byte 5 (0B FF FF FF FF), has from 65535 and to 65535; from has to be below to.' \
    01 01 02 08 01 0B FF FF FF FF 07
refused_plan 'a second SHELF with from above to' 'REFUSED 17 9
Command 3 of the plan, SHELF at byte 9 (0A 01 08 00 07 00), has from 8 and to 7; from has to be below to.' \
    01 01 02 0A 01 00 00 07 00 0A 01 08 00 07 00 02 01 07
refused_plan 'a second DAYS with from above to' 'REFUSED 17 10
Command 4 of the plan, DAYS at byte 10 (0B 00 01 01 00), has from 256 and to 1; from has to be below to.' \
    01 01 02 03 01 0B 00 00 07 00 0B 00 01 01 00 07
hex late.plan 01 01 02 02 01 0A 00 00 00 07 00 07
