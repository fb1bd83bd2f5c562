# Teams away for the week: their pages, the words for a wrong byte in them, and parts counted by the teams present.
# shellcheck shell=sh

listing_week='TOTAL 4
TEAM 0 SHARE 2 HOLDS 0 1
TEAM 1 SHARE 0 HOLDS
TEAM 2 SHARE 2 HOLDS 2 3
POOL'
listing_away='TOTAL 0
TEAM 0 SHARE 0 HOLDS
TEAM 1 SHARE 0 HOLDS
POOL 0 1 2'
expect 'a sheet with a team away is accepted' 0 ACCEPTED '' "$desk" check week.plan week.sheet
expect 'listing with a team away' 0 "$listing_week" '' "$desk" explain week.plan week.sheet
expect 'page of a team that is away' 0 'SHARE team 1 share 0 set
PART instrument 0 part 0
PART instrument 1 part 0
PART instrument 2 part 0
PART instrument 3 part 0' '' "$desk" page week.plan week.sheet 1
expect 'page of a team that is present' 0 'SHARE team 2 share 2 set
PART instrument 0 part 0
PART instrument 1 part 0
PART instrument 2 part 1
PART instrument 3 part 1' '' "$desk" page week.plan week.sheet 2
expect 'a sheet with all teams away is accepted' 0 ACCEPTED '' "$desk" check away.plan away.sheet
expect 'listing with all teams away' 0 "$listing_away" '' "$desk" explain away.plan
quiet 'build with all teams away' "$desk" build away.plan built.sheet
verdict 'the one right sheet with all teams away' cmp -s away.sheet built.sheet
rm built.sheet

# Tests the week's sheet with one byte changed: refused_week OFFSET BYTE WORDS
refused_week() {
    patch week.sheet bad.sheet "$1" "$2"
    refused_sheet "the week's byte $1 changed to $2" "$3" week.plan bad.sheet
    rm bad.sheet
}

zero='team 1 is away (0 channels), so it has to be 00.'
refused_week 50 01 "REFUSED 12 50
Byte 50 of the sheet, the share of SHARE of team 1, is 01; $zero"
for offset in 51 52 53 54 55 56 57 58; do
    refused_week $offset 01 "REFUSED 12 $offset
Byte $offset of the sheet, the set of SHARE of team 1, is 01; $zero"
done
for instrument in 0 1 2 3; do
    offset=$((61 + 3 * instrument))
    refused_week $offset 01 "REFUSED 12 $offset
Byte $offset of the sheet, the part of PART of team 1 for instrument $instrument, is 01; $zero"
done
refused_week 48 13 'REFUSED 12 48
Byte 48 of the sheet, the command byte of SHARE of team 1, is 13; it has to be 14.'
refused_week 49 00 'REFUSED 12 49
Byte 49 of the sheet, the team of SHARE of team 1, is 00; it has to be 01.'
refused_week 63 00 'REFUSED 12 63
Byte 63 of the sheet, the instrument of PART of team 1 for instrument 1, is 00; it has to be 01.'

# Two of three teams are present, so that their parts are 0 and 1; GIVE may still name each of the three.
refused_week 38 02 'REFUSED 12 38
Byte 38 of the sheet, the part of PART of team 0 for instrument 0, is 02; allowed is 00 to 01, one part for each present team.'
refused_week 6 03 'REFUSED 12 6
Byte 6 of the sheet, the team of GIVE for instrument 0, is 03; allowed is 00 to 02, or FF for the pool.'
refused_week 73 01 'REFUSED 15 2
The SHARE of team 2 (byte 71) states the share 1, which is not proved. One of the parts (p = 2, one for each present team) is worth less than 1 to the team, or the set does not rule out a greater share.'
refused_week 6 01 'REFUSED 13 1
Team 1 is given the instruments 0, which are not independent for it. A LOOPS team may hold only instruments with a SPAN, none of which close a loop, and no more than its channels.'

# Tests the sheet with all teams away, one byte changed: refused_away OFFSET BYTE WORDS
refused_away() {
    patch away.sheet bad.sheet "$1" "$2"
    refused_sheet "byte $1 changed to $2, all teams away" "$3" away.plan bad.sheet
    rm bad.sheet
}
refused_away 24 01 'REFUSED 12 24
Byte 24 of the sheet, the share of SHARE of team 0, is 01; team 0 is away (0 channels), so it has to be 00.'
refused_away 45 07 'REFUSED 12 45
Byte 45 of the sheet, the set of SHARE of team 1, is 07; team 1 is away (0 channels), so it has to be 00.'
refused_away 41 01 'REFUSED 12 41
Byte 41 of the sheet, the part of PART of team 0 for instrument 2, is 01; team 0 is away (0 channels), so it has to be 00.'
