# Sheets: check, page and listing of good ones, and each refusal of bad ones in words.
# shellcheck shell=sh

from_input() {
    "$desk" "$@" <a.plan
}

expect 'a right sheet is accepted' 0 ACCEPTED '' "$desk" check a.plan a.sheet
expect 'a plan from standard input' 0 ACCEPTED '' from_input check - a.sheet
expect 'listing of a given sheet' 0 'TOTAL 2
TEAM 0 SHARE 1 HOLDS 0
TEAM 1 SHARE 0 HOLDS 1
POOL' '' "$desk" explain a.plan a.sheet
expect 'listing of six instruments' 0 'TOTAL 6
TEAM 0 SHARE 3 HOLDS 0 2 4
TEAM 1 SHARE 3 HOLDS 1 3 5
POOL' '' "$desk" explain six.plan six.sheet

expect 'page of team 0' 0 'SHARE team 0 share 1 set
PART instrument 0 part 0
PART instrument 1 part 1' '' "$desk" page a.plan a.sheet 0
expect 'page of team 1' 0 'SHARE team 1 share 0 set 0
PART instrument 0 part 0
PART instrument 1 part 0' '' "$desk" page a.plan a.sheet 1
expect 'page by a plan from standard input' 0 'SHARE team 1 share 0 set 0
PART instrument 0 part 0
PART instrument 1 part 0' '' from_input page - a.sheet 1
quiet 'a sheet without instruments' "$desk" build zero.plan zero.sheet
expect 'page without instruments' 0 'SHARE team 0 share 0 set' '' "$desk" page zero.plan zero.sheet 0
expect 'a right sheet of a MOUNTS team is accepted' 0 ACCEPTED '' "$desk" check mounts.plan mounts.sheet
expect 'page of a MOUNTS team' 0 'SHARE team 0 share 1 set 0 1
PART instrument 0 part 0
PART instrument 1 part 0' '' "$desk" page mounts.plan mounts.sheet 0

# Tests a sheet with one byte changed: refused_byte OFFSET BYTE WORDS
refused_byte() {
    patch a.sheet bad.sheet "$1" "$2"
    refused_sheet "byte $1 changed to $2" "$3" a.plan bad.sheet
    rm bad.sheet
}

# 11: lengths.
length_a='for this plan, with m = 2 and n = 2, it has to have 54.'
refused_sheet 'empty sheet' "REFUSED 11 0
The sheet has 0 bytes; $length_a" a.plan empty
hex one.sheet 11
refused_sheet 'sheet of one byte' "REFUSED 11 0
The sheet has 1 byte; $length_a" a.plan one.sheet
cat a.sheet empty one.sheet >long.sheet
refused_sheet 'sheet of a byte too many' "REFUSED 11 0
The sheet has 55 bytes; $length_a" a.plan long.sheet
refused_sheet 'sheet without an end' "REFUSED 11 0
The sheet has at least 2643 bytes; $length_a" a.plan /dev/zero
dd if=/dev/zero bs=1024 count=2048 2>/dev/null >huge.sheet
refused_sheet 'sheet of two megabytes' "REFUSED 11 0
The sheet has at least 2643 bytes; $length_a" a.plan huge.sheet
cat longest.sheet one.sheet >long.sheet
refused_sheet 'longest sheet and a byte' "REFUSED 11 0
The sheet has at least 2643 bytes; for this plan, with m = 64 and n = 12, it has to have 2642." longest.plan long.sheet

# 12: each kind of field.
refused_byte 0 12 'REFUSED 12 0
Byte 0 of the sheet, the command byte of HEAD, is 12; it has to be 11.'
refused_byte 1 03 'REFUSED 12 1
Byte 1 of the sheet, the m of HEAD, is 03; it has to be 02.'
refused_byte 2 01 'REFUSED 12 2
Byte 2 of the sheet, the n of HEAD, is 01; it has to be 02.'
refused_byte 4 13 'REFUSED 12 4
Byte 4 of the sheet, the command byte of GIVE for instrument 0, is 13; it has to be 12.'
refused_byte 8 00 'REFUSED 12 8
Byte 8 of the sheet, the instrument of GIVE for instrument 1, is 00; it has to be 01.'
refused_byte 9 02 'REFUSED 12 9
Byte 9 of the sheet, the team of GIVE for instrument 1, is 02; allowed is 00 to 01, or FF for the pool.'
refused_byte 10 00 'REFUSED 12 10
Byte 10 of the sheet, the command byte of BOUND, is 00; it has to be 13.'
refused_byte 11 04 'REFUSED 12 11
Byte 11 of the sheet, the set of BOUND, is 04; it has a bit that stands for none of the 2 instruments.'
refused_byte 18 80 'REFUSED 12 18
Byte 18 of the sheet, the set of BOUND, is 80; it has a bit that stands for none of the 2 instruments.'
refused_byte 19 15 'REFUSED 12 19
Byte 19 of the sheet, the command byte of SHARE of team 0, is 15; it has to be 14.'
refused_byte 37 00 'REFUSED 12 37
Byte 37 of the sheet, the team of SHARE of team 1, is 00; it has to be 01.'
refused_byte 46 01 'REFUSED 12 46
Byte 46 of the sheet, the set of SHARE of team 1, is 01; it has a bit that stands for none of the 2 instruments.'
refused_byte 30 FF 'REFUSED 12 30
Byte 30 of the sheet, the command byte of PART of team 0 for instrument 0, is FF; it has to be 15.'
refused_byte 51 02 'REFUSED 12 51
Byte 51 of the sheet, the instrument of PART of team 1 for instrument 1, is 02; it has to be 01.'
refused_byte 35 FF 'REFUSED 12 35
Byte 35 of the sheet, the part of PART of team 0 for instrument 1, is FF; allowed is 00 to 01, one part for each present team.'
refused_byte 53 17 'REFUSED 12 53
Byte 53 of the sheet, the command byte of END, is 17; it has to be 16.'

# 13 to 16.
refused_byte 9 00 'REFUSED 13 0
Team 0 is given the instruments 0 1, which are not independent for it. A LOOPS team may hold only instruments with a SPAN, none of which close a loop, and no more than its channels.'
refused_byte 6 01 'REFUSED 13 1
Team 1 is given the instruments 0 1, which are not independent for it. A CAPS team may hold only instruments that were PUT, no more of a class than its cap, and no more than its channels.'
patch mounts.sheet bad.sheet 9 00
refused_sheet 'two instruments on one mount' 'REFUSED 13 0
Team 0 is given the instruments 0 1, which are not independent for it. A MOUNTS team may hold only instruments with a FIT, each on a mount of its own that it fits, and no more than its channels.' mounts.plan bad.sheet
rm bad.sheet
refused_byte 3 03 'REFUSED 14 0
HEAD (byte 0) states the total 3, but the number of instruments given to teams is 2.'
refused_byte 9 FF 'REFUSED 14 0
HEAD (byte 0) states the total 2, but the number of instruments given to teams is 1.'
refused_byte 11 02 'REFUSED 14 0
HEAD (byte 0) states the total 2, which the set of BOUND (byte 10) does not prove greatest. The instruments outside the set, and the worths of the set to all teams, do not add up to the total.'
refused_byte 21 02 'REFUSED 15 0
The SHARE of team 0 (byte 19) states the share 2, which is not proved. One of the parts (p = 2, one for each present team) is worth less than 2 to the team, or the set does not rule out a greater share.'
refused_byte 39 00 'REFUSED 15 1
The SHARE of team 1 (byte 36) states the share 0, which is not proved. One of the parts (p = 2, one for each present team) is worth less than 0 to the team, or the set does not rule out a greater share.'
refused_sheet 'team below its share' 'REFUSED 16 0
Team 0 is given 2 instruments, fewer than its share of 3.' six.plan unfair.sheet

# The plan's refusals come before the sheet's.
hex bad.plan 01 01
refused_sheet 'refused plan with a sheet' 'REFUSED 2 0
Command 1 of the plan, START at byte 0 (01 01), is cut short; it takes 2 operands, and the file ends after 1.' bad.plan a.sheet
refused_sheet 'sheet of another plan' 'REFUSED 11 0
The sheet has 54 bytes; for this plan, with m = 0 and n = 1, it has to have 25.' zero.plan a.sheet
