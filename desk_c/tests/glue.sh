# Glued instruments: what they leave to the teams, the words for a sheet that gives one, and each refusal of GLUE in words.
# shellcheck shell=sh

listing_glued='TOTAL 3
TEAM 0 SHARE 1 HOLDS 3
TEAM 1 SHARE 0 HOLDS 2
TEAM 2 SHARE 0 HOLDS 1
POOL 0 4 5'
expect 'a sheet with glued instruments is accepted' 0 ACCEPTED '' "$desk" check glued.plan glued.sheet
expect 'listing with glued instruments' 0 "$listing_glued" '' "$desk" explain glued.plan glued.sheet
expect 'listing of a plan with glued instruments' 0 "$listing_glued" '' "$desk" explain glued.plan
expect 'page of a team with a glued instrument' 0 'SHARE team 0 share 1 set 0 1 2 3 4 5
PART instrument 0 part 0
PART instrument 1 part 0
PART instrument 2 part 1
PART instrument 3 part 2
PART instrument 4 part 0
PART instrument 5 part 0' '' "$desk" page glued.plan glued.sheet 0

# Tests the listing of a plan: lists NAME LISTING BYTE...
lists() {
    lists_name=$1 lists_listing=$2
    shift 2
    hex one.plan "$@"
    expect "glue: $lists_name" 0 "$lists_listing" '' "$desk" explain one.plan
}
lists 'an instrument for the only channel' 'TOTAL 0
TEAM 0 SHARE 0 HOLDS
POOL 0 1' 01 01 02 02 01 04 00 02 05 00 00 05 01 00 0C 00 07
lists 'a second channel' 'TOTAL 1
TEAM 0 SHARE 1 HOLDS 1
POOL 0' 01 01 02 02 02 04 00 02 05 00 00 05 01 00 0C 00 07
lists 'a full class, and room in another' 'TOTAL 1
TEAM 0 SHARE 1 HOLDS 2
POOL 0 1' 01 01 03 02 03 04 00 01 04 01 01 05 00 00 05 01 00 05 02 01 0C 00 07
lists 'a loop with a glued gauge' 'TOTAL 0
TEAM 0 SHARE 0 HOLDS
POOL 0 1' 01 01 02 03 09 06 00 01 02 06 01 02 01 0C 01 07
lists 'a loop with two glued gauges' 'TOTAL 0
TEAM 0 SHARE 0 HOLDS
POOL 0 1 2' 01 01 03 03 09 06 00 01 02 06 01 02 03 06 02 03 01 0C 02 0C 00 07
lists 'a glued instrument that makes room on its mount' 'TOTAL 1
TEAM 0 SHARE 1 HOLDS 0
POOL 1' 01 01 02 08 09 0C 01 09 00 01 00 00 00 09 01 03 00 00 00 07
lists 'no second mount' 'TOTAL 0
TEAM 0 SHARE 0 HOLDS
POOL 0 1' 01 01 02 08 09 09 00 01 00 00 00 09 01 01 00 00 00 0C 01 07
lists 'GLUE before PUT' 'TOTAL 0
TEAM 0 SHARE 0 HOLDS
POOL 0' 01 01 01 02 01 0C 00 05 00 00 04 00 01 07
lists 'GLUE before SPAN' 'TOTAL 0
TEAM 0 SHARE 0 HOLDS
POOL 0' 01 01 01 03 01 0C 00 06 00 01 02 07
lists 'GLUE before FIT' 'TOTAL 0
TEAM 0 SHARE 0 HOLDS
POOL 0' 01 01 01 08 01 0C 00 09 00 01 00 00 00 07
lists 'GLUE before DAYS, which lie within the shelf days' 'TOTAL 0
TEAM 0 SHARE 0 HOLDS
POOL 0' 01 01 01 0A 00 07 00 0E 00 02 01 0C 00 05 00 00 04 00 01 0B 07 00 0E 00 07
lists 'an instrument glued to one team and named by another' 'TOTAL 1
TEAM 0 SHARE 0 HOLDS
TEAM 1 SHARE 0 HOLDS 1
POOL 0' 01 01 02 03 01 06 00 01 02 0C 00 02 09 04 00 02 05 00 00 05 01 00 07
lists 'every instrument' 'TOTAL 0
TEAM 0 SHARE 0 HOLDS
TEAM 1 SHARE 0 HOLDS
POOL 0 1 2' 01 01 03 02 09 04 00 03 05 00 00 05 01 00 05 02 00 0C 02 03 09 06 00 01 02 06 01 02 03 06 02 01 03 0C 01 0C 00 07
lists 'a team away beside it' 'TOTAL 1
TEAM 0 SHARE 0 HOLDS
TEAM 1 SHARE 1 HOLDS 1
POOL 0' 01 01 02 02 00 04 00 02 05 00 00 05 01 00 08 02 09 00 01 00 00 00 09 01 02 00 00 00 0C 00 07

# Every instrument of the longest plan is glued.
expect 'listing of the longest plan' 0 "TOTAL 0
$(for team in 0 1 2 3 4 5 6 7 8 9 10 11; do echo "TEAM $team SHARE 0 HOLDS"; done)
POOL 0 1 2 3 4 5 6 7 8 9 10 11 12 13 14 15 16 17 18 19 20 21 22 23 24 25 26 27 28 29 30 31 \
32 33 34 35 36 37 38 39 40 41 42 43 44 45 46 47 48 49 50 51 52 53 54 55 56 57 58 59 60 61 62 63" '' "$desk" explain longest.plan

# 13: the lowest glued instrument of the bundle is named first; else the rule, and what is glued to the team.
# Tests the glued plan's sheet with one byte changed: refused_glued OFFSET BYTE WORDS
refused_glued() {
    patch glued.sheet bad.sheet "$1" "$2"
    refused_sheet "the glued sheet's byte $1 changed to $2" "$3" glued.plan bad.sheet
    rm bad.sheet
}
refused_glued 6 00 'REFUSED 13 0
Team 0 is given the instruments 0 3, which are not independent for it. Instrument 0 is glued to team 0 and stays FF on the sheet.'
refused_glued 6 01 'REFUSED 13 1
Team 1 is given the instruments 0 2, which are not independent for it. Instrument 0 is glued to team 0 and stays FF on the sheet.'
refused_glued 18 02 'REFUSED 13 2
Team 2 is given the instruments 1 4, which are not independent for it. Instrument 4 is glued to team 1 and stays FF on the sheet.'
refused_glued 21 02 'REFUSED 13 2
Team 2 is given the instruments 1 5, which are not independent for it. Instrument 5 is glued to team 2 and stays FF on the sheet.'
refused_glued 9 00 'REFUSED 13 0
Team 0 is given the instruments 1 3, which are not independent for it. A CAPS team may hold only instruments that were PUT, no more of a class than its cap, and no more than its channels. The instruments glued to it count too: 0.'
refused_glued 15 01 'REFUSED 13 1
Team 1 is given the instruments 2 3, which are not independent for it. A LOOPS team may hold only instruments with a SPAN, none of which close a loop, and no more than its channels. The instruments glued to it count too: 4.'
refused_glued 15 02 'REFUSED 13 2
Team 2 is given the instruments 1 3, which are not independent for it. A MOUNTS team may hold only instruments with a FIT, each on a mount of its own that it fits, and no more than its channels. The instruments glued to it count too: 5.'
refused_glued 3 04 'REFUSED 14 0
HEAD (byte 0) states the total 4, but the number of instruments given to teams is 3.'
refused_glued 23 37 'REFUSED 14 0
HEAD (byte 0) states the total 3, which the set of BOUND (byte 22) does not prove greatest. The instruments outside the set, and the worths of the set to all teams, do not add up to the total.'
refused_glued 62 01 'REFUSED 15 1
The SHARE of team 1 (byte 60) states the share 1, which is not proved. One of the parts (p = 3, one for each present team) is worth less than 1 to the team, or the set does not rule out a greater share.'
patch glued.sheet worse.sheet 18 00
patch worse.sheet bad.sheet 6 00
refused_sheet 'two glued instruments for one team' 'REFUSED 13 0
Team 0 is given the instruments 0 3 4, which are not independent for it. Instrument 0 is glued to team 0 and stays FF on the sheet.' glued.plan bad.sheet
patch worse.sheet bad.sheet 6 01
refused_sheet 'glued instruments for two teams' 'REFUSED 13 0
Team 0 is given the instruments 3 4, which are not independent for it. Instrument 4 is glued to team 1 and stays FF on the sheet.' glued.plan bad.sheet
rm bad.sheet worse.sheet

# Instrument 1 is glued to team 0; 0 and 1 are off the shelf on the days of team 1.
hex one.plan 01 01 02 0A 00 00 00 07 00 0A 01 00 00 07 00 02 09 04 00 02 05 00 00 05 01 00 0B 00 00 07 00 0C 01 \
    02 09 04 00 02 05 00 00 05 01 00 07
quiet 'build with a glued instrument and loan days' "$desk" build one.plan one.sheet
patch one.sheet bad.sheet 9 01
refused_sheet 'a glued instrument for a team with other days' 'REFUSED 13 1
Team 1 is given the instruments 1, which are not independent for it. Instrument 1 is glued to team 0 and stays FF on the sheet.' one.plan bad.sheet
patch bad.sheet worse.sheet 6 01
refused_sheet 'a glued instrument comes before days' 'REFUSED 13 1
Team 1 is given the instruments 0 1, which are not independent for it. Instrument 1 is glued to team 0 and stays FF on the sheet.' one.plan worse.sheet
patch one.sheet bad.sheet 6 01
refused_sheet 'days beside a glued instrument' "REFUSED 13 1
Team 1 is given the instruments 0, which are not independent for it. The team's days, 0 to 65535, do not lie within the shelf days of instrument 0, 0 to 7." one.plan bad.sheet
rm bad.sheet worse.sheet one.sheet

# 1 to 9.
refused_plan 'GLUE first' 'REFUSED 1 0
Command 1 of the plan, at byte 0, is 0C; it has to be START (01).' 0C 00 02 01 07
refused_plan 'GLUE cut short' 'REFUSED 2 5
Command 3 of the plan, GLUE at byte 5 (0C), is cut short; it takes 1 operand, and the file ends after 0.' 01 01 02 02 01 0C
refused_plan 'GLUE cut short without a team' 'REFUSED 2 3
Command 2 of the plan, GLUE at byte 3 (0C), is cut short; it takes 1 operand, and the file ends after 0.' 01 01 02 0C
refused_plan 'no END after GLUE' 'REFUSED 2 7
The plan ends at byte 7 without END (07); its last command is command 3, GLUE at byte 5.' 01 01 02 02 01 0C 00
refused_plan 'byte 0D after GLUE' 'REFUSED 3 7
Command 4 of the plan, at byte 7, is 0D, which is no command; commands are 01 to 0C.' 01 01 02 02 01 0C 00 0D
refused_plan 'GLUE without a team' 'REFUSED 4 3
Command 2 of the plan, GLUE at byte 3 (0C 00), is in the wrong place; it belongs to a team, and no team is open.' \
    01 01 02 0C 00 02 01 07
refused_plan 'GLUE without a team, of an unknown instrument' 'REFUSED 4 9
Command 3 of the plan, GLUE at byte 9 (0C 02), is in the wrong place; it belongs to a team, and no team is open.' \
    01 01 02 0A 00 00 00 07 00 0C 02 02 01 07
refused_plan 'GLUE of an unknown instrument' 'REFUSED 5 5
Command 3 of the plan, GLUE at byte 5 (0C 02), has instrument 2; the plan has the instruments 0 to 1.' \
    01 01 02 02 01 0C 02 07
refused_plan 'GLUE of instrument 255' 'REFUSED 5 5
Command 3 of the plan, GLUE at byte 5 (0C FF), has instrument 255; the plan has the instruments 0 to 63.' \
    01 01 40 08 01 0C FF 07
refused_plan 'GLUE where there are no instruments' 'REFUSED 5 5
Command 3 of the plan, GLUE at byte 5 (0C 00), has instrument 0; the plan has no instruments.' 01 01 00 03 01 0C 00 07
refused_plan 'a second GLUE in a team' 'REFUSED 6 12
Command 6 of the plan, GLUE at byte 12 (0C 01), glues instrument 1 to team 0, and it is glued to team 0 already; the first time is command 3 at byte 5.' \
    01 01 02 02 01 0C 01 05 01 00 0C 00 0C 01 07
refused_plan 'a second GLUE in a later team' 'REFUSED 6 15
Command 7 of the plan, GLUE at byte 15 (0C 00), glues instrument 0 to team 2, and it is glued to team 1 already; the first time is command 4 at byte 7.' \
    01 01 02 02 01 03 01 0C 00 06 00 01 02 08 01 0C 00 09 00 01 00 00 00 07
refused_plan 'a third GLUE' 'REFUSED 6 9
Command 5 of the plan, GLUE at byte 9 (0C 00), glues instrument 0 to team 1, and it is glued to team 0 already; the first time is command 3 at byte 5.' \
    01 01 02 02 01 0C 00 02 01 0C 00 0C 00 07
refused_plan 'a second PUT after GLUE' 'REFUSED 6 10
Command 5 of the plan, PUT at byte 10 (05 01 00), names instrument 1 a second time in team 0; the first time is command 4 at byte 7.' \
    01 01 02 02 01 0C 01 05 01 00 05 01 00 07
refused_plan 'bytes after END with a glued instrument' 'REFUSED 9 14
The plan goes on at byte 14 after command 6, END at byte 13; nothing may follow END.' \
    01 01 01 02 01 04 00 01 05 00 00 0C 00 07 00

# 18: the lowest team whose glued instruments are not independent, and a cause.
refused_plan 'a glued instrument without PUT' 'REFUSED 18 13
Command 6 of the plan, END at byte 13 (07), ends a plan in which team 0 has the glued instruments 1, which are not independent for it. Instrument 1 has no PUT in the team.' \
    01 01 02 02 02 04 00 02 05 00 00 0C 01 07
refused_plan 'a glued instrument without SPAN, which an earlier team has' 'REFUSED 18 19
Command 8 of the plan, END at byte 19 (07), ends a plan in which team 1 has the glued instruments 0 1, which are not independent for it. Instrument 0 has no SPAN in the team.' \
    01 01 02 03 02 06 00 01 02 03 02 06 01 01 02 0C 01 0C 00 07
refused_plan 'a glued instrument without FIT, which a later team has' 'REFUSED 18 15
Command 6 of the plan, END at byte 15 (07), ends a plan in which team 0 has the glued instruments 0, which are not independent for it. Instrument 0 has no FIT in the team.' \
    01 01 01 08 02 0C 00 08 02 09 00 01 00 00 00 07
refused_plan 'a glued instrument off the shelf' "REFUSED 18 28
Command 9 of the plan, END at byte 28 (07), ends a plan in which team 0 has the glued instruments 0 1, which are not independent for it. The team's days, 7 to 15, do not lie within the shelf days of instrument 1, 7 to 14." \
    01 01 02 0A 01 07 00 0E 00 03 02 06 00 01 02 06 01 02 03 0B 07 00 0F 00 0C 00 0C 01 07
refused_plan 'a glued instrument off the shelf, in a team without DAYS' "REFUSED 18 19
Command 7 of the plan, END at byte 19 (07), ends a plan in which team 0 has the glued instruments 0, which are not independent for it. The team's days, 0 to 65535, do not lie within the shelf days of instrument 0, 1 to 65535." \
    01 01 01 0A 00 01 00 FF FF 02 02 04 00 01 05 00 00 0C 00 07
refused_plan 'glued instruments beyond the channels' 'REFUSED 18 20
Command 9 of the plan, END at byte 20 (07), ends a plan in which team 1 has the glued instruments 0 1, which are not independent for it. The team has 1 channel and 2 glued instruments.' \
    01 01 02 02 09 02 01 04 00 02 05 00 00 05 01 00 0C 00 0C 01 07
refused_plan 'three glued instruments for two channels' 'REFUSED 18 23
Command 9 of the plan, END at byte 23 (07), ends a plan in which team 0 has the glued instruments 0 1 2, which are not independent for it. The team has 2 channels and 3 glued instruments.' \
    01 01 03 03 02 06 00 01 02 06 01 02 03 06 02 03 04 0C 00 0C 01 0C 02 07
refused_plan 'a glued instrument in a team that is away' 'REFUSED 18 13
Command 5 of the plan, END at byte 13 (07), ends a plan in which team 0 has the glued instruments 0, which are not independent for it. The team has 0 channels and 1 glued instrument.' \
    01 01 01 08 00 09 00 01 00 00 00 0C 00 07
refused_plan 'glued instruments beyond a cap' 'REFUSED 18 26
Command 11 of the plan, END at byte 26 (07), ends a plan in which team 0 has the glued instruments 0 1 2, which are not independent for it. Class 3 has the cap 1 and 2 glued instruments.' \
    01 01 03 02 09 04 02 01 04 03 01 05 00 03 05 01 02 05 02 03 0C 00 0C 01 0C 02 07
refused_plan 'a glued instrument in a class without CLASS' 'REFUSED 18 12
Command 6 of the plan, END at byte 12 (07), ends a plan in which team 1 has the glued instruments 0, which are not independent for it. Class 15 has the cap 0 and 1 glued instrument.' \
    01 01 01 02 09 02 09 05 00 0F 0C 00 07
refused_plan 'two glued gauges on one pair of joints' 'REFUSED 18 17
Command 7 of the plan, END at byte 17 (07), ends a plan in which team 0 has the glued instruments 0 1, which are not independent for it. Instrument 1 closes a loop with lower ones.' \
    01 01 02 03 09 06 00 01 02 06 01 02 01 0C 01 0C 00 07
refused_plan 'three of four glued gauges in a loop' 'REFUSED 18 29
Command 11 of the plan, END at byte 29 (07), ends a plan in which team 0 has the glued instruments 0 1 2 3, which are not independent for it. Instrument 2 closes a loop with lower ones.' \
    01 01 04 03 09 06 00 00 27 06 01 27 05 06 02 05 00 06 03 05 07 0C 03 0C 00 0C 02 0C 01 07
refused_plan 'two glued instruments on one mount' 'REFUSED 18 21
Command 7 of the plan, END at byte 21 (07), ends a plan in which team 0 has the glued instruments 0 1, which are not independent for it. Those up to instrument 1 cannot each have a mount of their own that they fit.' \
    01 01 02 08 09 09 00 00 00 00 80 09 01 00 00 00 80 0C 00 0C 01 07
refused_plan 'three of four glued instruments on two mounts' 'REFUSED 18 37
Command 11 of the plan, END at byte 37 (07), ends a plan in which team 0 has the glued instruments 0 1 2 3, which are not independent for it. Those up to instrument 3 cannot each have a mount of their own that they fit.' \
    01 01 04 08 09 09 00 05 00 00 00 09 01 01 00 00 00 09 02 08 00 00 00 09 03 05 00 00 00 0C 00 0C 01 0C 02 0C 03 07
refused_plan 'a glued instrument with a FIT of no bits' 'REFUSED 18 13
Command 5 of the plan, END at byte 13 (07), ends a plan in which team 0 has the glued instruments 0, which are not independent for it. The FIT of instrument 0 has no bits.' \
    01 01 01 08 09 09 00 00 00 00 00 0C 00 07
refused_plan 'glued instruments of two teams' 'REFUSED 18 15
Command 8 of the plan, END at byte 15 (07), ends a plan in which team 1 has the glued instruments 1, which are not independent for it. Instrument 1 has no FIT in the team.' \
    01 01 03 02 09 08 09 0C 01 03 09 0C 02 0C 00 07
refused_plan 'a glued instrument with several faults' 'REFUSED 18 13
Command 5 of the plan, END at byte 13 (07), ends a plan in which team 0 has the glued instruments 0, which are not independent for it. Instrument 0 has no SPAN in the team.' \
    01 01 01 0A 00 00 00 07 00 03 00 0C 00 07

# 18 comes after the faults before END and before 9; what stands after END is not read.
refused_plan 'a fault after a GLUE' 'REFUSED 5 7
Command 4 of the plan, PUT at byte 7 (05 01 00), has instrument 1; the plan has the instruments 0 to 0.' \
    01 01 01 02 01 0C 00 05 01 00 07
refused_plan 'a byte after END' 'REFUSED 18 7
Command 4 of the plan, END at byte 7 (07), ends a plan in which team 0 has the glued instruments 0, which are not independent for it. Instrument 0 has no PUT in the team.' \
    01 01 01 02 01 0C 00 07 00
refused_plan 'the missing PUT after END' 'REFUSED 18 10
Command 5 of the plan, END at byte 10 (07), ends a plan in which team 0 has the glued instruments 0, which are not independent for it. Instrument 0 has no PUT in the team.' \
    01 01 02 02 09 04 00 09 0C 00 07 05 00 00 0C 01 07
patch longest.plan bad.plan 1597 05
expect 'the longest plan with 5 channels in team 3' 1 'REFUSED 18 5207
Command 922 of the plan, END at byte 5207 (07), ends a plan in which team 3 has the glued instruments 3 15 27 39 51 63, which are not independent for it. The team has 5 channels and 6 glued instruments.' \
    '' "$desk" explain bad.plan
cat bad.plan one.byte >long.plan
expect 'the longest plan with 5 channels in team 3, and a byte' 1 'REFUSED 18 5207
Command 922 of the plan, END at byte 5207 (07), ends a plan in which team 3 has the glued instruments 3 15 27 39 51 63, which are not independent for it. The team has 5 channels and 6 glued instruments.' \
    '' "$desk" explain long.plan

hex loose.plan 01 01 04 02 09 04 00 02 05 00 00 05 01 00 05 02 00 0C 00 0C 01 0C 02 03 01 0C 03 07 02 09 0C 03 07
