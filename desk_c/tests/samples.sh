# The plans and sheets of the tests. Each sheet is one of those that are right for its plan.
# shellcheck shell=sh

none='00 00 00 00 00 00 00 00'

# Plan A: two gauges on one pair of joints, and a team that takes gauge 1 alone.
plan_a='01 01 02 03 02 06 00 01 02 06 01 01 02 02 01 04 00 01 05 01 00 07'

# The offsets in its sheet: HEAD 0, GIVEs 4 and 7, BOUND 10, SHARE 19, PARTs 30 and 33, SHARE 36, PARTs 47 and 50, END 53.
sheet_a="11 02 02 02 12 00 00 12 01 01 13 $none 14 00 01 $none 15 00 00 15 01 01
    14 01 00 01 00 00 00 00 00 00 00 15 00 00 15 01 00 16"

# A plan without instruments.
plan_zero='01 01 00 02 00 07'

# Six instruments: team 0 takes one of 0 and 1, one of 2 and 3, and both 4 and 5; team 1 takes all.
plan_six='01 01 06 02 06 04 00 01 04 01 01 04 02 02 05 00 00 05 01 00 05 02 01 05 03 01 05 04 02 05 05 02
    02 06 04 00 06 05 00 00 05 01 00 05 02 00 05 03 00 05 04 00 05 05 00 07'

parts_six='15 00 00 15 01 01 15 02 00 15 03 01 15 04 00 15 05 01'

# What follows the GIVEs in a sheet of six instruments.
rest_six="13 $none 14 00 03 $none $parts_six 14 01 03 $none $parts_six 16"

sheet_six="11 06 02 06 12 00 00 12 01 01 12 02 00 12 03 01 12 04 00 12 05 01 $rest_six"

# The same with {4,5} for team 0: a greatest total, but less than its share.
unfair_six="11 06 02 06 12 00 01 12 01 01 12 02 01 12 03 01 12 04 00 12 05 00 $rest_six"

# Two instruments that fit mount 8 alone, and a sheet that gives 0 to the one team.
plan_mounts='01 01 02 08 09 09 00 00 01 00 00 09 01 00 01 00 00 07'
both='03 00 00 00 00 00 00 00'
sheet_mounts="11 02 01 01 12 00 00 12 01 FF 13 $both 14 00 01 $both 15 00 00 15 01 00 16"

# Four instruments: teams 0 and 2 take any, team 1 is away. Cut into two parts, each is worth 2 to a present team.
takes_four='02 04 04 00 04 05 00 00 05 01 00 05 02 00 05 03 00'
plan_week="01 01 04 $takes_four 03 00 06 00 01 02 06 01 02 03 $takes_four 07"

# The offsets in its sheet: HEAD 0, GIVEs 4, BOUND 16, SHARE 25, PARTs 36, SHARE 48, PARTs 59, SHARE 71, PARTs 82, END 94.
halves='15 00 00 15 01 00 15 02 01 15 03 01'
sheet_week="11 04 03 04 12 00 00 12 01 00 12 02 02 12 03 02 13 $none 14 00 02 $none $halves
    14 01 00 $none 15 00 00 15 01 00 15 02 00 15 03 00 14 02 02 $none $halves 16"

# Three instruments and two teams, both away: all three stay in the pool.
plan_away='01 01 03 02 00 04 00 03 05 00 00 08 00 09 02 01 00 00 00 07'
pooled='15 00 00 15 01 00 15 02 00'
sheet_away="11 03 02 00 12 00 FF 12 01 FF 12 02 FF 13 07 00 00 00 00 00 00 00
    14 00 00 $none $pooled 14 01 00 $none $pooled 16"

# Four instruments and a team of each kind: 2 is on the shelf from 0 to 7, 3 from 7 to 14. Team 0 wants the days 0 to 7,
# team 1 wants 7 to 14, and team 2 has no DAYS.
plan_term='01 01 04 0A 02 00 00 07 00 0A 03 07 00 0E 00
    02 04 04 00 04 05 00 00 05 01 00 05 02 00 05 03 00 0B 00 00 07 00
    03 04 0B 07 00 0E 00 06 00 01 02 06 01 02 03 06 02 03 04 06 03 04 05
    08 04 09 00 01 00 00 00 09 01 02 00 00 00 09 02 04 00 00 00 09 03 08 00 00 00 07'

# The offsets in its sheet are those of the week's.
thirds='15 00 00 15 01 01 15 02 02 15 03 02'
sheet_term="11 04 03 04 12 00 02 12 01 02 12 02 00 12 03 01 13 $none 14 00 01 $none $thirds 14 01 01 $none $thirds
    14 02 00 0C 00 00 00 00 00 00 00 15 00 00 15 01 00 15 02 00 15 03 00 16"

# Six instruments and a team of each kind, each with one of 0, 4 and 5 glued to it. Team 0 has room for one more of 1, 2
# and 3, team 1 for one of 1 and 2, and team 2 for 1 alone.
plan_glued='01 01 06 02 02 04 00 04 05 00 00 05 01 00 05 02 00 05 03 00 0C 00
    03 09 0C 04 06 01 01 02 06 02 02 03 06 03 01 03 06 04 01 03
    08 03 09 01 03 00 00 00 0C 05 09 03 01 00 00 00 09 05 01 00 00 00 07'

# The offsets in its sheet: HEAD 0, GIVEs 4, BOUND 22, SHARE 31, PARTs 42, SHARE 60, PARTs 71, SHARE 89, PARTs 100, END 118.
whole='15 00 00 15 01 00 15 02 00 15 03 00 15 04 00 15 05 00'
sheet_glued="11 06 03 03 12 00 FF 12 01 02 12 02 01 12 03 00 12 04 FF 12 05 FF 13 31 00 00 00 00 00 00 00
    14 00 01 3F 00 00 00 00 00 00 00 15 00 00 15 01 00 15 02 01 15 03 02 15 04 00 15 05 00
    14 01 00 39 00 00 00 00 00 00 00 $whole 14 02 00 3D 00 00 00 00 00 00 00 $whole 16"

# Prints a SHELF in hexadecimal: days that hold 7 to 14.
long_shelf() {
    printf ' 0A %02x %02x 00 %02x 00' "$1" $(($1 % 8)) $((14 + $1))
}

# Prints a SPAN in hexadecimal: gauges in a ring of 40 joints, 40 to 63 beside 0 to 23.
ring_span() {
    printf ' 06 %02x %02x %02x' "$1" $(($1 % 40)) $((($1 + 1) % 40))
}

# Prints a FIT in hexadecimal: instruments on two neighbours in a ring of 32 mounts.
ring_fit() {
    mask=$((1 << $1 % 32 | 1 << ($1 + 1) % 32))
    printf ' 09 %02x %02x %02x %02x %02x' "$1" $((mask & 255)) $((mask >> 8 & 255)) $((mask >> 16 & 255)) $((mask >> 24))
}

# Prints a FIT in hexadecimal: an instrument on all 32 mounts.
full_fit() {
    printf ' 09 %02x FF FF FF FF' "$1"
}

# Prints a command for each of 64 instruments in hexadecimal: for_each COMMAND
for_each() {
    gauge=0
    while [ $gauge -lt 64 ]; do
        "$1" $gauge
        gauge=$((gauge + 1))
    done
}

# Prints the GLUEs of a team in hexadecimal: the twelve teams have the instruments in turn.
turn_glue() {
    gauge=$1
    while [ "$gauge" -lt 64 ]; do
        printf ' 0C %02x' "$gauge"
        gauge=$((gauge + 12))
    done
}

# Prints twelve teams and END in hexadecimal: twelve_teams OPENING CHANNELS COMMAND DAYS GLUES
twelve_teams() {
    team=0
    while [ $team -lt 12 ]; do
        printf ' %s %s' "$1" "$2"
        for_each "$3"
        printf ' %s' "$4"
        "$5" $team
        team=$((team + 1))
    done
    printf ' 07'
}

# Prints 64 commands with the given byte in hexadecimal, which name the twelve teams or parts in turn.
deal() {
    gauge=0
    while [ $gauge -lt 64 ]; do
        printf ' %s %02x %02x' "$1" $gauge $((gauge % 12))
        gauge=$((gauge + 1))
    done
}

# Prints a sheet of twelve teams with six channels in hexadecimal: its GIVEs and every team's PARTs go in turn.
dealt_sheet() {
    printf '11 40 0C 40'
    deal 12
    printf ' 13 %s' "$none"
    team=0
    while [ $team -lt 12 ]; do
        printf ' 14 %02x 05 %s' $team "$none"
        deal 15
        team=$((team + 1))
    done
    printf ' 16'
}

# Twelve instruments, with one division of greatest total: 0 and 11 for team 0, none for team 1, 9 and 10 for team 2.
plan_some='01 01 0C 02 02 04 00 02 05 00 00 05 0B 00 02 FF 03 FF 06 09 01 02 06 0A 02 03 07'

# Twelve teams without instruments.
plan_teams='01 01 00 02 00 03 00 02 00 03 00 02 00 03 00 02 00 03 00 02 00 03 00 02 00 03 00 07'

# Prints a plan in hexadecimal: 64 instruments, all of one class, for one team that takes them all.
all_plan() {
    printf '01 01 40 02 40 04 00 40'
    instrument=0
    while [ $instrument -lt 64 ]; do
        printf ' 05 %02x 00' $instrument
        instrument=$((instrument + 1))
    done
    printf ' 07'
}

# Writes the samples as files. The lists are split into words on purpose.
# shellcheck disable=SC2046,SC2086
write_samples() {
    hex a.plan $plan_a
    hex a.sheet $sheet_a
    hex zero.plan $plan_zero
    hex six.plan $plan_six
    hex six.sheet $sheet_six
    hex unfair.sheet $unfair_six
    hex mounts.plan $plan_mounts
    hex mounts.sheet $sheet_mounts
    hex week.plan $plan_week
    hex week.sheet $sheet_week
    hex away.plan $plan_away
    hex away.sheet $sheet_away
    hex term.plan $plan_term
    hex term.sheet $sheet_term
    hex glued.plan $plan_glued
    hex glued.sheet $sheet_glued
    hex longest.plan 01 01 40 $(for_each long_shelf) $(twelve_teams 08 06 ring_fit '0B 07 00 0E 00' turn_glue)
    hex full.plan 01 01 40 $(for_each long_shelf) $(twelve_teams 08 06 full_fit '0B 07 00 0E 00' turn_glue)
    hex loans.plan 01 01 40 $(for_each long_shelf) $(twelve_teams 08 06 ring_fit '0B 07 00 0E 00' :)
    hex rings.plan 01 01 40 $(twelve_teams 03 06 ring_span '' :)
    hex dealt.sheet $(dealt_sheet)
    hex some.plan $plan_some
    hex teams.plan $plan_teams
    hex all.plan $(all_plan)
    hex empty
}
