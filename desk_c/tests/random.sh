# Random plans with loan days, spans and glued instruments, built, checked and damaged through the library. Each failure is a
# line of output. The numbers after loose are the plans by cause.
# shellcheck shell=sh

expect 'random plans with loan days, spans and glued instruments' 0 \
    "2000 plans, 3221 given, 4974 out of days, 23008 turned, 5752 repeated, 6000 misplaced, 65097 joints, \
3310 loose (1016 992 875 204 31 157 35), 1497 glued, 2994 reglued, 6292 moved, 0 failures" '' "$random" 2000

# Worth by the sentences of the papers, pages by the layout, and refusals of damaged plans and sheets.
expect 'worths and pages of random plans' 0 \
    '5000 plans, 3364 loose, 49020 worths, 4085 pages, 19226 damaged, 0 failures' '' "$answers" 5000

# Random plans and commands as texts: plainly, with spaces, comments and zeros, and with a byte changed. The numbers after
# damaged are the texts by what is then wrong, nothing first.
expect 'random plans as texts' 0 \
    '4000 plans, 85942 commands, 15824 damaged (3916 3218 3983 1394 3071 242), 0 failures' '' "$text" 2000
