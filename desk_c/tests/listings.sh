# The weekly listing: of a given sheet, of a plan, and that both are the same.
# shellcheck shell=sh

listing_dealt='TOTAL 64
TEAM 0 SHARE 5 HOLDS 0 12 24 36 48 60
TEAM 1 SHARE 5 HOLDS 1 13 25 37 49 61
TEAM 2 SHARE 5 HOLDS 2 14 26 38 50 62
TEAM 3 SHARE 5 HOLDS 3 15 27 39 51 63
TEAM 4 SHARE 5 HOLDS 4 16 28 40 52
TEAM 5 SHARE 5 HOLDS 5 17 29 41 53
TEAM 6 SHARE 5 HOLDS 6 18 30 42 54
TEAM 7 SHARE 5 HOLDS 7 19 31 43 55
TEAM 8 SHARE 5 HOLDS 8 20 32 44 56
TEAM 9 SHARE 5 HOLDS 9 21 33 45 57
TEAM 10 SHARE 5 HOLDS 10 22 34 46 58
TEAM 11 SHARE 5 HOLDS 11 23 35 47 59
POOL'
expect 'listing of twelve MOUNTS teams and 64 instruments' 0 "$listing_dealt" '' "$desk" explain loans.plan dealt.sheet
expect 'listing of twelve LOOPS teams and 64 instruments' 0 "$listing_dealt" '' "$desk" explain rings.plan dealt.sheet

numbers="0 1 2 3 4 5 6 7 8 9 10 11 12 13 14 15 16 17 18 19 20 21 22 23 24 25 26 27 28 29 30 31 \
32 33 34 35 36 37 38 39 40 41 42 43 44 45 46 47 48 49 50 51 52 53 54 55 56 57 58 59 60 61 62 63"
listing_all="TOTAL 64
TEAM 0 SHARE 64 HOLDS $numbers
POOL"
expect 'listing of one team with 64 instruments' 0 "$listing_all" '' "$desk" explain all.plan
expect 'listing of a pool of 64 instruments' 0 "TOTAL 0
TEAM 0 SHARE 0 HOLDS
POOL $numbers" '' "$desk" explain most.plan

listing_some='TOTAL 4
TEAM 0 SHARE 0 HOLDS 0 11
TEAM 1 SHARE 0 HOLDS
TEAM 2 SHARE 0 HOLDS 9 10
POOL 1 2 3 4 5 6 7 8'
expect 'listing with a team that holds nothing and a pool that is not empty' 0 "$listing_some" '' "$desk" explain some.plan

expect 'listing of twelve teams without instruments' 0 'TOTAL 0
TEAM 0 SHARE 0 HOLDS
TEAM 1 SHARE 0 HOLDS
TEAM 2 SHARE 0 HOLDS
TEAM 3 SHARE 0 HOLDS
TEAM 4 SHARE 0 HOLDS
TEAM 5 SHARE 0 HOLDS
TEAM 6 SHARE 0 HOLDS
TEAM 7 SHARE 0 HOLDS
TEAM 8 SHARE 0 HOLDS
TEAM 9 SHARE 0 HOLDS
TEAM 10 SHARE 0 HOLDS
TEAM 11 SHARE 0 HOLDS
POOL' '' "$desk" explain teams.plan

listing_zero='TOTAL 0
TEAM 0 SHARE 0 HOLDS
POOL'
expect 'listing of a sheet without instruments' 0 "$listing_zero" '' "$desk" explain zero.plan zero.sheet

# A plan's listing is that of the sheet which build writes.
same_listing() {
    "$desk" build "$1" built.sheet && "$desk" explain "$1" >plan.listing &&
        "$desk" explain "$1" built.sheet >sheet.listing && [ -s plan.listing ] && cmp -s plan.listing sheet.listing
}
for plan in a zero six mounts week away term glued fits loans longest rings most all some teams; do
    verdict "the listings of $plan.plan and of its sheet are the same" same_listing $plan.plan
done

# A refused sheet has no listing.
patch dealt.sheet bad.sheet 2641 00
refused_sheet 'the last byte of the longest sheet' 'REFUSED 12 2641
Byte 2641 of the sheet, the command byte of END, is 00; it has to be 16.' loans.plan bad.sheet
patch dealt.sheet bad.sheet 3 3F
refused_sheet 'the total of the longest sheet' 'REFUSED 14 0
HEAD (byte 0) states the total 63, but the number of instruments given to teams is 64.' loans.plan bad.sheet
rm bad.sheet
