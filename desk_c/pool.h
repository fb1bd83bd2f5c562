/*
 * The pool library: Build, Check, List, Worth and Page on byte buffers.
 *
 * Contract of all five functions
 * - A length is a count of bytes. A null pointer is allowed where the length is 0.
 * - Any bytes may be given as plan and as sheet: nothing about them has to be tested before a call.
 * - Every call ends. There is no global state and no heap, so calls from several threads do not meet.
 * - A refusal answers 65,536 x its number + its place; its place is below 65,536 and its number is 1 to 18.
 *   Refusals 1 to 9, 17 and 18 are about the plan, 10 is about the buffer, 11 to 16 are about the sheet.
 *   Build, Check, List and Worth refuse a plan alike. Page has no refusals: where the others refuse, its page is empty.
 * - The longest accepted plan has POOL_PLAN_MAX bytes, the longest accepted sheet POOL_SHEET_MAX bytes.
 *   The listing of an accepted sheet has at most POOL_LISTING_MAX bytes.
 * - A team with channels above 0 is present, and its share is for a cut into as many parts as teams are present.
 *   A team with 0 channels is away: it has its page on the sheet, but its share, set and parts are all 0.
 * - An instrument is worth nothing to a team whose days do not lie within the instrument's shelf days.
 * - An instrument glued to a team is worth nothing to anyone and stays in the pool on the sheet. What the other
 *   instruments are worth to a team is what they add to those glued to it; its shares and totals are of this worth.
 */
#ifndef POOL_H
#define POOL_H

#include <stdbool.h>
#include <stddef.h>
#include <stdint.h>

#ifdef __cplusplus
extern "C" {
#endif

/* The limits of plans, sheets and listings. */
#define POOL_PLAN_MAX 5208
#define POOL_SHEET_MAX 2642
#define POOL_LISTING_MAX 512
#define POOL_INSTRUMENTS_MAX 64
#define POOL_TEAMS_MAX 12

/* The answer of pool_check for an accepted sheet. */
#define POOL_ACCEPTED UINT64_C(0)

/* A refusal's number is counted in this unit. */
#define POOL_REFUSAL UINT64_C(65536)

/* The answer of pool_page for the empty page. */
#define POOL_NO_PAGE UINT64_C(0)

/* A page's length is counted in this unit. */
#define POOL_PAGE UINT64_C(65536)

/*
 * Build: writes the sheet of a plan into the lent buffer and answers its length L, which is below 65,536.
 * Exactly the first L bytes of the buffer are written; on a refusal the buffer is untouched.
 * A buffer of POOL_SHEET_MAX bytes is long enough for every plan; one shorter than L is refusal 10, place L.
 * Plan and buffer must not overlap.
 */
uint64_t pool_build(const uint8_t *plan, size_t plan_len, uint8_t *buffer, size_t buffer_len);

/*
 * Check: answers POOL_ACCEPTED or the refusal of this sheet for this plan. Nothing is written.
 */
uint64_t pool_check(const uint8_t *plan, size_t plan_len, const uint8_t *sheet, size_t sheet_len);

/*
 * List: writes the weekly listing of a sheet into the lent buffer text and answers its length K, which is below 65,536.
 * The listing is text in ASCII; each line ends with a line feed, and there is no null byte at the end.
 * Check's refusals of this sheet for this plan come first, as pool_check answers them.
 * Exactly the first K bytes of text are written; on a refusal text is untouched.
 * A buffer of POOL_LISTING_MAX bytes is long enough for every listing; one shorter than K is refusal 10, place K.
 * Plan and text must not overlap, nor sheet and text.
 */
uint64_t pool_list(const uint8_t *plan, size_t plan_len, const uint8_t *sheet, size_t sheet_len, uint8_t *text,
                   size_t text_len);

/*
 * Worth: answers the worth of a set of instruments to a team, 0 to POOL_INSTRUMENTS_MAX, or Read's refusal of the plan.
 * Bit k of set stands for instrument k; bits at or above the plan's number of instruments count nothing.
 * To a team that is not in the plan every set is worth 0. Nothing is written.
 * The empty set is worth 0, so for team 0 and set 0 the answer is 0 for a plan that is read, and else its refusal.
 */
uint64_t pool_worth(const uint8_t *plan, size_t plan_len, size_t team, uint64_t set);

/*
 * Page: answers where a team's page stands in a sheet that Check accepts, from its SHARE to its last PART: 65,536 x the
 * page's length + its offset in the sheet. The length is 11 + 3 x the plan's number of instruments.
 * The answer is POOL_NO_PAGE in every other case: for a team that is not in the plan, and for refused plans and sheets.
 * It is no refusal, and pool_refused is not for it. Nothing is written.
 */
uint64_t pool_page(const uint8_t *plan, size_t plan_len, const uint8_t *sheet, size_t sheet_len, size_t team);

/* Tells whether an answer of a function other than pool_page is a refusal. */
static inline bool pool_refused(uint64_t answer)
{
    return answer >= POOL_REFUSAL;
}

/* The number of a refusal: what is wrong. */
static inline uint64_t pool_number(uint64_t answer)
{
    return answer / POOL_REFUSAL;
}

/* The place of a refusal: an offset, a length or a team, as its number says. */
static inline size_t pool_place(uint64_t answer)
{
    return (size_t)(answer % POOL_REFUSAL);
}

/* The length of a page, by the answer of pool_page. */
static inline size_t pool_page_length(uint64_t answer)
{
    return (size_t)(answer / POOL_PAGE);
}

/* The offset of a page in its sheet, by the answer of pool_page. */
static inline size_t pool_page_offset(uint64_t answer)
{
    return (size_t)(answer % POOL_PAGE);
}

#ifdef __cplusplus
}
#endif

#endif
