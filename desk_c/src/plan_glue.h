/* The glued instruments of a plan: the team that has one, and why those of a team are not independent. */
#ifndef PLAN_GLUE_H
#define PLAN_GLUE_H

#include "content.h"

#include <stdio.h>

/* The team of an instrument that is not glued. */
#define GLUE_NONE SIZE_MAX

/* Why the glued instruments of a team are not independent. */
enum glue_cause {
    GLUE_STANDS,    /* they are independent */
    GLUE_UNNAMED,   /* an instrument has no PUT, SPAN or FIT in the team */
    GLUE_OFF_SHELF, /* the team's days do not lie within an instrument's shelf days */
    GLUE_CHANNELS,  /* there are more than the team's channels */
    GLUE_CLASS,     /* there are more in a class than its cap */
    GLUE_LOOP,      /* an instrument closes a loop with lower ones */
    GLUE_NO_BITS,   /* an instrument's FIT has no bits */
    GLUE_MOUNT      /* an instrument and the lower ones cannot each have a mount */
};

/* A cause, and what it is about. */
struct glue_fault {
    size_t team;
    enum glue_cause cause;
    size_t which; /* the instrument, or the class */
    size_t count; /* of the glued instruments of the team, or of the class */
    size_t limit; /* the channels, or the cap */
};

/* The team that an instrument is glued to; GLUE_NONE if to none. */
size_t plan_glue_team(const struct content *plan, size_t instrument);

/* The number of instruments glued to a team. */
size_t plan_glue_count(const struct content *plan, size_t team);

/* Prints the instruments glued to a team, rising, a space before each. */
void plan_print_glued(FILE *out, const struct content *plan, size_t team);

/* The command byte that names an instrument in a team of a kind: PUT, SPAN or FIT. */
uint8_t plan_naming(uint8_t kind);

/* The lowest team whose glued instruments are not independent, and a cause; the cause GLUE_STANDS if there is none. */
struct glue_fault plan_glue_fault(const struct content *plan);

#endif
