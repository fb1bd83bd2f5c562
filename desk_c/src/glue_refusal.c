/* Why a team's glued instruments are not independent, in words: refusal 18. */
#include "plan.h"
#include "plan_days.h"
#include "refusal.h"

/* The ending of a word that is counted. */
static const char *plural(size_t count)
{
    return count == 1 ? "" : "s";
}

/* Prints a cause. */
static void print_cause(FILE *out, const struct content *plan, const struct glue_fault *fault)
{
    switch (fault->cause) {
    case GLUE_UNNAMED:
        fprintf(out, "Instrument %zu has no %s in the team.", fault->which,
                plan_form(plan_naming(plan_kind(plan, fault->team)))->name);
        break;
    case GLUE_OFF_SHELF:
        plan_print_off_shelf(out, plan, fault->team, fault->which);
        break;
    case GLUE_CHANNELS:
        fprintf(out, "The team has %zu channel%s and %zu glued instrument%s.", fault->limit, plural(fault->limit),
                fault->count, plural(fault->count));
        break;
    case GLUE_CLASS:
        fprintf(out, "Class %zu has the cap %zu and %zu glued instrument%s.", fault->which, fault->limit, fault->count,
                plural(fault->count));
        break;
    case GLUE_LOOP:
        fprintf(out, "Instrument %zu closes a loop with lower ones.", fault->which);
        break;
    case GLUE_NO_BITS:
        fprintf(out, "The FIT of instrument %zu has no bits.", fault->which);
        break;
    case GLUE_MOUNT:
        fprintf(out, "Those up to instrument %zu cannot each have a mount of their own that they fit.", fault->which);
        break;
    case GLUE_STANDS:
        break;
    }
}

/* Prints a team, its glued instruments and why they are not independent: a clause and a sentence. */
void refusal_print_glue(FILE *out, const struct content *plan, const struct glue_fault *fault)
{
    fprintf(out, "team %zu has the glued instruments", fault->team);
    plan_print_glued(out, plan, fault->team);
    fputs(", which are not independent for it. ", out);
    print_cause(out, plan, fault);
}
