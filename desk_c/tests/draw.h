/* Draws plans, and notes what they say. */
#ifndef DRAW_H
#define DRAW_H

#include "content.h"
#include "model.h"

/* Joints are 0 to 39. */
#define DRAW_JOINTS 40

/* A number below a limit, by a shift register. */
unsigned draw(unsigned limit);

/* Draws a plan that meets no refusal but 18, and notes it in the model. */
void draw_plan(struct content *plan, struct model *model);

#endif
