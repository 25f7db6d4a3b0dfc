/* The scheme in double precision, with no rounding, no ceiling and no checks. */
#ifndef DOUBLES_H
#define DOUBLES_H

#include "buvcsolta.h"

/* One block. The three levels change their roles from step to step: levels[0] is older, levels[1] newer. */
void double_block(const struct buvcsolta_instrument *i, double *levels[3], float *samples, size_t places, size_t pick_up, size_t hit,
                  double force);

#endif
