/* Steps and copies, tried and timed. */
#ifndef TIMED_STEP_H
#define TIMED_STEP_H

#include "trial.h"

double now_ns(void);

/* One step, which must come out as the trial says, or the program ends. */
void try_once(const char *name, const trial *t, uint8_t *state, uint8_t *out);

/* Nanoseconds of copying `length` bytes in one piece. */
double copied(uint8_t *to, const uint8_t *from, size_t length, size_t calls);

/* Nanoseconds of laying a whole state out, and of one step from it: a step changes its state, so that each needs a new one. */
double laid_out_and_stepped(const trial *t, uint8_t *state, uint8_t *out, size_t calls);

void keep_best(double *best, double now);

#endif
