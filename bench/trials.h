/* Trials in files, a step each, for one_step.c: the state's image and behind it the event. */
#ifndef TRIALS_H
#define TRIALS_H

#include "trial.h"

/* Into DIRECTORY, under a name of the event and three numbers, which is printed. */
void write_trial(const char *directory, const char *event, size_t n, size_t q, size_t white, const trial *t);

#endif
