/* The last State of an exchange comes, and each server sends its part of the plan. */
#ifndef PLAN_H
#define PLAN_H

#include "trial.h"

/* The last State comes to the server `me`, of a server that has what is white, `white` actions of each creator, and nothing else: n q actions are
   resent by position, and again as red, with payloads of one length. All others have everything, so that server 0 resends it all ("Lowest number wins
   ties") and the part of any other is empty; of two servers the other one has stated nothing itself, which no run brings, but the state check takes
   it. */
trial resend(size_t n, size_t q, size_t white, size_t payload, size_t me);

#endif
