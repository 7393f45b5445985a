/* Pegs drawn on a sheet. */
#ifndef DRAWING_H
#define DRAWING_H

#include "guzbytor.h"

/* Sides in millimetres. */
typedef struct {
    int32_t west, south, east, north;
} sides;

/* A point, and the slot of the peg nearest to it, NULL where there is none; whether that peg is among those drawn. */
typedef struct {
    int32_t easting, northing;
    const uint8_t *nearest;
    int is_drawn;
} pointer;

/* Prints the pegs of a register as SVG, north up: a cross and a name for each. The rectangle and the point are drawn where they are not NULL. */
void draw_sheet(const uint8_t *pegs, const sides *rectangle, const pointer *point);

#endif
