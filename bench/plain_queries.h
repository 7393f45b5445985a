/* Pegs in the plane, in plain C: the answers of guzbytor_register_rectangle, guzbytor_register_radius and guzbytor_register_nearest. */
#ifndef PLAIN_QUERIES_H
#define PLAIN_QUERIES_H

#include "guzbytor.h"

uint32_t plain_register_rectangle(const uint8_t *pegs, size_t pegs_length, int32_t west, int32_t south, int32_t east, int32_t north, uint8_t *answer,
                                  size_t answer_length);

uint32_t plain_register_radius(const uint8_t *pegs, size_t pegs_length, int32_t easting, int32_t northing, uint32_t radius, uint8_t *answer,
                               size_t answer_length);

guzbytor_register_find_answer plain_register_nearest(const uint8_t *pegs, size_t pegs_length, int32_t easting, int32_t northing);

#endif
