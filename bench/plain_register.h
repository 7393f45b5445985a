/* The register in plain C: the answers of guzbytor_register_apply and guzbytor_register_find. */
#ifndef PLAIN_REGISTER_H
#define PLAIN_REGISTER_H

#include "guzbytor.h"

/* 7 where the buffer is too short, 8 where it holds no register, else 0. */
uint32_t plain_register_check(const uint8_t *pegs, size_t pegs_length);

uint32_t plain_register_apply(uint8_t *pegs, size_t pegs_length, const uint8_t *payload, size_t payload_length);

guzbytor_register_find_answer plain_register_find(const uint8_t *pegs, size_t pegs_length, const uint8_t *name, size_t name_length);

/* One operation on a register that has been checked: 0, or 11, 9, 13, 10. */
uint32_t plain_operation(uint8_t *pegs, const uint8_t *payload, size_t payload_length);

#endif
