/* A register of four pegs, and the questions on pegs in the plane: those inside a rectangle, those within a radius, the nearest one. An answer is a register,
   so that one function prints all of them, and the last question asks an answer. */
#include "pegs.h"

#include <stdio.h>
#include <stdlib.h>
#include <string.h>

static void check(uint32_t number) {
    if (number != 0) {
        fprintf(stderr, "refused: %u\n", number);
        exit(1);
    }
}

static void put_coordinate(uint8_t *b, int32_t value) {
    for (int i = 0; i < 4; i++) {
        b[i] = (uint8_t)((uint32_t)value >> (24 - 8 * i));
    }
}

static void set(uint8_t *pegs, const char *name, int32_t easting, int32_t northing) {
    size_t length = strlen(name);
    uint8_t payload[2 + GUZBYTOR_MOST_NAME + 8] = {GUZBYTOR_SET, (uint8_t)length};
    memcpy(payload + 2, name, length);
    put_coordinate(payload + 2 + length, easting);
    put_coordinate(payload + 2 + length + 4, northing);
    check(guzbytor_register_apply(pegs, GUZBYTOR_REGISTER_LENGTH, payload, 2 + length + 8));
}

static void print_names(const char *question, const uint8_t *pegs) {
    printf("%s:", question);
    for (size_t i = 0; i < peg_count(pegs); i++) {
        const uint8_t *slot = pegs + peg_at(i);
        printf(" %.*s", slot[0], (const char *)peg_name(slot));
    }
    printf("\n");
}

static void print_nearest(const char *question, const uint8_t *pegs, int32_t easting, int32_t northing) {
    guzbytor_register_find_answer a = guzbytor_register_nearest(pegs, GUZBYTOR_REGISTER_LENGTH, easting, northing);
    check(a.number);
    if (!a.found) {
        printf("%s: none\n", question);
        return;
    }
    const uint8_t *slot = pegs + peg_at(a.index);
    printf("%s: %.*s at %d %d\n", question, slot[0], (const char *)peg_name(slot), a.easting, a.northing);
}

int main(void) {
    static uint8_t pegs[GUZBYTOR_REGISTER_LENGTH], sheet[GUZBYTOR_REGISTER_LENGTH], near[GUZBYTOR_REGISTER_LENGTH];
    check(guzbytor_register_start(pegs, sizeof pegs));
    print_nearest("nearest to 0 0, no pegs", pegs, 0, 0);
    set(pegs, "A", 3000, 4000);
    set(pegs, "B", -3000, 4000);
    set(pegs, "C", 0, -6000);
    set(pegs, "D", INT32_MAX, INT32_MIN);
    check(guzbytor_register_rectangle(pegs, sizeof pegs, -3000, -6000, 3000, 4000, sheet, sizeof sheet));
    print_names("inside -3000 -6000 3000 4000", sheet);
    check(guzbytor_register_radius(pegs, sizeof pegs, 0, 0, 5000, near, sizeof near));
    print_names("within 5000 of 0 0", near);
    print_nearest("nearest to 0 0", pegs, 0, 0);
    print_nearest("nearest to 0 -6000 of those within 5000 of 0 0", near, 0, -6000);
    printf("inside 1 0 0 0: refused %u\n", guzbytor_register_rectangle(pegs, sizeof pegs, 1, 0, 0, 0, sheet, sizeof sheet));
    print_names("the answer's buffer, as it was", sheet);
    return 0;
}
