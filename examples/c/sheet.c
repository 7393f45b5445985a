/* The pegs of a register, as a table, or drawn on a sheet as SVG, north up: a cross and a name for each. The register is a file with the bytes of its
   buffer, as `office -p` writes one, or standard input. Printable names (ASCII) are text, in the table in quotes; others are hexadecimal.
   usage: sheet [-s] [-r WEST SOUTH EAST NORTH] [-w RADIUS] [-n EASTING NORTHING] [FILE]      (millimetres)
   -s  the sheet
   -r  the pegs inside a rectangle, edges included
   -n  a point, with the peg of the whole register that is nearest to it
   -w  of the pegs inside, those within so many millimetres of the point */
#include "drawing.h"
#include "shown.h"

#include <errno.h>
#include <stdlib.h>
#include <string.h>

static void fail(const char *what, uint32_t number) {
    fprintf(stderr, "%s: %u\n", what, number);
    exit(1);
}

static void usage(void) {
    fprintf(stderr, "usage: sheet [-s] [-r WEST SOUTH EAST NORTH] [-w RADIUS] [-n EASTING NORTHING] [FILE]\n");
    exit(1);
}

/* As much of a register as there is; its length. */
static size_t read_pegs(const char *name, uint8_t *pegs) {
    FILE *f = name == NULL ? stdin : fopen(name, "rb");
    size_t length = f == NULL ? 0 : fread(pegs, 1, GUZBYTOR_REGISTER_LENGTH, f);
    if (f == NULL || ferror(f)) {
        perror(name == NULL ? "standard input" : name);
        exit(1);
    }
    if (f != stdin) {
        fclose(f);
    }
    return length;
}

/* ---- the command line */

typedef struct {
    int is_drawn, has_sides, has_point, has_radius;
    sides rectangle;
    pointer point;
    uint32_t radius;
    const char *file;
} request;

static int64_t number_in(const char *word, int64_t low, int64_t high) {
    char *end;
    errno = 0;
    long long value = word == NULL ? 0 : strtoll(word, &end, 10);
    if (word == NULL || end == word || *end != '\0' || errno != 0 || value < low || value > high) {
        usage();
    }
    return value;
}

static int32_t coordinate_in(const char *word) { return (int32_t)number_in(word, INT32_MIN, INT32_MAX); }

/* The next word, or NULL behind the last one. */
static const char *next(char ***words) { return **words == NULL ? NULL : *(*words)++; }

static request read_request(char **words) {
    request r = {0};
    for (const char *word = next(&words); word != NULL; word = next(&words)) {
        if (strcmp(word, "-s") == 0) {
            r.is_drawn = 1;
        } else if (strcmp(word, "-r") == 0) {
            r.has_sides = 1;
            r.rectangle.west = coordinate_in(next(&words));
            r.rectangle.south = coordinate_in(next(&words));
            r.rectangle.east = coordinate_in(next(&words));
            r.rectangle.north = coordinate_in(next(&words));
        } else if (strcmp(word, "-n") == 0) {
            r.has_point = 1;
            r.point.easting = coordinate_in(next(&words));
            r.point.northing = coordinate_in(next(&words));
        } else if (strcmp(word, "-w") == 0) {
            r.has_radius = 1;
            r.radius = (uint32_t)number_in(next(&words), 0, UINT32_MAX);
        } else if (word[0] == '-' || r.file != NULL) {
            usage();
        } else {
            r.file = word;
        }
    }
    if (r.has_radius && !r.has_point) {
        usage();
    }
    return r;
}

/* ---- what is shown */

/* The pegs asked for. An answer is a register, so that it can be asked in its turn. */
static const uint8_t *chosen(const request *r, const uint8_t *pegs, size_t length) {
    static uint8_t inside[GUZBYTOR_REGISTER_LENGTH], near[GUZBYTOR_REGISTER_LENGTH];
    uint32_t number = 0;
    if (r->has_sides) {
        number = guzbytor_register_rectangle(pegs, length, r->rectangle.west, r->rectangle.south, r->rectangle.east, r->rectangle.north, inside, sizeof inside);
        pegs = inside;
    }
    if (number == 0 && r->has_radius) {
        number = guzbytor_register_radius(pegs, GUZBYTOR_REGISTER_LENGTH, r->point.easting, r->point.northing, r->radius, near, sizeof near);
        pegs = near;
    }
    if (number != 0) {
        fail(number == GUZBYTOR_BAD_RECTANGLE ? "no rectangle" : "no register", number);
    }
    return pegs;
}

static void print_table(const uint8_t *pegs) {
    char easting[MOST_METRES], northing[MOST_METRES];
    int widest = 4;
    for (size_t i = 0; i < peg_count(pegs); i++) {
        int width = (int)strlen(shown_name(pegs + peg_at(i), "\""));
        widest = width > widest ? width : widest;
    }
    printf("%-*s  %12s  %12s\n", widest, "name", "easting (m)", "northing (m)");
    for (size_t i = 0; i < peg_count(pegs); i++) {
        const uint8_t *slot = pegs + peg_at(i);
        printf("%-*s  %12s  %12s\n", widest, shown_name(slot, "\""), metres(peg_easting(slot), easting), metres(peg_northing(slot), northing));
    }
}

/* Which peg of the register is nearest to the point, and whether it is among those shown. */
static void point_out(pointer *point, const uint8_t *pegs, size_t length, const uint8_t *shown) {
    guzbytor_register_find_answer nearest = guzbytor_register_nearest(pegs, length, point->easting, point->northing);
    if (nearest.found) {
        point->nearest = pegs + peg_at(nearest.index);
        point->is_drawn = (int)guzbytor_register_find(shown, GUZBYTOR_REGISTER_LENGTH, peg_name(point->nearest), point->nearest[0]).found;
    }
}

int main(int count, char **words) {
    static uint8_t pegs[GUZBYTOR_REGISTER_LENGTH];
    request r = read_request(words + (count > 0));
    size_t length = read_pegs(r.file, pegs);
    uint32_t number = guzbytor_register_find(pegs, length, NULL, 0).number;
    if (number != 0) {
        fail("no register", number);
    }
    const uint8_t *shown = chosen(&r, pegs, length);
    if (r.has_point) {
        point_out(&r.point, pegs, length, shown);
    }
    if (r.is_drawn) {
        draw_sheet(shown, r.has_sides ? &r.rectangle : NULL, r.has_point ? &r.point : NULL);
    } else {
        print_table(shown);
        if (r.has_point) {
            printf("nearest: %s\n", r.point.nearest == NULL ? "none" : shown_name(r.point.nearest, "\""));
        }
    }
    return ferror(stdout) || fflush(stdout) != 0;
}
