/* Lengths on the page are tenths of a pixel. */
#include "drawing.h"

#include "shown.h"

#include <string.h>

enum {
    LEFT = 1000,  /* margins */
    RIGHT = 300,
    TOP = 300,
    BOTTOM = 600,
    WIDTH = 8000, /* of a sheet for few pegs; the more there are, the larger it is */
    FEW = 150,
    ARM = 40,     /* of a cross */
    RING = 80,    /* around the nearest peg */
    LETTER = 67,  /* the width of a letter, and the height of a line */
    LINE = 120,
    LEAST = 10000 /* millimetres from west to east */
};

/* What the frame shows: its corner, and millimetres from west to east; its size on the page. */
typedef struct {
    int64_t west, south, span, width, height;
} frame;

typedef struct {
    int64_t west, south, east, north;
} extent;

static int64_t across(const frame *f, int64_t easting) { return LEFT + (easting - f->west) * f->width / f->span; }

static int64_t down(const frame *f, int64_t northing) { return TOP + f->height - (northing - f->south) * f->width / f->span; }

static extent of_pegs(const uint8_t *pegs) {
    extent all = {0};
    for (size_t i = 0; i < peg_count(pegs); i++) {
        int64_t e = peg_easting(pegs + peg_at(i)), n = peg_northing(pegs + peg_at(i));
        all.west = i == 0 || e < all.west ? e : all.west;
        all.east = i == 0 || e > all.east ? e : all.east;
        all.south = i == 0 || n < all.south ? n : all.south;
        all.north = i == 0 || n > all.north ? n : all.north;
    }
    return all;
}

/* The rectangle, or all pegs, in the middle, with room around. */
static frame fitted(const uint8_t *pegs, const sides *rectangle) {
    extent shown = rectangle == NULL ? of_pegs(pegs) : (extent){rectangle->west, rectangle->south, rectangle->east, rectangle->north};
    int64_t large = 1;
    while ((int64_t)peg_count(pegs) > FEW * large * large) {
        large++;
    }
    frame f = {.width = WIDTH * large, .height = WIDTH * large * 5 / 8};
    int64_t wide = shown.east - shown.west, high = (shown.north - shown.south) * f.width / f.height;
    f.span = (wide > high ? wide : high) * 9 / 8;
    f.span = f.span < LEAST ? LEAST : f.span;
    f.west = shown.west - (f.span - wide) / 2;
    f.south = shown.south - (f.span * f.height / f.width - (shown.north - shown.south)) / 2;
    return f;
}

/* 1, 2 or 5 and zeros: some six to the width of a small sheet. */
static int64_t grid_step(const frame *f) {
    int64_t most = 6 * f->width / WIDTH;
    for (int64_t ten = 1;; ten *= 10) {
        for (int64_t step = ten; step <= 5 * ten; step = step == ten ? 2 * ten : step + 3 * ten) {
            if (f->span / step <= most) {
                return step;
            }
        }
    }
}

static int64_t first_line(int64_t from, int64_t step) {
    int64_t line = from / step * step;
    return line < from ? line + step : line;
}

static void draw_grid(const frame *f, int64_t step) {
    char text[MOST_METRES];
    for (int64_t e = first_line(f->west, step); across(f, e) <= LEFT + f->width; e += step) {
        printf("<path class=\"grid\" d=\"M%lld %d v%lld\"/>", (long long)across(f, e), TOP, (long long)f->height);
        printf("<text class=\"grid\" text-anchor=\"middle\" x=\"%lld\" y=\"%lld\">%s</text>\n", (long long)across(f, e),
               (long long)(TOP + f->height + LINE + ARM), metres(e, text));
    }
    for (int64_t n = first_line(f->south, step); down(f, n) >= TOP; n += step) {
        printf("<path class=\"grid\" d=\"M%d %lld h%lld\"/>", LEFT, (long long)down(f, n), (long long)f->width);
        printf("<text class=\"grid\" text-anchor=\"end\" x=\"%d\" y=\"%lld\">%s</text>\n", LEFT - ARM, (long long)down(f, n) + ARM, metres(n, text));
    }
}

/* ---- names beside their crosses */

typedef struct {
    int64_t x, y, width, height;
} box;

static int overlap(const box *a, const box *b) {
    return a->x < b->x + b->width && b->x < a->x + a->width && a->y < b->y + b->height && b->y < a->y + a->height;
}

/* The first place beside the cross that is in the frame and free, or right of it. The first `count` boxes are taken. */
static box placed(const frame *f, const box *cross, int64_t letters, const box *boxes, size_t count) {
    static const int beside[][2] = {{2, 1}, {0, 1}, {1, 0}, {1, 2}, {2, 0}, {2, 2}, {0, 0}, {0, 2}};
    box first = {0}, b = {.width = letters * LETTER, .height = LINE};
    for (size_t k = 0; k < sizeof beside / sizeof beside[0]; k++) {
        int64_t xs[] = {cross->x - b.width, cross->x + cross->width / 2 - b.width / 2, cross->x + cross->width};
        int64_t ys[] = {cross->y - LINE, cross->y + cross->height / 2 - LINE / 2, cross->y + cross->height};
        b.x = xs[beside[k][0]];
        b.y = ys[beside[k][1]];
        int is_free = b.x >= LEFT && b.x + b.width <= LEFT + f->width && b.y >= TOP && b.y + b.height <= TOP + f->height;
        for (size_t i = 0; is_free && i < count; i++) {
            is_free = !overlap(&b, &boxes[i]);
        }
        if (is_free) {
            return b;
        }
        first = k == 0 ? b : first;
    }
    return first;
}

/* Text as SVG has it. */
static void print_escaped(const char *text) {
    for (; *text != '\0'; text++) {
        switch (*text) {
        case '&':
            printf("&amp;");
            break;
        case '<':
            printf("&lt;");
            break;
        case '>':
            printf("&gt;");
            break;
        case '"':
            printf("&quot;");
            break;
        case '\'':
            printf("&#39;");
            break;
        default:
            putchar(*text);
        }
    }
}

/* Half the width of a peg's mark: a cross, with a ring around the nearest. */
static int64_t reach(const uint8_t *slot, const pointer *point) {
    int is_nearest = point != NULL && point->is_drawn && memcmp(slot, point->nearest, GUZBYTOR_REGISTER_PEG_SIZE) == 0;
    return is_nearest ? RING : ARM;
}

static void draw_pegs(const frame *f, const uint8_t *pegs, const pointer *point) {
    static box boxes[2 * GUZBYTOR_MOST_PEGS];
    size_t count = peg_count(pegs);
    for (size_t i = 0; i < count; i++) {
        const uint8_t *slot = pegs + peg_at(i);
        int64_t x = across(f, peg_easting(slot)), y = down(f, peg_northing(slot)), r = reach(slot, point);
        boxes[i] = (box){x - r, y - r, 2 * r, 2 * r};
        printf("<path class=\"peg\" d=\"M%lld %lld h%d m%d %d v%d\"/>\n", (long long)x - ARM, (long long)y, 2 * ARM, -ARM, -ARM, 2 * ARM);
    }
    for (size_t i = 0; i < count; i++) {
        const uint8_t *slot = pegs + peg_at(i);
        const char *name = shown_name(slot, "");
        box b = boxes[count + i] = placed(f, &boxes[i], (int64_t)strlen(name), boxes, count + i);
        printf("<text%s x=\"%lld\" y=\"%lld\">", is_printable(slot) ? "" : " class=\"bytes\"", (long long)b.x, (long long)b.y + LINE * 3 / 4);
        print_escaped(name);
        printf("</text>\n");
    }
}

static void draw_rectangle(const frame *f, const sides *r) {
    int64_t x = across(f, r->west), y = down(f, r->north);
    printf("<path class=\"sheet\" d=\"M%lld %lld h%lld v%lld h%lld z\"/>\n", (long long)x, (long long)y, (long long)(across(f, r->east) - x),
           (long long)(down(f, r->south) - y), (long long)(x - across(f, r->east)));
}

/* A diamond at the point, if it is in the frame, and a ring around its nearest peg. */
static void draw_pointer(const frame *f, const pointer *point) {
    int64_t x = across(f, point->easting), y = down(f, point->northing);
    if (x >= LEFT && x <= LEFT + f->width && y >= TOP && y <= TOP + f->height) {
        printf("<path class=\"point\" d=\"M%lld %lld l%d %d l%d %d l%d %d z\"/>\n", (long long)x, (long long)y - ARM, ARM, ARM, -ARM, ARM, -ARM, -ARM);
    }
    if (point->is_drawn) {
        printf("<circle class=\"point\" cx=\"%lld\" cy=\"%lld\" r=\"%d\"/>\n", (long long)across(f, peg_easting(point->nearest)),
               (long long)down(f, peg_northing(point->nearest)), RING);
    }
}

static void draw_caption(const frame *f, const uint8_t *pegs, const pointer *point, int64_t step) {
    char text[MOST_METRES];
    printf("<text x=\"%d\" y=\"%lld\">%zu peg%s, grid %s m", LEFT, (long long)(TOP + f->height + BOTTOM - 3 * ARM), peg_count(pegs),
           peg_count(pegs) == 1 ? "" : "s", metres(step, text));
    if (point != NULL) {
        printf(", nearest to %s ", metres(point->easting, text));
        printf("%s: ", metres(point->northing, text));
        print_escaped(point->nearest == NULL ? "none" : shown_name(point->nearest, "\""));
        printf("%s", point->nearest == NULL || point->is_drawn ? "" : ", not on this sheet");
    }
    printf("</text>\n");
}

void draw_sheet(const uint8_t *pegs, const sides *rectangle, const pointer *point) {
    frame f = fitted(pegs, rectangle);
    int64_t wide = LEFT + f.width + RIGHT, high = TOP + f.height + BOTTOM, step = grid_step(&f);
    printf("<svg xmlns=\"http://www.w3.org/2000/svg\" xml:space=\"preserve\" width=\"%lld\" height=\"%lld\" viewBox=\"0 0 %lld %lld\">\n", (long long)wide / 10,
           (long long)high / 10, (long long)wide, (long long)high);
    printf("<style>text { font: 110px monospace; fill: #111 } .bytes { fill: #777; font-style: italic } text.grid { fill: #666 }\n");
    printf("path { fill: none; stroke-width: 8; stroke: #333 } path.grid { stroke: #ddd } path.peg { stroke: #c0281f; stroke-width: 12 }%s</style>\n",
           rectangle == NULL && point == NULL ? "" : "\npath.sheet { stroke-dasharray: 40 30 } .point { fill: none; stroke: #1f4e9c; stroke-width: 12 }");
    printf("<rect width=\"%lld\" height=\"%lld\" fill=\"#fff\"/>\n", (long long)wide, (long long)high);
    draw_grid(&f, step);
    printf("<path d=\"M%d %d h%lld v%lld h%lld z\"/>\n", LEFT, TOP, (long long)f.width, (long long)f.height, (long long)-f.width);
    if (rectangle != NULL) {
        draw_rectangle(&f, rectangle);
    }
    draw_pegs(&f, pegs, point);
    if (point != NULL) {
        draw_pointer(&f, point);
    }
    draw_caption(&f, pegs, point, step);
    printf("<path d=\"M%lld %d v-200 m-50 90 l50 -90 l50 90\"/><text text-anchor=\"middle\" x=\"%lld\" y=\"%d\">N</text>\n", (long long)(wide - RIGHT / 2),
           TOP + 300, (long long)(wide - RIGHT / 2), TOP + 60);
    printf("</svg>\n");
}
