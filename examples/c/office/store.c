#include "store.h"

#include <fcntl.h>
#include <string.h>
#include <sys/stat.h>
#include <unistd.h>

/* An image's file: the checksum of history and image, how many bytes of the history go with it, and the image. */
enum { CHECKSUM_SIZE = 8, FRONT_SIZE = CHECKSUM_SIZE + 4, NAME_SIZE = 512 };

buffer new_image(uint32_t servers, uint32_t quota) { return lent((size_t)guzbytor_lengths(servers, quota).state + guzbytor_register_length()); }

buffer state_of(buffer image) { return (buffer){image.bytes, image.length - guzbytor_register_length()}; }

buffer pegs_of(buffer image) { return (buffer){image.bytes + state_of(image).length, guzbytor_register_length()}; }

static void stop(const char *what, const char *name) {
    perror(name);
    fprintf(stderr, "%s: cannot %s\n", name, what);
    exit(1);
}

static void file_name(const store *s, uint8_t me, const char *ending, char *name) {
    if (snprintf(name, NAME_SIZE, "%s/depot%u.%s", s->folder, me, ending) >= NAME_SIZE) {
        fprintf(stderr, "%s: too long a name\n", s->folder);
        exit(1);
    }
}

/* The high byte first. */
static void write_number(uint8_t *b, uint64_t number, int size) {
    for (int i = 0; i < size; i++) {
        b[i] = (uint8_t)(number >> 8 * (size - 1 - i));
    }
}

static void write_front(uint8_t *front, buffer image, const history *h) {
    write_number(front, summed(h->sum, image.bytes, image.length), CHECKSUM_SIZE);
    write_number(front + CHECKSUM_SIZE, h->length, FRONT_SIZE - CHECKSUM_SIZE);
}

static void write_all(int file, const uint8_t *b, size_t length, const char *name) {
    while (length > 0) {
        ssize_t done = write(file, b, length);
        if (done <= 0) {
            stop("write", name);
        }
        b += done;
        length -= (size_t)done;
    }
}

static void finish_file(const store *s, int file, const char *name) {
    if ((s->synced && fsync(file) != 0) || close(file) != 0) {
        stop("write", name);
    }
}

static int opened(const char *name, int how) {
    int file = open(name, O_WRONLY | O_CREAT | how, 0644);
    if (file < 0) {
        stop("create", name);
    }
    return file;
}

/* Writes the first `length` bytes of an image, with its front, beside the stored one. */
static void write_beside(const store *s, uint8_t me, buffer image, const history *h, size_t length) {
    char name[NAME_SIZE];
    uint8_t front[FRONT_SIZE];
    file_name(s, me, "new", name);
    int file = opened(name, O_TRUNC);
    write_front(front, image, h);
    write_all(file, front, FRONT_SIZE, name);
    write_all(file, image.bytes, length, name);
    finish_file(s, file, name);
}

/* Writes the next `length` bytes of the history behind those that are stored. */
static void write_history(const store *s, uint8_t me, const history *h, size_t length) {
    char name[NAME_SIZE];
    if (length == 0) {
        return;
    }
    file_name(s, me, "history", name);
    int file = opened(name, 0);
    if (lseek(file, (off_t)h->stored, SEEK_SET) < 0) {
        stop("write", name);
    }
    write_all(file, h->bytes + h->stored, length, name);
    finish_file(s, file, name);
}

static void sync_folder(const store *s) {
    int folder = open(s->folder, O_RDONLY | O_DIRECTORY);
    if (folder < 0 || fsync(folder) != 0 || close(folder) != 0) {
        stop("sync", s->folder);
    }
}

void store_open(const store *s) {
    struct stat found;
    if (mkdir(s->folder, 0755) != 0 && (stat(s->folder, &found) != 0 || !S_ISDIR(found.st_mode))) {
        stop("make", s->folder);
    }
}

void store_all(const store *s, uint8_t me, buffer image, history *h) {
    char beside[NAME_SIZE], name[NAME_SIZE];
    file_name(s, me, "new", beside);
    file_name(s, me, "img", name);
    write_history(s, me, h, h->length - h->stored);
    write_beside(s, me, image, h, image.length);
    if (rename(beside, name) != 0) {
        stop("rename", beside);
    }
    if (s->synced) {
        sync_folder(s); /* the new names too are on the disk */
    }
    h->stored = h->length;
}

void store_cut(const store *s, uint8_t me, buffer image, const history *h, size_t length) {
    size_t behind = h->length - h->stored;
    write_history(s, me, h, length < behind ? length : behind);
    if (length >= behind) {
        write_beside(s, me, image, h, length - behind);
    }
}

static int refused(const char *name, const char *why) {
    fprintf(stderr, "%s is refused: %s\n", name, why);
    return 0;
}

/* The first `length` bytes of a history's file. */
static int load_history(const store *s, uint8_t me, size_t length, history *h) {
    char name[NAME_SIZE];
    if (length == 0) {
        return 1;
    }
    buffer entries = lent(length);
    file_name(s, me, "history", name);
    FILE *file = fopen(name, "rb");
    int whole = file != NULL && fread(entries.bytes, 1, length, file) == length && history_add(h, entries.bytes, length);
    if (file != NULL) {
        fclose(file);
    }
    free(entries.bytes);
    h->stored = h->length;
    return whole || refused(name, "it has not all that goes with the image");
}

static int load_files(const store *s, uint8_t me, const char *name, buffer image, history *h) {
    uint8_t found[FRONT_SIZE], right[FRONT_SIZE];
    FILE *file = fopen(name, "rb");
    if (file == NULL) {
        return refused(name, "it cannot be read");
    }
    int whole = fread(found, 1, FRONT_SIZE, file) == FRONT_SIZE && fread(image.bytes, 1, image.length, file) == image.length && fgetc(file) == EOF;
    fclose(file);
    if (!whole) {
        return refused(name, "its length is not that of an image for these numbers of depots and quota");
    }
    const uint8_t *length = found + CHECKSUM_SIZE;
    if (!load_history(s, me, (size_t)length[0] << 24 | (size_t)length[1] << 16 | (size_t)length[2] << 8 | length[3], h)) {
        return 0;
    }
    write_front(right, image, h);
    return memcmp(found, right, FRONT_SIZE) == 0 || refused(name, "its checksum is not that of its bytes and its history's");
}

/* What was read is of this depot, and goes together. */
static int fits(const store *s, uint8_t me, const char *name, buffer image, history *h) {
    buffer state = state_of(image), pegs = pegs_of(image);
    guzbytor_summary_answer a = guzbytor_summary(state.bytes, state.length);
    if (a.number != 0) {
        return refused(name, "it holds no well-formed state");
    }
    if (guzbytor_register_find(pegs.bytes, pegs.length, NULL, 0).number != 0) {
        return refused(name, "it holds no well-formed register");
    }
    if (a.servers != s->servers || a.quota != s->quota || a.me != me) {
        return refused(name, "it is of another number of depots, another quota or another depot");
    }
    if (a.green != h->count) {
        return refused(name, "its history is not as long as its green list");
    }
    history_whiten(h, a.white, me);
    return 1;
}

int store_load(const store *s, uint8_t me, buffer image, history *h) {
    char name[NAME_SIZE];
    file_name(s, me, "img", name);
    free(h->bytes);
    *h = history_start();
    if (load_files(s, me, name, image, h) && fits(s, me, name, image, h)) {
        return 1;
    }
    free(h->bytes);
    *h = history_start();
    return 0;
}
