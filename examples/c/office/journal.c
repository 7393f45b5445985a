#include "journal.h"

#include "events.h"

static const char *const STATES[] = {"Non_prim",         "Reg_prim",  "Trans_prim", "Exchange_states",
                                     "Exchange_actions", "Construct", "No",         "Un"};

void journal_begin(journal *j, uint32_t servers, uint32_t quota) {
    uint8_t setup[SETUP_LENGTH];
    if (j->run != NULL) {
        fwrite(setup, 1, write_setup(setup, servers, quota), j->run);
    }
    if (j->lines != NULL) {
        fprintf(j->lines, "event server returned state red green prim sent\n");
    }
    if (j->journal != NULL) {
        fprintf(j->journal, "servers %u quota %u\n", servers, quota);
    }
}

static void write_line(journal *j, const event *e, uint32_t returned, uint32_t put, buffer state) {
    guzbytor_summary_answer a = guzbytor_summary(state.bytes, state.length);
    fprintf(j->lines, "%zu %u %u %s %u %u %u %u\n", j->events, e->server, returned, STATES[a.state], a.red, a.green, a.primary_index, put);
}

static void write_entry(journal *j, const event *e, uint32_t returned, uint32_t put, uint32_t sent) {
    fprintf(j->journal, "%zu event %u returned %u put %u sent %u bytes ", j->entries, e->server, returned, put, sent);
    for (size_t i = 0; i < e->length; i++) {
        fprintf(j->journal, "%02x", e->bytes[i]);
    }
    if (e->delivers) {
        fprintf(j->journal, " source %zu %u position %zu", e->source.place, e->source.number, e->source.position);
    }
    if (e->name != 0) {
        fprintf(j->journal, " name %u", e->name);
    }
    fprintf(j->journal, "\n");
}

void journal_event(journal *j, const event *e, uint32_t returned, uint32_t put, uint32_t sent, buffer state) {
    j->events++;
    if (j->run != NULL) {
        fputc(e->server, j->run);
        fwrite(e->bytes, 1, e->length, j->run);
    }
    if (j->lines != NULL) {
        write_line(j, e, returned, put, state);
    }
    if (j->journal != NULL) {
        write_entry(j, e, returned, put, sent);
    }
    j->entries++;
}

static void write_plain(journal *j, const char *what, uint8_t server) {
    if (j->journal != NULL) {
        fprintf(j->journal, "%zu %s %u\n", j->entries, what, server);
    }
    j->entries++;
}

void journal_crash(journal *j, uint8_t server) { write_plain(j, "crash", server); }

void journal_store(journal *j, uint8_t server) { write_plain(j, "store", server); }

int journal_end(journal *j) {
    FILE *files[] = {j->run, j->lines, j->journal};
    int whole = 1;
    for (int i = 0; i < 3; i++) {
        if (files[i] != NULL) {
            int bad = ferror(files[i]);
            whole = fclose(files[i]) == 0 && !bad && whole;
        }
    }
    return whole;
}
