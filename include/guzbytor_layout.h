/* Where records and the state's image have their parts (docs/LAYOUT.md), for the C files of this repository: the names have no
   prefix. Written by scripts/generate.py. */
#ifndef GUZBYTOR_LAYOUT_H
#define GUZBYTOR_LAYOUT_H

#include "guzbytor.h"

/* The state's image: fields of its header, which come first. */
enum {
    AT_LAYOUT = 0,
    AT_SERVERS = 1,
    AT_QUOTA = 2,
    AT_ME = 4,
    AT_STATE = 5,
    AT_CONFIGURATION_STATUS = 6,
    AT_CONFIGURATION_ID = 7,
    AT_CONFIGURATION_SET = 11,
    AT_TRANSITIONAL_STATUS = 12,
    AT_TRANSITIONAL_SET = 13,
    AT_STATES = 14,
    AT_CPCS = 15,
    AT_COME = 16,
    AT_QUEUE_COUNT = 20,
    AT_GREEN = 24,
    AT_NUMBERED = 28,
    AT_OWN_COUNT = 30,
    AT_SENT = 32,
    AT_ATTEMPT = 34,
    AT_LAST_INDEX = 38,
    AT_LAST_ATTEMPT = 42,
    AT_LAST_SET = 46,
    AT_MARK_STATUS = 47,
    AT_MARK_INDEX = 48,
    AT_MARK_ATTEMPT = 52,
    AT_MARK_SET = 56,
    AT_MARK_BITS = 57,
    AT_YELLOW_STATUS = 58,
    AT_YELLOW_COUNT = 59,
    HEADER_SIZE = 61,
    IMAGE_LAYOUT = 11
};

/* Entries of its sections. */
enum {
    CUT_SIZE = 2,
    NOTED_SIZE = 4,
    ID_SIZE = 3,
    SLOT_SIZE = 60
};

/* An action: in a slot, and in a record's body. Its payload follows. */
enum {
    ACTION_CREATOR = 0,
    ACTION_INDEX = 1,
    ACTION_GREEN = 3,
    ACTION_WHITE = 7,
    ACTION_PAYLOAD = 11,
    ACTION_SIZE = 12
};

/* A retransmission: what stands before its action, and the longest record. */
enum {
    RETRANSMISSION_SIZE = 5,
    MOST_RETRANSMISSION = 69
};

/* A last primary, and a mark. */
enum {
    LAST_INDEX = 0,
    LAST_ATTEMPT = 4,
    LAST_SET = 8,
    MARK_STATUS = 0,
    MARK_INDEX = 1,
    MARK_ATTEMPT = 5,
    MARK_SET = 9,
    MARK_BITS = 10
};

/* A State's record: up to its cuts; and behind them, up to its yellow ids. */
enum {
    STATE_SENDER = 4,
    STATE_ID = 5,
    STATE_CUTS = 9,
    REST_GREEN = 0,
    REST_ATTEMPT = 4,
    REST_LAST_INDEX = 8,
    REST_LAST_ATTEMPT = 12,
    REST_LAST_SET = 16,
    REST_MARK_STATUS = 17,
    REST_MARK_INDEX = 18,
    REST_MARK_ATTEMPT = 22,
    REST_MARK_SET = 26,
    REST_MARK_BITS = 27,
    REST_YELLOW_STATUS = 28,
    REST_YELLOW_COUNT = 29,
    REST_SIZE = 31
};

/* The highest primary index and attempt. */
static const uint32_t MOST_INDEX = 4000000000u;

#endif
