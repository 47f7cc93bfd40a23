/*
 * The numbers that the solver and the judge give back, with their places, and a
 * sentence for each. Included by cheesetrestle.h.
 */
#ifndef CHEESETRESTLE_NUMBERS_H
#define CHEESETRESTLE_NUMBERS_H

#include <stdint.h>

#ifdef __cplusplus
extern "C" {
#endif

/* The place of 3 to 7 is the offset of the field at fault, that of 8 to 11 the
 * number of the equation, counted from 0; where none is named it is 0. No place
 * is over 65,535. */
enum {
    CHEESETRESTLE_ACCEPTED = 0,     /* solver; place: the answer's length */
    CHEESETRESTLE_HOLDS = 0,        /* judge */
    CHEESETRESTLE_TOO_LONG = 1,     /* the input is over 65,535 bytes */
    CHEESETRESTLE_NO_HEAD = 2,      /* no good head, or an empty input */
    CHEESETRESTLE_CUT = 3,          /* a field is cut short */
    CHEESETRESTLE_UNKNOWN_TAG = 4,  /* or a second head */
    CHEESETRESTLE_WRONG_LENGTH = 5, /* for the field's tag */
    CHEESETRESTLE_TOO_MANY = 6,     /* over 512 nodes, 64 equations or 64 freshness fields */
    CHEESETRESTLE_NOT_THERE = 7,    /* an atom, a variable or a node */
    CHEESETRESTLE_LIMIT = 8,        /* the step limit is reached */
    CHEESETRESTLE_CLASH = 9,        /* solver */
    CHEESETRESTLE_INSIDE = 10,      /* solver: a variable inside its own value */
    CHEESETRESTLE_PROTECTED = 11,   /* solver: a protected variable would be bound */
    CHEESETRESTLE_NOT_FRESH = 12,   /* solver */
    CHEESETRESTLE_TOO_SHORT = 13,   /* solver: the lent output; place: the answer's length */
    CHEESETRESTLE_DOES_NOT_HOLD = 14, /* judge */
    CHEESETRESTLE_NO_ROOM = 255     /* neither's: a problem that was built is longer than its room */
};

/* What a number means, in English, without a full stop. */
static inline const char *cheesetrestle_message(uint32_t number)
{
    switch (number) {
    case CHEESETRESTLE_ACCEPTED: return "accepted by the solver, or found to hold by the judge";
    case CHEESETRESTLE_TOO_LONG: return "the input has over 65,535 bytes";
    case CHEESETRESTLE_NO_HEAD: return "the input is empty, or its first field is no good head";
    case CHEESETRESTLE_CUT: return "a field is cut short";
    case CHEESETRESTLE_UNKNOWN_TAG: return "a field has an unknown tag, or is a second head";
    case CHEESETRESTLE_WRONG_LENGTH: return "a field has the wrong length for its tag";
    case CHEESETRESTLE_TOO_MANY: return "a field is one too many: at most 512 nodes, 64 equations and 64 freshness fields";
    case CHEESETRESTLE_NOT_THERE: return "a field names an atom, a variable or a node that is not there";
    case CHEESETRESTLE_LIMIT: return "the step limit was reached; nothing is said about the problem";
    case CHEESETRESTLE_CLASH: return "two different forms, atoms or symbols stand against each other; there is no solution";
    case CHEESETRESTLE_INSIDE: return "a variable would have to stand inside its own value; there is no solution";
    case CHEESETRESTLE_PROTECTED: return "a protected variable would be bound; there is no solution that leaves it alone";
    case CHEESETRESTLE_NOT_FRESH: return "an atom would have to be fresh for itself; there is no solution";
    case CHEESETRESTLE_TOO_SHORT: return "the answer is longer than the lent output";
    case CHEESETRESTLE_DOES_NOT_HOLD: return "it does not hold: some line does not follow from the assumptions";
    case CHEESETRESTLE_NO_ROOM: return "the problem is longer than the room that was lent for it";
    default: return "no number that the solver or the judge gives back";
    }
}

#ifdef __cplusplus
}
#endif

#endif
