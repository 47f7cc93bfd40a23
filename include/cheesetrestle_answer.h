/*
 * The fields of an answer, one after the other. Included by cheesetrestle.h.
 *
 *   struct cheesetrestle_answer answer;
 *   struct cheesetrestle_field field;
 *
 *   cheesetrestle_answer_begin(&answer, output, length);
 *   while (cheesetrestle_answer_next(&answer, &field)) ..
 *
 * Nothing past the length is read, and nothing is copied: the bytes have to stay
 * as long as the answer is read.
 */
#ifndef CHEESETRESTLE_ANSWER_H
#define CHEESETRESTLE_ANSWER_H

#include <stddef.h>
#include <stdint.h>

#ifdef __cplusplus
extern "C" {
#endif

/* The tags of an answer's fields, in the order in which they come: the steps
 * once, then the bindings in the order made, then the facts by variable and atom. */
enum { CHEESETRESTLE_STEPS = 0x4E, CHEESETRESTLE_BINDING = 0x40, CHEESETRESTLE_FACT = 0x41 };

/* One field. A binding: the variable is that node, with each atom a of it
 * becoming images[a]. A fact: on condition that the atom is fresh for the
 * variable. What a field's tag has no use for is 0. */
struct cheesetrestle_field {
    uint32_t steps;        /* CHEESETRESTLE_STEPS */
    uint16_t node;         /* CHEESETRESTLE_BINDING */
    uint8_t tag;
    uint8_t variable;      /* CHEESETRESTLE_BINDING, CHEESETRESTLE_FACT */
    uint8_t atom;          /* CHEESETRESTLE_FACT */
    uint8_t atoms;         /* CHEESETRESTLE_BINDING: how many images there are */
    const uint8_t *images; /* CHEESETRESTLE_BINDING: a part of the answer's bytes */
};

/* An answer, and how far it is read. */
struct cheesetrestle_answer {
    const uint8_t *rest;
    size_t left;
};

/* Inside: the field at the front of the bytes, and its size; 0 if there is none. */
static inline size_t cheesetrestle_field_at(const uint8_t *at, size_t left, struct cheesetrestle_field *field)
{
    static const struct cheesetrestle_field none = {0, 0, 0, 0, 0, 0, NULL};
    size_t size;

    *field = none;
    if (left < 3)
        return 0;
    size = (size_t)((unsigned)at[1] << 8 | at[2]);
    if (size > left - 3)
        return 0;
    field->tag = at[0];
    at += 3;
    if (field->tag == CHEESETRESTLE_STEPS && size == 4) {
        field->steps = (uint32_t)at[0] << 24 | (uint32_t)at[1] << 16 | (uint32_t)at[2] << 8 | at[3];
    } else if (field->tag == CHEESETRESTLE_BINDING && size >= 3 && size <= 35) {
        field->variable = at[0];
        field->node = (uint16_t)((unsigned)at[1] << 8 | at[2]);
        field->atoms = (uint8_t)(size - 3);
        field->images = at + 3;
    } else if (field->tag == CHEESETRESTLE_FACT && size == 2) {
        field->atom = at[0];
        field->variable = at[1];
    } else {
        return 0;
    }
    return 3 + size;
}

/* Inside: whether a binding's images are the atoms, each once. */
static inline int cheesetrestle_images_permute(const struct cheesetrestle_field *field)
{
    uint32_t met = 0;
    unsigned i;

    for (i = 0; i < field->atoms; i++) {
        if (field->images[i] >= field->atoms || (met >> field->images[i] & 1) != 0)
            return 0;
        met |= (uint32_t)1 << field->images[i];
    }
    return 1;
}

/* Inside: what the fields so far leave open to the next one. */
struct cheesetrestle_so_far {
    uint64_t bound; /* the variables that are bound, as bits */
    unsigned atoms; /* no atom is as high */
    int fields, bindings;
    int last_fact;  /* 32 times its variable and its atom, or -1 */
};

/* Inside: whether a field may come next, and then it counts as come. */
static inline int cheesetrestle_field_follows(struct cheesetrestle_so_far *so_far, const struct cheesetrestle_field *field)
{
    int fact = 32 * field->variable + field->atom;

    if ((so_far->fields++ == 0) != (field->tag == CHEESETRESTLE_STEPS))
        return 0;
    if (field->tag == CHEESETRESTLE_STEPS)
        return 1;
    if (field->variable >= 64 || (so_far->bound >> field->variable & 1) != 0)
        return 0;
    if (field->tag == CHEESETRESTLE_FACT) {
        if (field->atom >= so_far->atoms || fact <= so_far->last_fact)
            return 0;
        so_far->last_fact = fact;
        return 1;
    }
    if (so_far->last_fact >= 0 || field->node >= 512 || (so_far->bindings++ > 0 && field->atoms != so_far->atoms))
        return 0;
    so_far->bound |= (uint64_t)1 << field->variable;
    so_far->atoms = field->atoms;
    return cheesetrestle_images_permute(field);
}

/* Starts at an answer's first field. Gives 1 if the bytes are an answer as far as
 * can be told without its problem; else 0, and then there is no field. */
static inline int cheesetrestle_answer_begin(struct cheesetrestle_answer *answer, const uint8_t *bytes, size_t length)
{
    struct cheesetrestle_so_far so_far = {0, 32, 0, 0, -1};
    struct cheesetrestle_field field;
    size_t at = 0, size;

    answer->rest = bytes;
    answer->left = 0;
    while (at < length) {
        size = cheesetrestle_field_at(bytes + at, length - at, &field);
        if (size == 0 || !cheesetrestle_field_follows(&so_far, &field))
            return 0;
        at += size;
    }
    answer->left = length;
    return length > 0;
}

/* The next field. Gives 1, or 0 at the end. */
static inline int cheesetrestle_answer_next(struct cheesetrestle_answer *answer, struct cheesetrestle_field *field)
{
    size_t size = cheesetrestle_field_at(answer->rest, answer->left, field);

    if (size == 0)
        return 0;
    answer->rest += size;
    answer->left -= size;
    return 1;
}

#ifdef __cplusplus
}
#endif

#endif
