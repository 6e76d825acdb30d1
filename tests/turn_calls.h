/* The two turns of a session between its kinds, sessions as docs/SESSION.md lays them out, and buffers of which every byte is looked at. */
#ifndef TURN_CALLS_H
#define TURN_CALLS_H

#include "expect.h"
#include "record_book.h"
#include <leskofar.h>

enum { FILL = 0xA5, GUARD = 16, BYTE = 256, NARROW_DEPTH = 64 };

/* Kinds of terms, and types. */
enum { BOOLEAN, INTEGER, LITERAL, ID, BUILT_IN, FUNCTION };
enum { BOOL, INT, USER_TYPE };

/* Both kinds: four words, then the levels, of which each record of the largest book has its place. */
enum { NARROW_KIND = 1, WIDE_KIND = 2 };
enum { NODE_AT = 4, GOAL_AT = 8, OWED_AT = 12, LEVELS_AT = 16, NARROW_LEVEL = 1, WIDE_LEVEL = 2 };
enum { TYPE_PLACE = 0, CONSTANT_PLACE = 64, FUNCTION_PLACE = 320, AXIOM_PLACE = 448, LITERAL_PLACE = 576, PLACES = 1600 };
enum { NOTHING, REPLY, MODEL, OWED_VALUES };

_Static_assert(LEVELS_AT + WIDE_LEVEL * PLACES == LESKOFAR_IMAGE, "two bytes for each level");
_Static_assert(LEVELS_AT + NARROW_LEVEL * PLACES == LESKOFAR_NARROW_IMAGE, "one byte for each level");

struct session {
    uint32_t node;
    uint32_t goal;
    uint32_t owed;
    uint32_t levels[PLACES];
};

/* A kind of image: its first word, and how many bytes a level has. */
struct kind {
    uint32_t number;
    size_t level_size;
    size_t size;
};

static const struct kind NARROW = {NARROW_KIND, NARROW_LEVEL, LESKOFAR_NARROW_IMAGE};
static const struct kind WIDE = {WIDE_KIND, WIDE_LEVEL, LESKOFAR_IMAGE};

/* A level's low byte comes first; one that is too large for its bytes is cut. */
static inline void spell(uint8_t *image, const struct kind *kind, const struct session *s) {
    put_number(image, kind->number);
    put_number(image + NODE_AT, s->node);
    put_number(image + GOAL_AT, s->goal);
    put_number(image + OWED_AT, s->owed);
    for (size_t place = 0; place < PLACES; place++) {
        uint32_t rest = s->levels[place];
        for (size_t i = 0; i < kind->level_size; i++) {
            image[LEVELS_AT + place * kind->level_size + i] = (uint8_t)(rest % BYTE);
            rest /= BYTE;
        }
    }
}

/* A turn as a function, with the kinds that it leads from and to. */
struct turn {
    const char *name;
    uint32_t (*call)(const uint8_t *, size_t, uint8_t *, size_t, const uint8_t *, size_t, uint8_t *, size_t);
    const struct kind *from;
    const struct kind *to;
};

enum { WIDENING, TURNING_BACK, TURNS };
static const struct turn TURN[TURNS] = {
    [WIDENING] = {"widening", leskofar_widen, &NARROW, &WIDE},
    [TURNING_BACK] = {"turning back", leskofar_narrow, &WIDE, &NARROW},
};

/* A buffer between bytes that nobody may touch, with room for more than a call is given. */
#define FRAMED(room) \
    struct { \
        uint8_t before[GUARD]; \
        uint8_t at[(room) + GUARD]; \
    }

/* What a turn is lent. */
struct desk {
    uint8_t book[ROOM_BOOK];
    size_t book_len;
    FRAMED(LESKOFAR_SCRATCH) scratch;
    size_t scratch_len;
    FRAMED(LESKOFAR_IMAGE) from;
    size_t from_len;
    FRAMED(LESKOFAR_IMAGE) to;
    size_t to_len;
};

/* The lengths that a turn takes, and the session as an image to turn. */
static inline void lay(struct desk *d, const struct turn *turn, const struct session *s) {
    memset(&d->from, FILL, sizeof d->from);
    spell(d->from.at, turn->from, s);
    d->scratch_len = LESKOFAR_SCRATCH;
    d->from_len = turn->from->size;
    d->to_len = turn->to->size;
}

static inline int is_scratch_left(const struct desk *d, uint32_t refusal) {
    size_t cleared = refusal == LESKOFAR_SHORT_SCRATCH ? 0 : d->scratch_len;
    return all_are(d->scratch.before, GUARD, FILL) && all_are(d->scratch.at, cleared, 0) &&
           all_are(d->scratch.at + cleared, sizeof d->scratch.at - cleared, FILL);
}

/* The turn's answer; whether scratch, book and the image received are left as they must be is told in `is_well`. */
static inline uint32_t call_turn(struct desk *d, const struct turn *turn, int *is_well) {
    static struct desk before;
    memset(&d->scratch, FILL, sizeof d->scratch);
    memset(&d->to, FILL, sizeof d->to);
    memcpy(before.book, d->book, d->book_len);
    before.from = d->from;
    uint32_t answer = turn->call(d->book, d->book_len, d->scratch.at, d->scratch_len, d->from.at, d->from_len, d->to.at, d->to_len);
    *is_well = is_scratch_left(d, answer) && memcmp(d->book, before.book, d->book_len) == 0 &&
               memcmp(&d->from, &before.from, sizeof d->from) == 0;
    return answer;
}

/* Whether a turn is refused with this number, and has touched no byte of the other image. */
static inline int is_refused(struct desk *d, const struct turn *turn, uint32_t refusal) {
    int is_well;
    return call_turn(d, turn, &is_well) == refusal && is_well && all_are(d->to.before, GUARD, FILL) &&
           all_are(d->to.at, sizeof d->to.at, FILL);
}

/* Whether a turn is accepted, and has written just this session, and nothing behind it. */
static inline int is_turned(struct desk *d, const struct turn *turn, const struct session *s) {
    uint8_t wanted[LESKOFAR_IMAGE];
    int is_well;
    const size_t size = turn->to->size;
    spell(wanted, turn->to, s);
    return call_turn(d, turn, &is_well) == LESKOFAR_ACCEPTED && is_well && all_are(d->to.before, GUARD, FILL) &&
           memcmp(d->to.at, wanted, size) == 0 && all_are(d->to.at + size, sizeof d->to.at - size, FILL);
}

#endif
