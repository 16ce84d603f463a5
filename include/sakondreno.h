/* Sakondreno: coordinate pipelines, read, checked and run.
 *
 * Link with libsakondreno.a (tools/staticlib makes it in target/staticlib; for x86-64).
 *
 * WHO OWNS WHAT. Every call works in storage that the caller lends for the length of the call: it keeps no pointer and
 * allocates nothing. A pointer must be valid for the length given behind it, and what a call writes to must not overlap
 * anything else that it is lent. A length may be 0; the pointer must not be null even then.
 *
 * ANSWERS AND REFUSALS. Every call ends, on every input. It answers, or it refuses with a number from the list below and a
 * place; then all that it was lent is as it was at the call. An answer writes nothing past its own end. A place is that of the
 * faulty step or record, counted from 1, or 0 where none is at fault.
 *
 * OFFSETS. Refusal 12 also says at which byte of the step's text the fault is, counted from 0: where the first element of a
 * series begins that is no number, where the value of a bad flag begins, or where a missing value would begin, which may be the
 * end of the text. Of several faults it is the first. An editor underlines there. The text is the one that is cut into
 * parameters: words one space apart, leading modifiers turned to the end. To have it, take the step's line from
 * `sakondreno_split` and split that line once more, since a step is normalised again when it is cut.
 *
 * SPANS. A step record says where the step's text stands in the normalised definition: its first byte, counted from 0, and how
 * many there are, modifiers in front included. A check that names a step gives its span, for an editor to underline. The
 * normalised definition is what `sakondreno_definition` answers; `sakondreno_next` finds its steps at the same places.
 *
 * TEXTS are bytes, without a zero at the end: ASCII and the ten subscript digits, at most 4,096 bytes.
 */
#ifndef SAKONDRENO_H
#define SAKONDRENO_H

#include <stdbool.h>
#include <stddef.h>
#include <stdint.h>

#ifdef __cplusplus
extern "C" {
#endif

/* ---- the numbers of refusals */
enum {
    SAKONDRENO_LONG = 1,       /* a text, or in preparing one step's text, is over 4,096 bytes */
    SAKONDRENO_DOMAIN = 2,     /* a byte is neither ASCII nor part of a whole subscript digit */
    SAKONDRENO_INIT = 3,       /* translate: `init=` stands before `proj=`, or without one, in a step */
    SAKONDRENO_NESTED = 4,     /* translate: a step after the first is `proj=pipeline` */
    SAKONDRENO_ONLY_INV = 5,   /* translate: of a step nothing but `inv` is left */
    SAKONDRENO_MODIFIERS = 6,  /* a step has no words but `inv`, `omit_fwd` or `omit_inv` */
    SAKONDRENO_ROOM = 7,       /* the whole answer is longer than the lent buffer, or the lent row of records */
    SAKONDRENO_STEPS = 8,      /* more than 64 steps */
    SAKONDRENO_KEYS = 9,       /* more than 32 distinct keys in a step, its name included */
    SAKONDRENO_NAME = 10,      /* a step without a name, or its name is not one of the five operators */
    SAKONDRENO_KEY = 11,       /* a key that the operator lacks */
    SAKONDRENO_NUMBER = 12,    /* an element of a series is not a number, or a flag is neither bare nor `=true` */
    SAKONDRENO_SERIES = 13,    /* a series of more than 8 elements */
    SAKONDRENO_RULE = 14,      /* the operator's own rule is broken */
    SAKONDRENO_LIST = 15,      /* run: the list's length is no multiple of 4, or it has over 65,536 tuples */
    SAKONDRENO_DEPTH = 16,     /* run: more than 64 columns after the step */
    SAKONDRENO_STORE = 17,     /* run: the store is shorter than the deepest depth times the tuples */
    SAKONDRENO_RECORD = 18     /* check, run: a record that no preparation makes, or of another reading than the first, or whose
                                * span is empty, ends past byte 40,960 or begins before the last one ends; at 0: over 64 records */
};

/* ---- step records */

/* The operators by their numbers. */
enum {
    SAKONDRENO_PUSH = 0,         /* args: the places 1 to 4, rising, possibly none */
    SAKONDRENO_POP = 1,          /* the same; they are popped from the last to the first */
    SAKONDRENO_STACK_PUSH = 2,   /* args: places 1 to 4, at least one, in the order given, repeats allowed */
    SAKONDRENO_STACK_POP = 3,
    SAKONDRENO_STACK_FLIP = 4,
    SAKONDRENO_STACK_ROLL = 5,   /* args: m and n; n's size is below m, its sign may be minus */
    SAKONDRENO_STACK_UNROLL = 6,
    SAKONDRENO_STACK_SWAP = 7,   /* no args */
    SAKONDRENO_STACK_DROP = 8,
    SAKONDRENO_AXISSWAP = 9,     /* args: the order, 1 to 4 signed places, each once */
    SAKONDRENO_ADAPT = 10,       /* `adapt` in the crate's mode; args: eight, as described below */
    SAKONDRENO_DOCUMENTED = 11   /* `adapt` in the documented mode; args: eight, as described below */
};

/* The eight args of `adapt`. The first four are signed places, each place once: forward, output i is the input's number at the
 * place args[i - 1], its sign turned where that is below 0. The last four are codes, args[i + 3] for output i, of a change in the
 * unit of angles: 3 times the input's unit plus the output's, where 0 is radians, 1 degrees and 2 gons; or 0 for no change. Two
 * of the codes are alike and the other two are 0. In the crate's mode the two are those of outputs 1 and 2; in the documented
 * mode those of the two outputs that point east or west, and north or south, wherever they stand. */

/* The readings of a definition by their numbers. */
enum {
    SAKONDRENO_CRATE = 0, /* `inv` turns `axisswap` and `adapt` only */
    SAKONDRENO_PROJ = 1   /* `inv` turns every operator */
};

/* The modes of preparing by their numbers. A mode says what `adapt` steps do; no other step depends on it. Take `adapt from=nwuf`:
 * the input's first number points north and its second west; the output's point east and north. */
enum {
    SAKONDRENO_MODE_CRATE = 0,     /* As the crate's code has it: a sign and a unit of angle belong to a position, and stay there
                                    * when the number moves. 1,2,3,4 becomes 2,-1,3,4. Inverse need not undo forward. */
    SAKONDRENO_MODE_DOCUMENTED = 1 /* As the page of `adapt` describes it: they belong to an axis, and move with its number.
                                    * 1,2,3,4 becomes -2,1,3,4. Inverse undoes forward, but for rounding where a unit changes. */
};

/* Where a step's text stands in the normalised definition. */
typedef struct {
    uint32_t from;   /* its first byte, counted from 0 */
    uint32_t length; /* how many bytes it has */
} sakondreno_span;

/* A step. `sakondreno_prepare` makes it; a record made otherwise is refused 18 unless preparing could have made it: slots of
 * args that are not used hold 0, marks are 0 or 1, and all records of a table have one reading. The mode of an `adapt` step is
 * in its operator's number, and a table may hold both. Of spans no more is asked than that each has a byte, none passes byte
 * 40,960, and none begins before the last one ends. What a check or a run does with a table does not depend on them, but for the
 * span that the check gives back. 48 bytes. */
typedef struct {
    uint8_t operator_; /* by its number */
    uint8_t n;         /* how many of args are used */
    uint8_t inv;       /* marks */
    uint8_t omit_fwd;
    uint8_t omit_inv;
    uint8_t reading;   /* by its number */
    int32_t args[8];
    sakondreno_span span;
} sakondreno_step;

/* ---- texts: each call reads `text` and writes its answer to the front of `out` */

typedef struct {
    uint8_t number; /* 0: an answer; else the refusal's number */
    size_t place;   /* of the refusal */
    size_t length;  /* of the answer: bytes, or records */
    size_t offset;  /* of refusal 12, which is preparing's: the byte of the step's text at which the fault is; else 0 */
} sakondreno_answer;

/* A text in its normal form. */
sakondreno_answer sakondreno_normalise(const uint8_t *text, size_t length, uint8_t *out, size_t room);
/* A definition without its comments, in its normal form: the text in which spans are counted. */
sakondreno_answer sakondreno_definition(const uint8_t *text, size_t length, uint8_t *out, size_t room);
/* Its steps, each with a newline after it. */
sakondreno_answer sakondreno_split(const uint8_t *text, size_t length, uint8_t *out, size_t room);
/* The parameters of one step, each as key=value with a newline after it, in byte order. */
sakondreno_answer sakondreno_parameters(const uint8_t *text, size_t length, uint8_t *out, size_t room);
/* A PROJ text as a definition; a text that is none comes back as it is. */
sakondreno_answer sakondreno_translate(const uint8_t *text, size_t length, uint8_t *out, size_t room);

/* The next step of a normalised text, from the place `at` on. */
typedef struct {
    uint8_t found; /* 1: a step; 0: the end, and all else is 0 */
    size_t from;   /* its first byte */
    size_t to;     /* the byte after its last */
    size_t then;   /* where to go on */
} sakondreno_part;

sakondreno_part sakondreno_next(const uint8_t *text, size_t length, size_t at);

/* ---- pipelines. `inverse` is 0 for forward; any other number for inverse. */

/* Makes records of a definition, from the first of the lent row on; `length` of the answer is how many. 64 always do. The
 * definition is read in the crate's reading and the crate's mode. */
sakondreno_answer sakondreno_prepare(const uint8_t *text, size_t length, sakondreno_step *table, size_t room);
/* The same in a reading and a mode. A reading of 0 is the crate's, any other number is PROJ's; a mode of 0 is the crate's, any
 * other number is the documented. */
sakondreno_answer sakondreno_prepare_as(const uint8_t *text, size_t length, uint8_t reading, uint8_t mode,
                                        sakondreno_step *table, size_t room);

/* A place of a tuple, 1 to 4, and whether its sign is turned. */
typedef struct {
    uint8_t axis;
    bool minus;
} sakondreno_place;

typedef struct {
    struct {
        uint8_t number; /* 0: passes. 1: the step at `place` finds too few columns. 2: it leaves too many. 18: refused */
        size_t place;
    } said;
    sakondreno_span span; /* of the step at `place`, where it finds too few columns or leaves too many; else 0 and 0 */
    /* of a pass; else all of this is 0 */
    size_t run;                 /* how many steps run */
    size_t depths[64];          /* how many columns there are after each of them, in running order */
    size_t deepest;             /* the most of them */
    size_t left;                /* the last of them */
    bool told;                  /* are the places told? Not where an `adapt` step runs */
    sakondreno_place places[4]; /* number i of every tuple after a run is the input's number at places[i - 1] */
} sakondreno_checked;

/* Says, without any data, what a run will do. */
sakondreno_checked sakondreno_check(const sakondreno_step *table, size_t steps, uint8_t inverse);

typedef struct {
    uint8_t number; /* 0: it ran; else the refusal's number */
    size_t place;
    size_t count;   /* the success count */
    size_t left;    /* the columns left, which stand in the store, the bottom one first, each tuple by tuple */
} sakondreno_done;

/* Runs the steps over a list of tuples, four numbers each (`numbers` of them in all), in place. The store needs room for the
 * deepest depth, as the check tells it, times the tuples. */
sakondreno_done sakondreno_run(const sakondreno_step *table, size_t steps, uint8_t inverse,
                               double *tuples, size_t numbers, double *store, size_t room);

#ifdef __cplusplus
}
#endif
#endif
