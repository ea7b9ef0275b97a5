/*
 * The closer: one face of a part in, one outer loop and its holes out.
 *
 * Link out/staticlib/libcloser.a, which `tools/archive closer_c` makes; it needs no other library.
 */
#ifndef CLOSER_H
#define CLOSER_H

#include <stddef.h>
#include <stdint.h>

#ifdef __cplusplus
extern "C" {
#endif

/* No face record that is accepted is longer. */
#define CLOSER_RECORD_BYTES 20621

/* So many result bytes are to be lent; no result record is longer. */
#define CLOSER_RESULT_BYTES 61614

/* The answers. Loops are counted from 0 in the order of the file. */
enum {
    CLOSER_CLOSED = 0,          /* the length of the result record */
    CLOSER_LENT_TOO_LITTLE = 1, /* 61614, and fewer result bytes were lent */
    CLOSER_WRONG_HEADER = 2,    /* the record's length, under 5; else the first wrong byte: 0 (version),
                                   1 (kind), 3 (sense) or 4 (minimum segments) */
    CLOSER_MANY_LOOPS = 3,      /* the number of loops, over 16 */
    CLOSER_SHORT_LOOP = 4,      /* the first loop with fewer than 3 points */
    CLOSER_MANY_POINTS = 5,     /* the first loop with which the points pass 512 */
    CLOSER_WRONG_LENGTH = 6,    /* the length that the record should have: up to the end of its counts
                                   where it ends inside them, else as a whole */
    CLOSER_WRONG_REAL = 7,      /* the first real that is not finite or out of range, from 0 in the order
                                   of the file */
    CLOSER_OPEN_RING = 8,       /* the first loop that goes round the surface and does not end in the
                                   position in which it begins */
    CLOSER_ONE_RING = 9,        /* the only loop that goes round the surface */
    CLOSER_MANY_RINGS = 10,     /* the number of loops that go round the surface, over 2 */
    CLOSER_NO_LOOPS = 11,       /* 0: a plane, a cylinder or a cone has no boundary of its own */
    CLOSER_LONG_STRIP = 12      /* the points of the strip between two rings, over 1024 */
};

/*
 * Closes the face of a record and writes its result record to `result`.
 *
 * Answers CLOSER_CLOSED, or the first of the refusals above that applies, in the order of their
 * numbers but for 6, which is told before 4 and 5 where a record ends inside its counts. *value is
 * what stands beside the answer above. A refusal writes nothing but *value; else the bytes of `result`
 * past the length keep their values. Every record is answered, whatever its bytes.
 *
 * What the caller has to see to:
 * - `record` is `record_length` bytes and `result` is `result_length` bytes; they and *value do not
 *   overlap, and none of the three pointers is null.
 * - The floating-point unit is in its default mode: rounding to nearest, and subnormal numbers kept.
 *   A program linked with -ffast-math changes that mode when it starts.
 *
 * It keeps nothing between calls and asks for no memory, so several threads may call it at once, each
 * with a `result` of its own. A call takes about 184 KiB of stack on x86-64; the tests hold it under 256
 * (harness/stack.rs).
 */
uint32_t closer_close_face(const uint8_t *record, size_t record_length, uint8_t *result,
                           size_t result_length, size_t *value);

#ifdef __cplusplus
}
#endif

#endif
