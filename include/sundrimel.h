/* The exported entry of Sundrimel, for a C program. Link target/staticlib/libsundrimel.a, which `sh tools/archive.sh` writes.
 * A slice is a pointer and a length in bytes; a length of 0 needs a pointer that is not null. */
#ifndef SUNDRIMEL_H
#define SUNDRIMEL_H

#include <stddef.h>
#include <stdint.h>

/* The room that each answer buffer has to have, in bytes; with less, refusal 9 is given. */
#define SUNDRIMEL_ROOM 1025

/* kind */
enum { SUNDRIMEL_OPEN = 0, SUNDRIMEL_TRANSCRIPT = 1, SUNDRIMEL_CROSSING = 2 };

/* edit; only an insertion and a replacement read the alternative */
enum { SUNDRIMEL_INSERT = 0, SUNDRIMEL_DUPLICATE = 1, SUNDRIMEL_DELETE = 2, SUNDRIMEL_REPLACE = 3, SUNDRIMEL_INVERT = 4 };

/* direction */
enum { SUNDRIMEL_RIGHTWARD = 0, SUNDRIMEL_LEFTWARD = 1 };

/* class of an answer */
enum {
    SUNDRIMEL_INSERTION = 1,
    SUNDRIMEL_DUPLICATION = 2,
    SUNDRIMEL_DELETION = 3,
    SUNDRIMEL_REPLACEMENT = 4,
    SUNDRIMEL_INVERSION = 5,
    SUNDRIMEL_UNCHANGED = 6
};

/* refusals, tested in this order; 0 is none and 11 is reserved */
enum {
    SUNDRIMEL_BAD_CODE = 1,                               /* kind, edit or direction is no listed code */
    SUNDRIMEL_BAD_WINDOW = 2,                             /* window is 0 or above 1,024 */
    SUNDRIMEL_BAD_TARGET = 3,                             /* the target has no base or more than 65,535 */
    SUNDRIMEL_BAD_BASE = 4,                               /* a target byte is not A, C, G or T */
    SUNDRIMEL_COORDINATES_OUT_OF_BOUNDS = 5,              /* start < 0, end <= start, or end past the target */
    SUNDRIMEL_BAD_INSERTION = 6,                          /* an insertion whose end is not start + 2, or with no alternative */
    SUNDRIMEL_TOO_LONG = 7,                               /* the range or a read alternative is above 1,024 */
    SUNDRIMEL_BAD_ALLELE = 8,                             /* a read alternative holds another byte than A, C, G, T */
    SUNDRIMEL_NO_ROOM = 9,                                /* an answer buffer is shorter than 1,025 bytes */
    SUNDRIMEL_BAD_TABLES = 10,                            /* a transcript that does not cross, and a table rule is broken */
    SUNDRIMEL_EXON_NOT_FOUND_FOR_START = 12,              /* no exon holds start */
    SUNDRIMEL_EXON_NOT_FOUND_FOR_END = 13,                /* no exon has exon start < end <= exon end */
    SUNDRIMEL_EXON_INTRON_BOUNDARY = 14,                  /* the two exons differ */
    SUNDRIMEL_UTR_EXON_BOUNDARY = 15,                     /* the range has bases on both sides of a CDS bound */
    SUNDRIMEL_VARIANT_SPAN_OUTSIDE_SEQUENCE_BOUNDS = 16   /* leftward, an insertion whose bases would pass the target's end */
};

/* A refusal has its number and zeros, and both buffers are as they were. An answer has refusal 0, its class, its 1-based range with both ends in
 * it, the pairs of bases compared in the move, and the lengths of the alleles that stand at the front of the two buffers. */
typedef struct {
    uint32_t refusal;
    uint32_t class_;
    uint32_t start;
    uint32_t end;
    uint32_t probes;
    uint32_t reference_len;
    uint32_t alternative_len;
} sundrimel_answer;

/* exons: pairs of start and end, 0-based half-open, each a 32-bit little-endian number. cds_start, cds_end: -1 is absent, another negative number
 * breaks a table rule. start, end: 0-based half-open; an insertion's range is its two flanking bases. */
sundrimel_answer sundrimel_normalize(
    const uint8_t *target, size_t target_len, uint32_t kind, const uint8_t *exons, size_t exons_len, int64_t cds_start, int64_t cds_end,
    int32_t start, int32_t end, uint32_t edit, const uint8_t *alternative, size_t alternative_len, uint32_t direction, uint32_t window,
    uint8_t *reference_out, size_t reference_room, uint8_t *alternative_out, size_t alternative_room);

#endif
