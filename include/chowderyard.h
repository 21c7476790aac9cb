/*
 * chowderyard.h: columns of whole numbers packed in groups of four, by the three coders of streamvbyte64.
 *
 * Link target/staticlib/libchowderyard.a (made by tools/staticlib, for x86-64 Linux). The functions keep no state,
 * allocate nothing and may be called from any number of threads.
 *
 * A group is four numbers. Each group has one tag byte, which holds four fields of two bits, number 0 in the lowest; a
 * field picks how many data bytes its number takes:
 *
 *     field       0  1  2  3
 *     coder 1234  1  2  3  4    numbers of 32 bits
 *     coder 0124  0  1  2  4    numbers of 32 bits
 *     coder 1248  1  2  4  8    numbers of 64 bits
 *
 * The data bytes follow each other without gaps, low byte first. Tags and data are two buffers. How many numbers there
 * are is kept by the caller: four for each tag.
 *
 * What a caller owes. Each pointer is valid for the count that follows it, also where that count is 0 (so never NULL),
 * and is aligned for its type; a buffer that is written to overlaps no other argument. Nothing else is asked: every
 * call answers on any contents and any counts, and what it cannot do it refuses by number.
 *
 * After a refusal, count and sum are 0 and every byte of every buffer holds what it held before the call.
 */
#ifndef CHOWDERYARD_H
#define CHOWDERYARD_H

#include <stddef.h>
#include <stdint.h>

#ifdef __cplusplus
extern "C" {
#endif

/*
 * The refusal numbers, in the order in which they are tested: of two that apply, the smaller is given.
 */
#define CHOWDER_ACCEPTED 0        /* the call was carried out */
#define CHOWDER_NOT_FOURS 1       /* the count of values is not a multiple of 4 */
#define CHOWDER_TOO_MANY_GROUPS 2 /* more than CHOWDER_GROUP_LIMIT groups, by the values or by the tags */
#define CHOWDER_FEW_TAGS 3        /* encoding: fewer tag bytes than groups */
#define CHOWDER_LITTLE_ROOM 4     /* encoding: fewer data bytes than 16 (32 for coder 1248) for each group */
#define CHOWDER_OTHER_TAGS 5      /* decoding: the count of tags is not a fourth of the count of values */
#define CHOWDER_MISSING_DATA 6    /* the tags call for more data bytes than there are */
#define CHOWDER_TAIL_OVERRUN 7    /* decoding, skipping: the last groups take more bytes than were copied for them */

#define CHOWDER_GROUP_LIMIT 16777216

/* What a call answers. */
typedef struct chowder_answer {
    uint8_t number; /* 0, or the number of the refusal */
    uint64_t count; /* bytes of data that were written, read or called for */
    uint64_t sum;   /* skip_deltas: the sum of the skipped steps, wrapping at the width of the number; else 0 */
} chowder_answer;

/* What the tightness check answers. */
typedef struct chowder_tightness {
    uint8_t number;   /* 0, or the number of the refusal */
    uint8_t loose;    /* 0: each number is stored at its shortest width; 1: some number is not */
    uint64_t group;   /* of the first number that is not: its group, from 0; else 0 */
    uint8_t position; /* and its position in the group, 0 to 3; else 0 */
} chowder_tightness;

/* ---- coder 1234 */

/*
 * Encodes the values. Writes a tag for each group to the front of tags and `count` bytes to the front of data; bytes
 * behind those keep what they held.
 * Refuses: 1; 2, by the values; 3; 4, below 16 bytes a group even where the result is shorter.
 */
chowder_answer chowder_encode_1234(const uint32_t *values, size_t values_len, uint8_t *tags, size_t tags_len,
                                   uint8_t *data, size_t data_len);

/*
 * Encodes the steps: each value minus the one before it, the first minus start, wrapping.
 * Refuses: 1; 2, by the values; 3; 4, below 16 bytes a group even where the result is shorter.
 */
chowder_answer chowder_encode_deltas_1234(uint32_t start, const uint32_t *values, size_t values_len, uint8_t *tags,
                                          size_t tags_len, uint8_t *data, size_t data_len);

/*
 * Decodes all tags and fills all values; `count` is the bytes of data that were read. Any data may stand behind them.
 * Refuses: 1; 2, by the values or the tags; 5; 6; 7.
 */
chowder_answer chowder_decode_1234(const uint8_t *tags, size_t tags_len, const uint8_t *data, size_t data_len,
                                   uint32_t *values, size_t values_len);

/*
 * The same for steps: each stored number is added to the value before it, the first to start, wrapping.
 * Refuses: 1; 2, by the values or the tags; 5; 6; 7.
 */
chowder_answer chowder_decode_deltas_1234(uint32_t start, const uint8_t *tags, size_t tags_len, const uint8_t *data,
                                          size_t data_len, uint32_t *values, size_t values_len);

/*
 * The bytes of data that the tags call for.
 * Refuses: 2, by the tags.
 */
chowder_answer chowder_data_len_1234(const uint8_t *tags, size_t tags_len);

/*
 * Passes over all tags: `count` is the bytes of data, `sum` the sum of the stored numbers. A decode_deltas of what
 * follows starts from the column's start plus `sum`, wrapping.
 * Refuses: 2, by the tags; 6; 7.
 */
chowder_answer chowder_skip_deltas_1234(const uint8_t *tags, size_t tags_len, const uint8_t *data, size_t data_len);

/*
 * Whether each number is stored at its shortest width, and if not, the place of the first that is not.
 * Refuses: 2, by the tags; 6.
 */
chowder_tightness chowder_tightness_1234(const uint8_t *tags, size_t tags_len, const uint8_t *data, size_t data_len);

/* ---- coder 0124 */

/*
 * Encodes the values. Writes a tag for each group to the front of tags and `count` bytes to the front of data; bytes
 * behind those keep what they held.
 * Refuses: 1; 2, by the values; 3; 4, below 16 bytes a group even where the result is shorter.
 */
chowder_answer chowder_encode_0124(const uint32_t *values, size_t values_len, uint8_t *tags, size_t tags_len,
                                   uint8_t *data, size_t data_len);

/*
 * Encodes the steps: each value minus the one before it, the first minus start, wrapping.
 * Refuses: 1; 2, by the values; 3; 4, below 16 bytes a group even where the result is shorter.
 */
chowder_answer chowder_encode_deltas_0124(uint32_t start, const uint32_t *values, size_t values_len, uint8_t *tags,
                                          size_t tags_len, uint8_t *data, size_t data_len);

/*
 * Decodes all tags and fills all values; `count` is the bytes of data that were read. Any data may stand behind them.
 * Refuses: 1; 2, by the values or the tags; 5; 6; 7.
 */
chowder_answer chowder_decode_0124(const uint8_t *tags, size_t tags_len, const uint8_t *data, size_t data_len,
                                   uint32_t *values, size_t values_len);

/*
 * The same for steps: each stored number is added to the value before it, the first to start, wrapping.
 * Refuses: 1; 2, by the values or the tags; 5; 6; 7.
 */
chowder_answer chowder_decode_deltas_0124(uint32_t start, const uint8_t *tags, size_t tags_len, const uint8_t *data,
                                          size_t data_len, uint32_t *values, size_t values_len);

/*
 * The bytes of data that the tags call for.
 * Refuses: 2, by the tags.
 */
chowder_answer chowder_data_len_0124(const uint8_t *tags, size_t tags_len);

/*
 * Passes over all tags: `count` is the bytes of data, `sum` the sum of the stored numbers. A decode_deltas of what
 * follows starts from the column's start plus `sum`, wrapping.
 * Refuses: 2, by the tags; 6; 7.
 */
chowder_answer chowder_skip_deltas_0124(const uint8_t *tags, size_t tags_len, const uint8_t *data, size_t data_len);

/*
 * Whether each number is stored at its shortest width, and if not, the place of the first that is not.
 * Refuses: 2, by the tags; 6.
 */
chowder_tightness chowder_tightness_0124(const uint8_t *tags, size_t tags_len, const uint8_t *data, size_t data_len);

/* ---- coder 1248 */

/*
 * Encodes the values. Writes a tag for each group to the front of tags and `count` bytes to the front of data; bytes
 * behind those keep what they held.
 * Refuses: 1; 2, by the values; 3; 4, below 32 bytes a group even where the result is shorter.
 */
chowder_answer chowder_encode_1248(const uint64_t *values, size_t values_len, uint8_t *tags, size_t tags_len,
                                   uint8_t *data, size_t data_len);

/*
 * Encodes the steps: each value minus the one before it, the first minus start, wrapping.
 * Refuses: 1; 2, by the values; 3; 4, below 32 bytes a group even where the result is shorter.
 */
chowder_answer chowder_encode_deltas_1248(uint64_t start, const uint64_t *values, size_t values_len, uint8_t *tags,
                                          size_t tags_len, uint8_t *data, size_t data_len);

/*
 * Decodes all tags and fills all values; `count` is the bytes of data that were read. Any data may stand behind them.
 * Refuses: 1; 2, by the values or the tags; 5; 6; 7.
 */
chowder_answer chowder_decode_1248(const uint8_t *tags, size_t tags_len, const uint8_t *data, size_t data_len,
                                   uint64_t *values, size_t values_len);

/*
 * The same for steps: each stored number is added to the value before it, the first to start, wrapping.
 * Refuses: 1; 2, by the values or the tags; 5; 6; 7.
 */
chowder_answer chowder_decode_deltas_1248(uint64_t start, const uint8_t *tags, size_t tags_len, const uint8_t *data,
                                          size_t data_len, uint64_t *values, size_t values_len);

/*
 * The bytes of data that the tags call for.
 * Refuses: 2, by the tags.
 */
chowder_answer chowder_data_len_1248(const uint8_t *tags, size_t tags_len);

/*
 * Passes over all tags: `count` is the bytes of data, `sum` the sum of the stored numbers. A decode_deltas of what
 * follows starts from the column's start plus `sum`, wrapping.
 * Refuses: 2, by the tags; 6; 7.
 */
chowder_answer chowder_skip_deltas_1248(const uint8_t *tags, size_t tags_len, const uint8_t *data, size_t data_len);

/*
 * Whether each number is stored at its shortest width, and if not, the place of the first that is not.
 * Refuses: 2, by the tags; 6.
 */
chowder_tightness chowder_tightness_1248(const uint8_t *tags, size_t tags_len, const uint8_t *data, size_t data_len);

#ifdef __cplusplus
}
#endif

#endif
