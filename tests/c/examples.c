/*
 * The examples of the packed form and of the refusals, run through every function of chowderyard.h.
 * The last line is 'N passed, M failed'; the exit status is 0 where M is 0.
 */
#include "chowderyard.h"

#include <stdio.h>
#include <stdlib.h>
#include <string.h>

/* what a buffer holds before a call */
#define FILL 0xA5

static int passed, failed;
static const char *example = "";

static void about(const char *name)
{
    example = name;
}

static void expect(const char *what, int holds)
{
    if (holds) {
        passed++;
    } else {
        failed++;
        printf("FAILED: %s: %s\n", example, what);
    }
}

static int answered(chowder_answer a, uint8_t number, uint64_t count, uint64_t sum)
{
    if (a.number == number && a.count == count && a.sum == sum)
        return 1;
    printf("the answer was number %u, count %llu, sum %llu\n", a.number, (unsigned long long)a.count,
           (unsigned long long)a.sum);
    return 0;
}

static int judged(chowder_tightness t, uint8_t number, uint8_t loose, uint64_t group, uint8_t position)
{
    if (t.number == number && t.loose == loose && t.group == group && t.position == position)
        return 1;
    printf("the answer was number %u, loose %u, group %llu, position %u\n", t.number, t.loose,
           (unsigned long long)t.group, t.position);
    return 0;
}

/* whether n bytes still hold what they held before the call */
static int filled(const void *p, size_t n)
{
    const uint8_t *bytes = p;
    size_t i;

    for (i = 0; i < n; i++)
        if (bytes[i] != FILL)
            return 0;
    return 1;
}

#define X 1234
#define ELEM uint32_t
#define WIDEST 16
#include "coder.inc"

#define X 0124
#define ELEM uint32_t
#define WIDEST 16
#include "coder.inc"

#define X 1248
#define ELEM uint64_t
#define WIDEST 32
#include "coder.inc"

static void tables(void)
{
    static const uint8_t e4[] = {0xE4}, ff[] = {0xFF}, zero[] = {0x00};

    about("lengths of single tags");
    expect("1234 E4", answered(chowder_data_len_1234(e4, 1), 0, 10, 0));
    expect("0124 E4", answered(chowder_data_len_0124(e4, 1), 0, 7, 0));
    expect("1248 E4", answered(chowder_data_len_1248(e4, 1), 0, 15, 0));
    expect("1234 FF", answered(chowder_data_len_1234(ff, 1), 0, 16, 0));
    expect("0124 FF", answered(chowder_data_len_0124(ff, 1), 0, 16, 0));
    expect("1248 FF", answered(chowder_data_len_1248(ff, 1), 0, 32, 0));
    expect("1234 00", answered(chowder_data_len_1234(zero, 1), 0, 4, 0));
    expect("0124 00", answered(chowder_data_len_0124(zero, 1), 0, 0, 0));
    expect("1248 00", answered(chowder_data_len_1248(zero, 1), 0, 4, 0));
    expect("1234 no tags", answered(chowder_data_len_1234(zero, 0), 0, 0, 0));
    expect("0124 no tags", answered(chowder_data_len_0124(zero, 0), 0, 0, 0));
    expect("1248 no tags", answered(chowder_data_len_1248(zero, 0), 0, 0, 0));
}

static void coder_1234(void)
{
    static const uint32_t steps[] = {0, 255, 256, 65536}, fives[] = {5, 5, 5, 5};
    static const uint8_t tag[] = {0x90}, bytes[] = {0x00, 0xFF, 0x00, 0x01, 0x00, 0x00, 0x01, 0xEE};
    static const uint8_t wide_tag[] = {0xFF}, wide[] = {5, 0, 0, 0, 5, 0, 0, 0, 5, 0, 0, 0, 5, 0, 0, 0};
    static const uint32_t two[] = {1, 2, 3, 300, 5, 6, 7, 8};
    static const uint8_t two_tags[] = {0x40, 0x00}, two_bytes[] = {1, 2, 3, 0x2C, 0x01, 5, 6, 7, 8};
    static const uint8_t late_tags[] = {0x40, 0x10}, late_bytes[] = {1, 2, 3, 0x2C, 0x01, 5, 6, 7, 0, 8};
    static const uint32_t up[] = {10, 20, 20, 2};
    static const uint8_t up_tag[] = {0xC0}, up_bytes[] = {10, 10, 0, 0xEE, 0xFF, 0xFF, 0xFF};
    uint32_t got[4];

    column_1234("1234: 0, 255, 256, 65536", 0, 0, steps, 4, tag, bytes, 7, 66047);
    column_1234("1234: two groups", 0, 0, two, 8, two_tags, two_bytes, 9, 332);
    column_1234("1234 deltas: a step backwards", 1, 0, up, 4, up_tag, up_bytes, 7, 2);
    short_1234("1234 tag 90 by six bytes", tag, 1, bytes, 6);

    about("1234 tag 90 by seven and eight bytes");
    expect("seven", answered(chowder_decode_1234(tag, 1, bytes, 7, got, 4), 0, 7, 0));
    expect("eight", answered(chowder_decode_1234(tag, 1, bytes, 8, got, 4), 0, 7, 0));
    expect("skipped by eight", answered(chowder_skip_deltas_1234(tag, 1, bytes, 8), 0, 7, 66047));

    about("1234: wider than needed");
    expect("decode answers", answered(chowder_decode_1234(wide_tag, 1, wide, 16, got, 4), 0, 16, 0));
    expect("decode: values", memcmp(got, fives, sizeof got) == 0);
    expect("loose at group 0, position 0", judged(chowder_tightness_1234(wide_tag, 1, wide, 16), 0, 1, 0, 0));
    expect("loose at group 1, position 2", judged(chowder_tightness_1234(late_tags, 2, late_bytes, 10), 0, 1, 1, 2));

    refusals_1234();
}

static void coder_0124(void)
{
    static const uint32_t steps[] = {0, 255, 256, 65536}, zeros[] = {0, 0, 0, 0};
    static const uint8_t tag[] = {0xE4}, bytes[] = {0xFF, 0x00, 0x01, 0x00, 0x00, 0x01, 0x00};
    static const uint32_t labels[] = {1799, 1802, 1803, 1804}, same[] = {4, 4, 4, 4};
    static const uint8_t label_tag[] = {0x55}, label_bytes[] = {1, 3, 1, 1};
    static const uint8_t back_tag[] = {0x03}, back_bytes[] = {0xFF, 0xFF, 0xFF, 0xFF};
    static const uint8_t zero_tag[] = {0x00}, nothing[] = {0};
    static const uint32_t three[] = {65535, 65536, 16777215, 1};
    static const uint8_t three_tag[] = {0x7E}, three_bytes[] = {0xFF, 0xFF, 0, 0, 1, 0, 0xFF, 0xFF, 0xFF, 0, 1};
    static const uint8_t loose_tags[] = {0x00, 0x04}, loose_bytes[] = {0};

    column_0124("0124: 0, 255, 256, 65536", 0, 0, steps, 4, tag, bytes, 7, 66047);
    column_0124("0124 deltas from 1798: a drop-frame minute change", 1, 1798, labels, 4, label_tag, label_bytes, 4, 6);
    column_0124("0124 deltas from 5: a step backwards", 1, 5, same, 4, back_tag, back_bytes, 4, 4294967295u);
    column_0124("0124: four zeros take no data", 0, 0, zeros, 4, zero_tag, nothing, 0, 0);
    column_0124("0124: three bytes take four", 0, 0, three, 4, three_tag, three_bytes, 11, 16908287);
    short_0124("0124 tag E4 by six bytes", tag, 1, bytes, 6);

    about("0124: a zero that takes a byte");
    expect("loose at group 1, position 1", judged(chowder_tightness_0124(loose_tags, 2, loose_bytes, 1), 0, 1, 1, 1));

    refusals_0124();
}

static void coder_1248(void)
{
    static const uint64_t steps[] = {0, 256, 65536, 4294967296u};
    static const uint8_t tag[] = {0xE4};
    static const uint8_t bytes[] = {0, 0x00, 0x01, 0x00, 0x00, 0x01, 0x00, 0x00, 0x00, 0x00, 0x00, 0x01, 0x00, 0x00, 0x00};
    static const uint64_t offsets[] = {7168, 15872, 23040, 23039};
    static const uint8_t offset_tag[] = {0xD5};
    static const uint8_t offset_bytes[] = {0x00, 0x1C, 0x00, 0x22, 0x00, 0x1C, 0xFF, 0xFF, 0xFF, 0xFF, 0xFF, 0xFF, 0xFF, 0xFF};
    static const uint8_t loose_tag[] = {0xC0}, loose_bytes[] = {1, 2, 3, 0xFF, 0xFF, 0xFF, 0xFF, 0, 0, 0, 0};

    column_1248("1248: 0, 256, 65536, 4294967296", 0, 0, steps, 4, tag, bytes, 15, 4295033088u);
    column_1248("1248 deltas from 0: byte offsets and a step backwards", 1, 0, offsets, 4, offset_tag, offset_bytes, 14, 23039);
    short_1248("1248 tag E4 by fourteen bytes", tag, 1, bytes, 14);

    about("1248: eight bytes for a number of four");
    expect("loose at group 0, position 3", judged(chowder_tightness_1248(loose_tag, 1, loose_bytes, 11), 0, 1, 0, 3));

    refusals_1248();
}

int main(void)
{
    tables();
    coder_1234();
    coder_0124();
    coder_1248();
    printf("%d passed, %d failed\n", passed, failed);
    return failed != 0;
}
