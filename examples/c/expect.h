/* What callers share that print `all right`, or what is not as expected and then `wrong`. */
#ifndef EXPECT_H
#define EXPECT_H

#include "hlcstore_inline.h"
#include <inttypes.h>
#include <stdio.h>
#include <string.h>

/* The bytes of a string; no bytes; and a stamp at a millisecond. */
#define BYTES(s) (const uint8_t *)(s), sizeof(s) - 1
#define NONE NULL, 0
#define AT(l) HLC_STAMP(l, 0)
#define EXPECT(made, wanted) expect_at(__LINE__, (uint64_t)(made), (uint64_t)(wanted))

/* The longest key, and the longest value, that takes no allocation of its own: refused.c counts them. */
enum { IN_PLACE = 30 };

static int wrong;

/* Checks that a call returned, and wrote, what is expected. */
static inline void expect(const char *call, uint32_t code, uint64_t returned, uint32_t expected_code, uint64_t expected)
{
    if (code == expected_code && returned == expected) return;
    printf("%s %" PRIu32 " %" PRIu64 "\n", call, code, returned);
    wrong++;
}

static inline void expect_at(int line, uint64_t made, uint64_t wanted)
{
    if (made == wanted) return;
    printf("line %d: %" PRIu64 " in place of %" PRIu64 "\n", line, made, wanted);
    wrong++;
}

static inline bool is(hlc_bytes bytes, const char *text)
{
    return bytes.len == strlen(text) && memcmp(bytes.at, text, bytes.len) == 0;
}

static inline bool is_none(hlc_bytes bytes)
{
    return bytes.at == NULL && bytes.len == 0;
}

/* Prints how the caller ended, and returns its status. */
static inline int ended(void)
{
    printf("%s\n", wrong ? "wrong" : "all right");
    return wrong != 0;
}

#endif
