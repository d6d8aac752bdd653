/* hlcstore.h wants a bool to be false or true before a call, also where the call only writes it. The linker puts the
 * calls below before the library's (--wrap), and valgrind says where they look at one that was not set. */
#include "test.h"

static const char PATH[] = "bools.hlc";
static unsigned looks;

static void look(const bool *at)
{
    uint8_t byte;
    memcpy(&byte, at, sizeof byte);
    HOLDS(byte <= 1);
    looks++;
}

hlc_answer __real_hlc_store_link(hlc_store *store, uint16_t node, uint64_t *next, uint64_t *head, bool *retired);

hlc_answer __wrap_hlc_store_link(hlc_store *store, uint16_t node, uint64_t *next, uint64_t *head, bool *retired)
{
    look(retired);
    return __real_hlc_store_link(store, node, next, head, retired);
}

hlc_answer __real_hlc_store_vacuum_part(hlc_store *store, uint64_t stamp, const uint8_t *after, size_t after_len,
                                        size_t limit, uint64_t *word, uint64_t *kept, uint64_t *bytes,
                                        uint64_t *dropped, uint8_t *out, size_t out_len, size_t *len, bool *more);

hlc_answer __wrap_hlc_store_vacuum_part(hlc_store *store, uint64_t stamp, const uint8_t *after, size_t after_len,
                                        size_t limit, uint64_t *word, uint64_t *kept, uint64_t *bytes,
                                        uint64_t *dropped, uint8_t *out, size_t out_len, size_t *len, bool *more)
{
    look(more);
    return __real_hlc_store_vacuum_part(store, stamp, after, after_len, limit, word, kept, bytes, dropped, out, out_len,
                                        len, more);
}

int main(void)
{
    uint64_t word, kept, bytes, dropped;
    test_name = "bools";
    hlc_file *file = opened(fresh(PATH));
    for (uint64_t l = 1; l <= 3; l++) put(file, l, "a", "x");
    EXPECT(hlc_file_vacuum_to(file, AT(2), &word, &kept, &bytes, &dropped), HLC_OK);
    EXPECT(hlc_file_close(file), HLC_OK);
    file = opened(PATH);
    EXPECT(hlc_file_close(file), HLC_OK);
    /* Links at both openings; the horizon by the threshold, the vacuum, and the horizon at the second opening. */
    EXPECT(looks, 2 + 3);
    return ended();
}
