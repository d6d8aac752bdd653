// What compilers warn of: of each marked line, which is there with MISUSE, and of nothing else.
#include <hlcstore_inline.h>

void use(hlc_store *store, const hlc_store *shared, hlc_output *output, hlc_bytes rest);
void use(hlc_store *store, const hlc_store *shared, hlc_output *output, hlc_bytes rest)
{
    uint64_t stamp;
    hlc_pair pair;
    hlc_store_sizes sizes;
    hlc_answer answer = hlc_store_floor(HLC_COPY(shared), &stamp);
    if (answer == HLC_OK) answer = hlc_store_floor(HLC_COPY(store), &stamp);
    if (answer == HLC_OK) answer = hlc_store_get_sizes(shared, &sizes);
    while (hlc_pair_next(&rest, &pair)) stamp += pair.key.len;
    hlc_answer_ignore(hlc_snapshot_close_all(store));
#ifdef MISUSE
    hlc_snapshot_close_all(store);                   // refused
    (void)hlc_store_get_sizes(shared, NULL);      // refused
    hlc_store_get_sizes(shared, &sizes);          // refused
    hlc_pair_next(&rest, &pair);            // refused
    answer = hlc_store_floor(shared, &stamp);     // refused
    answer = hlc_store_floor(NULL, &stamp);       // refused
    answer = hlc_store_floor(store, NULL);        // refused
    answer = hlc_store_floor(HLC_COPY(output), &stamp); // refused
    hlc_store_close(NULL);                        // refused
    switch (answer) {                       // refused
    case HLC_OK: break;
    }
#endif
    hlc_output_drop(output);
}
