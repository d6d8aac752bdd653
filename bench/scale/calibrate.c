/* Measures the costs of costs.py on this machine, each as a line of its name and a number: seconds of the processor, or
 * bytes. It is one process with 100 ranges of 10,000 keys. One node reports to all ranges, then the next node. */
#include "hlcstore.h"
#include <arpa/inet.h>
#include <malloc.h>
#include <stdio.h>
#include <stdlib.h>
#include <sys/socket.h>
#include <time.h>

enum { RANGES = 100, KEYS = 10000, VERSIONS = 4, FEW = 64, MANY = 1000, ROUNDS = 30, MESSAGES = 20000 };

static hlc_store stores[RANGES];
static uint64_t numbers[MANY], word;

static void must(uint32_t answer)
{
    if (answer != HLC_OK) exit(1);
}

static double now(void)
{
    struct timespec t;
    clock_gettime(CLOCK_PROCESS_CPUTIME_ID, &t);
    return (double)t.tv_sec + (double)t.tv_nsec / 1e9;
}

static double memory(void)
{
    return (double)mallinfo2().uordblks + (double)mallinfo2().hblkhd;
}

/* Lets each of so many nodes report to all ranges, with a question for the floor. Returns the seconds of one report. */
static double reports(unsigned nodes)
{
    double least = 1;
    for (uint64_t round = 1; round <= ROUNDS; round++) {
        double started = now();
        for (unsigned n = 0; n < nodes; n++) {
            for (unsigned s = 0; s < RANGES; s++) {
                must(hlc_store_accept_report(&stores[s], (uint16_t)n, numbers[n], (numbers[n] + 1) << 16, &word));
                hlc_store_floor(&stores[s], &word);
            }
            numbers[n]++;
        }
        double each = (now() - started) / (nodes * RANGES);
        if (each < least) least = each;
    }
    return least;
}

/* The seconds of one end of a message over the loopback. */
static double message(void)
{
    struct sockaddr_in at = { .sin_family = AF_INET, .sin_addr.s_addr = htonl(INADDR_LOOPBACK) };
    socklen_t len = sizeof at;
    int to = socket(AF_INET, SOCK_DGRAM, 0);
    char bytes[86] = { 0 };
    if (bind(to, (struct sockaddr *)&at, len) != 0 || getsockname(to, (struct sockaddr *)&at, &len) != 0) exit(1);
    double started = now();
    for (int i = 0; i < MESSAGES; i++) {
        if (sendto(to, bytes, sizeof bytes, 0, (struct sockaddr *)&at, len) < 0 || recv(to, bytes, sizeof bytes, 0) < 0)
            exit(1);
    }
    return (now() - started) / MESSAGES / 2;
}

/* Fills the ranges, each key four times, and prints what writes, checkpoints and a vacuum to one row a key take. */
static void print_rows(void)
{
    uint64_t number = numbers[0], kept, dropped, bytes;
    double before = memory(), started = now();
    size_t len;
    for (uint64_t i = 0; i < KEYS * VERSIONS; i++) {
        uint64_t key = i * 7919 % KEYS;
        for (unsigned s = 0; s < RANGES; s++)
            must(hlc_store_accept_write(&stores[s], 0, number + i, (number + i + 1) << 16, (uint8_t *)&key, 8,
                                        (uint8_t *)&i, 8, &word));
    }
    numbers[0] += KEYS * VERSIONS;
    printf("write %g\n", (now() - started) / KEYS / VERSIONS / RANGES);
    printf("row %.0f\n", (memory() - before) / KEYS / VERSIONS / RANGES);
    started = now();
    for (unsigned s = 0; s < RANGES; s++) {
        hlc_output output = HLC_NO_OUTPUT;
        must(hlc_checkpoint_make(&stores[s], 0, &output, &len));
        hlc_output_drop(&output);
    }
    printf("checkpoint %g\n", (now() - started) / KEYS / VERSIONS / RANGES);
    for (unsigned s = 0; s < RANGES; s++)
        for (unsigned n = 1; n < FEW; n++)
            must(hlc_store_accept_report(&stores[s], (uint16_t)n, numbers[n], (numbers[0] + 1) << 16, &word));
    started = now();
    for (unsigned s = 0; s < RANGES; s++)
        must(hlc_store_vacuum_to(&stores[s], numbers[0] << 16, &word, &kept, &bytes, &dropped));
    printf("vacuum %g\n", (now() - started) / KEYS / RANGES);
}

int main(void)
{
    uint64_t start;
    uint16_t node;
    hlc_node made = hlc_node_open(0, 0);
    double started = now();
    for (uint64_t i = 0; i < 1000000; i++) must(hlc_node_report(&made, i, &start, &word));
    printf("issue %g\n", (now() - started) / 1000000);
    printf("message %g\n", message());
    for (unsigned s = 0; s < RANGES; s++) must(hlc_store_open(&stores[s], FEW));
    printf("accept_few %g\n", reports(FEW));
    print_rows();
    for (unsigned s = 0; s < RANGES; s++) hlc_store_close(&stores[s]);
    for (unsigned s = 0; s < RANGES; s++) must(hlc_store_open(&stores[s], FEW));
    double before = memory();
    for (unsigned n = FEW; n < MANY; n++)
        for (unsigned s = 0; s < RANGES; s++) must(hlc_store_join(&stores[s], &node, &start));
    printf("link %.0f\n", (memory() - before) / (MANY - FEW) / RANGES);
    for (unsigned n = 0; n < MANY; n++) numbers[n] = 0;
    printf("accept_many %g\n", reports(MANY));
}
