/* A session through the C header: reads the fields that the session program reads, from standard input, runs them by vsmd_run, and prints the same lines. So the
 * archive of a processor that there is no session program for can be tried on every session there is. With the word `sums` each run has a line more, a sum
 * over all bytes that are lent to it, by which two archives can be compared in what they leave. */
#include "vsmd3200.h"

#include <inttypes.h>
#include <stdio.h>
#include <string.h>

#define MOST 16384u

#define TAG_RUN 4u
#define RUN_LEN 5u

/* What the tags 01, 02 and 03 fill: host memory and the two images. */
static struct {
    uint8_t bytes[MOST];
    size_t len;
} held[3];

static uint8_t records[2][VSMD_RECORD_LEN], events[VSMD_EVENTS_LEN_LEAST], outcome[VSMD_OUTCOME_LEN];

static uint32_t sum_over(uint32_t sum, const uint8_t *bytes, size_t len)
{
    size_t k;
    for (k = 0; k < len; k++)
        sum = (sum ^ bytes[k]) * 16777619u;
    return sum;
}

static void print_sum(void)
{
    uint32_t sum = 2166136261u;
    int k;
    for (k = 0; k < 3; k++)
        sum = sum_over(sum, held[k].bytes, sizeof held[k].bytes);
    for (k = 0; k < 2; k++)
        sum = sum_over(sum, records[k], sizeof records[k]);
    sum = sum_over(sum, events, sizeof events);
    sum = sum_over(sum, outcome, sizeof outcome);
    printf("sum %08" PRIx32 "\n", sum);
}

static void run(const uint8_t *field, int sums)
{
    uint32_t answer = vsmd_run(held[0].bytes, held[0].len, held[1].bytes, held[1].len, held[2].bytes, held[2].len, events, sizeof events,
                               records[0], sizeof records[0], records[1], sizeof records[1], outcome, sizeof outcome, vsmd_get32(field), field[4]);
    uint32_t blocks = vsmd_outcome_blocks(outcome), k;
    printf("run answer %" PRIu32 " blocks %" PRIu32 " sectors %" PRIu32 "\n", answer, blocks, vsmd_outcome_sectors(outcome));
    for (k = 0; k < blocks; k++) {
        const uint8_t *event = events + VSMD_EVENT_LEN * k;
        printf("block %" PRIu32 " status %02x error %02x level %02x vector %02x travel %" PRId32 "\n", k + 1,
               (unsigned)event[VSMD_EVENT_AT_STATUS], (unsigned)event[VSMD_EVENT_AT_ERROR], (unsigned)event[VSMD_EVENT_AT_LEVEL],
               (unsigned)event[VSMD_EVENT_AT_VECTOR], vsmd_event_travel(event));
    }
    if (sums)
        print_sum();
}

/* Whether a field was there in full, by its tag and its length, and is one. */
static int hear(const uint8_t *opening, size_t got, int sums)
{
    uint8_t field[MOST];
    size_t len;
    if (got < 3)
        return 0;
    len = vsmd_get16(opening + 1);
    if (opening[0] < 1 || opening[0] > TAG_RUN || len > MOST || (opening[0] == TAG_RUN && len != RUN_LEN))
        return 0;
    if (fread(field, 1, len, stdin) != len)
        return 0;
    if (opening[0] == TAG_RUN) {
        run(field, sums);
    } else {
        memcpy(held[opening[0] - 1].bytes, field, len);
        held[opening[0] - 1].len = len;
    }
    return 1;
}

int main(int words, char **word)
{
    int sums = words > 1 && strcmp(word[1], "sums") == 0;
    unsigned long at = 0;
    uint8_t opening[3];
    size_t got;
    while ((got = fread(opening, 1, sizeof opening, stdin)) > 0) {
        if (!hear(opening, got, sums)) {
            printf("session refused at byte %lu\n", at);
            return 0;
        }
        at += 3ul + vsmd_get16(opening + 1);
    }
    return 0;
}
