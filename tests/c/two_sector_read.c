/* The paper's session example through the C header: an initialize linked to a read of two sectors, laid out byte by byte. Then the
 * refusals of short buffers, the same chain made of steps, the inspection, where sectors stand by a record alone, a bad track with its
 * spare, two controllers on the drive, a drive that counts by cylinder, and the upgrade of a record. Two lines where all is well; else
 * what differs, and exit 1. */
#include "vsmd3200.h"

#include <inttypes.h>
#include <stdio.h>
#include <string.h>

#define HOST_LEN 301u /* odd, so that a word past the end would not fit */
#define IMAGE_LEN 7800u
#define AFTER 9u /* bytes after each buffer that nobody may touch */
#define EVENTS_LEN 520u
#define MARKS 7680u
#define RECORD VSMD_RECORD_LEN

#define BLOCK0 4u
#define BLOCK1 40u
#define UIB 80u
#define DATA 120u

static const uint8_t initialize[28] = {
    0x87, 0x20, 0xE1, 0xE2, /* initialize; LK; word 1 holds something old */
    0x00, 0x00, 0x00, 0x00, 0x00, 0x00, 0x00, 0x00, 0x00, UIB, /* no sector, no count; the UIB's address */
    0x00, 0x00, 0x05, 0x50, 0x00, 0x51, /* level 5, vector 50, error vector 51: IE is clear, so none is told */
    0x00, 0x00, 0x00, BLOCK1, 0x00, 0x00, 0x00, 0x00,
};

static const uint8_t two_sectors[28] = {
    0x81, 0x12, 0xE3, 0xE4, /* read; XL and IE */
    0x00, 0x00, 0x00, 0x07, 0x00, 0x02, 0x00, 0x00, 0x00, DATA, /* from logical 7, two sectors, to the data's address */
    0x00, 0x00, 0x03, 0x40, 0x00, 0x41, /* level 3, vector 40, error vector 41 */
    0x00, 0x00, 0x00, 0x00, 0x00, 0x00, 0x00, 0x00,
};

/* C = 10, S = 4, B = 64, volume 0 heads 0 and 1, volume 1 head 2 */
static const uint8_t uib[18] = {0x00, 0x02, 0x02, 0x01, 0x04, 0x00, 0x00, 0x40, 0x10,
                                0x20, 0x01, 0x03, 0x00, 0x0A, 0x04, 0x00, 0x01, 0xFF};

/* a bad track, cylinder 1 and head 0, gets cylinder 9 and head 2 for its spare; what stands between says nothing */
static const uint8_t remap[28] = {
    0x85, 0x50, 0xE5, 0xE6, 0x00, 0x01, 0x00, 0x77, 0x00, 0x09, 0x02, 0x77, 0x77, 0x77,
    0x00, 0x00, 0x00, 0x00, 0x00, 0x00, 0x00, 0x00, 0x00, 0x00, 0x00, 0x00, 0x00, 0x00,
};

/* what a record says up to its table; the heads stand on cylinder 1 */
static const uint8_t record_after[20] = {0x02, 0x01, 0x01, 0x14, 0x00, 0x0A, 0x00, 0x04, 0x00, 0x40,
                                         0x00, 0x02, 0x02, 0x01, 0x00, 0x01, 0x00, 0x00, 0x00, 0x00};

/* the one pair of a table */
static const uint8_t pair_after[8] = {0x00, 0x01, 0x00, 0x00, 0x00, 0x09, 0x02, 0x00};

/* the same unit in version 1 of the layouts */
static const uint8_t record_of_version_1[16] = {0x01, 0x01, 0x00, 0x10, 0x00, 0x0A, 0x00, 0x04,
                                                0x00, 0x40, 0x00, 0x02, 0x02, 0x01, 0x00, 0x01};

static const uint8_t outcome_after[16] = {0x02, 0x00, 0x00, 0x10, 0x00, 0x00, 0x00, 0x00,
                                          0x00, 0x00, 0x00, 0x02, 0x00, 0x00, 0x00, 0x02};

static const uint8_t events_after[16] = {0x80, 0x00, 0x00, 0x00, 0x00, 0x00, 0x00, 0x00,
                                         0x80, 0x00, 0x03, 0x40, 0x00, 0x00, 0x00, 0x01};

/* All that is lent to a run, each buffer with bytes after it that are not. */
struct lent {
    uint8_t host[HOST_LEN + AFTER];
    uint8_t image0[IMAGE_LEN + AFTER];
    uint8_t image1[AFTER];
    uint8_t events[EVENTS_LEN + AFTER];
    uint8_t record0[VSMD_RECORD_LEN + AFTER];
    uint8_t record1[VSMD_RECORD_LEN + AFTER];
    uint8_t outcome[VSMD_OUTCOME_LEN + AFTER];
};

static int wrong;

static void expect_number(const char *what, uint64_t got, uint64_t wanted)
{
    if (got == wanted)
        return;
    printf("%s is %" PRIu64 " and should be %" PRIu64 "\n", what, got, wanted);
    wrong = 1;
}

static void expect_bytes(const char *what, const uint8_t *got, const uint8_t *wanted, size_t len)
{
    size_t k;
    for (k = 0; k < len; k++) {
        if (got[k] != wanted[k]) {
            printf("%s: byte %lu is %02X and should be %02X\n", what, (unsigned long)k, (unsigned)got[k], (unsigned)wanted[k]);
            wrong = 1;
            return;
        }
    }
}

static void expect_lent(const struct lent *got, const struct lent *wanted)
{
    expect_bytes("host memory", got->host, wanted->host, sizeof got->host);
    expect_bytes("image 0", got->image0, wanted->image0, sizeof got->image0);
    expect_bytes("image 1", got->image1, wanted->image1, sizeof got->image1);
    expect_bytes("events", got->events, wanted->events, sizeof got->events);
    expect_bytes("record 0", got->record0, wanted->record0, sizeof got->record0);
    expect_bytes("record 1", got->record1, wanted->record1, sizeof got->record1);
    expect_bytes("outcome", got->outcome, wanted->outcome, sizeof got->outcome);
}

/* What an initialize that succeeds leaves of the table of unit 0: no pair counts, and every byte of its room is 00. */
static void cleared(struct lent *wanted)
{
    vsmd_put16(wanted->record0 + VSMD_RECORD_AT_PAIRS, 0);
    memset(wanted->record0 + VSMD_RECORD_AT_TABLE, 0, RECORD - VSMD_RECORD_AT_TABLE);
}

/* Every byte of the lent buffers gets a value of its own, as far as a byte can, and the example is laid over it. Unit 0 is not
 * initialized, and what stands in the room for its pairs is anything; record 1 is of no known version. */
static void lay_out(struct lent *l)
{
    uint8_t *bytes = (uint8_t *)l;
    size_t k;
    for (k = 0; k < sizeof *l; k++)
        bytes[k] = (uint8_t)(k * 7 + k / 64 * 13 + 5);
    for (k = MARKS; k < IMAGE_LEN; k++)
        l->image0[k] = 0;
    memset(l->record0, 0, VSMD_RECORD_AT_TABLE);
    memcpy(l->host + BLOCK0, initialize, sizeof initialize);
    memcpy(l->host + BLOCK1, two_sectors, sizeof two_sectors);
    memcpy(l->host + UIB, uib, sizeof uib);
}

static uint32_t run_with(struct lent *l, uint64_t record0_len, uint64_t record1_len, uint64_t outcome_len)
{
    return vsmd_run(l->host, HOST_LEN, l->image0, IMAGE_LEN, l->image1, 0, l->events, EVENTS_LEN, l->record0, record0_len,
                    l->record1, record1_len, l->outcome, outcome_len, BLOCK0, VSMD_ALLOWANCE_MOST);
}

static uint32_t run_as_with(struct lent *l, uint32_t controller, uint64_t record0_len, uint64_t record1_len, uint64_t outcome_len)
{
    return vsmd_run_as(l->host, HOST_LEN, l->image0, IMAGE_LEN, l->image1, 0, l->events, EVENTS_LEN, l->record0, record0_len,
                       l->record1, record1_len, l->outcome, outcome_len, BLOCK0, VSMD_ALLOWANCE_MOST, controller);
}

static uint32_t run_as(struct lent *l, uint32_t controller)
{
    return run_as_with(l, controller, RECORD, RECORD, 16);
}

static void layouts(void)
{
    expect_number("the layouts' version", vsmd_layout_version(), VSMD_LAYOUT_VERSION);
    expect_number("the length of a record", vsmd_record_len(), VSMD_RECORD_LEN);
    expect_number("the length of an outcome", vsmd_outcome_len(), VSMD_OUTCOME_LEN);
    expect_number("whether the layouts match", (uint64_t)vsmd_layouts_match(), 1);
}

/* A buffer too short for its layout: its own code, record 0 first, and every byte as it was. */
static void refusals(void)
{
    struct lent l, before;
    lay_out(&before);
    l = before;
    expect_number("the answer with all three short", run_with(&l, RECORD - 1, RECORD - 1, 15), VSMD_RECORD0_SHORT);
    expect_number("the answer with a record 0 of version 1's length", run_with(&l, 16, RECORD, 16), VSMD_RECORD0_SHORT);
    expect_number("the answer with record 0 empty", run_with(&l, 0, RECORD, 16), VSMD_RECORD0_SHORT);
    expect_number("the answer with record 1 and the outcome short", run_with(&l, RECORD, RECORD - 1, 15), VSMD_RECORD1_SHORT);
    expect_number("the answer with the outcome short", run_with(&l, RECORD, RECORD, 15), VSMD_OUTCOME_SHORT);
    expect_number("the answer with the outcome empty", run_with(&l, RECORD, RECORD, 0), VSMD_OUTCOME_SHORT);
    expect_lent(&l, &before);
}

/* A controller that there is not: its own code, after the three lengths, and every byte as it was. */
static void refusals_of_controllers(void)
{
    struct lent l, before;
    lay_out(&before);
    l = before;
    expect_number("the answer as 2 with all three short", run_as_with(&l, 2, RECORD - 1, RECORD - 1, 15), VSMD_RECORD0_SHORT);
    expect_number("the answer as 2 with record 1 short", run_as_with(&l, 2, RECORD, RECORD - 1, 15), VSMD_RECORD1_SHORT);
    expect_number("the answer as 2 with the outcome short", run_as_with(&l, 2, RECORD, RECORD, 15), VSMD_OUTCOME_SHORT);
    expect_number("the answer as 1 with the outcome short", run_as_with(&l, 1, RECORD, RECORD, 15), VSMD_OUTCOME_SHORT);
    expect_number("the answer as 2", run_as(&l, 2), VSMD_CONTROLLER_UNKNOWN);
    expect_number("the answer as 256", run_as(&l, 0x100), VSMD_CONTROLLER_UNKNOWN);
    expect_number("the answer as 2 to the 31st", run_as(&l, 0x80000000u), VSMD_CONTROLLER_UNKNOWN);
    expect_number("the answer as the last number there is", run_as(&l, 0xFFFFFFFFu), VSMD_CONTROLLER_UNKNOWN);
    expect_lent(&l, &before);
}

/* Initialize linked to the read. The buffers of the layouts are lent longer than they need be. With no RV in it the example leaves the same
 * whoever runs it. */
static void the_example(struct lent *l)
{
    struct lent wanted, as_first, as_second;
    lay_out(l);
    wanted = *l;
    as_first = as_second = *l;
    expect_number("the answer", run_with(l, RECORD + 3, RECORD, 16 + 3), VSMD_DONE);
    expect_number("the answer as the first", run_as_with(&as_first, VSMD_CONTROLLER_FIRST, RECORD + 3, RECORD, 16 + 3), VSMD_DONE);
    expect_number("the answer as the second", run_as_with(&as_second, VSMD_CONTROLLER_SECOND, RECORD + 3, RECORD, 16 + 3), VSMD_DONE);
    /* status 80 and error 00; image bytes 448 to 511 and 768 to 831; nothing else of host memory */
    wanted.host[BLOCK0 + 2] = 0x80;
    wanted.host[BLOCK0 + 3] = 0x00;
    wanted.host[BLOCK1 + 2] = 0x80;
    wanted.host[BLOCK1 + 3] = 0x00;
    memcpy(wanted.host + DATA, wanted.image0 + 448, 64);
    memcpy(wanted.host + DATA + 64, wanted.image0 + 768, 64);
    memcpy(wanted.events, events_after, sizeof events_after);
    memcpy(wanted.record0, record_after, sizeof record_after);
    cleared(&wanted);
    memcpy(wanted.outcome, outcome_after, sizeof outcome_after);
    expect_lent(l, &wanted);
    expect_lent(&as_first, &wanted);
    expect_lent(&as_second, &wanted);
}

/* What the two steps of the example leave in the room of the outcome: after the first the link is to be followed, after the second there is none. */
static const uint8_t stepped_after[2][16] = {
    {0x02, 0x00, 0x00, 0x10, 0x00, 0x01, 0x00, 0x00, 0x00, 0x00, 0x00, 0x00, 0x00, 0x00, 0x00, BLOCK1},
    {0x02, 0x00, 0x00, 0x10, 0x00, 0x00, 0x00, 0x00, 0x00, 0x00, 0x00, 0x02, 0x00, 0x00, 0x00, 0x00},
};

/* A step on the buffers of a run, with the outcome's for what it leaves. */
static uint32_t step_with(struct lent *l, uint64_t events_len, uint64_t record0_len, uint64_t record1_len, uint64_t stepped_len, uint32_t at,
                          uint32_t index, uint32_t controller)
{
    return vsmd_step_as(l->host, HOST_LEN, l->image0, IMAGE_LEN, l->image1, 0, l->events, events_len, l->record0, record0_len, l->record1,
                        record1_len, l->outcome, stepped_len, at, index, controller);
}

static uint32_t step_as(struct lent *l, uint32_t at, uint32_t index, uint32_t controller)
{
    return step_with(l, EVENTS_LEN, RECORD, RECORD, 16, at, index, controller);
}

/* The chain in a loop, as the header has it, with an allowance that the example does not spend. Each step is lent no more of the event buffer than
 * it asks for. */
static void the_example_by_steps(const struct lent *by_run, uint32_t controller)
{
    struct lent l, wanted;
    uint32_t at = BLOCK0, index = 0, sectors = 0, code;
    lay_out(&l);
    wanted = *by_run;
    do {
        code = step_with(&l, 8 * (uint64_t)index + 8, RECORD + 3, RECORD, 16 + 3, at, index, controller);
        expect_number("what a step returns", code, 0);
        if (code != 0 || index == 2)
            break;
        expect_bytes("what a step leaves", l.outcome, stepped_after[index], 16);
        expect_number("the step's answer", vsmd_stepped_answer(l.outcome), 0);
        sectors += vsmd_stepped_sectors(l.outcome);
        at = vsmd_stepped_link(l.outcome);
        index++;
        expect_number("whether its link is to be followed", (uint64_t)vsmd_stepped_follow(l.outcome), index == 1);
    } while (vsmd_stepped_follow(l.outcome) && index < VSMD_ALLOWANCE_MOST);
    expect_number("the steps made", index, vsmd_outcome_blocks(by_run->outcome));
    expect_number("the sectors moved by them", sectors, vsmd_outcome_sectors(by_run->outcome));
    memcpy(wanted.outcome, stepped_after[1], sizeof stepped_after[1]);
    expect_lent(&l, &wanted);
}

/* The initialize alone: what it stores is there, and of the read that it links to nothing is. */
static void one_step(const struct lent *by_run)
{
    struct lent l, wanted;
    lay_out(&l);
    wanted = l;
    expect_number("what a step alone returns", step_as(&l, BLOCK0, 64, VSMD_CONTROLLER_FIRST), 0);
    wanted.host[BLOCK0 + 2] = 0x80;
    wanted.host[BLOCK0 + 3] = 0x00;
    memcpy(wanted.events + 8 * 64, events_after, VSMD_EVENT_LEN); /* the last entry that this buffer has room for */
    memcpy(wanted.record0, by_run->record0, RECORD);
    wanted.record0[VSMD_RECORD_AT_CYLINDER + 1] = 0;
    memcpy(wanted.outcome, stepped_after[0], sizeof stepped_after[0]);
    expect_lent(&l, &wanted);
}

/* A block that fails is no refusal: the step returns 0 and says why. Its link is told and not to be followed, LK or not. */
static void a_step_that_fails(void)
{
    struct lent l, wanted;
    lay_out(&l);
    l.host[BLOCK1 + 1] = 0x32;
    vsmd_put32(l.host + BLOCK1 + VSMD_BLOCK_AT_LINK, 0x80010203u);
    wanted = l;
    expect_number("what the step of a block that fails returns", step_as(&l, BLOCK1, 1, VSMD_CONTROLLER_FIRST), 0);
    expect_number("why it failed", vsmd_stepped_answer(l.outcome), VSMD_NOT_INITIALIZED);
    expect_number("whether its link is to be followed", (uint64_t)vsmd_stepped_follow(l.outcome), 0);
    expect_number("its link", vsmd_stepped_link(l.outcome), 0x80010203u);
    expect_number("its sectors", vsmd_stepped_sectors(l.outcome), 0);
    wanted.host[BLOCK1 + 2] = 0x82;
    wanted.host[BLOCK1 + 3] = 0x40;
    vsmd_put32(wanted.events + 8, 0x82400341u);
    vsmd_put32(wanted.events + 12, 0);
    memcpy(wanted.outcome, stepped_after[1], 4);
    vsmd_put32(wanted.outcome + 4, (uint32_t)VSMD_NOT_INITIALIZED << 24);
    vsmd_put32(wanted.outcome + 8, 0);
    vsmd_put32(wanted.outcome + 12, 0x80010203u);
    expect_lent(&l, &wanted);
}

/* Each refusal of a step by its own code, in the order of the header, and every byte as it was. In each call all that is asked later is wrong too. */
static void refusals_of_steps(void)
{
    static const uint32_t places[] = {BLOCK0 + 1, HOST_LEN - 27, HOST_LEN - 28, HOST_LEN, 0xFFFFFFFEu, 0xFFFFFFFFu};
    static const uint32_t controllers[] = {2, 0x100, 0x80000000u, 0xFFFFFFFFu};
    struct lent l, before;
    const uint32_t odd = BLOCK0 + 1;
    size_t k;
    lay_out(&before);
    l = before;
    expect_number("a step with record 0 short", step_with(&l, 15, RECORD - 1, RECORD - 1, 15, odd, 1, 2), VSMD_RECORD0_SHORT);
    expect_number("a step with record 0 empty", step_with(&l, 16, 0, RECORD, 16, BLOCK0, 1, 0), VSMD_RECORD0_SHORT);
    expect_number("a step with record 1 short", step_with(&l, 15, RECORD, RECORD - 1, 15, odd, 1, 2), VSMD_RECORD1_SHORT);
    expect_number("a step with stepped short", step_with(&l, 15, RECORD, RECORD, 15, odd, 1, 2), VSMD_STEPPED_SHORT);
    expect_number("a step with stepped empty", step_with(&l, 16, RECORD, RECORD, 0, BLOCK0, 1, 0), VSMD_STEPPED_SHORT);
    for (k = 0; k < sizeof controllers / sizeof controllers[0]; k++)
        expect_number("a step as no controller", step_with(&l, 15, RECORD, RECORD, 16, odd, 1, controllers[k]), VSMD_CONTROLLER_UNKNOWN);
    expect_number("a step without room for its entry", step_with(&l, 15, RECORD, RECORD, 16, odd, 1, 1), VSMD_ENTRY_SHORT);
    expect_number("a step without events", step_with(&l, 0, RECORD, RECORD, 16, BLOCK0, 0, 0), VSMD_ENTRY_SHORT);
    expect_number("a step past the last entry", step_as(&l, BLOCK0, EVENTS_LEN / 8, 0), VSMD_ENTRY_SHORT);
    /* 8 x index has over 32 bits there, and its lower 32 are those of an entry that there is */
    expect_number("a step far past it", step_as(&l, BLOCK0, 0x20000000u, 0), VSMD_ENTRY_SHORT);
    expect_number("a step as far as can be", step_as(&l, BLOCK0, 0xFFFFFFFFu, 0), VSMD_ENTRY_SHORT);
    for (k = 0; k < sizeof places / sizeof places[0]; k++)
        expect_number("a step where no block can be", step_as(&l, places[k], 0, 0), VSMD_FIRST_BAD);
    expect_lent(&l, &before);
}

/* An 85, an initialize and, where there is more, another 85 in one chain, by a run and by steps: of the first pair no byte is left. */
static void a_pair_is_cleared_in_its_chain(int more)
{
    struct lent l, by_steps;
    uint8_t wanted[VSMD_RECORD_LEN];
    uint32_t at = BLOCK0, index = 0;
    lay_out(&l);
    memcpy(l.record0, record_after, sizeof record_after); /* what stands in the room for its pairs is anything */
    memcpy(l.host + BLOCK0, remap, sizeof remap);
    l.host[BLOCK0 + 1] = VSMD_OPTION_LK;
    vsmd_put32(l.host + BLOCK0 + VSMD_BLOCK_AT_LINK, BLOCK1);
    memcpy(l.host + BLOCK1, initialize, sizeof initialize);
    l.host[BLOCK1 + 1] = more ? VSMD_OPTION_LK : 0;
    vsmd_put32(l.host + BLOCK1 + VSMD_BLOCK_AT_LINK, DATA);
    memcpy(l.host + DATA, remap, sizeof remap);
    l.host[DATA + VSMD_BLOCK_AT_CYLINDER + 1] = 2;
    by_steps = l;
    expect_number("the answer of the 85 and the initialize", run_with(&l, RECORD, RECORD, 16), VSMD_DONE);
    expect_number("the blocks of their chain", vsmd_outcome_blocks(l.outcome), more ? 3 : 2);
    vsmd_record_make(wanted, 10, 4, 64, 0, 2, 2, 1, 0);
    if (more)
        vsmd_record_add_pair(wanted, 2, 0, 9, 2);
    expect_bytes("the record after an 85 and an initialize", l.record0, wanted, sizeof wanted);
    do {
        expect_number("what a step of their chain returns", step_as(&by_steps, at, index, VSMD_CONTROLLER_FIRST), 0);
        at = vsmd_stepped_link(by_steps.outcome);
        index++;
    } while (vsmd_stepped_follow(by_steps.outcome) && index < VSMD_ALLOWANCE_MOST);
    memcpy(by_steps.outcome, l.outcome, sizeof l.outcome);
    expect_lent(&by_steps, &l);
}

/* The example by run is what each controller's loop has to leave. */
static void steps(const struct lent *by_run)
{
    the_example_by_steps(by_run, VSMD_CONTROLLER_FIRST);
    the_example_by_steps(by_run, VSMD_CONTROLLER_SECOND);
    one_step(by_run);
    a_step_that_fails();
    a_pair_is_cleared_in_its_chain(0);
    a_pair_is_cleared_in_its_chain(1);
    refusals_of_steps();
}

static void helpers(const struct lent *l)
{
    uint8_t made[VSMD_RECORD_LEN];
    vsmd_record_make(made, 10, 4, 64, 0, 2, 2, 1, 1);
    expect_bytes("the record made", made, record_after, sizeof record_after);
    expect_number("the pairs of the record made", vsmd_record_pairs(made), 0);
    expect_number("blocks", vsmd_outcome_blocks(l->outcome), 2);
    expect_number("sectors", vsmd_outcome_sectors(l->outcome), 2);
    expect_number("whether record 0 says initialized", (uint64_t)vsmd_record_says_initialized(l->record0), 1);
    expect_number("whether record 1 says initialized", (uint64_t)vsmd_record_says_initialized(l->record1), 0);
    expect_number("the cylinder", vsmd_record_cylinder(l->record0), 1);
    expect_number("the travel", (uint64_t)vsmd_event_travel(l->events + VSMD_EVENT_LEN), 1);
}

/* A restore takes the heads back: travel -1, and record 1 is still what it was. */
static void the_way_back(struct lent *l)
{
    l->host[BLOCK0] = 0x89;
    l->host[BLOCK0 + 1] = 0x00;
    expect_number("the answer of the restore", run_with(l, RECORD, RECORD, 16), VSMD_DONE);
    expect_number("minus the travel of the restore", (uint64_t)-vsmd_event_travel(l->events), 1);
    expect_number("the cylinder after it", vsmd_record_cylinder(l->record0), 0);
}

static void expect_part(const struct lent *l, uint64_t image0_len, uint32_t unit, uint64_t place, uint64_t at, uint64_t bytes)
{
    uint32_t image = 77;
    uint64_t got_at = 77, got_bytes = 77;
    uint32_t code = vsmd_inspect(l->record0, RECORD, l->record1, RECORD, image0_len, 0, unit, place, &image, &got_at, &got_bytes);
    expect_number("the code of an inspection", code, 0);
    expect_number("the image inspected", image, 0);
    expect_number("the part's first byte", got_at, at);
    expect_number("the part's length", got_bytes, bytes);
}

static void inspections(const struct lent *l)
{
    uint32_t image = 77;
    uint64_t at = 78, bytes = 79;
    expect_part(l, IMAGE_LEN, 0, 12, 768, 64);
    expect_part(l, IMAGE_LEN, 0, 119, 7616, 64);
    expect_part(l, IMAGE_LEN, 0, 120, 0, 0);
    expect_part(l, IMAGE_LEN, 0, (uint64_t)1 << 58, 0, 0);
    expect_part(l, IMAGE_LEN - 1, 0, 12, 0, 0);
    expect_part(l, IMAGE_LEN, 1, 12, 0, 0);
    expect_part(l, IMAGE_LEN, 2, 12, 0, 0);
    expect_number("the code with record 0 short",
                  vsmd_inspect(l->record0, RECORD - 1, l->record1, RECORD - 1, IMAGE_LEN, 0, 0, 12, &image, &at, &bytes),
                  VSMD_RECORD0_SHORT);
    expect_number("the code with record 1 short",
                  vsmd_inspect(l->record0, RECORD, l->record1, RECORD - 1, IMAGE_LEN, 0, 0, 12, &image, &at, &bytes),
                  VSMD_RECORD1_SHORT);
    expect_number("the image after a refused inspection", image, 77);
    expect_number("the first byte after it", at, 78);
    expect_number("the length after it", bytes, 79);
}

/* Places and lengths have 64 bits whatever the machine's own have: the largest drive that there is, of which numbers alone are lent. */
static void the_largest_drive(void)
{
    static struct lent l;
    vsmd_record_make(l.record0, 4096, 255, 4096, 0, 64, 0, 0, 0);
    expect_part(&l, UINT64_C(273871011840), 0, 66846719, UINT64_C(273804161024), 4096);
    expect_part(&l, UINT64_C(273871011840), 0, 66846720, 0, 0);
    expect_part(&l, UINT64_C(273871011839), 0, 66846719, 0, 0);
}

/* A sector of unit 0 by its number in a volume; or, where the volume is ADDRESSED, by its cylinder, head and sector, a byte of the
 * number each. One that is NOWHERE is refused, and the numbers stay. */
#define ADDRESSED 77u
#define NOWHERE 0xFFFFFFFFu

static void expect_sector(const struct lent *l, uint32_t volume, uint64_t number, uint64_t place)
{
    uint64_t got_place = 77, first = 78, mark = 79;
    uint32_t code = volume == ADDRESSED ? vsmd_sector_at(l->record0, RECORD, (uint16_t)(number >> 16), (uint16_t)(number >> 8 & 0xFF),
                                                         (uint16_t)(number & 0xFF), &got_place, &first, &mark)
                                        : vsmd_sector_of(l->record0, RECORD, volume, number, &got_place, &first, &mark);
    int there = place != NOWHERE;
    expect_number("the code of a sector", code, there ? 0 : VSMD_SECTOR_NOT_THERE);
    expect_number("the place of a sector", (unsigned long)got_place, there ? (unsigned long)place : 77);
    expect_number("the first byte of a sector", (unsigned long)first, there ? (unsigned long)place * 64 : 78);
    expect_number("the mark of a sector", (unsigned long)mark, there ? MARKS + (unsigned long)place : 79);
}

/* By the record alone, of the small drive by head and without pairs: how long its image has to be and where its sectors stand. */
static void standings(const struct lent *l)
{
    uint64_t place = 77, first = 78, mark = 79, bytes = 80;
    expect_sector(l, 0, 8, 12);
    expect_sector(l, 0, 79, 115);
    expect_sector(l, 0, 80, NOWHERE);
    expect_sector(l, 1, 0, 8);
    expect_sector(l, 1, 39, 119);
    expect_sector(l, 1, 40, NOWHERE);
    expect_sector(l, 0, (uint64_t)1 << 32, NOWHERE);
    expect_sector(l, 2, 0, NOWHERE);
    expect_sector(l, 0x100, 0, NOWHERE);
    expect_sector(l, ADDRESSED, 0x010000, 12);
    expect_sector(l, ADDRESSED, 0x090203, 119);
    expect_sector(l, ADDRESSED, 0x0A0000, NOWHERE);
    expect_sector(l, ADDRESSED, 0x000300, NOWHERE);
    expect_sector(l, ADDRESSED, 0x000004, NOWHERE);
    expect_number("the code with a record short", vsmd_sector_of(l->record0, RECORD - 1, 0, 8, &place, &first, &mark), VSMD_RECORD0_SHORT);
    expect_number("the code with it short by address", vsmd_sector_at(l->record0, 0, 1, 0, 0, &place, &first, &mark), VSMD_RECORD0_SHORT);
    expect_number("the code of unit 1", vsmd_sector_of(l->record1, RECORD, 2, 8, &place, &first, &mark), VSMD_RECORD_NOT_INITIALIZED);
    expect_number("the code of unit 1 by address", vsmd_sector_at(l->record1, RECORD, 1, 0, 0, &place, &first, &mark),
                  VSMD_RECORD_NOT_INITIALIZED);
    expect_number("the place after four refusals", (unsigned long)place, 77);
    expect_number("the first byte after them", (unsigned long)first, 78);
    expect_number("the mark after them", (unsigned long)mark, 79);
    expect_number("the code with a record short", vsmd_image_need(l->record0, RECORD - 1, &bytes), VSMD_RECORD0_SHORT);
    expect_number("the code of unit 1", vsmd_image_need(l->record1, RECORD, &bytes), VSMD_RECORD_NOT_INITIALIZED);
    expect_number("the number after two refusals", (unsigned long)bytes, 80);
    expect_number("the code of the need", vsmd_image_need(l->record0, RECORD + AFTER, &bytes), 0);
    expect_number("the bytes that the image needs", (unsigned long)bytes, IMAGE_LEN);
}

/* A block of one sector from or to the data's address, logical 8: the first sector of cylinder 1. */
static void lay_transfer(struct lent *l, uint8_t command)
{
    memset(l->host + BLOCK0, 0, 28);
    l->host[BLOCK0] = command;
    l->host[BLOCK0 + 1] = 0x10;
    l->host[BLOCK0 + 7] = 8;
    l->host[BLOCK0 + 9] = 1;
    l->host[BLOCK0 + 13] = DATA;
}

/* What every run here changes whatever it is for: the outcome, the status word of its one block, and the entry. */
static void ended(struct lent *wanted, uint8_t status, uint8_t error, uint8_t failed, uint8_t sectors, uint8_t travel)
{
    memset(wanted->outcome + 4, 0, 12);
    wanted->outcome[VSMD_OUTCOME_AT_ANSWER] = failed ? VSMD_BLOCK_FAILED : VSMD_DONE;
    wanted->outcome[VSMD_OUTCOME_AT_FAILED] = failed;
    wanted->outcome[VSMD_OUTCOME_AT_BLOCKS + 3] = 1;
    wanted->outcome[VSMD_OUTCOME_AT_SECTORS + 3] = sectors;
    wanted->host[BLOCK0 + 2] = status;
    wanted->host[BLOCK0 + 3] = error;
    memset(wanted->events, 0, VSMD_EVENT_LEN);
    wanted->events[0] = status;
    wanted->events[1] = error;
    wanted->events[7] = travel;
}

/* An 85 adds its pair and changes nothing else, whatever stands past it; the same once more is refused. */
static void a_pair_is_added(struct lent *l)
{
    struct lent wanted;
    memset(l->record0 + VSMD_RECORD_AT_TABLE, 0x5A, RECORD - VSMD_RECORD_AT_TABLE);
    memcpy(l->host + BLOCK0, remap, sizeof remap);
    wanted = *l;
    expect_number("the answer of the 85", run_with(l, RECORD, RECORD, 16), VSMD_DONE);
    ended(&wanted, 0x80, 0x00, 0, 0, 0);
    wanted.record0[VSMD_RECORD_AT_PAIRS + 1] = 1;
    memcpy(wanted.record0 + VSMD_RECORD_AT_TABLE, pair_after, sizeof pair_after);
    expect_lent(l, &wanted);
    expect_number("the answer of the 85 again", run_with(l, RECORD, RECORD, 16), VSMD_BLOCK_FAILED);
    ended(&wanted, 0x82, 0xFF, VSMD_TRACKS_TAKEN, 0, 0);
    expect_lent(l, &wanted);
}

/* A write to the bad track goes to the spare, place 116, and a read brings it back from there. Inspection sees both where they stand. */
static void the_spare_serves(struct lent *l)
{
    struct lent wanted;
    lay_transfer(l, 0x82);
    wanted = *l;
    expect_number("the answer of the write", run_with(l, RECORD, RECORD, 16), VSMD_DONE);
    ended(&wanted, 0x80, 0x00, 0, 1, 9);
    wanted.record0[VSMD_RECORD_AT_CYLINDER + 1] = 9;
    memcpy(wanted.image0 + 7424, wanted.host + DATA, 64);
    expect_lent(l, &wanted);
    lay_transfer(l, 0x81);
    memset(l->host + DATA, 0, 64);
    wanted = *l;
    expect_number("the answer of the read", run_with(l, RECORD, RECORD, 16), VSMD_DONE);
    ended(&wanted, 0x80, 0x00, 0, 1, 0);
    memcpy(wanted.host + DATA, wanted.image0 + 7424, 64);
    expect_lent(l, &wanted);
    expect_part(l, IMAGE_LEN, 0, 116, 7424, 64);
    expect_part(l, IMAGE_LEN, 0, 12, 768, 64);
    expect_sector(l, 0, 8, 116);
    expect_sector(l, ADDRESSED, 0x010002, 118);
    expect_sector(l, ADDRESSED, 0x090202, 118);
    expect_sector(l, 0, 12, 16);
}

/* What the header's own functions say of the record with its pair. */
static void pairs_told(const struct lent *l)
{
    uint16_t bad = 77, spare = 77;
    uint8_t bad_head = 77, spare_head = 77, other[VSMD_RECORD_LEN];
    int there = vsmd_record_get_pair(l->record0, 1, &bad, &bad_head, &spare, &spare_head);
    expect_number("how many pairs count", vsmd_record_pairs(l->record0), 1);
    expect_number("whether there is a second pair", (uint64_t)there, 0);
    expect_number("the cylinder of a pair that is not there", bad, 77);
    there = vsmd_record_get_pair(l->record0, 0, &bad, &bad_head, &spare, &spare_head);
    expect_number("whether there is a pair", (uint64_t)there, 1);
    expect_number("its bad cylinder", bad, 1);
    expect_number("its bad head", bad_head, 0);
    expect_number("its spare cylinder", spare, 9);
    expect_number("its spare head", spare_head, 2);
    vsmd_record_make(other, 10, 4, 64, 0, 2, 2, 1, 9);
    expect_number("whether a pair can be added", (uint64_t)vsmd_record_add_pair(other, 1, 0, 9, 2), 1);
    expect_bytes("the record made with the pair", other, l->record0, VSMD_RECORD_AT_TABLE + VSMD_PAIR_LEN);
}

/* An initialize clears the table: the number, the pair, and what stands past it. */
static void the_table_is_cleared(struct lent *l)
{
    struct lent wanted;
    memcpy(l->host + BLOCK0, initialize, sizeof initialize);
    l->host[BLOCK0 + 1] = 0x00;
    memcpy(l->host + UIB, uib, sizeof uib);
    wanted = *l;
    expect_number("the answer of the initialize", run_with(l, RECORD, RECORD, 16), VSMD_DONE);
    ended(&wanted, 0x80, 0x00, 0, 0, 0);
    wanted.record0[VSMD_RECORD_AT_CYLINDER + 1] = 0;
    cleared(&wanted);
    expect_lent(l, &wanted);
}

/* A restore with RV or without, whose way is that from cylinder 0 to itself. */
static void lay_restore(struct lent *l, uint8_t options)
{
    memset(l->host + BLOCK0, 0, 28);
    l->host[BLOCK0] = 0x89;
    l->host[BLOCK0 + 1] = options;
}

/* One controller takes the drive by RV and keeps it; the other is refused until it is given up. Byte 17 is all that a record changes by. */
static void the_drive_is_held(struct lent *l, uint32_t own, uint32_t other)
{
    struct lent wanted;
    lay_restore(l, 0x08);
    wanted = *l;
    expect_number("the answer of who takes the drive", run_as(l, own), VSMD_DONE);
    ended(&wanted, 0x80, 0x00, 0, 0, 0);
    wanted.record0[VSMD_RECORD_AT_HOLDER] = (uint8_t)(own + 1);
    expect_lent(l, &wanted);
    expect_number("the answer of who keeps it", run_as(l, own), VSMD_DONE);
    expect_lent(l, &wanted);
    expect_number("the answer of the other", run_as(l, other), VSMD_BLOCK_FAILED);
    ended(&wanted, 0x82, 0x2E, VSMD_DRIVE_HELD, 0, 0);
    expect_lent(l, &wanted);
    /* an initialize of the other is refused too; of its UIB, which lies outside memory, nothing is said */
    l->host[BLOCK0] = wanted.host[BLOCK0] = 0x87;
    memset(l->host + BLOCK0 + 10, 0xFF, 4);
    memset(wanted.host + BLOCK0 + 10, 0xFF, 4);
    expect_number("the answer of the other's initialize", run_as(l, other), VSMD_BLOCK_FAILED);
    expect_lent(l, &wanted);
    lay_restore(l, 0x00);
    lay_restore(&wanted, 0x00);
    expect_number("the answer of who gives it up", run_as(l, own), VSMD_DONE);
    ended(&wanted, 0x80, 0x00, 0, 0, 0);
    wanted.record0[VSMD_RECORD_AT_HOLDER] = VSMD_HOLDER_NONE;
    expect_lent(l, &wanted);
    expect_number("the answer of the other then", run_as(l, other), VSMD_DONE);
    expect_lent(l, &wanted);
}

/* vsmd_run is the first controller's: it is refused where the second holds the drive, and let through where the first does. */
static void the_first_has_two_names(struct lent *l)
{
    lay_restore(l, 0x08);
    expect_number("the answer of the second", run_as(l, VSMD_CONTROLLER_SECOND), VSMD_DONE);
    expect_number("the answer where the second holds the drive", run_with(l, RECORD, RECORD, 16), VSMD_BLOCK_FAILED);
    expect_number("why it failed", l->outcome[VSMD_OUTCOME_AT_FAILED], VSMD_DRIVE_HELD);
    expect_number("who holds it", vsmd_record_holder(l->record0), VSMD_HOLDER_SECOND);
    expect_number("whether it was released", (uint64_t)vsmd_record_release(l->record0), 1);
    expect_number("the answer where it was released", run_with(l, RECORD, RECORD, 16), VSMD_DONE);
    expect_number("who holds it then", vsmd_record_holder(l->record0), VSMD_HOLDER_FIRST);
    expect_number("the answer as the first", run_as(l, VSMD_CONTROLLER_FIRST), VSMD_DONE);
    expect_number("whether it was released again", (uint64_t)vsmd_record_release(l->record0), 1);
}

/* What the header says of each byte that a holder can be, and what a release leaves: 01 and 02 alone are somebody's. */
static void holders_told(const struct lent *l)
{
    uint8_t record[VSMD_RECORD_LEN], before[VSMD_RECORD_LEN];
    unsigned holder, flag;
    for (holder = 0; holder < 256; holder++) {
        for (flag = 0; flag < 2; flag++) {
            unsigned held = holder == 1 || holder == 2;
            memcpy(record, l->record0, sizeof record);
            record[VSMD_RECORD_AT_INITIALIZED] = (uint8_t)flag;
            record[VSMD_RECORD_AT_HOLDER] = (uint8_t)holder;
            memcpy(before, record, sizeof record);
            expect_number("whether it says initialized", (uint64_t)vsmd_record_says_initialized(record), flag && holder <= 2);
            expect_number("who holds it", vsmd_record_holder(record), held ? holder : VSMD_HOLDER_NONE);
            expect_number("whether it was released", (uint64_t)vsmd_record_release(record), held);
            if (held)
                before[VSMD_RECORD_AT_HOLDER] = VSMD_HOLDER_NONE;
            expect_bytes("the record after a release", record, before, sizeof record);
        }
    }
}

/* The record of another layout is nobody's: neither the header nor the library believes its byte 17. */
static void holders_of_other_layouts(struct lent *l)
{
    static const uint8_t other[3] = {0x01, 0x00, 0x15};
    static const size_t at[3] = {VSMD_RECORD_AT_VERSION, VSMD_RECORD_AT_LENGTH, VSMD_RECORD_AT_LENGTH + 1};
    struct lent wanted;
    size_t k;
    lay_restore(l, 0x08);
    for (k = 0; k < 3; k++) {
        wanted = *l;
        wanted.record0[VSMD_RECORD_AT_HOLDER] = VSMD_HOLDER_SECOND;
        wanted.record0[at[k]] = other[k];
        *l = wanted;
        expect_number("who holds a record of another layout", vsmd_record_holder(l->record0), VSMD_HOLDER_NONE);
        expect_number("whether it was released", (uint64_t)vsmd_record_release(l->record0), 0);
        expect_number("the answer on it", run_with(l, RECORD, RECORD, 16), VSMD_BLOCK_FAILED);
        ended(&wanted, 0x82, 0x40, VSMD_NOT_INITIALIZED, 0, 0);
        expect_lent(l, &wanted);
        l->record0[at[k]] = record_after[at[k]];
        l->record0[VSMD_RECORD_AT_HOLDER] = VSMD_HOLDER_NONE;
    }
}

/* A number that is no holder's: not initialized, for both, until an initialize mends it. */
static void a_holder_that_is_none(struct lent *l, uint32_t controller)
{
    struct lent wanted;
    lay_restore(l, 0x08);
    l->record0[VSMD_RECORD_AT_HOLDER] = 0x03;
    wanted = *l;
    expect_number("the answer with holder 3", run_as(l, controller), VSMD_BLOCK_FAILED);
    ended(&wanted, 0x82, 0x40, VSMD_NOT_INITIALIZED, 0, 0);
    expect_lent(l, &wanted);
    memcpy(l->host + BLOCK0, initialize, sizeof initialize);
    l->host[BLOCK0 + 1] = 0x08;
    wanted = *l;
    expect_number("the answer of an initialize with RV", run_as(l, controller), VSMD_DONE);
    ended(&wanted, 0x80, 0x00, 0, 0, 0);
    wanted.record0[VSMD_RECORD_AT_HOLDER] = (uint8_t)(controller + 1);
    expect_lent(l, &wanted);
    vsmd_record_release(l->record0);
}

/* All of it, on the drive as an initialize left it. */
static void two_controllers(struct lent *l)
{
    the_drive_is_held(l, VSMD_CONTROLLER_FIRST, VSMD_CONTROLLER_SECOND);
    the_drive_is_held(l, VSMD_CONTROLLER_SECOND, VSMD_CONTROLLER_FIRST);
    the_first_has_two_names(l);
    holders_told(l);
    holders_of_other_layouts(l);
    a_holder_that_is_none(l, VSMD_CONTROLLER_FIRST);
    a_holder_that_is_none(l, VSMD_CONTROLLER_SECOND);
}

/* The small drive counted by cylinder, with its heads on cylinder 0, and a read of two sectors. */
static void lay_by_cylinder(struct lent *l)
{
    vsmd_record_make(l->record0, 10, 4, 64, 0, 2, 2, 1, 0);
    l->record0[VSMD_RECORD_AT_ORDER] = VSMD_ORDER_BY_CYLINDER;
    memcpy(l->host + BLOCK0, two_sectors, sizeof two_sectors);
    l->host[BLOCK0 + 1] = 0x10;
}

/* Logical 7 is cylinder 1, head 0, sector 3, place 15; the sector after it is on cylinder 2 under the same head, place 24. */
static void a_read_by_cylinder(struct lent *l)
{
    struct lent wanted;
    lay_by_cylinder(l);
    wanted = *l;
    expect_number("the answer of a read by cylinder", run_with(l, RECORD, RECORD, 16), VSMD_DONE);
    ended(&wanted, 0x80, 0x00, 0, 2, 2);
    memcpy(wanted.host + DATA, wanted.image0 + 15 * 64, 64);
    memcpy(wanted.host + DATA + 64, wanted.image0 + 24 * 64, 64);
    wanted.record0[VSMD_RECORD_AT_CYLINDER + 1] = 2;
    expect_lent(l, &wanted);
    expect_sector(l, 0, 7, 15);
    expect_sector(l, 0, 8, 24);
    expect_sector(l, 0, 4, 12);
    expect_sector(l, 0, 40, 4);
    expect_sector(l, ADDRESSED, 0x010000, 12);
}

/* Cylinder 0, head 1, sector 3 is place 7, and the sector after it is on cylinder 1, place 16. From sector 0 of that track there are 40
 * sectors to the end of the volume, where by head there would be 76. */
static void a_physical_start_by_cylinder(struct lent *l)
{
    struct lent wanted;
    lay_by_cylinder(l);
    l->host[BLOCK0 + 1] = 0x00;
    l->host[BLOCK0 + 6] = 1;
    l->host[BLOCK0 + 7] = 3;
    wanted = *l;
    expect_number("the answer of a physical read by cylinder", run_with(l, RECORD, RECORD, 16), VSMD_DONE);
    ended(&wanted, 0x80, 0x00, 0, 2, 1);
    memcpy(wanted.host + DATA, wanted.image0 + 7 * 64, 64);
    memcpy(wanted.host + DATA + 64, wanted.image0 + 16 * 64, 64);
    wanted.record0[VSMD_RECORD_AT_CYLINDER + 1] = 1;
    expect_lent(l, &wanted);
    l->host[BLOCK0 + 7] = 0;
    l->host[BLOCK0 + 9] = 41;
    wanted = *l;
    expect_number("the answer of 41 sectors", run_with(l, RECORD, RECORD, 16), VSMD_BLOCK_FAILED);
    ended(&wanted, 0x82, 0x16, VSMD_SECTOR_OUTSIDE, 0, 0);
    expect_lent(l, &wanted);
    /* memory has no room for 40 sectors, but the volume has them */
    l->host[BLOCK0 + 9] = 40;
    expect_number("the answer of 40 sectors", run_with(l, RECORD, RECORD, 16), VSMD_BLOCK_FAILED);
    expect_number("why it failed", l->outcome[VSMD_OUTCOME_AT_FAILED], VSMD_DATA_MISPLACED);
}

/* A number that is no order's: not initialized, and the record as it came, until an initialize mends it. The UIB's attribute says the
 * order; all other bits of its byte are set where it is clear, and clear where it is set. */
static void orders_initialized(struct lent *l)
{
    struct lent wanted;
    unsigned order;
    for (order = 0; order < 256; order++) {
        l->record0[VSMD_RECORD_AT_ORDER] = (uint8_t)order;
        expect_number("whether it says initialized", (uint64_t)vsmd_record_says_initialized(l->record0), order <= 1);
    }
    lay_restore(l, 0x00);
    wanted = *l;
    expect_number("the answer with order 255", run_with(l, RECORD, RECORD, 16), VSMD_BLOCK_FAILED);
    ended(&wanted, 0x82, 0x40, VSMD_NOT_INITIALIZED, 0, 0);
    expect_lent(l, &wanted);
    for (order = VSMD_ORDER_BY_HEAD; order <= VSMD_ORDER_BY_CYLINDER; order++) {
        memcpy(l->host + BLOCK0, initialize, sizeof initialize);
        l->host[BLOCK0 + 1] = 0x00;
        memcpy(l->host + UIB, uib, sizeof uib);
        l->host[UIB + 14] = order == VSMD_ORDER_BY_HEAD ? 0x04 : 0xFB;
        wanted = *l;
        expect_number("the answer of the initialize", run_with(l, RECORD, RECORD, 16), VSMD_DONE);
        ended(&wanted, 0x80, 0x00, 0, 0, 0);
        wanted.record0[VSMD_RECORD_AT_CYLINDER + 1] = 0;
        wanted.record0[VSMD_RECORD_AT_ORDER] = (uint8_t)order;
        expect_lent(l, &wanted);
    }
}

static void by_cylinder(struct lent *l)
{
    a_read_by_cylinder(l);
    a_physical_start_by_cylinder(l);
    orders_initialized(l);
}

/* 32 pairs on 22 cylinders leave two tracks, for which there is no room in the table. */
static void a_full_table(struct lent *l)
{
    struct lent wanted;
    uint16_t k;
    vsmd_record_make(l->record0, 22, 4, 64, 0, 2, 2, 1, 0);
    for (k = 0; k < VSMD_PAIRS_MOST; k++)
        vsmd_record_add_pair(l->record0, (uint16_t)(k / 3), (uint8_t)(k % 3), (uint16_t)((k + 32) / 3), (uint8_t)((k + 32) % 3));
    expect_number("whether a pair more can be added", (uint64_t)vsmd_record_add_pair(l->record0, 21, 1, 21, 2), 0);
    expect_number("the pairs of a full table", vsmd_record_pairs(l->record0), 32);
    memcpy(l->host + BLOCK0, remap, sizeof remap);
    l->host[BLOCK0 + 5] = l->host[BLOCK0 + 9] = 21;
    l->host[BLOCK0 + 6] = 1;
    wanted = *l;
    expect_number("the answer of an 85 with 32 pairs", run_with(l, RECORD, RECORD, 16), VSMD_BLOCK_FAILED);
    ended(&wanted, 0x82, 0xFF, VSMD_TABLE_FULL, 0, 0);
    expect_lent(l, &wanted);
}

/* A record of version 1 becomes one of this version without pairs; what was not initialized there is not here. */
static void upgrades(void)
{
    uint8_t old[VSMD_RECORD_LEN_V1], made[VSMD_RECORD_LEN], zeros[VSMD_RECORD_LEN] = {0};
    memcpy(old, record_of_version_1, sizeof old);
    memset(made, 0x77, sizeof made);
    expect_number("whether a record was upgraded", (uint64_t)vsmd_record_upgrade(made, old), 1);
    expect_bytes("the record upgraded", made, record_after, sizeof record_after);
    expect_bytes("its table", made + VSMD_RECORD_AT_TABLE, zeros, sizeof made - VSMD_RECORD_AT_TABLE);
    old[1] = 0;
    expect_number("whether a record that says no more was upgraded", (uint64_t)vsmd_record_upgrade(made, old), 0);
    expect_bytes("what it became", made, zeros, sizeof made);
}

int main(void)
{
    struct lent l;
    layouts();
    refusals();
    refusals_of_controllers();
    the_example(&l);
    steps(&l);
    helpers(&l);
    inspections(&l);
    the_largest_drive();
    standings(&l);
    the_way_back(&l);
    a_pair_is_added(&l);
    the_spare_serves(&l);
    pairs_told(&l);
    the_table_is_cleared(&l);
    two_controllers(&l);
    by_cylinder(&l);
    a_full_table(&l);
    upgrades();
    if (wrong)
        return 1;
    printf("two_sector_read: the session example, the refusals, the inspection, where sectors stand, a spare track, a drive of two "
           "controllers and one by cylinder through C are as the papers have them\n"
           "two_sector_read: the session example by steps leaves what the run leaves, and a step that is refused leaves every byte\n");
    return 0;
}
