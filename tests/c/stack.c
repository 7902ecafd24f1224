/* The stack that the calls take, and that it is no more than the header says. Chains of 1, 8, 16 and 64 blocks of every command are run, each with a
 * scatter of 64 elements for its last block, for either controller, without pairs and with both tables full; each command is run as a step; and the calls
 * that go by records alone are made with both tables full.
 * Each call has a stack of its own that was painted before and has nothing on it but the call: how far down the paint is gone is the room that a
 * caller has to have. */
#define _XOPEN_SOURCE 700
#include "vsmd3200.h"

#include <stdio.h>
#include <string.h>
#include <ucontext.h>

#define PAINT 0xA5
#define BLOCK_STEP 32u
#define LIST 0x1000u
#define UIB 0x1800u
#define DATA 0x2000u
#define CYLINDERS 30u /* of the paper's small drive, so that 32 pairs have their tracks */

static uint8_t stack[1u << 18];
static ucontext_t here, there;

static uint8_t host[0x4000], image0[CYLINDERS * 3 * 4 * 65], image1[CYLINDERS * 3 * 4 * 65], events[VSMD_EVENTS_LEN_LEAST];
static uint8_t record0[VSMD_RECORD_LEN], record1[VSMD_RECORD_LEN], outcome[VSMD_OUTCOME_LEN], stepped[VSMD_STEPPED_LEN];
static uint32_t controller, returned;

/* The first controller's by the call that is told none, which takes a little more: it makes the other. */
static void run(void)
{
    if (controller == VSMD_CONTROLLER_FIRST)
        returned = vsmd_run(host, sizeof host, image0, sizeof image0, image1, sizeof image1, events, sizeof events, record0, sizeof record0, record1,
                            sizeof record1, outcome, sizeof outcome, 0, VSMD_ALLOWANCE_MOST);
    else
        returned = vsmd_run_as(host, sizeof host, image0, sizeof image0, image1, sizeof image1, events, sizeof events, record0, sizeof record0,
                               record1, sizeof record1, outcome, sizeof outcome, 0, VSMD_ALLOWANCE_MOST, controller);
}

static void step(void)
{
    returned = vsmd_step_as(host, sizeof host, image0, sizeof image0, image1, sizeof image1, events, sizeof events, record0, sizeof record0, record1,
                            sizeof record1, stepped, sizeof stepped, 0, 0, controller);
}

/* The calls that go by records alone. */
static void inspect(void)
{
    static uint32_t image;
    static uint64_t at, bytes;
    returned = vsmd_inspect(record0, sizeof record0, record1, sizeof record1, sizeof image0, sizeof image1, 1, 100, &image, &at, &bytes);
}

static uint64_t place, first, mark;

static void image_need(void)
{
    returned = vsmd_image_need(record1, sizeof record1, &place);
}

static void sector_of(void)
{
    returned = vsmd_sector_of(record1, sizeof record1, 0, 100, &place, &first, &mark);
}

static void sector_at(void)
{
    returned = vsmd_sector_at(record1, sizeof record1, 10, 2, 3, &place, &first, &mark);
}

/* An 85 for the pair with an index: a track from the second on, and one from the last down. */
static void lay_remap(uint8_t *block, unsigned k)
{
    unsigned bad = 1 + k, spare = CYLINDERS * 3 - 1 - k;
    vsmd_put16(block + VSMD_BLOCK_AT_CYLINDER, (uint16_t)(bad / 3));
    block[VSMD_BLOCK_AT_HEAD] = (uint8_t)(bad % 3);
    vsmd_put16(block + VSMD_BLOCK_AT_SPARE_CYLINDER, (uint16_t)(spare / 3));
    vsmd_put16(block + VSMD_BLOCK_AT_SPARE_HEAD, (uint16_t)(spare % 3 * 256));
}

/* A block of two sectors of the small drive, on either unit in turn. An 85 gives way to a seek when the table is full. */
static void lay_block(unsigned k, uint8_t command, int is_last)
{
    uint8_t *block = host + BLOCK_STEP * k;
    int by_list = command == VSMD_COMMAND_SCATTER || command == VSMD_COMMAND_GATHER;
    block[VSMD_BLOCK_AT_COMMAND] = command;
    block[VSMD_BLOCK_AT_OPTIONS] = (uint8_t)(VSMD_OPTION_XL | VSMD_OPTION_RV | (is_last ? 0u : VSMD_OPTION_LK) | (k % 2 ? VSMD_OPTION_UN : 0u));
    vsmd_put16(block + VSMD_BLOCK_AT_COUNT, 2);
    vsmd_put32(block + VSMD_BLOCK_AT_ADDRESS, by_list ? LIST : command == VSMD_COMMAND_INITIALIZE ? UIB : DATA);
    vsmd_put32(block + VSMD_BLOCK_AT_LINK, BLOCK_STEP * (k + 1));
    block[VSMD_BLOCK_AT_ELEMENTS] = by_list ? VSMD_ELEMENTS_MOST : 0;
    if (command == VSMD_COMMAND_MAP_TRACK && k / 2 < VSMD_PAIRS_MOST)
        lay_remap(block, k / 2);
    else if (command == VSMD_COMMAND_MAP_TRACK)
        block[VSMD_BLOCK_AT_COMMAND] = VSMD_COMMAND_SEEK;
}

static void lay_chain(uint8_t command, unsigned blocks)
{
    static const uint8_t uib[VSMD_UIB_LEN] = {0, 2, 2, 1, 4, 0, 0, 64, 0x10, 0x20, 1, 3, 0, CYLINDERS, VSMD_UIB_INCREMENT_BY_HEAD, 0, 1, 0xFF};
    unsigned k;
    memset(host, 0, sizeof host);
    for (k = 0; k + 1 < blocks; k++)
        lay_block(k, command, 0);
    lay_block(k, VSMD_COMMAND_SCATTER, 1);
    for (k = 0; k < VSMD_ELEMENTS_MOST; k++) {
        vsmd_put16(host + LIST + VSMD_ELEMENT_LEN * k + VSMD_ELEMENT_AT_COUNT, 2);
        vsmd_put32(host + LIST + VSMD_ELEMENT_LEN * k + VSMD_ELEMENT_AT_ADDRESS, DATA + 2 * k);
    }
    memcpy(host + UIB, uib, sizeof uib);
}

/* A record with so many pairs: the bad track of the last is the one that all blocks go to. */
static void make_record(uint8_t *record, unsigned pairs)
{
    unsigned k;
    vsmd_record_make(record, CYLINDERS, 4, 64, 0, 2, 2, 1, 0);
    for (k = 1; k <= pairs; k++)
        vsmd_record_add_pair(record, (uint16_t)((pairs - k) / 3), (uint8_t)((pairs - k) % 3), (uint16_t)((pairs + k) / 3),
                             (uint8_t)((pairs + k) % 3));
}

static size_t painted_over(void (*call)(void))
{
    size_t k = 0;
    memset(stack, PAINT, sizeof stack);
    getcontext(&there);
    there.uc_stack.ss_sp = stack;
    there.uc_stack.ss_size = sizeof stack;
    there.uc_link = &here;
    makecontext(&there, call, 0);
    swapcontext(&here, &there);
    while (k < sizeof stack && stack[k] == PAINT)
        k++;
    return sizeof stack - k;
}

/* The first call of memcpy can have a loader look it up, which takes a stack of its own: so the call is made once before. */
static size_t taken_by(void (*call)(void), unsigned pairs)
{
    make_record(record0, pairs);
    make_record(record1, pairs);
    call();
    make_record(record0, pairs);
    make_record(record1, pairs);
    return painted_over(call);
}

static const uint8_t commands[] = {VSMD_COMMAND_READ,    VSMD_COMMAND_WRITE, VSMD_COMMAND_MAP_TRACK, VSMD_COMMAND_HANDSHAKE, VSMD_COMMAND_INITIALIZE,
                                   VSMD_COMMAND_RESTORE, VSMD_COMMAND_SEEK,  VSMD_COMMAND_FORMAT,    VSMD_COMMAND_SCATTER,   VSMD_COMMAND_GATHER};

/* The most that chains of so many blocks take; 0 where one was not run to its end. */
static size_t most_of_chains(unsigned blocks)
{
    size_t c, taken, most = 0;
    unsigned pairs;
    for (c = 0; c < sizeof commands; c++)
        for (controller = VSMD_CONTROLLER_FIRST; controller <= VSMD_CONTROLLER_SECOND; controller++)
            for (pairs = 0; pairs <= VSMD_PAIRS_MOST; pairs += VSMD_PAIRS_MOST) {
                /* a full table has no room for a pair */
                if (commands[c] == VSMD_COMMAND_MAP_TRACK && pairs != 0)
                    continue;
                lay_chain(commands[c], blocks);
                taken = taken_by(run, pairs);
                if (returned != VSMD_DONE || vsmd_outcome_blocks(outcome) != blocks) {
                    printf("stack: a chain of %u blocks %02x was not run to its end\n", blocks, (unsigned)commands[c]);
                    return 0;
                }
                if (taken > most)
                    most = taken;
            }
    return most;
}

/* The same of one block of each command as a step, whatever it ends with; 0 where one was not run. */
static size_t most_of_steps(void)
{
    size_t c, taken, most = 0;
    unsigned pairs;
    controller = VSMD_CONTROLLER_FIRST;
    for (c = 0; c < sizeof commands; c++)
        for (pairs = 0; pairs <= VSMD_PAIRS_MOST; pairs += VSMD_PAIRS_MOST) {
            lay_chain(commands[c], 2);
            taken = taken_by(step, pairs);
            if (returned != 0) {
                printf("stack: a step of %02x was not run\n", (unsigned)commands[c]);
                return 0;
            }
            if (taken > most)
                most = taken;
        }
    return most;
}

/* The most that a call by records alone takes; 0 where one was refused. */
static size_t most_of_others(void)
{
    static void (*const others[])(void) = {inspect, image_need, sector_of, sector_at};
    size_t n, taken, most = 0;
    for (n = 0; n < sizeof others / sizeof others[0]; n++) {
        taken = taken_by(others[n], VSMD_PAIRS_MOST);
        if (returned != 0) {
            printf("stack: a call by records alone was refused\n");
            return 0;
        }
        if (taken > most)
            most = taken;
    }
    return most;
}

static int within(const char *what, size_t taken, size_t most)
{
    if (taken <= most)
        return 1;
    printf("stack: %s takes %zu bytes, and the header says at most %zu\n", what, taken, most);
    return 0;
}

int main(void)
{
    static const unsigned chains[] = {1, 8, 16, 64};
    size_t n, most[4], steps, others;
    for (n = 0; n < 4; n++) {
        most[n] = most_of_chains(chains[n]);
        if (most[n] == 0)
            return 1;
    }
    steps = most_of_steps();
    others = most_of_others();
    if (steps == 0 || others == 0)
        return 1;
    printf("stack: a run takes %zu bytes for 1 block, %zu for 8, %zu for 16 and %zu for 64; a step %zu, and the other calls at most %zu\n", most[0], most[1],
           most[2], most[3], steps, others);
    return within("a run", most[3], VSMD_STACK_MOST) && within("a step", steps, VSMD_STEP_STACK_MOST) && within("another call", others, steps) ? 0 : 1;
}
