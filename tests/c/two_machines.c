/* Two machines on one drive, through the C header. Each has a controller, a host memory and an event buffer of its own; the image and the
 * record of drive 0 are those of both. They contend for it: who sets RV takes it, the other is refused until it is given up. A line for
 * each block, and one for what is done without a block; the lines that are expected stand in two_machines.expected. */
#include "vsmd3200.h"

#include <stdio.h>
#include <string.h>

#define HOST_LEN 256u
#define UIB 64u
#define DATA 128u
#define SECTOR 64u
#define IMAGE_LEN 7800u
#define MARKS 7680u

#define XL 0x10u
#define RV 0x08u

struct machine {
    const char *name;
    uint32_t controller;
    uint8_t host[HOST_LEN];
    uint8_t events[VSMD_EVENTS_LEN_LEAST];
};

static struct machine first = {"first", VSMD_CONTROLLER_FIRST, {0}, {0}}, second = {"second", VSMD_CONTROLLER_SECOND, {0}, {0}};

/* What the two share: the paper's small drive as drive 0. There is no drive 1. */
static uint8_t image0[IMAGE_LEN], image1[1], record0[VSMD_RECORD_LEN], record1[VSMD_RECORD_LEN];

static const uint8_t uib[18] = {0x00, 0x02, 0x02, 0x01, 0x04, 0x00, 0x00, 0x40, 0x10,
                                0x20, 0x01, 0x03, 0x00, 0x0A, 0x04, 0x00, 0x01, 0xFF};

static const char *holder(void)
{
    switch (vsmd_record_holder(record0)) {
    case VSMD_HOLDER_FIRST:
        return "held by the first";
    case VSMD_HOLDER_SECOND:
        return "held by the second";
    default:
        return "held by nobody";
    }
}

/* One block at address 0: a command with its options, from a logical sector on where it names one. */
static void block(struct machine *m, uint8_t command, uint8_t options, uint8_t sector)
{
    uint8_t outcome[VSMD_OUTCOME_LEN];
    uint32_t answer;
    memset(m->host, 0, 28);
    m->host[0] = command;
    m->host[1] = options | XL;
    m->host[7] = sector;
    m->host[9] = 1;
    m->host[13] = command == 0x87 ? UIB : DATA;
    answer = vsmd_run_as(m->host, HOST_LEN, image0, IMAGE_LEN, image1, 0, m->events, sizeof m->events, record0, sizeof record0, record1,
                         sizeof record1, outcome, sizeof outcome, 0, 1, m->controller);
    printf("%-6s  %02X%s  status %02X error %02X travel %ld  %s\n", m->name, (unsigned)command, options & RV ? " RV" : "   ",
           (unsigned)m->events[VSMD_EVENT_AT_STATUS], (unsigned)m->events[VSMD_EVENT_AT_ERROR],
           (long)vsmd_event_travel(m->events), holder());
    if (answer != outcome[VSMD_OUTCOME_AT_ANSWER])
        printf("the answer %lu is not the outcome's\n", (unsigned long)answer);
}

/* What a machine has read, as the text that it is. */
static void read_back(const struct machine *m)
{
    printf("%-6s  has read \"%.*s\"\n", m->name, (int)SECTOR, (const char *)m->host + DATA);
}

/* What is done for a machine that is gone. */
static void release(void)
{
    int held = vsmd_record_release(record0);
    printf("released: %s, %s\n", held ? "it was held" : "it was free", holder());
}

int main(void)
{
    memcpy(first.host + UIB, uib, sizeof uib);
    memcpy(second.host + UIB, uib, sizeof uib);
    memcpy(first.host + DATA, "written by the first", 21);

    /* the drive is not initialized, and free: the first sets it up and keeps it */
    block(&second, 0x81, RV, 8);
    block(&first, 0x87, RV, 0);
    block(&second, 0x81, RV, 8);
    block(&second, 0x87, RV, 0);
    block(&second, 0x86, RV, 0);
    block(&first, 0x82, RV, 8);

    /* a handshake gives nothing up, nor does a block that fails: one past the volume's end, and a read that a mark stops */
    block(&first, 0x86, 0, 0);
    block(&first, 0x81, 0, 80);
    image0[MARKS + 3] = 1;
    block(&first, 0x81, 0, 3);
    block(&second, 0x89, 0, 0);

    /* a block without RV does: the second finds the heads where the first left them, and what it wrote */
    block(&first, 0x8A, 0, 72);
    block(&second, 0x81, 0, 3);
    block(&second, 0x81, RV, 8);
    read_back(&second);
    block(&first, 0x81, 0, 8);

    /* the second is gone: whoever knows it gives the drive up */
    release();
    release();
    block(&first, 0x89, RV, 0);
    block(&first, 0x89, 0, 0);
    return 0;
}
