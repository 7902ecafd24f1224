/* Firmware without a C library: the paper's example, a chain of two blocks, an initialize linked to a read of two sectors, is laid out in static
 * buffers and run. What comes of it is told in the lines that the session program prints for examples/two-sector-read. */
#include "board.h"
#include "vsmd3200.h"

#define UIB 0x40u
#define DATA 0x80u
#define SECTOR 64u

/* The host's memory, which on a board would be seen through a window on its bus. */
static uint8_t host[256] = {
    /* 00: initialize; LK; its UIB, and the link */
    [0x00] = 0x87, [0x01] = 0x20, [0x0D] = UIB, [0x17] = 0x20,
    /* 20: read; XL and IE; from logical 7, two sectors, to the data's address; level 3, vector 40 */
    [0x20] = 0x81, [0x21] = 0x12, [0x27] = 0x07, [0x29] = 0x02, [0x2D] = DATA, [0x30] = 0x03, [0x31] = 0x40,
    /* 40: C = 10, S = 4, B = 64, volume 0 heads 0 and 1, volume 1 head 2 */
    [UIB] = 0x00, 0x02, 0x02, 0x01, 0x04, 0x00, 0x00, 0x40, 0x10, 0x20, 0x01, 0x03, 0x00, 0x0A, 0x04, 0x00, 0x01, 0xFF,
};

/* The drive: 120 sectors and their marks. There is no drive 1. */
static uint8_t image0[7800];
static uint8_t record0[VSMD_RECORD_LEN], record1[VSMD_RECORD_LEN];
static uint8_t events[VSMD_EVENTS_LEN_LEAST], outcome[VSMD_OUTCOME_LEN];

static void put_number(uint32_t number)
{
    char digits[11];
    unsigned at = sizeof digits - 1;
    digits[at] = 0;
    do
        digits[--at] = (char)('0' + number % 10);
    while ((number /= 10) != 0);
    board_put(digits + at);
}

static void put_byte(uint8_t byte)
{
    static const char digit[] = "0123456789abcdef";
    char digits[3] = {0};
    digits[0] = digit[byte >> 4];
    digits[1] = digit[byte & 15];
    board_put(digits);
}

static void put_travel(int32_t travel)
{
    if (travel < 0)
        board_put("-");
    put_number(travel < 0 ? 0u - (uint32_t)travel : (uint32_t)travel);
}

static void tell_block(uint32_t block)
{
    const uint8_t *event = vsmd_event_entry(events, block);
    board_put("block ");
    put_number(block + 1);
    board_put(" status ");
    put_byte(vsmd_event_status(event));
    board_put(" error ");
    put_byte(vsmd_event_error(event));
    board_put(" level ");
    put_byte(vsmd_event_level(event));
    board_put(" vector ");
    put_byte(vsmd_event_vector(event));
    board_put(" travel ");
    put_travel(vsmd_event_travel(event));
    board_put("\n");
}

/* Whether the two sectors have come: logical 7 is bytes 448 to 511 of the image, logical 8 bytes 768 to 831. */
static int sectors_came(void)
{
    unsigned k;
    for (k = 0; k < SECTOR; k++) {
        if (host[DATA + k] != image0[448 + k] || host[DATA + SECTOR + k] != image0[768 + k])
            return 0;
    }
    return 1;
}

int main(void)
{
    uint32_t answer, k;
    if (!vsmd_layouts_match()) {
        board_put("the archive does not go with the header\n");
        return 1;
    }
    for (k = 0; k < 7680; k++)
        image0[k] = (uint8_t)(k % 251);
    answer = vsmd_run(host, sizeof host, image0, sizeof image0, vsmd_no_image(), 0, events, sizeof events, record0, sizeof record0, record1,
                      sizeof record1, outcome, sizeof outcome, 0, 2);
    board_put("run answer ");
    put_number(answer);
    board_put(" blocks ");
    put_number(vsmd_outcome_blocks(outcome));
    board_put(" sectors ");
    put_number(vsmd_outcome_sectors(outcome));
    board_put("\n");
    for (k = 0; k < vsmd_outcome_blocks(outcome); k++)
        tell_block(k);
    if (!sectors_came()) {
        board_put("the data are not those of the sectors\n");
        return 1;
    }
    return answer == VSMD_DONE ? 0 : 1;
}
