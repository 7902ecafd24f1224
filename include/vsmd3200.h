/* The command parser of a board that takes the place of an Interphase V/SMD 3200.
 *
 * vsmd_run runs a chain of parameter blocks ("blocks") that a host has laid out in its memory, vsmd_run_as does so for one of two
 * controllers that share their drives, and vsmd_step_as runs one block of a chain by itself, for a board that makes the chain in a loop
 * of its own. vsmd_inspect says which part of an image the sector at a place is. Three more tell by a unit's record alone how long its
 * image has to be and where a sector stands in it. All that crosses is bytes and numbers. The library is proved in Rattle; it
 * allocates nothing, keeps nothing between calls, takes no lock, raises no interrupt, and calls nothing but memcpy and memset, on armv7 also
 * its compiler's division, __aeabi_uldivmod. Link libvsmd.a; docs/TARGETS.md says for which processors there is one.
 *
 * What the library takes care of, and what you have to
 * ----------------------------------------------------
 * Whatever bytes and lengths it is handed, the library touches no byte outside the buffers it was lent, ends, and answers. The bytes
 * in the buffers need not make sense. What no code behind a C function can check is left to you, and if it is not so, nothing is
 * promised:
 *
 *   - each pointer is valid for as many bytes as its length says, for reading and (where it is not const) writing, until the call
 *     returns;
 *   - no two buffers of one call share a byte;
 *   - no pointer is null, that of a buffer of length 0 included: hand over any address for it, as that of a neighbouring variable;
 *   - the pointers to uint32_t and uint64_t are aligned for these types (a pointer to bytes need not be aligned);
 *   - while a call is under way nobody else uses its buffers: no second call, no interrupt handler, no DMA. Calls that share no
 *     buffer may run at the same time. Two controllers share the images and the records of their drives, so no two of their calls may
 *     be under way at once that are handed one of them: that a drive is held keeps no call from looking at its record.
 */
#ifndef VSMD3200_H
#define VSMD3200_H

#include <stddef.h>
#include <stdint.h>

#ifdef __cplusplus
extern "C" {
#endif

/* The version of this header, of the wrapper and of the archive that goes with them; CHANGELOG.md says what each one means for a caller. The
 * layouts of record, outcome and what a step leaves have a number of their own, VSMD_LAYOUT_VERSION, which the library tells too. */
#define VSMD_VERSION_MAJOR 0u
#define VSMD_VERSION_MINOR 4u
#define VSMD_VERSION_PATCH 1u
#define VSMD_VERSION "0.4.1"

/* ---- the block -------------------------------------------------------------------------------------------------------------------
 *
 * What a host lays out in its memory to ask for something. 28 bytes at an even address, numbers big-endian:
 *
 *    0       command
 *    1       options
 *    2, 3    status and error. Out: the final ones of the block
 *    4, 5    cylinder                                     with XL these four are one number, the
 *    6       head, counted from the volume's start head   logical sector in the volume
 *    7       sector
 *    8, 9    sector count
 *   10..13   address of the data; for 87 that of the UIB, for A1 and A2 that of the list
 *   14, 15   memory type, address modifier; not judged
 *   16       interrupt level
 *   17       interrupt vector where the block ends with status 80
 *   18       not used
 *   19       interrupt vector where the block ends with status 82
 *   20..23   address of the next block, where LK is set
 *   24, 25   memory type and address modifier of the link; not judged
 *   26       skew; not used
 *   27       for A1 and A2 how many elements the list has, 1 to 64
 *
 * Some commands have other things there. 85 names the bad track's cylinder in 4 and 5 and its head in 6, the spare's cylinder in 8 and 9 and
 * its head in 10. 8C takes the cylinder and the head of its track, and stores the last sector formatted in 7 and their number in 8 and 9
 * where it ends with status 80. Heads of 85 and 8C are counted over the whole drive. 86 stores the board's identity in 4 to 15. */
#define VSMD_BLOCK_LEN 28u

#define VSMD_BLOCK_AT_COMMAND 0u
#define VSMD_BLOCK_AT_OPTIONS 1u
#define VSMD_BLOCK_AT_STATUS 2u
#define VSMD_BLOCK_AT_ERROR 3u
#define VSMD_BLOCK_AT_CYLINDER 4u
#define VSMD_BLOCK_AT_HEAD 6u
#define VSMD_BLOCK_AT_SECTOR 7u
#define VSMD_BLOCK_AT_LOGICAL 4u /* in the place of cylinder, head and sector, where XL is set */
#define VSMD_BLOCK_AT_COUNT 8u
#define VSMD_BLOCK_AT_ADDRESS 10u
#define VSMD_BLOCK_AT_MEMORY_TYPE 14u
#define VSMD_BLOCK_AT_MODIFIER 15u
#define VSMD_BLOCK_AT_LEVEL 16u
#define VSMD_BLOCK_AT_NORMAL_VECTOR 17u
#define VSMD_BLOCK_AT_ERROR_VECTOR 19u
#define VSMD_BLOCK_AT_LINK 20u
#define VSMD_BLOCK_AT_LINK_MEMORY_TYPE 24u
#define VSMD_BLOCK_AT_LINK_MODIFIER 25u
#define VSMD_BLOCK_AT_SKEW 26u
#define VSMD_BLOCK_AT_ELEMENTS 27u

#define VSMD_BLOCK_AT_SPARE_CYLINDER 8u /* of 85 */
#define VSMD_BLOCK_AT_SPARE_HEAD 10u    /* of 85 */
#define VSMD_BLOCK_AT_LAST_FORMATTED 7u /* left by 8C */
#define VSMD_BLOCK_AT_FORMATTED 8u      /* left by 8C */
#define VSMD_BLOCK_AT_IDENTITY 4u       /* left by 86: 3200 0103 0000 0611 07C3 0000 hex */
#define VSMD_IDENTITY_LEN 12u

/* The commands. Any other is VSMD_COMMAND_UNKNOWN. */
#define VSMD_COMMAND_READ 0x81u
#define VSMD_COMMAND_WRITE 0x82u
#define VSMD_COMMAND_MAP_TRACK 0x85u
#define VSMD_COMMAND_HANDSHAKE 0x86u
#define VSMD_COMMAND_INITIALIZE 0x87u
#define VSMD_COMMAND_RESTORE 0x89u
#define VSMD_COMMAND_SEEK 0x8Au
#define VSMD_COMMAND_FORMAT 0x8Cu
#define VSMD_COMMAND_SCATTER 0xA1u
#define VSMD_COMMAND_GATHER 0xA2u

/* The options, by the letters that the manual has for them. */
#define VSMD_OPTION_UN 0x80u /* unit 1; clear for unit 0 */
#define VSMD_OPTION_VO 0x40u /* volume 1; clear for volume 0. For 81, 82, 8A, A1 and A2 */
#define VSMD_OPTION_LK 0x20u /* the block has a link, followed where it ends with status 80 */
#define VSMD_OPTION_XL 0x10u /* a logical sector; clear for cylinder, head and sector. For 81, 82, 8A, A1 and A2 */
#define VSMD_OPTION_RV 0x08u /* reserves the drive; clear gives it up */
#define VSMD_OPTION_DE 0x04u /* 81 and A1 move unreadable sectors too, and go on */
#define VSMD_OPTION_IE 0x02u /* asks for an interrupt: level and vector stand in the event entry, and the board raises it */
#define VSMD_OPTION_EC 0x01u /* correction; not judged */

/* What stands in the status byte. An event entry has a final one, 80 or 82. */
#define VSMD_STATUS_OK 0x80u
#define VSMD_STATUS_IN_PROGRESS 0x81u /* stored when the block is accepted, until its final status takes its place */
#define VSMD_STATUS_FAILED 0x82u

/* ---- the list of a scatter or a gather -------------------------------------------------------------------------------------------
 *
 * 1 to 64 elements of 8 bytes, one after the other from an even address on, numbers big-endian. The pieces that they name are joined in
 * their order; the sum of their byte counts is that of the sectors.
 *
 *    0, 1    byte count, even and not 0
 *    2..5    address, even
 *    6, 7    memory type, address modifier; not judged */
#define VSMD_ELEMENTS_MOST 64u
#define VSMD_ELEMENT_LEN 8u

#define VSMD_ELEMENT_AT_COUNT 0u
#define VSMD_ELEMENT_AT_ADDRESS 2u
#define VSMD_ELEMENT_AT_MEMORY_TYPE 6u
#define VSMD_ELEMENT_AT_MODIFIER 7u

/* ---- the UIB ---------------------------------------------------------------------------------------------------------------------
 *
 * What an initialize takes a drive's geometry and order from, by the manual's Table 10. 18 bytes at an even address, numbers big-endian:
 *
 *    0, 1    volume 0: start head, heads
 *    2, 3    volume 1: start head, heads
 *    4       sectors a track S
 *    5       skew
 *    6, 7    bytes a sector B
 *    8, 9    gaps 1 and 2
 *   10       interleave
 *   11       retries
 *   12, 13   cylinders C
 *   14       attributes: 04, increment by head, is set for by head and clear for by cylinder
 *   15       four units, extended addressing
 *   16, 17   level and vector of the status change interrupt
 *
 * Skew, gaps, interleave, retries, every other attribute and the last three bytes are neither judged nor kept. */
#define VSMD_UIB_LEN 18u

#define VSMD_UIB_AT_VOLUME0_START_HEAD 0u
#define VSMD_UIB_AT_VOLUME0_HEADS 1u
#define VSMD_UIB_AT_VOLUME1_START_HEAD 2u
#define VSMD_UIB_AT_VOLUME1_HEADS 3u
#define VSMD_UIB_AT_SECTORS_A_TRACK 4u
#define VSMD_UIB_AT_SKEW 5u
#define VSMD_UIB_AT_BYTES_A_SECTOR 6u
#define VSMD_UIB_AT_GAP1 8u
#define VSMD_UIB_AT_GAP2 9u
#define VSMD_UIB_AT_INTERLEAVE 10u
#define VSMD_UIB_AT_RETRIES 11u
#define VSMD_UIB_AT_CYLINDERS 12u
#define VSMD_UIB_AT_ATTRIBUTES 14u
#define VSMD_UIB_AT_EXTENDED 15u
#define VSMD_UIB_AT_CHANGE_LEVEL 16u
#define VSMD_UIB_AT_CHANGE_VECTOR 17u

#define VSMD_UIB_INCREMENT_BY_HEAD 0x04u

/* ---- the unit record -----------------------------------------------------------------------------------------------------------
 *
 * What the board knows of a unit: whether it is initialized, its geometry, the order of its tracks, the cylinder that its heads stand
 * on, its bad tracks with their spares, and which controller holds the drive. It is yours to keep between calls, in RAM or in flash. 276
 * bytes, numbers big-endian:
 *
 *    0       version of the layout, 02
 *    1       01 initialized, any other not
 *    2, 3    length, 0114 hex
 *    4, 5    cylinders C, 1 to 4,096
 *    6, 7    sectors a track S, 1 to 255
 *    8, 9    bytes a sector B, even, 64 to 4,096
 *   10, 11   volume 0: start head, heads (at least 1)
 *   12, 13   volume 1: start head, heads (0: there is no volume 1)
 *   14, 15   the cylinder that the heads stand on, below C
 *   16       order of the tracks: 00 by head, 01 by cylinder
 *   17       holder of the drive: 00 nobody, 01 the first controller, 02 the second
 *   18, 19   how many pairs count, 0 to 32
 *   20..275  room for 32 pairs of 8 bytes, those that count first, each a bad track and then its spare; a track is its cylinder (2 bytes), its
 *            head (1) and 00. An initialize that succeeds makes all of these bytes 00
 *
 * With H the greater end (start head plus heads) of the volumes present, a track is on the drive where its cylinder is below C, its head
 * below H, counted over the whole drive whatever volume has it, and its last byte 00.
 *
 * A unit is initialized where its record opens with 02 01 01 14, byte 16 is at most 01, byte 17 at most 02, and the rest keeps the
 * limits: those above, start head plus heads at most 64 for each volume present, no head in two volumes, at most 32 pairs, each of their
 * tracks on the drive, and none of them twice in the table, as a bad one or as a spare. Any other 276 bytes are a unit that is not
 * initialized: zeros, erased flash, a record of another version. Handing such bytes over is no error.
 *
 * The order says which track of a volume comes after which. By head the heads of a cylinder follow one another, and then the next
 * cylinder's: logical sector n of a volume with N heads is sector n mod S, head (n div S) mod N, cylinder n div (S x N). By cylinder the
 * cylinders of a head follow one another, and then the next head's: logical sector n is sector n mod S, cylinder (n div S) mod C, head
 * n div (S x C). Heads are counted from the volume's start head. A transfer goes on from sector to sector as its drive counts, from a
 * track's end to the next track in that order, and the heads end where its last sector is. One that starts at a cylinder, head and sector
 * (XL clear) has each of the three judged by itself, and is then counted on from there: whether its last sector is in the volume, and
 * which sector that is, goes by the order too. A seek goes by it as well. The place of a cylinder, head and sector in the image has
 * nothing to do with it, nor have the tracks that 85 and a format name; a bad track gives way to its spare when its turn has come. An
 * initialize that succeeds takes the order from the UIB: bit 04, increment by head, of its byte 0E (attributes) is set for by head and
 * clear for by cylinder. No other bit of that byte is looked at.
 *
 * A block that lands on a bad track works on its spare instead: reads, writes, scatters and gathers sector by sector, seeks, and
 * formats. The spare's sectors and marks are used as they stand, and the heads then stand on the spare's cylinder. A spare may lie in any
 * volume or in none, and may be named itself. Command 85 adds a pair at the end of the table and moves neither data nor heads: word 2 of
 * its block is the bad track's cylinder, the upper byte of word 3 its head, word 4 and the upper byte of word 5 name the spare. An
 * initialize that succeeds clears the table.
 *
 * Mapping moves a track as a whole and never folds two: two different sectors of the drive, neither on a track that serves as a spare, have
 * no byte of the image in common, and no mark, whatever pairs there are. A spare that is named itself is where its bad track's sectors are.
 *
 * Two machines may share the drives, each through a controller of its own: unit n of both is drive n. What the two share of a drive is its
 * image and its record, with geometry, cylinder, table and holder; host memory and event buffer are each controller's own. Option RV of a
 * block, 08 hex of its byte 1, reserves: a block that ends with status 80 takes the drive, or keeps it, where RV is set, and gives it up
 * where it is not. A handshake does neither, and a block that fails leaves the holder as it was. While one controller holds a drive, a
 * block of the other for it is refused with VSMD_DRIVE_HELD, whichever listed command it has, an initialize too, and whether the unit is initialized
 * or not; only a handshake is let through. A controller that is alone may set RV or not: its own drives never refuse it.
 *
 * Byte 17 is believed where version and length, bytes 0, 2 and 3, are those of this layout, whatever byte 1 says. A record of another
 * layout, or with a number over 02 there, is held by nobody; the unit is not initialized then, and an initialize by either controller
 * mends it. A machine that is gone gives nothing up: vsmd_record_release does so for it.
 *
 * What stands in bytes 20 to 275 past the pairs that count may be anything, is never judged, and comes back as it came, but for two blocks: an
 * 85 that ends with status 80 stores its pair there, after the others, and an initialize that does makes every byte of the table 00, those that
 * counted and those that did not. After it only what a later 85 adds stands there.
 *
 * Bytes 14 and 15 change with nearly every block that moves the heads. Only the travel of the next block goes by them, and they have to be below C: a
 * board that keeps records in flash may put 0 there.
 *
 * An image has C x H x S sectors of B bytes, one after the other, and then a mark byte for each sector: 00 for a good one, anything else
 * for one that cannot be read. No block changes a mark, a write and a format neither: they are yours to set and to clear. An image may be
 * longer; what comes after the marks is never touched. */
#define VSMD_LAYOUT_VERSION 2u
#define VSMD_RECORD_LEN 276u

#define VSMD_RECORD_AT_VERSION 0u
#define VSMD_RECORD_AT_INITIALIZED 1u
#define VSMD_RECORD_AT_LENGTH 2u
#define VSMD_RECORD_AT_CYLINDERS 4u
#define VSMD_RECORD_AT_SECTORS_A_TRACK 6u
#define VSMD_RECORD_AT_BYTES_A_SECTOR 8u
#define VSMD_RECORD_AT_VOLUME0_START_HEAD 10u
#define VSMD_RECORD_AT_VOLUME0_HEADS 11u
#define VSMD_RECORD_AT_VOLUME1_START_HEAD 12u
#define VSMD_RECORD_AT_VOLUME1_HEADS 13u
#define VSMD_RECORD_AT_CYLINDER 14u
#define VSMD_RECORD_AT_ORDER 16u
#define VSMD_RECORD_AT_HOLDER 17u
#define VSMD_RECORD_AT_PAIRS 18u
#define VSMD_RECORD_AT_TABLE 20u

#define VSMD_PAIRS_MOST 32u
#define VSMD_PAIR_LEN 8u
#define VSMD_PAIR_AT_BAD 0u
#define VSMD_PAIR_AT_SPARE 4u

#define VSMD_TRACK_AT_CYLINDER 0u
#define VSMD_TRACK_AT_HEAD 2u
#define VSMD_TRACK_AT_LAST 3u

/* The order of a drive's tracks, by byte 16 of its record. */
#define VSMD_ORDER_BY_HEAD 0u
#define VSMD_ORDER_BY_CYLINDER 1u

/* Who holds a drive, by byte 17 of its record. */
#define VSMD_HOLDER_NONE 0u
#define VSMD_HOLDER_FIRST 1u
#define VSMD_HOLDER_SECOND 2u

/* A record of version 1 of the layouts had the first 16 bytes alone, and opened with 01 01 00 10. To this library it is a unit that is not
 * initialized; vsmd_record_upgrade makes a record of this version of it. */
#define VSMD_RECORD_LEN_V1 16u

/* ---- the outcome of a run --------------------------------------------------------------------------------------------------------
 *
 * 16 bytes, numbers big-endian:
 *
 *    0      version of the layout, 02
 *    1      00
 *    2, 3   length, 0010 hex
 *    4      the run's answer, VSMD_DONE to VSMD_ALLOWANCE_SPENT
 *    5      with VSMD_BLOCK_FAILED why the block failed, VSMD_COMMAND_UNKNOWN and up; otherwise 00
 *    6, 7   00
 *    8..11  blocks run, those that failed included
 *   12..15  sectors moved */
#define VSMD_OUTCOME_LEN 16u

#define VSMD_OUTCOME_AT_VERSION 0u
#define VSMD_OUTCOME_AT_LENGTH 2u
#define VSMD_OUTCOME_AT_ANSWER 4u
#define VSMD_OUTCOME_AT_FAILED 5u
#define VSMD_OUTCOME_AT_BLOCKS 8u
#define VSMD_OUTCOME_AT_SECTORS 12u

/* ---- what a step leaves ----------------------------------------------------------------------------------------------------------
 *
 * 16 bytes, numbers big-endian:
 *
 *    0      version of the layout, 02
 *    1      00
 *    2, 3   length, 0010 hex
 *    4      why the block failed, VSMD_COMMAND_UNKNOWN and up; 00 where it ended with status 80
 *    5      01 where the block's link is to be followed: LK is set and the block ended with status 80; otherwise 00
 *    6, 7   00
 *    8..11  sectors moved
 *   12..15  the link, as it stood in the block when it was fetched, whether it is to be followed or not */
#define VSMD_STEPPED_LEN 16u

#define VSMD_STEPPED_AT_VERSION 0u
#define VSMD_STEPPED_AT_LENGTH 2u
#define VSMD_STEPPED_AT_ANSWER 4u
#define VSMD_STEPPED_AT_FOLLOW 5u
#define VSMD_STEPPED_AT_SECTORS 8u
#define VSMD_STEPPED_AT_LINK 12u

/* ---- the event buffer ------------------------------------------------------------------------------------------------------------
 *
 * At least 512 bytes, room for 64 entries; a step asks for 8 x index + 8 bytes. The k-th block run, k from 1, leaves its
 * entry in the 8 bytes from 8(k - 1) on; other bytes of the buffer stay as they are. The library raises no interrupt: the board does, by level and
 * vector of the entries, once it has brought back what the call wrote; of a run that is after the whole chain, of a step after its block. A block with
 * IE may ask for level 00 and vector 00; whether IE was set the block tells.
 *
 *    0      final status, 80 or 82 hex
 *    1      error byte, 00 at status 80
 *    2      interrupt level, 00 where the block asked for no interrupt
 *    3      interrupt vector, 00 where the block asked for no interrupt
 *    4..7   travel: the cylinder of the heads after the block minus the one before, big-endian two's complement */
#define VSMD_EVENTS_LEN_LEAST 512u
#define VSMD_EVENT_LEN 8u

#define VSMD_EVENT_AT_STATUS 0u
#define VSMD_EVENT_AT_ERROR 1u
#define VSMD_EVENT_AT_LEVEL 2u
#define VSMD_EVENT_AT_VECTOR 3u
#define VSMD_EVENT_AT_TRAVEL 4u

/* ---- answers ---------------------------------------------------------------------------------------------------------------------*/

/* How a run ended. With 1, 2 and 3 nothing was run and nothing changed but the outcome. */
#define VSMD_DONE 0u            /* the last block had no link and ended with status 80 */
#define VSMD_EVENTS_SHORT 1u    /* the event buffer has fewer than 512 bytes */
#define VSMD_ALLOWANCE_BAD 2u   /* the allowance is 0 or over 64 */
#define VSMD_FIRST_BAD 3u       /* the first block is at an odd address or not wholly in host memory */
#define VSMD_BLOCK_FAILED 4u    /* a block ended with status 82; its link is not followed */
#define VSMD_LINK_BAD 5u        /* a link leads to a block that is as bad as in 3 */
#define VSMD_ALLOWANCE_SPENT 6u /* the allowance is spent, and the last block has a link */

/* Why a block failed. With 10 to 19 and 22 to 24 it changed nothing but its own status word and its event entry. */
#define VSMD_COMMAND_UNKNOWN 10u     /* the command is not one of the ten */
#define VSMD_NOT_INITIALIZED 11u     /* the unit is not initialized */
#define VSMD_UIB_MISPLACED 12u       /* the UIB is at an odd address or not wholly in host memory */
#define VSMD_UIB_OUTSIDE_LIMITS 13u  /* the UIB is outside the limits of a geometry */
#define VSMD_VOLUME_ABSENT 14u       /* the unit has no volume 1 */
#define VSMD_COUNT_ZERO 15u          /* the sector count is 0 */
#define VSMD_SECTOR_OUTSIDE 16u      /* the first sector or the last is outside the volume, or a track outside the drive */
#define VSMD_IMAGE_SHORT 17u         /* the image is shorter than the geometry needs */
#define VSMD_LIST_BAD 18u            /* the list has no elements or over 64, is misplaced, or has wrong byte counts */
#define VSMD_DATA_MISPLACED 19u      /* a data address is odd or its range not in host memory */
#define VSMD_UNREADABLE 20u          /* a sector is marked unreadable; the sectors before it were moved */
#define VSMD_TRACKS_TAKEN 22u        /* the bad track and the spare are one, or one of them is in the table already */
#define VSMD_TABLE_FULL 23u          /* the table has 32 pairs */
#define VSMD_DRIVE_HELD 24u          /* the other controller holds the drive */
/* Where several of 10 to 19 and 22 to 24 apply, the block is refused with the first: in the order of their numbers, but 24 directly after 10. */

/* What a call returns that was refused: a buffer is too short for its layout or for the entry of a step, or there is no such controller,
 * and nothing at all was changed. No answer above has the low byte of one of these. */
#define VSMD_RECORD0_SHORT 0x1F1u
#define VSMD_RECORD1_SHORT 0x1F2u
#define VSMD_OUTCOME_SHORT 0x1F3u
#define VSMD_CONTROLLER_UNKNOWN 0x1F4u
#define VSMD_STEPPED_SHORT 0x1F5u
#define VSMD_ENTRY_SHORT 0x1F6u

/* What the calls return that tell of a unit by its record, where there is nothing to tell. */
#define VSMD_RECORD_NOT_INITIALIZED 0x1F7u /* the unit is not initialized */
#define VSMD_SECTOR_NOT_THERE 0x1F8u       /* it has no such sector */

/* The controllers, by their numbers. */
#define VSMD_CONTROLLER_FIRST 0u
#define VSMD_CONTROLLER_SECOND 1u

/* The smallest allowance is 1. */
#define VSMD_ALLOWANCE_MOST 64u

/* The bytes of stack that a run and a step take at most, measured: on every processor that docs/TARGETS.md names, for every command, with a scatter of
 * 64 elements last and full tables. The host cannot have a call take more: a chain of 64 blocks is the longest. The other calls take less than a
 * step. What memcpy, memset and the division take is not counted, nor what an interrupt puts on the same stack. */
#define VSMD_STACK_MOST 8192u
#define VSMD_STEP_STACK_MOST 4096u

/* ---- calls -----------------------------------------------------------------------------------------------------------------------*/

/* The version of the layouts above, and the lengths that the library asks of a record and of an outcome. What a step leaves is as long as an
 * outcome. Compare them with VSMD_LAYOUT_VERSION, VSMD_RECORD_LEN, VSMD_OUTCOME_LEN and VSMD_STEPPED_LEN once, at start, as
 * vsmd_layouts_match does: they tell of an archive that does not go with this header. */
uint32_t vsmd_layout_version(void);
uint64_t vsmd_record_len(void);
uint64_t vsmd_outcome_len(void);

/* Runs the chain that begins with the block at an address of host memory, for the first controller.
 *
 *   host             host memory; its first byte has address 0. In: the blocks, and what they name. Out: the status word of each
 *                    block run, the identity in words 2 to 7 of a handshake, the last sector formatted in the lower byte of word 3
 *                    and their number in word 4 of a format that ended with status 80, and the data that reads and scatters moved.
 *   image0, image1   the images of units 0 and 1. Out: the data that writes, gathers and formats moved. Their lengths may be 0;
 *                    vsmd_no_image is an address for such a one.
 *   events           the event buffer. Out: an entry for each block run.
 *   record0, record1 the records of units 0 and 1. Out: stored anew where a block changed the record (an initialize, heads that stand
 *                    elsewhere, a pair more, another holder), and otherwise byte for byte as they came in. What stands in the table past
 *                    the pairs that count is stored, as 00, only where an initialize succeeded. Bytes after the first 276 are not touched.
 *   outcome          In: anything. Out: the outcome in its first 16 bytes; those after them are not touched.
 *   first            the address of the first block.
 *   allowance        how many blocks may be fetched, 1 to 64; a chain that links in a circle ends by it.
 *
 * Returns the run's answer, the number that stands in the outcome too, or VSMD_RECORD0_SHORT, VSMD_RECORD1_SHORT, VSMD_OUTCOME_SHORT (tested
 * in this order): then no byte of any buffer was changed. Bytes that are not named under "Out" are as they came in. A byte stored
 * with the value it had counts as written: on memory that wears, compare before you keep. */
uint32_t vsmd_run(uint8_t *host, uint64_t host_len, uint8_t *image0, uint64_t image0_len, uint8_t *image1, uint64_t image1_len,
                  uint8_t *events, uint64_t events_len, uint8_t *record0, uint64_t record0_len, uint8_t *record1,
                  uint64_t record1_len, uint8_t *outcome, uint64_t outcome_len, uint32_t first, uint32_t allowance);

/* The same for a controller of two that share the drives. Hand over the host memory and the event buffer of the machine that asks, and
 * the same images and records whichever of the two it is.
 *
 *   controller       VSMD_CONTROLLER_FIRST, which makes this call what vsmd_run is, or VSMD_CONTROLLER_SECOND.
 *
 * Returns what vsmd_run does, or VSMD_CONTROLLER_UNKNOWN for any other number, which is tested after the three lengths: then too no byte of
 * any buffer was changed. */
uint32_t vsmd_run_as(uint8_t *host, uint64_t host_len, uint8_t *image0, uint64_t image0_len, uint8_t *image1, uint64_t image1_len,
                     uint8_t *events, uint64_t events_len, uint8_t *record0, uint64_t record0_len, uint8_t *record1,
                     uint64_t record1_len, uint8_t *outcome, uint64_t outcome_len, uint32_t first, uint32_t allowance,
                     uint32_t controller);

/* Runs one block by itself, for a controller of two. The block does what it does in a run, and its link is not followed. So a board can make
 * the chain in a loop of its own: each call takes as long as one block, which moves 65,535 sectors of 4,096 bytes at most, and between two the board can look
 * at something else. The stack of a step is that of one block; a run takes more for each of the first 8 blocks of a chain, and no more after them.
 *
 *   host             as in vsmd_run. Out: what the one block stores there.
 *   image0, image1   as in vsmd_run.
 *   events           the event buffer, of at least 8 x index + 8 bytes. Out: the block's entry, in the 8 bytes from 8 x index on.
 *   record0, record1 as in vsmd_run, stored anew where this block changed them.
 *   stepped          In: anything. Out: what a step leaves in its first 16 bytes; those after them are not touched.
 *   at               the address of the block.
 *   index            which entry is the block's: how many blocks of the chain were run before it.
 *   controller       VSMD_CONTROLLER_FIRST or VSMD_CONTROLLER_SECOND.
 *
 * Returns 0 where the block was run, also where it failed: vsmd_stepped_answer tells. Or VSMD_RECORD0_SHORT, VSMD_RECORD1_SHORT,
 * VSMD_STEPPED_SHORT, VSMD_CONTROLLER_UNKNOWN, VSMD_ENTRY_SHORT where the event buffer has no room for the entry, VSMD_FIRST_BAD where the block
 * is at an odd address or not wholly in host memory (tested in this order): then no byte of any buffer was changed, stepped included.
 *
 * A chain is made of steps with index 0, 1 and so on, from the first block on and then from link to link, as long as byte 5 of stepped
 * is 01. Nothing is kept between two steps but what the buffers hold, so each of them is lent again as the step before left it. What the
 * host or the other controller changes between two steps the next one finds; in a run there is no such moment.
 *
 *     uint32_t at = first, index = 0, sectors = 0, code, answer;
 *     do {
 *         code = vsmd_step_as(host, .., stepped, sizeof stepped, at, index, controller);
 *         if (code != 0)
 *             break;
 *         at = vsmd_stepped_link(stepped);
 *         sectors += vsmd_stepped_sectors(stepped);
 *         index++;
 *     } while (vsmd_stepped_follow(stepped) && index < allowance);
 *
 * A step has no allowance, and a chain may link in a circle: the loop has to have an allowance of its own and to stop when it is spent. How
 * large it is, is yours to say, and it may be over 64 where the event buffer has the room. How the chain ended, in a run's answers, the loop can tell;
 * index is the number of blocks run, and with VSMD_BLOCK_FAILED vsmd_stepped_answer is the failed block's:
 *
 *     if (code == VSMD_FIRST_BAD && index > 0)
 *         answer = VSMD_LINK_BAD;
 *     else if (code != 0)
 *         answer = code; .. and stepped is as it was before this step
 *     else if (vsmd_stepped_answer(stepped) != 0)
 *         answer = VSMD_BLOCK_FAILED;
 *     else
 *         answer = vsmd_stepped_follow(stepped) ? VSMD_ALLOWANCE_SPENT : VSMD_DONE;
 *
 * A record is stored after each step that changed it, and by a run once. Where nobody changes anything between two steps, the allowance is 1 to 64 and the
 * event buffer has 512 bytes, the loop leaves in every byte of host memory, images, event buffer and records what a run with the same allowance leaves, and
 * ends with its answer and its counts; that is proved. With another allowance or a shorter event buffer a run does nothing and answers 2 or 1, while this
 * loop runs what it can. */
uint32_t vsmd_step_as(uint8_t *host, uint64_t host_len, uint8_t *image0, uint64_t image0_len, uint8_t *image1, uint64_t image1_len,
                      uint8_t *events, uint64_t events_len, uint8_t *record0, uint64_t record0_len, uint8_t *record1,
                      uint64_t record1_len, uint8_t *stepped, uint64_t stepped_len, uint32_t at, uint32_t index, uint32_t controller);

/* Says where the sector at a place of a unit stands. It reads no image: the lengths of the images are all it asks of them. It is not
 * asked for a controller, and whoever holds the drive does not matter.
 *
 *   record0, record1        the records of units 0 and 1.
 *   image0_len, image1_len  how many bytes the images have.
 *   unit                    0 or 1.
 *   place                   which sector, counted from the start of the unit's image; a bad track and its spare are each seen where
 *                           they stand.
 *   image                   Out: which image the part is in, 0 or 1.
 *   at                      Out: the part's first byte in that image.
 *   bytes                   Out: how many bytes it has, B.
 *
 * Where there is no such sector (unit over 1, unit not initialized, place too large, image shorter than the geometry needs) the part
 * has length 0 and stands at the start of image 0: the three numbers are 0.
 *
 * Returns 0, or VSMD_RECORD0_SHORT, VSMD_RECORD1_SHORT: then the three numbers are as they were. */
uint32_t vsmd_inspect(const uint8_t *record0, uint64_t record0_len, const uint8_t *record1, uint64_t record1_len,
                      uint64_t image0_len, uint64_t image1_len, uint32_t unit, uint64_t place, uint32_t *image, uint64_t *at,
                      uint64_t *bytes);

/* Says how long the image of a unit has to be, by its record alone: for whoever makes an image or brings one there and back. A block on
 * an image with fewer bytes is refused with VSMD_IMAGE_SHORT. Whoever holds the drive does not matter.
 *
 *   record   the unit's record.
 *   bytes    Out: how many bytes its image needs, C x H x S sectors of B bytes and a mark byte for each.
 *
 * Returns 0, or VSMD_RECORD0_SHORT, whichever unit's the record is, VSMD_RECORD_NOT_INITIALIZED (tested in this order): then the number is
 * as it was. */
uint32_t vsmd_image_need(const uint8_t *record, uint64_t record_len, uint64_t *bytes);

/* Says where the sector with a number in a volume stands in the unit's image, by the unit's record alone: where a block reads and writes
 * that has XL set and names this number. On a bad track it is the sector of the spare. The order of the tracks is the record's.
 *
 *   record   the unit's record.
 *   volume   0 or 1.
 *   number   the logical sector, from 0.
 *   place    Out: its place, counted in sectors from the start of the image; vsmd_inspect takes it.
 *   first    Out: its first byte in the image; it has B bytes.
 *   mark     Out: the byte of the image that is its mark.
 *
 * Returns 0, or VSMD_RECORD0_SHORT, whichever unit's the record is, VSMD_RECORD_NOT_INITIALIZED, or VSMD_SECTOR_NOT_THERE where the volume
 * has no such sector, is absent, or is neither 0 nor 1 (tested in this order): then the three numbers are as they were. */
uint32_t vsmd_sector_of(const uint8_t *record, uint64_t record_len, uint32_t volume, uint64_t number, uint64_t *place,
                        uint64_t *first, uint64_t *mark);

/* The same of the sector at a cylinder, head and sector, the head counted over the whole drive, whatever volume has it, or none.
 * Returns VSMD_SECTOR_NOT_THERE where the cylinder is not below C, the head not below H, or the sector not below S. */
uint32_t vsmd_sector_at(const uint8_t *record, uint64_t record_len, uint16_t cylinder, uint16_t head, uint16_t sector,
                        uint64_t *place, uint64_t *first, uint64_t *mark);

/* ---- the fields of a record, an outcome, what a step leaves and an event entry ---------------------------------------------------*/

static inline uint16_t vsmd_get16(const uint8_t *bytes)
{
    return (uint16_t)((bytes[0] << 8) | bytes[1]);
}

static inline uint32_t vsmd_get32(const uint8_t *bytes)
{
    return ((uint32_t)vsmd_get16(bytes) << 16) | vsmd_get16(bytes + 2);
}

static inline void vsmd_put16(uint8_t *bytes, uint16_t number)
{
    bytes[0] = (uint8_t)(number >> 8);
    bytes[1] = (uint8_t)(number & 0xFFu);
}

static inline void vsmd_put32(uint8_t *bytes, uint32_t number)
{
    vsmd_put16(bytes, (uint16_t)(number >> 16));
    vsmd_put16(bytes + 2, (uint16_t)(number & 0xFFFFu));
}

/* Whether the library that is linked has the layouts of this header. Ask once, at start: where it says 0, an archive and a header of two
 * versions have come together, and no record or outcome means what it says here. It does not compare VSMD_VERSION, which the archive does not
 * tell: that of 0.4.0 has these layouts too, and takes more stack than VSMD_STACK_MOST. */
static inline int vsmd_layouts_match(void)
{
    return vsmd_layout_version() == VSMD_LAYOUT_VERSION && vsmd_record_len() == VSMD_RECORD_LEN && vsmd_outcome_len() == VSMD_OUTCOME_LEN &&
           vsmd_outcome_len() == VSMD_STEPPED_LEN;
}

/* An address to hand over, with length 0, for the image of a unit that has none; it serves for any empty buffer. NULL does not: the library's
 * language has no slice at NULL, an empty one included, so that nothing of what was proved is said of a call with one. */
static inline uint8_t *vsmd_no_image(void)
{
    static uint8_t none[1];
    return none;
}

/* Makes the record of a unit that is not initialized. */
static inline void vsmd_record_clear(uint8_t *record)
{
    size_t k;
    for (k = 0; k < VSMD_RECORD_LEN; k++)
        record[k] = 0;
}

/* Makes the record of an initialized unit without pairs, by head and held by nobody; whether its numbers keep the limits is judged when
 * it is used. For a drive by cylinder store VSMD_ORDER_BY_CYLINDER in the byte at VSMD_RECORD_AT_ORDER afterwards. */
static inline void vsmd_record_make(uint8_t *record, uint16_t cylinders, uint16_t sectors_a_track, uint16_t bytes_a_sector,
                                    uint8_t start_head0, uint8_t heads0, uint8_t start_head1, uint8_t heads1, uint16_t cylinder)
{
    vsmd_record_clear(record);
    record[VSMD_RECORD_AT_VERSION] = VSMD_LAYOUT_VERSION;
    record[VSMD_RECORD_AT_INITIALIZED] = 1;
    vsmd_put16(record + VSMD_RECORD_AT_LENGTH, VSMD_RECORD_LEN);
    vsmd_put16(record + VSMD_RECORD_AT_CYLINDERS, cylinders);
    vsmd_put16(record + VSMD_RECORD_AT_SECTORS_A_TRACK, sectors_a_track);
    vsmd_put16(record + VSMD_RECORD_AT_BYTES_A_SECTOR, bytes_a_sector);
    record[VSMD_RECORD_AT_VOLUME0_START_HEAD] = start_head0;
    record[VSMD_RECORD_AT_VOLUME0_HEADS] = heads0;
    record[VSMD_RECORD_AT_VOLUME1_START_HEAD] = start_head1;
    record[VSMD_RECORD_AT_VOLUME1_HEADS] = heads1;
    vsmd_put16(record + VSMD_RECORD_AT_CYLINDER, cylinder);
}

/* Whether a record opens as that of an initialized unit does, with an order and a holder that are one. Geometry, cylinder and table are not judged
 * here: vsmd_image_need returns 0 just where the library takes the unit for initialized. */
static inline int vsmd_record_says_initialized(const uint8_t *record)
{
    return vsmd_get32(record) == 0x02010114u && record[VSMD_RECORD_AT_ORDER] <= VSMD_ORDER_BY_CYLINDER &&
           record[VSMD_RECORD_AT_HOLDER] <= VSMD_HOLDER_SECOND;
}

/* Who holds a drive by its record: VSMD_HOLDER_NONE, VSMD_HOLDER_FIRST or VSMD_HOLDER_SECOND. A record of another layout is held by
 * nobody, and so is one with any other number there. */
static inline uint8_t vsmd_record_holder(const uint8_t *record)
{
    int own = record[VSMD_RECORD_AT_VERSION] == VSMD_LAYOUT_VERSION && vsmd_get16(record + VSMD_RECORD_AT_LENGTH) == VSMD_RECORD_LEN;
    uint8_t holder = record[VSMD_RECORD_AT_HOLDER];
    return own && holder <= VSMD_HOLDER_SECOND ? holder : (uint8_t)VSMD_HOLDER_NONE;
}

/* Gives a drive up, whoever holds it: for a machine that is gone and will give up nothing itself. Whether it is gone only you can know; one
 * that is not will find, at its next block, that the drive is free or the other's. Returns 1 where somebody held the drive; 0 where nobody
 * did, and then the record is as it was. So a record of another layout is left alone, and a number over 02 stays: it is no holder, the
 * unit goes on counting as not initialized, and an initialize mends it. */
static inline int vsmd_record_release(uint8_t *record)
{
    if (vsmd_record_holder(record) == VSMD_HOLDER_NONE)
        return 0;
    record[VSMD_RECORD_AT_HOLDER] = VSMD_HOLDER_NONE;
    return 1;
}

/* How many pairs of a record have room and count. */
static inline uint16_t vsmd_record_pairs(const uint8_t *record)
{
    uint16_t pairs = vsmd_get16(record + VSMD_RECORD_AT_PAIRS);
    return pairs < VSMD_PAIRS_MOST ? pairs : (uint16_t)VSMD_PAIRS_MOST;
}

/* Where the pair with an index stands in a record, from 0 to VSMD_PAIRS_MOST - 1. */
static inline size_t vsmd_record_at_pair(size_t index)
{
    return VSMD_RECORD_AT_TABLE + VSMD_PAIR_LEN * index;
}

/* The pair with an index, told in four numbers. Returns 1; 0 where the record has no such pair, and then the numbers are as they were. */
static inline int vsmd_record_get_pair(const uint8_t *record, size_t index, uint16_t *bad_cylinder, uint8_t *bad_head,
                                       uint16_t *spare_cylinder, uint8_t *spare_head)
{
    const uint8_t *pair;
    if (index >= vsmd_record_pairs(record))
        return 0;
    pair = record + vsmd_record_at_pair(index);
    *bad_cylinder = vsmd_get16(pair + VSMD_PAIR_AT_BAD + VSMD_TRACK_AT_CYLINDER);
    *bad_head = pair[VSMD_PAIR_AT_BAD + VSMD_TRACK_AT_HEAD];
    *spare_cylinder = vsmd_get16(pair + VSMD_PAIR_AT_SPARE + VSMD_TRACK_AT_CYLINDER);
    *spare_head = pair[VSMD_PAIR_AT_SPARE + VSMD_TRACK_AT_HEAD];
    return 1;
}

static inline void vsmd_put_track(uint8_t *track, uint16_t cylinder, uint8_t head)
{
    vsmd_put16(track + VSMD_TRACK_AT_CYLINDER, cylinder);
    track[VSMD_TRACK_AT_HEAD] = head;
    track[VSMD_TRACK_AT_LAST] = 0;
}

/* Adds a pair to a record at the end of its table. Returns 1; 0 where 32 pairs stand, and then nothing was changed. Whether a drive can
 * have the pair is judged when the record is used: command 85 adds one only where it can. */
static inline int vsmd_record_add_pair(uint8_t *record, uint16_t bad_cylinder, uint8_t bad_head, uint16_t spare_cylinder,
                                       uint8_t spare_head)
{
    uint16_t pairs = vsmd_record_pairs(record);
    uint8_t *pair;
    if (pairs == VSMD_PAIRS_MOST)
        return 0;
    pair = record + vsmd_record_at_pair(pairs);
    vsmd_put_track(pair + VSMD_PAIR_AT_BAD, bad_cylinder, bad_head);
    vsmd_put_track(pair + VSMD_PAIR_AT_SPARE, spare_cylinder, spare_head);
    vsmd_put16(record + VSMD_RECORD_AT_PAIRS, (uint16_t)(pairs + 1u));
    return 1;
}

/* Makes a record of the 16 bytes of one of version 1: the same unit without pairs, by head and held by nobody. Returns 1; 0 where these
 * bytes are not those of an initialized unit, and then the record is that of a unit that is not initialized. The two do not overlap. */
static inline int vsmd_record_upgrade(uint8_t *record, const uint8_t *old)
{
    size_t k;
    vsmd_record_clear(record);
    if (vsmd_get32(old) != 0x01010010u)
        return 0;
    for (k = VSMD_RECORD_AT_CYLINDERS; k < VSMD_RECORD_LEN_V1; k++)
        record[k] = old[k];
    record[VSMD_RECORD_AT_VERSION] = VSMD_LAYOUT_VERSION;
    record[VSMD_RECORD_AT_INITIALIZED] = 1;
    vsmd_put16(record + VSMD_RECORD_AT_LENGTH, VSMD_RECORD_LEN);
    return 1;
}

static inline uint16_t vsmd_record_cylinder(const uint8_t *record)
{
    return vsmd_get16(record + VSMD_RECORD_AT_CYLINDER);
}

static inline uint8_t vsmd_outcome_answer(const uint8_t *outcome)
{
    return outcome[VSMD_OUTCOME_AT_ANSWER];
}

/* Why the last block failed, where the answer is VSMD_BLOCK_FAILED; else 0. */
static inline uint8_t vsmd_outcome_failed(const uint8_t *outcome)
{
    return outcome[VSMD_OUTCOME_AT_FAILED];
}

static inline uint32_t vsmd_outcome_blocks(const uint8_t *outcome)
{
    return vsmd_get32(outcome + VSMD_OUTCOME_AT_BLOCKS);
}

static inline uint32_t vsmd_outcome_sectors(const uint8_t *outcome)
{
    return vsmd_get32(outcome + VSMD_OUTCOME_AT_SECTORS);
}

/* Why the block of a step failed; 0 where it ended with status 80. */
static inline uint8_t vsmd_stepped_answer(const uint8_t *stepped)
{
    return stepped[VSMD_STEPPED_AT_ANSWER];
}

/* Whether the block's link is to be followed. */
static inline int vsmd_stepped_follow(const uint8_t *stepped)
{
    return stepped[VSMD_STEPPED_AT_FOLLOW] == 1;
}

static inline uint32_t vsmd_stepped_sectors(const uint8_t *stepped)
{
    return vsmd_get32(stepped + VSMD_STEPPED_AT_SECTORS);
}

/* The address of the next block, where vsmd_stepped_follow says that there is one. */
static inline uint32_t vsmd_stepped_link(const uint8_t *stepped)
{
    return vsmd_get32(stepped + VSMD_STEPPED_AT_LINK);
}

/* The entry of a block in the event buffer, by how many blocks were run before it: from 0 to vsmd_outcome_blocks - 1. */
static inline const uint8_t *vsmd_event_entry(const uint8_t *events, size_t before)
{
    return events + VSMD_EVENT_LEN * before;
}

/* VSMD_STATUS_OK or VSMD_STATUS_FAILED. */
static inline uint8_t vsmd_event_status(const uint8_t *entry)
{
    return entry[VSMD_EVENT_AT_STATUS];
}

static inline uint8_t vsmd_event_error(const uint8_t *entry)
{
    return entry[VSMD_EVENT_AT_ERROR];
}

static inline uint8_t vsmd_event_level(const uint8_t *entry)
{
    return entry[VSMD_EVENT_AT_LEVEL];
}

static inline uint8_t vsmd_event_vector(const uint8_t *entry)
{
    return entry[VSMD_EVENT_AT_VECTOR];
}

/* The travel in an event entry, -4095 to 4095. */
static inline int32_t vsmd_event_travel(const uint8_t *entry)
{
    uint32_t bits = vsmd_get32(entry + VSMD_EVENT_AT_TRAVEL);
    return bits < 0x80000000u ? (int32_t)bits : -(int32_t)(0xFFFFFFFFu - bits) - 1;
}

/* ---- texts -----------------------------------------------------------------------------------------------------------------------*/

/* An answer in words, for a log or a console: of a run, of a block that failed, or of a call that was refused. The numbers of the three are
 * apart, so that one call serves for what vsmd_run returned and for vsmd_outcome_failed, and for what a step returned and vsmd_stepped_answer
 * where they are not 0; for a step after the first that returned VSMD_FIRST_BAD hand over VSMD_LINK_BAD. The text is never NULL; a number that is no
 * answer has one as well. It is for people: a program goes by the number. */
static inline const char *vsmd_answer_text(uint32_t code)
{
    switch (code) {
    case VSMD_DONE:
        return "the last block had no link and ended with status 80";
    case VSMD_EVENTS_SHORT:
        return "the event buffer has fewer than 512 bytes";
    case VSMD_ALLOWANCE_BAD:
        return "the allowance is 0 or over 64";
    case VSMD_FIRST_BAD:
        return "the first block is at an odd address or not wholly in host memory";
    case VSMD_BLOCK_FAILED:
        return "a block ended with status 82";
    case VSMD_LINK_BAD:
        return "a link leads to a block at an odd address or not wholly in host memory";
    case VSMD_ALLOWANCE_SPENT:
        return "the allowance is spent and the last block has a link";
    case VSMD_COMMAND_UNKNOWN:
        return "the command is not one of the ten";
    case VSMD_NOT_INITIALIZED:
        return "the unit is not initialized";
    case VSMD_UIB_MISPLACED:
        return "the UIB is at an odd address or not wholly in host memory";
    case VSMD_UIB_OUTSIDE_LIMITS:
        return "the UIB is outside the limits of a geometry";
    case VSMD_VOLUME_ABSENT:
        return "the unit has no volume 1";
    case VSMD_COUNT_ZERO:
        return "the sector count is 0";
    case VSMD_SECTOR_OUTSIDE:
        return "the first sector or the last is outside the volume, or a track outside the drive";
    case VSMD_IMAGE_SHORT:
        return "the image is shorter than the geometry needs";
    case VSMD_LIST_BAD:
        return "the list has no elements or over 64, is misplaced, or has wrong byte counts";
    case VSMD_DATA_MISPLACED:
        return "a data address is odd or its range not in host memory";
    case VSMD_UNREADABLE:
        return "a sector is marked unreadable; the sectors before it were moved";
    case VSMD_TRACKS_TAKEN:
        return "the bad track and the spare are one, or one of them is in the table already";
    case VSMD_TABLE_FULL:
        return "the table has 32 pairs";
    case VSMD_DRIVE_HELD:
        return "the other controller holds the drive";
    case VSMD_RECORD0_SHORT:
        return "record 0 is shorter than its layout";
    case VSMD_RECORD1_SHORT:
        return "record 1 is shorter than its layout";
    case VSMD_OUTCOME_SHORT:
        return "the outcome is shorter than its layout";
    case VSMD_CONTROLLER_UNKNOWN:
        return "there is no controller with that number";
    case VSMD_STEPPED_SHORT:
        return "the room for what a step leaves is shorter than its layout";
    case VSMD_ENTRY_SHORT:
        return "the event buffer has no room for the entry";
    case VSMD_RECORD_NOT_INITIALIZED:
        return "the record is of a unit that is not initialized";
    case VSMD_SECTOR_NOT_THERE:
        return "the unit has no such sector";
    default:
        return "no answer of this library";
    }
}

#ifdef __cplusplus
}
#endif

#endif
