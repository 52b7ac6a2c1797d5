/*
 * Tallowwing for C: every entry of the library, on numbers and bytes.
 *
 * Each function is proved to answer its definition for all inputs. None has to be asked first whether an input is good: a bad one ends in
 * a refusal. A pointer with its length lends that many bytes for the call and no longer; a length of 0 lends nothing, and the pointer may
 * then be anything but null. Bytes that are only read are never written. Two lent parts of one call must not overlap where one of them is
 * written.
 *
 * An answer is one number:
 *
 *   answer % 256   0, or the number of the refusal (1 to 18)
 *   answer / 256   of a refusal its line, counted from 1, or 0 where it has none; else the figure that the function gives
 *
 * A refused call leaves every lent byte as it was. One that is not refused writes its result at the front of the bytes lent for it and
 * leaves the bytes behind it as they were. Numbers in lent bytes are little-endian.
 *
 * The refusals:
 *
 *    1 the text is longer than 61,440 bytes
 *    2 a byte is none of tab, LF, CR before LF, or 32 to 126
 *    3 a wrong keyword, 0/1 flag, name or form, too few or too many fields, or a line after the last one due
 *    4 a number is not decimal or is outside its limit
 *    5 a module or test number, a level or an X/Y pair breaks its rule
 *    6 the text ends while lines are still due
 *    7 the number of wires is not from 1 to 64
 *    8 the limit of buses is not from 1 to 3, or to 8 for the planner with a spending limit
 *    9 no module is planned: none has a test with TamUse 1
 *   10 more than 12 modules are planned
 *   11 the bytes lent for the result are too few
 *   12 this is not a good plan file or plan record
 *   13 there is no such module, or no such test in it
 *   14 the SOC record breaks a limit or rule of the text, or a spare place in it is not 0
 *   15 the overlay does not fit the base: another name or options, a module that is not there, or another level
 *   16 the number of capture cycles is not from 1 to 4
 *   17 a test of module 0 has TamUse 1: its terminals are the SOC's pins and need no access mechanism
 *   18 the number of tries is not from 1 to 1,099,511,627,776
 */
#ifndef TALLOWWING_H
#define TALLOWWING_H

#include <stddef.h>
#include <stdint.h>

#ifdef __cplusplus
extern "C" {
#endif

/*
 * A SOC record, 16,688 bytes. Each number takes 4 bytes; a flag is 0 or 1; X, Y and Power are -1 where not given; spare places are 0.
 *
 *   offset  0  length of the name; 4 the name, 32 bytes; 36 option Power; 40 option XY; 44 number of modules
 *   offset 48 + 416 m  module m, of 40: 0 level, 4 inputs, 8 outputs, 12 bidirs, 16 number of chains, 20 their lengths (64 places),
 *                      276 X, 280 Y, 284 number of tests, 288 + 16 i test i + 1 (8 places): 0 ScanUse, 4 TamUse, 8 patterns, 12 Power
 */
#define TALLOWWING_SOC_BYTES 16688

/*
 * A layout, 1,304 bytes, each number 4 bytes, 64 places each: 0 flip-flops of wrapper chain i + 1; 256 its input cells; 512 its output
 * cells; 768 its bidirectional cells, which count in both its scan-in and its scan-out, and in no other row; 1,024 the wrapper chain, from
 * 1, of internal chain j + 1. Places past the width or the chains, and of chains not used, are 0. Then three numbers of 8 bytes: 1,280 si,
 * the longest scan-in of these wrapper chains; 1,288 so, their longest scan-out; 1,296 the cycles that the test takes with this layout.
 */
#define TALLOWWING_LAYOUT_BYTES 1304

/*
 * A plan record, 1,212 bytes. Spare places are 0.
 *
 *   offset  0  W (4); 4 B (4); 8 number of buses (4); 12 number of modules (4); 16 time (8)
 *   offset 24 + 12 i  bus i + 1, of 8: width (4), busy (8)
 *   offset 120 + 28 j  planned module, of 39, ascending: number (4), bus (4), wires (4), cycles (8), start (8), the cycle at which it
 *                      begins
 */
#define TALLOWWING_PLAN_BYTES 1212

/*
 * What the planner with a spending limit found, 1,228 bytes.
 *
 *   offset  0  1 where the search was finished, else 0 (4); 4 1 where a plan is known, else 0 (4); 8 the tries spent (8)
 *   offset 16  the plan record of the best plan met; where no plan is known it is all 0
 */
#define TALLOWWING_BUDGET_BYTES 1228

/* The most bytes that a SOC text, a plan file and a listing can have. */
#define TALLOWWING_TEXT_MAX 61440
#define TALLOWWING_PLAN_FILE_MAX 892
#define TALLOWWING_LISTING_MAX 6144

/* Reads a SOC text to its record. Refusals 1 to 6 and 17 with their line, then 11. The figure is 16,688, the bytes written. */
uint64_t tallowwing_read_soc(const uint8_t *text, size_t text_len, uint8_t *record, size_t record_len);

/* Reads a SOC text, the base, and an overlay to the record of the combined description: each module is the overlay's where it has it,
 * otherwise the base's. Every function on a record takes it. Refusals 1 to 6 and 17 of the base, the same of the overlay, 15, then 11. Of a
 * refusal answer / 256 is 4 times its line, and 1 more where the base is meant, 2 more where the overlay is. The figure is 16,688. */
uint64_t tallowwing_read_pair(
    const uint8_t *base, size_t base_len, const uint8_t *overlay, size_t overlay_len, uint8_t *record, size_t record_len);

/* Where the lines of a module of a pair stand, from their first field to their last. Refusals as of tallowwing_read_pair without 11, then
 * 13; their line and text as there. Of the figure, figure / 131072 is the place of the first byte, figure / 2 % 65536 the place behind the
 * last one, and figure % 2 is 1 where they stand in the overlay, 0 where they stand in the base. */
uint64_t tallowwing_module_lines(const uint8_t *base, size_t base_len, const uint8_t *overlay, size_t overlay_len, uint32_t module);

/* The entries below, asked of a pair: each answers what it answers of the combined record, and reads the pair once. Refusals as of
 * tallowwing_read_pair without 11, then those that the entry has of a good record, so never 14. Of a refusal answer / 256 is as there;
 * what is refused of an accepted pair is about neither text, and answer / 256 is 0. */
uint64_t tallowwing_write_pair(
    const uint8_t *base, size_t base_len, const uint8_t *overlay, size_t overlay_len, uint8_t *text, size_t text_len);
uint64_t tallowwing_layout_pair(const uint8_t *base, size_t base_len, const uint8_t *overlay, size_t overlay_len, uint32_t module,
                                uint32_t test, uint32_t width, uint32_t capture, uint8_t *layout, size_t layout_len);
uint64_t tallowwing_module_time_pair(const uint8_t *base, size_t base_len, const uint8_t *overlay, size_t overlay_len, uint32_t module,
                                     uint32_t width, uint32_t capture);
uint64_t tallowwing_module_wires_pair(const uint8_t *base, size_t base_len, const uint8_t *overlay, size_t overlay_len, uint32_t module,
                                      uint32_t width, uint32_t capture);
uint64_t tallowwing_plan_pair(const uint8_t *base, size_t base_len, const uint8_t *overlay, size_t overlay_len, uint32_t wires,
                              uint32_t limit, uint32_t capture, uint8_t *plan, size_t plan_len);

/* Writes the written form of a SOC record. Refusals 14, 11. The figure is the number of bytes written. A record of another length than
 * 16,688 bytes, or with a flag that is neither 0 nor 1, is not good: 14, here and below. */
uint64_t tallowwing_write_soc(const uint8_t *record, size_t record_len, uint8_t *text, size_t text_len);

/* Below, capture is the number of clock cycles between load and unload, from 1 to 4: a test of p patterns takes
 * (capture + max(si, so)) * p + min(si, so) cycles, where si and so are the longest scan-in and scan-out. */

/* Lays out the wrapper of a module for one of its tests at a width, with its si, so and cycles. All but the cycles is the same at each
 * capture. Refusals 14, 7, 16, 13, 11. The figure is 1,304, the bytes written. The cycles of the layouts of a module's tests with TamUse 1,
 * at its wires (`tallowwing_module_wires`, or a plan record's), come to its time. */
uint64_t tallowwing_layout(const uint8_t *record, size_t record_len, uint32_t module, uint32_t test, uint32_t width, uint32_t capture,
                           uint8_t *layout, size_t layout_len);

/* A module's time, in cycles, on a bus of a width. Refusals 14, 7, 16, 13. */
uint64_t tallowwing_module_time(const uint8_t *record, size_t record_len, uint32_t module, uint32_t width, uint32_t capture);

/* A module's wires on a bus of a width: the fewest that give its time. Refusals 14, 7, 16, 13. */
uint64_t tallowwing_module_wires(const uint8_t *record, size_t record_len, uint32_t module, uint32_t width, uint32_t capture);

/* Finds the first plan of least time for W wires and limit B. Refusals 14, 7, 8, 16, 9, 10, 11. The figure is 1,212, the bytes written. */
uint64_t tallowwing_plan(
    const uint8_t *record, size_t record_len, uint32_t wires, uint32_t limit, uint32_t capture, uint8_t *plan, size_t plan_len);

/* Searches for a plan within a number of tries, with up to 8 buses and as many planned modules as a text can have. A plan that is known is
 * the best one met; where the search was finished it is the first plan of least time, that of tallowwing_plan where both take the input.
 * Refusals 14, 7, 8, 16, 9, 18, 11. The figure is 1,228, the bytes written. */
uint64_t tallowwing_budget(const uint8_t *record, size_t record_len, uint32_t wires, uint32_t limit, uint32_t capture, uint64_t tries,
                           uint8_t *found, size_t found_len);

/* Writes the plan file of a plan record. Refusals 12, 11. The figure is the number of bytes written. A plan record of another length than
 * 1,212 bytes is not good: 12. */
uint64_t tallowwing_write_plan(const uint8_t *plan, size_t plan_len, uint8_t *file, size_t file_len);

/* Reads a plan file, the part used and no more, to its record. Refusals 12, 11; a file of the old 12-byte module
 * records is 12. The figure is 1,212, the bytes written. */
uint64_t tallowwing_read_plan(const uint8_t *file, size_t file_len, uint8_t *plan, size_t plan_len);

/* Lists a plan record: the line `wires W limit B time T`, then its buses and modules as in a listing. Refusals 12, 11; 6,144 bytes are
 * always enough. The figure is the number of bytes written. */
uint64_t tallowwing_show(const uint8_t *plan, size_t plan_len, uint8_t *listing, size_t listing_len);

/* Lists the plan for a line `Plan W B` and the SOC text behind it, or the line `refused N line L`. A third number on the line is the number
 * of capture cycles, 1 if it is absent. Refusal 11 alone; 6,144 bytes are always enough. The figure is the number of bytes written. */
uint64_t tallowwing_listing(const uint8_t *input, size_t input_len, uint8_t *listing, size_t listing_len);

#ifdef __cplusplus
}
#endif

#endif
