/* Calls every function of include/tallowwing.h from C on document 01's text t1, and holds the answers against the document's figures. */
#include "tallowwing.h"

#include <stdio.h>
#include <string.h>

static const char text[] =
    "SocName t1\n"
    "TotalModules 3\n"
    "Options Power 0 XY 0\n"
    "Module 0 Level 0 Inputs 0 Outputs 0 Bidirs 0 ScanChains 0 :\n"
    "Module 0 TotalTests 0\n"
    "Module 1 Level 1 Inputs 0 Outputs 0 Bidirs 0 ScanChains 1 : 10\n"
    "Module 1 TotalTests 1\n"
    "Module 1 Test 1 ScanUse 1 TamUse 1 Patterns 5\n"
    "Module 2 Level 1 Inputs 3 Outputs 2 Bidirs 0 ScanChains 0 :\n"
    "Module 2 TotalTests 1\n"
    "Module 2 Test 1 ScanUse 1 TamUse 1 Patterns 4\n";

static const char overlay[] =
    "Overlay t1\r\n"
    "Options Power 0 XY 0\r\n"
    "  Module 1 Level 1 Inputs 0 Outputs 0 Bidirs 0 ScanChains 1 : 20\r\n"
    "\n"
    "Module\t1 TotalTests 1 \n"
    "Module 1 Test 1 ScanUse 1 TamUse 1 Patterns 5 ";

/* A test of module 0 with TamUse 1, in a text and in an overlay, which does not fit t1 either. */
static const char top[] =
    "SocName t2\nTotalModules 1\nOptions Power 0 XY 0\nModule 0 Level 0 Inputs 0 Outputs 0 Bidirs 0 ScanChains 0 :\n"
    "Module 0 TotalTests 1\nModule 0 Test 1 ScanUse 0 TamUse 1";

static const char top_overlay[] =
    "Overlay t2\nOptions Power 0 XY 0\nModule 0 Level 0 Inputs 0 Outputs 0 Bidirs 0 ScanChains 0 :\n"
    "Module 0 TotalTests 1\nModule 0 Test 1 ScanUse 0 TamUse 1";

static const char listing[] =
    "soc t1 wires 4 limit 2 time 65\n"
    "bus 1 width 1 busy 65\n"
    "bus 2 width 3 busy 9\n"
    "module 1 bus 1 wires 1 cycles 65 start 0\n"
    "module 2 bus 2 wires 3 cycles 9 start 0\n";

/* The plan file of the same plan as it was before a module's start stood in it. */
static const uint8_t old[64] = {
    1, 1, 1, 0, 65, 0, 0, 0, 0, 0, 0, 0,
    2, 2, 3, 0, 9, 0, 0, 0, 0, 0, 0, 0,
    1, 0, 0, 0, 65, 0, 0, 0, 0, 0, 0, 0,
    3, 0, 0, 0, 9, 0, 0, 0, 0, 0, 0, 0,
    0, 0, 24, 0, 4, 2, 2, 2, 65, 0, 0, 0, 0, 0, 0, 0,
};

/* Where module 2 begins with one bus: behind the 65 cycles of module 1. */
static const uint8_t start[8] = {65};

/* The plan's time with four capture cycles: (4 + 10) * 5 + 10. */
static const uint8_t longer[8] = {80};

static int failures;

static void expect(const char *what, uint64_t answer, uint64_t number, uint64_t figure)
{
    if (answer % 256 != number || answer / 256 != figure) {
        fprintf(stderr, "interface: %s: number %u, figure %lu\n", what, (unsigned)(answer % 256), (unsigned long)(answer / 256));
        failures++;
    }
}

static void expect_bytes(const char *what, const void *found, const void *due, size_t length)
{
    if (memcmp(found, due, length) != 0) {
        fprintf(stderr, "interface: %s: other bytes\n", what);
        failures++;
    }
}

int main(void)
{
    static uint8_t soc[TALLOWWING_SOC_BYTES], written[TALLOWWING_TEXT_MAX], layout[TALLOWWING_LAYOUT_BYTES];
    static uint8_t plan[TALLOWWING_PLAN_BYTES], again[TALLOWWING_PLAN_BYTES], file[TALLOWWING_PLAN_FILE_MAX];
    static uint8_t input[11 + sizeof text], listed[TALLOWWING_LISTING_MAX];
    static uint8_t pair[TALLOWWING_SOC_BYTES], found[TALLOWWING_BUDGET_BYTES];
    static const char other[] =
        "SocName t1\nTotalModules 1\nOptions Power 0 XY 0\n"
        "Module 0 Level 0 Inputs 0 Outputs 0 Bidirs 0 ScanChains 0 :\nModule 0 TotalTests 0\n";
    const uint8_t *base = (const uint8_t *)text, *late = (const uint8_t *)overlay, *short_base = (const uint8_t *)other;
    const size_t length = sizeof text - 1, over = sizeof overlay - 1;

    expect("read", tallowwing_read_soc((const uint8_t *)text, length, soc, sizeof soc), 0, TALLOWWING_SOC_BYTES);
    expect("read a part", tallowwing_read_soc((const uint8_t *)text, 26, soc, sizeof soc), 6, 0);
    expect("read, wrong line", tallowwing_read_soc((const uint8_t *)text, 20, soc, sizeof soc), 3, 2);
    expect("read, no room", tallowwing_read_soc((const uint8_t *)text, length, soc, sizeof soc - 1), 11, 0);
    expect("pair", tallowwing_read_pair(base, length, late, over, pair, sizeof pair), 0, sizeof pair);
    expect("pair, no room", tallowwing_read_pair(base, length, late, over, pair, 7), 11, 0);
    expect("pair, base", tallowwing_read_pair(base, 20, late, over, pair, sizeof pair), 3, 4 * 2 + 1);
    expect("pair, overlay", tallowwing_read_pair(base, length, base, length, pair, sizeof pair), 3, 4 * 1 + 2);
    expect("pair, unfit", tallowwing_read_pair(short_base, sizeof other - 1, late, over, pair, sizeof pair), 15, 2);
    expect("pair, chain", pair[48 + 416 + 20], 20, 0);
    expect("read, module 0 on the TAM", tallowwing_read_soc((const uint8_t *)top, sizeof top - 1, pair, sizeof pair), 17, 6);
    expect("pair, module 0 on the TAM",
           tallowwing_read_pair(base, length, (const uint8_t *)top_overlay, sizeof top_overlay - 1, pair, sizeof pair), 17, 4 * 5 + 2);
    expect("lines", tallowwing_module_lines(base, length, late, over, 1), 0,
           131072ul * 36 + 2ul * (over - 1) + 1);
    expect("lines of the base", tallowwing_module_lines(base, length, late, over, 0), 0,
           131072ul * 47 + 2ul * 128);
    expect("lines, no module", tallowwing_module_lines(base, length, late, over, 3), 13, 0);
    expect("write a pair", tallowwing_write_pair(base, length, late, over, written, sizeof written), 0, length);
    expect_bytes("the pair's chain", written + (strstr(text, ": 10") - text), ": 20", 4);
    expect("write a pair, no room", tallowwing_write_pair(base, length, late, over, written, 7), 11, 0);
    expect("layout of a pair", tallowwing_layout_pair(base, length, late, over, 1, 1, 2, 1, layout, sizeof layout), 0, sizeof layout);
    expect_bytes("the pair's flip-flops", layout, "\24\0\0\0\0", 5);
    expect("layout of a pair, no test", tallowwing_layout_pair(base, length, late, over, 1, 2, 2, 1, layout, sizeof layout), 13, 0);
    expect("module time of a pair", tallowwing_module_time_pair(base, length, late, over, 1, 4, 1), 0, 125);
    expect("module wires of a pair", tallowwing_module_wires_pair(base, length, late, over, 1, 4, 1), 0, 1);
    expect("module wires of a pair, base", tallowwing_module_wires_pair(base, 20, late, over, 1, 4, 1), 3, 4 * 2 + 1);
    expect("plan of a pair", tallowwing_plan_pair(base, length, late, over, 4, 2, 1, plan, sizeof plan), 0, sizeof plan);
    expect("time of the pair's plan", plan[16], 125, 0);
    expect("plan of a pair, overlay", tallowwing_plan_pair(base, length, base, length, 4, 2, 1, plan, sizeof plan), 3, 4 * 1 + 2);
    expect("plan of a pair, wires", tallowwing_plan_pair(base, length, late, over, 0, 2, 1, plan, sizeof plan), 7, 0);
    expect("write", tallowwing_write_soc(soc, sizeof soc, written, sizeof written), 0, length);
    expect_bytes("written", written, text, length);
    expect("layout", tallowwing_layout(soc, sizeof soc, 2, 1, 3, 1, layout, sizeof layout), 0, TALLOWWING_LAYOUT_BYTES);
    expect_bytes("input cells", layout + 256, "\1\0\0\0\1\0\0\0\1\0\0\0\0", 13);
    expect_bytes("bidirectional cells", layout + 768, "\0\0\0\0", 4);
    expect_bytes("si, so and cycles", layout + 1280, "\1\0\0\0\0\0\0\0\1\0\0\0\0\0\0\0\11\0\0\0\0\0\0\0", 24);
    expect("layout of a chain", tallowwing_layout(soc, sizeof soc, 1, 1, 3, 1, layout, sizeof layout), 0, TALLOWWING_LAYOUT_BYTES);
    expect_bytes("wrapper chains", layout + 1024, "\1\0\0\0\0", 5);
    expect("layout, no test", tallowwing_layout(soc, sizeof soc, 2, 2, 3, 1, layout, sizeof layout), 13, 0);
    expect("layout, no room", tallowwing_layout(soc, sizeof soc, 2, 1, 3, 1, layout, sizeof layout - 1), 11, 0);
    expect("module time", tallowwing_module_time(soc, sizeof soc, 2, 4, 1), 0, 9);
    expect("module wires", tallowwing_module_wires(soc, sizeof soc, 2, 4, 1), 0, 3);
    expect("width", tallowwing_module_wires(soc, sizeof soc, 2, 65, 1), 7, 0);
    expect("layout, two capture cycles", tallowwing_layout(soc, sizeof soc, 2, 1, 1, 2, layout, sizeof layout), 0, TALLOWWING_LAYOUT_BYTES);
    expect_bytes("si, so and cycles", layout + 1280, "\3\0\0\0\0\0\0\0\2\0\0\0\0\0\0\0\26\0\0\0\0\0\0\0", 24);
    expect("module time, four capture cycles", tallowwing_module_time(soc, sizeof soc, 2, 4, 4), 0, 21);
    expect("five capture cycles", tallowwing_module_wires(soc, sizeof soc, 9, 4, 5), 16, 0);
    expect("layout, no capture cycle", tallowwing_layout(soc, sizeof soc, 2, 1, 3, 0, layout, sizeof layout), 16, 0);
    expect("plan, five capture cycles", tallowwing_plan(soc, sizeof soc, 4, 2, 5, plan, sizeof plan), 16, 0);
    expect("plan, four capture cycles", tallowwing_plan(soc, sizeof soc, 4, 2, 4, plan, sizeof plan), 0, TALLOWWING_PLAN_BYTES);
    expect_bytes("time with four capture cycles", plan + 16, longer, sizeof longer);
    expect("plan", tallowwing_plan(soc, sizeof soc, 4, 2, 1, plan, sizeof plan), 0, TALLOWWING_PLAN_BYTES);
    expect("write a plan", tallowwing_write_plan(plan, sizeof plan, file, sizeof file), 0, 80);
    expect("read a plan", tallowwing_read_plan(file, 80, again, sizeof again), 0, TALLOWWING_PLAN_BYTES);
    expect_bytes("plan", again, plan, sizeof plan);
    expect("show", tallowwing_show(plan, sizeof plan, listed, sizeof listed), 0, sizeof listing - 1 - 7);
    expect_bytes("show", listed, listing + 7, sizeof listing - 1 - 7);
    expect("show a part", tallowwing_show(plan, sizeof plan - 1, listed, sizeof listed), 12, 0);
    expect("read a longer plan", tallowwing_read_plan(file, 81, again, sizeof again), 12, 0);
    expect("read a plan of 12-byte records", tallowwing_read_plan(old, sizeof old, again, sizeof again), 12, 0);
    expect("plan on one bus", tallowwing_plan(soc, sizeof soc, 4, 1, 1, again, sizeof again), 0, TALLOWWING_PLAN_BYTES);
    expect_bytes("start of the second module", again + 120 + 28 + 20, start, sizeof start);
    expect("budget", tallowwing_budget(soc, sizeof soc, 4, 2, 1, 1000, found, sizeof found), 0, TALLOWWING_BUDGET_BYTES);
    expect_bytes("finished, with a plan", found, "\1\0\0\0\1\0\0\0", 8);
    expect_bytes("the plan of both planners", found + 16, plan, sizeof plan);
    expect("budget of one try", tallowwing_budget(soc, sizeof soc, 4, 2, 1, 1, found, sizeof found), 0, TALLOWWING_BUDGET_BYTES);
    memset(again, 0, sizeof again);
    expect_bytes("unfinished, without a plan", found, "\0\0\0\0\0\0\0\0\1\0\0\0\0\0\0\0", 16);
    expect_bytes("no plan", found + 16, again, sizeof again);
    expect("eight buses", tallowwing_budget(soc, sizeof soc, 4, 8, 1, 1, found, sizeof found), 0, TALLOWWING_BUDGET_BYTES);
    expect("nine buses", tallowwing_budget(soc, sizeof soc, 4, 9, 1, 0, found, sizeof found), 8, 0);
    expect("budget of 0", tallowwing_budget(soc, sizeof soc, 4, 2, 1, 0, found, sizeof found), 18, 0);
    expect("budget over the limit", tallowwing_budget(soc, sizeof soc, 4, 2, 1, 1099511627777u, found, sizeof found), 18, 0);
    expect("budget, no room", tallowwing_budget(soc, sizeof soc, 4, 2, 1, 9, found, sizeof found - 1), 11, 0);
    file[0] = 0;
    expect("plan file of module 0", tallowwing_read_plan(file, 80, again, sizeof again), 12, 0);
    plan[120] = 0;
    expect("plan record of module 0", tallowwing_write_plan(plan, sizeof plan, file, sizeof file), 12, 0);
    memcpy(input, "Plan 4 2\n", 9);
    memcpy(input + 9, text, length);
    expect("listing", tallowwing_listing(input, 9 + length, listed, sizeof listed), 0, sizeof listing - 1);
    expect_bytes("listing", listed, listing, sizeof listing - 1);
    memcpy(input, "Plan 4 2 4\n", 11);
    memcpy(input + 11, text, length);
    expect("listing, four capture cycles", tallowwing_listing(input, 11 + length, listed, sizeof listed), 0, sizeof listing + 1);
    expect_bytes("listing, four capture cycles", listed + 28, "80\n", 3);
    soc[48 + 284] = soc[48 + 288 + 8] = 1;
    memset(soc + 48 + 288 + 12, 255, 4);
    expect("layout of module 0", tallowwing_layout(soc, sizeof soc, 0, 1, 4, 1, layout, sizeof layout), 0, sizeof layout);
    soc[48 + 288 + 4] = 1;
    expect("module 0 on the TAM", tallowwing_layout(soc, sizeof soc, 0, 1, 4, 1, layout, sizeof layout), 14, 0);
    soc[48 + 288 + 4] = 0;
    soc[36] = 2;
    expect("bad flag", tallowwing_module_time(soc, sizeof soc, 2, 4, 1), 14, 0);

    if (failures == 0)
        puts("interface: every function of the header, from C");
    return failures != 0;
}
