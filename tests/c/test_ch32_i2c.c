/* The library as C sees it: every function through the header, every refusal, blocks that are not a call's, whole calls number by number.
 * One line for each group; the last line is the verdict. */
#include "call.h"

#include <stdarg.h>
#include <stdio.h>

static unsigned long checks, failures;

int check(int holds, const char *format, ...)
{
    checks++;
    if (!holds && ++failures <= 20) {
        va_list arguments;
        va_start(arguments, format);
        printf("    failed: ");
        vprintf(format, arguments);
        printf("\n");
        va_end(arguments);
    }
    return holds;
}

static const struct {
    const char *name;
    void (*run)(void);
} groups[] = {
    {"the header's numbers, and taking a number apart", test_header},
    {"whole calls, number by number", test_sequences},
    {"error flags, every set on every chip", test_errors},
    {"bus settings", test_settings},
    {"every refusal, every byte unchanged", test_refusals},
    {"the order of refusals, all combinations", test_refusal_order},
    {"the last value before each refusal", test_limits},
    {"every pair of own and second address", test_own_addresses},
    {"both counts of a reply", test_left_over},
    {"the flags of an error", test_flags},
    {"speed windows, pair for pair, and init with them", test_speed_window},
    {"null pointers with length 0", test_null},
    {"blocks of other lengths", test_block_lengths},
    {"steps that are lent what begin refuses", test_lent_at_steps},
    {"blocks of another call", test_foreign_blocks},
    {"mutated blocks", test_mutated_blocks},
    {"unused bytes and unknown stages", test_layout},
    {"steps after the end", test_after_the_end},
    {"calls that end at once", test_ends_at_once},
    {"random calls", test_random_calls},
    {"a late clock at any question", test_late},
    {"where interrupts are held off", test_critical},
    {"ch32_i2c_blocking.h", test_blocking},
};

int main(void)
{
    unsigned i, count = sizeof groups / sizeof *groups, bad = 0;
    for (i = 0; i < count; i++) {
        unsigned long checks_before = checks, failures_before = failures;
        groups[i].run();
        bad += failures != failures_before;
        printf("%-6s %-50s %9lu checks\n", failures != failures_before ? "FAILED" : checks == checks_before ? "empty" : "ok",
               groups[i].name, checks - checks_before);
    }
    printf("C test: %u groups passed, %u failed, %lu checks\n", count - bad, bad, checks);
    return bad != 0;
}
