/* Panel software calls the sets of settings from C. From the repository's folder:
     .ci/archive sets
     gcc -std=c11 -Iinclude -Wall -Wextra -o target/panel panel/panel.c target/staticlib/libsets.a && target/panel
   (.ci/c-run sets panel/panel.c does this.) It prints `panel: ok` and ends with status 0, or prints each check that failed and ends with status 1. */
#include "sets.h"
#include <stdio.h>

static int failed = 0;

static void expect(const char *what, uint64_t got, uint64_t want) {
    if (got != want) {
        printf("panel: %s is %llu, not %llu\n", what, (unsigned long long)got, (unsigned long long)want);
        failed = 1;
    }
}

#define EXPECT(call, want) expect(#call, (call), (want))

int main(void) {
    EXPECT(sets_meet(12, 10), 8);
    EXPECT(sets_join(12, 10), 14);
    EXPECT(sets_take_away(12, 10), 4);
    EXPECT(sets_take_away(UINT64_MAX, 1), UINT64_MAX - 1);
    EXPECT(sets_has(8, 3), true);
    EXPECT(sets_has(8, 2), false);
    EXPECT(sets_has(UINT64_MAX, 63), true);
    EXPECT(sets_has(UINT64_MAX, 64), false);
    EXPECT(sets_has(UINT64_MAX, UINT64_MAX), false);
    EXPECT(sets_count(0), 0);
    EXPECT(sets_count(UINT64_MAX), 64);
    EXPECT(sets_full(0), 1);
    EXPECT(sets_full(3), 255);
    EXPECT(sets_full(6), UINT64_MAX);
    EXPECT(sets_full(7), 0);
    EXPECT(sets_full_refusal(6), 0);
    EXPECT(sets_full_refusal(7), 3);
    EXPECT(sets_full_refusal(UINT32_MAX), 3);
    EXPECT(sets_option(sets_full(1), 0), 2);
    EXPECT(sets_option(sets_full(3), 1), 0xCC);
    EXPECT(sets_option(UINT64_MAX, 5), 0xFFFFFFFF00000000);
    EXPECT(sets_option(UINT64_MAX, 6), 0);
    if (!failed) {
        printf("panel: ok\n");
    }
    return failed;
}
