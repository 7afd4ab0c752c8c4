/* Starts what rust/measure.rs measures, and lends it the bench's calls over 64 settings from numbers that are all 0. */
#include "bench.h"
#include <string.h>

enum { SETTINGS = 64 };

void measure(void);

/* One shared run of a set: the visits, or SIZE_MAX where it is refused. */
size_t shared_run(const uint8_t *image, size_t length, uint64_t set, uint32_t budget, int32_t *store, uint32_t *steps) {
    uint8_t outcomes[SETTINGS];
    int32_t codes[SETTINGS];
    size_t answer[BENCH_ANSWER];
    memset(store, 0, 16 * SETTINGS * sizeof *store);
    bool answered = bench_shared_run(image, length, set, budget, store, 16 * SETTINGS, outcomes, SETTINGS, codes, SETTINGS, steps, SETTINGS, answer,
                                     BENCH_ANSWER);
    return answered && answer[BENCH_NUMBER] == 0 ? answer[BENCH_VISITS] : SIZE_MAX;
}

/* The plain run of one setting's configured image: its steps, or SIZE_MAX where it is refused. */
size_t plain_run(const uint8_t *image, size_t length, uint64_t setting, uint32_t budget, int32_t *numbers) {
    static uint8_t alone[BENCH_LONGEST_IMAGE];
    size_t answer[BENCH_ANSWER];
    memset(numbers, 0, 16 * sizeof *numbers);
    if (!bench_configure(image, length, setting, alone, sizeof alone, answer, BENCH_ANSWER) || answer[BENCH_NUMBER] != 0) return SIZE_MAX;
    bool answered = bench_plain_run(alone, answer[BENCH_LENGTH], budget, numbers, 16, answer, BENCH_ANSWER);
    return answered && answer[BENCH_NUMBER] == 0 ? answer[BENCH_STEPS] : SIZE_MAX;
}

int main(void) {
    measure();
    return 0;
}
