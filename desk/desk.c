/* An example for programs in C: the overheat routine read from its written form and listed back, checked, run in all its settings at once, and once more in
   setting 3 alone. From the repository's folder:
     .ci/archive calls
     gcc -std=c11 -Iinclude -o target/desk desk/desk.c target/staticlib/libcalls.a && target/desk
   (.ci/c-run calls desk/desk.c does this.) It ends with status 1 where an answer is not the one it must be. */
#include "bench.h"
#include <stdio.h>
#include <stdlib.h>
#include <string.h>

enum { BUDGET = 100, MOST_SETTINGS = 64 };

static const char *const words[] = {"idle", "done", "fault", "out"};

static void must(bool good, const char *what, const size_t *answer) {
    if (good) return;
    printf("desk: %s: number %zu, place %zu\n", what, answer[BENCH_NUMBER], answer[BENCH_PLACE]);
    exit(1);
}

/* A file's text, and its length. */
static size_t load(const char *name, uint8_t *text, size_t space) {
    FILE *file = fopen(name, "r");
    if (!file) perror(name), exit(1);
    size_t length = fread(text, 1, space, file);
    fclose(file);
    return length;
}

/* A routine of routines/ read into an image, and listed back: they are kept as they are listed. */
static size_t read_routine(const char *name, uint8_t *image) {
    static uint8_t text[BENCH_LONGEST_LISTING], listed[BENCH_LONGEST_LISTING];
    size_t answer[BENCH_ANSWER] = {0}, length = load(name, text, sizeof text);
    bool answered = bench_read(text, length, image, BENCH_LONGEST_IMAGE, answer, BENCH_ANSWER);
    must(answered && answer[BENCH_NUMBER] == 0, name, answer);
    size_t bytes = answer[BENCH_LENGTH];
    answered = bench_list(image, bytes, listed, sizeof listed, answer, BENCH_ANSWER);
    must(answered && answer[BENCH_NUMBER] == 0 && answer[BENCH_LENGTH] == length, "the listing", answer);
    must(memcmp(text, listed, length) == 0, "the text that was read, listed", answer);
    printf("%s: %zu bytes of text, an image of %zu bytes\n", name, length, bytes);
    return bytes;
}

/* A text that is not of the grammar is refused at the byte from which it cannot go on. */
static void refused_text(void) {
    const char *text = "options 0 throw 07";
    uint8_t image[BENCH_LONGEST_IMAGE];
    size_t answer[BENCH_ANSWER] = {0};
    bool answered = bench_read((const uint8_t *)text, strlen(text), image, sizeof image, answer, BENCH_ANSWER);
    must(answered && answer[BENCH_NUMBER] == BENCH_TEXT_WRONG && answer[BENCH_PLACE] == 17, "a leading zero", answer);
}

/* A setting alone from 16 numbers, as the desk of its hall asks: one call, and its answer and numbers are those of configuring and the plain run in turn. */
static void one_hall(const uint8_t *image, size_t length, uint64_t setting, int32_t *numbers, size_t *answer) {
    static uint8_t configured[BENCH_LONGEST_IMAGE];
    int32_t in_turn[16];
    size_t plain[BENCH_ANSWER] = {0};
    memcpy(in_turn, numbers, sizeof in_turn);
    bool answered = bench_one_hall(image, length, setting, BUDGET, numbers, 16, answer, BENCH_ANSWER);
    must(answered && answer[BENCH_NUMBER] == 0, "one hall", answer);
    answered = bench_configure(image, length, setting, configured, sizeof configured, plain, BENCH_ANSWER);
    must(answered && plain[BENCH_NUMBER] == 0, "configuring", plain);
    answered = bench_plain_run(configured, plain[BENCH_LENGTH], BUDGET, in_turn, 16, plain, BENCH_ANSWER);
    must(answered && memcmp(plain, answer, sizeof plain) == 0, "the plain run's answer", plain);
    must(memcmp(in_turn, numbers, sizeof in_turn) == 0, "the plain run's numbers", plain);
}

int main(void) {
    static uint8_t image[BENCH_LONGEST_IMAGE];
    static int32_t store[16 * MOST_SETTINGS], codes[MOST_SETTINGS];
    static uint8_t outcomes[MOST_SETTINGS];
    static uint32_t steps[MOST_SETTINGS];
    size_t answer[BENCH_ANSWER] = {0};
    must(read_routine("routines/h.txt", image) == 108, "the length of H", answer);
    refused_text();
    size_t length = read_routine("routines/overheat.txt", image);

    bool answered = bench_check(image, length, answer, BENCH_ANSWER);
    must(answered && answer[BENCH_NUMBER] == 0, "the check", answer);
    size_t n = (size_t)1 << answer[BENCH_OPTIONS];
    printf("%zu options, %zu conditions, %zu nodes: %zu settings\n", answer[BENCH_OPTIONS], answer[BENCH_CONDITIONS], answer[BENCH_NODES], n);

    /* all settings at once; all numbers start at 0 */
    uint64_t all = n == 64 ? UINT64_MAX : ((uint64_t)1 << n) - 1;
    answered = bench_shared_run(image, length, all, BUDGET, store, 16 * n, outcomes, n, codes, n, steps, n, answer, BENCH_ANSWER);
    must(answered && answer[BENCH_NUMBER] == 0, "the run over all settings", answer);
    for (size_t s = 0; s < n; s++)
        printf("setting %zu: %s, code %d, %u steps, water of %.1f degrees\n", s, words[outcomes[s]], codes[s], steps[s], store[16 * s] / 10.0);
    must(answer[BENCH_VISITS] == 12 && answer[BENCH_IN_FAULT] == 1 << 2 && answer[BENCH_ARE_OUT] == 0, "visits, faults, out", answer);
    must(outcomes[2] == BENCH_FAULT && codes[2] == 7, "setting 2 ends in fault 7", answer);
    must(outcomes[3] == BENCH_DONE && store[16 * 3] == 380, "setting 3 is done over hot water", answer);

    int32_t numbers[16] = {0};
    one_hall(image, length, 3, numbers, answer);
    printf("setting 3 alone: %s, code %d, %zu steps\n", words[answer[BENCH_OUTCOME]], (int32_t)answer[BENCH_CODE], answer[BENCH_STEPS]);
    must(answer[BENCH_OUTCOME] == outcomes[3] && answer[BENCH_STEPS] == steps[3], "one hall ends as the shared run", answer);
    must(memcmp(numbers, store + 16 * 3, sizeof numbers) == 0, "the same numbers", answer);

    /* what is refused has a number and a place */
    must(bench_plain_run(image, length, BUDGET, numbers, 16, answer, BENCH_ANSWER), "an answer", answer);
    must(answer[BENCH_NUMBER] == BENCH_CHOICE_HELD && answer[BENCH_PLACE] == 2, "a plain run of an image that holds choices", answer);
    must(!bench_check(image, length, answer, BENCH_ANSWER - 1), "no answer without space for it", answer);
    printf("desk: ok\n");
    return 0;
}
