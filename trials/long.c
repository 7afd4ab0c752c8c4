/* Reads texts far beyond every limit through the call for C: the answer is the one it must be, and a text ten times as long takes no more than some twenty
   times as long. It prints `long: ok`, or what is wrong, and then ends with status 1. (.ci/c-run calls trials/long.c runs it.) */
#include "bench.h"
#include <stdio.h>
#include <stdlib.h>
#include <string.h>
#include <time.h>

enum { MILLION = 1000000, LONGEST = 10 * MILLION, END = 64 };

static uint8_t text[LONGEST + 2 * END], image[BENCH_LONGEST_IMAGE];

/* `start`, then `part` until there are so many bytes, then `end`. */
static size_t written(const char *start, const char *part, size_t bytes, const char *end) {
    size_t length = strlen(start);
    memcpy(text, start, length);
    for (size_t each = strlen(part); length + each <= bytes; length += each) memcpy(text + length, part, each);
    memcpy(text + length, end, strlen(end));
    return length + strlen(end);
}

/* The seconds that reading takes; the answer must have this number and place. */
static double reads(size_t length, size_t number, size_t place) {
    size_t answer[BENCH_ANSWER];
    clock_t begun = clock();
    bool answered = bench_read(text, length, image, sizeof image, answer, BENCH_ANSWER);
    double seconds = (double)(clock() - begun) / CLOCKS_PER_SEC;
    if (answered && answer[BENCH_NUMBER] == number && answer[BENCH_PLACE] == place) return seconds;
    printf("long: %.20s..: number %zu at %zu\n", text, answer[BENCH_NUMBER], answer[BENCH_PLACE]);
    exit(1);
}

/* Spaces in front of a text, or behind it: all of them must be looked at. */
static void proportional(const char *start, const char *end) {
    double tenth = reads(written(start, " ", MILLION, end), 0, 0);
    double whole = reads(written(start, " ", LONGEST, end), 0, 0);
    printf("long: a million spaces %.4f s, ten million %.4f s\n", tenth, whole);
    if (whole <= 20 * tenth + 0.1) return;
    printf("long: the time is not proportional to the text\n");
    exit(1);
}

/* Brackets in each other: reading ends where the first is too many, however many there are. */
static void refused(const char *start, const char *part, size_t number, size_t place) {
    if (reads(written(start, part, LONGEST, ""), number, place) <= 1) return;
    printf("long: %s.. takes more than a second\n", start);
    exit(1);
}

int main(void) {
    proportional("", "options 0 skip");
    proportional("options 0 skip", "");
    refused("options 0 ", "{", 18, 10 + 1024);
    refused("options 0 throw ", "(", 18, 16 + 1023);
    refused("options 0[", "(", 18, 10 + 256);
    refused("options 0[", "not ", 18, 10 + 4 * 256);
    refused("options 0 if ", "not ", 18, 13 + 4 * 1023);
    refused("options 0 ", "[", 17, 11);
    refused("options 0 throw ", "9", 17, 16 + 9);
    refused("", "o", 17, 1);
    printf("long: ok\n");
    return 0;
}
