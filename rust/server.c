/* Calls the bench for a program that cannot link it. Reads batches of requests and writes a batch of replies for each; every
   number is little-endian. A batch is its length in bytes (4) and that many bytes of requests. A request is the function's
   number (1), a guard byte (1), two numbers x and y (8 each) and the function's slices, each its length in bytes (4) and its
   bytes. The reply has what the call returned (1, and 1 for a call of the sets) and each slice again after the call, with the
   guard bytes that stood before and after it. */
#include "bench.h"
#include "sets.h"
#include <stdio.h>
#include <stdlib.h>
#include <string.h>

enum { GUARD = 16, MOST_SLICES = 6, FUNCTIONS = 17 };

/* How many slices each function takes; the sets' functions write their result in a slice of one number. */
static const int slices_of[FUNCTIONS] = {2, 2, 3, 3, 6, 1, 1, 1, 1, 1, 1, 1, 1, 3, 3, 3, 3};

static void *some(size_t size)
{
    void *room = malloc(size ? size : 1);
    if (!room)
        exit(2);
    return room;
}

static void take(void *to, const uint8_t **from, size_t size)
{
    memcpy(to, *from, size);
    *from += size;
}

static bool call(int function, uint64_t x, uint64_t y, void *const *at, const size_t *size)
{
    uint64_t *result = at[0];
    switch (function) {
    case 0: return bench_check(at[0], size[0], at[1], size[1] / 8);
    case 1: return bench_condition_has(at[0], size[0], x, y, at[1], size[1] / 8);
    case 2: return bench_configure(at[0], size[0], x, at[1], size[1], at[2], size[2] / 8);
    case 3: return bench_plain_run(at[0], size[0], x, at[1], size[1] / 4, at[2], size[2] / 8);
    case 4:
        return bench_shared_run(at[0], size[0], x, y, at[1], size[1] / 4, at[2], size[2], at[3], size[3] / 4, at[4],
                                size[4] / 4, at[5], size[5] / 8);
    case 5: *result = sets_meet(x, y); return true;
    case 6: *result = sets_join(x, y); return true;
    case 7: *result = sets_take_away(x, y); return true;
    case 8: *result = sets_has(x, y); return true;
    case 9: *result = sets_count(x); return true;
    case 10: *result = sets_full(x); return true;
    case 11: *result = sets_full_refusal(x); return true;
    case 12: *result = sets_option(x, y); return true;
    case 13: return bench_report(at[0], size[0], at[1], size[1], at[2], size[2] / 8);
    case 14: return bench_read(at[0], size[0], at[1], size[1], at[2], size[2] / 8);
    case 15: return bench_list(at[0], size[0], at[1], size[1], at[2], size[2] / 8);
    default: return bench_one_hall(at[0], size[0], x, y, at[1], size[1] / 4, at[2], size[2] / 8);
    }
}

/* One request at *from, its reply at to; gives the end of the reply. */
static uint8_t *answer(const uint8_t **from, uint8_t *to)
{
    uint8_t function, guard;
    uint64_t x, y;
    take(&function, from, 1);
    take(&guard, from, 1);
    take(&x, from, 8);
    take(&y, from, 8);
    if (function >= FUNCTIONS)
        exit(2);
    uint8_t *room[MOST_SLICES];
    void *at[MOST_SLICES];
    size_t size[MOST_SLICES];
    int slices = slices_of[function];
    for (int i = 0; i < slices; i++) {
        uint32_t length;
        take(&length, from, 4);
        size[i] = length;
        room[i] = some(length + 2 * GUARD);
        memset(room[i], guard, length + 2 * GUARD);
        at[i] = room[i] + GUARD;
        take(at[i], from, length);
    }
    *to++ = call(function, x, y, at, size);
    for (int i = 0; i < slices; i++) {
        memcpy(to, room[i], size[i] + 2 * GUARD);
        to += size[i] + 2 * GUARD;
        free(room[i]);
    }
    return to;
}

int main(void)
{
    uint32_t length;
    while (fread(&length, 4, 1, stdin) == 1) {
        uint8_t *requests = some(length);
        if (fread(requests, 1, length, stdin) != length)
            return 2;
        /* a slice of 4 + n bytes in a request has 32 + n in the reply, and a request's 18 bytes one: eight times the room is enough */
        uint8_t *replies = some((size_t)length * 8);
        const uint8_t *from = requests;
        uint8_t *to = replies;
        while (from < requests + length)
            to = answer(&from, to);
        uint32_t written = to - replies;
        fwrite(&written, 4, 1, stdout);
        fwrite(replies, 1, written, stdout);
        fflush(stdout);
        free(requests);
        free(replies);
    }
    return 0;
}
