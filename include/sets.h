/* Sets of settings for programs in C. A set is a 64-bit number: bit s stands for setting s. Option k is on in setting s exactly when bit k of s is one.
   Link with target/staticlib/libsets.a (.ci/archive sets). No function asks anything of its caller. crates/sets_c/src/lib.rt says what each is proved to
   give; panel/panel.c calls them all. */
#ifndef GUARD_BENCH_SETS_H
#define GUARD_BENCH_SETS_H

#include <stdbool.h>
#include <stdint.h>

#ifdef __cplusplus
extern "C" {
#endif

/* the settings in both, in either, and in a but not in b */
uint64_t sets_meet(uint64_t a, uint64_t b);
uint64_t sets_join(uint64_t a, uint64_t b);
uint64_t sets_take_away(uint64_t a, uint64_t b);

/* whether setting s is a member; at 64 or above: no */
bool sets_has(uint64_t a, uint64_t s);

/* how many settings are members */
uint32_t sets_count(uint64_t a);

/* the set of all settings of f options; 0 where it is refused */
uint64_t sets_full(uint32_t f);

/* 3 where f is above 6 and the full set is refused, else 0 */
uint32_t sets_full_refusal(uint32_t f);

/* the settings of the set `full` in which option k is on */
uint64_t sets_option(uint64_t full, uint32_t k);

#ifdef __cplusplus
}
#endif

#endif
