/* The guard bench for programs in C: a check of a routine image, the settings of a condition, a routine configured for one setting, a plain run, the
   run of one hall, a run over a set of settings, the report, and a routine's written form read and listed. Link with target/staticlib/libcalls.a (.ci/archive
   calls). desk/desk.c is an example. crates/calls/src/lib.rt says what each call is proved to do.

   What is lent to a call is a pointer and the number of elements behind it. No two slices of one call may overlap. Besides that a call asks nothing of its
   caller: every image, text, set, budget and length gets an answer, and no call relies on an earlier one.

   Every call returns whether it answered. It does so exactly where the answer space has BENCH_ANSWER numbers; else it returns false, and nothing that was
   lent is changed. An answer is a number, a place and six values:

       number 0   the call is carried out; place 0, and the values are named at each call. Values that are not named are 0.
       else       the call is refused with that number at that place (enum bench_refusal); all values are 0, and nothing else that was lent is changed. */
#ifndef GUARD_BENCH_H
#define GUARD_BENCH_H

#include <stdbool.h>
#include <stddef.h>
#include <stdint.h>

#ifdef __cplusplus
extern "C" {
#endif

/* How many numbers an answer has, and where each stands. */
enum {
    BENCH_ANSWER = 8,

    BENCH_NUMBER = 0,
    BENCH_PLACE = 1,

    /* of bench_check */
    BENCH_OPTIONS = 2,
    BENCH_CONDITIONS = 3,
    BENCH_NODES = 4,

    /* of bench_condition_has: 1 or 0 */
    BENCH_HAS = 2,

    /* of bench_configure, bench_read and bench_list: how many bytes are written; of bench_report: how many bytes the text has, and 1 where that is more
       than the space */
    BENCH_LENGTH = 2,
    BENCH_TOO_LONG = 3,

    /* of bench_plain_run and bench_one_hall: an enum bench_outcome, the fault's number as an unsigned number of 32 bits (cast it to int32_t), and the
       steps */
    BENCH_OUTCOME = 2,
    BENCH_CODE = 3,
    BENCH_STEPS = 4,

    /* of bench_shared_run: the visits, and two sets of settings (include/sets.h) */
    BENCH_VISITS = 2,
    BENCH_IN_FAULT = 3,
    BENCH_ARE_OUT = 4
};

/* How a setting ends. */
enum bench_outcome { BENCH_IDLE = 0, BENCH_DONE = 1, BENCH_FAULT = 2, BENCH_OUT = 3 };

/* Why a call is refused: the table of documents 01 and 02. The place is 0 where no other is named. */
enum bench_refusal {
    BENCH_IMAGE_SHORT = 1,       /* image under 8 bytes */
    BENCH_EDITION_WRONG = 2,     /* edition not 1, or header zero bits set */
    BENCH_COUNTS_WRONG = 3,      /* F > 6, C > 256, P = 0 or P > 1,024 */
    BENCH_LENGTH_WRONG = 4,      /* length not 8 + 4C + 8P */
    BENCH_CONDITION_WRONG = 5,   /* condition: kind, option not below F, name not lower, unused field set; place: the lowest such */
    BENCH_NODE_WRONG = 6,        /* node: kind, node name not lower, condition number not below C, variable over 15, unused field set; place: the lowest such */
    BENCH_CLASS_WRONG = 7,       /* a child of the wrong class, or the root is no statement; place: the lowest such parent, or P - 1 */
    BENCH_NAMED_WRONG = 8,       /* a node before the last named never or more than once; place: the lowest such */
    BENCH_SET_BEYOND = 9,        /* set has a setting at or above N */
    BENCH_BUDGET_OVER = 10,      /* budget over 100,000 */
    BENCH_SETTING_BEYOND = 11,   /* setting at or above N */
    BENCH_LENT_WRONG = 12,       /* store (16N, in a plain run and for one hall 16), outcomes, codes or steps (N each) not of exact length */
    BENCH_CHOICE_HELD = 13,      /* plain run of an image that holds a choice; place: the lowest choice */
    BENCH_SPACE_SHORT = 14,      /* output space shorter than the configured image, the image read or the text listed */
    BENCH_CONDITION_BEYOND = 15, /* condition number not below C */
    BENCH_INPUT_SHORT = 16,      /* report input under 12 bytes; the report's text says so, no answer does */
    BENCH_TEXT_WRONG = 17,       /* text not of the grammar; place: the first byte from which no continuation fits, its length where it stops short */
    BENCH_TOO_MANY = 18          /* node 1,025 or condition 257; place: the first byte of the word, number or bracket that opens it, of bench_list 0 */
};

/* Sizes that are always enough: the longest image, the longest text of a report, and the longest listing. */
enum { BENCH_LONGEST_IMAGE = 9224, BENCH_LONGEST_REPORT = 2112, BENCH_LONGEST_LISTING = 124692 };

/* Refusals 1 to 8. Values: BENCH_OPTIONS, BENCH_CONDITIONS, BENCH_NODES (F, C and P). */
bool bench_check(const uint8_t *image, size_t image_length, size_t *answer, size_t answer_length);

/* Whether setting s is in the set of a condition. Refusals 1 to 8, 15. Value: BENCH_HAS. */
bool bench_condition_has(const uint8_t *image, size_t image_length, size_t condition, uint64_t s, size_t *answer, size_t answer_length);

/* Writes the image configured for a setting from the start of out; bytes beyond it stay as they were. Refusals 1 to 8, 11, 14. Value: BENCH_LENGTH. */
bool bench_configure(const uint8_t *image, size_t image_length, uint64_t setting, uint8_t *out, size_t out_length, size_t *answer, size_t answer_length);

/* Runs an image that holds no choice from 16 numbers. Refusals 1 to 8, 13, 10, 12. Values: BENCH_OUTCOME, BENCH_CODE, BENCH_STEPS. */
bool bench_plain_run(const uint8_t *image, size_t image_length, uint32_t budget, int32_t *numbers, size_t numbers_length, size_t *answer,
                     size_t answer_length);

/* Runs an image in one setting from 16 numbers, and answers as bench_configure with space enough and bench_plain_run of what it wrote do in turn. Refusals
   1 to 8, 11, 10, 12. Values: BENCH_OUTCOME, BENCH_CODE, BENCH_STEPS. */
bool bench_one_hall(const uint8_t *image, size_t image_length, uint64_t setting, uint32_t budget, int32_t *numbers, size_t numbers_length, size_t *answer,
                    size_t answer_length);

/* Runs an image for all settings of a set: setting s from the 16 numbers from 16s in the store, its outcome, code and steps at s. Refusals 1 to 8, 9, 10, 12.
   Values: BENCH_VISITS, BENCH_IN_FAULT, BENCH_ARE_OUT. */
bool bench_shared_run(const uint8_t *image, size_t image_length, uint64_t set, uint32_t budget, int32_t *store, size_t store_length, uint8_t *outcomes,
                      size_t outcomes_length, int32_t *codes, size_t codes_length, uint32_t *steps, size_t steps_length, size_t *answer,
                      size_t answer_length);

/* Writes the report from the start of out, where it fits; else out stays as it was. The input is the set in 8 bytes and the budget in 4, most significant
   first, then the image. Its number is always 0: a refusal is the report's text. Values: BENCH_LENGTH, BENCH_TOO_LONG. */
bool bench_report(const uint8_t *input, size_t input_length, uint8_t *out, size_t out_length, size_t *answer, size_t answer_length);

/* Reads a routine in the written form, a text of any length, and writes its image from the start of out; bytes beyond it stay as they were. Refusals 17 and
   18, the earlier place of the two, then 14. Value: BENCH_LENGTH. */
bool bench_read(const uint8_t *text, size_t text_length, uint8_t *out, size_t out_length, size_t *answer, size_t answer_length);

/* Writes the written form of an image from the start of out, laid out in lines and each condition written out at its choice; bytes beyond it stay as they
   were. There is one text for each tree, and bench_read gives the tree back. Refusals 1 to 8, 18, 14. Value: BENCH_LENGTH. */
bool bench_list(const uint8_t *image, size_t image_length, uint8_t *out, size_t out_length, size_t *answer, size_t answer_length);

#ifdef __cplusplus
}
#endif

#endif
