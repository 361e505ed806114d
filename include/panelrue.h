/*
 * Panelrue for hosts in C and C++: check, start, run, memory check, look-up, logged run and step back of test procedures.
 *
 * `rt lib --cpu x86-64` in crates/panelrue_c proves the library and writes out/libpanelrue_c.a there, for x86-64; `c/port` makes it for
 * other processors. It needs memcpy and memset (on Arm by the compiler's own names, and on Cortex-M0 its arithmetic; README.md lists them) and
 * nothing else: no heap, no clock, no file, no global data.
 *
 * What the caller owes, for every call: a pointer is never null, not even with length 0; it points to as many elements as the length
 * beside it says, aligned for their type; what a call may write (memory of start, runs and step back, log of a logged run, answer)
 * overlaps nothing else that the call gets; and nobody else writes any of it until the call returns. Content is never owed: any bytes,
 * words and numbers are taken.
 *
 * A call needs at most PANELRUE_STACK_SHORT bytes of stack where the file has at most 256 nodes, and PANELRUE_STACK_ANY on any input; a
 * logged run and a step back need PANELRUE_STACK_LOG more.
 *
 * Each function answers 0 where the call is accepted. Else the number says the question that refused it (1 to 18), the place and the
 * item; PANELRUE_QUESTION, PANELRUE_PLACE and PANELRUE_ITEM take it apart. A refused call changes nothing.
 */
#ifndef PANELRUE_H
#define PANELRUE_H

#include <stdint.h>

#ifdef __cplusplus
extern "C" {
#endif

/* The version of the library, as CHANGELOG.md numbers it. */
#define PANELRUE_VERSION_MAJOR 0
#define PANELRUE_VERSION_MINOR 6
#define PANELRUE_VERSION_PATCH 1
#define PANELRUE_VERSION "0.6.1"

/*
 * A length: of a file and of a log in bytes, of a memory and of room for an answer in words. It has 64 bits on every processor, where
 * size_t may have 32 and would be passed in another way.
 */
typedef uint64_t panelrue_size;

/*
 * The bytes of stack that a call may need on x86-64, with a file of at most 256 nodes and with any, and those that a logged run and a step
 * back may need more, for a second image: measured by the tests, which fail above them, and no part of the proof. Frames on other
 * processors are about as large; `c/port` prints the largest.
 */
#define PANELRUE_STACK_SHORT 32768
#define PANELRUE_STACK_ANY 262144
#define PANELRUE_STACK_LOG 66560

/* The bytes of the longest procedure that can pass: a header, 128 functions and 4,096 nodes of 12 bytes each. */
#define PANELRUE_LONGEST_FILE 50700

/*
 * The byte of a file that is its edition, and the last edition that there is; a file of a later one is refused by question 2. Edition 0
 * keeps the low five bits of a shift count, edition 1 raises arith for one below 0 or above 31. An image does not have the edition.
 */
#define PANELRUE_EDITION_BYTE 8
#define PANELRUE_LAST_EDITION 1

/* The words of 32 bits of a state's image, which every call but the check wants at least; later words never change. */
#define PANELRUE_WORDS 16384

/* The bytes that no record of a step in a log is longer than; most have some tens. docs/LOG.md has the layout. */
#define PANELRUE_LONGEST_RECORD 65540

/* The words of 64 bits that a run, a look-up, a logged run and a step back answer in; with less room they write none. */
#define PANELRUE_RUN_ROOM 3
#define PANELRUE_LOOK_ROOM 2
#define PANELRUE_RUN_LOGGED_ROOM 4
#define PANELRUE_BACK_ROOM 1

/*
 * The parts of a refusal. The place counts records, at most 4,224: 0 the header, then functions, then nodes. Question 10 alone has an
 * item, a variable.
 */
#define PANELRUE_QUESTION(number) ((unsigned)((number) & 255u))
#define PANELRUE_ITEM(number) ((unsigned)((number) >> 8 & 255u))
#define PANELRUE_PLACE(number) ((unsigned long)((number) >> 16))

/* Refusals that speak of the call's memory, variable or log; 1 to 14 speak of the file. */
#define PANELRUE_MEMORY_SHORT 15u
#define PANELRUE_MEMORY_UNFIT 16u
#define PANELRUE_NO_VARIABLE 17u
#define PANELRUE_NO_RECORD 18u

/* How a run stopped: the first word of its answer. */
#define PANELRUE_VALUE 0u    /* main returned; the int is the second word */
#define PANELRUE_ARITH 1u    /* a division or remainder without a result, or in edition 1 a shift */
#define PANELRUE_ABORT 2u    /* an assert failed */
#define PANELRUE_SPENT 3u    /* the allowance was used up; run again to go on */
#define PANELRUE_FULL 4u     /* the next state would pass a limit (14 saved callers, 512 frames); running again changes nothing */
#define PANELRUE_LOG_FULL 5u /* the next record does not fit into the log; run again with a longer one, or without, to go on */

/* What a variable holds: the first word of a look-up's answer. */
#define PANELRUE_NOTHING 0u
#define PANELRUE_INT 1u
#define PANELRUE_BOOL 2u

/* Whether the file is a procedure that may run: questions 1 to 14. */
uint64_t panelrue_check(const uint8_t *file, panelrue_size length);

/* Questions 1 to 15; then writes the state before main's first step over the first 16,384 words, whatever they held. */
uint64_t panelrue_start(const uint8_t *file, panelrue_size length, uint32_t *memory, panelrue_size words);

/*
 * Questions 1 to 16; then takes the state in the memory on by at most `allowance` steps, to a final outcome or to a limit, and writes
 * the outcome, the int's 32 bits (0 unless a value) and the steps taken into answer[0] to answer[2], if `room` is 3 or more. A run
 * that has ended answers its end again with 0 steps.
 */
uint64_t panelrue_run(const uint8_t *file, panelrue_size length, uint32_t *memory, panelrue_size words, uint64_t allowance,
                      uint64_t *answer, panelrue_size room);

/* Whether the memory holds a state from which this file's procedure can safely go on: questions 1 to 16. */
uint64_t panelrue_memory_check(const uint8_t *file, panelrue_size length, const uint32_t *memory, panelrue_size words);

/*
 * Questions 1 to 17; then writes the type and the word (an int's 32 bits, a bool's 0 or 1, else 0) of a variable of the function that
 * is running into answer[0] and answer[1], if `room` is 2 or more. Before main is entered and at every end there is no variable.
 */
uint64_t panelrue_look_up(const uint8_t *file, panelrue_size length, const uint32_t *memory, panelrue_size words, uint32_t variable,
                          uint64_t *answer, panelrue_size room);

/*
 * The same as panelrue_run, with a record of each step taken, by which panelrue_step_back takes it back. The first record is written from
 * log[used] on and each other one after it; no other byte of the log is written. A run stops with PANELRUE_LOG_FULL before the step whose
 * record does not fit there; an end, PANELRUE_SPENT and PANELRUE_FULL come before that. `used` may be any number: where it is above
 * `log_length`, no record fits. Writes the outcome, the int's 32 bits (0 unless a value), the steps taken and the used length after them
 * into answer[0] to answer[3], if `room` is 4 or more.
 */
uint64_t panelrue_run_logged(const uint8_t *file, panelrue_size length, uint32_t *memory, panelrue_size words, uint64_t allowance,
                             uint8_t *log, panelrue_size log_length, uint64_t used, uint64_t *answer, panelrue_size room);

/*
 * Questions 1 to 16, and 18: whether the log has a whole last record before `used`, and that record gives a state from which this file's
 * procedure can safely go on and whose one step leads to the present memory. Then writes that state over the first 16,384 words, and the
 * used length without that record into answer[0], if `room` is 1 or more. The log is never written. After n logged steps with one file
 * and nothing else between, n steps back give the first memory, every word the same.
 */
uint64_t panelrue_step_back(const uint8_t *file, panelrue_size length, uint32_t *memory, panelrue_size words, const uint8_t *log,
                            panelrue_size log_length, uint64_t used, uint64_t *answer, panelrue_size room);

#ifdef __cplusplus
}
#endif

#endif
