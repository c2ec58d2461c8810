/* The proved GRAFCET engine, for host programs in C and C++: chart text, present state and one event go in; the next stable situation
   and its outputs come out.

   Link with libhost.a, which `rt lib` in crates/host writes to crates/host/out (x86-64 Linux). `bin/host c` builds and runs an example.

   The calls
   ---------
   Each call returns GRAFCET_MADE, and then its answer stands in the lent words; or GRAFCET_REFUSED, where `state` or `out` has
   another length than the call asks for, and then no word of any slice is touched. GRAFCET_REFUSED is the boundary's own refusal and
   no answer number: those stand in out[GRAFCET_NUMBER], and README.md says what each means.

   Everything is checked on this side: every byte string, state, event and length may be handed over. No call fails, reads or writes outside
   the slices it is lent, or runs without end: that is proved. The stack that the worst cases take is measured, in docs/MEASURES.md.

   Pointers
   --------
   A slice is a pointer and the number of its elements. Of a slice that is not empty the pointer must point to so many elements of its
   type, aligned for it, readable, and writable where it is not const, while the call runs. Of an empty slice the pointer is never used and may be
   anything, NULL too. No two slices of one call may overlap if one of them is written; text is only read. No pointer is kept after the call. These
   rules are all that a caller owes; nothing on this side can check them.

   Threads
   -------
   There is no state but the words that a caller lends: no global data, no allocation, no system call. Calls in several threads are independent as
   long as no slice that one of them may write is used by another at the same time. */
#ifndef GRAFCET_H
#define GRAFCET_H

#include <stddef.h>
#include <stdint.h>

/* What a call returns. */
#define GRAFCET_MADE 0u
#define GRAFCET_REFUSED 1u

/* The words of a state, in this order: the situation, the last inputs and the latched outputs (bit j for item j), then the ages of steps 0 to
   29 in milliseconds. */
#define GRAFCET_STATE_WORDS 33
#define GRAFCET_SITUATION 0
#define GRAFCET_INPUTS 1
#define GRAFCET_LATCHED 2
#define GRAFCET_AGES 3

/* The words of a start's or an event's answer, in this order: the answer number; the count (firings, or the line of a refused text, or 0); the
   outputs (bit j for output j; 0 with every answer but 0). */
#define GRAFCET_ANSWER_WORDS 3
#define GRAFCET_NUMBER 0
#define GRAFCET_COUNT 1
#define GRAFCET_OUTPUTS 2

/* The words of a check (answer number, line), and of a lookup and a name (start, length). */
#define GRAFCET_PAIR_WORDS 2
#define GRAFCET_LINE 1
#define GRAFCET_START 0
#define GRAFCET_LENGTH 1

/* The words of an import: the answer number; the line (0 where no line is at fault); the length of the result in bytes (0 with every answer but 0).
   An import lends GRAFCET_IMPORT_ROOM bytes or more for its result. */
#define GRAFCET_IMPORT_WORDS 3
#define GRAFCET_IMPORT_LENGTH 2
#define GRAFCET_IMPORT_ROOM 16384

/* The kinds of names of an SFC text. */
#define GRAFCET_STEPS 0u
#define GRAFCET_INPUT_NAMES 1u
#define GRAFCET_OUTPUT_NAMES 2u

#ifdef __cplusplus
extern "C" {
#endif

/* Is the text a chart? out, two words: the answer number (0, 1 to 4, or 6 to 9: 5 is not used) and the line (0 with the
   answers 0 and 1). */
uint32_t grafcet_check(const uint8_t *text, size_t text_bytes, uint32_t *out, size_t out_words);

/* Where the condition of the k-th move stands in the text, counted from 1. out, two words: the first byte's place and the number of bytes. For a
   refused text, for 0 and for a number that is too high both are 0. */
uint32_t grafcet_lookup(const uint8_t *text, size_t text_bytes, uint32_t k, uint32_t *out, size_t out_words);

/* A chart's start with an input word. state, 33 words, is written and not read: the state in which the chart rests, or all zero after a
   refusal. out, three words. trace, of any length: with the answers 0, 12 and 13 the situations after each firing, up to the count or the trace's length,
   whichever is less; the rest of it, and all of it with the other answers, stays as it was. */
uint32_t grafcet_start(const uint8_t *text, size_t text_bytes, uint32_t inputs, uint32_t *state, size_t state_words, uint32_t *out,
                       size_t out_words, uint32_t *trace, size_t trace_words);

/* One event of a chart: elapsed milliseconds since the last one (0 to 60,000) and the new input word. state, 33 words, is read and then holds
   the state of the answer; after a refusal (every answer but 0) it is as it was. out and trace as with grafcet_start. */
uint32_t grafcet_event(const uint8_t *text, size_t text_bytes, uint32_t elapsed, uint32_t inputs, uint32_t *state, size_t state_words,
                       uint32_t *out, size_t out_words, uint32_t *trace, size_t trace_words);

/* SFC text as chart text. room, of any length, of which 16,384 bytes are wanted (answer 29 with less): with answer 0 the chart's text stands at
   its front and the rest is as it was; every other answer leaves all of it as it was. out, three words: the answer number (0, 16, 17, 18, 29), the
   line, and the length of the chart's text. The chart's text is accepted by grafcet_check. */
uint32_t grafcet_import(const uint8_t *text, size_t text_bytes, uint8_t *room, size_t room_bytes, uint32_t *out, size_t out_words);

/* The name of a step, an input or an output of a chart that was brought in, by its number: where it stands in the SFC text, in the spelling of its
   first appearance. out, two words: the first byte's place and the number of bytes. For a refused text, another kind and a number that is too high both
   are 0. */
uint32_t grafcet_name(const uint8_t *text, size_t text_bytes, uint32_t kind, uint32_t k, uint32_t *out, size_t out_words);

#ifdef __cplusplus
}
#endif

#endif
