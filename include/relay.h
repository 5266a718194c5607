/* The logic store of a generator protection relay: calls for C and C++.
 *
 * What is stored. Numbers are little-endian; docs/RULES.md has all of it.
 *   table   up to RELAY_MOST_RECORDS records of RELAY_RECORD_SIZE bytes: byte 0 the variable, bytes 2 and 3 the low
 *           reference, 4 and 5 the high one, the rest 0. A free record is RELAY_FREE and seven zeros.
 *   roots   up to RELAY_MOST_ROOTS references of RELAY_ROOT_SIZE bytes, one for each output.
 *   order   n bytes, n from 1 to RELAY_MOST_VARIABLES: byte k is the variable at level k; level 0 is the top.
 *   target  n bytes, the order that a run goes towards.
 *   log     the undo log, from 1 to RELAY_MOST_LOG_RECORDS records of RELAY_LOG_RECORD_SIZE bytes. The last one is the seal; its byte 0 is
 *           RELAY_SEALED while a swap is being made, and 0 otherwise. A log whose bytes are all 0 is empty.
 *   site,   lists of labels, the site's own and the factory's: up to RELAY_MOST_LABELS records of RELAY_LABEL_SIZE bytes, of which
 *   factory byte 0 is the variable and the other RELAY_TEXT_SIZE its text, with zeros behind it.
 * A reference is RELAY_FALSE, RELAY_TRUE, or RELAY_FIRST_RECORD + i for record i. A record takes its low reference where its
 * variable's input is 0, its high one where it is 1.
 *
 * How a call is made. A buffer is lent as a pointer and a length; a pointer is never null, not even where the length is 0.
 * Every call takes any bytes: it answers, and never fails. None keeps a pointer, and none has state of its own.
 * A buffer that a call may change shares no byte with another one lent to it, and nobody else reads it meanwhile.
 * An answer is a list of numbers, written to the front of the lent list `answer`; the call returns how many.
 * Entries beyond them stay as they are. A list too short for the call's longest answer is answered 0, with
 * nothing written to it and nothing changed in any buffer. relay_count has two places besides, for the count and for
 * the share: a length of 0 for either is answered in the same way.
 */
#ifndef RELAY_H
#define RELAY_H

#include <stddef.h>
#include <stdint.h>

#define RELAY_VERSION 7u

/* Sizes and limits. */
#define RELAY_RECORD_SIZE 8u
#define RELAY_ROOT_SIZE 2u
#define RELAY_MOST_RECORDS 8192u
#define RELAY_MOST_ROOTS 64u
#define RELAY_MOST_VARIABLES 64u
#define RELAY_MOST_COUNTED 52u /* variables, by Count */
#define RELAY_LABEL_SIZE 16u
#define RELAY_TEXT_SIZE 15u
#define RELAY_MOST_LABELS 64u
#define RELAY_LOG_RECORD_SIZE 16u
#define RELAY_MOST_LOG_RECORDS 4096u

/* Byte 0 of the log's seal while a swap is being made. */
#define RELAY_SEALED 165u

/* The variable of a free record; the references of the constants and of record 0. */
#define RELAY_FREE 255u
#define RELAY_FALSE 0u
#define RELAY_TRUE 1u
#define RELAY_FIRST_RECORD 2u

/* The plans: which pair of neighbouring levels a run swaps next. It is always an inverted pair, one that stands the other way
 * round in the target, so that by every plan a job takes as many swaps as there are inversions. */
#define RELAY_BRING_UP 0u          /* the target's variable of the topmost level that differs goes up by one level */
#define RELAY_SINK_DOWN 1u         /* the target's variable of the lowest level that differs goes down by one level */
#define RELAY_LOWEST_INVERSION 2u  /* the inverted pair nearest the bottom */
#define RELAY_HIGHEST_INVERSION 3u /* the inverted pair nearest the top */

/* The first number of an answer: what came of the call, or the number of a refusal. */
#define RELAY_ACCEPTED 0u /* Check */
#define RELAY_VALUE 0u    /* Read */
#define RELAY_COUNTED 0u  /* Count */
#define RELAY_MADE 0u     /* Swap */
#define RELAY_DONE 0u     /* Run */
#define RELAY_PUT_BACK 0u /* Recover */
#define RELAY_NO_ROOM 100u
#define RELAY_PAUSED 101u
#define RELAY_LOG_SHORT 102u

#define RELAY_REFUSED_SIZES 1u     /* wrong sizes; place 0 */
#define RELAY_REFUSED_ORDER 2u     /* the order isn't a permutation; its first wrong position */
#define RELAY_REFUSED_TARGET 3u    /* the target isn't one; its first wrong position */
#define RELAY_REFUSED_MALFORMED 4u /* a malformed record; the lowest */
#define RELAY_REFUSED_LEVELS 5u    /* a child that is not below its parent; the lowest parent */
#define RELAY_REFUSED_EQUAL 6u     /* low equals high; the lowest record */
#define RELAY_REFUSED_REPEAT 7u    /* a record that repeats an earlier one; the lowest */
#define RELAY_REFUSED_ROOT 8u      /* a root past the table or to a free record; the first */
#define RELAY_REFUSED_UNNAMED 9u   /* a used record that nothing names; the lowest */
#define RELAY_REFUSED_POSITION 10u /* no such root; the position asked for */
#define RELAY_REFUSED_INPUTS 11u   /* not n inputs, or one not 0 or 1; place 0 */
#define RELAY_REFUSED_LEVEL 12u    /* no such level; the level asked for */
#define RELAY_REFUSED_PLAN 13u     /* no such plan; the number given */
#define RELAY_REFUSED_LOG 14u      /* a log that no cut leaves: its length, place 0; its seal, the seal's record; the lowest wrong entry */
#define RELAY_REFUSED_SEALED 15u   /* a swap was cut, and nothing recovered it; place 0 */
#define RELAY_REFUSED_MANY 16u     /* more variables than Count counts by; n */

/* The first number of a label's answer: which list it is a part of. */
#define RELAY_NO_LABEL 0u
#define RELAY_SITE_LABEL 1u
#define RELAY_FACTORY_LABEL 2u

/* How many numbers the longest answer of each call has. */
#define RELAY_CHECK_NUMBERS 2u
#define RELAY_READ_NUMBERS 2u
#define RELAY_SHOW_NUMBERS 2u
#define RELAY_COUNT_NUMBERS 2u
#define RELAY_LABEL_NUMBERS 3u
#define RELAY_SWAP_NUMBERS 4u
#define RELAY_RUN_NUMBERS 6u
#define RELAY_RECOVER_NUMBERS 2u
#define RELAY_MOST_NUMBERS 6u

#ifdef __cplusplus
extern "C" {
#endif

/* Check a table, its roots and order. Changes no buffer but `answer`.
 *   accepted: RELAY_ACCEPTED, the number of used records
 *   refused:  the refusal's number (1, 2, 4 to 9), its place
 */
size_t relay_check(const uint8_t *table, size_t table_length,
                   const uint8_t *roots, size_t roots_length,
                   const uint8_t *order, size_t order_length,
                   uint32_t *answer, size_t answer_length);

/* Read the root at a position under inputs, byte v for variable v. Changes no buffer but `answer`.
 *   value:   RELAY_VALUE, the value (0 or 1)
 *   refused: the refusal's number (1, 2, 4 to 11), its place
 */
size_t relay_read(const uint8_t *table, size_t table_length,
                  const uint8_t *roots, size_t roots_length,
                  const uint8_t *order, size_t order_length,
                  uint32_t position,
                  const uint8_t *inputs, size_t inputs_length,
                  uint32_t *answer, size_t answer_length);

/* Show the root at a position: which part of `table` is its record. Changes no buffer but `answer`.
 *   a record: the offset of its first byte in `table`, RELAY_RECORD_SIZE
 *   empty:    0, 0 (a refused table, no such root, or a constant root; relay_check tells the reason)
 */
size_t relay_show(const uint8_t *table, size_t table_length,
                  const uint8_t *roots, size_t roots_length,
                  const uint8_t *order, size_t order_length,
                  uint32_t position,
                  uint32_t *answer, size_t answer_length);

/* Count under how many of the 2^n combinations of inputs the root at a position is 1. Changes no buffer but `count`,
 * `share` and `answer`. `count` and `share` hold 1 or more, `answer` RELAY_COUNT_NUMBERS or more, whatever the answer
 * will be; only their first entries are written.
 *   counted: RELAY_COUNTED; the number of combinations in `count`, and in `share` that number over 2^n, exactly
 *            (0.0 for none, 1.0 for all)
 *   refused: the refusal's number (1, 2, 4 to 10, 16), its place; `count` and `share` stay as they are
 */
size_t relay_count(const uint8_t *table, size_t table_length,
                   const uint8_t *roots, size_t roots_length,
                   const uint8_t *order, size_t order_length,
                   uint32_t position,
                   uint64_t *count, size_t count_length,
                   double *share, size_t share_length,
                   uint32_t *answer, size_t answer_length);

/* The label of a variable, any number: which part of `site` or of `factory` is its text. It is that of the first record for the
 * variable in `site`, or else of the first in `factory`. Changes no buffer but `answer`.
 *   site:    RELAY_SITE_LABEL, the offset of the text's first byte in `site`, RELAY_TEXT_SIZE
 *   factory: RELAY_FACTORY_LABEL, the offset of the text's first byte in `factory`, RELAY_TEXT_SIZE
 *   none:    RELAY_NO_LABEL, 0, 0 (neither list names the variable; or a list, whichever, has a length that is no multiple
 *            of RELAY_LABEL_SIZE, or more than RELAY_MOST_LABELS records)
 */
size_t relay_label(const uint8_t *site, size_t site_length,
                   const uint8_t *factory, size_t factory_length,
                   uint32_t variable,
                   uint32_t *answer, size_t answer_length);

/* Swap a level and the one below it. A made swap changes `table`, `order` and `log`; any other answer leaves all three as they
 * are. Supply may be lost at any moment of it: relay_recover then brings `table` and `order` back. `answer` holds
 * RELAY_SWAP_NUMBERS or more, whatever the answer will be.
 *   made:      RELAY_MADE
 *   no room:   RELAY_NO_ROOM, the level, needed, free; more records are needed than are free or die in this swap
 *   log short: RELAY_LOG_SHORT, the level, entries needed, entries held; there is room, but the log is too short
 *   refused:   the refusal's number (1, 14, 15, 2, 4 to 9, 12, in this order), its place
 */
size_t relay_swap(uint8_t *table, size_t table_length,
                  const uint8_t *roots, size_t roots_length,
                  uint8_t *order, size_t order_length,
                  uint8_t *log, size_t log_length,
                  uint32_t level,
                  uint32_t *answer, size_t answer_length);

/* Run one slice towards the target by a plan, with a budget of swaps. The swaps made change `table`, `order` and `log`; a
 * refusal leaves all three as they are. Supply may be lost at any moment of it, as in relay_swap. `answer` holds
 * RELAY_RUN_NUMBERS or more, whatever the answer will be.
 *   done:      RELAY_DONE, swaps made in this slice, left (0)
 *   no room:   RELAY_NO_ROOM, swaps, left, the upper level of the next pair, needed, free
 *   log short: RELAY_LOG_SHORT, swaps, left, the upper level of the next pair, entries needed, entries held
 *   paused:    RELAY_PAUSED, swaps, left
 *   refused:   the refusal's number (1, 14, 15, 2 to 9, 13, in this order), its place
 */
size_t relay_run(uint8_t *table, size_t table_length,
                 const uint8_t *roots, size_t roots_length,
                 uint8_t *order, size_t order_length,
                 const uint8_t *target, size_t target_length,
                 uint8_t *log, size_t log_length,
                 uint32_t plan,
                 uint32_t budget,
                 uint32_t *answer, size_t answer_length);

/* Recover from supply lost in a swap or a run: puts `table` and `order` back as they were before the swap that was cut, or leaves
 * them where none was. To be called at start-up, before anything else; it may be cut itself and begun again. It changes `table`,
 * `order` and `log` only where the log is sealed, and nothing where it refuses. `answer` holds RELAY_RECOVER_NUMBERS or more,
 * whatever the answer will be.
 *   put back: RELAY_PUT_BACK, the number of entries put back (0 where nothing had to be)
 *   refused:  the refusal's number (1, of the table and the order; 14), its place
 */
size_t relay_recover(uint8_t *table, size_t table_length,
                     uint8_t *order, size_t order_length,
                     uint8_t *log, size_t log_length,
                     uint32_t *answer, size_t answer_length);

#ifdef __cplusplus
}
#endif

#endif
