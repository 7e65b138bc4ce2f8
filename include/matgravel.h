/* Matgravel: an engine for the Beacon Calculus.
 *
 * One engine is a model buffer, a state buffer, a buffer for saves, one for a search under way and a clock. A fresh engine has zeros in all.
 * No call keeps anything elsewhere: engines are independent of one another, and a copy of the buffers is a copy of the engine.
 *
 * Every call may be given any bytes, numbers and lengths: it answers, or refuses with a number, and never reads or writes beyond the
 * lengths given. Each pointer is to as many elements as its length says, is not null, and the buffers of a call do not overlap.
 */
#ifndef MATGRAVEL_H
#define MATGRAVEL_H

#include <stddef.h>
#include <stdint.h>

#ifdef __cplusplus
extern "C" {
#endif

/* The lengths of the lent buffers: bytes, signed and unsigned 64-bit numbers. Any other length is refused with 1. */
#define MATGRAVEL_MODEL 16386
#define MATGRAVEL_STATE 5122
#define MATGRAVEL_LISTING 7168
#define MATGRAVEL_REPORT 64
#define MATGRAVEL_SAVES 41008
#define MATGRAVEL_SEARCH 5135

/* The listing's entries: how many there may be, and the numbers of one (kind, place, branch, partner, partner branch, pair, weight). */
#define MATGRAVEL_ENTRIES 1024
#define MATGRAVEL_ENTRY 7

/* Bytes of stack that a thread should have for any call, with room to spare. Measured, not proved, on x86-64: of twenty-two long texts of
 * every kind a call with 8,181 values needed most, open 1,545,440, list 1,545,376, step 1,565,872, timed_step 1,606,912, report 1,602,720,
 * run 1,935,184 and search 2,372,752; the models of this repository take at most 245,080, 507,104, 527,600, 568,640, 564,448, 631,712 and
 * 1,335,328. */
#define MATGRAVEL_STACK 3145728

/* number: 0 for acceptance, or that of the refusal.
 * place: of 2 to 10 and 29 a byte of the text, of 12 a process; branch: of 12 a branch. Else 0.
 * count, total: entries and the sum of their weights; with 0 from list, step, timed_step and report, with 15 to 19 and with 23 to 25. Else 0.
 * chosen: the entry that an accepted step took. Else 0. */
typedef struct {
    uint64_t number, place, branch, count, total, chosen;
} matgravel_answer;

/* number: 0, or that of the refusal. length: how many entries the run has, 0 where there is none. run: their numbers in the listings, from 0;
 * unused ones are 0. */
typedef struct {
    uint64_t number, length, run[8];
} matgravel_found;

/* number: 0, or that of the refusal. count: the states walked since the search began; 0 with 1, 11 and 28. ended: 1 where the search ended in this
 * call, else 0. length, run: the run that it found, as of a search in one call; 0 before the end, where there is none, and with a refusal. */
typedef struct {
    uint64_t number, count, ended, length, run[8];
} matgravel_progress;

/* Model time in ten-thousandths of a unit (ticks), and the waiting draws used so far. Each is at most 9,223,372,036,854,775,807. */
typedef struct {
    uint64_t ticks, draws;
} matgravel_clock;

/* number: 0, or that of the refusal that ended the run. steps, words, waiting: the steps that were taken, and the words and waiting draws that these
 * used. count, total: entries and the sum of their weights in the last listing that was made, 0 and 0 where none was and with 1 and 11 to 14. */
typedef struct {
    uint64_t number, steps, words, waiting, count, total;
} matgravel_ran;

/* The numbers of an event of a run: the ticks of the clock after a step, and the MATGRAVEL_ENTRY numbers of the entry that it took. */
#define MATGRAVEL_EVENT 8

/* Reads a model text, sets the engine to its start, forgets every save, ends a search under way and sets the clock to zero.
 * Refusals: 1 a buffer has a wrong length: nothing is changed.
 *   2 more than 16,384 bytes, 3 a byte that no text has, 4 brackets too deep, 5 not a text of the grammar, 6 more than 4,096 tokens,
 *   7 beyond a limit, 8 a name is not new, 9 a name is not given, 10 more than 256 processes: model, state, saves, search and clock are zeroed. */
matgravel_answer matgravel_open(const uint8_t *text, size_t text_len, uint8_t *model, size_t model_len, int64_t *state, size_t state_len, int64_t *saves, size_t saves_len, int64_t *search, size_t search_len, matgravel_clock *clock);

/* The same under the steady profile: a text in which every continuation leaves at most one process. From an accepted one on and up to
 * the next opening, no call is refused with 18, no step raises the number of processes, and there are never more than at the start.
 * Refusals: those of open, and 29 a group has more than one item, or a call is of a definition with more than one sum; its place is the
 *   first such `(` or call name. 29 zeroes model, state, saves, search and clock too. */
matgravel_answer matgravel_open_steady(const uint8_t *text, size_t text_len, uint8_t *model, size_t model_len, int64_t *state, size_t state_len, int64_t *saves, size_t saves_len, int64_t *search, size_t search_len, matgravel_clock *clock);

/* Lists every transition that can happen next, with its weight. Changes neither model nor state.
 * Refusals: 1 a buffer has a wrong length, 11 the buffers hold no open model with a state of it: the listing is left as it was.
 *   12 a part has no value or a rate is out of range, 13 more than 1,024 entries, 14 the total is above 9,000,000,000,000,000,000:
 *   the listing is zeroed. */
matgravel_answer matgravel_list(const uint8_t *model, size_t model_len, const int64_t *state, size_t state_len, uint64_t *listing, size_t listing_len);

/* Lists, then takes the first entry whose running sum of weights exceeds the draw. The listing is that from which it was chosen.
 * Refusals: 1 and 11 to 14 as for list. 15 the total is zero, 16 the draw is not below it, 17 an argument of a call has no value,
 *   18 more than 256 processes, 19 more than 256 pairs: the listing is filled. No refusal alters the state. */
matgravel_answer matgravel_step(const uint8_t *model, size_t model_len, int64_t *state, size_t state_len, uint64_t *listing, size_t listing_len, uint64_t draw);

/* Steps with the draw, and brings the clock forward by the time that the waiting draws give (docs/USING.md, Time): the state and the clock
 * move, or neither does. Draws that are left over are neither used nor counted.
 * Refusals: 1 and 11 to 19 as for step; 11 also where a number of the clock is above its limit. Then 23 the waiting draws end first,
 *   24 they gave 32 runs of even length, 25 a number of the clock would pass its limit: the listing is filled, count and total are set.
 *   No refusal alters the state or the clock. */
matgravel_answer matgravel_timed_step(const uint8_t *model, size_t model_len, int64_t *state, size_t state_len, uint64_t *listing, size_t listing_len, const uint16_t *waiting, size_t waiting_len, uint64_t draw, matgravel_clock *clock);

/* Takes timed steps, at most `limit`, while there are words and room for their events (events_len / MATGRAVEL_EVENT), up to the first that is
 * refused. The text is read once. The choosing draw of a step comes from the words: one below the largest multiple of the total that fits into
 * 2^64 gives itself modulo the total, any other is turned away for the next. Limit, room and words end a run with the number 0. Events are
 * written in order; numbers after the last stay as they were, and words and waiting draws of a step that isn't taken count as unused.
 * Refusals: 1 the model or the state has a wrong length, 11 as for timed_step: nothing is changed. 12 to 15, 17 to 19 and 23 to 25 as for
 *   timed_step, by the step after those that were taken: state, clock and events are those after the last step that was taken. */
matgravel_ran matgravel_run(const uint8_t *model, size_t model_len, int64_t *state, size_t state_len, const uint64_t *words, size_t words_len, const uint16_t *waiting, size_t waiting_len, uint64_t *events, size_t events_len, uint64_t limit, matgravel_clock *clock);

/* Sums up the weights that list would list by the definition in whose text the acting process's sum stands, definitions numbered from
 * 0 in the text's order; a handshake counts for its sender. The numbers add up to the total. Changes neither model nor state.
 * Refusals: 1 and 11 to 14 as for list, with the report in the place of the listing. */
matgravel_answer matgravel_report(const uint8_t *model, size_t model_len, const int64_t *state, size_t state_len, uint64_t *report, size_t report_len);

/* Looks for a run of at most `depth` entries from the present state whose last is the wait of this name: each entry has a weight above
 * zero and is taken, as a step does it. The run that is found is the first: the shortest, and of the shortest the one whose entry
 * numbers come first, compared from the left. A length of 0 says that there is none. Changes nothing.
 * Refusals: 1 and 11 as for list, 26 a depth that is not 1 to 8, 27 there is no such run, but within the depth a listing was refused
 *   with 12 to 14 or an entry with 17 to 19. The time grows with the number of runs: the product of the entry counts along them. */
matgravel_found matgravel_search(const uint8_t *model, size_t model_len, const int64_t *state, size_t state_len, const uint8_t *name, size_t name_len, uint64_t depth);

/* Begins such a search at the present state, to be carried on by matgravel_carry_on, and walks nothing. It replaces one that is under way.
 * Changes the search alone.
 * Refusals: 1 a buffer has a wrong length, 11 the buffers hold no open model with a state and a search of it, 26 a depth that is not 1 to 8.
 *   Refused, it changes nothing: a search under way stays. */
matgravel_answer matgravel_begin(const uint8_t *model, size_t model_len, const int64_t *state, size_t state_len, int64_t *search, size_t search_len, const uint8_t *name, size_t name_len, uint64_t depth);

/* Walks exactly `number` states of the search under way, unless it ends before: the ends of the runs from the state at which it began, first the
 * empty run, then by length and by entry numbers. The search ends with the first run to the wait, else with the last up to its depth. Then the
 * answer is that of a search of the same name and depth in one call at that state, whatever calls but openings were made since; and the search is
 * no longer under way, its numbers are zeros. Changes the search alone.
 * Refusals: 1 and 11 as for begin, 28 no search is under way, or count and number together are above 9,000,000,000,000,000,000: nothing is
 *   changed. 27 as for search, at the end of the walk: count is set, ended is 1, and the search is no longer under way. */
matgravel_progress matgravel_carry_on(const uint8_t *model, size_t model_len, const int64_t *state, size_t state_len, int64_t *search, size_t search_len, uint64_t number);

/* Keeps the state and the clock under a name, which replaces what was kept under it before; there is room for eight names. Changes the saves alone.
 * Refusals: 1 a buffer has a wrong length, 11 the buffers hold no open model with a state and saves of it, or the clock is beyond its limit, 20 the name is not 1 to 16
 *   letters (A to Z, a to z), 22 the name is unknown and eight others are in use. Refused, it changes nothing. */
matgravel_answer matgravel_save(const uint8_t *model, size_t model_len, const int64_t *state, size_t state_len, int64_t *saves, size_t saves_len, const uint8_t *name, size_t name_len, matgravel_clock clock);

/* Makes the state and the clock that were saved under the name the present ones. Changes these two alone: every save remains.
 * Refusals: 1, 11 and 20 as for save, 21 nothing is saved under the name. Refused, it changes nothing. */
matgravel_answer matgravel_return(const uint8_t *model, size_t model_len, int64_t *state, size_t state_len, const int64_t *saves, size_t saves_len, const uint8_t *name, size_t name_len, matgravel_clock *clock);

/* Forgets what was saved under the name; its place can be used for another. Changes the saves alone.
 * Refusals: 1, 11, 20 and 21 as for return. Refused, it changes nothing. */
matgravel_answer matgravel_forget(const uint8_t *model, size_t model_len, const int64_t *state, size_t state_len, int64_t *saves, size_t saves_len, const uint8_t *name, size_t name_len);

/* Of two entries of one listing, MATGRAVEL_ENTRY numbers each as they stand there: 1 if both have a weight above zero, they share no
 * process, and neither is a launch or a kill; else 0, and so for any other lengths. Where it is 1 and both orders of taking the two are
 * accepted, the state afterwards is the same, number for number. The entry taken second is then looked for at its moved places: each
 * place moves by how many processes the first leaves in the places before it, less those that acted there. Nothing is refused. */
uint64_t matgravel_independent(const uint64_t *entry, size_t entry_len, const uint64_t *other, size_t other_len);

#ifdef __cplusplus
}
#endif

#endif
