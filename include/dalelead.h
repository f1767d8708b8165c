/* Dalelead: what follows from yes-or-no answers under ground aggregate sentences, for searches written in C, C++ or Rust.
 *
 * The library is libdalelead_c.a. It keeps nothing between calls: all state stands in words that the caller lends.
 *
 * Every call but dalelead_need gives back one number, value * 256 + code. The code is 0, or the first refusal that applies, in the order
 * in which the refusals stand at each call below. A refused call changes no lent word. A call that is not refused writes only what its
 * comment says; words past that keep their contents.
 *
 * The work area is an array of words, at least dalelead_need of them. The counters are two numbers, the trail's length and the level:
 * load gives 0 and 0, and every later call gets those that the last call not refused handed back. The area may be moved and copied as
 * plain words.
 *
 * An atom is a number from 1 to N; a literal is an atom, or its negation as a negative number. Sentences are numbered from 1 in the order
 * in which they were loaded.
 *
 * Where lent words are too few for what a call hands back, the code is 18 and the value the words that are needed; this comes after the
 * other refusals of that call. A pointer may be null only where its length is 0. The lent arrays of a call do not overlap.
 */
#ifndef DALELEAD_H
#define DALELEAD_H

#include <stddef.h>
#include <stdint.h>

#ifdef __cplusplus
extern "C" {
#endif

#define DALELEAD_CODE(answer) ((answer) & 255)
#define DALELEAD_VALUE(answer) ((answer) >> 8)

/* Kinds of a sentence, and its sides: bound <= value, and value <= bound. */
enum { DALELEAD_SUM = 0, DALELEAD_PRODUCT = 1, DALELEAD_COUNT = 2, DALELEAD_MAX = 3, DALELEAD_MIN = 4 };
enum { DALELEAD_LOWER = 0, DALELEAD_UPPER = 1 };

/* The words that an area needs for N atoms, so many sentences and so many written entries; 0 where a count is above its limit, or N is 0. */
uint64_t dalelead_need(uint64_t atoms, uint64_t sentences, uint64_t entries);

/* Load: heads, kinds, sides, bounds and counts have one number for each sentence; weights and literals have those of the first sentence
 * first, as many as its count says, then those of the next. The sentences are checked and stored in the area, and next[0] and next[1]
 * become 0 and 0, the counters.
 * Refuses: 1 (value 0) a count above its limit, N 0, columns that belong together of unequal length, or counts that do not add up to the
 * entries; 2 (0) area too short; then, sentence by sentence with the sentence as value, 3 kind, side or entries; 4 a head or literal of
 * no atom; 5 a weight or bound outside its range; 6 the head's atom in its own set; 7 both signs of an atom in a product, max or min;
 * 8 a product of weights above 10^18; then 18 (2) next too short. */
uint64_t dalelead_load(uint64_t *area, size_t area_len, uint64_t atoms,
                       const uint64_t *heads, size_t heads_len, const uint64_t *kinds, size_t kinds_len,
                       const uint64_t *sides, size_t sides_len, const int64_t *bounds, size_t bounds_len,
                       const uint64_t *counts, size_t counts_len, const int64_t *weights, size_t weights_len,
                       const int64_t *literals, size_t literals_len, uint64_t *next, size_t next_len);

/* Every call below refuses 9 (0) first: the area is not whole with these counters. */

/* Give: the literal goes on the trail at the current level. next[0], next[1]: the counters. Value 0.
 * Refuses: 9; 10 (0) literal 0 or of no atom; 11 (0) atom already on the trail; 18 (2). */
uint64_t dalelead_give(uint64_t *area, size_t area_len, uint64_t length, uint64_t level, int64_t literal,
                       uint64_t *next, size_t next_len);

/* Open: the level rises by one. next[0], next[1]: the counters. Value 0.
 * Refuses: 9; 14 (0) at level 1,024; 18 (2). */
uint64_t dalelead_open(uint64_t *area, size_t area_len, uint64_t length, uint64_t level, uint64_t *next, size_t next_len);

/* Take back to level k: all literals of higher levels go, and the level becomes k. next[0], next[1]: the counters. Value 0.
 * Refuses: 9; 15 (0) k above the current level; 18 (2). */
uint64_t dalelead_take_back(uint64_t *area, size_t area_len, uint64_t length, uint64_t level, uint64_t k,
                            uint64_t *next, size_t next_len);

/* Propagate: what the sentences force goes on the trail, until none has anything to say or one is in conflict. next[0], next[1]: the
 * counters; next[2]: the number of literals put on. Value 0 at still, and the sentence at a conflict.
 * Refuses: 9; 18 (3). */
uint64_t dalelead_propagate(uint64_t *area, size_t area_len, uint64_t length, uint64_t level, uint64_t *next, size_t next_len);

/* Search: propagate; then literal by literal of the list: one whose atom is on the trail is passed over; for an open one a level is opened,
 * the literal is given and propagate follows. It ends at a conflict, at the list's end, or before an open literal at level 1,024; what was
 * put on stays. next[0], next[1]: the counters; next[2]: the number of literals derived; next[3]: the literals of the list gone through
 * (tried, or passed over; the one that led to a conflict counts). Value 0, or the sentence in conflict.
 * Refuses: 9; 10 (0) any literal of the list 0 or of no atom; 18 (4). */
uint64_t dalelead_search(uint64_t *area, size_t area_len, uint64_t length, uint64_t level, const int64_t *literals, size_t literals_len,
                         uint64_t *next, size_t next_len);

/* Bounds of a sentence: the least and the greatest value of its set over the full assignments that agree with the trail.
 * out[0], out[1]: mark and number of the least; out[2], out[3]: of the greatest. Mark 0 a number, 1 below every number, 2 above every
 * number, each with number 0. Value 0.
 * Refuses: 9; 16 (0) no such sentence; 18 (4). */
uint64_t dalelead_bounds(const uint64_t *area, size_t area_len, uint64_t length, uint64_t level, uint64_t sentence,
                         int64_t *out, size_t out_len);

/* The lists: with code 0 the value is the list's length, and the list stands at the front of the lent words. */

/* Explanation of a derived literal: the literal, then the negations of the literals put on before it whose atom is the head's or an
 * entry's of its reason, the head's first and then in the order of the merged entries.
 * Refuses: 9; 10 (0); 12 (0) not on the trail; 13 (0) given; 18 (needed length). */
uint64_t dalelead_explain(const uint64_t *area, size_t area_len, uint64_t length, uint64_t level, int64_t literal,
                          int64_t *list, size_t list_len);

/* Explanation of a conflict: the same list without the literal, over the whole trail.
 * Refuses: 9; 16 (0); 17 (0) sentence not in conflict; 18 (needed length). */
uint64_t dalelead_explain_conflict(const uint64_t *area, size_t area_len, uint64_t length, uint64_t level, uint64_t sentence,
                                   int64_t *list, size_t list_len);

/* Origin of a literal: the given literals that it rests on, in trail order, each once.
 * Refuses: 9; 10 (0); 12 (0); 18 (needed length). */
uint64_t dalelead_origin(const uint64_t *area, size_t area_len, uint64_t length, uint64_t level, int64_t literal,
                         int64_t *list, size_t list_len);

/* The trail: literal, level and reason (0 given) of each row, in order.
 * Refuses: 9; 18 (needed length). */
uint64_t dalelead_trail(const uint64_t *area, size_t area_len, uint64_t length, uint64_t level, int64_t *list, size_t list_len);

#ifdef __cplusplus
}
#endif

#endif
