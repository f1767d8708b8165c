/* Crates on trucks: a depth-first search over the library. Every crate goes on one truck, and no truck carries more than it may.
 * First one call tries each crate on each truck in turn, as far as that goes. Then all plans are printed, and why the last literal of the
 * last plan was derived.
 *
 *     (cd crates/dalelead_c && rt lib)
 *     gcc -I include -o plan examples/c/plan.c crates/dalelead_c/out/libdalelead_c.a
 */
#include <stdio.h>
#include <stdlib.h>

#include "dalelead.h"

enum { CRATES = 4, TRUCKS = 3, ATOMS = 1 + CRATES * TRUCKS, SENTENCES = TRUCKS + 2 * CRATES, ENTRIES = 3 * CRATES * TRUCKS };

static const int64_t weight[CRATES] = {7, 5, 4, 3};
static const int64_t carries[TRUCKS] = {8, 7, 6};

/* Atom 1 is the head of every sentence: the plan is right. The others say that a crate is on a truck. */
static int64_t on(int crate, int truck) { return 2 + crate * TRUCKS + truck; }
static int crate_of(int64_t literal) { return (int)((llabs(literal) - 2) / TRUCKS); }
static int truck_of(int64_t literal) { return (int)((llabs(literal) - 2) % TRUCKS); }

static uint64_t heads[SENTENCES], kinds[SENTENCES], sides[SENTENCES], counts[SENTENCES];
static int64_t bounds[SENTENCES], weights[ENTRIES], literals[ENTRIES];
static size_t sentences, entries;

static uint64_t area[4 * ATOMS + 8 * SENTENCES + 2 * ENTRIES];
static uint64_t next[4]; /* the counters, the number of literals put on, and of those that dalelead_search went through */
static int plans, conflicts;

static int64_t rows[3 * ATOMS], why[ATOMS + 1], origins[ATOMS];
static uint64_t length, reasons, given; /* numbers in the trail's list, the explanation and the origins, at the last plan */

/* The value of an answer with code 0. */
static uint64_t done(uint64_t answer) {
    if (DALELEAD_CODE(answer) != 0) {
        printf("refused %d %d\n", (int)DALELEAD_CODE(answer), (int)DALELEAD_VALUE(answer));
        exit(1);
    }
    return DALELEAD_VALUE(answer);
}

static void sentence(uint64_t kind, uint64_t side, int64_t bound) {
    heads[sentences] = 1;
    kinds[sentences] = kind;
    sides[sentences] = side;
    bounds[sentences] = bound;
    counts[sentences++] = 0;
}

static void entry(int64_t w, int64_t literal) {
    weights[entries] = w;
    literals[entries++] = literal;
    counts[sentences - 1]++;
}

static void load(void) {
    for (int t = 0; t < TRUCKS; t++) {
        sentence(DALELEAD_SUM, DALELEAD_UPPER, carries[t]);
        for (int c = 0; c < CRATES; c++) entry(weight[c], on(c, t));
    }
    for (int c = 0; c < CRATES; c++)
        for (int side = 0; side < 2; side++) {
            sentence(DALELEAD_COUNT, side, 1);
            for (int t = 0; t < TRUCKS; t++) entry(1, on(c, t));
        }
    if (dalelead_need(ATOMS, sentences, entries) > sizeof area / sizeof *area) exit(1);
    done(dalelead_load(area, sizeof area / sizeof *area, ATOMS, heads, sentences, kinds, sentences, sides, sentences, bounds, sentences, counts,
                       sentences, weights, entries, literals, entries, next, 3));
}

static void print_literal(int64_t literal) {
    if (llabs(literal) == 1)
        printf(literal < 0 ? "the plan is wrong" : "the plan is right");
    else
        printf("crate %d is %son truck %d", (int)weight[crate_of(literal)], literal < 0 ? "not " : "", truck_of(literal) + 1);
}

/* A full trail: each crate's truck, each truck's load, and, kept for the end, why the last literal stands there. */
static void print_plan(void) {
    printf("plan %d:", ++plans);
    for (uint64_t i = 0; i < length; i += 3)
        if (rows[i] > 1) printf(" %d on %d,", (int)weight[crate_of(rows[i])], truck_of(rows[i]) + 1);
    printf(" loads");
    for (int t = 0; t < TRUCKS; t++) {
        int64_t range[4]; /* mark and number of the least, and of the greatest */
        done(dalelead_bounds(area, sizeof area / sizeof *area, next[0], next[1], t + 1, range, 4));
        printf(" %d", (int)range[3]);
    }
    printf("\n");
    int64_t last = rows[length - 3];
    reasons = done(dalelead_explain(area, sizeof area / sizeof *area, next[0], next[1], last, why, ATOMS + 1));
    given = done(dalelead_origin(area, sizeof area / sizeof *area, next[0], next[1], last, origins, ATOMS));
}

/* The first atom that is not on the trail, 0 where all are. */
static int64_t first_open(void) {
    int set[ATOMS + 1] = {0};
    length = done(dalelead_trail(area, sizeof area / sizeof *area, next[0], next[1], rows, 3 * ATOMS));
    for (uint64_t i = 0; i < length; i += 3) set[llabs(rows[i])] = 1;
    for (int a = 1; a <= ATOMS; a++)
        if (!set[a]) return a;
    return 0;
}

/* Each crate on the first truck that is not ruled out, with no way back; then to the start again. */
static void try_in_turn(void) {
    int64_t list[CRATES * TRUCKS];
    for (int c = 0; c < CRATES; c++)
        for (int t = 0; t < TRUCKS; t++) list[c * TRUCKS + t] = on(c, t);
    uint64_t rule = done(dalelead_search(area, sizeof area / sizeof *area, next[0], next[1], list, CRATES * TRUCKS, next, 4));
    printf("in turn: %d of %d literals gone through, %d derived, conflict %d\n", (int)next[3], CRATES * TRUCKS, (int)next[2], (int)rule);
    done(dalelead_take_back(area, sizeof area / sizeof *area, next[0], next[1], 0, next, 4));
}

static void search(void) {
    uint64_t level = next[1];
    if (done(dalelead_propagate(area, sizeof area / sizeof *area, next[0], next[1], next, 3)) != 0) {
        conflicts++;
        return;
    }
    int64_t atom = first_open();
    if (atom == 0) {
        print_plan();
        return;
    }
    for (int side = 0; side < 2; side++) {
        done(dalelead_open(area, sizeof area / sizeof *area, next[0], next[1], next, 3));
        done(dalelead_give(area, sizeof area / sizeof *area, next[0], next[1], side == 0 ? atom : -atom, next, 3));
        search();
        done(dalelead_take_back(area, sizeof area / sizeof *area, next[0], next[1], level, next, 3));
    }
}

int main(void) {
    load();
    done(dalelead_give(area, sizeof area / sizeof *area, next[0], next[1], 1, next, 3));
    try_in_turn();
    search();
    printf("plans %d, conflicts %d\n", plans, conflicts);
    print_literal(why[0]);
    printf("\n");
    for (uint64_t i = 1; i < reasons; i++) {
        printf("  because ");
        print_literal(-why[i]);
        printf("\n");
    }
    for (uint64_t i = 0; i < given; i++) {
        printf("  and at last since ");
        print_literal(origins[i]);
        printf("\n");
    }
    return 0;
}
