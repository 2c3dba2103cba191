// The truths of formulas at each position of a loop, one list for each subformula: what `tsl run` computes for the texts of
// judge.py, by the plainest program. The arguments are the family, the formulas, the depth of each, and the positions.
#include <stdio.h>
#include <stdlib.h>
#include <string.h>

enum { PREDICATES = 2048 };

static long positions;
static char table[PREDICATES][2];

static int value(long i) { return i * 7919 % 101 < 40; }

// from the last position to the first, twice: the second holds, or the first does and it holds at the position after
static void until(const char *left, const char *right, char *made) {
    char next = 0;
    for (int turn = 0; turn < 2; turn++)
        for (long i = positions; i-- > 0;) next = made[i] = right[i] || (left[i] && next);
}

static void release(const char *left, const char *right, char *made) {
    char next = 1;
    for (int turn = 0; turn < 2; turn++)
        for (long i = positions; i-- > 0;) next = made[i] = right[i] && (left[i] || next);
}

// next, finally, not, globally
static void before(long depth, char *truths) {
    char first = truths[0], next = depth % 4 == 3;
    switch (depth % 4) {
    case 0:
        memmove(truths, truths + 1, positions - 1);
        truths[positions - 1] = first;
        break;
    case 1:
        for (int turn = 0; turn < 2; turn++)
            for (long i = positions; i-- > 0;) next = truths[i] = truths[i] || next;
        break;
    case 2:
        for (long i = 0; i < positions; i++) truths[i] = !truths[i];
        break;
    default:
        for (int turn = 0; turn < 2; turn++)
            for (long i = positions; i-- > 0;) next = truths[i] = truths[i] && next;
    }
}

// until, implication, or, and, release
static void between(long depth, const char *left, const char *right, char *made) {
    switch (depth % 5) {
    case 0: until(left, right, made); break;
    case 1: for (long i = 0; i < positions; i++) made[i] = !left[i] || right[i]; break;
    case 2: for (long i = 0; i < positions; i++) made[i] = left[i] || right[i]; break;
    case 3: for (long i = 0; i < positions; i++) made[i] = left[i] && right[i]; break;
    default: release(left, right, made);
    }
}

int main(int count, char **words) {
    if (count != 5) return 2;
    const char *family = words[1];
    long formulas = atol(words[2]), levels = atol(words[3]);
    positions = atol(words[4]);
    int operators = !strcmp(family, "operators"), atoms = !strcmp(family, "atoms");
    for (int p = 0; p < PREDICATES; p++) table[p][0] = p % 2, table[p][1] = !(p % 2);
    char *values = malloc(positions), *right = malloc(positions), *left = malloc(positions), *made = malloc(positions);
    for (long i = 0; i < positions; i++) values[i] = value(i);
    int all = 1;
    for (long f = 0; f < formulas; f++) {
        for (long i = 0; i < positions; i++) right[i] = table[0][(int)values[i]];
        for (long depth = levels; depth-- > 0;) {
            long predicate = atoms ? (f * levels + depth) % PREDICATES : depth % 2;
            for (long i = 0; i < positions; i++) left[i] = table[predicate][(int)values[i]];
            if (operators) before(depth, right);
            between(operators ? depth : 0, left, right, made);
            char *spare = right;
            right = made;
            made = spare;
        }
        all = all && right[0];
    }
    puts(all ? "formula holds" : "formula fails");
    return !all;
}
