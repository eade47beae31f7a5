/* The walk of `watch_lists::propagate` written in C: two watched literals, and the lists of watches threaded
   through the clauses' own links, which stand beside copies of the watches in a table of heads. It takes the same clauses and the same decisions as
   walk/src/main.rt.txt, in the same order, and prints the same lines. */
#include <stdint.h>
#include <stdio.h>
#include <stdlib.h>
#include <string.h>
#include <time.h>

#define NOWHERE UINT32_MAX

typedef struct { uint32_t lit, level, reason; } Entry;
typedef struct { uint32_t watch[2], link[2]; } Head;
typedef struct { uint64_t start, size, id; } Span;

static uint32_t *words, count, walked, *places, *lists, clauses_in, drawn = 1;
static uint64_t end;
static Head *heads;
static Span *spans;
static signed char *values; /* 1 true, -1 false, 0 neither */
static Entry *entries;

static void start(uint32_t vars, uint32_t clauses, uint64_t room) {
    words = malloc(room * sizeof *words), end = 0, clauses_in = count = walked = 0;
    heads = malloc(clauses * sizeof *heads), spans = malloc(clauses * sizeof *spans);
    places = calloc(vars, sizeof *places), values = calloc(2 * vars, 1);
    lists = malloc(2 * vars * sizeof *lists), memset(lists, 255, 2 * vars * sizeof *lists);
    entries = malloc(vars * sizeof *entries);
}

static int slot_of(uint32_t r, uint32_t lit) { return heads[r].watch[0] != lit; }

static void add(uint64_t id, const uint32_t *lits, uint32_t n) {
    uint32_t r = clauses_in++;
    spans[r] = (Span){end, n, id}, memcpy(words + end, lits, n * sizeof *lits), end += n;
    for (int slot = 0; slot < 2; slot++)
        heads[r].watch[slot] = lits[slot], heads[r].link[slot] = lists[lits[slot]], lists[lits[slot]] = r;
}

static uint32_t depth(void) { return count ? entries[count - 1].level : 0; }

static void push(uint32_t lit, uint32_t reason) {
    uint32_t level = depth() + (reason == NOWHERE);
    places[lit / 2] = count, values[lit] = 1, values[lit ^ 1] = -1;
    entries[count++] = (Entry){lit, level, reason};
}

static void back_to(uint32_t level) {
    while (depth() > level) {
        uint32_t lit = entries[--count].lit;
        values[lit] = values[lit ^ 1] = 0;
        if (walked > count) walked = count;
    }
}

static uint32_t walk(uint32_t f) {
    uint32_t before = NOWHERE, hand = lists[f];
    while (hand != NOWHERE) {
        uint32_t r = hand, k = 2;
        int slot = slot_of(r, f);
        uint32_t other = heads[r].watch[1 - slot];
        hand = heads[r].link[slot];
        if (values[other] > 0) { before = r; continue; }
        uint32_t n = spans[r].size, *lits = words + spans[r].start;
        while (k < n && values[lits[k]] < 0) k++;
        if (k < n) {
            uint32_t w = lits[k];
            if (before == NOWHERE) lists[f] = hand; else heads[before].link[slot_of(before, f)] = hand;
            lits[k] = f, lits[slot] = heads[r].watch[slot] = w, heads[r].link[slot] = lists[w], lists[w] = r;
            continue;
        }
        if (values[other] < 0) return r;
        push(other, r), before = r;
    }
    return NOWHERE;
}

static uint32_t propagate(void) {
    for (; walked < count; walked++) {
        uint32_t conflict = walk(entries[walked].lit ^ 1);
        if (conflict != NOWHERE) return conflict;
    }
    return NOWHERE;
}

static uint32_t draw(uint32_t below) { return (drawn = drawn * UINT64_C(48271) % 2147483647) % below; }

static double now(void) {
    struct timespec t;
    clock_gettime(CLOCK_MONOTONIC, &t);
    return t.tv_sec * 1e3 + t.tv_nsec / 1e6;
}

static void chain(uint32_t clauses, int rounds) {
    uint64_t seen = 0;
    start(clauses + 1, clauses, clauses * UINT64_C(2));
    for (uint64_t j = 0; j < clauses; j++) {
        uint32_t at = 309017 * j % clauses;
        add(j + 1, (uint32_t[]){2 * at + 1, 2 * at + 2}, 2);
    }
    double since = now();
    for (int i = 0; i < rounds; i++, back_to(0)) push(0, NOWHERE), propagate(), seen += count;
    printf("chain %llu assigned; %.1f ms\n", (unsigned long long)seen, now() - since);
}

static void ternary(uint32_t clauses, uint32_t vars, int turns) {
    uint64_t seen = 0, conflicts = 0, places_met = 0;
    start(vars, clauses, clauses * UINT64_C(3));
    for (uint32_t held = 0; held < clauses;) {
        uint32_t lits[3];
        for (int i = 0; i < 3; i++) lits[i] = draw(2 * vars);
        uint32_t a = lits[0] / 2, b = lits[1] / 2, c = lits[2] / 2;
        if (a != b && a != c && b != c) add(++held, lits, 3);
    }
    double since = now();
    for (int i = 0; i < turns; i++) {
        uint32_t r = propagate();
        if (r != NOWHERE) {
            conflicts++, places_met += r, seen += count, back_to(0);
        } else {
            uint32_t lit = draw(2 * vars);
            if (!values[lit]) push(lit, NOWHERE);
        }
    }
    printf("ternary %llu conflicts, %llu assigned, places %llu; %.1f ms\n", (unsigned long long)conflicts, (unsigned long long)seen, (unsigned long long)places_met, now() - since);
}

int main(void) {
    chain(500000, 5);
    ternary(100000, 25000, 400000);
}
