/* A plain checker of logs, beside which `las verify` is timed. Its words are the name of a DIMACS file with the
   clauses of a box and the name of a log. It keeps the clauses by their ids in one block of words, follows the hints
   of each line, and prints `accepted` or `rejected LINE`, by the rules of docs/FORMATS.md; only are ids below 2^31. */
#include <fcntl.h>
#include <stdint.h>
#include <stdio.h>
#include <stdlib.h>
#include <unistd.h>

#define LIMIT (UINT32_C(1) << 31)
#define NONE UINT32_MAX

enum kind { END, BAD, ADD, REMOVE };

typedef struct { uint32_t *items; size_t count, room; } List;

static uint32_t vars, last_id;
static List lits, ids;    /* of the line in work: its literals, and its hints or removed ids */
static List block;        /* each clause as its length and its literals */
static List places;       /* for each id the place of its clause in the block, or 0 where it is not live */
static List trail;        /* the literals that were made true for the line in work */
static signed char *truth; /* of a literal: 1 true, 0 neither, -1 false */

static void push(List *list, uint32_t item) {
    if (list->count == list->room) {
        list->room = list->room ? 2 * list->room : 1024;
        list->items = realloc(list->items, list->room * sizeof item);
        if (!list->items) perror("memory"), exit(2);
    }
    list->items[list->count++] = item;
}

static void keep(uint32_t id) {
    while (places.count < id) push(&places, 0);
    push(&places, block.count);
    push(&block, lits.count);
    for (size_t n = 0; n < lits.count; n++) push(&block, lits.items[n]);
    last_id = id;
}

static uint32_t place_of(uint32_t id) { return id < places.count ? places.items[id] : 0; }

/* A literal is twice its variable's number, counted from 0, and one more where it is negated. */
static uint32_t literal(uint32_t number, int negated) { return 2 * (number - 1) + negated; }

static void make_true(uint32_t lit) {
    truth[lit] = 1, truth[lit ^ 1] = -1;
    push(&trail, lit);
}

static unsigned char piece[1 << 16], *at = piece, *end = piece;
static int log_file, behind; /* the byte behind the last number */

static int next(void) {
    if (at == end) {
        ssize_t count = read(log_file, piece, sizeof piece);
        if (count < 0) perror("log"), exit(2);
        at = piece, end = piece + count;
        if (count == 0) return EOF;
    }
    return *at++;
}

/* The number that begins with this byte, below the limit and without a leading zero, or NONE. */
static uint32_t number(int byte) {
    uint64_t n = 0;
    if (byte == '0') return behind = next(), 0;
    if (byte < '0' || byte > '9') return NONE;
    for (; byte >= '0' && byte <= '9'; byte = next())
        if ((n = 10 * n + (byte - '0')) >= LIMIT) return NONE;
    return behind = byte, n;
}

/* Reads numbers with a blank between, from this byte up to a 0, and says whether they are of the form. */
static int read_up_to_zero(List *list, int signs, int byte) {
    for (list->count = 0;; byte = next()) {
        int negated = signs && byte == '-';
        uint32_t n = number(negated ? next() : byte);
        if (n == 0) return !negated;
        if (n == NONE || behind != ' ') return 0;
        push(list, signs ? literal(n, negated) : n);
    }
}

static enum kind read_line(uint32_t *id) {
    int byte = next();
    if (byte == EOF) return END;
    *id = number(byte), lits.count = 0;
    if (*id == NONE || behind != ' ') return BAD;
    byte = next();
    if (byte == 'd') return next() == ' ' && read_up_to_zero(&ids, 0, next()) && behind == '\n' ? REMOVE : BAD;
    if (*id == 0 || !read_up_to_zero(&lits, 1, byte) || behind != ' ') return BAD;
    return read_up_to_zero(&ids, 0, next()) && behind == '\n' ? ADD : BAD;
}

/* Makes the literals of the line false, and says whether they are of variables that there are, each but once. */
static int assume(void) {
    for (size_t n = 0; n < lits.count; n++) {
        uint32_t lit = lits.items[n];
        if (lit >= 2 * vars || truth[lit]) return 0;
        make_true(lit ^ 1);
    }
    return 1;
}

/* How many literals of the clause are not false, up to two; `open` is the first of them. */
static int look(uint32_t place, uint32_t *open) {
    uint32_t length = block.items[place], *clause = block.items + place + 1;
    *open = NONE;
    for (uint32_t n = 0; n < length; n++) {
        if (truth[clause[n]] < 0 || clause[n] == *open) continue;
        if (*open != NONE) return 2;
        *open = clause[n];
    }
    return *open != NONE;
}

static int follow(void) {
    for (size_t n = 0; n < ids.count; n++) {
        uint32_t place = place_of(ids.items[n]), open;
        int count = place ? look(place, &open) : 2;
        if (count == 2) return 0;
        if (count == 0) return n + 1 == ids.count;
        make_true(open);
    }
    return 0;
}

static int add(uint32_t id) {
    int passes = id > last_id && assume() && follow();
    while (trail.count) {
        uint32_t lit = trail.items[--trail.count];
        truth[lit] = truth[lit ^ 1] = 0;
    }
    if (passes) keep(id);
    return passes;
}

static int remove_clauses(void) {
    for (size_t n = 0; n < ids.count; n++) {
        if (!place_of(ids.items[n])) return 0;
        places.items[ids.items[n]] = 0;
    }
    return 1;
}

static void read_dimacs(const char *name) {
    FILE *file = fopen(name, "r");
    int number;
    uint32_t count;
    if (!file || fscanf(file, "p cnf %u %u", &vars, &count) != 2) perror(name), exit(2);
    truth = calloc(2 * vars + 1, 1);
    push(&block, 0); /* no clause is at place 0 */
    for (uint32_t id = 1; id <= count; id++) {
        for (lits.count = 0; fscanf(file, "%d", &number) == 1 && number;) push(&lits, literal(abs(number), number < 0));
        keep(id);
    }
    fclose(file);
}

int main(int count, char **words) {
    if (count != 3) return fprintf(stderr, "use: check DIMACS LOG\n"), 2;
    read_dimacs(words[1]);
    log_file = open(words[2], O_RDONLY);
    if (log_file < 0) return perror(words[2]), 2;
    int ended = 0;
    uint32_t id;
    for (unsigned long line = 1;; line++) {
        enum kind kind = read_line(&id);
        if (kind == END && ended) return puts("accepted"), 0;
        if (ended || !(kind == ADD ? add(id) : kind == REMOVE && remove_clauses())) return printf("rejected %lu\n", line), 1;
        ended = kind == ADD && lits.count == 0;
    }
}
