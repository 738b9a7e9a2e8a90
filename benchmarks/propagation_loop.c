/* The loop `propagation` of the crate gr_timing in plain C: propagation by watched literals over a formula in DIMACS
   CNF, from decisions that are drawn. Each step is the one that the crate gr_prop takes, in the same order, so that the
   checksums are equal. Words: propagation FILE N. */
#include <stdint.h>
#include <stdio.h>
#include <stdlib.h>
#include <string.h>

static void *room(size_t count, size_t size) {
    void *memory = calloc(count ? count : 1, size);
    if (!memory) exit(6);
    return memory;
}

/* Room for twice as much where a vector is full. */
static void *grown(void *memory, size_t *cap, size_t size) {
    *cap = *cap ? 2 * *cap : 4;
    memory = realloc(memory, *cap * size);
    if (!memory) exit(6);
    return memory;
}

/* Random numbers, as in container_loops.c. */
static uint64_t next_state(uint64_t state) { return state * 6364136223846793005u + 1442695040888963407u; }

static uint32_t below(uint64_t state, uint32_t bound) { return (uint32_t)((state >> 33) % bound); }

/* A literal's code: twice its variable's index, and one more for the negation. */
static uint32_t literal(uint64_t state, uint32_t vars) { return 2 * below(state, vars) + ((state >> 62) % 2 != 0); }

enum { OPEN, TRUE, FALSE };

/* The words of a clause before its literals: the id in two, the LBD, the number of literals. */
enum { HEAD = 4, COUNT = 3 };

#define NONE SIZE_MAX

struct entry { uint32_t level, position; uint64_t has_reason, reason; };

struct watch { uint64_t place; uint32_t blocker; };

struct list { struct watch *items; size_t len, cap; };

struct base {
    uint32_t vars;
    uint32_t *words;
    size_t words_len, words_cap;
    struct list *lists, *pairs;
    uint8_t *values;
    struct entry *entries;
    uint32_t *lits, *starts;
    size_t len, head;
    uint32_t depth;
    size_t broken;
};

static inline void make_true(struct base *b, uint32_t lit, int has_reason, uint64_t reason) {
    b->values[lit] = TRUE;
    b->values[lit ^ 1] = FALSE;
    b->entries[lit / 2] = (struct entry){b->depth, (uint32_t)b->len, (uint64_t)has_reason, reason};
    b->lits[b->len++] = lit;
}

static void attach(struct list *lists, uint32_t lit, uint64_t place, uint32_t blocker) {
    struct list *list = &lists[lit];
    if (list->len == list->cap) list->items = grown(list->items, &list->cap, sizeof *list->items);
    list->items[list->len++] = (struct watch){place, blocker};
}

/* Takes the literals of the trail from an index on through the lists of their clauses of two literals: the place of one
   whose literals are both false, or NONE. */
static inline size_t pass(struct base *b, size_t index) {
    const uint8_t *values = b->values;
    for (; index < b->len; index++) {
        struct list *list = &b->pairs[b->lits[index] ^ 1];
        for (size_t i = 0, n = list->len; i < n; i++) {
            struct watch watch = list->items[i];
            uint8_t value = values[watch.blocker];
            if (value == FALSE) return watch.place;
            if (value == OPEN) make_true(b, watch.blocker, 1, watch.place);
        }
    }
    return NONE;
}

#ifdef COUNT_VISITS
static uint64_t visits;
#endif

/* Makes true what the clauses force: the place of a clause whose literals are all false, or NONE. The clauses of two
   literals come first. */
static size_t propagate(struct base *b) {
    if (b->broken != NONE) return b->broken;
    const uint8_t *values = b->values;
    uint32_t *words = b->words;
    size_t ahead = b->head;
    while (b->head < b->len) {
        size_t found = pass(b, ahead);
        if (found != NONE) return found;
        ahead = b->len;
        uint32_t gone = b->lits[b->head] ^ 1;
        struct list *list = &b->lists[gone];
        struct watch *items = list->items;
        size_t i = 0, n = list->len;
        while (i < n) {
            if (values[items[i].blocker] == TRUE) {
                i++;
                continue;
            }
#ifdef COUNT_VISITS
            visits++;
#endif
            uint64_t place = items[i].place;
            uint32_t *lits = words + place + HEAD;
            if (lits[0] == gone) {
                lits[0] = lits[1];
                lits[1] = gone;
            }
            uint32_t other = lits[0];
            uint8_t value = values[other];
            if (value == TRUE) {
                items[i++].blocker = other;
                continue;
            }
            uint32_t count = lits[COUNT - HEAD], k = 2;
            while (k < count && values[lits[k]] == FALSE) k++;
            if (k < count) {
                uint32_t next = lits[k];
                lits[1] = next;
                lits[k] = gone;
                attach(b->lists, next, place, other);
                items[i] = items[--n];
                continue;
            }
            if (value == FALSE) {
                list->len = n;
                return place;
            }
            make_true(b, other, 1, place);
            items[i++].blocker = other;
        }
        list->len = n;
        b->head++;
    }
    return NONE;
}

static void decide(struct base *b, uint32_t lit) {
    b->starts[b->depth++] = (uint32_t)b->len;
    make_true(b, lit, 0, 0);
}

static void backtrack(struct base *b) {
    if (!b->depth) return;
    size_t kept = b->starts[0];
    for (size_t i = kept; i < b->len; i++) {
        b->values[b->lits[i]] = OPEN;
        b->values[b->lits[i] ^ 1] = OPEN;
    }
    b->len = b->head = kept;
    b->depth = 0;
}

/* Exchanges the literal at an index with the first one from there on that is not false. */
static void bring_free(struct base *b, uint32_t *lits, size_t count, size_t at) {
    for (size_t k = at; k < count; k++) {
        if (b->values[lits[k]] != FALSE) {
            uint32_t lit = lits[at];
            lits[at] = lits[k];
            lits[k] = lit;
            return;
        }
    }
}

/* Adds a clause at level zero. */
static void add(struct base *b, uint64_t id, const uint32_t *lits, size_t count) {
    size_t place = b->words_len;
    while (place + HEAD + count > b->words_cap) b->words = grown(b->words, &b->words_cap, sizeof *b->words);
    uint32_t *words = b->words + place;
    words[0] = (uint32_t)id;
    words[1] = (uint32_t)(id >> 32);
    words[2] = 1;
    words[COUNT] = (uint32_t)count;
    uint32_t *own = words + HEAD;
    if (count) memcpy(own, lits, count * sizeof *own);
    b->words_len += HEAD + count;
    if (count >= 2) {
        bring_free(b, own, count, 0);
        bring_free(b, own, count, 1);
        struct list *lists = count == 2 ? b->pairs : b->lists;
        attach(lists, own[0], place, own[1]);
        attach(lists, own[1], place, own[0]);
    }
    if (count && b->values[own[0]] == TRUE) return;
    if (!count || b->values[own[0]] == FALSE) {
        if (b->broken == NONE) b->broken = place;
    } else if (count == 1 || b->values[own[1]] == FALSE) {
        make_true(b, own[0], 1, place);
    }
}

/* Reading. */
static char *text_of(const char *file) {
    FILE *from = fopen(file, "rb");
    if (!from) exit(1);
    size_t len = 0, cap = 1 << 20, got;
    char *text = room(cap, 1);
    while ((got = fread(text + len, 1, cap - len - 1, from)) > 0) {
        len += got;
        if (cap - len - 1 == 0) text = grown(text, &cap, 1);
    }
    fclose(from);
    text[len] = 0;
    return text;
}

/* Leaves repeated literals out: the number of those left, or NONE where a literal stands beside its negation. */
static size_t normal(uint32_t *lits, size_t count, uint64_t *seen, uint64_t id) {
    size_t kept = 0;
    for (size_t i = 0; i < count; i++) {
        if (seen[lits[i] ^ 1] == id) return NONE;
        if (seen[lits[i]] == id) continue;
        seen[lits[i]] = id;
        lits[kept++] = lits[i];
    }
    return kept;
}

static struct base *base_of(const char *file) {
    char *text = text_of(file), *at = text;
    for (;;) {
        while (*at == ' ' || (*at >= '\t' && *at <= '\r')) at++;
        if (*at != 'c') break;
        while (*at && *at != '\n') at++;
    }
    unsigned long vars, clauses;
    int used = 0;
    if (sscanf(at, "p cnf %lu %lu%n", &vars, &clauses, &used) != 2 || vars > 1000000) exit(1);
    at += used;
    struct base *b = room(1, sizeof *b);
    b->vars = (uint32_t)vars;
    b->lists = room(2 * vars, sizeof *b->lists);
    b->pairs = room(2 * vars, sizeof *b->pairs);
    b->values = room(2 * vars, 1);
    b->entries = room(vars, sizeof *b->entries);
    b->lits = room(vars, sizeof *b->lits);
    b->starts = room(vars, sizeof *b->starts);
    b->broken = NONE;
    uint64_t *seen = room(2 * vars, sizeof *seen);
    uint32_t *lits = NULL;
    size_t cap = 0;
    for (unsigned long id = 1; id <= clauses; id++) {
        size_t count = 0;
        for (;;) {
            char *end;
            long number = strtol(at, &end, 10);
            if (end == at || labs(number) > (long)vars) exit(1);
            at = end;
            if (!number) break;
            if (count == cap) lits = grown(lits, &cap, sizeof *lits);
            lits[count++] = number > 0 ? 2 * (uint32_t)number - 2 : 2 * (uint32_t)-number - 1;
        }
        count = normal(lits, count, seen, id);
        if (count != NONE) add(b, id, lits, count);
    }
    free(lits);
    free(seen);
    free(text);
    return b;
}

static int decide_and_propagate(struct base *b, uint32_t lit) {
    if (b->values[lit] != OPEN) return 1;
    decide(b, lit);
    return propagate(b) == NONE;
}

static int descend(struct base *b, uint64_t state) {
    for (uint32_t draw = 0; draw < 2 * b->vars; draw++) {
        state = next_state(state);
        if (!decide_and_propagate(b, literal(state, b->vars))) return 0;
    }
    return 1;
}

static uint64_t rounds_of(struct base *b, uint32_t rounds) {
    uint64_t sum = 0, conflicts = 0;
    int quiet = propagate(b) == NONE;
    for (uint32_t round = 0; round < rounds && quiet; round++) {
        conflicts += !descend(b, round);
        sum = sum * 31 + b->len + b->depth;
        backtrack(b);
        quiet = propagate(b) == NONE;
    }
    return sum * 31 + conflicts;
}

int main(int count, char **words) {
    if (count != 4 || strcmp(words[1], "propagation")) return 2;
    struct base *b = base_of(words[2]);
    printf("%llu\n", (unsigned long long)rounds_of(b, (uint32_t)strtoul(words[3], NULL, 10)));
#ifdef COUNT_VISITS
    fprintf(stderr, "visits %llu\n", (unsigned long long)visits);
#endif
    return 0;
}
