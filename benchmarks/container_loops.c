/* The loops of the crate gr_timing in plain C, over the same data: reading every clause of an arena, assigning a trail and
   taking it back, taking watch lists out, walking over them and putting them back.
   Words: arena N, trail N or watches N. The checksum that is printed is the crate's. */
#include <stdint.h>
#include <stdio.h>
#include <stdlib.h>
#include <string.h>

static uint64_t next_state(uint64_t state) { return state * 6364136223846793005u + 1442695040888963407u; }

static uint32_t below(uint64_t state, uint32_t bound) { return (uint32_t)((state >> 33) % bound); }

/* A literal's code: twice its variable's index, and one more for the negation. */
static uint32_t literal(uint64_t state, uint32_t vars) { return 2 * below(state, vars) + ((state >> 62) % 2 != 0); }

static void *room(size_t count, size_t size) {
    void *memory = calloc(count, size);
    if (!memory) exit(6);
    return memory;
}

/* Room for twice as much where a vector is full. */
static void *grown(void *memory, size_t len, size_t *cap, size_t size) {
    if (len < *cap) return memory;
    *cap = *cap ? 2 * *cap : 4;
    memory = realloc(memory, *cap * size);
    if (!memory) exit(6);
    return memory;
}

/* Arena: four words and the literals of each clause in one vector. */
enum { CLAUSES = 200000 };

static uint64_t scan(const uint32_t *words, const size_t *places, size_t count) {
    uint64_t sum = 0;
    for (size_t i = 0; i < count; i++) {
        const uint32_t *clause = words + places[i];
        uint32_t len = clause[3] & 0x7fffffff;
        for (uint32_t j = 0; j < len; j++) sum += clause[4 + j];
    }
    return sum;
}

static uint64_t scans(uint32_t rounds) {
    uint32_t *words = NULL;
    size_t len = 0, cap = 0;
    size_t *places = room(CLAUSES, sizeof *places);
    uint64_t state = 1;
    for (uint32_t id = 0; id < CLAUSES; id++) {
        state = next_state(state);
        uint32_t count = 3 + below(state, 8);
        while (len + 4 + count > cap) words = grown(words, cap, &cap, sizeof *words);
        places[id] = len;
        words[len++] = id;
        words[len++] = 0;
        words[len++] = 2;
        words[len++] = count;
        for (uint32_t j = 0; j < count; j++) {
            state = next_state(state);
            words[len++] = literal(state, 1000000);
        }
    }
    uint64_t sum = 0;
    for (uint32_t round = 0; round < rounds; round++) sum = sum * 31 + scan(words, places, CLAUSES);
    return sum;
}

/* Makes a compiler keep what was stored, as if it were read here. */
static void keep(const void *memory) { __asm__ volatile("" : : "g"(memory) : "memory"); }

/* Trail: the value of each literal, the level, position and reason of each variable, the literals, the levels' starts. */
enum { TRAIL_VARS = 100000 };

struct entry { uint32_t level, position; uint64_t has_reason, reason; };

struct trail {
    uint8_t *values;
    struct entry *entries;
    uint32_t *lits, *starts;
    size_t len;
    uint32_t depth;
};

static void make_true(struct trail *t, uint32_t lit, struct entry entry) {
    t->values[lit] = 1;
    t->values[lit ^ 1] = 2;
    t->entries[lit / 2] = entry;
    t->lits[t->len++] = lit;
}

static void assign_all(struct trail *t, const uint32_t *lits, size_t count) {
    for (size_t i = 0; i < count; i++) {
        uint32_t lit = lits[i];
        if (t->values[lit]) continue;
        if (i % 16 == 0) {
            t->starts[t->depth++] = (uint32_t)t->len;
            make_true(t, lit, (struct entry){t->depth, (uint32_t)t->len, 0, 0});
        } else {
            make_true(t, lit, (struct entry){t->depth, (uint32_t)t->len, 1, i});
        }
    }
}

static void backtrack(struct trail *t, uint32_t level) {
    if (level == t->depth) return;
    size_t kept = t->starts[level];
    for (size_t i = kept; i < t->len; i++) {
        t->values[t->lits[i]] = 0;
        t->values[t->lits[i] ^ 1] = 0;
    }
    t->len = kept;
    t->depth = level;
}

static uint64_t trail_rounds(uint32_t rounds) {
    struct trail t = {room(2 * TRAIL_VARS, 1), room(TRAIL_VARS, sizeof(struct entry)), room(TRAIL_VARS, 4),
                      room(TRAIL_VARS, 4), 0, 0};
    uint32_t *lits = room(2 * TRAIL_VARS, 4);
    uint64_t state = 1;
    for (uint32_t i = 0; i < 2 * TRAIL_VARS; i++) {
        state = next_state(state);
        lits[i] = literal(state, TRAIL_VARS);
    }
    uint64_t sum = 0;
    for (uint32_t round = 0; round < rounds; round++) {
        assign_all(&t, lits, 2 * TRAIL_VARS);
        keep(&t);
        sum = sum * 31 + t.len + t.depth;
        backtrack(&t, 0);
    }
    return sum;
}

/* Watches: a vector of places and blockers for each literal. */
enum { WATCH_VARS = 20000 };

struct watch { uint64_t place; uint32_t blocker; };

struct list { struct watch *items; size_t len, cap; };

static uint64_t walk(const struct list *list) {
    uint64_t sum = 0;
    for (size_t i = 0; i < list->len; i++) sum += list->items[i].place + list->items[i].blocker;
    return sum;
}

static uint64_t walk_all(struct list *lists) {
    uint64_t sum = 0;
    for (uint32_t lit = 0; lit < 2 * WATCH_VARS; lit++) {
        struct list list = lists[lit];
        lists[lit] = (struct list){NULL, 0, 0};
        sum += walk(&list);
        lists[lit] = list;
    }
    return sum;
}

static uint64_t walks(uint32_t rounds) {
    struct list *lists = room(2 * WATCH_VARS, sizeof *lists);
    uint64_t state = 1;
    for (uint32_t place = 0; place < 20 * WATCH_VARS; place++) {
        state = next_state(state);
        struct list *list = &lists[literal(state, WATCH_VARS)];
        state = next_state(state);
        list->items = grown(list->items, list->len, &list->cap, sizeof *list->items);
        list->items[list->len++] = (struct watch){place, literal(state, WATCH_VARS)};
    }
    uint64_t sum = 0;
    for (uint32_t round = 0; round < rounds; round++) sum = sum * 31 + walk_all(lists);
    return sum;
}

int main(int count, char **words) {
    if (count != 3) return 2;
    uint32_t rounds = (uint32_t)strtoul(words[2], NULL, 10);
    uint64_t sum;
    if (!strcmp(words[1], "arena")) sum = scans(rounds);
    else if (!strcmp(words[1], "trail")) sum = trail_rounds(rounds);
    else if (!strcmp(words[1], "watches")) sum = walks(rounds);
    else return 2;
    printf("%llu\n", (unsigned long long)sum);
    return 0;
}
