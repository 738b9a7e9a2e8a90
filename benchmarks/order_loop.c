/* The loop `order` of the crate gr_timing in plain C: decisions, bumps and backtracking over an order of variables.
   Words: order N, with the same queue in slots as the crate gr_heur, or list N, with a doubly linked list, as in
   CaDiCaL. Both pick the same variables, so the checksum that is printed is the crate's. */
#include <stdint.h>
#include <stdio.h>
#include <stdlib.h>
#include <string.h>

enum { VARS = 100000, SLOTS = 2 * VARS + 64, NONE = 0 };

static uint64_t next_state(uint64_t state) { return state * 6364136223846793005u + 1442695040888963407u; }

static uint32_t below(uint64_t state, uint32_t bound) { return (uint32_t)((state >> 33) % bound); }

static uint64_t bumps, *activities;
static uint8_t *present;

/* The queue in slots: variables by index. */
static uint32_t *slots, *places;
static size_t len, base, fresh, bound;

static void slots_new(void) {
    slots = calloc(SLOTS, sizeof *slots);
    places = calloc(VARS, sizeof *places);
    for (uint32_t index = 0; index < VARS; index++) {
        slots[VARS - 1 - index] = index;
        places[index] = VARS - 1 - index;
    }
    len = base = bound = VARS;
}

static void drop_dead(size_t from) {
    size_t kept = from;
    for (size_t at = from; at < len; at++) {
        uint32_t index = slots[at];
        if (places[index] != at) continue;
        slots[kept] = index;
        places[index] = (uint32_t)kept++;
    }
    len = kept;
}

static void slots_bump(uint32_t var) {
    uint32_t index = var - 1;
    activities[index] = ++bumps;
    if (len == SLOTS) {
        drop_dead(0);
        base = len;
        fresh = 0;
    } else if (len - base > fresh + fresh / 2 + 64) {
        drop_dead(base);
        fresh = len - base;
    }
    fresh += places[index] < base;
    slots[len] = index;
    places[index] = (uint32_t)len++;
    if (present[index] || bound > len) bound = len;
}

static uint32_t slots_pick(void) {
    while (bound > 0) {
        uint32_t index = slots[--bound];
        if (present[index] && places[index] == bound) {
            present[index] = 0;
            return index + 1;
        }
    }
    return NONE;
}

static void slots_put_back(uint32_t var) {
    uint32_t index = var - 1;
    if (present[index]) return;
    present[index] = 1;
    if (bound <= places[index]) bound = (size_t)places[index] + 1;
}

/* The doubly linked list: variables from 1, the least active first; the one to look at next. */
static struct link { uint32_t before, behind; } *links;
static uint32_t first, last, looked_at;

static void enqueue(uint32_t var) {
    links[var].before = last;
    links[var].behind = NONE;
    if (last) links[last].behind = var;
    else first = var;
    last = var;
}

static void dequeue(uint32_t var) {
    struct link l = links[var];
    if (l.before) links[l.before].behind = l.behind;
    else first = l.behind;
    if (l.behind) links[l.behind].before = l.before;
    else last = l.before;
}

static void list_new(void) {
    links = calloc(VARS + 1, sizeof *links);
    for (uint32_t var = VARS; var > 0; var--) enqueue(var);
    looked_at = last;
}

static void list_bump(uint32_t var) {
    activities[var - 1] = ++bumps;
    if (links[var].behind) {
        if (looked_at == var) looked_at = links[var].before ? links[var].before : links[var].behind;
        dequeue(var);
        enqueue(var);
    }
    if (present[var - 1]) looked_at = var;
}

static uint32_t list_pick(void) {
    uint32_t var = looked_at;
    while (var && !present[var - 1]) var = links[var].before;
    if (!var) return NONE;
    looked_at = var;
    present[var - 1] = 0;
    return var;
}

/* Of two that were never bumped the lesser stands behind. */
static int is_behind(uint32_t var, uint32_t other) {
    uint64_t a = activities[var - 1], b = activities[other - 1];
    return a > b || (a == b && var < other);
}

static void list_put_back(uint32_t var) {
    if (present[var - 1]) return;
    present[var - 1] = 1;
    if (!looked_at || is_behind(var, looked_at)) looked_at = var;
}

#define ROUNDS(name)                                                                        \
    static uint64_t name##_rounds(uint32_t rounds) {                                        \
        uint32_t *stack = malloc(VARS * sizeof *stack);                                     \
        size_t depth = 0;                                                                   \
        uint64_t state = 1, sum = 0;                                                        \
        name##_new();                                                                       \
        for (uint32_t round = 0; round < rounds; round++) {                                 \
            for (int turn = 0; turn < 40; turn++) {                                         \
                uint32_t var = name##_pick();                                               \
                if (var != NONE) {                                                          \
                    stack[depth++] = var;                                                   \
                    sum = sum * 31 + var;                                                   \
                }                                                                           \
            }                                                                               \
            for (int turn = 0; turn < 50; turn++) {                                         \
                state = next_state(state);                                                  \
                name##_bump(1 + (round / 8 + below(state, 1000)) % VARS);                   \
            }                                                                               \
            state = next_state(state);                                                      \
            uint32_t back = below(state, 81);                                               \
            for (uint32_t turn = 0; turn < back && depth > 0; turn++) name##_put_back(stack[--depth]); \
            for (uint32_t turn = 0; turn < 400; turn++) name##_put_back(1 + (round / 2 + turn * 37) % VARS); \
        }                                                                                   \
        return sum;                                                                         \
    }

ROUNDS(slots)
ROUNDS(list)

int main(int argc, char **argv) {
    if (argc != 3) return 2;
    uint32_t rounds = (uint32_t)strtoul(argv[2], NULL, 10);
    activities = calloc(VARS, sizeof *activities);
    present = malloc(VARS);
    if (!activities || !present) return 6;
    memset(present, 1, VARS);
    uint64_t sum;
    if (!strcmp(argv[1], "order")) sum = slots_rounds(rounds);
    else if (!strcmp(argv[1], "list")) sum = list_rounds(rounds);
    else return 2;
    printf("%llu\n", (unsigned long long)sum);
    return 0;
}
