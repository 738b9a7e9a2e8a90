/* The loop `analysis` of the crate gr_timing in plain C: conflict analysis to the first unique implication point, with
   recursive minimisation, LBD and LRAT hints, as the crates gr_analyze and gr_hints do it. Conflicts come from the
   decisions and the propagation of propagation_loop.c, without its main. Words: analysis FILE N. */
#define main propagation_main
#include "propagation_loop.c"
#undef main

enum { CONFLICTS = 200 };

/* How a variable stands: nothing is known of it; a clause that was resolved has it; minimisation tries it, or found that
   it follows, or that it does not. */
enum { UNMET, MET, TRIED, HELD, FAILED };

/* What was met of a level: the first place on the trail, and whether there is more than one. */
struct seen { uint32_t first, several; };

struct numbers { uint32_t *items; size_t len, cap; };

struct ids { uint64_t *items; size_t len, cap; };

struct frame { uint64_t place; uint32_t own, index; };

struct frames { struct frame *items; size_t len, cap; };

struct notes {
    uint8_t *standings;
    struct seen *seen;
    uint32_t *stamps, stamp;
    uint8_t *cited;
    struct numbers known, levels, touched, lits, marked;
    struct ids lower, here, sorted;
    struct frames stack;
    size_t unresolved;
};

struct learnt { uint32_t *lits; size_t len; uint64_t *hints; size_t hints_len; uint32_t lbd, back_to; };

#define PUSH(v, item)                                                                          \
    do {                                                                                       \
        if ((v)->len == (v)->cap) (v)->items = grown((v)->items, &(v)->cap, sizeof *(v)->items); \
        (v)->items[(v)->len++] = (item);                                                       \
    } while (0)

/* Room that is written at once. */
static void *taken(size_t count, size_t size) {
    void *memory = malloc(count * size);
    if (!memory) exit(6);
    return memory;
}

static struct notes *notes_for(uint32_t vars) {
    struct notes *n = room(1, sizeof *n);
    n->standings = room(vars, 1);
    n->seen = room((size_t)vars + 1, sizeof *n->seen);
    n->stamps = room((size_t)vars + 1, sizeof *n->stamps);
    n->cited = room(vars, 1);
    return n;
}

static void clear_notes(struct notes *n) {
    for (size_t i = 0; i < n->known.len; i++) n->standings[n->known.items[i]] = UNMET;
    for (size_t i = 0; i < n->levels.len; i++) n->seen[n->levels.items[i]] = (struct seen){0, 0};
    for (size_t i = 0; i < n->marked.len; i++) n->cited[n->marked.items[i]] = 0;
    n->known.len = n->levels.len = n->touched.len = n->lits.len = n->marked.len = n->stack.len = n->unresolved = 0;
}

static inline void stand(struct notes *n, uint32_t index, uint8_t standing) {
    if (n->standings[index] == UNMET) PUSH(&n->known, index);
    n->standings[index] = standing;
}

static inline void cite(struct notes *n, uint32_t index) {
    if (n->cited[index]) return;
    n->cited[index] = 1;
    PUSH(&n->marked, index);
}

static inline const uint32_t *lits_at(const struct base *b, size_t place, uint32_t *count) {
    const uint32_t *words = b->words + place;
    *count = words[COUNT];
    return words + HEAD;
}

static inline uint64_t id_at(const struct base *b, size_t place) {
    return b->words[place] | (uint64_t)b->words[place + 1] << 32;
}

/* Meets the literals of a clause; those of level zero are left out, and their reasons are cited. */
static inline void meet(struct notes *n, const struct base *b, size_t place) {
    uint32_t count;
    const uint32_t *lits = lits_at(b, place, &count);
    for (uint32_t k = 0; k < count; k++) {
        uint32_t lit = lits[k], index = lit / 2;
        if (n->standings[index] != UNMET) continue;
        struct entry entry = b->entries[index];
        if (!entry.level) {
            cite(n, index);
            continue;
        }
        stand(n, index, MET);
        PUSH(&n->touched, index + 1);
        if (entry.level == b->depth) {
            n->unresolved++;
            continue;
        }
        PUSH(&n->lits, lit);
        struct seen *seen = &n->seen[entry.level];
        if (!seen->several) {
            PUSH(&n->levels, entry.level);
            *seen = (struct seen){entry.position, 1};
        } else {
            seen->several = 2;
            if (entry.position < seen->first) seen->first = entry.position;
        }
    }
}

/* Whether a literal is a reason's own, or is known to follow. */
static inline int is_passed(const struct notes *n, const struct base *b, uint32_t lit, uint32_t own) {
    uint8_t standing = n->standings[lit / 2];
    if (standing == MET || standing == HELD || lit == own) return 1;
    return standing == UNMET && !b->entries[lit / 2].level;
}

/* Whether it is worth a search: it was forced, and behind the first literal of its level that was met. */
static inline int may_follow(const struct notes *n, const struct base *b, uint32_t lit) {
    const struct entry *entry = &b->entries[lit / 2];
    const struct seen *seen = &n->seen[entry->level];
    return n->standings[lit / 2] == UNMET && entry->has_reason && seen->several && entry->position > seen->first;
}

/* Whether a literal of the clause follows from the others. */
static int is_redundant(struct notes *n, const struct base *b, uint32_t lit) {
    const struct entry *entry = &b->entries[lit / 2];
    const struct seen *seen = &n->seen[entry->level];
    if (!entry->has_reason || seen->several < 2 || entry->position == seen->first) return 0;
    struct frame frame = {entry->reason, lit ^ 1, 0};
    for (;;) {
        uint32_t count;
        const uint32_t *lits = lits_at(b, frame.place, &count);
        while (frame.index < count && is_passed(n, b, lits[frame.index], frame.own)) frame.index++;
        if (frame.index == count) {
            if (!n->stack.len) return 1;
            n->standings[frame.own / 2] = HELD;
            frame = n->stack.items[--n->stack.len];
            continue;
        }
        uint32_t next = lits[frame.index];
        if (!may_follow(n, b, next)) {
            if (n->stack.len) n->standings[frame.own / 2] = FAILED;
            while (n->stack.len > 1) n->standings[n->stack.items[--n->stack.len].own / 2] = FAILED;
            n->stack.len = 0;
            return 0;
        }
        stand(n, next / 2, TRIED);
        PUSH(&n->stack, frame);
        frame = (struct frame){b->entries[next / 2].reason, next ^ 1, 0};
    }
}

static void minimize(struct notes *n, const struct base *b) {
    size_t kept = 0;
    for (size_t i = 0; i < n->lits.len; i++) {
        uint32_t lit = n->lits.items[i];
        if (is_redundant(n, b, lit)) {
            n->standings[lit / 2] = HELD;
            cite(n, lit / 2);
        } else {
            n->lits.items[kept++] = lit;
        }
    }
    n->lits.len = kept;
}

/* Cites what the cited reasons of literals that were not met rest on. */
static void cite_all(struct notes *n, const struct base *b) {
    for (size_t i = 0; i < n->marked.len; i++) {
        uint32_t index = n->marked.items[i];
        if (n->standings[index] == MET) continue;
        uint32_t count;
        const uint32_t *lits = lits_at(b, b->entries[index].reason, &count);
        for (uint32_t k = 0; k < count; k++) {
            if (n->standings[lits[k] / 2] != MET) cite(n, lits[k] / 2);
        }
    }
}

/* By insertion in runs of 12, then by merges. */
static void sort(uint64_t *a, size_t n, struct ids *spare) {
    for (size_t from = 0; from < n; from += 12) {
        size_t to = from + 12 < n ? from + 12 : n;
        for (size_t i = from + 1; i < to; i++) {
            uint64_t x = a[i];
            size_t j = i;
            for (; j > from && a[j - 1] > x; j--) a[j] = a[j - 1];
            a[j] = x;
        }
    }
    while (spare->cap < n) spare->items = grown(spare->items, &spare->cap, sizeof *spare->items);
    uint64_t *x = a, *y = spare->items;
    for (size_t width = 12; width < n; width *= 2) {
        for (size_t from = 0; from < n; from += 2 * width) {
            size_t i = from, mid = from + width < n ? from + width : n, j = mid, to = from + 2 * width < n ? from + 2 * width : n;
            size_t at = from;
            while (i < mid && j < to) {
                uint64_t p = x[i], q = x[j];
                int first = p <= q;
                y[at++] = first ? p : q;
                i += first;
                j += !first;
            }
            while (i < mid) y[at++] = x[i++];
            while (j < to) y[at++] = x[j++];
        }
        uint64_t *t = x;
        x = y;
        y = t;
    }
    if (x != a) memcpy(a, x, n * sizeof *a);
}

/* The ids of the cited reasons in the order of the trail, then the conflict's. Those of the present level were cited
   from the trail's end on, so only the others are sorted. */
static void gather(struct notes *n, const struct base *b, size_t conflict, struct learnt *learnt) {
    n->lower.len = n->here.len = 0;
    for (size_t i = 0; i < n->marked.len; i++) {
        const struct entry *entry = &b->entries[n->marked.items[i]];
        uint64_t key = (uint64_t)entry->position << 32 | n->marked.items[i];
        if (entry->level == b->depth) PUSH(&n->here, key);
        else PUSH(&n->lower, key);
    }
    sort(n->lower.items, n->lower.len, &n->sorted);
    uint64_t *hints = taken(n->marked.len + 1, sizeof *hints);
    size_t len = 0;
    for (size_t i = 0; i < n->lower.len; i++) hints[len++] = id_at(b, b->entries[(uint32_t)n->lower.items[i]].reason);
    for (size_t i = n->here.len; i-- > 0;) hints[len++] = id_at(b, b->entries[(uint32_t)n->here.items[i]].reason);
    hints[len++] = id_at(b, conflict);
    learnt->hints = hints;
    learnt->hints_len = len;
}

/* Copies the clause, with a literal of the highest other level behind the first, and counts its levels. */
static void finish(struct notes *n, const struct base *b, uint32_t first, struct learnt *learnt) {
    uint32_t *lits = taken(n->lits.len + 1, sizeof *lits), lbd = 1, back_to = 0;
    size_t best = 0;
    n->stamp++;
    lits[0] = first;
    for (size_t i = 0; i < n->lits.len; i++) {
        uint32_t lit = n->lits.items[i], level = b->entries[lit / 2].level;
        lits[i + 1] = lit;
        if (n->stamps[level] != n->stamp) {
            n->stamps[level] = n->stamp;
            lbd++;
        }
        if (level > back_to) {
            back_to = level;
            best = i + 1;
        }
    }
    if (best) {
        uint32_t lit = lits[1];
        lits[1] = lits[best];
        lits[best] = lit;
    }
    learnt->lits = lits;
    learnt->len = n->lits.len + 1;
    learnt->lbd = lbd;
    learnt->back_to = back_to;
}

/* The conflict is above level zero. */
static struct learnt analyze(struct notes *n, const struct base *b, size_t conflict) {
    struct learnt learnt;
    clear_notes(n);
    meet(n, b, conflict);
    size_t index = b->len;
    for (;;) {
        do index--;
        while (n->standings[b->lits[index] / 2] != MET);
        if (n->unresolved == 1) break;
        uint32_t lit = b->lits[index];
        meet(n, b, b->entries[lit / 2].reason);
        n->unresolved--;
        cite(n, lit / 2);
    }
    minimize(n, b);
    cite_all(n, b);
    gather(n, b, conflict, &learnt);
    finish(n, b, b->lits[index] ^ 1, &learnt);
    return learnt;
}

/* What was learnt, as a number: the clause's order matters only in its first two literals. */
static uint64_t number_of(const struct learnt *learnt) {
    uint64_t sum = learnt->lbd;
    sum = sum * 31 + learnt->back_to;
    sum = sum * 31 + learnt->lits[0];
    uint64_t others = 0;
    for (size_t i = 1; i < learnt->len; i++) others += learnt->lits[i];
    sum = sum * 31 + others;
    for (size_t i = 0; i < learnt->hints_len; i++) sum = sum * 31 + learnt->hints[i];
    return sum;
}

static uint64_t analyses(struct notes *n, const struct base *b, size_t conflict, uint32_t times) {
    uint64_t sum = 0;
    for (uint32_t time = 0; time < times; time++) {
        struct learnt learnt = analyze(n, b, conflict);
        sum = sum * 31 + number_of(&learnt);
        sum = sum * 31 + n->touched.len;
        free(learnt.lits);
        free(learnt.hints);
    }
    return sum;
}

/* The place of a clause that is false, or NONE. */
static size_t descend_to_conflict(struct base *b, uint64_t state) {
    for (uint32_t draw = 0; draw < 2 * b->vars; draw++) {
        state = next_state(state);
        uint32_t lit = literal(state, b->vars);
        if (b->values[lit] != OPEN) continue;
        decide(b, lit);
        size_t place = propagate(b);
        if (place != NONE) return place;
    }
    return NONE;
}

static uint64_t conflicts_of(struct base *b, uint32_t times) {
    struct notes *n = notes_for(b->vars);
    uint64_t sum = 0;
    int quiet = propagate(b) == NONE;
    for (uint32_t round = 0; round < CONFLICTS && quiet; round++) {
        size_t conflict = descend_to_conflict(b, round);
        if (conflict != NONE) sum = sum * 31 + analyses(n, b, conflict, times);
        backtrack(b);
        quiet = propagate(b) == NONE;
    }
    return sum;
}

int main(int count, char **words) {
    if (count != 4 || strcmp(words[1], "analysis")) return 2;
    struct base *b = base_of(words[2]);
    printf("%llu\n", (unsigned long long)conflicts_of(b, (uint32_t)strtoul(words[3], NULL, 10)));
    return 0;
}
