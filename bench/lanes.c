// The walk in lanes: 64 settings that follow each other are a block, and bit j of a word is the block's setting j.
//
// A plane is a word for each atom. The block's settings are spread over two planes, settled together until no lane
// changes, and judged together. The row has a bit for each setting of which a subset explains, itself included.
#include "walk.h"

#include <string.h>

enum { LANES = 64, BLOCKS = (MOST_SETTINGS + LANES - 1) / LANES };

typedef uint64_t Plane[MOST_ATOMS];

// Where something is true and where it is false, lane by lane.
typedef struct {
    uint64_t trues, falses;
} Lanes;

// Where each atom is true and where it is false.
typedef struct {
    Plane trues, falses;
} Planes;

// What a round changed: the lanes in which it decided an atom, and the atoms that it decided in some lane.
typedef struct {
    uint64_t lanes, atoms;
} Changed;

static uint64_t touches[MOST_ATOMS];   // for each atom the heads of the rules that name it
static Planes opening;                 // the program's own facts and assumptions
static Planes now;                     // the block
static Planes fresh;                   // what a round decides
static uint64_t row[2 * BLOCKS];       // setting s at bit LANES * BLOCKS + s; the words in front stay 0
static int back[MOST_CAUSES];          // from a setting to the one without a cause's assumption; from one with a cause
                                       // of two choices into the words in front

// The word with the first lanes, 1 to 64 of them.
static inline uint64_t first_lanes(int number) { return ~(uint64_t)0 >> (LANES - number); }

static void prepare_lanes(const Program *p) {
    for (const Rule *r = p->rule, *end = p->first[MOST_ATOMS]; r < end; r++)
        for (uint64_t named = r->body.plain | r->body.negated; named != 0; named &= named - 1)
            touches[lowest(named)] |= r->head;
    for (int a = 0; a < MOST_ATOMS; a++) {
        opening.trues[a] = p->facts & bit(a) ? ~(uint64_t)0 : 0;
        opening.falses[a] = p->assumed & bit(a) ? ~(uint64_t)0 : 0;
    }
    for (int i = 0; i < p->causes; i++) back[i] = choices(p, p->cause[i]) == 3 ? 2 * p->weight[i] : LANES * BLOCKS;
}

// Adds a lane to the words of the atoms of a set.
static inline void spread(uint64_t *plane, uint64_t set, uint64_t lane) {
    for (; set != 0; set &= set - 1) plane[lowest(set)] |= lane;
}

// Adds what the next 64 settings add to the planes, from the first of them on; answers what the setting behind adds. A
// cause of two choices is assumed by the program itself, and false where no fact is added.
static Added fill(const Program *p, Added x) {
    for (int j = 0; j < LANES; j++, x = next_setting(p, x)) {
        spread(now.trues, x.facts, bit(j));
        spread(now.falses, x.assumed, bit(j));
    }
    for (uint64_t left = p->twofold; left != 0; left &= left - 1) now.falses[lowest(left)] = ~now.trues[lowest(left)];
    return x;
}

// The planes after the first round, and what it decided: no body of a rule is decided at the start.
static Changed begin(const Program *p) {
    Changed all = {0, p->facts | p->assumed};
    if (all.atoms != 0) all.lanes = ~(uint64_t)0;
    for (int i = 0; i < p->causes; i++) {
        uint64_t lanes = now.trues[p->cause[i]] | now.falses[p->cause[i]];
        if (lanes == 0) continue;
        all.lanes |= lanes;
        all.atoms |= bit(p->cause[i]);
    }
    return all;
}

// Where a body is true: every plain atom true, every negated one false; and where it is false.
static inline Lanes body_value(Body b) {
    Lanes v = {~(uint64_t)0, 0};
    for (uint64_t left = b.plain; left != 0; left &= left - 1) {
        v.trues &= now.trues[lowest(left)];
        v.falses |= now.falses[lowest(left)];
    }
    for (uint64_t left = b.negated; left != 0; left &= left - 1) {
        v.trues &= now.falses[lowest(left)];
        v.falses |= now.trues[lowest(left)];
    }
    return v;
}

// Where one of an atom's rules has a true body, and where all have false ones.
static inline Lanes rules_value(const Program *p, int atom) {
    Lanes v = {0, ~(uint64_t)0};
    for (const Rule *r = p->first[atom], *end = p->first[atom + 1]; r < end; r++) {
        Lanes body = body_value(r->body);
        v.trues |= body.trues;
        v.falses &= body.falses;
    }
    return v;
}

static inline uint64_t touched(uint64_t atoms) {
    uint64_t heads = 0;
    for (; atoms != 0; atoms &= atoms - 1) heads |= touches[lowest(atoms)];
    return heads;
}

// One round over some heads: all are decided from the old planes, and then taken in.
static inline Changed redo(const Program *p, uint64_t heads) {
    Changed all = {0, 0};
    for (; heads != 0; heads &= heads - 1) {
        int a = lowest(heads);
        uint64_t open = ~(now.trues[a] | now.falses[a]);
        if (open == 0) continue;
        Lanes v = rules_value(p, a);
        uint64_t decided = (v.trues | v.falses) & open;
        if (decided == 0) continue;
        fresh.trues[a] = v.trues & open;
        fresh.falses[a] = v.falses & open;
        all.lanes |= decided;
        all.atoms |= bit(a);
    }
    for (uint64_t left = all.atoms; left != 0; left &= left - 1) {
        now.trues[lowest(left)] |= fresh.trues[lowest(left)];
        now.falses[lowest(left)] |= fresh.falses[lowest(left)];
    }
    return all;
}

// Settles the block; answers the sum of the round counts of its valid lanes.
static long settle(const Program *p, uint64_t valid) {
    long rounds = 0;
    for (Changed c = begin(p); c.lanes != 0; c = redo(p, touched(c.atoms)))
        rounds += __builtin_popcountll(c.lanes & valid);
    return rounds;
}

// The sum of the decided atoms of the settled block's valid lanes. It is that of what the rounds newly decided, as none
// is undone, and takes fewer counts: one for each atom.
static long decided(const Case *c, uint64_t valid) {
    long sum = 0;
    for (int a = 0; a < c->atoms; a++) sum += ones((now.trues[a] | now.falses[a]) & valid);
    return sum;
}

// The lanes in which a constraint is met.
static inline uint64_t met(const Constraint *k) {
    Lanes b = body_value(k->body);
    return k->kind == NEVER ? b.falses : ~b.trues;
}

// The lanes in which every observation is true and every constraint met.
static uint64_t explaining(const Case *c) {
    uint64_t lanes = body_value(c->observed).trues;
    for (int k = 0; k < c->constraints && lanes != 0; k++) lanes &= met(&c->constraint[k]);
    return lanes;
}

// Sixty-four bits of the row, from a place on.
static inline uint64_t bits(int place) {
    const uint64_t *word = &row[place / LANES];
    int past = place % LANES;
    return past == 0 ? word[0] : word[0] >> past | word[1] << (LANES - past);
}

// The lanes whose setting, with one digit put to 0, has its bit in the row. No rule has a cause as its head, so the
// planes still have what each setting adds; but a cause of two choices is false where nothing is added.
static inline uint64_t dropped(const Program *p, int place) {
    uint64_t lanes = 0;
    for (int i = 0; i < p->causes; i++) {
        int a = p->cause[i];
        lanes |= (bits(place - p->weight[i]) & now.trues[a]) | (bits(place - back[i]) & now.falses[a]);
    }
    return lanes;
}

// Completes the row's word of a block from the lanes that explain; answers those with a proper subset that explains.
// Subsets may lie in the same word, so it grows until nothing is added.
static uint64_t cover(const Program *p, int block, uint64_t explains) {
    uint64_t *word = &row[BLOCKS + block];
    for (*word = explains;;) {
        uint64_t larger = dropped(p, LANES * (BLOCKS + block));
        if ((larger & ~*word) == 0) return larger;
        *word |= larger;
    }
}

// The interpretation in one lane.
static inline Interpretation column(int atoms, int lane) {
    Interpretation i = {0, 0};
    while (atoms-- > 0) {
        i.trues = i.trues << 1 | (now.trues[atoms] >> lane & 1);
        i.falses = i.falses << 1 | (now.falses[atoms] >> lane & 1);
    }
    return i;
}

// What the setting of one lane costs, by what the planes have for its causes.
static inline uint64_t cost_in(const Case *c, const Program *p, int lane) {
    uint64_t sum = 0;
    for (uint64_t left = p->priced; left != 0; left &= left - 1) {
        int a = lowest(left);
        uint64_t added = p->twofold & bit(a) ? now.trues[a] : now.trues[a] | now.falses[a];
        if (added >> lane & 1) sum += c->price[a];
    }
    return sum;
}

// Marks the settings of a block in its bytes of the work area.
static void mark(uint8_t *work, int number, uint64_t explains, uint64_t minimal) {
    if (explains == 0) {
        memset(work, NO, (size_t)number);
        return;
    }
    for (int j = 0; j < number; j++) work[j] = (uint8_t)((explains >> j & 1) + (minimal >> j & 1));
}

// Takes the minimal explanations of a block in rising order.
static void take(Answer *answer, const Case *c, const Program *p, int first, uint64_t minimal) {
    for (; minimal != 0; minimal &= minimal - 1) {
        int lane = lowest(minimal);
        take_minimal(answer, first + lane, cost_in(c, p, lane));
        if (unsettled(answer, c) != 0) take_model(answer, c, column(c->atoms, lane));
    }
}

void walk_lanes(const Case *c, const Program *p, Answer *answer) {
    Added x = {0, 0};
    prepare_lanes(p);
    for (int first = 0; first < p->settings; first += LANES) {
        int number = p->settings - first < LANES ? p->settings - first : LANES;
        uint64_t valid = first_lanes(number);
        now = opening;
        x = fill(p, x);
        answer->rounds += settle(p, valid);
        answer->decided += decided(c, valid);
        uint64_t explains = explaining(c) & valid;
        uint64_t larger = cover(p, first / LANES, explains);
        mark(&answer->work[first], number, explains, explains & ~larger);
        take(answer, c, p, first, explains & ~larger);
    }
}
