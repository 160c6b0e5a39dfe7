/* Every question of include/ludzepin.h in one table, for the programs that ask them all; a new one is named here alone.
 *
 * Words and order are those of the stored list (docs/TESTING.md). */
#ifndef ASK_H
#define ASK_H

#include "ludzepin.h"

/* What is asked of, and what is lent for the answer. */
struct asked {
    const uint8_t *book;
    size_t bytes;
    uint32_t limits[3]; /* of names, nodes and definitions */
    const uint16_t *list; /* so many names, for marks */
    size_t count;
    uint16_t name, method; /* for values, uses and alias, and for a projection to it alone; for the methods that change with either */
    uint16_t *out;
    size_t places;
    uint32_t *counts; /* for use counts: as many places, but no more than are ever needed */
};

/* The book and the limits, which each question takes first. */
#define BOOK(a) (a)->book, (a)->bytes, (a)->limits[0], (a)->limits[1], (a)->limits[2]

static uint64_t ask_check(const struct asked *a) { return ludzepin_check(BOOK(a)); }
static uint64_t ask_init_check(const struct asked *a) { return ludzepin_init_check(BOOK(a)); }
static uint64_t ask_list(const struct asked *a) { return ludzepin_list(BOOK(a), a->out, a->places); }
static uint64_t ask_marks(const struct asked *a) { return ludzepin_marks(BOOK(a), a->list, a->count, a->out, a->places); }
static uint64_t ask_init_list(const struct asked *a) { return ludzepin_init_list(BOOK(a), a->out, a->places); }
static uint64_t ask_draft_list(const struct asked *a) { return ludzepin_draft_list(BOOK(a), a->out, a->places); }
static uint64_t ask_emptiness(const struct asked *a) { return ludzepin_emptiness(BOOK(a), a->out, a->places); }
static uint64_t ask_values(const struct asked *a) { return ludzepin_values(BOOK(a), a->name); }
static uint64_t ask_use_counts(const struct asked *a) {
    return ludzepin_use_counts(BOOK(a), a->counts, a->places < LUDZEPIN_DEFINITIONS ? a->places : LUDZEPIN_DEFINITIONS);
}
static uint64_t ask_methods(const struct asked *a) {
    const uint16_t both[] = {a->name, a->method};
    return ludzepin_methods(BOOK(a), both, 2, a->out, a->places);
}
static uint64_t ask_uses(const struct asked *a) { return ludzepin_uses(BOOK(a), a->name, a->out, a->places); }
static uint64_t ask_alias(const struct asked *a) { return ludzepin_alias(BOOK(a), a->name); }
static uint64_t ask_project(const struct asked *a) { return ludzepin_project(BOOK(a), &a->method, 1, a->out, a->places); }

/* What a question is answered with: a verdict, names or positions in the lent list, uses in it, counts in that of 32 bits, an alias chain, a number
 * of values. The last four have 64 bits. */
enum answered { VERDICT, ENTRIES, ENTRIES_OF_USES, COUNTS_OF_USES, ALIAS_CHAIN, NUMBER_OF_VALUES };

static const struct question {
    const char *word;
    uint64_t (*ask)(const struct asked *);
    enum answered with;
} QUESTIONS[] = {
    {"check", ask_check, VERDICT},
    {"init-check", ask_init_check, VERDICT},
    {"list", ask_list, ENTRIES},
    {"marks", ask_marks, ENTRIES},
    {"init", ask_init_list, ENTRIES},
    {"draft", ask_draft_list, ENTRIES},
    {"empty", ask_emptiness, ENTRIES},
    {"values", ask_values, NUMBER_OF_VALUES},
    {"use-counts", ask_use_counts, COUNTS_OF_USES},
    {"methods", ask_methods, ENTRIES},
    {"uses", ask_uses, ENTRIES_OF_USES},
    {"alias", ask_alias, ALIAS_CHAIN},
    {"project", ask_project, ENTRIES},
};
enum { QUESTION_COUNT = sizeof QUESTIONS / sizeof *QUESTIONS };

#endif
