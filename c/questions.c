/* Asks a book every question, and prints each answer on a line:  questions BOOK NAME METHOD [PLACES [NAMES NODES DEFINITIONS]]
 *
 * Marks are those of the book's list, values, uses and alias chain are NAME's, the projection is to METHOD, both by name number, and the methods
 * are those that change with either of the two. PLACES are the numbers lent for an answer, 4,096 if none are given. NAMES, NODES and DEFINITIONS
 * are limits, the full ones if none are given. `python3 tools/answers.py` with the same arguments prints what is right. A line says more where
 * numbers are written that are no entry, where a count is not that of the entries of ludzepin_uses, or where a long list that has all names is
 * answered otherwise than these. */
#include <stdio.h>
#include <stdlib.h>
#include <string.h>

#include "ask.h"

/* Whether a refusal names something. A method that is absent and a name that is unbound are named, even if their number is LUDZEPIN_NO_NAME. */
static int is_named(uint32_t refusal, uint32_t name) {
    return refusal == LUDZEPIN_ABSENT || refusal == LUDZEPIN_UNBOUND || name != LUDZEPIN_NO_NAME;
}

/* A refusal with its name or, of LUDZEPIN_SHORT, the entries needed. */
static void print_refusal(uint32_t refusal, uint32_t low) {
    if (refusal == LUDZEPIN_SHORT)
        printf(" refused %u needs %u", refusal, low);
    else if (is_named(refusal, low))
        printf(" refused %u %u", refusal, low);
    else
        printf(" refused %u -", refusal);
}

/* What stands in the lent lists beforehand. No entry is so many: a name, a method's position or a use's index. */
enum { BEFORE = 40000 };

static uint16_t out[LUDZEPIN_NODES];
static uint32_t counts[LUDZEPIN_NODES];

static void clear_lists(void) {
    for (size_t i = 0; i < LUDZEPIN_NODES; i++)
        counts[i] = out[i] = BEFORE;
}

/* Says so if more is written than so many numbers of each list. */
static void print_kept(size_t in_out, size_t in_counts) {
    int is_kept = 1;
    for (size_t i = in_out; i < LUDZEPIN_NODES; i++)
        is_kept &= out[i] == BEFORE;
    for (size_t i = in_counts; i < LUDZEPIN_NODES; i++)
        is_kept &= counts[i] == BEFORE;
    if (!is_kept)
        printf(" and more is written");
}

/* Entries of so many numbers each. */
static void print_entries(uint32_t entries, uint32_t numbers) {
    printf(" given %u", entries);
    for (uint32_t i = 0; i < entries * numbers; i++)
        printf("%c%u", i % numbers ? '.' : ' ', (unsigned)out[i]);
    print_kept(entries * numbers, 0);
}

/* A count for each definition listed. How many entries a name's uses have is told whatever is lent. */
static void print_counts(const struct asked *asked, uint32_t entries) {
    printf(" given %u", entries);
    for (uint32_t i = 0; i < entries; i++)
        printf(" %u", (unsigned)counts[i]);
    print_kept(0, entries);
    for (uint32_t i = 0; i < entries; i++) {
        uint32_t uses = ludzepin_uses_entries(ludzepin_uses(BOOK(asked), asked->list[i], NULL, 0));
        if (counts[i] != uses)
            printf(" but %u uses of %u", uses, (unsigned)asked->list[i]);
    }
}

/* Asks for the methods that change with all names once, and with a long list that begins with more numbers outside every table than 16 bits count,
 * and ends with all names over and over. */
enum { LONG = 100000, OUTSIDE = 70000 };

static void print_long_list(const struct asked *asked) {
    static uint16_t all[LUDZEPIN_NAMES], many[LONG], before[LUDZEPIN_NODES];
    for (size_t i = 0; i < LUDZEPIN_NAMES; i++)
        all[i] = (uint16_t)i;
    for (size_t i = 0; i < LONG; i++)
        many[i] = (uint16_t)(i < OUTSIDE ? LUDZEPIN_NAMES + i % (65536 - LUDZEPIN_NAMES) : i % LUDZEPIN_NAMES);
    clear_lists();
    uint32_t once = ludzepin_methods(BOOK(asked), all, LUDZEPIN_NAMES, out, asked->places);
    memcpy(before, out, sizeof out);
    clear_lists();
    if (ludzepin_methods(BOOK(asked), many, LONG, out, asked->places) != once || memcmp(before, out, sizeof out))
        printf(" but others for a long list");
}

static void print(const struct question *question, const struct asked *asked) {
    clear_lists();
    uint64_t answer = question->ask(asked);
    int is_wide = question->with >= ENTRIES_OF_USES;
    uint32_t half = (uint32_t)answer;
    uint32_t refusal = question->with == NUMBER_OF_VALUES ? ludzepin_values_refusal(answer)
                       : is_wide                          ? ludzepin_uses_refusal(answer)
                                                          : ludzepin_refusal(half);
    printf("%s", question->word);
    if (refusal)
        print_kept(0, 0);
    if (refusal == LUDZEPIN_SHORT)
        print_refusal(refusal, is_wide ? ludzepin_uses_entries(answer) : ludzepin_entries(half));
    else if (refusal)
        print_refusal(refusal, is_wide ? ludzepin_uses_name(answer) : ludzepin_name(half));
    else if (question->with == VERDICT)
        printf(" passed");
    else if (question->with == ENTRIES_OF_USES)
        print_entries(ludzepin_uses_entries(answer), 3);
    else if (question->with == COUNTS_OF_USES)
        print_counts(asked, ludzepin_uses_entries(answer));
    else if (question->with == ALIAS_CHAIN)
        printf(" given %u %u", ludzepin_alias_names(answer), ludzepin_alias_last(answer));
    else if (question->with == NUMBER_OF_VALUES && ludzepin_values_many(answer))
        printf(" given many");
    else if (question->with == NUMBER_OF_VALUES)
        printf(" given %u", ludzepin_values_number(answer));
    else
        print_entries(ludzepin_entries(half), 1);
    if (question->ask == ask_methods)
        print_long_list(asked);
    printf("\n");
}

int main(int argc, char **argv) {
    static uint8_t book[LUDZEPIN_BYTES + 1]; /* a longer file is refused and never cut */
    static uint16_t list[LUDZEPIN_DEFINITIONS];
    size_t places = argc > 4 ? strtoul(argv[4], NULL, 10) : LUDZEPIN_NODES;
    int is_called_right = argc == 4 || argc == 5 || argc == 8;
    FILE *file = is_called_right && places <= LUDZEPIN_NODES ? fopen(argv[1], "rb") : NULL;
    if (!file)
        return fprintf(stderr, "usage: questions BOOK NAME METHOD [PLACES [NAMES NODES DEFINITIONS]]\n"), 2;
    size_t bytes = fread(book, 1, sizeof book, file);
    fclose(file);

    struct asked asked = {
        .book = book, .bytes = bytes, .limits = {LUDZEPIN_FULL}, .list = list,
        .name = (uint16_t)strtoul(argv[2], NULL, 10), .method = (uint16_t)strtoul(argv[3], NULL, 10),
        .out = out, .places = places, .counts = counts,
    };
    for (int i = 5; i < argc; i++)
        asked.limits[i - 5] = (uint32_t)strtoul(argv[i], NULL, 10);
    uint32_t listed = ludzepin_list(BOOK(&asked), list, LUDZEPIN_DEFINITIONS);
    asked.count = ludzepin_refusal(listed) ? 0 : ludzepin_entries(listed);
    for (const struct question *question = QUESTIONS; question < QUESTIONS + QUESTION_COUNT; question++)
        print(question, &asked);
    return 0;
}
