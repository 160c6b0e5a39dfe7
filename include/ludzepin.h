/* Declaration books for programs in C and C++. Link target/staticlib/libexports.a, which tools/build.sh makes for x86-64 Linux.
 *
 * A slice crosses as a pointer and a number of elements. Nothing is asked of a book's bytes or of limits. What a caller owes is what C cannot
 * say: that many elements are there, and `out` overlaps nothing else that is lent. An empty slice is never read, so its pointer may be NULL. The
 * functions keep nothing between calls, allocate nothing and call only memcpy and memset. They need stack: 1 MiB is enough for
 * each of them on every book (docs/FIGURES.md has the figures), which is more than some systems give to a thread by default.
 *
 * crates/codes/specs/Coded.antt defines the answers and, once more, the arithmetic of the eleven functions at the end of this file;
 * crates/exports/src/lib.rt promises of each answer that this arithmetic gives back its refusal, name and entries, of an alias chain the names
 * crossed and the last, of values their number or that they are many. No proof reads this file: nothing compares the two texts but c/build.sh,
 * which tries them. */
#ifndef LUDZEPIN_H
#define LUDZEPIN_H

#include <stddef.h>
#include <stdint.h>

#ifdef __cplusplus
extern "C" {
#endif

/* The most bytes, names, nodes and definitions of a book. As many places as definitions are always enough for a list, an init list, a draft
 * list, marks, emptiness and use counts, and as many as nodes for a projection and for methods that change; uses may need more. */
#define LUDZEPIN_BYTES 65536
#define LUDZEPIN_NAMES 1024
#define LUDZEPIN_NODES 4096
#define LUDZEPIN_DEFINITIONS 512

/* The largest limits, for a call such as ludzepin_check(book, bytes, LUDZEPIN_FULL). Limits are the most names, nodes and definitions that
 * the terminal model takes, a larger one counting as the figure above. A whole book that has more of one is LUDZEPIN_OVER_LIMIT. */
#define LUDZEPIN_FULL LUDZEPIN_NAMES, LUDZEPIN_NODES, LUDZEPIN_DEFINITIONS

/* The name number of a refusal that names nothing: 1, 4, 5, 6, 8, 10, 17, 24, and 18 where the label is not spelled. */
#define LUDZEPIN_NO_NAME 65535

/* The first number of a use by an argument of the actor's class, where others have a method's position. */
#define LUDZEPIN_OF_CLASS 65535

/* Refusals: rows of document 01, and 18 and 24 of document 02. */
enum {
    LUDZEPIN_BROKEN = 1,
    LUDZEPIN_TWICE = 2,
    LUDZEPIN_UNBOUND = 3,
    LUDZEPIN_CLASS = 4,
    LUDZEPIN_MODES = 5,
    LUDZEPIN_ONEWAY = 6,
    LUDZEPIN_CIRCLE = 7,
    LUDZEPIN_NO_FUNCTION = 8,
    LUDZEPIN_METHOD_NO_FUNCTION = 9,
    LUDZEPIN_NO_SERVICE = 10,
    LUDZEPIN_DIFFERS = 11,
    LUDZEPIN_IMPORT_WITHOUT_ACTOR = 12,
    LUDZEPIN_IMPORT_NO_SERVICE = 13,
    LUDZEPIN_SAME_HASH = 14,
    LUDZEPIN_ABSENT = 15,
    LUDZEPIN_SHORT = 16,
    LUDZEPIN_NO_ACTOR = 17,
    LUDZEPIN_REPEATED = 18,
    LUDZEPIN_OVER_LIMIT = 24
};

/* 0 if the book passes; else a refusal (1, 24, 18, 2 to 10, 12 to 14; of the init check 11 too) with the number of its name. */
uint32_t ludzepin_check(const uint8_t *book, size_t bytes, uint32_t names, uint32_t nodes, uint32_t definitions);
uint32_t ludzepin_init_check(const uint8_t *book, size_t bytes, uint32_t names, uint32_t nodes, uint32_t definitions);

/* The number of definitions listed, whose name numbers are the first places of `out`, the others being as they were; or a refusal (those
 * of the check, 17, 16), with `out` as it was. */
uint32_t ludzepin_list(const uint8_t *book, size_t bytes, uint32_t names, uint32_t nodes, uint32_t definitions, uint16_t *out, size_t places);

/* The same of what the init arguments lead to (a refusal of the init check, 16), and of a draft, unchecked (1, 24, 18, 17, 2, 3, 16). */
uint32_t ludzepin_init_list(const uint8_t *book, size_t bytes, uint32_t names, uint32_t nodes, uint32_t definitions, uint16_t *out, size_t places);
uint32_t ludzepin_draft_list(const uint8_t *book, size_t bytes, uint32_t names, uint32_t nodes, uint32_t definitions, uint16_t *out, size_t places);

/* The same of names, ascending: those to be marked where the `count` definitions of `list` are laid out in this order (a refusal of the check;
 * 3, a listed name has no definition; 16), and those that are empty, whose definition has no value of finite height (a refusal of the check,
 * 16). */
uint32_t ludzepin_marks(const uint8_t *book, size_t bytes, uint32_t names, uint32_t nodes, uint32_t definitions,
                        const uint16_t *list, size_t count, uint16_t *out, size_t places);
uint32_t ludzepin_emptiness(const uint8_t *book, size_t bytes, uint32_t names, uint32_t nodes, uint32_t definitions, uint16_t *out, size_t places);

/* The same of positions of methods, ascending: those that take the `count` asked names (a refusal of the check, 17, 15, 16). */
uint32_t ludzepin_project(const uint8_t *book, size_t bytes, uint32_t names, uint32_t nodes, uint32_t definitions,
                          const uint16_t *asked, size_t count, uint16_t *out, size_t places);

/* The same of those that have a use of any of the `count` asked names, as an argument or a result (a refusal of the check, 17, 16). A number that
 * is no listed definition's, in the table or not, adds none, an argument of the actor's class is no method's, and the name of a method's own function
 * is by itself no use. A name may be asked more than once, and more numbers than there are names. */
uint32_t ludzepin_methods(const uint8_t *book, size_t bytes, uint32_t names, uint32_t nodes, uint32_t definitions,
                          const uint16_t *asked, size_t count, uint16_t *out, size_t places);

/* The number of entries of a name's uses; each is three numbers of `out`: a method's position or LUDZEPIN_OF_CLASS, 0 for an argument and 1
 * for a result, an index. The other numbers are as they were. Or a refusal (those of the check, 17, 16), with `out` as it was. */
uint64_t ludzepin_uses(const uint8_t *book, size_t bytes, uint32_t names, uint32_t nodes, uint32_t definitions,
                       uint16_t name, uint16_t *out, size_t numbers);

/* The number of definitions listed; how many uses each of them has stands in the first places of `out`, in the order of ludzepin_list, the others
 * being as they were. What is listed may have no use, as a method's own function or the actor's own name. Or a refusal (those of the check, 17, 16,
 * which counts definitions), with `out` as it was. */
uint64_t ludzepin_use_counts(const uint8_t *book, size_t bytes, uint32_t names, uint32_t nodes, uint32_t definitions, uint32_t *out, size_t places);

/* The number of names that the alias chain from a name crosses, that name counted, and the last of them, whose definition is no name: 1 and the
 * name itself where that is so of its own. Or a refusal (those of the check; 3, the name has no definition). No actor is needed. */
uint64_t ludzepin_alias(const uint8_t *book, size_t bytes, uint32_t names, uint32_t nodes, uint32_t definitions, uint16_t name);

/* The number of values of finite height that the definition of a name has, up to 4,294,967,295, or LUDZEPIN_MANY. Or a refusal (those of the check;
 * 3, the name has no definition). No actor is needed. */
uint64_t ludzepin_values(const uint8_t *book, size_t bytes, uint32_t names, uint32_t nodes, uint32_t definitions, uint16_t name);

/* The answer of ludzepin_values for more values than any number that it gives. */
#define LUDZEPIN_MANY UINT64_MAX

/* The refusal in an answer, 0 if it is none. */
static inline uint32_t ludzepin_refusal(uint32_t answer) { return answer >> 16; }

/* The name number of a refusal other than LUDZEPIN_SHORT: a place in the book's table of names, or LUDZEPIN_NO_NAME. But LUDZEPIN_ABSENT, and
 * LUDZEPIN_UNBOUND of ludzepin_marks, ludzepin_alias and ludzepin_values, name the asked or listed number, whatever it is: where that is 65,535, the
 * refusal tells that it is a name, for both of these always name. */
static inline uint32_t ludzepin_name(uint32_t answer) { return answer & 65535; }

/* The entries: those given if it is no refusal, those needed if it is LUDZEPIN_SHORT. */
static inline uint32_t ludzepin_entries(uint32_t answer) { return answer & 65535; }

/* The same of an answer of ludzepin_uses or ludzepin_use_counts; refusal and name of one of ludzepin_alias too. */
static inline uint32_t ludzepin_uses_refusal(uint64_t answer) { return (uint32_t)(answer >> 32); }
static inline uint32_t ludzepin_uses_name(uint64_t answer) { return (uint32_t)answer; }
static inline uint32_t ludzepin_uses_entries(uint64_t answer) { return (uint32_t)answer; }

/* The names crossed and the last of them in an answer of ludzepin_alias that is no refusal. */
static inline uint32_t ludzepin_alias_names(uint64_t answer) { return (uint32_t)answer >> 16; }
static inline uint32_t ludzepin_alias_last(uint64_t answer) { return (uint32_t)answer & 65535; }

/* Of an answer of ludzepin_values the refusal, 0 if it is none (ludzepin_uses_refusal would read one in LUDZEPIN_MANY); whether it is
 * LUDZEPIN_MANY; and the number, if it is neither. A refusal's name is that of ludzepin_uses_name. */
static inline uint32_t ludzepin_values_refusal(uint64_t answer) { return answer == LUDZEPIN_MANY ? 0 : (uint32_t)(answer >> 32); }
static inline uint32_t ludzepin_values_many(uint64_t answer) { return answer == LUDZEPIN_MANY; }
static inline uint32_t ludzepin_values_number(uint64_t answer) { return (uint32_t)answer; }

#ifdef __cplusplus
}
#endif

#endif
