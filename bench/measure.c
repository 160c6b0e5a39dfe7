/* Measures the stack and the time of the functions in include/ludzepin.h:  measure BOOK ..
 *
 * Marks are asked over the definition list, values, uses, alias chain, projection and methods that change of the first name listed, of name 0 where
 * none is.
 * Prints a line for each book and function: the answer, the stack in KiB and the time in microseconds. A call runs on a stack of its own
 * that was filled before; what is no longer as it was has been used. Built code touches each page of a frame, so that this is right to a
 * page. The time is the least of the calls made within a fifth of a second, so it is that of a warm cache. */
#define _GNU_SOURCE
#include <stdio.h>
#include <string.h>
#include <time.h>
#include <ucontext.h>

#include "ask.h"

/* No book has more uses of a name. */
enum { STACK = 8 << 20, FILL = 0xa5, MEASURED_US = 200000, USES = 3143680 };

static uint8_t book[LUDZEPIN_BYTES + 1];
static uint16_t listed[LUDZEPIN_DEFINITIONS], out[3 * USES];
static uint32_t counts[LUDZEPIN_DEFINITIONS];
static struct asked asked = {.book = book, .limits = {LUDZEPIN_FULL}, .list = listed, .out = out, .places = 3 * USES, .counts = counts};
static const struct question *question;
static uint64_t answer;

static void ask(void) { answer = question->ask(&asked); }

static size_t stack_taken(void) {
    static uint8_t stack[STACK];
    static ucontext_t here, there;
    size_t untouched = 0;
    memset(stack, FILL, STACK);
    getcontext(&there);
    there.uc_stack.ss_sp = stack;
    there.uc_stack.ss_size = STACK;
    there.uc_link = &here;
    makecontext(&there, ask, 0);
    swapcontext(&here, &there);
    while (untouched < STACK && stack[untouched] == FILL)
        untouched++;
    return STACK - untouched;
}

static double now(void) {
    struct timespec t;
    clock_gettime(CLOCK_MONOTONIC, &t);
    return t.tv_sec * 1e6 + t.tv_nsec / 1e3;
}

static double microseconds_taken(void) {
    double least = MEASURED_US, end = now() + MEASURED_US;
    while (now() < end) {
        double from = now();
        ask();
        double taken = now() - from;
        least = taken < least ? taken : least;
    }
    return least;
}

int main(int argc, char **argv) {
    for (int i = 1; i < argc; i++) {
        FILE *file = fopen(argv[i], "rb");
        if (!file)
            return fprintf(stderr, "%s: cannot be read\n", argv[i]), 1;
        asked.bytes = fread(book, 1, sizeof book, file);
        fclose(file);
        listed[0] = 0;
        uint32_t list = ludzepin_list(book, asked.bytes, LUDZEPIN_FULL, listed, LUDZEPIN_DEFINITIONS);
        asked.count = ludzepin_refusal(list) ? 0 : ludzepin_entries(list);
        asked.name = asked.method = listed[0];
        for (question = QUESTIONS; question < QUESTIONS + QUESTION_COUNT; question++) {
            size_t stack = stack_taken();
            double time = microseconds_taken();
            printf("%s %s answer %llu stack %zu KiB time %.1f us\n", argv[i], question->word, (unsigned long long)answer, (stack + 1023) / 1024, time);
        }
    }
    return 0;
}
