/* Checks a book and lists its definitions by name number:  list BOOK [PLACES]
 *
 * PLACES are those lent for the list, 512 if none are given. The exit status is 0 if the book is listed, 1 if it is refused, and 2 if the
 * program failed: it was called wrongly, or the book could not be read or the answer not be written. What failed is told on standard error. */
#include <errno.h>
#include <stdio.h>
#include <stdlib.h>
#include <string.h>

#include "ludzepin.h"

enum { LISTED, REFUSED, FAILED };

static int failed(const char *what) {
    fprintf(stderr, "list: %s: %s\n", what, strerror(errno));
    return FAILED;
}

static int refused(const char *question, uint32_t answer) {
    if (ludzepin_refusal(answer) == LUDZEPIN_SHORT)
        printf("%s refused %d needed %u\n", question, LUDZEPIN_SHORT, ludzepin_entries(answer));
    else if (ludzepin_name(answer) == LUDZEPIN_NO_NAME)
        printf("%s refused %u -\n", question, ludzepin_refusal(answer));
    else
        printf("%s refused %u name %u\n", question, ludzepin_refusal(answer), ludzepin_name(answer));
    return REFUSED;
}

static int list(const uint8_t *book, size_t bytes, size_t places) {
    static uint16_t names[LUDZEPIN_DEFINITIONS];
    uint32_t checked = ludzepin_check(book, bytes, LUDZEPIN_FULL);
    if (checked)
        return refused("check", checked);
    printf("check passed\n");
    uint32_t listed = ludzepin_list(book, bytes, LUDZEPIN_FULL, names, places);
    if (ludzepin_refusal(listed))
        return refused("list", listed);
    printf("list %u\n", ludzepin_entries(listed));
    for (uint32_t i = 0; i < ludzepin_entries(listed); i++)
        printf("%u\n", (unsigned)names[i]);
    return LISTED;
}

int main(int argc, char **argv) {
    static uint8_t book[LUDZEPIN_BYTES + 1]; /* a longer file is refused and never cut */
    char *end = "";
    size_t places = argc > 2 ? strtoul(argv[2], &end, 10) : LUDZEPIN_DEFINITIONS;
    if (argc < 2 || argc > 3 || *end || places > LUDZEPIN_DEFINITIONS) {
        fprintf(stderr, "usage: list BOOK [PLACES]\n");
        return FAILED;
    }
    FILE *file = fopen(argv[1], "rb");
    if (!file)
        return failed(argv[1]);
    size_t bytes = fread(book, 1, sizeof book, file);
    if (ferror(file))
        return failed(argv[1]);
    fclose(file);

    int status = list(book, bytes, places);
    return fflush(stdout) ? failed("standard output") : status;
}
