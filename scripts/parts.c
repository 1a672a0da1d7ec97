/* parts: asks the library what is asked of it on standard input, for scripts/areas-of, which makes this program.
 *
 *   module SYMBOLS C11 C13 LENGTH    and LENGTH bytes, a module's stream: which part of it is the area, by c13_lines_part
 *   names LENGTH                     and LENGTH bytes, a string table stream: which part of it are the names, by c13_string_table
 *
 * A line is answered for each: `given START LENGTH`, or `refused NUMBER TEXT`. The status is 2 where a question is of another form or cut, or where
 * memory or output fails. */
#include "c13.h"
#include <stdio.h>
#include <stdlib.h>

/* The bytes behind a question; null where they are not all there. */
static uint8_t *bytes_of(size_t n) {
    uint8_t *bytes = (uint8_t *)malloc(n ? n : 1);
    if (bytes && fread(bytes, 1, n, stdin) == n) return bytes;
    free(bytes);
    return NULL;
}

static int answer(enum c13_status status, struct c13_part part, struct c13_refused why) {
    if (status == C13_GIVEN)
        printf("given %llu %llu\n", (unsigned long long)part.start, (unsigned long long)part.length);
    else
        printf("refused %u %s\n", (unsigned)why.number, c13_refusal_text(why.number));
    return fflush(stdout) == 0;
}

int main(void) {
    char line[128];
    while (fgets(line, sizeof line, stdin)) {
        struct c13_sizes sizes = {0, 0, 0};
        struct c13_part part = {0, 0};
        struct c13_refused why = {0, 0};
        enum c13_status status;
        unsigned long n = 0;
        int module = sscanf(line, "module %u %u %u %lu\n", &sizes.symbols, &sizes.c11, &sizes.c13, &n) == 4;
        uint8_t *bytes = module || sscanf(line, "names %lu\n", &n) == 1 ? bytes_of(n) : NULL;
        if (!bytes) return 2;
        status = module ? c13_ask_lines_part(bytes, n, sizes, &part, &why) : c13_ask_string_table(bytes, n, &part, &why);
        free(bytes);
        if (!answer(status, part, why)) return 2;
    }
    return ferror(stdin) ? 2 : 0;
}
