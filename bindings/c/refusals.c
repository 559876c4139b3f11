/* One case of each number: reads the requests of bindings/refusals.txt (python/tests/refusals.py says what a request is), and prints of each the
 * number, its name and words, and the words of `out` that were written: a dot is a word that stayed. Of a module it prints the first error. */
#include <stdio.h>
#include <stdlib.h>
#include <string.h>

#include "starlark.h"
#include "starlark_names.h"

enum { MOST = 8, SENTINEL = 999999 };

/* An argument: bytes, words or counts and their number, or a number in `length`. */
struct argument {
    void *at;
    size_t length;
};

static int hex(int digit) {
    return digit <= '9' ? digit - '0' : digit - 'a' + 10;
}

static struct argument bytes(char *text) {
    char *times = strchr(text, '*');
    size_t length = (times ? (size_t)(times - text) : strlen(text)) / 2, repeated = times ? strtoul(times + 1, NULL, 10) : 1;
    uint8_t *at = malloc(length * repeated + 1);
    for (size_t i = 0; i < length * repeated; i++) at[i] = hex(text[2 * (i % length)]) << 4 | hex(text[2 * (i % length) + 1]);
    return (struct argument){at, length * repeated};
}

static struct argument words(char *text) {
    uint32_t *at = malloc(64 * sizeof *at);
    size_t length = 0;
    for (char *word = text; *word; word += *word == ',') at[length++] = strtoul(word, &word, 10);
    return (struct argument){at, length};
}

static struct argument argument(char *text) {
    size_t length = text[0] && text[1] == ':' ? strtoul(text + 2, NULL, 10) : 0;
    if (!strncmp(text, "x:", 2)) return bytes(text + 2);
    if (!strncmp(text, "p:", 2)) return words(text + 2);
    if (!strncmp(text, "b:", 2)) return (struct argument){memset(malloc(length + 1), 9, length + 1), length};
    if (!strncmp(text, "w:", 2)) return (struct argument){calloc(length + 1, 4), length};
    if (!strncmp(text, "c:", 2)) {
        uint64_t *counts = calloc(STARLARK_FIGURES, sizeof *counts);
        counts[STARLARK_FIGURE_FILES] = length;
        return (struct argument){counts, STARLARK_FIGURES};
    }
    return (struct argument){NULL, strtoul(text, NULL, 10)};
}

/* Runs a job; its number, or the first number of a module's list, or a notice. `*listed` is then 1. */
static uint32_t run(const char *job, struct argument *a, uint32_t *out, int *listed) {
#define BUFFER(i) a[i].at, a[i].length
#define TABLE BUFFER(0), BUFFER(1)
    if (!strcmp(job, "table")) return starlark_table(TABLE, out);
    if (!strcmp(job, "params")) return starlark_params(TABLE, a[2].length, BUFFER(3), out);
    if (!strcmp(job, "call")) return starlark_call(TABLE, a[2].length, out);
    if (!strcmp(job, "target")) return starlark_target(TABLE, a[2].length, out);
    if (!strcmp(job, "assignment")) return starlark_assignment(TABLE, a[2].length, out);
    if (!strcmp(job, "type")) return starlark_type(TABLE, BUFFER(2), a[3].length, a[4].length, BUFFER(5), out);
    if (!strcmp(job, "bind")) return starlark_bind(TABLE, a[2].length, a[3].length, BUFFER(4), out);
    if (!strcmp(job, "read")) return starlark_read(BUFFER(0), BUFFER(1), BUFFER(2), out);
    if (!strcmp(job, "rescue")) return starlark_rescue(BUFFER(0), BUFFER(1), out);
    if (!strcmp(job, "fstring_read")) return starlark_fstring_read(BUFFER(0), BUFFER(1), BUFFER(2), out);
    if (!strcmp(job, "book_lookup")) return starlark_book_lookup(TABLE, a[2].length, a[3].length, out);
    if (!strcmp(job, "book_add")) return starlark_book_add(TABLE, a[2].length, a[3].length, BUFFER(4), out);
    if (!strcmp(job, "figures_step")) return starlark_figures_step(BUFFER(0), a[1].at, out);
    if (!strcmp(job, "fstring_write")) {
        uint32_t number = starlark_fstring_write(BUFFER(0), BUFFER(1), BUFFER(2), BUFFER(3), out);
        *listed = number == STARLARK_ACCEPTED;
        return *listed ? out[2] : number;
    }
    if (!strcmp(job, "module")) {
        uint32_t number = starlark_module(TABLE, BUFFER(2), BUFFER(3), out);
        *listed = number == STARLARK_ACCEPTED;
        return *listed ? *(uint32_t *)a[3].at : number;
    }
    fprintf(stderr, "refusals: there is no job %s\n", job);
    exit(2);
}

int main(int count, char **words_given) {
    FILE *file = count == 2 ? fopen(words_given[1], "r") : NULL;
    char *line = malloc(1 << 16);
    int failed = 0;
    if (!file) return 2;
    while (fgets(line, 1 << 16, file)) {
        struct argument a[MOST] = {{NULL, 0}};
        uint32_t out[STARLARK_WORDS];
        int listed = 0, at = 0;
        line[strcspn(line, "\n")] = 0;
        uint32_t wanted = strtoul(strtok(line, " "), NULL, 10);
        const char *job = strtok(NULL, " ");
        for (char *text; at < MOST && (text = strtok(NULL, " "));) a[at++] = argument(text);
        for (int i = 0; i < STARLARK_WORDS; i++) out[i] = SENTINEL;
        uint32_t number = run(job, a, out, &listed);
        printf("%u %s: %s; %s", number, starlark_number_name(number), starlark_number_words(number), listed ? "accepted, out" : "out");
        for (int i = 0; i < STARLARK_WORDS; i++) {
            if (out[i] == SENTINEL) printf(" .");
            else if (out[i] == STARLARK_NONE) printf(" none");
            else printf(" %u", out[i]);
        }
        printf("\n");
        failed |= number != wanted;
        for (int i = 0; i < MOST; i++) free(a[i].at);
    }
    return failed;
}
