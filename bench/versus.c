/* versus ROUNDS turn|again|each LIBRARY... -- FILE...: times the same jobs of several shared libraries on the same table files in one process.
 * The jobs: the table check, the module pass and the audit in Extended, a file to its errors. In a round every library does a job on each file once,
 * so that no table is in turn twice; the libraries take turns. For each file the least time of all rounds counts, so that other work on the machine
 * matters little. Given are nanoseconds a node, and behind them the ratio to the first library. `turn` is a row for each job, the sum over all files
 * by the sum of their nodes; `again` the same, but a file is done four times before it is timed, as a benchmark of one table does; `each` is a row
 * for each file by itself. All libraries must answer alike, else it ends with 1. */
#define _GNU_SOURCE
#include <dlfcn.h>
#include <stdio.h>
#include <stdlib.h>
#include <string.h>
#include <time.h>
#include "starlark.h"

enum { MOST_LIBRARIES = 4, MOST_FILES = 1000, JOBS = 4, CONTENT = 504, BLOCK = 512 };
static const char *const words[JOBS] = {"table check", "module pass", "file to errors", "audit"};
static const uint8_t extended[9] = {1, 1, 1, 1, 0, 2, 1, 1, 0};

struct library {
    const char *path;
    uint32_t (*table)(const uint8_t *, size_t, const uint8_t *, size_t, uint32_t *);
    uint32_t (*module)(const uint8_t *, size_t, const uint8_t *, size_t, const uint8_t *, size_t, uint32_t *, size_t, uint32_t *);
    uint32_t (*audit)(const uint8_t *, size_t, const uint8_t *, size_t, const uint8_t *, size_t, uint32_t, uint32_t *, size_t, uint32_t *);
    uint32_t (*file)(const uint8_t *, size_t, uint32_t *, size_t, uint32_t *);
};

struct input {
    const char *path;
    uint8_t *file, *table, *names;
    size_t file_len, table_len, names_len;
};

static struct library libraries[MOST_LIBRARIES];
static struct input inputs[MOST_FILES];
static size_t library_count, input_count;
static int before; /* how often a file is done before it is timed */
static uint32_t errors[STARLARK_AUDIT_WORDS * STARLARK_AUDIT_ERRORS], out[STARLARK_WORDS];

static void fail(const char *what, const char *of) {
    fprintf(stderr, "versus: %s: %s\n", of, what);
    exit(2);
}

static void *symbol(void *from, const char *path, const char *name) {
    void *found = dlsym(from, name);
    if (!found)
        fail("has not all of the functions", path);
    return found;
}

static void open_library(const char *path) {
    struct library *l = &libraries[library_count++];
    void *from = dlopen(path, RTLD_NOW | RTLD_LOCAL);
    if (!from)
        fail(dlerror(), path);
    l->path = path;
    *(void **)&l->table = symbol(from, path, "starlark_table");
    *(void **)&l->module = symbol(from, path, "starlark_module");
    *(void **)&l->audit = symbol(from, path, "starlark_audit");
    *(void **)&l->file = symbol(from, path, "starlark_check_file");
}

/* the contents of blocks from `block` on */
static uint8_t *contents(const struct input *in, size_t block, size_t len) {
    uint8_t *all = malloc(len + 1);
    for (size_t at = 0; at < len; at += CONTENT)
        memcpy(all + at, in->file + BLOCK * (block + at / CONTENT) + 4, len - at < CONTENT ? len - at : CONTENT);
    return all;
}

static void read_file(const char *path) {
    struct input *in = &inputs[input_count++];
    FILE *from = fopen(path, "rb");
    in->path = path;
    in->file = malloc(STARLARK_FILE_BYTES + 1);
    if (!from)
        fail("cannot be opened", path);
    in->file_len = fread(in->file, 1, STARLARK_FILE_BYTES + 1, from);
    fclose(from);
    if (libraries[0].file(in->file, in->file_len, errors, 0, out))
        fail("is no table file", path);
    in->table_len = 24 * (size_t)(in->file[4] | in->file[5] << 8);
    in->names_len = in->file[6] | in->file[7] << 8;
    in->names = contents(in, 1, in->names_len);
    in->table = contents(in, 1 + (in->names_len + CONTENT - 1) / CONTENT, in->table_len);
}

static uint32_t run(const struct library *l, const struct input *in, int job) {
    size_t room = sizeof errors / sizeof *errors;
    switch (job) {
    case 0: return l->table(in->table, in->table_len, in->names, in->names_len, out);
    case 1: return l->module(in->table, in->table_len, in->names, in->names_len, extended, 9, errors, room, out);
    case 2: return l->file(in->file, in->file_len, errors, room, out);
    default: return l->audit(in->table, in->table_len, in->names, in->names_len, extended, 9, 1, errors, room, out);
    }
}

static double now(void) {
    struct timespec t;
    clock_gettime(CLOCK_MONOTONIC, &t);
    return 1e9 * t.tv_sec + t.tv_nsec;
}

/* a row: the least time of a job on files from `first` on, a node */
static void row(const char *name, int job, size_t first, size_t end, int rounds) {
    static double least[MOST_LIBRARIES][MOST_FILES];
    double sum[MOST_LIBRARIES] = {0}, nodes = 0;
    static uint32_t expected[sizeof errors / sizeof *errors];
    for (size_t i = first; i < end; i++) {
        uint32_t number = 0, total = 0;
        nodes += inputs[i].table_len / 24;
        for (size_t l = 0; l < library_count; l++) {
            memset(errors, 0, sizeof errors);
            memset(out, 0, sizeof out);
            uint32_t found = run(&libraries[l], &inputs[i], job);
            if (l && (found != number || out[0] != total || memcmp(errors, expected, sizeof errors))) {
                fprintf(stderr, "versus: %s: %s answers otherwise\n", inputs[i].path, libraries[l].path);
                exit(1);
            }
            number = found, total = out[0];
            memcpy(expected, errors, sizeof errors);
        }
    }
    for (int round = 0; round < rounds; round++)
        for (size_t l = 0; l < library_count; l++)
            for (size_t i = first; i < end; i++) {
                for (int again = 0; again < before; again++)
                    run(&libraries[l], &inputs[i], job);
                double began = now();
                run(&libraries[l], &inputs[i], job);
                double took = now() - began;
                least[l][i] = round == 0 || took < least[l][i] ? took : least[l][i];
            }
    for (size_t l = 0; l < library_count; l++)
        for (size_t i = first; i < end; i++)
            sum[l] += least[l][i];
    printf("| %s | %s |", name, words[job]);
    for (size_t l = 0; l < library_count; l++) {
        printf(" %.1f |", sum[l] / nodes);
        if (l)
            printf(" %.2f |", sum[l] / sum[0]);
    }
    printf("\n");
}

int main(int argc, char **argv) {
    int at = 3;
    if (argc < 6)
        return 2;
    for (; at < argc && strcmp(argv[at], "--"); at++)
        if (library_count < MOST_LIBRARIES)
            open_library(argv[at]);
    for (at++; at < argc && input_count < MOST_FILES; at++)
        read_file(argv[at]);
    int each = !strcmp(argv[2], "each");
    before = strcmp(argv[2], "again") ? 0 : 4;
    for (size_t i = 0; i < (each ? input_count : 1); i++) {
        char name[80];
        const char *slash = strrchr(inputs[i].path, '/');
        snprintf(name, sizeof name, "%s", each ? slash ? slash + 1 : inputs[i].path : before ? "corpus, each repeated" : "corpus, each in turn");
        if (each && strrchr(name, '.'))
            *strrchr(name, '.') = 0;
        for (int job = 0; job < JOBS; job++)
            row(name, job, each ? i : 0, each ? i + 1 : input_count, atoi(argv[1]));
    }
    return 0;
}
