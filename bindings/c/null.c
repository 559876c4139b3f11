/* A pointer of length 0 is never read or written through: each function is run with each choice of its buffers left empty, three times: the empty
 * ones at an address that may be touched, at NULL, and on a page that may not be touched. Number, words and buffers must be the same each time.
 * Exits with 1 where they are not; a touch of NULL or of the page ends it by a signal. */
#define _GNU_SOURCE
#include <stdio.h>
#include <string.h>
#include <sys/mman.h>

#include "starlark.h"

enum { MOST_PARTS = 4, PAGE = 65536, BUFFER = 4096 };

/* a buffer, and the number of its elements */
struct part {
    void *at;
    size_t length;
};

/* def f(a): break, then f(a): a table of nine nodes, each with its kind, size and name length; all names are byte 0, and
 * all nodes but the root are of source file 1 */
static const uint8_t shape[9][3] = {{STARLARK_KIND_STATEMENTS, 9, 0}, {STARLARK_KIND_DEF, 3, 0},       {STARLARK_KIND_NORMAL, 1, 1},
                                    {STARLARK_KIND_BREAK, 1, 0},      {STARLARK_KIND_ASSIGN, 5, 0},    {STARLARK_KIND_IDENTIFIER, 1, 1},
                                    {STARLARK_KIND_CALL, 3, 0},       {STARLARK_KIND_IDENTIFIER, 1, 1}, {STARLARK_KIND_POSITIONAL, 1, 0}};
enum { NODES = 10, DEF = 1, ASSIGN = 4, TARGET = 5, CALL = 6 };
static uint8_t table[NODES * STARLARK_NODE_BYTES], names[1] = {'a'}, file[BUFFER];
static uint8_t dialect[9] = {1, 1, 1, 1, 0, 2, 1, 1, 0}, zones[512], line[512];
static size_t file_length;
/* a format text, and its parts: a text of one byte and an expression */
static uint8_t text[3] = {'a', '{', '}'};
static uint32_t words[4] = {0, 1, 1, 0};

static void make_table(void) {
    for (int i = 0; i < NODES; i++) {
        uint8_t *at = table + STARLARK_NODE_BYTES * i;
        at[0] = i < 9 ? shape[i][0] : STARLARK_KIND_IDENTIFIER;
        at[16] = i < 9 ? shape[i][1] + (i == 0 || i == ASSIGN || i == CALL || i == 8) : 1;
        at[2] = i < 9 ? shape[i][2] : 1;
        at[18] = i > 0;
    }
}

#define PART(i) part[i].at, part[i].length
static uint32_t run_table(const struct part *part, uint32_t *out) { return starlark_table(PART(0), PART(1), out); }
static uint32_t run_params(const struct part *part, uint32_t *out) { return starlark_params(PART(0), PART(1), DEF, PART(2), out); }
static uint32_t run_call(const struct part *part, uint32_t *out) { return starlark_call(PART(0), PART(1), CALL, out); }
static uint32_t run_bind(const struct part *part, uint32_t *out) { return starlark_bind(PART(0), PART(1), CALL, DEF, PART(2), out); }
static uint32_t run_namesakes(const struct part *part, uint32_t *out) { return starlark_namesakes(PART(0), PART(1), CALL, DEF, PART(2), out); }
static uint32_t run_target(const struct part *part, uint32_t *out) { return starlark_target(PART(0), PART(1), TARGET, out); }
static uint32_t run_assignment(const struct part *part, uint32_t *out) { return starlark_assignment(PART(0), PART(1), ASSIGN, out); }
static uint32_t run_type(const struct part *part, uint32_t *out) { return starlark_type(PART(0), PART(1), PART(2), STARLARK_EDITION_1, TARGET, PART(3), out); }
static uint32_t run_module(const struct part *part, uint32_t *out) { return starlark_module(PART(0), PART(1), PART(2), PART(3), out); }
static uint32_t run_audit(const struct part *part, uint32_t *out) { return starlark_audit(PART(0), PART(1), PART(2), STARLARK_EDITION_1, PART(3), out); }
static uint32_t run_write(const struct part *part, uint32_t *out) { return starlark_write(PART(0), PART(1), PART(2), STARLARK_NONE, PART(3), out); }
static uint32_t run_rescue(const struct part *part, uint32_t *out) { return starlark_rescue(PART(0), PART(1), out); }
static uint32_t run_read(const struct part *part, uint32_t *out) { return starlark_read(PART(0), PART(1), PART(2), out); }
static uint32_t run_check_file(const struct part *part, uint32_t *out) { return starlark_check_file(PART(0), PART(1), out); }
static uint32_t run_fstring_write(const struct part *part, uint32_t *out) {
    return starlark_fstring_write(PART(0), PART(1), PART(2), PART(3), out);
}
static uint32_t run_fstring_read(const struct part *part, uint32_t *out) { return starlark_fstring_read(PART(0), PART(1), PART(2), out); }
static uint32_t run_book_lookup(const struct part *part, uint32_t *out) { return starlark_book_lookup(PART(0), PART(1), 7, 1, out); }
static uint32_t run_book_add(const struct part *part, uint32_t *out) { return starlark_book_add(PART(0), PART(1), 7, 2, PART(2), out); }
static uint32_t run_book_remove(const struct part *part, uint32_t *out) { return starlark_book_remove(PART(0), PART(1), 7, 1, out); }
static uint64_t counts[STARLARK_FIGURES];
static uint32_t run_figures(const struct part *part, uint32_t *out) { return starlark_figures(PART(0), counts, out); }
static uint32_t run_figures_step(const struct part *part, uint32_t *out) { return starlark_figures_step(PART(0), counts, out); }
static uint32_t run_book_blank(const struct part *part, uint32_t *out) { return starlark_book_blank(PART(0), out); }

/* what a part is: a buffer that is read, one of bytes that is written, or one of words; a job's parts in the order of its arguments */
static const struct job {
    const char *name, *parts;
    uint32_t (*run)(const struct part *, uint32_t *);
} jobs[] = {{"table", "tn", run_table},   {"params", "tnb", run_params}, {"call", "tn", run_call},
            {"bind", "tnw", run_bind},    {"target", "tn", run_target},  {"assignment", "tn", run_assignment},
            {"type", "tndb", run_type},   {"module", "tndw", run_module}, {"write", "tndb", run_write},
            {"rescue", "fb", run_rescue}, {"read", "fbb", run_read},     {"check_file", "fw", run_check_file},
            {"audit", "tndw", run_audit}, {"fstring_write", "pndb", run_fstring_write}, {"fstring_read", "xwb", run_fstring_read},
            {"book_lookup", "zl", run_book_lookup}, {"book_add", "ZLd", run_book_add}, {"book_remove", "ZL", run_book_remove},
            {"book_blank", "b", run_book_blank}, {"figures", "f", run_figures}, {"figures_step", "f", run_figures_step},
            {"namesakes", "tnw", run_namesakes}};
enum { JOBS = sizeof jobs / sizeof *jobs };

/* What a run leaves: its number, its words, and the buffers that it writes. */
struct left {
    uint32_t number, out[STARLARK_WORDS], buffers[MOST_PARTS][BUFFER / 4];
};

static void run(const struct job *job, unsigned empty, void *nowhere, struct left *left) {
    struct part part[MOST_PARTS];
    memset(left, 9, sizeof *left);
    for (int i = 0; job->parts[i]; i++) {
        switch (job->parts[i]) {
        case 't': part[i] = (struct part){table, sizeof table}; break;
        case 'n': part[i] = (struct part){names, sizeof names}; break;
        case 'd': part[i] = (struct part){dialect, sizeof dialect}; break;
        case 'p': part[i] = (struct part){words, sizeof words / sizeof *words}; break;
        case 'x': part[i] = (struct part){text, sizeof text}; break;
        case 'f': part[i] = (struct part){file, file_length}; break;
        case 'b': part[i] = (struct part){left->buffers[i], BUFFER}; break;
        case 'z': part[i] = (struct part){zones, sizeof zones}; break;
        case 'l': part[i] = (struct part){line, sizeof line}; break;
        case 'Z': part[i] = (struct part){memcpy(left->buffers[i], zones, sizeof zones), sizeof zones}; break;
        case 'L': part[i] = (struct part){memcpy(left->buffers[i], line, sizeof line), sizeof line}; break;
        default: part[i] = (struct part){left->buffers[i], BUFFER / 4};
        }
        if (empty >> i & 1) part[i] = (struct part){nowhere, 0};
    }
    left->number = job->run(part, left->out);
}

int main(void) {
    uint32_t out[STARLARK_WORDS];
    static struct left here, null, page;
    uint8_t touched = 0;
    void *forbidden = mmap(0, PAGE, PROT_NONE, MAP_PRIVATE | MAP_ANONYMOUS, -1, 0);
    int runs = 0, accepted = 0, faults = 0;
    make_table();
    if (forbidden == MAP_FAILED || starlark_write(table, sizeof table, names, 1, dialect, 9, STARLARK_NONE, file, sizeof file, out) != STARLARK_ACCEPTED) {
        printf("null: the table is not written\n");
        return 1;
    }
    file_length = out[0];
    if (starlark_book_blank(zones, sizeof zones, out) != STARLARK_ACCEPTED || starlark_book_blank(line, sizeof line, out) != STARLARK_ACCEPTED ||
        starlark_book_add(zones, sizeof zones, line, sizeof line, 7, 1, dialect, 9, out) != STARLARK_ACCEPTED) {
        printf("null: the books are not made\n");
        return 1;
    }
    for (size_t j = 0; j < JOBS; j++) {
        for (unsigned empty = 0; empty < 1u << strlen(jobs[j].parts); empty++) {
            run(&jobs[j], empty, &touched, &here);
            run(&jobs[j], empty, NULL, &null);
            run(&jobs[j], empty, (uint8_t *)forbidden + PAGE / 2, &page);
            runs++;
            accepted += here.number == STARLARK_ACCEPTED;
            if (empty == 0 && here.number != STARLARK_ACCEPTED) faults++;
            if (memcmp(&here, &null, sizeof here) == 0 && memcmp(&here, &page, sizeof here) == 0 && touched == 0) continue;
            printf("null: %s with its empty buffers %#x answers %u, with NULL %u, on the page %u, or leaves something else\n", jobs[j].name, empty,
                   here.number, null.number, page.number);
            faults++;
        }
    }
    printf("null: %d functions, %d choices of empty buffers, %d of them accepted: NULL is as any other pointer of length 0\n", JOBS, runs, accepted);
    return faults > 0;
}
