/* Measures what stack each job needs: it runs on a stack of its own that is made smaller and smaller, down to the smallest on which it
 * still ends. A stack that is too small meets a page that may not be touched, so each try is a process of its own.
 * Prints a line for each shape of table: the bytes of the smallest stack for each job that takes the node, then the number that it
 * answers, and the most at the end.
 * Exits with 1 where a job needs more than half of STARLARK_STACK_BYTES. */
#define _GNU_SOURCE
#include <stdio.h>
#include <stdlib.h>
#include <string.h>
#include <sys/mman.h>
#include <sys/wait.h>
#include <ucontext.h>
#include <unistd.h>

#include "starlark.h"

enum { MOST = 4 << 20, PAGE = 65536, STEP = 256 };
enum { STATEMENTS = STARLARK_KIND_STATEMENTS, DEF = STARLARK_KIND_DEF, FOR = STARLARK_KIND_FOR, IF = STARLARK_KIND_IF };
enum { BREAK = STARLARK_KIND_BREAK, SIMPLE = STARLARK_KIND_OTHER_SIMPLE, ASSIGN = STARLARK_KIND_ASSIGN, TUPLE = STARLARK_KIND_TUPLE };
enum { CALL = STARLARK_KIND_CALL, INDEX = STARLARK_KIND_INDEX, INDEX2 = STARLARK_KIND_INDEX2, IDENTIFIER = STARLARK_KIND_IDENTIFIER };
enum { LAMBDA = STARLARK_KIND_LAMBDA, ELLIPSIS = STARLARK_KIND_ELLIPSIS, NOT = STARLARK_KIND_NOT, OP = STARLARK_KIND_OP };
enum { LIST = STARLARK_KIND_LIST, NORMAL = STARLARK_KIND_NORMAL, ARGS = STARLARK_KIND_ARGS_PARAM };
enum { POSITIONAL = STARLARK_KIND_POSITIONAL, NAMED = STARLARK_KIND_NAMED, KW_ARGS = STARLARK_KIND_KW_ARGS_ARG };

static uint8_t table[STARLARK_NODES * STARLARK_NODE_BYTES];
static size_t nodes;
static uint8_t names[STARLARK_NAME_BYTES];
static uint8_t buffer[STARLARK_NODES];
static uint32_t errors[STARLARK_AUDIT_WORDS * STARLARK_AUDIT_ERRORS];
static uint32_t list[2 * STARLARK_NODES];
static uint8_t file[STARLARK_FILE_BYTES];
static uint32_t out[STARLARK_WORDS];
/* every switch on, so that types are read; every switch off, so that each error is given */
static const uint8_t all_on[9] = {1, 1, 1, 1, 1, 2, 1, 1, 1};
static const uint8_t all_off[9] = {0};

/* Nodes are opened and closed; a node's size is filled in when it is closed. All are of source file 1; a root Statements has 0. */
static size_t open_node(int kind, int detail) {
    uint8_t *at = table + STARLARK_NODE_BYTES * nodes;
    memset(at, 0, STARLARK_NODE_BYTES);
    at[0] = kind;
    at[1] = detail;
    at[18] = nodes > 0 || kind != STATEMENTS;
    if (kind == IDENTIFIER || kind == NORMAL || kind == ARGS || kind == NAMED) {
        /* three bytes of a name of its own */
        at[2] = 3;
        at[4] = nodes * 3 & 255;
        at[5] = nodes * 3 >> 8;
        names[nodes * 3] = 'a' + nodes % 26;
        names[nodes * 3 + 1] = 'a' + nodes / 26 % 26;
        names[nodes * 3 + 2] = 'a' + nodes / 676;
    }
    return nodes++;
}

static void close_node(size_t at) {
    size_t size = nodes - at;
    table[STARLARK_NODE_BYTES * at + 16] = size & 255;
    table[STARLARK_NODE_BYTES * at + 17] = size >> 8;
}

static void leaf(int kind) { close_node(open_node(kind, 0)); }

/* An argument; a named one has the name of another node. */
static void argument(int kind, size_t name_of) {
    size_t at = open_node(kind, 0);
    if (kind == NAMED) memcpy(table + STARLARK_NODE_BYTES * at + 2, table + STARLARK_NODE_BYTES * name_of + 2, 6);
    leaf(ELLIPSIS);
    close_node(at);
}

/* A job on the current table, which leaves its number. The binding job has the Def's node beside it. */
static size_t job_node, job_def;
static uint32_t number;
static void run_table(void) { number = starlark_table(table, STARLARK_NODE_BYTES * nodes, names, sizeof names, out); }
static void run_params(void) {
    number = starlark_params(table, STARLARK_NODE_BYTES * nodes, names, sizeof names, job_node, buffer, sizeof buffer, out);
}
static void run_call(void) { number = starlark_call(table, STARLARK_NODE_BYTES * nodes, names, sizeof names, job_node, out); }
static void run_target(void) { number = starlark_target(table, STARLARK_NODE_BYTES * nodes, names, sizeof names, job_node, out); }
static void run_assignment(void) { number = starlark_assignment(table, STARLARK_NODE_BYTES * nodes, names, sizeof names, job_node, out); }
static void run_type(void) {
    number = starlark_type(table, STARLARK_NODE_BYTES * nodes, names, sizeof names, all_on, 9, STARLARK_EDITION_1, job_node, buffer, sizeof buffer, out);
}
static void run_module(void) {
    number = starlark_module(table, STARLARK_NODE_BYTES * nodes, names, sizeof names, all_on, 9, errors, STARLARK_ERROR_WORDS * STARLARK_ERRORS, out);
}
static void run_refusing(void) {
    number = starlark_module(table, STARLARK_NODE_BYTES * nodes, names, sizeof names, all_off, 9, errors, STARLARK_ERROR_WORDS * STARLARK_ERRORS, out);
}

static void run_write(void) {
    number = starlark_write(table, STARLARK_NODE_BYTES * nodes, names, sizeof names, all_on, 9, STARLARK_EDITION_2, file, sizeof file, out);
}

static void run_bind(void) {
    number = starlark_bind(table, STARLARK_NODE_BYTES * nodes, names, sizeof names, job_node, job_def, list, 2 * STARLARK_NODES, out);
}

static void run_namesakes(void) {
    number = starlark_namesakes(table, STARLARK_NODE_BYTES * nodes, names, sizeof names, job_node, job_def, list, 2 * STARLARK_NODES, out);
}

/* The table's file without its last byte: the largest cut of its records, if there is one. The file is made before, in other memory. */
static uint8_t damaged[STARLARK_FILE_BYTES];
static size_t damaged_bytes;
static void damage(void) {
    uint32_t words[STARLARK_WORDS];
    damaged_bytes = 0;
    if (starlark_write(table, STARLARK_NODE_BYTES * nodes, names, sizeof names, all_on, 9, STARLARK_EDITION_2, damaged, sizeof damaged, words) == 0) {
        damaged_bytes = words[0] - 1;
    }
}
static void run_rescue(void) { number = starlark_rescue(damaged, damaged_bytes, file, sizeof file, out); }
static void run_rescue_whole(void) { number = starlark_rescue(damaged, damaged_bytes + 1, file, sizeof file, out); }
static void run_audit(void) {
    number = starlark_audit(table, STARLARK_NODE_BYTES * nodes, names, sizeof names, all_on, 9, STARLARK_EDITION_1, errors, STARLARK_AUDIT_WORDS * STARLARK_AUDIT_ERRORS, out);
}
static void run_audit_off(void) {
    number = starlark_audit(table, STARLARK_NODE_BYTES * nodes, names, sizeof names, all_off, 9, STARLARK_EDITION_1, errors, STARLARK_AUDIT_WORDS * STARLARK_AUDIT_ERRORS, out);
}
/* The whole file, into buffers of their own. */
static uint8_t read_table[STARLARK_NODES * STARLARK_NODE_BYTES], read_names[STARLARK_NAME_BYTES];
static void run_read(void) { number = starlark_read(damaged, damaged_bytes + 1, read_table, sizeof read_table, read_names, sizeof read_names, out); }
static void run_check_file(void) { number = starlark_check_file(damaged, damaged_bytes + 1, errors, STARLARK_ERROR_WORDS * STARLARK_ERRORS, out); }

/* A format text of as many bytes as the table has, of bytes, doubled braces and expressions, and its parts. */
static uint8_t text[sizeof table], texts[sizeof table];
static uint32_t parts[2 * sizeof table];
static size_t text_bytes, part_words, part_bytes;
static void run_fstring_read(void) {
    number = starlark_fstring_read(text, text_bytes, parts, sizeof parts / sizeof *parts, texts, sizeof texts, out);
}
static void run_fstring_write(void) {
    number = starlark_fstring_write(parts, part_words, texts, part_bytes, all_on, 9, text, sizeof text, out);
}
static void make_format(void) {
    static const char form[] = "a{{{}}}{!r}";
    size_t length = sizeof form - 1;
    while (text_bytes + length <= sizeof text) {
        memcpy(text + text_bytes, form, length);
        text_bytes += length;
    }
    run_fstring_read();
    part_words = 2 * (size_t)out[0];
    part_bytes = out[2];
}

/* Two books of 100 blocks. */
static uint8_t zone_book[51200], line_book[51200];
static void run_book_lookup(void) { number = starlark_book_lookup(zone_book, sizeof zone_book, line_book, sizeof line_book, 7, 4, out); }
static void run_book_add(void) {
    number = starlark_book_add(zone_book, sizeof zone_book, line_book, sizeof line_book, 7, 1, all_on, 9, out);
}
static void run_book_remove(void) { number = starlark_book_remove(zone_book, sizeof zone_book, line_book, sizeof line_book, 7, 1, out); }

/* Figures of the file that check of a file has. */
static uint64_t figures[STARLARK_FIGURES];
static void run_figures(void) { number = starlark_figures(damaged, damaged_bytes + 1, figures, out); }

struct job {
    const char *name;
    void (*run)(void);
    size_t most;
} jobs[] = {{"table", run_table, 0}, {"params", run_params, 0}, {"call", run_call, 0}, {"target", run_target, 0}, {"assignment", run_assignment, 0}, {"type", run_type, 0},
          {"module", run_module, 0}, {"module with all switches off", run_refusing, 0}, {"write", run_write, 0}, {"bind", run_bind, 0}, {"namesakes", run_namesakes, 0},
          {"rescue of a cut file", run_rescue, 0}, {"rescue of a whole file", run_rescue_whole, 0}, {"read of a file", run_read, 0},
          {"check of a file", run_check_file, 0}, {"audit", run_audit, 0}, {"audit with all switches off", run_audit_off, 0},
          {"fstring_read", run_fstring_read, 0}, {"fstring_write", run_fstring_write, 0},
          {"lookup in books", run_book_lookup, 0}, {"addition to a book", run_book_add, 0}, {"removal from a book", run_book_remove, 0},
          {"figures of a file", run_figures, 0}};
enum { JOBS = sizeof jobs / sizeof *jobs };

/* Whether a job ends on a stack of this many bytes. */
static int ends_on(void (*run)(void), size_t bytes) {
    fflush(stdout);
    pid_t child = fork();
    if (child == 0) {
        size_t room = (bytes + PAGE - 1) / PAGE * PAGE;
        uint8_t *low = mmap(0, room + PAGE, PROT_READ | PROT_WRITE, MAP_PRIVATE | MAP_ANONYMOUS, -1, 0);
        if (low == MAP_FAILED || mprotect(low, PAGE, PROT_NONE) != 0) _exit(3);
        ucontext_t here, there;
        getcontext(&there);
        there.uc_stack.ss_sp = low + PAGE;
        there.uc_stack.ss_size = bytes;
        there.uc_link = &here;
        makecontext(&there, run, 0);
        swapcontext(&here, &there);
        _exit(0);
    }
    int status = 0;
    if (child < 0 || waitpid(child, &status, 0) != child || (WIFEXITED(status) && WEXITSTATUS(status) != 0)) {
        perror("stack: a try could not be made");
        exit(2);
    }
    return WIFEXITED(status);
}

static size_t smallest(void (*run)(void)) {
    size_t small = 0, large = MOST;
    if (!ends_on(run, large)) {
        printf("more than %d bytes\n", MOST);
        exit(1);
    }
    while (large - small > STEP) {
        size_t middle = (small + large) / 2 / 16 * 16;
        if (ends_on(run, middle)) large = middle;
        else small = middle;
    }
    return large;
}

static void measure(const char *shape, size_t node) {
    printf("%-34s %4zu nodes:", shape, nodes);
    job_node = node;
    damage();
    for (size_t i = 0; i < JOBS; i++) {
        size_t bytes = smallest(jobs[i].run);
        if (bytes > jobs[i].most) jobs[i].most = bytes;
        jobs[i].run();
        if (number != STARLARK_NUMBER_WRONG_NODE) printf(" %s %zu (%u)", jobs[i].name, bytes, number);
    }
    printf("\n");
    nodes = 0;
    job_def = 0;
}

/* An expression of `depth` nested nodes. The last child of each contains the next one; before it are as many leaves as its kind needs,
 * or, where it takes any number, as many as make the table `limit` nodes in the end. */
static void nested(int kind, int leaf_kind, int depth, size_t limit) {
    size_t opened[STARLARK_DEPTH];
    int any = kind == TUPLE || kind == LIST;
    size_t before = any ? (limit - nodes - depth) / depth : kind == OP ? 1 : kind == INDEX2 ? 2 : 0;
    for (int d = 0; d < depth; d++) {
        opened[d] = open_node(kind, kind == OP);
        for (size_t i = 0; i < before; i++) leaf(leaf_kind);
    }
    if (!any) leaf(leaf_kind);
    while (any && nodes < limit) leaf(leaf_kind);
    while (depth-- > 0) close_node(opened[depth]);
}

static void siblings(const char *shape, int group, int kind) {
    size_t root = open_node(STATEMENTS, 0), simple = open_node(SIMPLE, 0), at = open_node(group, 0);
    while (nodes < STARLARK_NODES) leaf(kind);
    close_node(at);
    close_node(simple);
    close_node(root);
    measure(shape, 2);
}

static void in_depth(const char *shape, int kind, int leaf_kind, size_t limit) {
    size_t root = open_node(STATEMENTS, 0), simple = open_node(SIMPLE, 0);
    nested(kind, leaf_kind, STARLARK_DEPTH - 3, limit);
    close_node(simple);
    close_node(root);
    measure(shape, 2);
}

/* A deep expression, and after it statements that a cut removes in part: what is kept of the cut file is deep, too. */
static void deep_and_cut(const char *shape) {
    size_t root = open_node(STATEMENTS, 0), simple = open_node(SIMPLE, 0);
    nested(TUPLE, IDENTIFIER, STARLARK_DEPTH - 3, STARLARK_NODES - 50);
    close_node(simple);
    while (nodes < STARLARK_NODES) leaf(BREAK);
    close_node(root);
    measure(shape, 2);
}

/* Lists as the argument of an Index2, where they may be of any length. */
static void argument_lists(const char *shape, int depth) {
    size_t root = open_node(STATEMENTS, 0), simple = open_node(SIMPLE, 0), index = open_node(INDEX2, 0);
    leaf(IDENTIFIER);
    nested(LIST, IDENTIFIER, depth, STARLARK_NODES - 1);
    leaf(IDENTIFIER);
    close_node(index);
    close_node(simple);
    close_node(root);
    measure(shape, 2);
}

/* A def, and in the default of its parameter a number of nested lambdas, each in the default of a parameter of the one around it. Of 62 the chain has 127
 * records, 64 of which count. Before that parameter are as many others as make the table `limit` nodes, none for 0. */
static size_t through_defaults(int lambdas, size_t limit) {
    size_t opened[STARLARK_DEPTH], defaults[STARLARK_DEPTH], def = open_node(DEF, 0), first = open_node(NORMAL, 2);
    size_t before = limit == 0 ? 0 : (limit - nodes - 3 * lambdas - 2) / lambdas;
    for (int d = 0; d < lambdas; d++) {
        opened[d] = open_node(LAMBDA, 0);
        for (size_t i = 0; i < before; i++) leaf(NORMAL);
        defaults[d] = open_node(NORMAL, 2);
    }
    leaf(IDENTIFIER);
    for (int d = lambdas; d-- > 0;) {
        close_node(defaults[d]);
        leaf(ELLIPSIS);
        close_node(opened[d]);
    }
    close_node(first);
    while (nodes + 1 < limit) leaf(NORMAL);
    leaf(BREAK);
    close_node(def);
    return def;
}

static void lambdas_in_defaults(const char *shape, size_t limit) {
    measure(shape, through_defaults(STARLARK_DEPTH - 2, limit));
}

/* The same under a root of statements, some of which a cut leaves out. */
static void lambdas_and_cut(const char *shape) {
    size_t root = open_node(STATEMENTS, 0), def = through_defaults(STARLARK_DEPTH - 3, STARLARK_NODES - 50);
    while (nodes < STARLARK_NODES) leaf(BREAK);
    close_node(root);
    measure(shape, def);
}

/* A def, and in the default of its parameter 62 calls, each the last argument of the one around it: as long a chain. */
static void calls_in_arguments(const char *shape, int kind, size_t limit) {
    enum { CALLS = STARLARK_DEPTH - 2 };
    size_t calls[CALLS], arguments[CALLS], def = open_node(DEF, 0), first = open_node(NORMAL, 2);
    size_t before = limit == 0 ? 0 : (limit - nodes - 3 * CALLS - 2) / CALLS / 2;
    for (int d = 0; d < CALLS; d++) {
        calls[d] = open_node(CALL, 0);
        leaf(IDENTIFIER);
        for (size_t i = 0; i < before; i++) argument(POSITIONAL, 0);
        arguments[d] = open_node(kind, 0);
    }
    leaf(IDENTIFIER);
    for (int d = CALLS; d-- > 0;) {
        close_node(arguments[d]);
        close_node(calls[d]);
    }
    close_node(first);
    while (nodes + 1 < limit) leaf(NORMAL);
    leaf(BREAK);
    close_node(def);
    measure(shape, calls[0]);
}

static void many_statements(void) {
    size_t root = open_node(STATEMENTS, 0);
    while (nodes < STARLARK_NODES) leaf(BREAK);
    close_node(root);
    measure("2,099 statements", 0);
}

/* Statements of `kind` inside each other, each with statements that end none before the next. */
static void nested_statements(const char *shape, int kind, size_t limit) {
    size_t opened[STARLARK_DEPTH];
    int depth = STARLARK_DEPTH - 2;
    size_t root = open_node(STATEMENTS, 0), each = (limit - nodes - 3 * depth) / depth;
    int pairs = depth / 2;
    for (int d = 0; d < pairs; d++) {
        opened[2 * d] = open_node(kind, 0);
        if (kind == FOR) leaf(IDENTIFIER);
        if (kind == FOR || kind == IF) leaf(ELLIPSIS);
        if (kind == DEF) leaf(NORMAL);
        opened[2 * d + 1] = open_node(STATEMENTS, 0);
        for (size_t i = 0; i < 2 * each; i++) leaf(BREAK);
    }
    while (nodes < limit) leaf(BREAK);
    for (int d = 2 * pairs; d-- > 0;) close_node(opened[d]);
    close_node(root);
    measure(shape, 0);
}

/* A def with `parameters` parameters. A list may have 48; a longer one is refused (19). */
static void many_parameters(const char *shape, size_t parameters) {
    size_t root = open_node(STATEMENTS, 0), def = open_node(DEF, 0);
    for (size_t i = 0; i < parameters; i++) leaf(NORMAL);
    leaf(BREAK);
    close_node(def);
    while (nodes < STARLARK_NODES) leaf(BREAK);
    close_node(root);
    measure(shape, 1);
}

static void many_arguments(void) {
    size_t root = open_node(STATEMENTS, 0), simple = open_node(SIMPLE, 0), call = open_node(CALL, 0);
    leaf(IDENTIFIER);
    while (nodes + 1 < STARLARK_NODES) {
        size_t argument = open_node(POSITIONAL, 0);
        leaf(ELLIPSIS);
        close_node(argument);
    }
    close_node(call);
    close_node(simple);
    close_node(root);
    measure("1,048 arguments", 2);
}

/* A def with a number of parameters, all of one kind, and a call after it with a number of arguments: by place, or by name from the last on. */
static void binding(const char *shape, int parameter, size_t parameters, int kind, size_t arguments) {
    size_t root = open_node(STATEMENTS, 0), def = open_node(DEF, 0);
    for (size_t i = 0; i < parameters; i++) leaf(parameter);
    leaf(BREAK);
    close_node(def);
    size_t simple = open_node(SIMPLE, 0), call = open_node(CALL, 0);
    leaf(IDENTIFIER);
    for (size_t i = 0; i < arguments; i++) argument(kind, def + parameters - i);
    close_node(call);
    close_node(simple);
    close_node(root);
    job_def = def;
    measure(shape, call);
}

static void assignment_of_many(void) {
    size_t root = open_node(STATEMENTS, 0), assign = open_node(ASSIGN, 0), tuple = open_node(TUPLE, 0);
    while (nodes < STARLARK_NODES - 1) leaf(IDENTIFIER);
    close_node(tuple);
    leaf(ELLIPSIS);
    close_node(assign);
    close_node(root);
    measure("a tuple of 2,096 = a value", 1);
}

int main(void) {
    make_format();
    starlark_book_blank(zone_book, sizeof zone_book, out);
    starlark_book_blank(line_book, sizeof line_book, out);
    many_statements();
    siblings("a tuple of 2,097 names", TUPLE, IDENTIFIER);
    siblings("a list of 2,097 names", LIST, IDENTIFIER);
    siblings("a tuple of 2,097 empty tuples", TUPLE, TUPLE);
    many_parameters("48 parameters", STARLARK_PARAMETERS);
    many_parameters("2,097 parameters", STARLARK_NODES - 3);
    many_arguments();
    binding("48 parameters bound by place", NORMAL, STARLARK_PARAMETERS, POSITIONAL, STARLARK_PARAMETERS);
    binding("48 parameters bound by name", NORMAL, STARLARK_PARAMETERS, NAMED, STARLARK_PARAMETERS);
    binding("2,094 parameters, none bound", NORMAL, 2094, POSITIONAL, 0);
    binding("1,046 arguments for one star", ARGS, 1, POSITIONAL, 1046);
    assignment_of_many();
    in_depth("61 nested tuples of 34", TUPLE, IDENTIFIER, STARLARK_NODES);
    in_depth("61 nested lists of 34", LIST, IDENTIFIER, STARLARK_NODES);
    in_depth("61 nested tuples", TUPLE, IDENTIFIER, STARLARK_DEPTH);
    in_depth("61 nested unions", OP, IDENTIFIER, STARLARK_NODES);
    in_depth("61 nested Index2", INDEX2, IDENTIFIER, STARLARK_NODES);
    deep_and_cut("61 nested tuples, 50 statements");
    argument_lists("Index2 with a list of 2,094", 1);
    argument_lists("Index2 with 60 nested lists of 33", STARLARK_DEPTH - 4);
    nested_statements("31 nested def", DEF, STARLARK_NODES);
    nested_statements("31 nested for", FOR, STARLARK_NODES);
    nested_statements("31 nested if", IF, STARLARK_NODES);
    in_depth("61 nested not", NOT, IDENTIFIER, STARLARK_NODES);
    lambdas_in_defaults("62 lambdas in defaults", 0);
    lambdas_in_defaults("62 lambdas in defaults, wide", STARLARK_NODES);
    lambdas_and_cut("61 lambdas, 50 statements");
    calls_in_arguments("62 calls in arguments", POSITIONAL, 0);
    calls_in_arguments("62 calls in arguments, wide", POSITIONAL, STARLARK_NODES);
    calls_in_arguments("62 calls by name, wide", NAMED, STARLARK_NODES);
    calls_in_arguments("62 calls by `**`, wide", KW_ARGS, STARLARK_NODES);
    size_t most = 0;
    printf("most:");
    for (size_t i = 0; i < JOBS; i++) {
        printf(" %s %zu", jobs[i].name, jobs[i].most);
        if (jobs[i].most > most) most = jobs[i].most;
    }
    printf("\nSTARLARK_STACK_BYTES is %d\n", STARLARK_STACK_BYTES);
    return most > STARLARK_STACK_BYTES / 2;
}
