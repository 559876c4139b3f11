/* Every job from C, accepted and refused, on one table. Its argument, if any, is the name for the table file. The table joins two scripts. Source
 * file 1 is
 *
 *     def f(a, /, b, *, c, **k): break
 *
 * and source file 2
 *
 *     def g(a, b=1, c): break
 *     f(1, a=2, *x)
 *     f(*x, a=2)
 *     a, b.c = 1
 *     a, 1 += 1
 *     x[int]
 *     x.type
 *     f(1, 2, c=3)
 *     def h(a, *, a): break
 */
#include <stdio.h>
#include <string.h>

#include "starlark.h"
#include "starlark_names.h"

enum { STATEMENTS = STARLARK_KIND_STATEMENTS, DEF = STARLARK_KIND_DEF, BREAK = STARLARK_KIND_BREAK };
enum { SIMPLE = STARLARK_KIND_OTHER_SIMPLE, ASSIGN = STARLARK_KIND_ASSIGN, MODIFY = STARLARK_KIND_ASSIGN_MODIFY };
enum { TUPLE = STARLARK_KIND_TUPLE, DOT = STARLARK_KIND_DOT, CALL = STARLARK_KIND_CALL, INDEX = STARLARK_KIND_INDEX };
enum { IDENTIFIER = STARLARK_KIND_IDENTIFIER, INT = STARLARK_KIND_INT, NORMAL = STARLARK_KIND_NORMAL };
enum { NO_ARGS = STARLARK_KIND_NO_ARGS, SLASH = STARLARK_KIND_SLASH, KW_ARGS_PARAM = STARLARK_KIND_KW_ARGS_PARAM };
enum { POSITIONAL = STARLARK_KIND_POSITIONAL, NAMED = STARLARK_KIND_NAMED, ARGS = STARLARK_KIND_ARGS_ARG };

static uint8_t table[64 * STARLARK_NODE_BYTES];
static size_t nodes;
static int source_file;
static const char names[] = "abckfxinttype";
#define standard STARLARK_DIALECT_STANDARD
#define extended STARLARK_DIALECT_EXTENDED

/* What a job is given of the table: its bytes, and those of the names. */
#define TABLE table, STARLARK_NODE_BYTES *nodes, (const uint8_t *)names, strlen(names)

static void put16(uint8_t *at, size_t value) {
    at[0] = value & 255;
    at[1] = value >> 8 & 255;
}

/* One node of the current source file, its subtree `size` nodes long; node i has the span 10 i to 10 i + 7. `name` is a part of `names`, or "". Answers
 * the node. */
static size_t node(int kind, int detail, size_t size, const char *name) {
    uint8_t *at = table + STARLARK_NODE_BYTES * nodes;
    at[0] = kind;
    at[1] = detail;
    put16(at + 2, strlen(name));
    put16(at + 4, *name ? strstr(names, name) - names : 0);
    put16(at + 8, 10 * nodes);
    put16(at + 12, 10 * nodes + 7);
    put16(at + 16, size);
    put16(at + 18, source_file);
    if (kind == NAMED) put16(at + 20, 10 * nodes + 2);
    return nodes++;
}

/* The begin of a job's line; whether it is accepted. `number` is what the job answers, `out` what it has written there. */
static int accepted(const char *job, uint32_t number, const uint32_t *out) {
    printf("%s: ", job);
    if (number != STARLARK_ACCEPTED) printf("refused with %u %s", number, starlark_number_name(number));
    if (number == STARLARK_NUMBER_UNSOUND_RECORD || number == STARLARK_NUMBER_TOO_DEEP) {
        printf(" at node %u", out[0]);
    } else if (number == STARLARK_NUMBER_STRAY_BRACE) {
        printf(" at byte %u", out[0]);
    } else if ((number >= 10 && number < 62) || (number >= 80 && number < 90)) {
        printf(" at node %u, file %u, bytes %u to %u", out[0], out[4], out[1], out[2]);
        if (out[3] != STARLARK_NONE) printf(", its name first at node %u", out[3]);
    }
    return number == STARLARK_ACCEPTED;
}

static void bytes(const char *what, const uint8_t *buffer, size_t length) {
    printf(", %s", what);
    for (size_t i = 0; i < length; i++) printf(" %u", buffer[i]);
    printf("\n");
}

static void check(const char *words, size_t length) {
    uint32_t out[STARLARK_WORDS];
    if (accepted(words, starlark_table(table, length, (const uint8_t *)names, strlen(names), out), out)) printf("sound");
    printf("\n");
}

/* Modes in a buffer of `length` bytes, which hold 9. */
static void params(const char *list, size_t at, size_t length) {
    uint32_t out[STARLARK_WORDS];
    uint8_t modes[8];
    memset(modes, 9, sizeof modes);
    if (accepted(list, starlark_params(TABLE, at, modes, length, out), out)) {
        printf("positional only %u..%u, positional or named %u..%u, args %u..%u, named only %u..%u, kwargs %u..%u, count %u", out[0],
               out[1], out[2], out[3], out[4], out[5], out[6], out[7], out[8], out[9], out[10]);
    }
    bytes("modes", modes, length);
}

static void place(const char *what, uint32_t word) {
    if (word == STARLARK_NONE) {
        printf(", no %s", what);
    } else {
        printf(", %s at %u", what, word);
    }
}

static void call(const char *words, size_t at) {
    uint32_t out[STARLARK_WORDS];
    if (accepted(words, starlark_call(TABLE, at, out), out)) {
        printf("%u positional, %u named", out[0], out[1]);
        place("*", out[2]);
        place("**", out[3]);
    }
    printf("\n");
}

/* A call bound to a def, in a list of `length` words, which hold 9. */
static void binding(const char *words, size_t at, size_t def, size_t length) {
    uint32_t out[STARLARK_WORDS];
    uint32_t list[16];
    for (size_t i = 0; i < length; i++) list[i] = 9;
    if (accepted(words, starlark_bind(TABLE, at, def, list, length, out), out)) printf("%u parameters, %u arguments", out[0], out[1]);
    printf(", list");
    for (size_t i = 0; i < length; i++) printf(" %u", list[i]);
    printf("\n");
}

static void target(const char *words, size_t at) {
    uint32_t out[STARLARK_WORDS];
    if (accepted(words, starlark_target(TABLE, at, out), out)) printf("%u leaves", out[0]);
    printf("\n");
}

static void assignment(const char *words, size_t at) {
    uint32_t out[STARLARK_WORDS];
    if (accepted(words, starlark_assignment(TABLE, at, out), out)) printf("%u leaves", out[0]);
    printf("\n");
}

/* Shapes in a buffer of `length` bytes, which hold 9. */
static void type(const char *words, const uint8_t *dialect, size_t dialect_length, uint32_t edition, size_t at, size_t length) {
    uint32_t out[STARLARK_WORDS];
    uint8_t shapes[8];
    memset(shapes, 9, sizeof shapes);
    if (accepted(words, starlark_type(TABLE, dialect, dialect_length, edition, at, shapes, length, out), out)) printf("a type");
    bytes("shapes", shapes, length);
}

/* Errors in a list of `length` words, which hold 9. */
static void module(const char *words, const uint8_t *dialect, size_t dialect_length, size_t length) {
    uint32_t out[STARLARK_WORDS];
    uint32_t errors[6 * STARLARK_ERROR_WORDS];
    for (size_t i = 0; i < length; i++) errors[i] = 9;
    if (accepted(words, starlark_module(TABLE, dialect, dialect_length, errors, length, out), out)) printf("%u errors", out[0]);
    printf(", list");
    for (size_t i = 0; i < length; i++) printf(" %u", errors[i]);
    printf("\n");
}

/* The first errors of the module, in words. */
static void in_words(const uint8_t *dialect, size_t dialect_length) {
    uint32_t out[STARLARK_WORDS];
    uint32_t errors[3 * STARLARK_ERROR_WORDS];
    starlark_module(TABLE, dialect, dialect_length, errors, 3 * STARLARK_ERROR_WORDS, out);
    for (size_t i = 0; i < 3 * STARLARK_ERROR_WORDS; i += STARLARK_ERROR_WORDS) {
        printf("in words: %s in file %u at bytes %u to %u: %s\n", starlark_number_name(errors[i]), errors[i + 1], errors[i + 2], errors[i + 3],
               starlark_number_words(errors[i]));
    }
}

/* The audit in a list of `length` words, which hold 9. */
static void audit(const char *words, const uint8_t *dialect, size_t dialect_length, uint32_t edition, size_t length) {
    uint32_t out[STARLARK_WORDS];
    uint32_t errors[10 * STARLARK_AUDIT_WORDS];
    for (size_t i = 0; i < length; i++) errors[i] = 9;
    if (accepted(words, starlark_audit(TABLE, dialect, dialect_length, edition, errors, length, out), out)) printf("%u errors", out[0]);
    printf(", list");
    for (size_t i = 0; i < length; i++) printf(" %u", errors[i]);
    printf("\n");
}

/* The file in a buffer of `length` bytes, which are 9 before: its first bytes, and how many have changed. An accepted one is written under the name
 * `path`, where there is one. */
static void write_file(const char *words, const uint8_t *dialect, size_t dialect_length, uint32_t edition, size_t length, const char *path) {
    uint32_t out[STARLARK_WORDS];
    static uint8_t file[STARLARK_FILE_BYTES];
    size_t changed = STARLARK_FILE_BYTES;
    memset(file, 9, sizeof file);
    if (accepted(words, starlark_write(TABLE, dialect, dialect_length, edition, file, length, out), out)) {
        printf("%u bytes", out[0]);
        FILE *kept = path ? fopen(path, "wb") : NULL;
        if (kept && (fwrite(file, 1, out[0], kept) != out[0] || fclose(kept) != 0)) printf(", not kept");
    }
    while (changed > 0 && file[changed - 1] == 9) changed--;
    printf(", %zu changed", changed);
    bytes("the first", file, 18);
}

/* What is kept of the first `input_length` bytes of the script's file, in a buffer of `length` bytes, which are 9 before: the answer, and how many
 * bytes have changed. The byte at `damaged` of the file is changed first, if there is one. */
static void rescue(const char *words, size_t input_length, size_t damaged, size_t length) {
    uint32_t out[STARLARK_WORDS];
    static uint8_t input[STARLARK_FILE_BYTES], file[STARLARK_FILE_BYTES];
    size_t changed = STARLARK_FILE_BYTES;
    memset(input, 0, sizeof input);
    memset(file, 9, sizeof file);
    starlark_write(TABLE, extended, 9, STARLARK_NONE, input, sizeof input, out);
    if (damaged < sizeof input) input[damaged] ^= 1;
    if (accepted(words, starlark_rescue(input, input_length, file, length, out), out)) {
        printf("%u bytes, %u statements, %u nodes, %u dropped, %u and %u after", out[0], out[1], out[2], out[3], out[4], out[5]);
    }
    while (changed > 0 && file[changed - 1] == 9) changed--;
    printf(", %zu changed\n", changed);
}

/* The script's file with the byte at `damaged` changed, where there is one; its length. */
static size_t script_file(uint8_t *file, const uint8_t *dialect, size_t dialect_length, uint32_t edition, size_t damaged) {
    uint32_t out[STARLARK_WORDS];
    starlark_write(TABLE, dialect, dialect_length, edition, file, STARLARK_FILE_BYTES, out);
    if (damaged < STARLARK_FILE_BYTES) file[damaged] ^= 1;
    return out[0];
}

/* What the script's file holds, in buffers of `table_length` and `names_length` bytes, which hold 9: whether it is the script's table and names,
 * and how many bytes are no longer 9. */
static void read_file(const char *words, const uint8_t *dialect, size_t dialect_length, uint32_t edition, size_t damaged, size_t table_length,
                      size_t names_length) {
    uint32_t out[STARLARK_WORDS];
    static uint8_t file[STARLARK_FILE_BYTES], read[STARLARK_NODES * STARLARK_NODE_BYTES], read_names[STARLARK_NAME_BYTES];
    size_t length = script_file(file, dialect, dialect_length, edition, damaged), changed = sizeof read, named = sizeof read_names;
    memset(read, 9, sizeof read);
    memset(read_names, 9, sizeof read_names);
    if (accepted(words, starlark_read(file, length, read, table_length, read_names, names_length, out), out)) {
        int same = memcmp(read, table, STARLARK_NODE_BYTES * nodes) == 0 && memcmp(read_names, names, strlen(names)) == 0;
        printf("%u nodes, %u name bytes, %s, dialect %u", out[0], out[1], same ? "the same" : "others", out[2]);
        for (int i = 0; i < 9; i++) printf(" %u", out[3 + i / 4] >> 8 * (i % 4) & 255);
        if (out[6] != STARLARK_NONE) printf(", edition byte %u", out[6]);
        printf(", edition %u holds", out[7]);
    }
    while (changed > 0 && read[changed - 1] == 9) changed--;
    while (named > 0 && read_names[named - 1] == 9) named--;
    printf(", %zu and %zu changed\n", changed, named);
}

/* The errors of the script's file in a list of `length` words, which hold 9. */
static void check_file(const char *words, const uint8_t *dialect, size_t dialect_length, size_t damaged, size_t length) {
    uint32_t out[STARLARK_WORDS];
    uint32_t errors[8 * STARLARK_ERROR_WORDS];
    static uint8_t file[STARLARK_FILE_BYTES];
    size_t bytes_there = script_file(file, dialect, dialect_length, STARLARK_NONE, damaged);
    for (size_t i = 0; i < length; i++) errors[i] = 9;
    if (accepted(words, starlark_check_file(file, bytes_there, errors, length, out), out)) printf("%u errors, %u nodes", out[0], out[1]);
    printf(", list");
    for (size_t i = 0; i < length; i++) printf(" %u", errors[i]);
    printf("\n");
}

/* The figures of the script's file two times over and `more` of its bytes, in one call and step by step. */
static void figures(const char *words, size_t damaged, size_t more) {
    uint32_t out[STARLARK_WORDS];
    uint64_t counts[STARLARK_FIGURES], steps[STARLARK_FIGURES] = {0};
    static uint8_t input[3 * STARLARK_FILE_BYTES];
    size_t one = script_file(input, STARLARK_DIALECT_EXTENDED, 9, STARLARK_NONE, STARLARK_FILE_BYTES), length = 2 * one + more, at = 0;
    memcpy(input + one, input, one);
    memcpy(input + 2 * one, input, more);
    if (damaged < length) input[damaged] ^= 1;
    uint32_t number = starlark_figures(input, length, counts, out);
    printf("%s: %u", words, number);
    if (number != STARLARK_ACCEPTED) printf(" at byte %llu", (unsigned long long)out[1] << 32 | out[0]);
    printf(", files %llu, nodes %llu, lists %llu, calls %llu and %llu, error 11 %llu, error 13 %llu", (unsigned long long)counts[STARLARK_FIGURE_FILES],
           (unsigned long long)counts[STARLARK_FIGURE_NODES], (unsigned long long)counts[STARLARK_FIGURE_LISTS],
           (unsigned long long)counts[STARLARK_FIGURE_CALLS_ACCEPTED], (unsigned long long)counts[STARLARK_FIGURE_CALLS_REFUSED],
           (unsigned long long)counts[STARLARK_FIGURE_ERROR_11], (unsigned long long)counts[STARLARK_FIGURE_ERROR_13]);
    while (at < length && starlark_figures_step(input + at, length - at, steps, out) == STARLARK_ACCEPTED) at += out[0];
    printf("; steps to byte %zu, %s\n", at, memcmp(counts, steps, sizeof steps) == 0 ? "the same" : "others");
}

/* A format text of `length` bytes as its parts, in `room` words and `bytes_room` bytes, which hold 9 and a dot. */
static void read_format(const char *words, const char *text, size_t length, size_t room, size_t bytes_room) {
    uint32_t out[STARLARK_WORDS], parts[16];
    char texts[24];
    for (size_t i = 0; i < room; i++) parts[i] = 9;
    memset(texts, '.', sizeof texts);
    if (accepted(words, starlark_fstring_read((const uint8_t *)text, length, parts, room, (uint8_t *)texts, bytes_room, out), out)) {
        printf("%u parts, %u text bytes", out[0], out[2]);
    }
    printf(", words");
    for (size_t i = 0; i < room; i++) printf(" %u", parts[i]);
    printf(", texts %.*s\n", (int)bytes_room, texts);
}

/* The format text of parts, in a buffer of `length` bytes, which hold a dot; and the parts that are read from it again. */
static void write_format(const char *words, const uint32_t *parts, size_t count, const char *texts, const uint8_t *dialect, size_t dialect_length,
                         size_t length) {
    uint32_t out[STARLARK_WORDS];
    char text[24];
    memset(text, '.', sizeof text);
    int written = accepted(words, starlark_fstring_write(parts, count, (const uint8_t *)texts, strlen(texts), dialect, dialect_length, (uint8_t *)text, length, out), out);
    if (written) printf("%u bytes%s", out[0], out[2] == STARLARK_NUMBER_F_STRINGS_DISABLED ? ", and the dialect has no f-strings" : "");
    printf(", text %.*s\n", (int)length, text);
    if (written) read_format("  read back", text, out[0], 14, length);
}

int main(int count, char **words) {
    node(STATEMENTS, 0, 63, "");
    source_file = 1;
    size_t f = node(DEF, 0, 8, "");
    node(NORMAL, 0, 1, "a");
    node(SLASH, 0, 1, "");
    node(NORMAL, 0, 1, "b");
    node(NO_ARGS, 0, 1, "");
    node(NORMAL, 0, 1, "c");
    node(KW_ARGS_PARAM, 0, 1, "k");
    node(BREAK, 0, 1, "");
    source_file = 2;
    size_t g = node(DEF, 0, 6, "");
    node(NORMAL, 0, 1, "a");
    node(NORMAL, 2, 2, "b");
    node(INT, 0, 1, "");
    node(NORMAL, 0, 1, "c");
    node(BREAK, 0, 1, "");
    node(SIMPLE, 0, 9, "");
    size_t good_call = node(CALL, 0, 8, "");
    node(IDENTIFIER, 0, 1, "f");
    node(POSITIONAL, 0, 2, "");
    node(INT, 0, 1, "");
    node(NAMED, 0, 2, "a");
    node(INT, 0, 1, "");
    node(ARGS, 0, 2, "");
    node(IDENTIFIER, 0, 1, "x");
    node(SIMPLE, 0, 7, "");
    size_t bad_call = node(CALL, 0, 6, "");
    node(IDENTIFIER, 0, 1, "f");
    node(ARGS, 0, 2, "");
    node(IDENTIFIER, 0, 1, "x");
    node(NAMED, 0, 2, "a");
    node(INT, 0, 1, "");
    size_t assign = node(ASSIGN, 0, 6, "");
    size_t good_target = node(TUPLE, 0, 4, "");
    node(IDENTIFIER, 0, 1, "a");
    node(DOT, 0, 2, "c");
    node(IDENTIFIER, 0, 1, "b");
    node(INT, 0, 1, "");
    size_t modify = node(MODIFY, 0, 5, "");
    size_t bad_target = node(TUPLE, 0, 3, "");
    node(IDENTIFIER, 0, 1, "a");
    node(INT, 0, 1, "");
    node(INT, 0, 1, "");
    node(SIMPLE, 0, 4, "");
    size_t good_type = node(INDEX, 0, 3, "");
    node(IDENTIFIER, 0, 1, "x");
    node(IDENTIFIER, 0, 1, "int");
    node(SIMPLE, 0, 3, "");
    size_t bad_type = node(DOT, 0, 2, "type");
    node(IDENTIFIER, 0, 1, "x");
    node(SIMPLE, 0, 9, "");
    size_t bound_call = node(CALL, 0, 8, "");
    node(IDENTIFIER, 0, 1, "f");
    node(POSITIONAL, 0, 2, "");
    node(INT, 0, 1, "");
    node(POSITIONAL, 0, 2, "");
    node(INT, 0, 1, "");
    node(NAMED, 0, 2, "c");
    node(INT, 0, 1, "");
    size_t h = node(DEF, 0, 5, "");
    node(NORMAL, 0, 1, "a");
    node(NO_ARGS, 0, 1, "");
    node(NORMAL, 0, 1, "a");
    node(BREAK, 0, 1, "");

    check("the table", STARLARK_NODE_BYTES * nodes);
    check("a part of a record", 25);
    check("its first node alone", STARLARK_NODE_BYTES);
    params("(a, /, b, *, c, **k)", f, 7);
    params("six bytes for six parameters", f, 6);
    params("five bytes for six parameters", f, 5);
    params("(a, b=1, c)", g, 7);
    params("(a, *, a)", h, 7);
    params("no def", 0, 7);
    call("f(1, a=2, *x)", good_call);
    call("f(*x, a=2)", bad_call);
    call("no call", 0);
    binding("f(1, 2, c=3) to (a, /, b, *, c, **k)", bound_call, f, 10);
    binding("nine words for six parameters and three arguments", bound_call, f, 9);
    binding("eight words", bound_call, f, 8);
    binding("f(1, a=2, *x) to it", good_call, f, 10);
    binding("f(*x, a=2) to it", bad_call, f, 10);
    binding("f(1, 2, c=3) to (a, b=1, c)", bound_call, g, 10);
    binding("f(1, 2, c=3) to (a, *, a)", bound_call, h, 10);
    binding("no def", bound_call, 0, 4);
    target("a, b.c", good_target);
    target("a, 1", bad_target);
    target("no expression", 0);
    assignment("a, b.c = 1", assign);
    assignment("a, 1 += 1", modify);
    assignment("no assignment", 0);
    type("x[int]", extended, 9, STARLARK_EDITION_1, good_type, 4);
    type("x[int] with no dialect, so in Extended", extended, 0, STARLARK_EDITION_1, good_type, 4);
    type("x[int] in the Standard dialect", standard, 9, STARLARK_EDITION_1, good_type, 4);
    type("three bytes for three nodes", extended, 9, STARLARK_EDITION_1, good_type, 3);
    type("two bytes for three nodes", extended, 9, STARLARK_EDITION_1, good_type, 2);
    type("x.type", extended, 9, STARLARK_EDITION_1, bad_type, 4);
    type("x.type in edition 2", extended, 9, STARLARK_EDITION_2, bad_type, 4);
    type("x[int] in edition 0", extended, 9, 0, good_type, 4);
    type("x[int] with the word for no edition", extended, 9, STARLARK_NONE, good_type, 4);
    type("eight bytes of dialect", extended, 8, STARLARK_EDITION_1, good_type, 4);
    module("the module in the Standard dialect", standard, 9, 21);
    module("a list of seven words", standard, 9, 7);
    module("in the Extended dialect", extended, 9, 21);
    module("with no dialect, so in Extended", extended, 0, 21);
    module("eight bytes of dialect", extended, 8, 4);
    in_words(extended, 9);
    audit("the audit in the Extended dialect", extended, 9, STARLARK_EDITION_1, 48);
    audit("a list of nine words", extended, 9, STARLARK_EDITION_1, 9);
    audit("eight bytes of dialect", extended, 8, STARLARK_EDITION_1, 4);
    audit("in edition 2", extended, 9, STARLARK_EDITION_2, 9);
    audit("with the word for no edition", extended, 9, STARLARK_NONE, 4);
    write_file("the file in the Extended dialect", extended, 9, STARLARK_NONE, STARLARK_FILE_BYTES, count > 1 ? words[1] : NULL);
    write_file("with no dialect", extended, 0, STARLARK_NONE, STARLARK_FILE_BYTES, NULL);
    write_file("2,560 bytes for five blocks", extended, 0, STARLARK_NONE, 2560, NULL);
    write_file("2,559 bytes for five blocks", extended, 0, STARLARK_NONE, 2559, NULL);
    write_file("eight bytes of dialect", extended, 8, STARLARK_NONE, STARLARK_FILE_BYTES, NULL);
    write_file("in edition 2", extended, 9, STARLARK_EDITION_2, STARLARK_FILE_BYTES, NULL);
    write_file("in edition 3", extended, 9, 3, STARLARK_FILE_BYTES, NULL);
    write_file("in edition 1 with no dialect", extended, 0, STARLARK_EDITION_1, STARLARK_FILE_BYTES, NULL);
    size_t none = STARLARK_FILE_BYTES;
    rescue("the file, rescued", 2560, none, STARLARK_FILE_BYTES);
    rescue("with seven bytes behind it", 2567, none, STARLARK_FILE_BYTES);
    rescue("without its last byte", 2559, none, STARLARK_FILE_BYTES);
    rescue("with a changed byte in its second node block", 2560, 1600, STARLARK_FILE_BYTES);
    rescue("1,536 bytes for three blocks", 2560, 1600, 1536);
    rescue("1,535 bytes for three blocks", 2560, 1600, 1535);
    rescue("with a changed byte in its first node block", 2560, 1100, STARLARK_FILE_BYTES);
    rescue("with a changed byte in its names", 2560, 600, STARLARK_FILE_BYTES);
    read_file("the file in the Extended dialect, read", extended, 9, STARLARK_NONE, none, STARLARK_NODES * STARLARK_NODE_BYTES, STARLARK_NAME_BYTES);
    read_file("with no dialect, 1,512 bytes for 63 nodes", extended, 0, STARLARK_NONE, none, 1512, 13);
    read_file("1,511 bytes", extended, 0, STARLARK_NONE, none, 1511, 13);
    read_file("12 bytes for 13 of names", extended, 0, STARLARK_NONE, none, 1512, 12);
    read_file("in edition 1", extended, 9, STARLARK_EDITION_1, none, 1512, 13);
    read_file("in edition 2", extended, 9, STARLARK_EDITION_2, none, 1512, 13);
    read_file("with a changed byte", extended, 9, STARLARK_NONE, 1600, 1512, 13);
    check_file("the file in the Extended dialect, checked", extended, 9, none, 26);
    check_file("with no dialect, a list of seven words", extended, 0, none, 7);
    check_file("with a changed byte", extended, 9, 600, 4);
    figures("figures of two files", none, 0);
    figures("with a byte behind them", none, 1);
    figures("with a changed byte in the second", 3000, 0);
    enum { TEXT = STARLARK_PART_TEXT, NONE = STARLARK_PART_NONE, STR = STARLARK_PART_STR, REPR = STARLARK_PART_REPR };
    static const uint32_t parts[] = {TEXT, 6, TEXT, 2, STR, 0, TEXT, 0, TEXT, 4, REPR, 0, NONE, 0};
    enum { PARTS = sizeof parts / sizeof *parts };
    write_format("parts in all options", parts, PARTS, "{train}  at ", STARLARK_DIALECT_ALL, 9, 24);
    write_format("in the Extended dialect", parts, PARTS, "{train}  at ", extended, 9, 22);
    write_format("21 bytes for 22", parts, PARTS, "{train}  at ", extended, 9, 21);
    write_format("one text byte too few", parts, PARTS, "{train}  at", extended, 9, 24);
    write_format("13 words", parts, PARTS - 1, "{train}  at ", extended, 9, 24);
    write_format("eight bytes of dialect", parts, PARTS, "{train}  at ", extended, 8, 24);
    write_format("no parts", parts, 0, "", extended, 0, 0);
    read_format("a text that is cut", "a{!r", 4, 0, 0);
    read_format("two parts in three words", "a{}", 3, 3, 1);
    read_format("two bytes in one", "}}a", 3, 2, 1);
    return 0;
}
