/* The C interface of the proved checks: `./ducat build` proves them and makes target/native/libstarlark_checks.a and libstarlark_checks.so.
 *
 * How to link it
 *   in the repository                 cc program.c -Iinclude target/native/libstarlark_checks.a
 *   after `tools/install PREFIX`      cc program.c $(pkg-config --cflags --libs starlark_checks)
 *                                     with PREFIX/lib/pkgconfig in PKG_CONFIG_PATH, unless pkg-config already searches there;
 *                                     or cc program.c -IPREFIX/include -LPREFIX/lib -lstarlark_checks
 *   Name the archive after the files that call it. It needs no other library.
 *   The same code is installed as a shared library, PREFIX/lib/libstarlark_checks.so.MAJOR.MINOR, for programs that load it at run time;
 *   such a program must compare starlark_version() first.
 *
 * docs/FORMAT.md describes tables and table files, docs/RULES.md all numbers. starlark_names.h has numbers and kinds in words.
 *
 * A table is `table_len` bytes, 24 for each node, in preorder; `names` are the bytes that contain its names. It may join several scripts: bytes 18 and
 * 19 of a node are its source file number, 1 to STARLARK_LAST_FILE, the same in all of a top-level statement, and 0 in a root Statements. Any bytes are
 * allowed as input: a table that is not sound is refused, and no input makes a function read or write outside its buffers.
 *
 * What every function does
 *   It returns 0 (accepted) or the number of a refusal (docs/RULES.md). The values of the answer go into `out`.
 *   It keeps nothing between calls and allocates nothing, so threads may call at the same time on memory of their own.
 *
 * `out`, twelve words
 *   accepted      as described at each function
 *   3, 4          out[0] the node
 *   1, 2, 5, 6, 7 nothing; the same for 64, 70 to 75, 90, 91, 97 and 98
 *   76            nothing; starlark_figures puts the position of the refused file into out[0] and out[1], whatever the number
 *   62, 63        as described at starlark_fstring_write and starlark_fstring_read; 62 is a notice, not a refusal
 *   95, 96        out[0] the book, 0 the zone book, 1 the line book; but 95 of starlark_book_blank nothing
 *   all others    out[0] the node, out[1] and out[2] begin and end of its span (22: the name's span), out[3] STARLARK_NONE; but for 11 and 22,
 *                 a repeated name, out[3] is the node of the first parameter (11) or argument (22) of the list that has it;
 *                 out[4] the source file number of the node: its span is in that script
 *   Every word that is not named keeps its value. If a job refuses, all bytes and words of its other buffers keep their values.
 *
 * What the caller must ensure (it is not checked)
 *   Each pointer points to as many elements as the length beside it states, and `out` to twelve words. A pointer of length 0 may be NULL.
 *   Buffers that are only read may overlap each other; a written buffer (modes, shapes, list, errors, the file that is written, table and names of
 *   starlark_read, a format text, its parts and texts, a book that is changed, figures, `out`) overlaps none. Words are aligned to four bytes,
 *   figures to eight.
 *   The thread has enough stack: STARLARK_STACK_BYTES is more than twice what any job was measured to need (bindings/c/stack.c; the figures here are of an older kit,
 *   on aarch64): at 2,100 nodes of many shapes the table check needs 17 KB, the parameter job 17 KB, the call job 17 KB, the type job 26 KB, the module pass
 *   28 KB, the audit 64 KB, the binding job 34 KB, the target, assignment and write jobs no more than 17 KB; of a file of 2,100 nodes the rescue and
 *   starlark_read need 76 KB, starlark_check_file 86 KB, starlark_figures 104 KB. The two functions of format texts need less than 1 KB.
 *   A lookup in two books of 100 blocks, an addition and a removal need 17 KB each.
 */
#ifndef STARLARK_H
#define STARLARK_H

#include <stddef.h>
#include <stdint.h>

#ifdef __cplusplus
extern "C" {
#endif

/* The version of this interface. In 0.4 starlark_type, starlark_audit and starlark_write take an edition, which a C linker does not check. */
#define STARLARK_VERSION_MAJOR 0
#define STARLARK_VERSION_MINOR 4
#define STARLARK_VERSION_PATCH 0
#define STARLARK_VERSION "0.4.0"

/* The return value of a function that accepts. */
#define STARLARK_ACCEPTED 0

/* The numbers: return values of functions that refuse, numbers in a list of errors, and a notice (62). */
enum starlark_number {
    STARLARK_NUMBER_TABLE_LENGTH = 1, /* the table has no record, more than 2,100, or a part of one */
    STARLARK_NUMBER_NAME_BYTES = 2, /* there are more than 8,064 name bytes */
    STARLARK_NUMBER_UNSOUND_RECORD = 3, /* a record of the table is unsound */
    STARLARK_NUMBER_TOO_DEEP = 4, /* a statement or expression is more than 64 deep */
    STARLARK_NUMBER_BAD_DIALECT = 5, /* the dialect bytes are not a dialect, or the edition is neither 1 nor 2, or there is an edition and no dialect */
    STARLARK_NUMBER_WRONG_NODE = 6, /* the node is beyond the table, or of the wrong kind */
    STARLARK_NUMBER_SHORT_BUFFER = 7, /* a buffer is too short: for modes, shapes, the words of a binding, a file, the contents of a file, a format text or its parts */
    STARLARK_NUMBER_SLASH_FIRST = 10, /* `/` is the first parameter */
    STARLARK_NUMBER_DUPLICATED_PARAMETER = 11, /* a parameter has the name of an earlier one */
    STARLARK_NUMBER_NORMAL_AFTER_KWARGS = 12, /* an ordinary parameter follows `**kwargs` */
    STARLARK_NUMBER_NO_DEFAULT_AFTER_DEFAULT = 13, /* a parameter without a default follows one that has a default */
    STARLARK_NUMBER_STAR_AFTER_STAR = 14, /* `*` or `*args` follows another star or `**kwargs` */
    STARLARK_NUMBER_MULTIPLE_SLASH = 15, /* `/` follows another `/`, a star or `**kwargs` */
    STARLARK_NUMBER_MULTIPLE_KWARGS = 16, /* there is a second `**kwargs` */
    STARLARK_NUMBER_STAR_LAST = 17, /* `*` is the last parameter */
    STARLARK_NUMBER_NO_NORMAL_AFTER_STAR = 18, /* `*` is followed by something other than an ordinary parameter */
    STARLARK_NUMBER_TOO_MANY_PARAMETERS = 19, /* the parameter list has more than 48 entries, `*` and `/` counted */
    STARLARK_NUMBER_POSITIONAL_AFTER_NON_POSITIONAL = 20, /* a positional argument follows one that is not positional */
    STARLARK_NUMBER_NAMED_AFTER_STAR = 21, /* a named argument follows a star argument or `**` */
    STARLARK_NUMBER_REPEATED_NAMED = 22, /* a named argument has the name of an earlier one */
    STARLARK_NUMBER_SECOND_STAR = 23, /* a star argument follows another one or `**` */
    STARLARK_NUMBER_SECOND_KWARGS = 24, /* there is a second `**` argument */
    STARLARK_NUMBER_INVALID_LHS = 30, /* this cannot be assigned to */
    STARLARK_NUMBER_INVALID_MODIFY_LHS = 31, /* a tuple or a list cannot be the left side of an augmented assignment */
    STARLARK_NUMBER_TYPE_ON_AUGMENTED = 32, /* an augmented assignment has a type */
    STARLARK_NUMBER_TYPE_ON_TUPLE = 33, /* an assignment to a tuple or a list has a type */
    STARLARK_NUMBER_INVALID_TYPE = 40, /* this is not a type */
    STARLARK_NUMBER_EMPTY_LIST_IN_TYPE = 41, /* a type contains an empty list */
    STARLARK_NUMBER_DOT_IN_TYPE = 42, /* a dot in a type follows something other than a path */
    STARLARK_NUMBER_EXPECTING_PATH = 43, /* a path is expected before the brackets of a type */
    STARLARK_NUMBER_DOT_TYPE_BAN = 44, /* a path in a type ends in `.type`, which edition 2 allows */
    STARLARK_NUMBER_TYPES_DISABLED = 45, /* the dialect has no types */
    STARLARK_NUMBER_STAR_NOT_PERMITTED = 50, /* the dialect has no `*` in parameter lists */
    STARLARK_NUMBER_SLASH_NOT_PERMITTED = 51, /* the dialect has no `/` in parameter lists */
    STARLARK_NUMBER_DEF_NOT_PERMITTED = 52, /* the dialect has no `def` */
    STARLARK_NUMBER_TOP_LEVEL_FOR = 53, /* the dialect has no `for` at top level */
    STARLARK_NUMBER_TOP_LEVEL_IF = 54, /* the dialect has no `if` at top level */
    STARLARK_NUMBER_BREAK_MISPLACED = 55, /* `break` is outside a `for` loop */
    STARLARK_NUMBER_CONTINUE_MISPLACED = 56, /* `continue` is outside a `for` loop */
    STARLARK_NUMBER_RETURN_MISPLACED = 57, /* `return` is outside a `def` */
    STARLARK_NUMBER_LOAD_NOT_AT_TOP = 58, /* `load` is below the top level */
    STARLARK_NUMBER_LOAD_NOT_PERMITTED = 59, /* the dialect has no `load` */
    STARLARK_NUMBER_ELLIPSIS_NOT_PERMITTED = 60, /* `...` is used in a dialect that has no types */
    STARLARK_NUMBER_LAMBDA_NOT_PERMITTED = 61, /* the dialect has no `lambda` */
    STARLARK_NUMBER_F_STRINGS_DISABLED = 62, /* the dialect has no f-strings */
    STARLARK_NUMBER_STRAY_BRACE = 63, /* a brace in a format text begins none of `{{`, `}}`, `{}` and `{!r}` */
    STARLARK_NUMBER_BROKEN_PART = 64, /* a part of a format text is broken, or the lengths of the texts do not add up to the number of text bytes */
    STARLARK_NUMBER_BLOCK_SHORT = 70, /* the file ends before a block is complete */
    STARLARK_NUMBER_BLOCK_NUMBER = 71, /* a block has the wrong number */
    STARLARK_NUMBER_BLOCK_CHECK = 72, /* the sum of a block is wrong, so a byte is damaged */
    STARLARK_NUMBER_BLOCK_USED = 73, /* a block has the wrong number of used bytes, or a byte past them that is not zero */
    STARLARK_NUMBER_BLOCK_COUNTS = 74, /* block 0 counts no node, more than 2,100 nodes, or more than 8,064 name bytes */
    STARLARK_NUMBER_BYTES_LEFT_OVER = 75, /* there are bytes after the last block */
    STARLARK_NUMBER_TOO_MANY_FILES = 76, /* the input has more than 4,294,967,295 files */
    STARLARK_NUMBER_STAR_ARGUMENT = 80, /* the call has a `*` or `**` argument, so it cannot be bound */
    STARLARK_NUMBER_TOO_MANY_POSITIONAL = 81, /* there are too many positional arguments, and there is no `*args` */
    STARLARK_NUMBER_UNKNOWN_NAMED = 82, /* a named argument matches no parameter, and there is no `**kwargs` */
    STARLARK_NUMBER_ALREADY_FILLED = 83, /* a named argument is for a parameter that is already filled */
    STARLARK_NUMBER_EMPTY_PARAMETER = 84, /* an ordinary parameter without a default gets no argument */
    STARLARK_NUMBER_BAD_HEADER = 90, /* block 0 or a name block is damaged, so nothing can be rescued */
    STARLARK_NUMBER_NOTHING_KEPT = 91, /* the file is damaged, and no child of its root can be kept */
    STARLARK_NUMBER_BOOK_UNSOUND = 95, /* a book has an invalid length, block or entry, or the entry to be added is invalid */
    STARLARK_NUMBER_ENTRY_TWICE = 96, /* a book has two entries for the same zone and setting, or the entry to be added is already there */
    STARLARK_NUMBER_NO_ENTRY = 97, /* neither book has a matching entry, or there is none to remove */
    STARLARK_NUMBER_NO_EMPTY_PLACE = 98, /* the book has no empty place for the entry to be added */
};

/* The kinds of records: byte 0 of each. */
enum starlark_kind {
    STARLARK_KIND_STATEMENTS = 1, /* statement */
    STARLARK_KIND_DEF = 2, /* statement */
    STARLARK_KIND_FOR = 3, /* statement */
    STARLARK_KIND_IF = 4, /* statement */
    STARLARK_KIND_IF_ELSE = 5, /* statement */
    STARLARK_KIND_BREAK = 6, /* statement */
    STARLARK_KIND_CONTINUE = 7, /* statement */
    STARLARK_KIND_RETURN = 8, /* statement */
    STARLARK_KIND_LOAD = 9, /* statement */
    STARLARK_KIND_OTHER_SIMPLE = 10, /* statement */
    STARLARK_KIND_ASSIGN = 11, /* statement */
    STARLARK_KIND_ASSIGN_MODIFY = 12, /* statement */
    STARLARK_KIND_TUPLE = 20, /* expression */
    STARLARK_KIND_DOT = 21, /* expression */
    STARLARK_KIND_CALL = 22, /* expression */
    STARLARK_KIND_INDEX = 23, /* expression */
    STARLARK_KIND_INDEX2 = 24, /* expression */
    STARLARK_KIND_SLICE = 25, /* expression */
    STARLARK_KIND_IDENTIFIER = 26, /* expression */
    STARLARK_KIND_LAMBDA = 27, /* expression */
    STARLARK_KIND_STRING = 28, /* expression */
    STARLARK_KIND_INT = 29, /* expression */
    STARLARK_KIND_FLOAT = 30, /* expression */
    STARLARK_KIND_ELLIPSIS = 31, /* expression */
    STARLARK_KIND_BYTES = 32, /* expression */
    STARLARK_KIND_NOT = 33, /* expression */
    STARLARK_KIND_MINUS = 34, /* expression */
    STARLARK_KIND_PLUS = 35, /* expression */
    STARLARK_KIND_BIT_NOT = 36, /* expression */
    STARLARK_KIND_OP = 37, /* expression */
    STARLARK_KIND_IF_EXPR = 38, /* expression */
    STARLARK_KIND_LIST = 39, /* expression */
    STARLARK_KIND_DICT = 40, /* expression */
    STARLARK_KIND_LIST_COMPREHENSION = 41, /* expression */
    STARLARK_KIND_DICT_COMPREHENSION = 42, /* expression */
    STARLARK_KIND_F_STRING = 43, /* expression */
    STARLARK_KIND_NORMAL = 50, /* parameter */
    STARLARK_KIND_NO_ARGS = 51, /* parameter */
    STARLARK_KIND_SLASH = 52, /* parameter */
    STARLARK_KIND_ARGS_PARAM = 53, /* parameter */
    STARLARK_KIND_KW_ARGS_PARAM = 54, /* parameter */
    STARLARK_KIND_POSITIONAL = 60, /* argument */
    STARLARK_KIND_NAMED = 61, /* argument */
    STARLARK_KIND_ARGS_ARG = 62, /* argument */
    STARLARK_KIND_KW_ARGS_ARG = 63, /* argument */
};

/* The modes of parameters: what starlark_params stores for each. */
enum starlark_mode {
    STARLARK_MODE_POS_ONLY = 1,
    STARLARK_MODE_POS_OR_NAME = 2,
    STARLARK_MODE_NAME_ONLY = 3,
    STARLARK_MODE_ARGS = 4,
    STARLARK_MODE_KWARGS = 5,
};

/* The shapes of types: what starlark_type stores for each node that it reads as a type. */
enum starlark_shape {
    STARLARK_SHAPE_ELLIPSIS = 1,
    STARLARK_SHAPE_PATH = 2,
    STARLARK_SHAPE_INDEX = 3,
    STARLARK_SHAPE_INDEX2 = 4,
    STARLARK_SHAPE_LIST = 5,
    STARLARK_SHAPE_UNION = 6,
    STARLARK_SHAPE_TUPLE = 7,
};

/* The editions of the type rules: what starlark_type and starlark_audit take, and what a table file may hold. Edition 2 reads a path that ends in
 * `type` as a path; edition 1 refuses it with 44. Nothing else differs. */
enum starlark_edition {
    STARLARK_EDITION_1 = 1,
    STARLARK_EDITION_2 = 2,
};

/* The first words of the parts of a format text: what starlark_fstring_write takes and starlark_fstring_read gives. */
enum starlark_part {
    STARLARK_PART_TEXT = 0, /* the second word is the number of its bytes; with the others it is 0 */
    STARLARK_PART_NONE = 1, /* an expression without a conversion */
    STARLARK_PART_STR = 2,  /* !s */
    STARLARK_PART_REPR = 3, /* !r */
};

/* The places of the counts of starlark_figures and starlark_figures_step. */
enum starlark_figure {
    STARLARK_FIGURE_FILES = 0,
    STARLARK_FIGURE_NODES = 1,
    STARLARK_FIGURE_LISTS = 2,
    STARLARK_FIGURE_MODE_POS_ONLY = 3,
    STARLARK_FIGURE_MODE_POS_OR_NAME = 4,
    STARLARK_FIGURE_MODE_NAME_ONLY = 5,
    STARLARK_FIGURE_MODE_ARGS = 6,
    STARLARK_FIGURE_MODE_KWARGS = 7,
    STARLARK_FIGURE_CALLS_ACCEPTED = 8,
    STARLARK_FIGURE_CALLS_REFUSED = 9,
    STARLARK_FIGURE_ERROR_10 = 10,
    STARLARK_FIGURE_ERROR_11 = 11,
    STARLARK_FIGURE_ERROR_12 = 12,
    STARLARK_FIGURE_ERROR_13 = 13,
    STARLARK_FIGURE_ERROR_14 = 14,
    STARLARK_FIGURE_ERROR_15 = 15,
    STARLARK_FIGURE_ERROR_16 = 16,
    STARLARK_FIGURE_ERROR_17 = 17,
    STARLARK_FIGURE_ERROR_18 = 18,
    STARLARK_FIGURE_ERROR_19 = 19,
    STARLARK_FIGURE_ERROR_50 = 20,
    STARLARK_FIGURE_ERROR_51 = 21,
    STARLARK_FIGURE_ERROR_52 = 22,
    STARLARK_FIGURE_ERROR_53 = 23,
    STARLARK_FIGURE_ERROR_54 = 24,
    STARLARK_FIGURE_ERROR_55 = 25,
    STARLARK_FIGURE_ERROR_56 = 26,
    STARLARK_FIGURE_ERROR_57 = 27,
    STARLARK_FIGURE_ERROR_58 = 28,
    STARLARK_FIGURE_ERROR_59 = 29,
    STARLARK_FIGURE_ERROR_60 = 30,
    STARLARK_FIGURE_ERROR_61 = 31,
};

/* The number of bytes of a dialect, and the three dialects that have a name, each as a pointer to so many bytes. */
#define STARLARK_DIALECT_BYTES 9
#define STARLARK_DIALECT_STANDARD ((const uint8_t *)"\1\1\1\0\0\0\1\0\0")
#define STARLARK_DIALECT_EXTENDED ((const uint8_t *)"\1\1\1\1\0\2\1\1\0")
#define STARLARK_DIALECT_ALL ((const uint8_t *)"\1\1\1\1\1\2\1\1\1")

/* The number of words of `out`. */
#define STARLARK_WORDS 12

/* The word for "no place", for "no earlier node", and for "no edition" in a table file. */
#define STARLARK_NONE UINT32_C(0xFFFFFFFF)

/* The limits of a table: nodes, which is also a sufficient length of a mode or shape buffer; name bytes; depth: statements
 * and expressions count, a parameter or an argument has its parent's, so that up to 127 records may be nested. */
#define STARLARK_NODES 2100
#define STARLARK_NODE_BYTES 24
#define STARLARK_NAME_BYTES 8064
#define STARLARK_DEPTH 64

/* The most entries of a parameter list, with `*` and `/`: more are 19. */
#define STARLARK_PARAMETERS 48

/* The largest source file number. */
#define STARLARK_LAST_FILE 999

/* The most bytes of a table file, a multiple of 512: a buffer of this length is always long enough. */
#define STARLARK_FILE_BYTES 59904

/* The number of counts of 64 bits that starlark_figures writes: enum starlark_figure has their places. */
#define STARLARK_FIGURES 32

/* The bytes that starlark_figures_step needs at a time, unless fewer are left: those of the largest table file. */
#define STARLARK_WINDOW_BYTES 59904

/* The most files that are counted: one more is 76. */
#define STARLARK_MOST_FILES 4294967295

/* The most errors of a module: two for each node. */
#define STARLARK_ERRORS 4200

/* The words of an error of a module: number, source file number, begin, end. */
#define STARLARK_ERROR_WORDS 4

/* The most errors of an audit: four for each node. */
#define STARLARK_AUDIT_ERRORS 8400

/* The words of an error of an audit: those of a module's error, then the node. */
#define STARLARK_AUDIT_WORDS 5

/* Twice the stack that any job needs. */
#define STARLARK_STACK_BYTES (1 << 18)

/* The version of the library that is linked or loaded: major * 65536 + minor * 256 + patch. A program that was compiled with this header
 * needs the same major and minor number, and at least the patch number. */
uint32_t starlark_version(void);

/* The table check: 1 to 4. Accepted: nothing. */
uint32_t starlark_table(const uint8_t *table, size_t table_len, const uint8_t *names, size_t names_len, uint32_t *out);

/* The parameter list of the Def or Lambda at `node`: 1 to 4, 6, 7, 10 to 19.
 * Accepted: out[0..10) begin and end of pos_only, pos_or_named, args, named_only and kwargs, as indices in the list without its marks
 * (no args: the empty range at the end of pos_or_named; no kwargs: the empty range at the count); out[10] the count.
 * modes[i] is then the mode of parameter i (enum starlark_mode). The buffer needs a byte for each
 * written parameter, marks counted (else 7); bytes past the count stay. 19 comes after 7 and before 10, and its node is `node`.
 * 10 to 19 have the source file number of their node in out[4]. */
uint32_t starlark_params(const uint8_t *table, size_t table_len, const uint8_t *names, size_t names_len, size_t node,
                         uint8_t *modes, size_t modes_len, uint32_t *out);

/* The arguments of the Call at `node`: 1 to 4, 6, 20 to 24.
 * Accepted: out[0] positional, out[1] named, out[2] the place of `*`, out[3] the place of `**`, from 0, or STARLARK_NONE.
 * 20 to 24 have the argument's source file number in out[4]. */
uint32_t starlark_call(const uint8_t *table, size_t table_len, const uint8_t *names, size_t names_len, size_t node,
                       uint32_t *out);

/* Which argument of the Call at `call` reaches which parameter of the Def at `def` (no Lambda): 1 to 4, 6, 7, 10 to 19, 20 to 24, 80 to 84.
 * Accepted: out[0] the number of parameters, marks omitted, out[1] the number of arguments. The list then begins with a word for each
 * parameter, the node of the argument that it takes, or 0 for its default and for `*args` and `**kwargs`; and then a word for each argument,
 * the index of the parameter that it reached. It needs a word for each written parameter, marks counted, and for each argument (else 7);
 * words past the answer stay. `list_len` counts words. The two nodes may be of different source files: 10 to 19 and 84 have the Def's number in out[4],
 * 20 to 24 and 80 to 83 the Call's. */
uint32_t starlark_bind(const uint8_t *table, size_t table_len, const uint8_t *names, size_t names_len, size_t call, size_t def,
                       uint32_t *list, size_t list_len, uint32_t *out);

/* Which arguments of the Call at `call` have the name of one ordinary parameter of the Def at `def` and reach another: 1 to 4, 6, 7, 10 to 19, 20 to 24, 80 to 84.
 * Accepted: out[0] the number of arguments that are reported. The list then begins with four words for each, in the order of the arguments: the argument's node,
 * the index of the parameter that it reaches (`*args` and `**kwargs` included), the index of the ordinary parameter that has its name, and the node of the
 * argument that the latter takes, or 0 where it takes none or its default. An argument's name is that of its expression: an Identifier's, or a Dot's field;
 * other expressions have none. Names are compared byte by byte. Two arguments are exchanged where each has the name of the parameter that the other reaches.
 * The list needs four words for each argument (else 7); words past the answer stay. Refusals are those of starlark_bind. */
uint32_t starlark_namesakes(const uint8_t *table, size_t table_len, const uint8_t *names, size_t names_len, size_t call, size_t def,
                            uint32_t *list, size_t list_len, uint32_t *out);

/* Whether the expression at `node` is a target: 1 to 4, 6, 30. Accepted: out[0] its Identifier, Dot and Index leaves.
 * 30 has the source file number in out[4]. */
uint32_t starlark_target(const uint8_t *table, size_t table_len, const uint8_t *names, size_t names_len, size_t node,
                         uint32_t *out);

/* The assignment at `node`: 1 to 4, 6, 31, 30, 32, 33. Accepted: out[0] its target's leaves. 30 to 33 have the source file
 * number in out[4]. */
uint32_t starlark_assignment(const uint8_t *table, size_t table_len, const uint8_t *names, size_t names_len, size_t node,
                             uint32_t *out);

/* Whether the expression at `node` is a type in a dialect (nine bytes, or none for Extended) and an edition of the type rules: 1 to 7, 45, 40 to 44.
 * Accepted: nothing. An edition other than 1 and 2 is 5, STARLARK_NONE too; that of a file is out[7] of starlark_read. Edition 2 does not give 44.
 * shapes[i] is then the shape of the node i places behind `node`, where it is read as a type or argument (enum starlark_shape);
 * the other bytes stay. The buffer needs a byte for each node of the type (else 7). 40 to 45 have the source file number in out[4]. */
uint32_t starlark_type(const uint8_t *table, size_t table_len, const uint8_t *names, size_t names_len, const uint8_t *dialect,
                       size_t dialect_len, uint32_t edition, size_t node, uint8_t *shapes, size_t shapes_len, uint32_t *out);

/* The module pass under a dialect (nine bytes, or none for Extended): 1 to 5. Accepted: out[0] the number of errors of the module, at most
 * STARLARK_ERRORS. STARLARK_ERROR_WORDS words of `errors` for each: number (10 to 19, 50 to 61), source file number, begin and end of the span.
 * The errors that fit completely are stored, the other words stay; `errors_len` counts words, and a list that is too short is not refused. */
uint32_t starlark_module(const uint8_t *table, size_t table_len, const uint8_t *names, size_t names_len, const uint8_t *dialect,
                         size_t dialect_len, uint32_t *errors, size_t errors_len, uint32_t *out);

/* The audit under a dialect (nine bytes, or none for Extended) and an edition of the type rules, every job on every node that it applies to: 1 to 5.
 * Accepted: out[0] the number of errors, at most STARLARK_AUDIT_ERRORS; 0 means that the module pass and every job accept. An edition other than
 * 1 and 2 is 5, STARLARK_NONE too; that of a file is out[7] of starlark_read. STARLARK_AUDIT_WORDS words of `errors` for each:
 * number (10 to 19, 20 to 24, 30 to 33, 40 to 45, 50 to 61), source file number, begin and end of the span, node. First the module pass's without
 * 10 to 19; then, node by node, the refusals of the jobs: the parameter list of a Def or Lambda, the arguments of a Call, an Assign or AssignModify, the
 * target of a For, a type (of a return, a parameter or an assignment). The errors that fit completely are stored, the other words stay; a list that
 * is too short is not refused. */
uint32_t starlark_audit(const uint8_t *table, size_t table_len, const uint8_t *names, size_t names_len, const uint8_t *dialect,
                        size_t dialect_len, uint32_t edition, uint32_t *errors, size_t errors_len, uint32_t *out);

/* The table file of a table, its names, a dialect (nine bytes, or none, which stays none) and an edition of the type rules (1, 2, or STARLARK_NONE for
 * a file without an edition byte), into `file`: 1 to 5, 7. Accepted: out[0] the number of bytes written, at most STARLARK_FILE_BYTES; bytes past them
 * stay. An edition without a dialect is 5, and so is any other number. 7 exactly if `file_len` is less than 512 for block 0, for each 504 name
 * bytes begun and for each 21 nodes begun. What is written reads back as the same table, names, dialect and edition. */
uint32_t starlark_write(const uint8_t *table, size_t table_len, const uint8_t *names, size_t names_len, const uint8_t *dialect,
                        size_t dialect_len, uint32_t edition, uint8_t *file, size_t file_len, uint32_t *out);

/* What can be kept of a damaged table file of `input_len` bytes, as a sound table file in `file`: 90, 91, 7.
 * Accepted: out[0] the number of bytes written, at most STARLARK_FILE_BYTES; bytes past them stay. out[1] the statements and out[2] the nodes that
 * are kept, out[3] the nodes dropped by the header's count, out[4] and out[5] the bytes after the header's last block, low and high word.
 * A file that passes is copied block for block; otherwise as many of the root's first children as are intact and pass are kept,
 * with all names, dialect and edition. 90 is a damaged block 0 (also a bad edition) or name block; 91 means that the blocks do not pass and no child of
 * the root can be kept; 7 comes exactly if `file_len` is less than what would be written. */
uint32_t starlark_rescue(const uint8_t *input, size_t input_len, uint8_t *file, size_t file_len, uint32_t *out);

/* What a table file of `file_len` bytes holds: its table at the front of `table`, its names at the front of `names`: 70 to 75, 3 to 5, 7.
 * Accepted: out[0] the nodes, 24 bytes each, out[1] the name bytes, out[2] 1 if there is a dialect, else 0, out[3] to out[5] the dialect's nine
 * bytes, four a word, the low one first, or zeros. out[6] the edition byte of the file, or STARLARK_NONE: the edition for starlark_write.
 * out[7] the edition that applies, 1 or 2, and 1 if there is no byte: the edition for starlark_type and starlark_audit. Bytes past table and names
 * stay. 7 exactly if `table_len` is less than 24 for each node or `names_len` less than the name bytes; STARLARK_NODES * STARLARK_NODE_BYTES and
 * STARLARK_NAME_BYTES are always enough. The counts of a file are checked by 74, so 1 and 2 do not arise. What starlark_write has written is read back as the
 * same table, names, dialect and edition. */
uint32_t starlark_read(const uint8_t *file, size_t file_len, uint8_t *table, size_t table_len, uint8_t *names, size_t names_len,
                       uint32_t *out);

/* The module pass over a table file of `file_len` bytes, under the dialect in the file: 70 to 75, 3 to 5. Accepted: out[0] the number of errors of the
 * module, out[1] the nodes. STARLARK_ERROR_WORDS words of `errors` for each, as starlark_module has them: number (10 to 19, 50 to 61), source
 * file number, begin and end. */
uint32_t starlark_check_file(const uint8_t *file, size_t file_len, uint32_t *errors, size_t errors_len, uint32_t *out);

/* The format text of an f-string's parts in a dialect (nine bytes, or none for Extended), at the front of `text`: 5, 64, 7.
 * Accepted: out[0] and out[1] the length of the text, low and high word; out[2] the notice's number (62) if the dialect has no f-strings, else 0:
 * the text is written all the same. Bytes past the text stay. A refusal writes no word.
 * A part is two words (enum starlark_part); `parts_len` counts words. The texts follow each other in `texts`, with any bytes; a part may end
 * inside a character. A brace of a text is written twice, an expression without a conversion and with str is `{}`, with repr `{!r}`.
 * 64 is an odd number of words, a first word above 3, a second word that is not 0 after 1, 2 or 3, or lengths whose sum is not `texts_len`.
 * 7 exactly if the text is longer than `text_len`. No parts and no texts give the empty text. */
uint32_t starlark_fstring_write(const uint32_t *parts, size_t parts_len, const uint8_t *texts, size_t texts_len, const uint8_t *dialect,
                                size_t dialect_len, uint8_t *text, size_t text_len, uint32_t *out);

/* The parts of a format text of `text_len` bytes, their words at the front of `parts`, their texts one after another at the front of `texts`: 63, 7.
 * Accepted: out[0] and out[1] the number of parts, two words each, out[2] and out[3] the number of text bytes, each low and high word. Words and bytes
 * past them stay. 63: out[0] and out[1] the position of the first brace that begins none of `{{`, `}}`, `{}` and `{!r}`, searched in the whole text
 * before 7. 7 exactly if two words for each part are more than `parts_len`, the text bytes are more than `texts_len`, or one text has 2^32 bytes or
 * more, so that its length does not fit into a word.
 * Adjacent text and doubled braces are one part. What starlark_fstring_write has written is read back as its parts, adjacent texts joined, empty
 * ones omitted and str as no conversion; what is read here and written again is the same text. */
uint32_t starlark_fstring_read(const uint8_t *text, size_t text_len, uint32_t *parts, size_t parts_len, uint8_t *texts, size_t texts_len,
                               uint32_t *out);

/* Books: the dialect of a zone and a setting. docs/FORMAT.md, "Books", has their format: a zone book and a line book, each of 1 to 100 blocks of 512
 * bytes with 21 places of 24 bytes. A zone is 32 bits wide here, though an entry has 16: no entry has a larger zone.
 *
 * The lookup, which always checks both books, in the order 95 zone book, 95 line book, 96 zone book, 96 line book, 97: 95 to 97.
 * Accepted: out[0] the book, 0 the zone book and 1 the line book, out[1] where the nine dialect bytes begin in it. They are those of the zone's
 * entry with the highest setting not above `setting` or, if the zone book has no matching entry, of the line book's. Zone 0 uses the line book
 * alone. If the lookup refuses there are no bytes: do not pass zero bytes as a dialect then, since no dialect bytes mean Extended. */
uint32_t starlark_book_lookup(const uint8_t *zone_book, size_t zone_book_len, const uint8_t *line_book, size_t line_book_len, uint32_t zone,
                              uint32_t setting, uint32_t *out);

/* Adds an entry to its book, zone 0 to the line book, and checks only that book: 95, 96, 98.
 * Accepted: out[0] the book, out[1] the place, from 0 on, 21 a block: the first that was empty. Only that place and its block's sum change.
 * 95 is also an entry with setting 0, a zone above 65,535 or bytes that are not nine valid dialect bytes; 96 also an entry that is already there,
 * whatever its dialect. */
uint32_t starlark_book_add(uint8_t *zone_book, size_t zone_book_len, uint8_t *line_book, size_t line_book_len, uint32_t zone, uint32_t setting,
                           const uint8_t *dialect, size_t dialect_len, uint32_t *out);

/* Removes the entry of exactly this zone and setting from its book, and checks only that book: 95, 96, 97.
 * Accepted: out[0] the book, out[1] the place, which is empty then. Only that place and its block's sum change. */
uint32_t starlark_book_remove(uint8_t *zone_book, size_t zone_book_len, uint8_t *line_book, size_t line_book_len, uint32_t zone,
                              uint32_t setting, uint32_t *out);

/* Makes a book of empty places of `book_len` bytes, which must be 1 to 100 whole blocks: 95.
 * Accepted: no word; the book passes as a zone book and as a line book. */
uint32_t starlark_book_blank(uint8_t *book, size_t book_len, uint32_t *out);

/* Figures: counts over the table files in `input`, one after another. An empty input has no file. Bytes after a file's last block begin
 * the next file: 76, 70 to 74, 3 to 5.
 * Accepted: no word. A refused file ends the report: out[0] and out[1] are the position of its first byte, low and high word, and the files before
 * it are counted. `figures` is written in both cases: STARLARK_FIGURES counts in the places of enum starlark_figure. They are the files; their nodes;
 * their parameter lists, each Def and each Lambda; by mode the parameters, marks omitted, of the lists that 10 to 19 accept; the calls (kind 22) that
 * 20 to 24 accept, and those that they refuse; and by number the errors of the module pass, all of them. 76 is a file after STARLARK_MOST_FILES files. */
uint32_t starlark_figures(const uint8_t *input, size_t input_len, uint64_t *figures, uint32_t *out);

/* Adds the counts of the table file at the front of `window` to `figures`, which begin as zeros: 76, 70 to 74, 3 to 5.
 * Accepted: out[0] the bytes that the file takes, 0 where the window is empty. If it refuses, neither `figures` nor `out` changes. 76 depends on the
 * number of files in `figures`. A count never passes 2^64 - 1; from zeros none gets there.
 * For an input of any length: step over a window of at least STARLARK_WINDOW_BYTES bytes, or all that are left; drop the bytes taken; fill it up; repeat.
 * The counts are those of starlark_figures over the whole input. */
uint32_t starlark_figures_step(const uint8_t *window, size_t window_len, uint64_t *figures, uint32_t *out);

#ifdef __cplusplus
}
#endif

#endif
