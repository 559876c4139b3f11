/* Numbers and kinds in words, for printing. To call the checks, starlark.h is enough.
 * Made by tools/interfaces.py from docs/numbers.tsv and docs/kinds.tsv. */
#ifndef STARLARK_NAMES_H
#define STARLARK_NAMES_H

#include "starlark.h"

/* The name of a number, as docs/numbers.tsv has it; "ACCEPTED" for 0, "unknown" for any other value. */
static inline const char *starlark_number_name(uint32_t number) {
    switch (number) {
    case STARLARK_ACCEPTED: return "ACCEPTED";
    case STARLARK_NUMBER_TABLE_LENGTH: return "TABLE_LENGTH";
    case STARLARK_NUMBER_NAME_BYTES: return "NAME_BYTES";
    case STARLARK_NUMBER_UNSOUND_RECORD: return "UNSOUND_RECORD";
    case STARLARK_NUMBER_TOO_DEEP: return "TOO_DEEP";
    case STARLARK_NUMBER_BAD_DIALECT: return "BAD_DIALECT";
    case STARLARK_NUMBER_WRONG_NODE: return "WRONG_NODE";
    case STARLARK_NUMBER_SHORT_BUFFER: return "SHORT_BUFFER";
    case STARLARK_NUMBER_SLASH_FIRST: return "SLASH_FIRST";
    case STARLARK_NUMBER_DUPLICATED_PARAMETER: return "DUPLICATED_PARAMETER";
    case STARLARK_NUMBER_NORMAL_AFTER_KWARGS: return "NORMAL_AFTER_KWARGS";
    case STARLARK_NUMBER_NO_DEFAULT_AFTER_DEFAULT: return "NO_DEFAULT_AFTER_DEFAULT";
    case STARLARK_NUMBER_STAR_AFTER_STAR: return "STAR_AFTER_STAR";
    case STARLARK_NUMBER_MULTIPLE_SLASH: return "MULTIPLE_SLASH";
    case STARLARK_NUMBER_MULTIPLE_KWARGS: return "MULTIPLE_KWARGS";
    case STARLARK_NUMBER_STAR_LAST: return "STAR_LAST";
    case STARLARK_NUMBER_NO_NORMAL_AFTER_STAR: return "NO_NORMAL_AFTER_STAR";
    case STARLARK_NUMBER_TOO_MANY_PARAMETERS: return "TOO_MANY_PARAMETERS";
    case STARLARK_NUMBER_POSITIONAL_AFTER_NON_POSITIONAL: return "POSITIONAL_AFTER_NON_POSITIONAL";
    case STARLARK_NUMBER_NAMED_AFTER_STAR: return "NAMED_AFTER_STAR";
    case STARLARK_NUMBER_REPEATED_NAMED: return "REPEATED_NAMED";
    case STARLARK_NUMBER_SECOND_STAR: return "SECOND_STAR";
    case STARLARK_NUMBER_SECOND_KWARGS: return "SECOND_KWARGS";
    case STARLARK_NUMBER_INVALID_LHS: return "INVALID_LHS";
    case STARLARK_NUMBER_INVALID_MODIFY_LHS: return "INVALID_MODIFY_LHS";
    case STARLARK_NUMBER_TYPE_ON_AUGMENTED: return "TYPE_ON_AUGMENTED";
    case STARLARK_NUMBER_TYPE_ON_TUPLE: return "TYPE_ON_TUPLE";
    case STARLARK_NUMBER_INVALID_TYPE: return "INVALID_TYPE";
    case STARLARK_NUMBER_EMPTY_LIST_IN_TYPE: return "EMPTY_LIST_IN_TYPE";
    case STARLARK_NUMBER_DOT_IN_TYPE: return "DOT_IN_TYPE";
    case STARLARK_NUMBER_EXPECTING_PATH: return "EXPECTING_PATH";
    case STARLARK_NUMBER_DOT_TYPE_BAN: return "DOT_TYPE_BAN";
    case STARLARK_NUMBER_TYPES_DISABLED: return "TYPES_DISABLED";
    case STARLARK_NUMBER_STAR_NOT_PERMITTED: return "STAR_NOT_PERMITTED";
    case STARLARK_NUMBER_SLASH_NOT_PERMITTED: return "SLASH_NOT_PERMITTED";
    case STARLARK_NUMBER_DEF_NOT_PERMITTED: return "DEF_NOT_PERMITTED";
    case STARLARK_NUMBER_TOP_LEVEL_FOR: return "TOP_LEVEL_FOR";
    case STARLARK_NUMBER_TOP_LEVEL_IF: return "TOP_LEVEL_IF";
    case STARLARK_NUMBER_BREAK_MISPLACED: return "BREAK_MISPLACED";
    case STARLARK_NUMBER_CONTINUE_MISPLACED: return "CONTINUE_MISPLACED";
    case STARLARK_NUMBER_RETURN_MISPLACED: return "RETURN_MISPLACED";
    case STARLARK_NUMBER_LOAD_NOT_AT_TOP: return "LOAD_NOT_AT_TOP";
    case STARLARK_NUMBER_LOAD_NOT_PERMITTED: return "LOAD_NOT_PERMITTED";
    case STARLARK_NUMBER_ELLIPSIS_NOT_PERMITTED: return "ELLIPSIS_NOT_PERMITTED";
    case STARLARK_NUMBER_LAMBDA_NOT_PERMITTED: return "LAMBDA_NOT_PERMITTED";
    case STARLARK_NUMBER_F_STRINGS_DISABLED: return "F_STRINGS_DISABLED";
    case STARLARK_NUMBER_STRAY_BRACE: return "STRAY_BRACE";
    case STARLARK_NUMBER_BROKEN_PART: return "BROKEN_PART";
    case STARLARK_NUMBER_BLOCK_SHORT: return "BLOCK_SHORT";
    case STARLARK_NUMBER_BLOCK_NUMBER: return "BLOCK_NUMBER";
    case STARLARK_NUMBER_BLOCK_CHECK: return "BLOCK_CHECK";
    case STARLARK_NUMBER_BLOCK_USED: return "BLOCK_USED";
    case STARLARK_NUMBER_BLOCK_COUNTS: return "BLOCK_COUNTS";
    case STARLARK_NUMBER_BYTES_LEFT_OVER: return "BYTES_LEFT_OVER";
    case STARLARK_NUMBER_TOO_MANY_FILES: return "TOO_MANY_FILES";
    case STARLARK_NUMBER_STAR_ARGUMENT: return "STAR_ARGUMENT";
    case STARLARK_NUMBER_TOO_MANY_POSITIONAL: return "TOO_MANY_POSITIONAL";
    case STARLARK_NUMBER_UNKNOWN_NAMED: return "UNKNOWN_NAMED";
    case STARLARK_NUMBER_ALREADY_FILLED: return "ALREADY_FILLED";
    case STARLARK_NUMBER_EMPTY_PARAMETER: return "EMPTY_PARAMETER";
    case STARLARK_NUMBER_BAD_HEADER: return "BAD_HEADER";
    case STARLARK_NUMBER_NOTHING_KEPT: return "NOTHING_KEPT";
    case STARLARK_NUMBER_BOOK_UNSOUND: return "BOOK_UNSOUND";
    case STARLARK_NUMBER_ENTRY_TWICE: return "ENTRY_TWICE";
    case STARLARK_NUMBER_NO_ENTRY: return "NO_ENTRY";
    case STARLARK_NUMBER_NO_EMPTY_PLACE: return "NO_EMPTY_PLACE";
    default: return "unknown";
    }
}

/* What a number means, in words. */
static inline const char *starlark_number_words(uint32_t number) {
    switch (number) {
    case STARLARK_ACCEPTED: return "accepted";
    case STARLARK_NUMBER_TABLE_LENGTH: return "the table has no record, more than 2,100, or a part of one";
    case STARLARK_NUMBER_NAME_BYTES: return "there are more than 8,064 name bytes";
    case STARLARK_NUMBER_UNSOUND_RECORD: return "a record of the table is unsound";
    case STARLARK_NUMBER_TOO_DEEP: return "a statement or expression is more than 64 deep";
    case STARLARK_NUMBER_BAD_DIALECT: return "the dialect bytes are not a dialect, or the edition is neither 1 nor 2, or there is an edition and no dialect";
    case STARLARK_NUMBER_WRONG_NODE: return "the node is beyond the table, or of the wrong kind";
    case STARLARK_NUMBER_SHORT_BUFFER: return "a buffer is too short: for modes, shapes, the words of a binding, a file, the contents of a file, a format text or its parts";
    case STARLARK_NUMBER_SLASH_FIRST: return "`/` is the first parameter";
    case STARLARK_NUMBER_DUPLICATED_PARAMETER: return "a parameter has the name of an earlier one";
    case STARLARK_NUMBER_NORMAL_AFTER_KWARGS: return "an ordinary parameter follows `**kwargs`";
    case STARLARK_NUMBER_NO_DEFAULT_AFTER_DEFAULT: return "a parameter without a default follows one that has a default";
    case STARLARK_NUMBER_STAR_AFTER_STAR: return "`*` or `*args` follows another star or `**kwargs`";
    case STARLARK_NUMBER_MULTIPLE_SLASH: return "`/` follows another `/`, a star or `**kwargs`";
    case STARLARK_NUMBER_MULTIPLE_KWARGS: return "there is a second `**kwargs`";
    case STARLARK_NUMBER_STAR_LAST: return "`*` is the last parameter";
    case STARLARK_NUMBER_NO_NORMAL_AFTER_STAR: return "`*` is followed by something other than an ordinary parameter";
    case STARLARK_NUMBER_TOO_MANY_PARAMETERS: return "the parameter list has more than 48 entries, `*` and `/` counted";
    case STARLARK_NUMBER_POSITIONAL_AFTER_NON_POSITIONAL: return "a positional argument follows one that is not positional";
    case STARLARK_NUMBER_NAMED_AFTER_STAR: return "a named argument follows a star argument or `**`";
    case STARLARK_NUMBER_REPEATED_NAMED: return "a named argument has the name of an earlier one";
    case STARLARK_NUMBER_SECOND_STAR: return "a star argument follows another one or `**`";
    case STARLARK_NUMBER_SECOND_KWARGS: return "there is a second `**` argument";
    case STARLARK_NUMBER_INVALID_LHS: return "this cannot be assigned to";
    case STARLARK_NUMBER_INVALID_MODIFY_LHS: return "a tuple or a list cannot be the left side of an augmented assignment";
    case STARLARK_NUMBER_TYPE_ON_AUGMENTED: return "an augmented assignment has a type";
    case STARLARK_NUMBER_TYPE_ON_TUPLE: return "an assignment to a tuple or a list has a type";
    case STARLARK_NUMBER_INVALID_TYPE: return "this is not a type";
    case STARLARK_NUMBER_EMPTY_LIST_IN_TYPE: return "a type contains an empty list";
    case STARLARK_NUMBER_DOT_IN_TYPE: return "a dot in a type follows something other than a path";
    case STARLARK_NUMBER_EXPECTING_PATH: return "a path is expected before the brackets of a type";
    case STARLARK_NUMBER_DOT_TYPE_BAN: return "a path in a type ends in `.type`, which edition 2 allows";
    case STARLARK_NUMBER_TYPES_DISABLED: return "the dialect has no types";
    case STARLARK_NUMBER_STAR_NOT_PERMITTED: return "the dialect has no `*` in parameter lists";
    case STARLARK_NUMBER_SLASH_NOT_PERMITTED: return "the dialect has no `/` in parameter lists";
    case STARLARK_NUMBER_DEF_NOT_PERMITTED: return "the dialect has no `def`";
    case STARLARK_NUMBER_TOP_LEVEL_FOR: return "the dialect has no `for` at top level";
    case STARLARK_NUMBER_TOP_LEVEL_IF: return "the dialect has no `if` at top level";
    case STARLARK_NUMBER_BREAK_MISPLACED: return "`break` is outside a `for` loop";
    case STARLARK_NUMBER_CONTINUE_MISPLACED: return "`continue` is outside a `for` loop";
    case STARLARK_NUMBER_RETURN_MISPLACED: return "`return` is outside a `def`";
    case STARLARK_NUMBER_LOAD_NOT_AT_TOP: return "`load` is below the top level";
    case STARLARK_NUMBER_LOAD_NOT_PERMITTED: return "the dialect has no `load`";
    case STARLARK_NUMBER_ELLIPSIS_NOT_PERMITTED: return "`...` is used in a dialect that has no types";
    case STARLARK_NUMBER_LAMBDA_NOT_PERMITTED: return "the dialect has no `lambda`";
    case STARLARK_NUMBER_F_STRINGS_DISABLED: return "the dialect has no f-strings";
    case STARLARK_NUMBER_STRAY_BRACE: return "a brace in a format text begins none of `{{`, `}}`, `{}` and `{!r}`";
    case STARLARK_NUMBER_BROKEN_PART: return "a part of a format text is broken, or the lengths of the texts do not add up to the number of text bytes";
    case STARLARK_NUMBER_BLOCK_SHORT: return "the file ends before a block is complete";
    case STARLARK_NUMBER_BLOCK_NUMBER: return "a block has the wrong number";
    case STARLARK_NUMBER_BLOCK_CHECK: return "the sum of a block is wrong, so a byte is damaged";
    case STARLARK_NUMBER_BLOCK_USED: return "a block has the wrong number of used bytes, or a byte past them that is not zero";
    case STARLARK_NUMBER_BLOCK_COUNTS: return "block 0 counts no node, more than 2,100 nodes, or more than 8,064 name bytes";
    case STARLARK_NUMBER_BYTES_LEFT_OVER: return "there are bytes after the last block";
    case STARLARK_NUMBER_TOO_MANY_FILES: return "the input has more than 4,294,967,295 files";
    case STARLARK_NUMBER_STAR_ARGUMENT: return "the call has a `*` or `**` argument, so it cannot be bound";
    case STARLARK_NUMBER_TOO_MANY_POSITIONAL: return "there are too many positional arguments, and there is no `*args`";
    case STARLARK_NUMBER_UNKNOWN_NAMED: return "a named argument matches no parameter, and there is no `**kwargs`";
    case STARLARK_NUMBER_ALREADY_FILLED: return "a named argument is for a parameter that is already filled";
    case STARLARK_NUMBER_EMPTY_PARAMETER: return "an ordinary parameter without a default gets no argument";
    case STARLARK_NUMBER_BAD_HEADER: return "block 0 or a name block is damaged, so nothing can be rescued";
    case STARLARK_NUMBER_NOTHING_KEPT: return "the file is damaged, and no child of its root can be kept";
    case STARLARK_NUMBER_BOOK_UNSOUND: return "a book has an invalid length, block or entry, or the entry to be added is invalid";
    case STARLARK_NUMBER_ENTRY_TWICE: return "a book has two entries for the same zone and setting, or the entry to be added is already there";
    case STARLARK_NUMBER_NO_ENTRY: return "neither book has a matching entry, or there is none to remove";
    case STARLARK_NUMBER_NO_EMPTY_PLACE: return "the book has no empty place for the entry to be added";
    default: return "unknown";
    }
}

/* The name of a kind of records, as docs/kinds.tsv has it; "unknown" for any other value. */
static inline const char *starlark_kind_name(uint32_t kind) {
    switch (kind) {
    case STARLARK_KIND_STATEMENTS: return "Statements";
    case STARLARK_KIND_DEF: return "Def";
    case STARLARK_KIND_FOR: return "For";
    case STARLARK_KIND_IF: return "If";
    case STARLARK_KIND_IF_ELSE: return "IfElse";
    case STARLARK_KIND_BREAK: return "Break";
    case STARLARK_KIND_CONTINUE: return "Continue";
    case STARLARK_KIND_RETURN: return "Return";
    case STARLARK_KIND_LOAD: return "Load";
    case STARLARK_KIND_OTHER_SIMPLE: return "OtherSimple";
    case STARLARK_KIND_ASSIGN: return "Assign";
    case STARLARK_KIND_ASSIGN_MODIFY: return "AssignModify";
    case STARLARK_KIND_TUPLE: return "Tuple";
    case STARLARK_KIND_DOT: return "Dot";
    case STARLARK_KIND_CALL: return "Call";
    case STARLARK_KIND_INDEX: return "Index";
    case STARLARK_KIND_INDEX2: return "Index2";
    case STARLARK_KIND_SLICE: return "Slice";
    case STARLARK_KIND_IDENTIFIER: return "Identifier";
    case STARLARK_KIND_LAMBDA: return "Lambda";
    case STARLARK_KIND_STRING: return "String";
    case STARLARK_KIND_INT: return "Int";
    case STARLARK_KIND_FLOAT: return "Float";
    case STARLARK_KIND_ELLIPSIS: return "Ellipsis";
    case STARLARK_KIND_BYTES: return "Bytes";
    case STARLARK_KIND_NOT: return "Not";
    case STARLARK_KIND_MINUS: return "Minus";
    case STARLARK_KIND_PLUS: return "Plus";
    case STARLARK_KIND_BIT_NOT: return "BitNot";
    case STARLARK_KIND_OP: return "Op";
    case STARLARK_KIND_IF_EXPR: return "IfExpr";
    case STARLARK_KIND_LIST: return "List";
    case STARLARK_KIND_DICT: return "Dict";
    case STARLARK_KIND_LIST_COMPREHENSION: return "ListComprehension";
    case STARLARK_KIND_DICT_COMPREHENSION: return "DictComprehension";
    case STARLARK_KIND_F_STRING: return "FString";
    case STARLARK_KIND_NORMAL: return "Normal";
    case STARLARK_KIND_NO_ARGS: return "NoArgs";
    case STARLARK_KIND_SLASH: return "Slash";
    case STARLARK_KIND_ARGS_PARAM: return "ArgsParam";
    case STARLARK_KIND_KW_ARGS_PARAM: return "KwArgsParam";
    case STARLARK_KIND_POSITIONAL: return "Positional";
    case STARLARK_KIND_NAMED: return "Named";
    case STARLARK_KIND_ARGS_ARG: return "ArgsArg";
    case STARLARK_KIND_KW_ARGS_ARG: return "KwArgsArg";
    default: return "unknown";
    }
}

#endif
