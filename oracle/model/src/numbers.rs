//! Kinds of records, modes of parameters and numbers of refusals, by name. They overlap, so each has its own module.

pub mod kind {
    pub const STATEMENTS: u8 = 1;
    pub const DEF: u8 = 2;
    pub const FOR: u8 = 3;
    pub const IF_STATEMENT: u8 = 4;
    pub const IF_ELSE: u8 = 5;
    pub const BREAK: u8 = 6;
    pub const CONTINUE: u8 = 7;
    pub const RETURN: u8 = 8;
    pub const LOAD: u8 = 9;
    pub const SIMPLE: u8 = 10;
    pub const ASSIGN: u8 = 11;
    pub const ASSIGN_MODIFY: u8 = 12;

    pub const TUPLE: u8 = 20;
    pub const DOT: u8 = 21;
    pub const CALL: u8 = 22;
    pub const INDEX: u8 = 23;
    pub const INDEX2: u8 = 24;
    pub const SLICE: u8 = 25;
    pub const IDENTIFIER: u8 = 26;
    pub const LAMBDA: u8 = 27;
    pub const STRING: u8 = 28;
    pub const INT: u8 = 29;
    pub const FLOAT: u8 = 30;
    pub const ELLIPSIS: u8 = 31;
    pub const BYTES: u8 = 32;
    pub const NOT: u8 = 33;
    pub const MINUS: u8 = 34;
    pub const PLUS: u8 = 35;
    pub const BIT_NOT: u8 = 36;
    pub const OP: u8 = 37;
    pub const IF_EXPRESSION: u8 = 38;
    pub const LIST: u8 = 39;
    pub const DICT: u8 = 40;
    pub const LIST_COMPREHENSION: u8 = 41;
    pub const DICT_COMPREHENSION: u8 = 42;
    pub const FSTRING: u8 = 43;

    pub const NORMAL: u8 = 50;
    pub const NO_ARGS: u8 = 51;
    pub const SLASH: u8 = 52;
    pub const ARGS: u8 = 53;
    pub const KWARGS: u8 = 54;

    pub const POSITIONAL: u8 = 60;
    pub const NAMED: u8 = 61;
    pub const STAR_ARGUMENT: u8 = 62;
    pub const STAR_STAR_ARGUMENT: u8 = 63;

    /// Every kind that a sound record can have.
    pub fn all() -> impl Iterator<Item = u8> {
        (STATEMENTS..=ASSIGN_MODIFY)
            .chain(TUPLE..=FSTRING)
            .chain(NORMAL..=KWARGS)
            .chain(POSITIONAL..=STAR_STAR_ARGUMENT)
    }
}

/// The modes of a flat parameter.
pub mod mode {
    pub const POS_ONLY: u8 = 1;
    pub const POS_OR_NAME: u8 = 2;
    pub const NAME_ONLY: u8 = 3;
    pub const ARGS: u8 = 4;
    pub const KWARGS: u8 = 5;
}

pub mod number {
    pub const TABLE_LENGTH: u32 = 1;
    pub const NAME_BYTES: u32 = 2;
    pub const UNSOUND: u32 = 3;
    pub const DEPTH: u32 = 4;
    pub const DIALECT: u32 = 5;
    pub const NODE: u32 = 6;
    pub const SHORT_BUFFER: u32 = 7;

    pub const SLASH_FIRST: u32 = 10;
    pub const DUPLICATED_PARAMETER: u32 = 11;
    pub const NORMAL_AFTER_KWARGS: u32 = 12;
    pub const NO_DEFAULT_AFTER_DEFAULT: u32 = 13;
    pub const SECOND_STAR: u32 = 14;
    pub const MULTIPLE_SLASHES: u32 = 15;
    pub const MULTIPLE_KWARGS: u32 = 16;
    pub const STAR_LAST: u32 = 17;
    pub const STAR_NOT_FOLLOWED: u32 = 18;
    pub const TOO_MANY_PARAMETERS: u32 = 19;

    pub const POSITIONAL_AFTER_NON_POSITIONAL: u32 = 20;
    pub const NAMED_AFTER_STAR: u32 = 21;
    pub const REPEATED_NAMED: u32 = 22;
    pub const STAR_AFTER_STAR: u32 = 23;
    pub const MULTIPLE_STAR_STAR: u32 = 24;

    pub const INVALID_LHS: u32 = 30;
    pub const INVALID_MODIFY_LHS: u32 = 31;
    pub const TYPE_ON_AUGMENTED: u32 = 32;
    pub const TYPE_ON_TUPLE: u32 = 33;

    pub const INVALID_TYPE: u32 = 40;
    pub const EMPTY_LIST_IN_TYPE: u32 = 41;
    pub const DOT_IN_TYPE: u32 = 42;
    pub const EXPECTING_PATH: u32 = 43;
    pub const DOT_TYPE_BAN: u32 = 44;
    pub const TYPES_DISABLED: u32 = 45;

    pub const STAR_NOT_ALLOWED: u32 = 50;
    pub const SLASH_NOT_ALLOWED: u32 = 51;
    pub const DEF_NOT_ALLOWED: u32 = 52;
    pub const TOP_LEVEL_FOR: u32 = 53;
    pub const TOP_LEVEL_IF: u32 = 54;
    pub const BREAK_MISPLACED: u32 = 55;
    pub const CONTINUE_MISPLACED: u32 = 56;
    pub const RETURN_MISPLACED: u32 = 57;
    pub const LOAD_NOT_AT_TOP: u32 = 58;
    pub const LOAD_NOT_ALLOWED: u32 = 59;
    pub const ELLIPSIS_NOT_ALLOWED: u32 = 60;
    pub const LAMBDA_NOT_ALLOWED: u32 = 61;

    pub const F_STRINGS_DISABLED: u32 = 62;
    pub const STRAY_BRACE: u32 = 63;
    pub const BROKEN_PART: u32 = 64;

    pub const SHORT_BLOCK: u32 = 70;
    pub const BLOCK_NUMBER: u32 = 71;
    pub const BLOCK_CHECK: u32 = 72;
    pub const USED_BYTES: u32 = 73;
    pub const COUNTS: u32 = 74;
    pub const BYTES_LEFT_OVER: u32 = 75;
    pub const TOO_MANY_FILES: u32 = 76;

    pub const STAR_IN_CALL: u32 = 80;
    pub const TOO_MANY_POSITIONAL: u32 = 81;
    pub const UNKNOWN_NAMED: u32 = 82;
    pub const FILLED_ALREADY: u32 = 83;
    pub const LEFT_EMPTY: u32 = 84;

    pub const BAD_HEADER: u32 = 90;
    pub const NOTHING_KEPT: u32 = 91;
}
