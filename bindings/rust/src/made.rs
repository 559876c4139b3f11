//! The numbers and kinds, with their names and words. Made by tools/interfaces.py from docs/numbers.tsv and docs/kinds.tsv.

use crate::Class;

/// A number given back: why a job refuses, an error of a module, or a notice (62).
#[derive(Clone, Copy, Debug, PartialEq, Eq, PartialOrd, Ord, Hash)]
#[repr(u32)]
#[non_exhaustive]
pub enum Number {
    /// the table has no record, more than 2,100, or a part of one
    TableLength = 1,
    /// there are more than 8,064 name bytes
    NameBytes = 2,
    /// a record of the table is unsound
    UnsoundRecord = 3,
    /// a statement or expression is more than 64 deep
    TooDeep = 4,
    /// the dialect bytes are not a dialect, or the edition is neither 1 nor 2, or there is an edition and no dialect
    BadDialect = 5,
    /// the node is beyond the table, or of the wrong kind
    WrongNode = 6,
    /// a buffer is too short: for modes, shapes, the words of a binding, a file, the contents of a file, a format text or its parts
    ShortBuffer = 7,
    /// `/` is the first parameter
    SlashFirst = 10,
    /// a parameter has the name of an earlier one
    DuplicatedParameter = 11,
    /// an ordinary parameter follows `**kwargs`
    NormalAfterKwargs = 12,
    /// a parameter without a default follows one that has a default
    NoDefaultAfterDefault = 13,
    /// `*` or `*args` follows another star or `**kwargs`
    StarAfterStar = 14,
    /// `/` follows another `/`, a star or `**kwargs`
    MultipleSlash = 15,
    /// there is a second `**kwargs`
    MultipleKwargs = 16,
    /// `*` is the last parameter
    StarLast = 17,
    /// `*` is followed by something other than an ordinary parameter
    NoNormalAfterStar = 18,
    /// the parameter list has more than 48 entries, `*` and `/` counted
    TooManyParameters = 19,
    /// a positional argument follows one that is not positional
    PositionalAfterNonPositional = 20,
    /// a named argument follows a star argument or `**`
    NamedAfterStar = 21,
    /// a named argument has the name of an earlier one
    RepeatedNamed = 22,
    /// a star argument follows another one or `**`
    SecondStar = 23,
    /// there is a second `**` argument
    SecondKwargs = 24,
    /// this cannot be assigned to
    InvalidLhs = 30,
    /// a tuple or a list cannot be the left side of an augmented assignment
    InvalidModifyLhs = 31,
    /// an augmented assignment has a type
    TypeOnAugmented = 32,
    /// an assignment to a tuple or a list has a type
    TypeOnTuple = 33,
    /// this is not a type
    InvalidType = 40,
    /// a type contains an empty list
    EmptyListInType = 41,
    /// a dot in a type follows something other than a path
    DotInType = 42,
    /// a path is expected before the brackets of a type
    ExpectingPath = 43,
    /// a path in a type ends in `.type`, which edition 2 allows
    DotTypeBan = 44,
    /// the dialect has no types
    TypesDisabled = 45,
    /// the dialect has no `*` in parameter lists
    StarNotPermitted = 50,
    /// the dialect has no `/` in parameter lists
    SlashNotPermitted = 51,
    /// the dialect has no `def`
    DefNotPermitted = 52,
    /// the dialect has no `for` at top level
    TopLevelFor = 53,
    /// the dialect has no `if` at top level
    TopLevelIf = 54,
    /// `break` is outside a `for` loop
    BreakMisplaced = 55,
    /// `continue` is outside a `for` loop
    ContinueMisplaced = 56,
    /// `return` is outside a `def`
    ReturnMisplaced = 57,
    /// `load` is below the top level
    LoadNotAtTop = 58,
    /// the dialect has no `load`
    LoadNotPermitted = 59,
    /// `...` is used in a dialect that has no types
    EllipsisNotPermitted = 60,
    /// the dialect has no `lambda`
    LambdaNotPermitted = 61,
    /// the dialect has no f-strings
    FStringsDisabled = 62,
    /// a brace in a format text begins none of `{{`, `}}`, `{}` and `{!r}`
    StrayBrace = 63,
    /// a part of a format text is broken, or the lengths of the texts do not add up to the number of text bytes
    BrokenPart = 64,
    /// the file ends before a block is complete
    BlockShort = 70,
    /// a block has the wrong number
    BlockNumber = 71,
    /// the sum of a block is wrong, so a byte is damaged
    BlockCheck = 72,
    /// a block has the wrong number of used bytes, or a byte past them that is not zero
    BlockUsed = 73,
    /// block 0 counts no node, more than 2,100 nodes, or more than 8,064 name bytes
    BlockCounts = 74,
    /// there are bytes after the last block
    BytesLeftOver = 75,
    /// the input has more than 4,294,967,295 files
    TooManyFiles = 76,
    /// the call has a `*` or `**` argument, so it cannot be bound
    StarArgument = 80,
    /// there are too many positional arguments, and there is no `*args`
    TooManyPositional = 81,
    /// a named argument matches no parameter, and there is no `**kwargs`
    UnknownNamed = 82,
    /// a named argument is for a parameter that is already filled
    AlreadyFilled = 83,
    /// an ordinary parameter without a default gets no argument
    EmptyParameter = 84,
    /// block 0 or a name block is damaged, so nothing can be rescued
    BadHeader = 90,
    /// the file is damaged, and no child of its root can be kept
    NothingKept = 91,
    /// a book has an invalid length, block or entry, or the entry to be added is invalid
    BookUnsound = 95,
    /// a book has two entries for the same zone and setting, or the entry to be added is already there
    EntryTwice = 96,
    /// neither book has a matching entry, or there is none to remove
    NoEntry = 97,
    /// the book has no empty place for the entry to be added
    NoEmptyPlace = 98,
}

/// The kind of a record: its byte 0. docs/FORMAT.md has what each takes below it.
#[derive(Clone, Copy, Debug, PartialEq, Eq, PartialOrd, Ord, Hash)]
#[repr(u8)]
#[non_exhaustive]
pub enum Kind {
    /// Statement 1.
    Statements = 1,
    /// Statement 2.
    Def = 2,
    /// Statement 3.
    For = 3,
    /// Statement 4.
    If = 4,
    /// Statement 5.
    IfElse = 5,
    /// Statement 6.
    Break = 6,
    /// Statement 7.
    Continue = 7,
    /// Statement 8.
    Return = 8,
    /// Statement 9.
    Load = 9,
    /// Statement 10.
    OtherSimple = 10,
    /// Statement 11.
    Assign = 11,
    /// Statement 12.
    AssignModify = 12,
    /// Expression 20.
    Tuple = 20,
    /// Expression 21.
    Dot = 21,
    /// Expression 22.
    Call = 22,
    /// Expression 23.
    Index = 23,
    /// Expression 24.
    Index2 = 24,
    /// Expression 25.
    Slice = 25,
    /// Expression 26.
    Identifier = 26,
    /// Expression 27.
    Lambda = 27,
    /// Expression 28.
    String = 28,
    /// Expression 29.
    Int = 29,
    /// Expression 30.
    Float = 30,
    /// Expression 31.
    Ellipsis = 31,
    /// Expression 32.
    Bytes = 32,
    /// Expression 33.
    Not = 33,
    /// Expression 34.
    Minus = 34,
    /// Expression 35.
    Plus = 35,
    /// Expression 36.
    BitNot = 36,
    /// Expression 37.
    Op = 37,
    /// Expression 38.
    IfExpr = 38,
    /// Expression 39.
    List = 39,
    /// Expression 40.
    Dict = 40,
    /// Expression 41.
    ListComprehension = 41,
    /// Expression 42.
    DictComprehension = 42,
    /// Expression 43.
    FString = 43,
    /// Parameter 50.
    Normal = 50,
    /// Parameter 51.
    NoArgs = 51,
    /// Parameter 52.
    Slash = 52,
    /// Parameter 53.
    ArgsParam = 53,
    /// Parameter 54.
    KwArgsParam = 54,
    /// Argument 60.
    Positional = 60,
    /// Argument 61.
    Named = 61,
    /// Argument 62.
    ArgsArg = 62,
    /// Argument 63.
    KwArgsArg = 63,
}

/// The mode of a parameter: what [`crate::Table::params`] stores for each.
#[derive(Clone, Copy, Debug, PartialEq, Eq, PartialOrd, Ord, Hash)]
#[repr(u8)]
#[non_exhaustive]
pub enum Mode {
    /// Mode 1.
    PosOnly = 1,
    /// Mode 2.
    PosOrName = 2,
    /// Mode 3.
    NameOnly = 3,
    /// Mode 4.
    Args = 4,
    /// Mode 5.
    Kwargs = 5,
}

/// The shape of a type: what [`crate::Table::type_shape`] stores for each node that it reads as a type.
#[derive(Clone, Copy, Debug, PartialEq, Eq, PartialOrd, Ord, Hash)]
#[repr(u8)]
#[non_exhaustive]
pub enum Shape {
    /// Shape 1.
    Ellipsis = 1,
    /// Shape 2.
    Path = 2,
    /// Shape 3.
    Index = 3,
    /// Shape 4.
    Index2 = 4,
    /// Shape 5.
    List = 5,
    /// Shape 6.
    Union = 6,
    /// Shape 7.
    Tuple = 7,
}

/// Each mode.
pub const MODES: [Mode; 5] = [Mode::PosOnly, Mode::PosOrName, Mode::NameOnly, Mode::Args, Mode::Kwargs];

/// Each shape.
pub const SHAPES: [Shape; 7] = [Shape::Ellipsis, Shape::Path, Shape::Index, Shape::Index2, Shape::List, Shape::Union, Shape::Tuple];

/// The dialects that have a name, as their nine bytes.
pub mod dialect {
    /// The dialect Standard.
    pub const STANDARD: [u8; 9] = [1, 1, 1, 0, 0, 0, 1, 0, 0];
    /// The dialect Extended.
    pub const EXTENDED: [u8; 9] = [1, 1, 1, 1, 0, 2, 1, 1, 0];
    /// The dialect AllOptionsInternal.
    pub const ALL: [u8; 9] = [1, 1, 1, 1, 1, 2, 1, 1, 1];
}

/// Each number, its name and what it means.
pub const NUMBERS: [(Number, &str, &str); 65] = [
    (Number::TableLength, "TABLE_LENGTH", "the table has no record, more than 2,100, or a part of one"),
    (Number::NameBytes, "NAME_BYTES", "there are more than 8,064 name bytes"),
    (Number::UnsoundRecord, "UNSOUND_RECORD", "a record of the table is unsound"),
    (Number::TooDeep, "TOO_DEEP", "a statement or expression is more than 64 deep"),
    (Number::BadDialect, "BAD_DIALECT", "the dialect bytes are not a dialect, or the edition is neither 1 nor 2, or there is an edition and no dialect"),
    (Number::WrongNode, "WRONG_NODE", "the node is beyond the table, or of the wrong kind"),
    (Number::ShortBuffer, "SHORT_BUFFER", "a buffer is too short: for modes, shapes, the words of a binding, a file, the contents of a file, a format text or its parts"),
    (Number::SlashFirst, "SLASH_FIRST", "`/` is the first parameter"),
    (Number::DuplicatedParameter, "DUPLICATED_PARAMETER", "a parameter has the name of an earlier one"),
    (Number::NormalAfterKwargs, "NORMAL_AFTER_KWARGS", "an ordinary parameter follows `**kwargs`"),
    (Number::NoDefaultAfterDefault, "NO_DEFAULT_AFTER_DEFAULT", "a parameter without a default follows one that has a default"),
    (Number::StarAfterStar, "STAR_AFTER_STAR", "`*` or `*args` follows another star or `**kwargs`"),
    (Number::MultipleSlash, "MULTIPLE_SLASH", "`/` follows another `/`, a star or `**kwargs`"),
    (Number::MultipleKwargs, "MULTIPLE_KWARGS", "there is a second `**kwargs`"),
    (Number::StarLast, "STAR_LAST", "`*` is the last parameter"),
    (Number::NoNormalAfterStar, "NO_NORMAL_AFTER_STAR", "`*` is followed by something other than an ordinary parameter"),
    (Number::TooManyParameters, "TOO_MANY_PARAMETERS", "the parameter list has more than 48 entries, `*` and `/` counted"),
    (Number::PositionalAfterNonPositional, "POSITIONAL_AFTER_NON_POSITIONAL", "a positional argument follows one that is not positional"),
    (Number::NamedAfterStar, "NAMED_AFTER_STAR", "a named argument follows a star argument or `**`"),
    (Number::RepeatedNamed, "REPEATED_NAMED", "a named argument has the name of an earlier one"),
    (Number::SecondStar, "SECOND_STAR", "a star argument follows another one or `**`"),
    (Number::SecondKwargs, "SECOND_KWARGS", "there is a second `**` argument"),
    (Number::InvalidLhs, "INVALID_LHS", "this cannot be assigned to"),
    (Number::InvalidModifyLhs, "INVALID_MODIFY_LHS", "a tuple or a list cannot be the left side of an augmented assignment"),
    (Number::TypeOnAugmented, "TYPE_ON_AUGMENTED", "an augmented assignment has a type"),
    (Number::TypeOnTuple, "TYPE_ON_TUPLE", "an assignment to a tuple or a list has a type"),
    (Number::InvalidType, "INVALID_TYPE", "this is not a type"),
    (Number::EmptyListInType, "EMPTY_LIST_IN_TYPE", "a type contains an empty list"),
    (Number::DotInType, "DOT_IN_TYPE", "a dot in a type follows something other than a path"),
    (Number::ExpectingPath, "EXPECTING_PATH", "a path is expected before the brackets of a type"),
    (Number::DotTypeBan, "DOT_TYPE_BAN", "a path in a type ends in `.type`, which edition 2 allows"),
    (Number::TypesDisabled, "TYPES_DISABLED", "the dialect has no types"),
    (Number::StarNotPermitted, "STAR_NOT_PERMITTED", "the dialect has no `*` in parameter lists"),
    (Number::SlashNotPermitted, "SLASH_NOT_PERMITTED", "the dialect has no `/` in parameter lists"),
    (Number::DefNotPermitted, "DEF_NOT_PERMITTED", "the dialect has no `def`"),
    (Number::TopLevelFor, "TOP_LEVEL_FOR", "the dialect has no `for` at top level"),
    (Number::TopLevelIf, "TOP_LEVEL_IF", "the dialect has no `if` at top level"),
    (Number::BreakMisplaced, "BREAK_MISPLACED", "`break` is outside a `for` loop"),
    (Number::ContinueMisplaced, "CONTINUE_MISPLACED", "`continue` is outside a `for` loop"),
    (Number::ReturnMisplaced, "RETURN_MISPLACED", "`return` is outside a `def`"),
    (Number::LoadNotAtTop, "LOAD_NOT_AT_TOP", "`load` is below the top level"),
    (Number::LoadNotPermitted, "LOAD_NOT_PERMITTED", "the dialect has no `load`"),
    (Number::EllipsisNotPermitted, "ELLIPSIS_NOT_PERMITTED", "`...` is used in a dialect that has no types"),
    (Number::LambdaNotPermitted, "LAMBDA_NOT_PERMITTED", "the dialect has no `lambda`"),
    (Number::FStringsDisabled, "F_STRINGS_DISABLED", "the dialect has no f-strings"),
    (Number::StrayBrace, "STRAY_BRACE", "a brace in a format text begins none of `{{`, `}}`, `{}` and `{!r}`"),
    (Number::BrokenPart, "BROKEN_PART", "a part of a format text is broken, or the lengths of the texts do not add up to the number of text bytes"),
    (Number::BlockShort, "BLOCK_SHORT", "the file ends before a block is complete"),
    (Number::BlockNumber, "BLOCK_NUMBER", "a block has the wrong number"),
    (Number::BlockCheck, "BLOCK_CHECK", "the sum of a block is wrong, so a byte is damaged"),
    (Number::BlockUsed, "BLOCK_USED", "a block has the wrong number of used bytes, or a byte past them that is not zero"),
    (Number::BlockCounts, "BLOCK_COUNTS", "block 0 counts no node, more than 2,100 nodes, or more than 8,064 name bytes"),
    (Number::BytesLeftOver, "BYTES_LEFT_OVER", "there are bytes after the last block"),
    (Number::TooManyFiles, "TOO_MANY_FILES", "the input has more than 4,294,967,295 files"),
    (Number::StarArgument, "STAR_ARGUMENT", "the call has a `*` or `**` argument, so it cannot be bound"),
    (Number::TooManyPositional, "TOO_MANY_POSITIONAL", "there are too many positional arguments, and there is no `*args`"),
    (Number::UnknownNamed, "UNKNOWN_NAMED", "a named argument matches no parameter, and there is no `**kwargs`"),
    (Number::AlreadyFilled, "ALREADY_FILLED", "a named argument is for a parameter that is already filled"),
    (Number::EmptyParameter, "EMPTY_PARAMETER", "an ordinary parameter without a default gets no argument"),
    (Number::BadHeader, "BAD_HEADER", "block 0 or a name block is damaged, so nothing can be rescued"),
    (Number::NothingKept, "NOTHING_KEPT", "the file is damaged, and no child of its root can be kept"),
    (Number::BookUnsound, "BOOK_UNSOUND", "a book has an invalid length, block or entry, or the entry to be added is invalid"),
    (Number::EntryTwice, "ENTRY_TWICE", "a book has two entries for the same zone and setting, or the entry to be added is already there"),
    (Number::NoEntry, "NO_ENTRY", "neither book has a matching entry, or there is none to remove"),
    (Number::NoEmptyPlace, "NO_EMPTY_PLACE", "the book has no empty place for the entry to be added"),
];

/// Each kind, its name and its class.
pub const KINDS: [(Kind, &str, Class); 45] = [
    (Kind::Statements, "Statements", Class::Statement),
    (Kind::Def, "Def", Class::Statement),
    (Kind::For, "For", Class::Statement),
    (Kind::If, "If", Class::Statement),
    (Kind::IfElse, "IfElse", Class::Statement),
    (Kind::Break, "Break", Class::Statement),
    (Kind::Continue, "Continue", Class::Statement),
    (Kind::Return, "Return", Class::Statement),
    (Kind::Load, "Load", Class::Statement),
    (Kind::OtherSimple, "OtherSimple", Class::Statement),
    (Kind::Assign, "Assign", Class::Statement),
    (Kind::AssignModify, "AssignModify", Class::Statement),
    (Kind::Tuple, "Tuple", Class::Expression),
    (Kind::Dot, "Dot", Class::Expression),
    (Kind::Call, "Call", Class::Expression),
    (Kind::Index, "Index", Class::Expression),
    (Kind::Index2, "Index2", Class::Expression),
    (Kind::Slice, "Slice", Class::Expression),
    (Kind::Identifier, "Identifier", Class::Expression),
    (Kind::Lambda, "Lambda", Class::Expression),
    (Kind::String, "String", Class::Expression),
    (Kind::Int, "Int", Class::Expression),
    (Kind::Float, "Float", Class::Expression),
    (Kind::Ellipsis, "Ellipsis", Class::Expression),
    (Kind::Bytes, "Bytes", Class::Expression),
    (Kind::Not, "Not", Class::Expression),
    (Kind::Minus, "Minus", Class::Expression),
    (Kind::Plus, "Plus", Class::Expression),
    (Kind::BitNot, "BitNot", Class::Expression),
    (Kind::Op, "Op", Class::Expression),
    (Kind::IfExpr, "IfExpr", Class::Expression),
    (Kind::List, "List", Class::Expression),
    (Kind::Dict, "Dict", Class::Expression),
    (Kind::ListComprehension, "ListComprehension", Class::Expression),
    (Kind::DictComprehension, "DictComprehension", Class::Expression),
    (Kind::FString, "FString", Class::Expression),
    (Kind::Normal, "Normal", Class::Parameter),
    (Kind::NoArgs, "NoArgs", Class::Parameter),
    (Kind::Slash, "Slash", Class::Parameter),
    (Kind::ArgsParam, "ArgsParam", Class::Parameter),
    (Kind::KwArgsParam, "KwArgsParam", Class::Parameter),
    (Kind::Positional, "Positional", Class::Argument),
    (Kind::Named, "Named", Class::Argument),
    (Kind::ArgsArg, "ArgsArg", Class::Argument),
    (Kind::KwArgsArg, "KwArgsArg", Class::Argument),
];
