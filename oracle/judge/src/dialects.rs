//! Dialects as bytes and as the crate's record.

use model::dialect::BYTES;
use starlark_syntax::dialect::Dialect;
use starlark_syntax::dialect::DialectTypes;

/// Nine bytes in the order of the crate's fields. No bytes is the crate's Extended, its own constant, and not its default.
pub fn from_bytes(bytes: &[u8]) -> Dialect {
    if bytes.is_empty() {
        return Dialect::Extended;
    }
    Dialect {
        enable_def: bytes[0] == 1,
        enable_lambda: bytes[1] == 1,
        enable_load: bytes[2] == 1,
        enable_keyword_only_arguments: bytes[3] == 1,
        enable_positional_only_arguments: bytes[4] == 1,
        enable_types: match bytes[5] {
            0 => DialectTypes::Disable,
            1 => DialectTypes::ParseOnly,
            _ => DialectTypes::Enable,
        },
        enable_load_reexport: bytes[6] == 1,
        enable_top_level_stmt: bytes[7] == 1,
        enable_f_strings: bytes[8] == 1,
        _non_exhaustive: (),
    }
}

fn to_bytes(dialect: &Dialect) -> [u8; BYTES] {
    [
        u8::from(dialect.enable_def),
        u8::from(dialect.enable_lambda),
        u8::from(dialect.enable_load),
        u8::from(dialect.enable_keyword_only_arguments),
        u8::from(dialect.enable_positional_only_arguments),
        match dialect.enable_types {
            DialectTypes::Disable => 0,
            DialectTypes::ParseOnly => 1,
            DialectTypes::Enable => 2,
        },
        u8::from(dialect.enable_load_reexport),
        u8::from(dialect.enable_top_level_stmt),
        u8::from(dialect.enable_f_strings),
    ]
}

/// The crate's named dialects, in the order of the rows of docs/FORMAT.md, and its default last.
pub fn named() -> [(&'static str, [u8; BYTES]); 4] {
    [
        ("Standard", to_bytes(&Dialect::Standard)),
        ("Extended", to_bytes(&Dialect::Extended)),
        ("AllOptionsInternal", to_bytes(&Dialect::AllOptionsInternal)),
        ("default", to_bytes(&Dialect::default())),
    ]
}
