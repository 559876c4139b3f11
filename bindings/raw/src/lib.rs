//! The functions of include/starlark.h, declared for Rust once. The crate has no link line: who uses it links an archive, a shared library or a
//! stand-in. The header describes what each function does and what the caller must ensure; the crate `starlark-checks` is the safe wrapper.
#![no_std]

/// The words that a function answers in.
pub type Words = [u32; 12];

/// The counts of figures.
pub type Counts = [u64; 32];

extern "C" {
    pub fn starlark_version() -> u32;
    pub fn starlark_table(table: *const u8, table_len: usize, names: *const u8, names_len: usize, out: *mut Words) -> u32;
    pub fn starlark_params(
        table: *const u8,
        table_len: usize,
        names: *const u8,
        names_len: usize,
        node: usize,
        modes: *mut u8,
        modes_len: usize,
        out: *mut Words,
    ) -> u32;
    pub fn starlark_type(
        table: *const u8,
        table_len: usize,
        names: *const u8,
        names_len: usize,
        dialect: *const u8,
        dialect_len: usize,
        edition: u32,
        node: usize,
        shapes: *mut u8,
        shapes_len: usize,
        out: *mut Words,
    ) -> u32;
    pub fn starlark_module(
        table: *const u8,
        table_len: usize,
        names: *const u8,
        names_len: usize,
        dialect: *const u8,
        dialect_len: usize,
        errors: *mut u32,
        errors_len: usize,
        out: *mut Words,
    ) -> u32;
    pub fn starlark_audit(
        table: *const u8,
        table_len: usize,
        names: *const u8,
        names_len: usize,
        dialect: *const u8,
        dialect_len: usize,
        edition: u32,
        errors: *mut u32,
        errors_len: usize,
        out: *mut Words,
    ) -> u32;
    pub fn starlark_write(
        table: *const u8,
        table_len: usize,
        names: *const u8,
        names_len: usize,
        dialect: *const u8,
        dialect_len: usize,
        edition: u32,
        file: *mut u8,
        file_len: usize,
        out: *mut Words,
    ) -> u32;
    pub fn starlark_rescue(input: *const u8, input_len: usize, file: *mut u8, file_len: usize, out: *mut Words) -> u32;
    pub fn starlark_read(
        file: *const u8,
        file_len: usize,
        table: *mut u8,
        table_len: usize,
        names: *mut u8,
        names_len: usize,
        out: *mut Words,
    ) -> u32;
    pub fn starlark_check_file(file: *const u8, file_len: usize, errors: *mut u32, errors_len: usize, out: *mut Words) -> u32;
    pub fn starlark_bind(
        table: *const u8,
        table_len: usize,
        names: *const u8,
        names_len: usize,
        call: usize,
        def: usize,
        list: *mut u32,
        list_len: usize,
        out: *mut Words,
    ) -> u32;
    pub fn starlark_namesakes(
        table: *const u8,
        table_len: usize,
        names: *const u8,
        names_len: usize,
        call: usize,
        def: usize,
        list: *mut u32,
        list_len: usize,
        out: *mut Words,
    ) -> u32;
    pub fn starlark_call(
        table: *const u8,
        table_len: usize,
        names: *const u8,
        names_len: usize,
        node: usize,
        out: *mut Words,
    ) -> u32;
    pub fn starlark_target(
        table: *const u8,
        table_len: usize,
        names: *const u8,
        names_len: usize,
        node: usize,
        out: *mut Words,
    ) -> u32;
    pub fn starlark_assignment(
        table: *const u8,
        table_len: usize,
        names: *const u8,
        names_len: usize,
        node: usize,
        out: *mut Words,
    ) -> u32;
    pub fn starlark_fstring_write(
        parts: *const u32,
        parts_len: usize,
        texts: *const u8,
        texts_len: usize,
        dialect: *const u8,
        dialect_len: usize,
        text: *mut u8,
        text_len: usize,
        out: *mut Words,
    ) -> u32;
    pub fn starlark_fstring_read(
        text: *const u8,
        text_len: usize,
        parts: *mut u32,
        parts_len: usize,
        texts: *mut u8,
        texts_len: usize,
        out: *mut Words,
    ) -> u32;
    pub fn starlark_book_lookup(
        zone_book: *const u8,
        zone_book_len: usize,
        line_book: *const u8,
        line_book_len: usize,
        zone: u32,
        setting: u32,
        out: *mut Words,
    ) -> u32;
    pub fn starlark_book_add(
        zone_book: *mut u8,
        zone_book_len: usize,
        line_book: *mut u8,
        line_book_len: usize,
        zone: u32,
        setting: u32,
        dialect: *const u8,
        dialect_len: usize,
        out: *mut Words,
    ) -> u32;
    pub fn starlark_book_remove(
        zone_book: *mut u8,
        zone_book_len: usize,
        line_book: *mut u8,
        line_book_len: usize,
        zone: u32,
        setting: u32,
        out: *mut Words,
    ) -> u32;
    pub fn starlark_book_blank(book: *mut u8, book_len: usize, out: *mut Words) -> u32;
    pub fn starlark_figures(input: *const u8, input_len: usize, figures: *mut Counts, out: *mut Words) -> u32;
    pub fn starlark_figures_step(window: *const u8, window_len: usize, figures: *mut Counts, out: *mut Words) -> u32;
}
