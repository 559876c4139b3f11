//! The C interface, called with slices. All that a call could break is kept by their types: a slice has its length, no pointer is null,
//! and a buffer that is written overlaps no other. Buffers that are only read may overlap.

use starlark_checks_raw::starlark_assignment;
use starlark_checks_raw::starlark_audit;
use starlark_checks_raw::starlark_bind;
use starlark_checks_raw::starlark_book_add;
use starlark_checks_raw::starlark_book_blank;
use starlark_checks_raw::starlark_book_lookup;
use starlark_checks_raw::starlark_book_remove;
use starlark_checks_raw::starlark_call;
use starlark_checks_raw::starlark_check_file;
use starlark_checks_raw::starlark_figures;
use starlark_checks_raw::starlark_figures_step;
use starlark_checks_raw::starlark_fstring_read;
use starlark_checks_raw::starlark_fstring_write;
use starlark_checks_raw::starlark_module;
use starlark_checks_raw::starlark_namesakes;
use starlark_checks_raw::starlark_params;
use starlark_checks_raw::starlark_read;
use starlark_checks_raw::starlark_rescue;
use starlark_checks_raw::starlark_table;
use starlark_checks_raw::starlark_target;
use starlark_checks_raw::starlark_type;
use starlark_checks_raw::starlark_version;
use starlark_checks_raw::starlark_write;
use starlark_checks_raw::Counts;

use crate::Table;
use crate::Words;

pub fn version() -> u32 {
    unsafe { starlark_version() }
}

pub fn table(table: Table, out: &mut Words) -> u32 {
    let Table { nodes, names } = table;
    unsafe { starlark_table(nodes.as_ptr(), nodes.len(), names.as_ptr(), names.len(), out) }
}

pub fn params(table: Table, node: usize, modes: &mut [u8], out: &mut Words) -> u32 {
    let Table { nodes, names } = table;
    let (start, length) = (modes.as_mut_ptr(), modes.len());
    unsafe { starlark_params(nodes.as_ptr(), nodes.len(), names.as_ptr(), names.len(), node, start, length, out) }
}

pub fn call(table: Table, node: usize, out: &mut Words) -> u32 {
    let Table { nodes, names } = table;
    unsafe { starlark_call(nodes.as_ptr(), nodes.len(), names.as_ptr(), names.len(), node, out) }
}

pub fn bind(table: Table, call: usize, def: usize, list: &mut [u32], out: &mut Words) -> u32 {
    let Table { nodes, names } = table;
    let (t, tl, n, nl) = (nodes.as_ptr(), nodes.len(), names.as_ptr(), names.len());
    let (start, length) = (list.as_mut_ptr(), list.len());
    unsafe { starlark_bind(t, tl, n, nl, call, def, start, length, out) }
}

pub fn namesakes(table: Table, call: usize, def: usize, list: &mut [u32], out: &mut Words) -> u32 {
    let Table { nodes, names } = table;
    let (t, tl, n, nl) = (nodes.as_ptr(), nodes.len(), names.as_ptr(), names.len());
    let (start, length) = (list.as_mut_ptr(), list.len());
    unsafe { starlark_namesakes(t, tl, n, nl, call, def, start, length, out) }
}

pub fn target(table: Table, node: usize, out: &mut Words) -> u32 {
    let Table { nodes, names } = table;
    unsafe { starlark_target(nodes.as_ptr(), nodes.len(), names.as_ptr(), names.len(), node, out) }
}

pub fn assignment(table: Table, node: usize, out: &mut Words) -> u32 {
    let Table { nodes, names } = table;
    unsafe { starlark_assignment(nodes.as_ptr(), nodes.len(), names.as_ptr(), names.len(), node, out) }
}

pub fn type_shape(table: Table, dialect: &[u8], edition: u32, node: usize, shapes: &mut [u8], out: &mut Words) -> u32 {
    let Table { nodes, names } = table;
    let (t, tl, n, nl) = (nodes.as_ptr(), nodes.len(), names.as_ptr(), names.len());
    let (start, length) = (shapes.as_mut_ptr(), shapes.len());
    unsafe { starlark_type(t, tl, n, nl, dialect.as_ptr(), dialect.len(), edition, node, start, length, out) }
}

pub fn module(table: Table, dialect: &[u8], errors: &mut [u32], out: &mut Words) -> u32 {
    let Table { nodes, names } = table;
    let (t, tl, n, nl) = (nodes.as_ptr(), nodes.len(), names.as_ptr(), names.len());
    let (start, length) = (errors.as_mut_ptr(), errors.len());
    unsafe { starlark_module(t, tl, n, nl, dialect.as_ptr(), dialect.len(), start, length, out) }
}

pub fn audit(table: Table, dialect: &[u8], edition: u32, errors: &mut [u32], out: &mut Words) -> u32 {
    let Table { nodes, names } = table;
    let (t, tl, n, nl) = (nodes.as_ptr(), nodes.len(), names.as_ptr(), names.len());
    let (start, length) = (errors.as_mut_ptr(), errors.len());
    unsafe { starlark_audit(t, tl, n, nl, dialect.as_ptr(), dialect.len(), edition, start, length, out) }
}

pub fn write(table: Table, dialect: &[u8], edition: u32, file: &mut [u8], out: &mut Words) -> u32 {
    let Table { nodes, names } = table;
    let (t, tl, n, nl) = (nodes.as_ptr(), nodes.len(), names.as_ptr(), names.len());
    let (start, length) = (file.as_mut_ptr(), file.len());
    unsafe { starlark_write(t, tl, n, nl, dialect.as_ptr(), dialect.len(), edition, start, length, out) }
}

pub fn rescue(input: &[u8], file: &mut [u8], out: &mut Words) -> u32 {
    unsafe { starlark_rescue(input.as_ptr(), input.len(), file.as_mut_ptr(), file.len(), out) }
}

pub fn read(file: &[u8], table: &mut [u8], names: &mut [u8], out: &mut Words) -> u32 {
    let (t, tl, n, nl) = (table.as_mut_ptr(), table.len(), names.as_mut_ptr(), names.len());
    unsafe { starlark_read(file.as_ptr(), file.len(), t, tl, n, nl, out) }
}

pub fn check_file(file: &[u8], errors: &mut [u32], out: &mut Words) -> u32 {
    unsafe { starlark_check_file(file.as_ptr(), file.len(), errors.as_mut_ptr(), errors.len(), out) }
}

pub fn fstring_write(words: &[u32], texts: &[u8], dialect: &[u8], text: &mut [u8], out: &mut Words) -> u32 {
    let (w, wl, t, tl) = (words.as_ptr(), words.len(), texts.as_ptr(), texts.len());
    let (start, length) = (text.as_mut_ptr(), text.len());
    unsafe { starlark_fstring_write(w, wl, t, tl, dialect.as_ptr(), dialect.len(), start, length, out) }
}

pub fn fstring_read(text: &[u8], words: &mut [u32], texts: &mut [u8], out: &mut Words) -> u32 {
    let (w, wl, t, tl) = (words.as_mut_ptr(), words.len(), texts.as_mut_ptr(), texts.len());
    unsafe { starlark_fstring_read(text.as_ptr(), text.len(), w, wl, t, tl, out) }
}

pub fn book_lookup(zone_book: &[u8], line_book: &[u8], zone: u32, setting: u32, out: &mut Words) -> u32 {
    let (z, zl, l, ll) = (zone_book.as_ptr(), zone_book.len(), line_book.as_ptr(), line_book.len());
    unsafe { starlark_book_lookup(z, zl, l, ll, zone, setting, out) }
}

pub fn book_add(zone_book: &mut [u8], line_book: &mut [u8], zone: u32, setting: u32, dialect: &[u8], out: &mut Words) -> u32 {
    let (z, zl, l, ll) = (zone_book.as_mut_ptr(), zone_book.len(), line_book.as_mut_ptr(), line_book.len());
    unsafe { starlark_book_add(z, zl, l, ll, zone, setting, dialect.as_ptr(), dialect.len(), out) }
}

pub fn book_remove(zone_book: &mut [u8], line_book: &mut [u8], zone: u32, setting: u32, out: &mut Words) -> u32 {
    let (z, zl, l, ll) = (zone_book.as_mut_ptr(), zone_book.len(), line_book.as_mut_ptr(), line_book.len());
    unsafe { starlark_book_remove(z, zl, l, ll, zone, setting, out) }
}

pub fn book_blank(book: &mut [u8], out: &mut Words) -> u32 {
    unsafe { starlark_book_blank(book.as_mut_ptr(), book.len(), out) }
}

pub fn figures(input: &[u8], counts: &mut Counts, out: &mut Words) -> u32 {
    unsafe { starlark_figures(input.as_ptr(), input.len(), counts, out) }
}

pub fn figures_step(window: &[u8], counts: &mut Counts, out: &mut Words) -> u32 {
    unsafe { starlark_figures_step(window.as_ptr(), window.len(), counts, out) }
}
