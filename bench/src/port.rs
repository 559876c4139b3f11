//! The port's functions on lent memory that is used again from call to call and never cleared.

use std::hint::black_box;

use model::answer::ERROR_WORDS;
use starlark_checks_raw::starlark_assignment;
use starlark_checks_raw::starlark_audit;
use starlark_checks_raw::starlark_bind;
use starlark_checks_raw::starlark_call;
use starlark_checks_raw::starlark_module;
use starlark_checks_raw::starlark_params;
use starlark_checks_raw::starlark_rescue;
use starlark_checks_raw::starlark_table;
use starlark_checks_raw::starlark_target;
use starlark_checks_raw::starlark_type;
use starlark_checks_raw::starlark_write;
use starlark_checks_raw::Words;

extern "C" {
    fn bench_read(file: *const u8, file_len: usize, out: *mut Words) -> u32;
    fn bench_file(file: *const u8, file_len: usize, errors: *mut u32, errors_len: usize, out: *mut Words) -> u32;
}

/// The edition of the type rules that types are read by, and the word for a file without one.
const EDITION: u32 = 1;
const NO_EDITION: u32 = u32::MAX;

/// Memory for any job: no job needs more.
pub struct Port {
    pub out: Words,
    pub bytes: Vec<u8>,
    pub errors: Vec<u32>,
    pub file: Vec<u8>,
}

// In each call every pointer is to memory of the length beside it, and no two of them overlap.
impl Port {
    pub fn new() -> Port {
        Port { out: [0; 12], bytes: vec![0; 2_100], errors: vec![0; ERROR_WORDS * 4_200], file: vec![0; 59_904] }
    }

    pub fn table(&mut self, table: &[u8], names: &[u8]) -> u32 {
        let (table, names) = black_box((table, names));
        unsafe { starlark_table(table.as_ptr(), table.len(), names.as_ptr(), names.len(), &mut self.out) }
    }

    pub fn params(&mut self, table: &[u8], names: &[u8], node: usize) -> u32 {
        let (table, names) = black_box((table, names));
        let (modes, modes_len) = (self.bytes.as_mut_ptr(), self.bytes.len());
        unsafe {
            starlark_params(
                table.as_ptr(),
                table.len(),
                names.as_ptr(),
                names.len(),
                node,
                modes,
                modes_len,
                &mut self.out,
            )
        }
    }

    pub fn call(&mut self, table: &[u8], names: &[u8], node: usize) -> u32 {
        let (table, names) = black_box((table, names));
        unsafe { starlark_call(table.as_ptr(), table.len(), names.as_ptr(), names.len(), node, &mut self.out) }
    }

    pub fn bind(&mut self, table: &[u8], names: &[u8], call: usize, def: usize) -> u32 {
        let (table, names) = black_box((table, names));
        let (list, list_len) = (self.errors.as_mut_ptr(), self.errors.len());
        unsafe {
            starlark_bind(
                table.as_ptr(),
                table.len(),
                names.as_ptr(),
                names.len(),
                call,
                def,
                list,
                list_len,
                &mut self.out,
            )
        }
    }

    pub fn target(&mut self, table: &[u8], names: &[u8], node: usize) -> u32 {
        let (table, names) = black_box((table, names));
        unsafe { starlark_target(table.as_ptr(), table.len(), names.as_ptr(), names.len(), node, &mut self.out) }
    }

    pub fn assignment(&mut self, table: &[u8], names: &[u8], node: usize) -> u32 {
        let (table, names) = black_box((table, names));
        unsafe { starlark_assignment(table.as_ptr(), table.len(), names.as_ptr(), names.len(), node, &mut self.out) }
    }

    pub fn type_shape(&mut self, table: &[u8], names: &[u8], dialect: &[u8], node: usize) -> u32 {
        let (table, names) = black_box((table, names));
        let (shapes, shapes_len) = (self.bytes.as_mut_ptr(), self.bytes.len());
        unsafe {
            starlark_type(
                table.as_ptr(),
                table.len(),
                names.as_ptr(),
                names.len(),
                dialect.as_ptr(),
                dialect.len(),
                EDITION,
                node,
                shapes,
                shapes_len,
                &mut self.out,
            )
        }
    }

    pub fn module(&mut self, table: &[u8], names: &[u8], dialect: &[u8]) -> u32 {
        let (table, names) = black_box((table, names));
        let (errors, errors_len) = (self.errors.as_mut_ptr(), self.errors.len());
        unsafe {
            starlark_module(
                table.as_ptr(),
                table.len(),
                names.as_ptr(),
                names.len(),
                dialect.as_ptr(),
                dialect.len(),
                errors,
                errors_len,
                &mut self.out,
            )
        }
    }

    pub fn audit(&mut self, table: &[u8], names: &[u8], dialect: &[u8]) -> u32 {
        let (table, names) = black_box((table, names));
        let (errors, errors_len) = (self.errors.as_mut_ptr(), self.errors.len());
        unsafe {
            starlark_audit(
                table.as_ptr(),
                table.len(),
                names.as_ptr(),
                names.len(),
                dialect.as_ptr(),
                dialect.len(),
                EDITION,
                errors,
                errors_len,
                &mut self.out,
            )
        }
    }

    pub fn write(&mut self, table: &[u8], names: &[u8], dialect: &[u8]) -> u32 {
        let (table, names) = black_box((table, names));
        let (file, file_len) = (self.file.as_mut_ptr(), self.file.len());
        unsafe {
            starlark_write(
                table.as_ptr(),
                table.len(),
                names.as_ptr(),
                names.len(),
                dialect.as_ptr(),
                dialect.len(),
                NO_EDITION,
                file,
                file_len,
                &mut self.out,
            )
        }
    }

    pub fn rescue(&mut self, input: &[u8]) -> u32 {
        let input = black_box(input);
        let (file, file_len) = (self.file.as_mut_ptr(), self.file.len());
        unsafe { starlark_rescue(input.as_ptr(), input.len(), file, file_len, &mut self.out) }
    }

    pub fn read(&mut self, file: &[u8]) -> u32 {
        let file = black_box(file);
        unsafe { bench_read(file.as_ptr(), file.len(), &mut self.out) }
    }

    pub fn file(&mut self, file: &[u8]) -> u32 {
        let file = black_box(file);
        let (errors, errors_len) = (self.errors.as_mut_ptr(), self.errors.len());
        unsafe { bench_file(file.as_ptr(), file.len(), errors, errors_len, &mut self.out) }
    }
}
