//! The C interface of the port, answered by the model: a stand-in for the proved archive,
//! and takes planted faults.

use model::answer::Answer;
use model::answer::AUDIT_WORDS;
use model::answer::ERROR_WORDS;
use model::figures;
use model::jobs;
use model::planted::planted;
use model::planted::Fault;

type Out = *mut [u32; 12];

/// A slice, from its pointer and length. An empty one may have any pointer.
unsafe fn lent<'a, T>(start: *const T, length: usize) -> &'a [T] {
    if length == 0 { &[] } else { std::slice::from_raw_parts(start, length) }
}

unsafe fn lent_mut<'a, T>(start: *mut T, length: usize) -> &'a mut [T] {
    if length == 0 { &mut [] } else { std::slice::from_raw_parts_mut(start, length) }
}

/// Writes the words of `out` and answers the number.
unsafe fn give(answer: Answer, out: Out) -> u32 {
    answer.write_words(&mut *out);
    answer.number
}

/// Writes bytes into the buffer too.
unsafe fn give_bytes(answer: Answer, buffer: &mut [u8], out: Out) -> u32 {
    answer.write_bytes(buffer);
    give(answer, out)
}

#[no_mangle]
pub unsafe extern "C" fn starlark_table(
    table: *const u8,
    table_len: usize,
    names: *const u8,
    names_len: usize,
    out: Out,
) -> u32 {
    give(jobs::table(lent(table, table_len), lent(names, names_len)), out)
}

#[no_mangle]
pub unsafe extern "C" fn starlark_params(
    table: *const u8,
    table_len: usize,
    names: *const u8,
    names_len: usize,
    node: usize,
    modes: *mut u8,
    modes_len: usize,
    out: Out,
) -> u32 {
    let answer = jobs::params(lent(table, table_len), lent(names, names_len), node, modes_len);
    give_bytes(answer, lent_mut(modes, modes_len), out)
}

/// Changes the first byte of memory that is only read.
unsafe fn change(start: *const u8, length: usize) {
    if length > 0 {
        *start.cast_mut() ^= 1;
    }
}

/// The jobs that take a node and lend no buffer.
macro_rules! node_jobs {
    ($($symbol:ident $job:ident)*) => {
        $(
            #[no_mangle]
            pub unsafe extern "C" fn $symbol(
                table: *const u8,
                table_len: usize,
                names: *const u8,
                names_len: usize,
                node: usize,
                out: Out,
            ) -> u32 {
                let answer = jobs::$job(lent(table, table_len), lent(names, names_len), node);
                if planted(Fault::NameByteChanged) {
                    change(names, names_len);
                }
                give(answer, out)
            }
        )*
    };
}

node_jobs! {
    starlark_call call
    starlark_target target
    starlark_assignment assignment
}

#[no_mangle]
pub unsafe extern "C" fn starlark_type(
    table: *const u8,
    table_len: usize,
    names: *const u8,
    names_len: usize,
    dialect: *const u8,
    dialect_len: usize,
    edition: u32,
    node: usize,
    shapes: *mut u8,
    shapes_len: usize,
    out: Out,
) -> u32 {
    let (table, names) = (lent(table, table_len), lent(names, names_len));
    let answer = jobs::type_shape(table, names, lent(dialect, dialect_len), edition, node, shapes_len);
    give_bytes(answer, lent_mut(shapes, shapes_len), out)
}

#[no_mangle]
pub unsafe extern "C" fn starlark_module(
    table: *const u8,
    table_len: usize,
    names: *const u8,
    names_len: usize,
    dialect: *const u8,
    dialect_len: usize,
    errors: *mut u32,
    errors_len: usize,
    out: Out,
) -> u32 {
    let (table, names) = (lent(table, table_len), lent(names, names_len));
    let mut answer = jobs::module(table, names, lent(dialect, dialect_len));
    let list = lent_mut(errors, errors_len);
    if planted(Fault::BeginBeforeFile) {
        exchange(&mut answer.errors, 2);
    }
    answer.write_list(list);
    if planted(Fault::RoomInThrees) {
        store_in_room(&answer.errors, list, ERROR_WORDS - 1);
    }
    if planted(Fault::DialectByteChanged) {
        change(dialect, dialect_len);
    }
    if planted(Fault::HalfErrorStored) {
        store_half_error(&answer.errors, list);
    }
    if planted(Fault::TotalCappedByList) && answer.number == 0 {
        answer.words[0] = answer.words[0].min((list.len() / ERROR_WORDS) as u32);
    }
    give(answer, out)
}

#[no_mangle]
pub unsafe extern "C" fn starlark_bind(
    table: *const u8,
    table_len: usize,
    names: *const u8,
    names_len: usize,
    call: usize,
    def: usize,
    list: *mut u32,
    list_len: usize,
    out: Out,
) -> u32 {
    let answer = jobs::bind(lent(table, table_len), lent(names, names_len), call, def, list_len);
    let list = lent_mut(list, list_len);
    answer.write_list(list);
    if planted(Fault::RefusedBindWrites) && answer.number != 0 && !list.is_empty() {
        list[0] = 0;
    }
    if planted(Fault::WordPastBindingWritten) && answer.number == 0 && answer.list.len() < list.len() {
        list[answer.list.len()] = 0;
    }
    give(answer, out)
}

#[no_mangle]
pub unsafe extern "C" fn starlark_write(
    table: *const u8,
    table_len: usize,
    names: *const u8,
    names_len: usize,
    dialect: *const u8,
    dialect_len: usize,
    edition: u32,
    file: *mut u8,
    file_len: usize,
    out: Out,
) -> u32 {
    let (table, names) = (lent(table, table_len), lent(names, names_len));
    let answer = jobs::write(table, names, lent(dialect, dialect_len), edition, file_len);
    let buffer = lent_mut(file, file_len);
    if planted(Fault::RefusedWriteWrites) && answer.number != 0 && !buffer.is_empty() {
        buffer[0] = 0;
    }
    if planted(Fault::BytePastFileWritten) && answer.number == 0 && answer.file.len() < buffer.len() {
        buffer[answer.file.len()] = 0;
    }
    give_bytes(answer, buffer, out)
}

#[no_mangle]
pub unsafe extern "C" fn starlark_rescue(
    input: *const u8,
    input_len: usize,
    file: *mut u8,
    file_len: usize,
    out: Out,
) -> u32 {
    let answer = jobs::rescue(lent(input, input_len), file_len);
    let buffer = lent_mut(file, file_len);
    if planted(Fault::RefusedRescueWrites) && answer.number != 0 && !buffer.is_empty() {
        buffer[0] = 0;
    }
    if planted(Fault::BytePastRescuedWritten) && answer.number == 0 && answer.file.len() < buffer.len() {
        buffer[answer.file.len()] = 0;
    }
    if planted(Fault::RescuedFileChanged) {
        change(input, input_len);
    }
    give_bytes(answer, buffer, out)
}

#[no_mangle]
pub unsafe extern "C" fn starlark_audit(
    table: *const u8,
    table_len: usize,
    names: *const u8,
    names_len: usize,
    dialect: *const u8,
    dialect_len: usize,
    edition: u32,
    errors: *mut u32,
    errors_len: usize,
    out: Out,
) -> u32 {
    let (table, names) = (lent(table, table_len), lent(names, names_len));
    let mut answer = jobs::audit(table, names, lent(dialect, dialect_len), edition);
    let list = lent_mut(errors, errors_len);
    if planted(Fault::AuditBeginBeforeFile) {
        exchange(&mut answer.audited, 2);
    }
    if planted(Fault::AuditFileAfterNode) {
        exchange(&mut answer.audited, AUDIT_WORDS - 1);
    }
    answer.write_list(list);
    if planted(Fault::AuditRoomInFours) {
        store_in_room(&answer.audited, list, AUDIT_WORDS - 1);
    }
    if planted(Fault::AuditDialectChanged) {
        change(dialect, dialect_len);
    }
    if planted(Fault::AuditHalfErrorStored) {
        store_half_error(&answer.audited, list);
    }
    if planted(Fault::AuditTotalCapped) && answer.number == 0 {
        answer.words[0] = answer.words[0].min((list.len() / AUDIT_WORDS) as u32);
    }
    give(answer, out)
}

#[no_mangle]
pub unsafe extern "C" fn starlark_read(
    file: *const u8,
    file_len: usize,
    table: *mut u8,
    table_len: usize,
    names: *mut u8,
    names_len: usize,
    out: Out,
) -> u32 {
    let answer = jobs::read(lent(file, file_len), table_len, names_len);
    let (table, names) = (lent_mut(table, table_len), lent_mut(names, names_len));
    if planted(Fault::RefusedReadWrites) && answer.number != 0 && !table.is_empty() {
        table[0] = 0;
    }
    if planted(Fault::BytePastTableWritten) && answer.number == 0 && answer.file.len() < table.len() {
        table[answer.file.len()] = 0;
    }
    if planted(Fault::BytePastNamesWritten) && answer.number == 0 && answer.names.len() < names.len() {
        names[answer.names.len()] = 0;
    }
    if planted(Fault::ReadFileChanged) {
        change(file, file_len);
    }
    answer.write_names(names);
    give_bytes(answer, table, out)
}

#[no_mangle]
pub unsafe extern "C" fn starlark_check_file(
    file: *const u8,
    file_len: usize,
    errors: *mut u32,
    errors_len: usize,
    out: Out,
) -> u32 {
    let mut answer = jobs::check_file(lent(file, file_len));
    let list = lent_mut(errors, errors_len);
    if planted(Fault::FileBeginBeforeFile) {
        exchange(&mut answer.errors, 2);
    }
    answer.write_list(list);
    if planted(Fault::FileRoomInThrees) {
        store_in_room(&answer.errors, list, ERROR_WORDS - 1);
    }
    if planted(Fault::FileHalfErrorStored) {
        store_half_error(&answer.errors, list);
    }
    give(answer, out)
}

/// The file of each error in the place of another word, and that word in its place.
fn exchange<const WIDTH: usize>(errors: &mut [[u32; WIDTH]], other: usize) {
    errors.iter_mut().for_each(|error| error.swap(1, other));
}

/// As many errors as there are rooms of the given number of words; of the last what fits.
fn store_in_room<const WIDTH: usize>(errors: &[[u32; WIDTH]], list: &mut [u32], room: usize) {
    let words = errors.iter().take(list.len() / room).flatten();
    list.iter_mut().zip(words).for_each(|(place, word)| *place = *word);
}

/// The number of the error that does not fit whole, in the words that are left.
fn store_half_error<const WIDTH: usize>(errors: &[[u32; WIDTH]], list: &mut [u32]) {
    let whole = list.len() / WIDTH;
    if let (Some(error), Some(place)) = (errors.get(whole), list.get_mut(WIDTH * whole)) {
        *place = error[0];
    }
}

#[no_mangle]
pub unsafe extern "C" fn starlark_fstring_write(
    parts: *const u32,
    parts_len: usize,
    texts: *const u8,
    texts_len: usize,
    dialect: *const u8,
    dialect_len: usize,
    text: *mut u8,
    text_len: usize,
    out: Out,
) -> u32 {
    let (parts, texts) = (lent(parts, parts_len), lent(texts, texts_len));
    let answer = jobs::fstring_write(parts, texts, lent(dialect, dialect_len), text_len);
    let buffer = lent_mut(text, text_len);
    if planted(Fault::RefusedFormatWrites) && answer.number != 0 && !buffer.is_empty() {
        buffer[0] = 0;
    }
    if planted(Fault::BytePastFormatWritten) && answer.number == 0 && answer.file.len() < buffer.len() {
        buffer[answer.file.len()] = 0;
    }
    give_bytes(answer, buffer, out)
}

#[no_mangle]
pub unsafe extern "C" fn starlark_fstring_read(
    text: *const u8,
    text_len: usize,
    parts: *mut u32,
    parts_len: usize,
    texts: *mut u8,
    texts_len: usize,
    out: Out,
) -> u32 {
    let answer = jobs::fstring_read(lent(text, text_len), parts_len, texts_len);
    let (list, texts) = (lent_mut(parts, parts_len), lent_mut(texts, texts_len));
    if planted(Fault::WordPastPartsWritten) && answer.number == 0 && answer.list.len() < list.len() {
        list[answer.list.len()] = 0;
    }
    answer.write_list(list);
    answer.write_names(texts);
    give(answer, out)
}

#[no_mangle]
pub unsafe extern "C" fn starlark_figures(input: *const u8, input_len: usize, counts: *mut figures::Counts, out: Out) -> u32 {
    let mut answer = figures::report_answer(lent(input, input_len));
    if planted(Fault::FiguresNotCleared) {
        answer.counts.iter_mut().zip(&*counts).for_each(|(sum, before)| *sum = sum.saturating_add(*before));
    }
    if planted(Fault::FiguresInputChanged) {
        change(input, input_len);
    }
    answer.write_counts(&mut *counts);
    give(answer, out)
}

#[no_mangle]
pub unsafe extern "C" fn starlark_figures_step(window: *const u8, window_len: usize, counts: *mut figures::Counts, out: Out) -> u32 {
    let answer = figures::step_answer(lent(window, window_len), &*counts);
    if planted(Fault::FiguresRefusedStepWrites) && answer.number != 0 {
        (*counts)[figures::NODES] = (*counts)[figures::NODES].wrapping_add(1);
    }
    answer.write_counts(&mut *counts);
    give(answer, out)
}
