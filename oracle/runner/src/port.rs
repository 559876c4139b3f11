//! The archive's C interface, called with buffers that have a pattern, and guards on both sides.

use std::fmt;

use model::answer::Answer;
use model::answer::NONE;
use starlark_checks_raw::starlark_assignment;
use starlark_checks_raw::starlark_audit;
use starlark_checks_raw::starlark_bind;
use starlark_checks_raw::starlark_call;
use starlark_checks_raw::starlark_check_file;
use starlark_checks_raw::starlark_figures;
use starlark_checks_raw::starlark_figures_step;
use starlark_checks_raw::starlark_fstring_read;
use starlark_checks_raw::starlark_fstring_write;
use starlark_checks_raw::starlark_module;
use starlark_checks_raw::starlark_params;
use starlark_checks_raw::starlark_read;
use starlark_checks_raw::starlark_rescue;
use starlark_checks_raw::starlark_table;
use starlark_checks_raw::starlark_target;
use starlark_checks_raw::starlark_type;
use starlark_checks_raw::starlark_write;
use starlark_checks_raw::Counts;
use starlark_checks_raw::Words;

/// One of the interface's functions with its arguments beside the table and the names.
#[derive(Clone, Copy, Debug)]
pub enum Job<'a> {
    Table,
    Params { node: usize, modes: usize },
    Call { node: usize },
    Target { node: usize },
    Assignment { node: usize },
    Type { dialect: &'a [u8], edition: u32, node: usize, shapes: usize },
    Module { dialect: &'a [u8], errors: usize },
    Write { dialect: &'a [u8], edition: u32, file: usize },
    Bind { call: usize, def: usize, list: usize },
    /// The request's table is the file to rescue, and its names are none.
    Rescue { file: usize },
    Audit { dialect: &'a [u8], edition: u32, errors: usize },
    /// The request's table is the file, and its names are none: so in the next.
    Read { table: usize, names: usize },
    CheckFile { errors: usize },
    /// The request's table is the texts, and its names are none.
    FstringWrite { parts: &'a [u32], dialect: &'a [u8], text: usize },
    /// The request's table is the format text, and its names are none.
    FstringRead { parts: usize, texts: usize },
    /// The request's table is the input, in the next the window, and its names are none.
    Figures,
    FiguresStep { counts: &'a Counts },
}

/// The edition of the type rules that the crate has, the other one, and the word for a file without one.
pub const FIRST_EDITION: u32 = 1;
pub const SECOND_EDITION: u32 = 2;
pub const NO_EDITION: u32 = NONE;

/// How many jobs there are: those of the interface, and the program's.
pub const JOBS: usize = 18;

/// The jobs by the names that the command line knows.
pub const NAMES: [&str; JOBS] = [
    "table",
    "params",
    "call",
    "target",
    "assignment",
    "type",
    "module",
    "write",
    "bind",
    "rescue",
    "audit",
    "read",
    "check_file",
    "fstring_write",
    "fstring_read",
    "figures",
    "figures_step",
    "file",
];

/// The program's job, whose place in `NAMES` is last.
pub const FILE: usize = JOBS - 1;

impl Job<'_> {
    /// The job's place in `NAMES`.
    pub fn index(&self) -> usize {
        match self {
            Job::Table => 0,
            Job::Params { .. } => 1,
            Job::Call { .. } => 2,
            Job::Target { .. } => 3,
            Job::Assignment { .. } => 4,
            Job::Type { .. } => 5,
            Job::Module { .. } => 6,
            Job::Write { .. } => 7,
            Job::Bind { .. } => 8,
            Job::Rescue { .. } => 9,
            Job::Audit { .. } => 10,
            Job::Read { .. } => 11,
            Job::CheckFile { .. } => 12,
            Job::FstringWrite { .. } => 13,
            Job::FstringRead { .. } => 14,
            Job::Figures => 15,
            Job::FiguresStep { .. } => 16,
        }
    }

    /// The dialect's bytes, where the job takes them.
    pub fn dialect(&self) -> Option<&[u8]> {
        match self {
            Job::Type { dialect, .. } | Job::Module { dialect, .. } => Some(dialect),
            Job::Write { dialect, .. } | Job::Audit { dialect, .. } | Job::FstringWrite { dialect, .. } => Some(dialect),
            _ => None,
        }
    }
}

#[derive(Clone, Copy)]
pub struct Request<'a> {
    pub table: &'a [u8],
    pub names: &'a [u8],
    pub job: Job<'a>,
}

const GUARD: usize = 8;
const COUNTS: usize = model::figures::COUNTS;

/// Everything that a job may change, guards included: the answer's number, `out`, the counts of figures, and the buffers. And the dialect and the words of a format
/// text's parts, which no job may change.
#[derive(Clone, Debug, PartialEq, Eq)]
pub struct Effect {
    pub number: u32,
    pub out: [u32; 12 + 2 * GUARD],
    pub bytes: Vec<u8>,
    /// The second buffer of bytes, which only the two readers get.
    pub names: Vec<u8>,
    pub words: Vec<u32>,
    pub dialect: Vec<u8>,
    pub parts: Vec<u32>,
    pub counts: Vec<u64>,
}

/// No mode, no shape and no length is like it.
fn byte_pattern(at: usize) -> u8 {
    0x80 | (at.wrapping_mul(37) % 113) as u8
}

fn word_pattern(at: usize) -> u32 {
    0xa500_0000 | at as u32
}

fn count_pattern(at: usize) -> u64 {
    u64::from(word_pattern(at)) << 32 | 7
}

/// Bytes with guards on both sides.
fn guarded(bytes: &[u8]) -> Vec<u8> {
    let mut all: Vec<u8> = (0..bytes.len() + 2 * GUARD).map(byte_pattern).collect();
    all[GUARD..GUARD + bytes.len()].copy_from_slice(bytes);
    all
}

/// The same of words.
fn guarded_words(words: &[u32]) -> Vec<u32> {
    let mut all: Vec<u32> = (0..words.len() + 2 * GUARD).map(word_pattern).collect();
    all[GUARD..GUARD + words.len()].copy_from_slice(words);
    all
}

impl Effect {
    /// The memory before the job.
    pub fn before(job: &Job) -> Effect {
        let (bytes, words) = match *job {
            Job::Params { modes, .. } => (modes, 0),
            Job::Type { shapes, .. } => (shapes, 0),
            Job::Module { errors, .. } | Job::Audit { errors, .. } | Job::CheckFile { errors } => (0, errors),
            Job::Write { file, .. } | Job::Rescue { file } => (file, 0),
            Job::Bind { list, .. } => (0, list),
            Job::Read { table, .. } => (table, 0),
            Job::FstringWrite { text, .. } => (text, 0),
            Job::FstringRead { parts, .. } => (0, parts),
            _ => (0, 0),
        };
        let names = match *job {
            Job::Read { names, .. } => names,
            Job::FstringRead { texts, .. } => texts,
            _ => 0,
        };
        let parts = if let Job::FstringWrite { parts, .. } = *job { guarded_words(parts) } else { Vec::new() };
        let mut counts: Vec<u64> = (0..COUNTS + 2 * GUARD).map(count_pattern).collect();
        if let Job::FiguresStep { counts: lent } = *job {
            counts[GUARD..GUARD + COUNTS].copy_from_slice(lent);
        }
        Effect {
            number: 0,
            out: std::array::from_fn(word_pattern),
            bytes: (0..bytes + 2 * GUARD).map(byte_pattern).collect(),
            names: (0..names + 2 * GUARD).map(byte_pattern).collect(),
            words: (0..words + 2 * GUARD).map(word_pattern).collect(),
            dialect: job.dialect().map_or(Vec::new(), guarded),
            parts,
            counts,
        }
    }

    /// What an answer makes of it.
    pub fn after(&self, answer: &Answer) -> Effect {
        let mut effect = self.clone();
        effect.number = answer.number;
        answer.write_words(effect.out());
        answer.write_bytes(effect.lent_bytes());
        answer.write_names(effect.lent_names());
        answer.write_list(effect.lent_words());
        answer.write_counts(effect.lent_counts());
        effect
    }

    fn out(&mut self) -> &mut Words {
        (&mut self.out[GUARD..GUARD + 12]).try_into().expect("twelve words")
    }

    fn lent_counts(&mut self) -> &mut Counts {
        (&mut self.counts[GUARD..GUARD + COUNTS]).try_into().expect("32 counts")
    }

    fn lent_bytes(&mut self) -> &mut [u8] {
        let end = self.bytes.len() - GUARD;
        &mut self.bytes[GUARD..end]
    }

    fn lent_names(&mut self) -> &mut [u8] {
        let end = self.names.len() - GUARD;
        &mut self.names[GUARD..end]
    }

    fn lent_words(&mut self) -> &mut [u32] {
        let end = self.words.len() - GUARD;
        &mut self.words[GUARD..end]
    }

    /// The words of the errors that a list holds after its job, where they all fit.
    pub fn listed(&self, width: usize) -> &[u32] {
        assert_eq!(self.number, 0, "the job accepts");
        &self.words[GUARD..GUARD + width * self.out[GUARD] as usize]
    }

    /// The dialect without its guards; a job that takes none has none here.
    fn lent_dialect(&self) -> &[u8] {
        self.dialect.get(GUARD..self.dialect.len().saturating_sub(GUARD)).unwrap_or(&[])
    }

    /// The words of parts without their guards.
    fn lent_parts(&self) -> &[u32] {
        self.parts.get(GUARD..self.parts.len().saturating_sub(GUARD)).unwrap_or(&[])
    }

    /// The archive's function on this memory. Where a length is 0 the pointer may be NULL.
    pub fn run(&mut self, request: &Request, null_for_none: bool) {
        let read = |memory: &[u8]| match memory.is_empty() && null_for_none {
            true => (std::ptr::null(), 0),
            false => (memory.as_ptr(), memory.len()),
        };
        let ((t, tl), (n, nl), (d, dl)) = (read(request.table), read(request.names), read(self.lent_dialect()));
        let (p, pl) = match self.lent_parts() {
            [] if null_for_none => (std::ptr::null(), 0),
            parts => (parts.as_ptr(), parts.len()),
        };
        let out: *mut Words = self.out();
        let counts: *mut Counts = self.lent_counts();
        let (bytes, bytes_len) = written(self.lent_bytes(), null_for_none);
        let (second, second_len) = written(self.lent_names(), null_for_none);
        let (words, words_len) = written(self.lent_words(), null_for_none);
        // Each pointer is to memory of the length given beside it, and only what is read may overlap.
        self.number = unsafe {
            match request.job {
                Job::Table => starlark_table(t, tl, n, nl, out),
                Job::Params { node, .. } => starlark_params(t, tl, n, nl, node, bytes, bytes_len, out),
                Job::Call { node } => starlark_call(t, tl, n, nl, node, out),
                Job::Target { node } => starlark_target(t, tl, n, nl, node, out),
                Job::Assignment { node } => starlark_assignment(t, tl, n, nl, node, out),
                Job::Type { edition, node, .. } => starlark_type(t, tl, n, nl, d, dl, edition, node, bytes, bytes_len, out),
                Job::Module { .. } => starlark_module(t, tl, n, nl, d, dl, words, words_len, out),
                Job::Write { edition, .. } => starlark_write(t, tl, n, nl, d, dl, edition, bytes, bytes_len, out),
                Job::Bind { call, def, .. } => starlark_bind(t, tl, n, nl, call, def, words, words_len, out),
                Job::Rescue { .. } => starlark_rescue(t, tl, bytes, bytes_len, out),
                Job::Audit { edition, .. } => starlark_audit(t, tl, n, nl, d, dl, edition, words, words_len, out),
                Job::Read { .. } => starlark_read(t, tl, bytes, bytes_len, second, second_len, out),
                Job::CheckFile { .. } => starlark_check_file(t, tl, words, words_len, out),
                Job::FstringWrite { .. } => starlark_fstring_write(p, pl, t, tl, d, dl, bytes, bytes_len, out),
                Job::FstringRead { .. } => starlark_fstring_read(t, tl, words, words_len, second, second_len, out),
                Job::Figures => starlark_figures(t, tl, counts, out),
                Job::FiguresStep { .. } => starlark_figures_step(t, tl, counts, out),
            }
        };
    }
}

/// A buffer's pointer and length.
fn written<T>(memory: &mut [T], null_for_none: bool) -> (*mut T, usize) {
    match memory.is_empty() && null_for_none {
        true => (std::ptr::null_mut(), 0),
        false => (memory.as_mut_ptr(), memory.len()),
    }
}

/// The effect in words, for the report of a difference. A word or byte that stayed is shown as a dot.
impl fmt::Display for Effect {
    fn fmt(&self, f: &mut fmt::Formatter<'_>) -> fmt::Result {
        let word = |(at, word): (usize, &u32)| match *word == word_pattern(at) {
            true => ".".to_owned(),
            false => word.to_string(),
        };
        let byte = |(at, byte): (usize, &u8)| match *byte == byte_pattern(at) {
            true => ".".to_owned(),
            false => byte.to_string(),
        };
        let joined = |parts: Vec<String>| parts.join(" ");
        write!(f, "number {}, out [{}]", self.number, joined(self.out.iter().enumerate().map(word).collect()))?;
        if self.bytes.len() > 2 * GUARD {
            write!(f, ", buffer [{}]", joined(self.bytes.iter().enumerate().map(byte).collect()))?;
        }
        if self.names.len() > 2 * GUARD {
            write!(f, ", second buffer [{}]", joined(self.names.iter().enumerate().map(byte).collect()))?;
        }
        if self.words.len() > 2 * GUARD {
            let shown = self.words.iter().enumerate().take(GUARD + 60).map(word).collect();
            write!(f, ", list [{}]", joined(shown))?;
        }
        let is_changed = |(at, &count): (usize, &u64)| count != count_pattern(at);
        if self.counts.iter().enumerate().any(is_changed) {
            write!(f, ", counts {:?}", &self.counts[GUARD..GUARD + COUNTS])?;
        }
        if !self.dialect.is_empty() {
            write!(f, ", dialect [{}]", joined(self.dialect.iter().enumerate().map(byte).collect()))?;
        }
        Ok(())
    }
}
