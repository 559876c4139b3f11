//! A sample of the answers, for programs that replay them without the crate.
//!
//! Each request is a head of 20 bytes, then table, names and dialect, then what the answer made of the lent
//! memory: the words of `out` that it wrote, and the whole buffer, which was filled with `FILL` before. The head
//! says whether the crate has given the answer, or the model alone. The words of a format text's parts are where names are, four bytes each.

use std::collections::HashMap;

use model::answer::Answer;

use crate::port::Job;
use crate::port::Request;
use crate::port::NAMES;
use crate::port::NO_EDITION;

const FILL: u8 = 0xee;
const FILL_WORD: u32 = u32::from_le_bytes([FILL; 4]);

/// Who has given an answer.
pub const MODEL: usize = 0;
pub const CRATE: usize = 1;

/// So many of each job, number and judge from each part of a family.
const OF_EACH: u32 = 3;

/// Of these jobs, whose requests are large, the number for all parts together.
const LARGE: [&str; 5] = ["write", "rescue", "audit", "read", "check_file"];

const MOST_TABLE_BYTES: usize = 40 * 24;
const MOST_FILE_BYTES: usize = 3 * 512;
const MOST_NAME_BYTES: usize = 300;
const MOST_PART_BYTES: usize = 48;
const MOST_ROOM: usize = 150;
const MOST_FILE_ROOM: usize = 2_048;

/// What is after a head, at the most.
const MOST_BODY: usize = 4_096;

type Key = (usize, u32, usize);

struct Kept {
    key: Key,
    bytes: Vec<u8>,
}

#[derive(Default)]
pub struct Recorder {
    requests: Vec<Kept>,
    kept: HashMap<Key, u32>,
}

impl Recorder {
    /// Keeps the request if it is small and enough of its like are not kept yet.
    pub fn offer(&mut self, request: &Request, answer: &Answer, by_crate: bool) {
        if let Job::Figures | Job::FiguresStep { .. } = request.job {
            return; // nothing replays them: the command's tests count the samples
        }
        let asked = Asked::of(&request.job);
        let is_small = request.table.len() <= if takes_file(&request.job) { MOST_FILE_BYTES } else { MOST_TABLE_BYTES }
            && names_of(request).len() <= if is_format(&request.job) { MOST_PART_BYTES } else { MOST_NAME_BYTES }
            && asked.room.max(asked.second_room) <= if has_file_room(&request.job) { MOST_FILE_ROOM } else { MOST_ROOM }
            && u32::try_from(asked.node).is_ok()
            && u16::try_from(asked.second).is_ok();
        if !is_small {
            return;
        }
        let listed = answer.errors.first().map(|error| error[0]).or(answer.audited.first().map(|error| error[0]));
        let judge = if by_crate { CRATE } else { MODEL };
        let key = (request.job.index(), answer.number.max(listed.unwrap_or(0)), judge);
        let kept = self.kept.entry(key).or_default();
        let bytes = if *kept < OF_EACH { written(request, answer, judge, &asked) } else { Vec::new() };
        if HEAD < bytes.len() && bytes.len() <= HEAD + MOST_BODY {
            *kept += 1;
            self.requests.push(Kept { key, bytes });
        }
    }
}

/// The sample of all parts, in their order, and how many answers each judge has given.
pub fn sample<'r>(recorders: impl Iterator<Item = &'r Recorder>) -> (Vec<u8>, [u64; 2]) {
    let (mut bytes, mut by, mut kept) = (Vec::new(), [0; 2], HashMap::<Key, u32>::new());
    for request in recorders.flat_map(|recorder| &recorder.requests) {
        let of_all = kept.entry(request.key).or_default();
        *of_all += 1;
        if *of_all <= OF_EACH || !LARGE.contains(&NAMES[request.key.0]) {
            bytes.extend(&request.bytes);
            by[request.key.2] += 1;
        }
    }
    (bytes, by)
}

const HEAD: usize = 20;

fn written(request: &Request, answer: &Answer, judge: usize, asked: &Asked) -> Vec<u8> {
    let &Asked { dialect, node, second, room, .. } = asked;
    let mut bytes = vec![request.job.index() as u8, dialect.len() as u8];
    let names = names_of(request);
    for short in [request.table.len(), names.len(), room] {
        bytes.extend((short as u16).to_le_bytes());
    }
    bytes.extend((node as u32).to_le_bytes());
    bytes.extend(answer.number.to_le_bytes());
    bytes.extend([answer.words.len() as u8, judge as u8]);
    bytes.extend((second as u16).to_le_bytes());
    bytes.extend(request.table);
    bytes.extend(names);
    bytes.extend(dialect);
    bytes.extend(answer.words.iter().flat_map(|word| word.to_le_bytes()));
    bytes.extend(buffers_after(&request.job, asked, answer));
    bytes
}

/// The names, or the words of parts.
fn names_of(request: &Request) -> Vec<u8> {
    match request.job {
        Job::FstringWrite { parts, .. } => parts.iter().flat_map(|word| word.to_le_bytes()).collect(),
        _ => request.names.to_vec(),
    }
}

/// An edition in two bytes, in which the word for none is 65,535; an edition that is larger is not recorded.
fn recorded(edition: u32) -> usize {
    match edition {
        NO_EDITION => 65_535,
        65_535.. => 65_536,
        _ => edition as usize,
    }
}

/// A job's dialect, node and room; and the Def's node of a binding, how long the second buffer of the reader is, or an edition.
struct Asked<'a> {
    dialect: &'a [u8],
    node: usize,
    second: usize,
    room: usize,
    second_room: usize,
}

impl<'a> Asked<'a> {
    fn of(job: &Job<'a>) -> Asked<'a> {
        let asked = |dialect, node, room| Asked { dialect, node, second: 0, room, second_room: 0 };
        match *job {
            Job::Table | Job::Figures | Job::FiguresStep { .. } => asked(&[], 0, 0),
            Job::Params { node, modes } => asked(&[], node, modes),
            Job::Call { node } | Job::Target { node } | Job::Assignment { node } => asked(&[], node, 0),
            Job::Type { dialect, edition, node, shapes } => Asked { second: recorded(edition), ..asked(dialect, node, shapes) },
            Job::Module { dialect, errors } => asked(dialect, 0, errors),
            Job::Audit { dialect, edition, errors } => Asked { second: recorded(edition), ..asked(dialect, 0, errors) },
            Job::Write { dialect, edition, file } => Asked { second: recorded(edition), ..asked(dialect, 0, file) },
            Job::Rescue { file } => asked(&[], 0, file),
            Job::CheckFile { errors } => asked(&[], 0, errors),
            Job::Bind { call, def, list } => Asked { second: def, ..asked(&[], call, list) },
            Job::Read { table, names } => Asked { second: names, second_room: names, ..asked(&[], 0, table) },
            Job::FstringWrite { dialect, text, .. } => asked(dialect, 0, text),
            Job::FstringRead { parts, texts } => Asked { second: texts, second_room: texts, ..asked(&[], 0, parts) },
        }
    }
}

fn is_format(job: &Job) -> bool {
    matches!(job, Job::FstringWrite { .. })
}

fn takes_file(job: &Job) -> bool {
    matches!(job, Job::Rescue { .. } | Job::Read { .. } | Job::CheckFile { .. })
}

fn has_file_room(job: &Job) -> bool {
    matches!(job, Job::Write { .. } | Job::Rescue { .. } | Job::Read { .. })
}

fn buffers_after(job: &Job, asked: &Asked, answer: &Answer) -> Vec<u8> {
    if let Job::Module { .. } | Job::Bind { .. } | Job::Audit { .. } | Job::CheckFile { .. } = job {
        let mut words = vec![FILL_WORD; asked.room];
        answer.write_list(&mut words);
        return words.iter().flat_map(|word| word.to_le_bytes()).collect();
    }
    if let Job::FstringRead { .. } = job {
        let (mut words, mut texts) = (vec![FILL_WORD; asked.room], vec![FILL; asked.second_room]);
        answer.write_list(&mut words);
        answer.write_names(&mut texts);
        return [words.iter().flat_map(|word| word.to_le_bytes()).collect(), texts].concat();
    }
    let (mut bytes, mut names) = (vec![FILL; asked.room], vec![FILL; asked.second_room]);
    answer.write_bytes(&mut bytes);
    answer.write_names(&mut names);
    [bytes, names].concat()
}
