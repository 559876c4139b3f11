//! One job on all sides: the archive, the model, and the crate where the table is a tree of its own.

use std::fmt::Write;

use judge::dialects;
use judge::format;
use judge::run;
use judge::run::own_spans;
use judge::run::Judged;
use judge::trees::Built;
use judge::trees::NotATree;
use model::answer::Answer;
use model::answer::Span;
use model::answer::AUDIT_WORDS;
use model::answer::ERROR_WORDS;
use model::audit;
use model::dialect::Edition;
use model::figures;
use model::file;
use model::jobs;
use model::numbers::number;
use model::planted::planted;
use model::planted::Fault;
use model::table::Class;
use model::table::Record;
use model::table::Table;
use model::table::RECORD_BYTES;
use model::written;

use crate::cut;
use crate::port::Effect;
use crate::port::Job;
use crate::port::Request;
use crate::port::FILE;
use crate::port::FIRST_EDITION;
use crate::port::JOBS;
use crate::port::NAMES;
use crate::record::Recorder;

/// How often the crate is called once more with the table's own spans.
const OWN_SPANS_ONCE_IN: u64 = 16;

/// One more than the greatest number.
pub const NUMBERS: usize = 92;

/// What has been run and seen.
#[derive(Clone, Debug)]
pub struct Tally {
    pub jobs: u64,
    /// How many of each job.
    pub of_job: [u64; JOBS],
    /// Jobs that the crate has judged too.
    pub by_crate: u64,
    /// Jobs refused with 1 to 7, which the crate does not have.
    pub refused: u64,
    /// Comparisons that are not jobs: of the model with the document, with demand 3, with the crate's constants, with Python.
    pub others: u64,
    /// Of these, calls that Python has made.
    pub by_python: u64,
    pub differences: u64,
    /// How often each job has given each number, as an answer or in a list of errors.
    pub given: [[u64; NUMBERS]; JOBS],
    /// Where the archive does not do as the model, or the model not as the crate.
    pub first: Option<String>,
}

impl Default for Tally {
    fn default() -> Tally {
        let (of_job, given) = ([0; JOBS], [[0; NUMBERS]; JOBS]);
        Tally { jobs: 0, of_job, by_crate: 0, refused: 0, others: 0, by_python: 0, differences: 0, given, first: None }
    }
}

impl Tally {
    pub fn add(&mut self, other: Tally) {
        self.jobs += other.jobs;
        self.of_job.iter_mut().zip(other.of_job).for_each(|(jobs, more)| *jobs += more);
        self.by_crate += other.by_crate;
        self.refused += other.refused;
        self.others += other.others;
        self.by_python += other.by_python;
        self.differences += other.differences;
        let given = self.given.iter_mut().flatten().zip(other.given.into_iter().flatten());
        given.for_each(|(given, more)| *given += more);
        if self.first.is_none() {
            self.first = other.first;
        }
    }

    /// Jobs on sound tables that no tree of the crate can be, and soundness itself.
    pub fn by_model_alone(&self) -> u64 {
        self.jobs - self.by_crate - self.refused
    }
}

pub struct Checker {
    pub tally: Tally,
    wanted: [bool; JOBS],
    stop_at_first: bool,
    /// The table and the names as they were before the job, of a file of gigabytes the front.
    kept: Vec<u8>,
    pub recorder: Option<Recorder>,
}

impl Checker {
    pub fn new(wanted: [bool; JOBS], stop_at_first: bool, recorder: Option<Recorder>) -> Checker {
        Checker { tally: Tally::default(), wanted, stop_at_first, kept: Vec::new(), recorder }
    }

    /// Whether nothing more needs to be run.
    pub fn is_done(&self) -> bool {
        self.stop_at_first && self.tally.differences > 0
    }

    pub fn wants(&self, job: &Job) -> bool {
        self.wants_job(job.index())
    }

    pub fn wants_job(&self, index: usize) -> bool {
        self.wanted[index] && !self.is_done()
    }

    /// Runs one job and compares.
    pub fn check(&mut self, request: &Request) {
        if let Job::Audit { dialect, edition, errors } = request.job {
            self.check_audits(request.table, request.names, edition, std::iter::once((dialect, errors)));
        } else if self.wants(&request.job) {
            let model = model_answer(request);
            let judged = or_stop(request, || judged(request, &model));
            self.compare(request, &model, judged);
        }
    }

    /// The crate once more, on a tree that has the table's spans instead of marks: its errors have them too.
    fn check_own_spans(&mut self, request: &Request, model: &Answer) {
        let Ok(mut of_crate) = or_stop(request, || with_own_spans(request)) else { return };
        let mut of_model = match (model.number, model.words.as_slice()) {
            (0, _) if model.audited.is_empty() => model.errors.clone(),
            (0, _) => model.audited.iter().map(|&[number, file, begin, end, _]| [number, file, begin, end]).collect(),
            (number, &[_, begin, end, _, file]) => vec![[number, file, begin, end]],
            (_, words) => panic!("a refusal of the crate has a node, a span, an earlier node or none, and a file, not {words:?}"),
        };
        of_crate.sort();
        of_model.sort();
        self.note(of_crate == of_model, || {
            format!("with own spans the crate gives {of_crate:?}, the model {of_model:?}: {}", hex(request.table))
        });
    }

    /// A parameter list, which demand 3 must answer too.
    pub fn check_list(&mut self, request: &Request) {
        self.check(request);
        if let (Job::Params { node, .. }, true) = (request.job, self.wants(&request.job)) {
            let answer = model_answer(request);
            let table = Table::check(request.table, request.names).expect("the generated tables are sound");
            let nodes: Vec<usize> = table.children_of(node, Class::Parameter).collect();
            let agrees = cut::agrees(&written::entries(&table, &nodes), &answer);
            self.note(agrees || is_ours(answer.number), || {
                format!("demand 3 says otherwise than {answer:?} of {}", hex(request.table))
            });
        }
    }

    /// The module pass on one table under many dialects: its tree is built once.
    pub fn check_dialects<'a>(
        &mut self,
        table: &[u8],
        names: &[u8],
        dialects: impl Iterator<Item = (&'a [u8], usize)>,
    ) {
        let checked = Table::check(table, names).expect("the generated tables are sound");
        let tree = run::Module::of(&checked);
        for (dialect, errors) in dialects {
            let request = Request { table, names, job: Job::Module { dialect, errors } };
            if self.wants(&request.job) {
                let model = model_answer(&request);
                let judged = match &tree {
                    Ok(tree) if !is_ours(model.number) => {
                        or_stop(&request, || Ok(tree.judged(&dialects::from_bytes(dialect))))
                    }
                    _ => Err(NotATree),
                };
                self.compare(&request, &model, judged);
            }
        }
    }

    /// The audit of one table under many dialects: its tree is built once. The crate has edition 1 alone.
    pub fn check_audits<'a>(
        &mut self,
        table: &[u8],
        names: &[u8],
        edition: u32,
        asked: impl Iterator<Item = (&'a [u8], usize)>,
    ) {
        let request = |dialect, errors| Request { table, names, job: Job::Audit { dialect, edition, errors } };
        if !self.wants(&request(&[], 0).job) {
            return;
        }
        let checked = Table::check(table, names).ok().filter(|_| edition == FIRST_EDITION);
        let judge = checked.as_ref().map(|table| or_stop(&request(&[], 0), || run::Audit::of(table)));
        for (dialect, errors) in asked {
            let request = request(dialect, errors);
            let model = model_answer(&request);
            let judge = judge.as_ref().filter(|_| !is_ours(model.number));
            let judged = judge.map(|judge| or_stop(&request, || judge.judged(&dialects::from_bytes(dialect))));
            let is_part = matches!(judged, Some(Err(NotATree)));
            self.compare(&request, &model, judged.unwrap_or(Err(NotATree)));
            if let (Some(judge), Some(table), true) = (judge, &checked, is_part) {
                self.check_parts(&request, table, judge, dialect);
            }
        }
    }

    /// Of a table that is not a tree of the crate, the parts that are trees: each must have what the model gives there.
    fn check_parts(&mut self, request: &Request, table: &Table, judge: &run::Audit, dialect: &[u8]) {
        let of_crate = dialects::from_bytes(dialect);
        let of_model = model::dialect::from_bytes(dialect).expect("the audit has accepted it");
        let parts: Vec<_> = or_stop(request, || judge.parts(&of_crate, audit::places(table)).collect());
        let told = |place| audit::refused_at(table, &of_model, Edition::One, place).as_ref().map(audit::words);
        let differs = parts.iter().find(|(place, found)| told(*place) != *found);
        if !parts.is_empty() {
            self.note(differs.is_none(), || {
                let (place, found) = differs.expect("there is one");
                format!("at {place:?} the crate gives {found:?}, the model {:?}: {}", told(*place), hex(request.table))
            });
        }
    }

    fn count_job(&mut self, job: usize) {
        self.tally.jobs += 1;
        self.tally.of_job[job] += 1;
    }

    fn count_numbers(&mut self, job: usize, answer: &Answer) {
        answer.numbers().for_each(|number| self.tally.given[job][number as usize] += 1);
    }

    fn compare(&mut self, request: &Request, model: &Answer, judged: Built<Judged>) {
        let is_unjudged = planted(Fault::LargeTreesUnjudged) && request.table.len() > 12 * RECORD_BYTES;
        let judged = if is_unjudged { Err(NotATree) } else { judged };
        self.count_job(request.job.index());
        self.count_numbers(request.job.index(), model);
        self.tally.refused += u64::from(is_ours(model.number));
        let before = Effect::before(&request.job);
        let expected = before.after(model);
        let mut effect = before;
        self.keep_inputs(request);
        // Every second job is handed NULL for memory of length 0.
        effect.run(request, self.tally.jobs % 2 == 0);
        let mut differs = effect != expected || !self.inputs_are_kept(request);
        // Never more errors than twice the records, in the audit three times.
        differs |= model.errors.len() > request.table.len() / 12 || model.audited.len() > request.table.len() / 8;
        if let Ok(judged) = &judged {
            differs |= !judged.all().all(|answer| model.is_told_by_the_crate(answer));
        }
        if differs {
            self.difference(request, &effect, &expected, judged.as_ref().map(|judged| shown(request, model, judged)));
        } else if let Some(recorder) = &mut self.recorder {
            recorder.offer(request, model, judged.is_ok());
        }
        if judged.is_ok() {
            self.tally.by_crate += 1;
            let has_spans = !matches!(request.job, Job::FstringWrite { .. });
            if has_spans && self.tally.by_crate % OWN_SPANS_ONCE_IN == 0 {
                self.check_own_spans(request, model);
            }
        }
    }

    fn keep_inputs(&mut self, request: &Request) {
        self.kept.clear();
        self.kept.extend_from_slice(front(request.table));
        self.kept.extend_from_slice(request.names);
    }

    /// Memory that is only read must be unchanged.
    fn inputs_are_kept(&self, request: &Request) -> bool {
        let (table, names) = self.kept.split_at(front(request.table).len());
        table == front(request.table) && names == request.names
    }

    fn difference(&mut self, request: &Request, effect: &Effect, expected: &Effect, judged: Result<String, &NotATree>) {
        self.tally.differences += 1;
        if self.tally.first.is_some() {
            return;
        }
        let judged = judged.unwrap_or("not asked".to_owned());
        let mut text = String::new();
        let mut line = |what: &str, value: &dyn std::fmt::Display| {
            writeln!(text, "    {what}: {value}").expect("a String can be written");
        };
        line("job", &format_args!("{} {:?}", NAMES[request.job.index()], request.job));
        let (table, names) = self.kept.split_at(front(request.table).len());
        line("table", &hex(table));
        line("names", &hex(names));
        if !self.inputs_are_kept(request) || effect.dialect != expected.dialect {
            let (table, names, dialect) = (hex(front(request.table)), hex(request.names), hex(&effect.dialect));
            line("changed by the archive", &format_args!("{table} {names} {dialect}"));
        }
        line("archive", effect);
        line("model", expected);
        line("crate", &judged);
        self.tally.first = Some(text);
    }

    /// Runs one job whose answer is written down: its number and, where they are given, its words.
    pub fn expect(&mut self, request: &Request, number: u32, words: Option<&[u32]>) {
        if self.wants(&request.job) {
            let answer = model_answer(request);
            let equal = answer.number == number && words.is_none_or(|words| answer.words == words);
            let table = hex(front(request.table));
            self.note(equal, || format!("the model answers {answer:?}, the document {number} {words:?}: {table}"));
            self.check(request);
        }
    }

    /// Runs one audit whose whole list is known: the number and the node of each error, which has the node's own span.
    pub fn expect_audit(&mut self, request: &Request, list: &[(u32, usize)]) {
        if self.wants(&request.job) {
            let answer = model_answer(request);
            let spanned = |&(number, node): &(u32, usize)| {
                let Span { file, begin, end } = Record::read(&request.table[RECORD_BYTES * node..]).span();
                [number, file, begin, end, node as u32]
            };
            let expected: Vec<[u32; AUDIT_WORDS]> = list.iter().map(spanned).collect();
            let equal = answer.number == 0 && answer.words == [list.len() as u32] && answer.audited == expected;
            self.note(equal, || format!("the model audits {answer:?}, by hand it is {list:?}: {}", hex(request.table)));
            self.check(request);
        }
    }

    /// A run of the program, which refused with this number or (0) did not.
    pub fn program_run(&mut self, number: u32, equal: bool, what: impl FnOnce() -> String) {
        self.count_job(FILE);
        self.tally.given[FILE][number as usize] += 1;
        self.difference_unless(equal, what);
    }

    /// A call that Python has made.
    pub fn python_call(&mut self, equal: bool, what: impl FnOnce() -> String) {
        self.tally.by_python += 1;
        self.note(equal, what);
    }

    /// A comparison that is not a job.
    pub fn note(&mut self, equal: bool, what: impl FnOnce() -> String) {
        self.tally.others += 1;
        self.difference_unless(equal, what);
    }

    fn difference_unless(&mut self, equal: bool, what: impl FnOnce() -> String) {
        if !equal {
            self.tally.differences += 1;
            self.tally.first.get_or_insert_with(|| format!("    {}\n", what()));
        }
    }
}

/// What stops the run (a message that is not known, an internal error) is printed with the input that caused it.
fn or_stop<T>(request: &Request, judge: impl FnOnce() -> T) -> T {
    std::panic::catch_unwind(std::panic::AssertUnwindSafe(judge)).unwrap_or_else(|_| {
        let Request { table, names, job } = request;
        eprintln!("compare: stopped at {job:?}\n    table: {}\n    names: {}", hex(table), hex(names));
        std::process::exit(2)
    })
}

/// Numbers that the crate does not have, since it has no tables, no nodes and no buffers of a caller.
fn is_ours(number: u32) -> bool {
    (number::TABLE_LENGTH..=number::SHORT_BUFFER).contains(&number)
}

/// What is kept of an input, and shown. Only a file can be longer.
fn front(input: &[u8]) -> &[u8] {
    &input[..input.len().min(1 << 20)]
}

fn hex(bytes: &[u8]) -> String {
    bytes.iter().map(|byte| format!("{byte:02x}")).collect()
}

fn model_answer(request: &Request) -> Answer {
    let Request { table, names, job } = *request;
    match job {
        Job::Table => jobs::table(table, names),
        Job::Params { node, modes } => jobs::params(table, names, node, modes),
        Job::Call { node } => jobs::call(table, names, node),
        Job::Target { node } => jobs::target(table, names, node),
        Job::Assignment { node } => jobs::assignment(table, names, node),
        Job::Type { dialect, edition, node, shapes } => jobs::type_shape(table, names, dialect, edition, node, shapes),
        Job::Module { dialect, .. } => jobs::module(table, names, dialect),
        Job::Write { dialect, edition, file } => jobs::write(table, names, dialect, edition, file),
        Job::Bind { call, def, list } => jobs::bind(table, names, call, def, list),
        Job::Rescue { file } => jobs::rescue(table, file),
        Job::Audit { dialect, edition, .. } => jobs::audit(table, names, dialect, edition),
        Job::Read { table: room, names } => jobs::read(table, room, names),
        Job::CheckFile { .. } => jobs::check_file(table),
        Job::FstringWrite { parts, dialect, text } => jobs::fstring_write(parts, table, dialect, text),
        Job::FstringRead { parts, texts } => jobs::fstring_read(table, parts, texts),
        Job::Figures => figures::report_answer(table),
        Job::FiguresStep { counts } => figures::step_answer(table, counts),
    }
}

/// Whether a job reads types by the edition that the crate does not have.
fn is_second_edition(job: &Job) -> bool {
    matches!(*job, Job::Type { edition, .. } | Job::Audit { edition, .. } if edition != FIRST_EDITION)
}

/// The crate's answer, where the model has not refused with a number that the crate does not have.
fn judged(request: &Request, model: &Answer) -> Built<Judged> {
    let by_model_alone = matches!(request.job, Job::Rescue { .. } | Job::Read { .. } | Job::FstringRead { .. });
    if is_ours(model.number) || by_model_alone || matches!(request.job, Job::Figures | Job::FiguresStep { .. }) {
        return Err(NotATree);
    }
    if is_second_edition(&request.job) {
        return Err(NotATree);
    }
    if let Job::FstringWrite { parts, dialect, .. } = request.job {
        return format::write(parts, request.table, &dialects::from_bytes(dialect)).map(Judged::from);
    }
    if let Job::CheckFile { .. } = request.job {
        return judged_file(request.table);
    }
    let table = Table::check(request.table, request.names).map_err(|_| NotATree)?;
    match request.job {
        Job::Table | Job::Write { .. } | Job::Rescue { .. } | Job::Read { .. } | Job::CheckFile { .. } => Err(NotATree),
        Job::FstringWrite { .. } | Job::FstringRead { .. } | Job::Figures | Job::FiguresStep { .. } => Err(NotATree),
        Job::Params { node, .. } => run::params(&table, node).map(Judged::from),
        Job::Call { node } => run::call(&table, node).map(Judged::from),
        Job::Target { node } => run::target(&table, node).map(Judged::from),
        Job::Assignment { node } => run::assignment(&table, node).map(Judged::from),
        Job::Type { dialect, node, .. } => {
            run::type_shape(&table, node, &dialects::from_bytes(dialect)).map(Judged::from)
        }
        Job::Module { dialect, .. } => Ok(run::Module::of(&table)?.judged(&dialects::from_bytes(dialect))),
        Job::Bind { call, def, .. } => lists_of_binding(&table, call, def, model).map(Judged::from),
        Job::Audit { dialect, .. } => run::Audit::of(&table).judged(&dialects::from_bytes(dialect)),
    }
}

/// What the crate's answer makes of the memory: of two answers the one that is not the model's. With the lists, where they differ.
fn shown(request: &Request, model: &Answer, judged: &Judged) -> String {
    let differing = judged.all().find(|answer| !model.is_told_by_the_crate(answer));
    let answer = differing.unwrap_or(&judged.by_statement);
    let effect = Effect::before(&request.job).after(answer);
    match (answer.errors == model.errors, answer.audited == model.audited) {
        (true, true) => effect.to_string(),
        (false, _) => format!("{effect}, whole list {:?}, the model's {:?}", answer.errors, model.errors),
        _ => format!("{effect}, whole list {:?}, the model's {:?}", answer.audited, model.audited),
    }
}

/// The crate's module pass over what a file holds.
fn judged_file(bytes: &[u8]) -> Built<Judged> {
    let held = file::read(bytes).map_err(|_| NotATree)?;
    let table = Table::check(&held.table, &held.names).map_err(|_| NotATree)?;
    let mut judged = run::Module::of(&table)?.judged(&dialects::from_bytes(&held.dialect));
    let nodes = table.records.len() as u32;
    judged.by_statement.words.push(nodes);
    judged.whole.iter_mut().for_each(|answer| answer.words.push(nodes));
    Ok(judged)
}

/// The crate does not bind: it judges the two lists, and has no answer where it accepts both and the model does too.
fn lists_of_binding(table: &Table, call: usize, def: usize, model: &Answer) -> Built<Answer> {
    let lists = [run::params(table, def)?, run::call(table, call)?];
    let refused = lists.into_iter().find(|answer| answer.number != 0);
    let by_model = (number::SLASH_FIRST..=number::MULTIPLE_STAR_STAR).contains(&model.number);
    refused.or(by_model.then(Answer::default)).ok_or(NotATree)
}

fn with_own_spans(request: &Request) -> Built<Vec<[u32; ERROR_WORDS]>> {
    if let Job::CheckFile { .. } = request.job {
        let held = file::read(request.table).map_err(|_| NotATree)?;
        let table = Table::check(&held.table, &held.names).map_err(|_| NotATree)?;
        return own_spans::module(&table, &dialects::from_bytes(&held.dialect));
    }
    let table = Table::check(request.table, request.names).map_err(|_| NotATree)?;
    match request.job {
        Job::Table | Job::Write { .. } | Job::Rescue { .. } | Job::Read { .. } | Job::CheckFile { .. } => Err(NotATree),
        Job::FstringWrite { .. } | Job::FstringRead { .. } | Job::Figures | Job::FiguresStep { .. } => Err(NotATree),
        Job::Params { node, .. } => own_spans::params(&table, node),
        Job::Call { node } => own_spans::call(&table, node),
        Job::Target { node } => own_spans::target(&table, node),
        Job::Assignment { node } => own_spans::assignment(&table, node),
        Job::Type { dialect, node, .. } => {
            own_spans::type_shape(&table, node, &dialects::from_bytes(dialect))
        }
        Job::Module { dialect, .. } => own_spans::module(&table, &dialects::from_bytes(dialect)),
        Job::Audit { dialect, .. } => own_spans::audit(&table, &dialects::from_bytes(dialect)),
        Job::Bind { call, def, .. } => {
            let of_list = own_spans::params(&table, def)?;
            if of_list.is_empty() { own_spans::call(&table, call) } else { Ok(of_list) }
        }
    }
}
