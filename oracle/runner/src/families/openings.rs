//! W-209: what becomes of a list of errors where a second dialect permits all that a first one does. Both clauses are tried on
//! the lists of the archive and on those of the crate, each by itself.

use judge::dialects;
use judge::run;
use model::answer::AUDIT_WORDS;
use model::answer::ERROR_WORDS;
use model::dialect;
use model::dialect::BYTES;
use model::dialect::TYPES_AT;
use model::table::Table;
use model::table::RECORD_BYTES;

use super::each_random;
use super::Plan;
use super::Random;
use crate::checker::Checker;
use crate::grow;
use crate::port::Effect;
use crate::port::Job;
use crate::port::FIRST_EDITION;
use crate::rng::Rng;

const TOP_LEVEL_AT: usize = 7;

/// The pairs of nine bytes each of which the second permits all that the first does.
const PAIRS: usize = 39_366;

/// An error: its number first.
type Found = Vec<u32>;

/// Whether the second dialect permits all that the first does.
fn permits_all(first: &[u8], second: &[u8]) -> bool {
    first.iter().zip(second).all(|(a, b)| a <= b)
}

/// Whether a number is that of a newly opened switch.
fn is_opened(first: &[u8], second: &[u8], number: u32) -> bool {
    let is_new = |at: usize| first[at] == 0 && second[at] > 0;
    match number {
        50 => is_new(3),
        51 => is_new(4),
        52 => is_new(0),
        59 => is_new(2),
        60 => is_new(TYPES_AT),
        61 => is_new(1),
        _ => false,
    }
}

/// No errors stay no errors. And where both agree on top-level statements (in the audit also on whether there are types) the second list is the
/// first without the opened numbers.
fn are_tied(rows: [&[u8]; 2], lists: [&[Found]; 2], is_audit: bool) -> bool {
    let ([d, e], [first, second]) = (rows, lists);
    let is_exact = d[TOP_LEVEL_AT] == e[TOP_LEVEL_AT] && (!is_audit || (d[TYPES_AT] == 0) == (e[TYPES_AT] == 0));
    let left = first.iter().filter(|error| !is_opened(d, e, error[0]));
    (!first.is_empty() || second.is_empty()) && (!is_exact || second.iter().eq(left))
}

/// Both lists of a module in one dialect: the archive's, and where there is a tree the crate's.
struct Lists {
    of_archive: Vec<Found>,
    of_crate: Option<Vec<Found>>,
}

impl Lists {
    fn both(&self) -> impl Iterator<Item = (&'static str, &[Found])> {
        let of_crate = self.of_crate.as_deref().map(|list| ("crate", list));
        [("archive", self.of_archive.as_slice())].into_iter().chain(of_crate)
    }
}

/// The archive's own list of errors, of the given number of words each.
fn of_archive(random: &Random, job: Job, width: usize) -> Vec<Found> {
    let mut effect = Effect::before(&job);
    effect.run(&random.request(job), false);
    effect.listed(width).chunks_exact(width).map(<[u32]>::to_vec).collect()
}

/// Room for every error of the audit, and so of the module pass.
fn room(random: &Random) -> usize {
    random.encoded.table.len() / RECORD_BYTES * 4 * AUDIT_WORDS
}

fn module_lists(random: &Random, tree: Option<&run::Module>, row: &[u8]) -> Lists {
    let of_crate = tree.map(|tree| tree.errors(&dialects::from_bytes(row)));
    Lists {
        of_archive: of_archive(random, Job::Module { dialect: row, errors: room(random) }, ERROR_WORDS),
        of_crate: of_crate.map(|list| list.into_iter().map(Vec::from).collect()),
    }
}

fn audit_lists(random: &Random, judge: &run::Audit, row: &[u8]) -> Lists {
    let of_crate = judge.judged(&dialects::from_bytes(row)).ok();
    Lists {
        of_archive: of_archive(random, Job::Audit { dialect: row, edition: FIRST_EDITION, errors: room(random) }, AUDIT_WORDS),
        of_crate: of_crate.map(|judged| judged.by_statement.audited.into_iter().map(Vec::from).collect()),
    }
}

/// Both clauses of two dialects, on the lists of each side.
fn check_pair(checker: &mut Checker, random: &Random, rows: [&[u8]; 2], lists: [&Lists; 2], is_audit: bool) {
    let sides = lists[0].both().zip(lists[1].both());
    let untied = sides.filter(|((_, first), (_, second))| !are_tied(rows, [*first, *second], is_audit)).map(|((side, _), _)| side).next();
    checker.note(untied.is_none(), || {
        let job = if is_audit { "audit" } else { "module pass" };
        let table: String = random.encoded.table.iter().map(|byte| format!("{byte:02x}")).collect();
        format!("from {:?} to {:?} the lists of the {job} of the {} are not tied: {table}", rows[0], rows[1], untied.unwrap_or(""))
    });
}

/// All pairs of dialects, on some hundred modules.
pub fn all_pairs(checker: &mut Checker, plan: &Plan) {
    let rows: Vec<Vec<u8>> = dialect::all().into_iter().filter(|row| row.len() == BYTES).collect();
    let mut pairs: Vec<(usize, usize)> = (0..rows.len()).flat_map(|first| (0..rows.len()).map(move |second| (first, second))).collect();
    pairs.retain(|&(first, second)| permits_all(&rows[first], &rows[second]));
    assert_eq!(pairs.len(), PAIRS, "the pairs that the request counts");
    each_random(checker, plan, 40, 120, |rng, _| grow::module(rng, false), |checker, _, random| {
        let (bytes, names) = (&random.encoded.table, &random.encoded.names);
        let table = Table::check(bytes, names).expect("the generated tables are sound");
        let tree = run::Module::of(&table).ok();
        let lists: Vec<Lists> = rows.iter().map(|row| module_lists(random, tree.as_ref(), row)).collect();
        // First the clauses themselves, so that they report what breaks them.
        for &(first, second) in &pairs {
            check_pair(checker, random, [&rows[first], &rows[second]], [&lists[first], &lists[second]], false);
        }
        checker.check_dialects(bytes, names, rows.iter().map(|row| (row.as_slice(), room(random))));
    });
}

/// A random row, and all rows that have one byte more by one.
fn steps(rng: &mut Rng) -> (Vec<u8>, Vec<Vec<u8>>) {
    let most = |at: usize| if at == TYPES_AT { 2 } else { 1 };
    let row: Vec<u8> = (0..BYTES).map(|at| rng.within(0, most(at)) as u8).collect();
    let raised = |at: usize| {
        let mut raised = row.clone();
        raised[at] += 1;
        raised
    };
    let next = (0..BYTES).filter(|&at| usize::from(row[at]) < most(at)).map(raised).collect();
    (row, next)
}

/// Single steps from a random dialect, on many modules: the module pass and the audit.
pub fn single_steps(checker: &mut Checker, plan: &Plan) {
    each_random(checker, plan, 41, 40_000, |rng, _| grow::module(rng, false), |checker, rng, random| {
        let (row, next) = steps(rng);
        let (bytes, names) = (&random.encoded.table, &random.encoded.names);
        let table = Table::check(bytes, names).expect("the generated tables are sound");
        let (tree, judge) = (run::Module::of(&table).ok(), run::Audit::of(&table));
        let module = |row: &[u8]| module_lists(random, tree.as_ref(), row);
        let (first, audited) = (module(&row), audit_lists(random, &judge, &row));
        for second in &next {
            check_pair(checker, random, [&row, second], [&first, &module(second)], false);
            check_pair(checker, random, [&row, second], [&audited, &audit_lists(random, &judge, second)], true);
        }
        let asked = || std::iter::once(&row).chain(&next).map(|row| (row.as_slice(), room(random)));
        checker.check_dialects(bytes, names, asked());
        checker.check_audits(bytes, names, FIRST_EDITION, asked());
    });
}
