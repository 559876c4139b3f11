//! Families of jobs. Each is cut into parts, so that threads can share them.

pub mod audits;
pub mod bindings;
pub mod boundaries;
pub mod dialects;
pub mod editions;
pub mod examples;
pub mod figures;
pub mod files;
pub mod formats;
pub mod largest;
pub mod lists;
pub mod modules;
pub mod names;
pub mod openings;
pub mod python;
pub mod reads;
pub mod rescues;
pub mod shapes;
pub mod sources;
pub mod tables;
pub mod written;

use model::planted::planted;
use model::planted::Fault;
use model::table::MOST_FILE;

use crate::cells::Cells;
use crate::cells::Encoded;
use crate::cells::Files;
use crate::cells::Spans;
use crate::cells::Style;
use crate::cells::TEXT;
use crate::checker::Checker;
use crate::port::Job;
use crate::port::Request;
use crate::rng::Rng;

/// What one part of a family has to do.
#[derive(Clone, Debug)]
pub struct Plan {
    pub seed: u64,
    /// 1 for the quick run; in the long one the factor for the number of random jobs.
    pub scale: u64,
    pub part: u64,
    pub parts: u64,
    pub program: Option<String>,
    pub rows: Option<String>,
    /// The script that puts calls to Python.
    pub python: Option<String>,
}

impl Plan {
    pub fn is_long(&self) -> bool {
        self.scale > 1
    }

    /// Whether the job of this number is in this part.
    pub fn has(&self, number: u64) -> bool {
        number % self.parts == self.part
    }

    /// This part's share of random jobs.
    pub fn share(&self, quick: u64) -> u64 {
        let left_out = if planted(Fault::HalfOfTheRandomJobs) { 2 } else { 1 };
        quick * self.scale / self.parts / left_out
    }

    /// Numbers of its own for each family and part.
    pub fn rng(&self, family: u64) -> Rng {
        Rng::new(self.seed, family * 1_000 + self.part)
    }
}

pub struct Family {
    pub name: &'static str,
    pub parts: u64,
    /// A bit for each job that the family runs.
    pub jobs: u32,
    pub run: fn(&mut Checker, &Plan),
    /// What the family must come to at the least where it is run to its end: jobs, those judged by the crate, and other comparisons. About 99
    /// of 100 of what the quick run has; of random inputs somewhat less, since the numbers depend on the seed.
    pub least: [u64; 3],
}

const fn family(name: &'static str, parts: u64, jobs: u32, run: fn(&mut Checker, &Plan), least: [u64; 3]) -> Family {
    Family { name, parts, jobs, run, least }
}

const TABLE: u32 = 1;
const PARAMS: u32 = 1 << 1;
const CALL: u32 = 1 << 2;
const TARGET: u32 = 1 << 3;
const ASSIGNMENT: u32 = 1 << 4;
const TYPE: u32 = 1 << 5;
const MODULE: u32 = 1 << 6;
const WRITE: u32 = 1 << 7;
const BIND: u32 = 1 << 8;
const RESCUE: u32 = 1 << 9;
const AUDIT: u32 = 1 << 10;
const READ: u32 = 1 << 11;
const CHECK_FILE: u32 = 1 << 12;
const FSTRING_WRITE: u32 = 1 << 13;
const FSTRING_READ: u32 = 1 << 14;
const FIGURES: u32 = 1 << 15;
const FIGURES_STEP: u32 = 1 << 16;
const FILE: u32 = 1 << 17;
/// Those that take a table.
const ARCHIVE: u32 = (RESCUE - 1) | AUDIT;
/// Those that take a file and read it.
const READERS: u32 = READ | CHECK_FILE;
const FORMATS: u32 = FSTRING_WRITE | FSTRING_READ;

pub const ALL: &[Family] = &[
    family("the table of examples", 1, ARCHIVE | FILE, examples::rows, [17, 17, 20]),
    family("boundaries", 1, ARCHIVE, boundaries::boundaries, [476_240, 63_130, 15_750]),
    family("parameter lists, every order", 4, PARAMS, lists::parameter_orders, [1_921_150, 1_857_110, 2_037_220]),
    family("parameter lists, random", 2, PARAMS, lists::random_parameters, [407_030, 393_470, 295_570]),
    family("call lists, every order", 2, CALL, lists::argument_orders, [72_940, 72_940, 4_550]),
    family("call lists, random", 2, CALL, lists::random_arguments, [196_210, 196_210, 11_920]),
    family("names, byte by byte", 2, PARAMS | CALL | BIND, names::byte_by_byte, [173_110, 115_410, 7_210]),
    family("bindings, corner cases", 1, BIND, bindings::corners, [3_390, 112, 3_300]),
    family("bindings, every order", 4, BIND, bindings::orders, [693_770, 567_860, 35_490]),
    family("bindings, random", 2, BIND, bindings::random, [213_010, 93_920, 5_630]),
    family("bindings, as Python calls", 2, BIND, python::calls, [54_020, 30_800, 1_900]),
    family("types, every small tree", 4, TYPE, shapes::small_types, [4_382_780, 1_500_750, 2_285_180]),
    family("types, random", 2, TYPE, shapes::random_types, [1_627_820, 787_620, 862_460]),
    family("targets, every small tree", 4, TARGET, shapes::small_targets, [2_122_910, 1_500_750, 93_790]),
    family("targets, random", 2, TARGET, shapes::random_targets, [294_800, 293_550, 17_930]),
    family("assignments, every small tree", 2, ASSIGNMENT, shapes::small_assignments, [293_830, 225_910, 14_110]),
    family("assignments, random", 2, ASSIGNMENT, shapes::random_assignments, [146_950, 113_840, 6_850]),
    family("modules, every small tree", 2, MODULE, modules::small, [92_490, 47_030, 2_930]),
    family("modules, all dialects", 2, MODULE, modules::all_dialects, [454_060, 454_060, 27_860]),
    family("modules, random", 2, MODULE | PARAMS | CALL | BIND, modules::random, [355_230, 342_710, 20_970]),
    family("modules, large", 2, MODULE | PARAMS | CALL | BIND, modules::large, [6_510, 5_050, 260]),
    family("openings, all pairs", 2, MODULE, openings::all_pairs, [91_240, 91_240, 4_682_380]),
    family("openings, single steps", 2, MODULE | AUDIT, openings::single_steps, [448_000, 448_000, 397_000]),
    family("no tree of the crate", 2, ARCHIVE, modules::no_trees, [1_302_200, 417_720, 65_300]),
    family("tables, rules of children", 2, TABLE, tables::children, [364_860, 0, 0]),
    family("tables, every byte", 2, ARCHIVE, tables::every_byte, [831_480, 7_370, 2_930]),
    family("tables, damaged", 2, ARCHIVE, tables::damaged, [1_183_610, 114_440, 9_000]),
    family("tables, depth", 2, ARCHIVE, tables::depth, [196_210, 42_630, 2_500]),
    family("source files, corner cases", 1, ARCHIVE | READERS | RESCUE, sources::corners, [119_960, 271, 71_800]),
    family("source files, each record", 2, ARCHIVE | READERS | RESCUE, sources::records, [84_500, 2_900, 180]),
    family("source files, random", 2, ARCHIVE | READERS | RESCUE, sources::random, [245_280, 54_700, 4_200]),
    family("dialect rows and bytes", 1, MODULE | TYPE | AUDIT, dialects::rows_and_bytes, [14_200, 58, 11]),
    family("editions, corner cases", 1, TYPE | AUDIT | WRITE, editions::corners, [6_240, 11, 6_240]),
    family("editions, files", 1, READERS | RESCUE | FILE, editions::files, [6_630, 18, 6_630]),
    family("editions, audits", 2, AUDIT, editions::audits, [39_600, 18_400, 21_800]),
    family("audits, corner cases", 1, AUDIT, audits::corners, [482, 320, 589]),
    family("audits, every small tree", 2, AUDIT, audits::small, [92_490, 47_030, 29_700]),
    family("audits, all dialects", 2, AUDIT, audits::all_dialects, [59_910, 53_870, 9_120]),
    family("audits, random", 2, AUDIT, audits::random, [97_730, 86_520, 15_640]),
    family("audits, large", 2, AUDIT, audits::large, [380, 180, 170]),
    family("files, written", 2, WRITE, written::written, [69_490, 0, 28_600]),
    family("rescues, corner cases", 1, RESCUE, rescues::corners, [441, 0, 446]),
    family("rescues, every cut", 2, RESCUE, rescues::cuts, [50_490, 0, 23_040]),
    family("rescues, each block", 2, RESCUE, rescues::blocks, [39_130, 0, 40_580]),
    family("rescues, each record", 2, RESCUE, rescues::records, [22_980, 0, 29_850]),
    family("rescues, random", 2, RESCUE, rescues::random, [56_050, 0, 51_330]),
    family("reads, corner cases", 1, READERS, reads::corners, [363, 80, 377]),
    family("reads, counts and blocks", 1, READERS, reads::counts, [17_075, 1_220, 75]),
    family("reads, every cut", 2, READERS, reads::cuts, [28_540, 4, 0]),
    family("reads, each block", 2, READERS, reads::blocks, [51_950, 1_780, 109]),
    family("reads, each record", 2, READERS, reads::records, [23_270, 500, 32]),
    family("reads, written files", 2, READERS, reads::written, [58_420, 18_210, 39_960]),
    family("reads, random", 2, READERS, reads::random, [24_010, 670, 20]),
    // Which jobs get another comparison depends on what ran before: a long run gave these families up to 12 fewer than a quick one.
    family("largest, names", 2, PARAMS | CALL | BIND | TYPE | AUDIT, largest::names, [58_860, 34_220, 2_130]),
    family("largest, lists", 2, PARAMS | CALL | BIND | MODULE | AUDIT, largest::lists, [4_760, 3_730, 215]),
    family("largest, trees", 2, ARCHIVE & !WRITE, largest::trees, [3_010, 1_580, 270]),
    family("largest, error lists", 2, MODULE | AUDIT | CHECK_FILE, largest::errors, [342, 342, 22]),
    family("largest, files", 2, WRITE | READERS | RESCUE, largest::files, [10_650, 460, 12]),
    family("format texts, corner cases", 1, FORMATS, formats::corners, [236, 5, 39]),
    family("format texts, every short one", 2, FORMATS, formats::texts, [725_570, 48_430, 48_430]),
    family("format texts, every list", 2, FORMATS, formats::lists, [462_180, 74_200, 109_990]),
    family("format texts, random", 2, FORMATS, formats::random, [212_000, 31_000, 30_700]),
    family("figures, corner cases", 1, FIGURES | FIGURES_STEP, figures::corners, [1_340, 0, 6]),
    family("figures, every cut", 2, FIGURES | FIGURES_STEP, figures::cuts, [31_950, 0, 0]),
    family("figures, random joins", 2, FIGURES | FIGURES_STEP, figures::random, [128_000, 0, 22_000]),
    family("files, through the program", 1, FILE, files::files, [1_700, 0, 0]),
];

/// A style that changes from job to job.
pub fn style(number: u64) -> Style {
    Style {
        spelling: TEXT[(number % 7) as usize],
        shared: number / 7 % 2 == 0,
        spans: if number % 5 == 4 { Spans::Extreme } else { Spans::Apart },
        files: files(number),
    }
}

/// Every fourth table is of one source file, the others of several.
fn files(number: u64) -> Files {
    match number % 4 {
        0 => Files::One(1 + (number / 4 % u64::from(MOST_FILE)) as u16),
        1 => Files::Turns(2),
        _ => Files::Each(number),
    }
}

/// The same, or a plain one where the names would not fit.
pub fn write_fitting(encoded: &mut Encoded, cells: &Cells, style: &Style) {
    encoded.write(cells, style);
    if encoded.names.len() > model::table::MOST_NAME_BYTES {
        encoded.write(cells, &Style { spans: style.spans, files: style.files, ..crate::cells::PLAIN });
    }
}

/// A random tree and its table.
pub struct Random<'a> {
    pub number: u64,
    pub cells: &'a Cells,
    pub encoded: &'a Encoded,
}

impl Random<'_> {
    pub fn request<'b>(&'b self, job: Job<'b>) -> Request<'b> {
        Request { table: &self.encoded.table, names: &self.encoded.names, job }
    }
}

/// This part's share of `quick` random trees, each passed on as a table.
pub fn each_random(
    checker: &mut Checker,
    plan: &Plan,
    stream: u64,
    quick: u64,
    grow: impl Fn(&mut Rng, u64) -> Cells,
    mut see: impl FnMut(&mut Checker, &mut Rng, &Random),
) {
    let mut rng = plan.rng(stream);
    let mut encoded = Encoded::default();
    for number in 0..plan.share(quick) {
        if checker.is_done() {
            return;
        }
        let cells = grow(&mut rng, number);
        write_fitting(&mut encoded, &cells, &style(number));
        see(checker, &mut rng, &Random { number, cells: &cells, encoded: &encoded });
    }
}
