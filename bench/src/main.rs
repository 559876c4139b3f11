//! Port against crate: the same jobs on the same trees in one process. `bench/run` builds and starts it.
//!
//!   --rounds N           how often each route is timed (default 201)
//!   --only TEXT          only the cases whose names hold TEXT
//!   --alone ROUTE N      no times: each case's route of this name is run N times, for a profiler
//!   --corpus FOLDER      the tables of a folder, each in turn, and no other case

mod cases;
mod clock;
mod corpus;
mod formats;
mod measure;
mod plain;
mod port;
mod scripts;
mod tables;

use std::path::PathBuf;
use std::process::ExitCode;

use measure::Effort;
use measure::Route;
use measure::Spread;
use measure::Times;
use scripts::Input;
use scripts::Written;

/// How a case is printed.
#[derive(Clone, Copy, PartialEq, Eq)]
enum Kind {
    Job,
    Refused,
    Table,
    File,
    Write,
    Bind,
    Rescue,
    Audit,
    Format,
}

struct Case {
    name: String,
    kind: Kind,
    routes: Box<dyn Fn() -> Vec<Route<'static>>>,
}

struct Options {
    rounds: usize,
    only: String,
    alone: Option<(String, usize)>,
    corpus: Option<PathBuf>,
}

/// Recursion over 2,100 siblings needs some hundred kilobytes, a read file some more.
const STACK_BYTES: usize = 64 << 20;
/// A sample is short, so that few of them are interrupted.
const SAMPLE_NANOSECONDS: f64 = 200_000.0;

const MODULES: [usize; 3] = [100, 500, 2_100];
static DIALECTS: [(&str, [u8; model::dialect::BYTES]); 2] =
    [("Extended", model::dialect::EXTENDED), ("Standard", model::dialect::STANDARD)];

fn main() -> ExitCode {
    let options = match read_options() {
        Ok(options) => options,
        Err(text) => {
            eprintln!("bench: {text}");
            return ExitCode::from(2);
        }
    };
    let thread = std::thread::Builder::new().stack_size(STACK_BYTES);
    let run = thread.spawn(move || run(&options)).expect("a thread starts");
    if run.join().is_ok() { ExitCode::SUCCESS } else { ExitCode::from(2) }
}

fn read_options() -> Result<Options, String> {
    let mut options = Options { rounds: 201, only: String::new(), alone: None, corpus: None };
    let mut left = std::env::args().skip(1);
    let number = |text: String| text.parse::<usize>().map_err(|_| format!("{text} is no number"));
    while let Some(option) = left.next() {
        let mut value = || left.next().ok_or_else(|| format!("{option} wants a value"));
        match option.as_str() {
            "--rounds" => options.rounds = number(value()?)?.max(1),
            "--only" => options.only = value()?,
            "--corpus" => options.corpus = Some(value()?.into()),
            "--alone" => options.alone = Some((value()?, number(value()?)?)),
            _ => return Err(format!("{option} is not known")),
        }
    }
    Ok(options)
}

fn kept(input: Input) -> &'static Input {
    Box::leak(Box::new(input))
}

fn case(name: String, kind: Kind, routes: impl Fn() -> Vec<Route<'static>> + 'static) -> Case {
    Case { name, kind, routes: Box::new(routes) }
}

fn all_cases() -> Vec<Case> {
    let mut all = Vec::new();
    let job = Kind::Job;
    for entries in [4, 8, 16, 48] {
        let name = format!("params, {entries} entries");
        all.push(case(name, job, move || cases::parameters(kept(scripts::parameters(entries)))));
    }
    for entries in [49, 384, 2_000] {
        let name = format!("params, {entries} entries, refused with 19");
        all.push(case(name, Kind::Refused, move || cases::too_many(kept(scripts::plain_parameters(entries)))));
    }
    for entries in [4, 16, 48, 384] {
        let name = format!("call, {entries} arguments");
        all.push(case(name, job, move || cases::arguments(kept(scripts::arguments(entries)))));
    }
    all.extend(name_cases());
    all.push(case("type, 3 nodes".into(), job, || cases::types(kept(scripts::small_type()))));
    all.push(case("type, 8 nodes".into(), job, || cases::types(kept(scripts::middle_type()))));
    all.push(case("type, 55 nodes".into(), job, || cases::types(kept(scripts::large_type(48)))));
    for items in [3, 24] {
        let name = format!("target, {items} leaves");
        all.push(case(name, job, move || cases::targets(kept(scripts::target(items)))));
    }
    for (dialect, bytes) in &DIALECTS {
        for nodes in MODULES {
            let name = format!("module, {nodes} nodes, {dialect}, {}", errors(nodes, bytes));
            all.push(case(name, job, move || cases::module(kept(scripts::module(nodes)), bytes)));
        }
    }
    for nodes in MODULES {
        let name = format!("table, {nodes} nodes");
        all.push(case(name, Kind::Table, move || cases::table(kept(scripts::module(nodes)))));
    }
    for (dialect, bytes) in &DIALECTS {
        for nodes in MODULES {
            let name = format!("file, {nodes} nodes, {dialect}, {}", errors(nodes, bytes));
            all.push(case(name, Kind::File, move || cases::file(kept(scripts::module(nodes)), bytes)));
        }
    }
    for nodes in MODULES {
        let name = format!("write, {nodes} nodes");
        all.push(case(name, Kind::Write, move || cases::write(kept(scripts::module(nodes)), &model::dialect::STANDARD)));
    }
    all.extend(binding_cases());
    all.extend(rescue_cases());
    all.extend(audit_cases());
    all.extend(format_cases());
    all
}

/// Format texts of four shapes and two lengths, written and read.
fn format_cases() -> Vec<Case> {
    let mut all = Vec::new();
    for (words, shape) in formats::SHAPES {
        for bytes in [100, 10_000] {
            let name = |job: &str| format!("format text {job}, {bytes} bytes of {words}");
            all.push(case(name("written"), Kind::Format, move || formats::written(formats::parts(shape, bytes))));
            all.push(case(name("read"), Kind::Format, move || formats::read_back(formats::parts(shape, bytes))));
        }
    }
    all
}

/// Whole modules by every job, in a dialect with types and in one without.
fn audit_cases() -> Vec<Case> {
    let mut all = Vec::new();
    for (dialect, bytes) in &DIALECTS {
        for nodes in MODULES {
            let input = scripts::module(nodes);
            let errors = model::jobs::audit(&input.table, &input.names, bytes, 1).audited.len();
            let jobs = cases::jobs_at_once(&input);
            let name = format!("audit, {nodes} nodes, {dialect}, {jobs} jobs, {errors} errors");
            all.push(case(name, Kind::Audit, move || cases::audit(kept(scripts::module(nodes)), bytes)));
        }
    }
    all
}

/// Files whole and damaged: cut in the middle and in the last block, with a bad block in the middle, with bytes after it.
fn rescue_cases() -> Vec<Case> {
    let damages: [(&str, fn(&mut Vec<u8>)); 5] = [
        ("whole", |_| {}),
        ("cut in the middle", |bytes| bytes.truncate(bytes.len() / 2)),
        ("cut by a byte", |bytes| bytes.truncate(bytes.len() - 1)),
        ("a bad block in the middle", |bytes| {
            let at = bytes.len() / 2;
            bytes[at] ^= 1;
        }),
        ("100 bytes more", |bytes| bytes.extend([7; 100])),
    ];
    let mut all = Vec::new();
    for nodes in MODULES {
        for (words, damage) in damages {
            let name = format!("rescue, {nodes} nodes, {words}");
            all.push(case(name, Kind::Rescue, move || cases::rescue(kept(scripts::module(nodes)), damage)));
        }
    }
    all
}

/// As many arguments as parameters.
fn binding_cases() -> Vec<Case> {
    let mut all = Vec::new();
    for (words, written) in [("place", Written::ByPlace), ("name", Written::ByName), ("name, in another order", Written::Shuffled)] {
        for entries in [4, 16, 48] {
            let name = format!("bind, {entries} by {words}");
            all.push(case(name, Kind::Bind, move || cases::bind(kept(scripts::binding(entries, written)))));
        }
    }
    all
}

/// Lists whose names are of a family.
fn name_cases() -> Vec<Case> {
    let mut all = Vec::new();
    for (words, family, arguments) in scripts::FAMILIES {
        for entries in [4, 16, 48] {
            let name = format!("params, {entries} names, {words}");
            all.push(case(name, Kind::Job, move || cases::parameters(kept(scripts::named_parameters(family, entries)))));
        }
        for entries in [4, 16, 48, 384, arguments] {
            let name = format!("call, {entries} names, {words}");
            all.push(case(name, Kind::Job, move || cases::arguments(kept(scripts::named_arguments(family, entries)))));
        }
    }
    all
}

/// How many errors the module of the given number of nodes has, in words.
fn errors(nodes: usize, dialect: &[u8]) -> String {
    let input = scripts::module(nodes);
    match model::jobs::module(&input.table, &input.names, dialect).errors.len() {
        1 => "1 error".to_owned(),
        count => format!("{count} errors"),
    }
}

fn run(options: &Options) {
    if let Some(folder) = &options.corpus {
        return corpus::print(folder, options.rounds);
    }
    let all = all_cases().into_iter().filter(|case| case.name.contains(&options.only));
    if let Some((label, times)) = &options.alone {
        for case in all {
            (case.routes)().iter_mut().filter(|route| route.label == label).for_each(|route| {
                route.run(*times);
            });
        }
        return;
    }
    println!("{} rounds, each route in its turn; medians of processor time in microseconds, quartiles in brackets", options.rounds);
    let effort = Effort { rounds: options.rounds, sample: SAMPLE_NANOSECONDS };
    let mut before = None;
    for case in all {
        if before != Some(case.kind) {
            print_head(case.kind);
            before = Some(case.kind);
        }
        let times = measure::in_turn(&mut (case.routes)(), &effort);
        print_row(&case, &times);
    }
}

fn of<'t>(times: &'t [Times], label: &str) -> &'t Times {
    times.iter().find(|times| times.label == label).expect("a route of this case")
}

fn print_head(kind: Kind) {
    println!();
    let columns = match kind {
        Kind::Job => "job | port | of it table check | crate | port / crate | crate with reading and tree | port / that",
        Kind::Refused => "job | port | the table check | port / that",
        Kind::Table => "check | port | the oracle's check | port / that",
        Kind::File => {
            "file to errors | port | the module job by itself | Rust route | port / Rust | reading and check | second check | tree | crate | port / (tree and crate alone)"
        }
        Kind::Bind => "arguments bound | port | params and call on the same table | port / that | one table check",
        Kind::Audit => "audit | port | the same jobs one by one | port / that | the module pass | port / that | one table check",
        Kind::Format => "format text | port | plain Rust | port / that",
        Kind::Rescue => "file rescued | port | the port reads the whole file | port / that | one table check of the whole | copying what is kept",
        Kind::Write => {
            "file written | port | of it table check | Rust writer with the oracle's checks | port / that | Rust writer alone | port without its check / that | copying the bytes"
        }
    };
    println!("| {columns} |");
    println!("|{}", "---|".repeat(columns.split('|').count()));
}

fn micros(spread: Spread) -> String {
    format!("{:.2} ({:.2}–{:.2})", spread.median / 1e3, spread.low / 1e3, spread.high / 1e3)
}

fn middle(times: &Times) -> String {
    format!("{:.2}", times.spread().median / 1e3)
}

fn ratio(spread: Spread) -> String {
    format!("{:.2} ({:.2}–{:.2})", spread.median, spread.low, spread.high)
}

fn print_row(case: &Case, times: &[Times]) {
    let port = of(times, cases::PORT);
    let mut row = vec![case.name.clone(), micros(port.spread())];
    match case.kind {
        Kind::Job => {
            let (ready, front) = (of(times, cases::CRATE), of(times, cases::FRONT));
            row.push(middle(of(times, cases::CHECK)));
            row.extend([micros(ready.spread()), ratio(port.part_of(ready))]);
            row.extend([micros(front.spread()), ratio(port.part_of(front))]);
        }
        Kind::Refused => {
            let check = of(times, cases::CHECK);
            row.extend([micros(check.spread()), ratio(port.part_of(check))]);
        }
        Kind::Table => {
            let model = of(times, cases::MODEL);
            row.extend([micros(model.spread()), ratio(port.part_of(model))]);
        }
        Kind::File => {
            let front = of(times, cases::FRONT);
            row.push(middle(of(times, cases::CHECK)));
            row.extend([micros(front.spread()), ratio(port.part_of(front))]);
            row.extend([cases::READ, cases::MODEL, cases::TREE, cases::CRATE].map(|label| middle(of(times, label))));
            let least = [cases::TREE, cases::CRATE].map(|label| of(times, label).spread().median);
            row.push(format!("{:.2}", port.spread().median / least.iter().sum::<f64>()));
        }
        Kind::Bind => {
            let lists = of(times, cases::LISTS);
            row.extend([micros(lists.spread()), ratio(port.part_of(lists)), middle(of(times, cases::CHECK))]);
        }
        Kind::Audit => {
            let (each, module) = (of(times, cases::EACH), of(times, cases::MODULE));
            row.extend([micros(each.spread()), ratio(port.part_of(each))]);
            row.extend([micros(module.spread()), ratio(port.part_of(module)), middle(of(times, cases::CHECK))]);
        }
        Kind::Format => {
            let plain = of(times, cases::PLAIN);
            row.extend([micros(plain.spread()), ratio(port.part_of(plain))]);
        }
        Kind::Rescue => {
            let reader = of(times, cases::READER);
            row.extend([micros(reader.spread()), ratio(port.part_of(reader))]);
            row.extend([cases::CHECK, cases::COPY].map(|label| middle(of(times, label))));
        }
        Kind::Write => {
            let (front, check, plain) = (of(times, cases::FRONT), of(times, cases::CHECK), of(times, cases::PLAIN));
            row.push(middle(check));
            row.extend([micros(front.spread()), ratio(port.part_of(front))]);
            let alone = port.spread().median - check.spread().median;
            row.extend([micros(plain.spread()), format!("{:.2}", alone / plain.spread().median)]);
            row.push(middle(of(times, cases::COPY)));
        }
    }
    println!("| {} |", row.join(" | "));
}
