//! Runs the archive, the model and the crate on the same inputs and counts where they differ. `linked` makes a program of it.

mod cells;
mod checker;
mod cut;
mod families;
mod grow;
mod options;
mod port;
mod record;
mod report;
mod rng;
mod small;

use std::process::ExitCode;
use std::sync::atomic::AtomicBool;
use std::sync::atomic::AtomicUsize;
use std::sync::atomic::Ordering;
use std::sync::Mutex;

use checker::Checker;
use checker::Tally;
use families::Family;
use families::Plan;
use options::Options;
use record::Recorder;

/// Recursion over 2,100 siblings needs some hundred kilobytes; this is far more.
const STACK_BYTES: usize = 64 << 20;

struct Item<'a> {
    family: usize,
    of: &'a Family,
    plan: Plan,
}

pub fn main() -> ExitCode {
    let options = match Options::read() {
        Ok(options) => options,
        Err(text) => {
            eprintln!("compare: {text}");
            return ExitCode::from(2);
        }
    };
    if options.is_all() && options.program.is_none() {
        println!("compare: no program is named, so no files are compared");
    }
    if options.is_all() && options.python.is_none() {
        println!("compare: there is no python3, so no calls are put to Python");
    }
    let done = run(&options);
    if let Some(path) = &options.record {
        write_sample(path, &done);
    }
    report::print(&options, &tallies(done))
}

/// What a part of a family has seen.
struct Done {
    family: usize,
    checker: Checker,
}

/// The parts in their order, whichever thread has run them; those not begun are left out.
fn run(options: &Options) -> Vec<Done> {
    let items = items(options);
    let next = AtomicUsize::new(0);
    let stop = AtomicBool::new(false);
    let done: Mutex<Vec<Option<Done>>> = Mutex::new(items.iter().map(|_| None).collect());
    let work = || loop {
        let at = next.fetch_add(1, Ordering::Relaxed);
        let Some(item) = items.get(at).filter(|_| !stop.load(Ordering::Relaxed)) else { return };
        let recorder = options.record.is_some().then(Recorder::default);
        let mut checker = Checker::new(options.wanted, options.stop, recorder);
        (item.of.run)(&mut checker, &item.plan);
        if options.is_long() {
            eprintln!("{}: part {} of {} is done", item.of.name, item.plan.part + 1, item.plan.parts);
        }
        stop.fetch_or(checker.is_done(), Ordering::Relaxed);
        done.lock().expect("no thread has panicked")[at] = Some(Done { family: item.family, checker });
    };
    std::thread::scope(|scope| {
        for _ in 0..options.threads {
            let thread = std::thread::Builder::new().stack_size(STACK_BYTES);
            thread.spawn_scoped(scope, work).expect("a thread starts");
        }
    });
    done.into_inner().expect("no thread has panicked").into_iter().flatten().collect()
}

fn tallies(done: Vec<Done>) -> Vec<Tally> {
    let mut tallies = vec![Tally::default(); families::ALL.len()];
    done.into_iter().for_each(|part| tallies[part.family].add(part.checker.tally));
    tallies
}

fn write_sample(path: &str, done: &[Done]) {
    let (bytes, by) = record::sample(done.iter().filter_map(|part| part.checker.recorder.as_ref()));
    std::fs::write(path, &bytes).unwrap_or_else(|error| panic!("{path}: {error}"));
    let (crate_s, model_s) = (by[record::CRATE], by[record::MODEL]);
    println!("{crate_s} answers of the crate and {model_s} of the model, {} bytes, are in {path}", bytes.len());
}

/// The parts of the families that are requested, in order.
fn items(options: &Options) -> Vec<Item<'static>> {
    let plan = |part: u64, parts: u64| Plan {
        seed: options.seed,
        scale: options.scale,
        part,
        parts,
        program: options.program.clone(),
        rows: options.rows.clone(),
        python: options.python.clone(),
    };
    let asked = families::ALL.iter().enumerate().filter(|(_, family)| options.asks(family));
    asked
        .flat_map(|(at, of)| {
            // A family of one part has inputs that are the same in every part.
            let parts = if options.is_long() && of.parts > 1 { 8 * of.parts } else { of.parts };
            (0..parts).map(move |part| Item { family: at, of, plan: plan(part, parts) })
        })
        .collect()
}
