//! The table of what was run, and the first difference in full.

use std::ops::RangeInclusive;
use std::process::ExitCode;

use crate::checker::Tally;
use crate::families;
use crate::options::Options;
use crate::port::FILE;
use crate::port::JOBS;
use crate::port::NAMES;

/// What the whole comparison must run of each job at the least, in the order of `NAMES`: about 99 of 100 of what the quick run has at
/// any seed.
const LEAST: [u64; JOBS] = [
    1_436_000, 2_761_000, 701_000, 2_781_000, 779_000, 6_360_000, 1_640_000, 435_000, 1_420_000, 182_000, 885_000, 124_000, 99_000, 505_000,
    890_000, 41_500, 119_000, 3_660,
];

/// What the whole comparison must put to Python at the least, where there is one.
const LEAST_PYTHON: u64 = 54_500;

pub fn print(options: &Options, tallies: &[Tally]) -> ExitCode {
    let run = families::ALL.iter().zip(tallies).filter(|(family, _)| options.asks(family));
    println!(
        "{:<32} {:>11} {:>11} {:>11} {:>11} {:>11} {:>8}",
        "family", "jobs", "crate", "model", "refused", "others", "differ"
    );
    let mut all = Tally::default();
    for (family, tally) in run {
        line(family.name, tally);
        all.add(tally.clone());
    }
    line("all", &all);
    if let Some((family, text)) = first(tallies) {
        println!("first difference, in \"{family}\":");
        print!("{text}");
    }
    let never = never_given(options, &all);
    if !never.is_empty() {
        println!("never given, so the run says nothing of them: {}", never.join(", "));
    }
    let mut few = too_few(options, &all);
    few.extend(too_few_of_families(options, tallies));
    let python_is_run = options.is_all() && options.python.is_some();
    if python_is_run && all.by_python < LEAST_PYTHON {
        few.push(format!("calls put to Python {} of {LEAST_PYTHON}", all.by_python));
    }
    if !few.is_empty() {
        println!("too few: {}", few.join(", "));
    }
    if all.by_python > 0 {
        println!("compare: {} calls were made by Python too", all.by_python);
    }
    println!("compare: {} jobs ({}), {} differences, seed {}", all.jobs, each_job(&all), all.differences, options.seed);
    if all.jobs == 0 {
        println!("compare: nothing was compared");
        return ExitCode::from(2);
    }
    let is_lacking = !few.is_empty() || (options.is_whole() && !never.is_empty());
    ExitCode::from(u8::from(all.differences > 0 || is_lacking))
}

/// What the families that were run to their end have too little of.
fn too_few_of_families(options: &Options, tallies: &[Tally]) -> Vec<String> {
    let run = families::ALL.iter().zip(tallies).filter(|(family, _)| options.runs_to_its_end(family));
    run.flat_map(|(family, tally)| {
        let counted = [("jobs", tally.jobs), ("judged by the crate", tally.by_crate), ("others", tally.others)];
        let few = counted.into_iter().zip(family.least).filter(|((_, count), least)| count < least);
        few.map(|((what, count), least)| format!("{}: {what} {count} of {least}", family.name)).collect::<Vec<_>>()
    })
    .collect()
}

fn each_job(all: &Tally) -> String {
    let told = NAMES.iter().zip(all.of_job).filter(|(_, jobs)| *jobs > 0);
    told.map(|(name, jobs)| format!("{name} {jobs}")).collect::<Vec<_>>().join(", ")
}

/// The jobs of which the whole comparison has run fewer than it must. The files are in it where a program is named.
fn too_few(options: &Options, all: &Tally) -> Vec<String> {
    let demanded = (0..JOBS).filter(|&job| options.is_all() && (job != FILE || options.program.is_some()));
    let few = demanded.filter(|&job| all.of_job[job] < LEAST[job]);
    few.map(|job| format!("{} {} of {}", NAMES[job], all.of_job[job], LEAST[job])).collect()
}

/// Of each requested job, the numbers that no input has brought about; where only some families are run, of those jobs that they have.
fn never_given(options: &Options, all: &Tally) -> Vec<String> {
    let is_asked = |job: usize| options.wanted[job] && (job != FILE || options.program.is_some());
    let numbers = numbers_of_jobs();
    let told = |job: usize| {
        let never = numbers[job].iter().filter(|&&number| all.given[job][number] == 0);
        let never: Vec<String> = never.map(|number| number.to_string()).collect();
        (!never.is_empty()).then(|| format!("{} {}", NAMES[job], never.join(" ")))
    };
    let asked = (0..JOBS).filter(|&job| is_asked(job) && (options.is_whole() || all.of_job[job] > 0));
    asked.filter_map(told).collect()
}

/// What each job can answer, 0 among it.
fn numbers_of_jobs() -> [Vec<usize>; JOBS] {
    let with = |more: &[RangeInclusive<usize>]| -> Vec<usize> { (0..=4).chain(more.iter().cloned().flatten()).collect() };
    // What would be 1 or 2 in a file is 74.
    let of_file = |more: &[RangeInclusive<usize>]| -> Vec<usize> {
        [0].into_iter().chain(3..=5).chain(70..=75).chain(more.iter().cloned().flatten()).collect()
    };
    [
        with(&[]),
        with(&[6..=7, 10..=19]),
        with(&[6..=6, 20..=24]),
        with(&[6..=6, 30..=30]),
        with(&[6..=6, 30..=33]),
        with(&[5..=7, 40..=45]),
        with(&[5..=5, 10..=19, 50..=61]),
        with(&[5..=5, 7..=7]),
        with(&[6..=7, 10..=19, 20..=24, 80..=84]),
        vec![0, 7, 90, 91],
        with(&[5..=5, 10..=19, 20..=24, 30..=33, 40..=45, 50..=61]),
        of_file(&[7..=7]),
        of_file(&[10..=19, 50..=61]),
        vec![0, 5, 7, 62, 64],
        vec![0, 7, 63],
        [0].into_iter().chain(3..=5).chain(70..=74).collect(),
        [0].into_iter().chain(3..=5).chain(70..=74).chain([76]).collect(),
        of_file(&[]),
    ]
}

fn line(name: &str, tally: &Tally) {
    let Tally { jobs, by_crate, refused, others, differences, .. } = tally;
    let model = tally.by_model_alone();
    println!("{name:<32} {jobs:>11} {by_crate:>11} {model:>11} {refused:>11} {others:>11} {differences:>8}");
}

fn first(tallies: &[Tally]) -> Option<(&'static str, &str)> {
    let named = families::ALL.iter().zip(tallies);
    named.filter_map(|(family, tally)| Some((family.name, tally.first.as_deref()?))).next()
}
