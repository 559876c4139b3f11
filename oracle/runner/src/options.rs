//! The command line.

use crate::families::Family;
use crate::port::FILE;
use crate::port::JOBS;
use crate::port::NAMES;

pub struct Options {
    pub wanted: [bool; JOBS],
    pub seed: u64,
    /// 1 is the quick run.
    pub scale: u64,
    pub threads: usize,
    /// End at the first difference.
    pub stop: bool,
    /// The program tablecheck to run on files.
    pub program: Option<String>,
    /// A source text that holds the port's three dialect rows.
    pub rows: Option<String>,
    /// The script that puts calls to Python.
    pub python: Option<String>,
    /// Where a sample of the answers is written.
    pub record: Option<String>,
    /// Only families whose names hold this.
    only: Option<String>,
    /// Whether `--jobs` has chosen the jobs.
    chosen: bool,
}

/// So that all families together come to 10^8 jobs.
const LONG: u64 = 12;

impl Options {
    pub fn read() -> Result<Options, String> {
        let mut options = Options {
            wanted: [true; JOBS],
            seed: 1,
            scale: 1,
            threads: 2,
            stop: false,
            program: None,
            rows: None,
            python: None,
            record: None,
            only: None,
            chosen: false,
        };
        let mut words = std::env::args().skip(1);
        while let Some(word) = words.next() {
            let mut value = || words.next().ok_or(format!("{word} wants a value"));
            match word.as_str() {
                "--jobs" => {
                    options.wanted = jobs(&value()?)?;
                    options.chosen = true;
                }
                "--seed" => options.seed = number(&value()?)?,
                "--threads" => options.threads = number(&value()?)?.max(1) as usize,
                "--long" => options.scale = LONG,
                "--scale" => options.scale = number(&value()?)?.max(1),
                "--stop" => options.stop = true,
                "--program" => options.program = Some(value()?),
                "--rows" => options.rows = Some(value()?),
                "--python" => options.python = Some(value()?),
                "--record" => options.record = Some(value()?),
                "--only" => options.only = Some(value()?),
                _ => return Err(format!("{word} is not known")),
            }
        }
        if !options.chosen {
            options.wanted[FILE] = options.program.is_some();
        }
        Ok(options)
    }

    pub fn is_long(&self) -> bool {
        self.scale > 1
    }

    /// Whether all families of the requested jobs are run to their end.
    pub fn is_whole(&self) -> bool {
        self.only.is_none() && !self.stop
    }

    /// Whether it is the whole comparison: no job was chosen by name, either.
    pub fn is_all(&self) -> bool {
        self.is_whole() && !self.chosen
    }

    /// Whether a family is run with all its jobs and inputs, so that its counts are meaningful.
    pub fn runs_to_its_end(&self, family: &Family) -> bool {
        let has_program = self.program.is_some() || family.jobs != 1 << FILE;
        !self.stop && !self.chosen && has_program && self.asks(family)
    }

    /// Whether a family is to be run: its name is requested, and one of its jobs.
    pub fn asks(&self, family: &Family) -> bool {
        let named = self.only.as_ref().is_none_or(|only| family.name.contains(only.as_str()));
        named && (0..JOBS).any(|job| self.wanted[job] && family.jobs >> job & 1 == 1)
    }
}

fn number(text: &str) -> Result<u64, String> {
    text.parse().map_err(|_| format!("{text} is not a number"))
}

fn jobs(list: &str) -> Result<[bool; JOBS], String> {
    let mut wanted = [false; JOBS];
    for name in list.split(',') {
        let at = NAMES.iter().position(|known| *known == name);
        wanted[at.ok_or(format!("{name} is not a job; the jobs are {}", NAMES.join(",")))?] = true;
    }
    Ok(wanted)
}
