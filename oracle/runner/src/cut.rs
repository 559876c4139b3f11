//! Demand 3 by itself: a parameter list is accepted exactly when it can be cut, and the cut is unique.
//! This is neither the model's way nor the crate's: every cut is tried.

use model::answer::Answer;
use model::numbers::kind;
use model::params::Entry;

/// Where the first three parts end in the written list.
#[derive(Clone, Copy, Debug, PartialEq, Eq)]
struct Cut {
    first: usize,
    second: usize,
    third: usize,
}

fn all_normal(part: &[Entry]) -> bool {
    part.iter().all(|entry| entry.kind == kind::NORMAL)
}

impl Cut {
    fn is_good(&self, list: &[Entry]) -> bool {
        let first = match &list[..self.first] {
            [] => true,
            [normals @ .., last] => last.kind == kind::SLASH && !normals.is_empty() && all_normal(normals),
        };
        let third = match &list[self.second..self.third] {
            [] => true,
            [star, normals @ ..] if star.kind == kind::NO_ARGS => !normals.is_empty() && all_normal(normals),
            [args, normals @ ..] => args.kind == kind::ARGS && all_normal(normals),
        };
        let fourth = match &list[self.third..] {
            [] => true,
            [one] => one.kind == kind::KWARGS,
            _ => false,
        };
        first && all_normal(&list[self.first..self.second]) && third && fourth
    }

    /// The five ranges, marks omitted, and the flat count.
    fn words(&self, list: &[Entry]) -> Vec<u32> {
        let mark = |at: usize| usize::from(list.get(at).is_some_and(|e| e.kind == kind::NO_ARGS));
        let slash = usize::from(self.first > 0);
        let third = self.third - self.second;
        let args = usize::from(third > 0 && list[self.second].kind == kind::ARGS);
        let star = if third > 0 { mark(self.second) } else { 0 };
        let lengths = [
            self.first - slash,
            self.second - self.first,
            args,
            third - args - star,
            list.len() - self.third,
        ];
        let mut begin = 0;
        let mut words = Vec::with_capacity(11);
        for length in lengths {
            words.extend([begin, begin + length as u32]);
            begin += length as u32;
        }
        words.push(begin);
        words
    }
}

fn names_are_distinct(list: &[Entry]) -> bool {
    let named = |entry: &&Entry| entry.kind != kind::NO_ARGS && entry.kind != kind::SLASH;
    let names: Vec<&[u8]> = list.iter().filter(named).map(|entry| entry.name).collect();
    (1..names.len()).all(|at| !names[..at].contains(&names[at]))
}

/// In the first two parts none without default is after one with.
fn defaults_are_last(part: &[Entry]) -> bool {
    let normals = part.iter().filter(|entry| entry.kind == kind::NORMAL);
    normals.skip_while(|entry| !entry.has_default).all(|entry| entry.has_default)
}

fn good_cuts(list: &[Entry]) -> Vec<Cut> {
    let end = list.len();
    let cuts = (0..=end).flat_map(|first| {
        (first..=end).flat_map(move |second| (second..=end).map(move |third| Cut { first, second, third }))
    });
    cuts.filter(|cut| cut.is_good(list)).collect()
}

/// Whether an answer is what demand 3 says of the list.
pub fn agrees(list: &[Entry], answer: &Answer) -> bool {
    let cuts = good_cuts(list);
    let fits = |cut: &&Cut| names_are_distinct(list) && defaults_are_last(&list[..cut.second]);
    match (cuts.as_slice(), answer.number) {
        ([cut], 0) => fits(&cut) && answer.words == cut.words(list) && answer.bytes == modes(&answer.words),
        ([cut], _) => !fits(&cut),
        ([], number) => number != 0,
        _ => false,
    }
}

/// Each flat parameter's mode is its range's.
fn modes(words: &[u32]) -> Vec<u8> {
    let lengths = words.chunks_exact(2).map(|range| (range[1] - range[0]) as usize);
    lengths.zip([1, 2, 4, 3, 5]).flat_map(|(length, mode)| vec![mode; length]).collect()
}
