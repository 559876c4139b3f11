//! Parameter lists.

use std::ops::Range;

use crate::numbers::kind;
use crate::numbers::mode;
use crate::numbers::number;
use crate::planted::planted;
use crate::planted::Fault;

/// The most entries of a written list, marks counted (W-211). The crate has no such limit.
pub const MOST_ENTRIES: usize = 48;

/// One written entry of a parameter list.
#[derive(Clone, Copy, Debug)]
pub struct Entry<'a> {
    pub kind: u8,
    pub name: &'a [u8],
    pub has_default: bool,
}

impl Entry<'_> {
    fn is_named(&self) -> bool {
        !self.is_mark()
    }

    pub fn is_mark(&self) -> bool {
        self.kind == kind::NO_ARGS || self.kind == kind::SLASH
    }
}

/// The five ranges over the flat list, marks omitted.
#[derive(Clone, Debug, PartialEq, Eq)]
pub struct Unpacked {
    pub pos_only: Range<u32>,
    pub pos_or_named: Range<u32>,
    pub args: Range<u32>,
    pub named_only: Range<u32>,
    pub kwargs: Range<u32>,
    pub flat: u32,
}

impl Unpacked {
    pub fn ranges(&self) -> [&Range<u32>; 5] {
        [&self.pos_only, &self.pos_or_named, &self.args, &self.named_only, &self.kwargs]
    }

    /// A mode for each flat parameter: that of the range it is in.
    pub fn modes(&self) -> Vec<u8> {
        const MODES: [u8; 5] = [mode::POS_ONLY, mode::POS_OR_NAME, mode::ARGS, mode::NAME_ONLY, mode::KWARGS];
        let mut modes = vec![0; self.flat as usize];
        for (range, mode) in self.ranges().into_iter().zip(MODES) {
            modes[range.start as usize..range.end as usize].fill(mode);
        }
        modes
    }
}

/// A refusal, by the place of its entry in the written list.
pub type At = (u32, usize);

#[derive(Clone, Copy, PartialEq, Eq, PartialOrd, Ord)]
enum Seen {
    Nothing,
    Slash,
    Star,
    StarStar,
}

/// The rules of the list in the order in which they are looked at.
pub fn unpack(entries: &[Entry]) -> Result<Unpacked, At> {
    if entries.first().is_some_and(|e| e.kind == kind::SLASH) && !planted(Fault::SlashMayBeFirst) {
        return Err((number::SLASH_FIRST, 0));
    }
    let mut walk = Walk { seen: Seen::Nothing, default_seen: false, star: None };
    for at in 0..entries.len() {
        walk.step(entries, at)?;
    }
    if let Some(star) = walk.star {
        check_after_star(entries, star)?;
    }
    Ok(ranges(entries))
}

struct Walk {
    seen: Seen,
    default_seen: bool,
    /// Where the bare `*` is.
    star: Option<usize>,
}

impl Walk {
    fn step(&mut self, entries: &[Entry], at: usize) -> Result<(), At> {
        if planted(Fault::KindRuleBeforeDuplicates) {
            self.rule_of_kind(entries, at)?;
            return self.distinct(entries, at);
        }
        self.distinct(entries, at)?;
        self.rule_of_kind(entries, at)
    }

    fn distinct(&self, entries: &[Entry], at: usize) -> Result<(), At> {
        let same = |e: &Entry| e.is_named() && e.name == entries[at].name;
        let repeated = entries[at].is_named() && entries[..at].iter().any(same);
        refuse_if(repeated && !planted(Fault::DuplicatesUnseen), number::DUPLICATED_PARAMETER, at)
    }

    fn rule_of_kind(&mut self, entries: &[Entry], at: usize) -> Result<(), At> {
        match entries[at].kind {
            kind::NORMAL => self.normal(&entries[at], at),
            kind::NO_ARGS => {
                refuse_if(self.seen >= Seen::Star, number::SECOND_STAR, at)?;
                self.star = Some(at);
                self.seen = Seen::Star;
                let follows = |e: &Entry| e.kind != kind::NORMAL;
                let wrong = planted(Fault::StarNotFollowedAtOnce) && entries.get(at + 1).is_some_and(follows);
                refuse_if(wrong, number::STAR_NOT_FOLLOWED, at + 1)
            }
            kind::ARGS => {
                refuse_if(self.seen >= Seen::Star, number::SECOND_STAR, at)?;
                self.seen = Seen::Star;
                Ok(())
            }
            kind::SLASH => self.slash(at),
            _ => {
                refuse_if(self.seen == Seen::StarStar, number::MULTIPLE_KWARGS, at)?;
                self.seen = Seen::StarStar;
                Ok(())
            }
        }
    }

    fn normal(&mut self, entry: &Entry, at: usize) -> Result<(), At> {
        refuse_if(self.seen == Seen::StarStar, number::NORMAL_AFTER_KWARGS, at)?;
        let before_star = self.seen < Seen::Star || planted(Fault::DefaultRulePassesStar);
        let missing = !entry.has_default && self.default_seen && before_star;
        refuse_if(missing, number::NO_DEFAULT_AFTER_DEFAULT, at)?;
        self.default_seen |= entry.has_default;
        Ok(())
    }

    fn slash(&mut self, at: usize) -> Result<(), At> {
        let allowed_after = self.seen == Seen::Star && planted(Fault::SlashAfterStarAllowed);
        refuse_if(self.seen != Seen::Nothing && !allowed_after, number::MULTIPLE_SLASHES, at)?;
        if planted(Fault::DefaultRuleRestartsAtSlash) {
            self.default_seen = false;
        }
        self.seen = self.seen.max(Seen::Slash);
        Ok(())
    }
}

fn refuse_if(wrong: bool, number: u32, at: usize) -> Result<(), At> {
    if wrong { Err((number, at)) } else { Ok(()) }
}

/// A bare `*` wants an ordinary parameter right after it.
fn check_after_star(entries: &[Entry], star: usize) -> Result<(), At> {
    match entries.get(star + 1) {
        None => refuse_if(!planted(Fault::StarLastUnseen), number::STAR_LAST, star),
        Some(next) => refuse_if(next.kind != kind::NORMAL, number::STAR_NOT_FOLLOWED, star + 1),
    }
}

/// The ranges of an accepted list, read off from where its marks and stars are.
fn ranges(entries: &[Entry]) -> Unpacked {
    let flat_before = |at: usize| entries[..at].iter().filter(|e| !e.is_mark()).count() as u32;
    let place = |wanted: u8| entries.iter().position(|e| e.kind == wanted);
    let end = entries.len();
    let flat = flat_before(end);
    let star_star = place(kind::KWARGS).unwrap_or(end);
    let star = place(kind::ARGS).or(place(kind::NO_ARGS)).unwrap_or(star_star);
    let mut pos_only = flat_before(place(kind::SLASH).unwrap_or(0));
    if planted(Fault::PositionalOnlyCountsMarks) && pos_only > 0 && place(kind::NO_ARGS).is_some() {
        pos_only += 1;
    }
    let positional = flat_before(star);
    let pos_only = pos_only.min(positional);
    let args_end = positional + u32::from(place(kind::ARGS).is_some());
    let kwargs = flat_before(star_star);
    let args = if args_end == positional && planted(Fault::ArgsNoneAtFlatCount) {
        flat..flat
    } else {
        positional..args_end
    };
    Unpacked {
        pos_only: 0..pos_only,
        pos_or_named: pos_only..positional,
        args,
        named_only: args_end..kwargs,
        kwargs: kwargs..flat,
        flat,
    }
}
