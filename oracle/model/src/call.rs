//! Call arguments.

use crate::numbers::kind;
use crate::numbers::number;
use crate::planted::planted;
use crate::planted::Fault;

#[derive(Clone, Copy, Debug)]
pub struct Argument<'a> {
    pub kind: u8,
    pub name: &'a [u8],
}

#[derive(Clone, Debug, Default, PartialEq, Eq)]
pub struct Called {
    pub positional: u32,
    pub named: u32,
    /// Places in the written list, from 0.
    pub star: Option<u32>,
    pub star_star: Option<u32>,
}

/// Positional, then named, then at most one star, then at most one `**`; names distinct.
pub fn unpack(arguments: &[Argument]) -> Result<Called, (u32, usize)> {
    let mut called = Called::default();
    for (at, argument) in arguments.iter().enumerate() {
        match refused(&called, arguments, at) {
            Some(number) => return Err((number, at)),
            None => count(&mut called, argument, at),
        }
    }
    Ok(called)
}

fn refused(called: &Called, arguments: &[Argument], at: usize) -> Option<u32> {
    let after_star = called.star.is_some() || called.star_star.is_some();
    match arguments[at].kind {
        kind::POSITIONAL => {
            (called.named > 0 || after_star).then_some(number::POSITIONAL_AFTER_NON_POSITIONAL)
        }
        kind::NAMED => {
            let repeated = is_repeated(arguments, at).then_some(number::REPEATED_NAMED);
            let after = after_star.then_some(number::NAMED_AFTER_STAR);
            if planted(Fault::RepeatedBeforeNamedAfterStar) { repeated.or(after) } else { after.or(repeated) }
        }
        kind::STAR_ARGUMENT => {
            let allowed = planted(Fault::StarAfterStarStarAllowed) && called.star.is_none();
            (after_star && !allowed).then_some(number::STAR_AFTER_STAR)
        }
        _ => called.star_star.is_some().then_some(number::MULTIPLE_STAR_STAR),
    }
}

fn is_repeated(arguments: &[Argument], at: usize) -> bool {
    arguments[..at].iter().any(|a| a.kind == kind::NAMED && a.name == arguments[at].name)
}

fn count(called: &mut Called, argument: &Argument, at: usize) {
    let place = at as u32 + u32::from(planted(Fault::StarPlaceFromOne));
    match argument.kind {
        kind::POSITIONAL => called.positional += 1,
        kind::NAMED => called.named += 1,
        kind::STAR_ARGUMENT => called.star = Some(place),
        _ => called.star_star = Some(place),
    }
}
