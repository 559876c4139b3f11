//! W-204: which argument of a call reaches which parameter of a def. Written from the request, not from the code.

use crate::call::Argument;
use crate::numbers::kind;
use crate::numbers::mode;
use crate::numbers::number;
use crate::params::Entry;
use crate::params::Unpacked;
use crate::planted::planted;
use crate::planted::Fault;

/// A parameter of the flat list.
#[derive(Clone, Copy, Debug)]
pub struct Parameter<'a> {
    pub mode: u8,
    pub name: &'a [u8],
    pub has_default: bool,
}

impl Parameter<'_> {
    fn is_positional(&self) -> bool {
        self.mode == mode::POS_ONLY || self.mode == mode::POS_OR_NAME
    }

    fn is_ordinary(&self) -> bool {
        self.is_positional() || self.mode == mode::NAME_ONLY
    }

    /// A PosOnly name counts as unknown, and so do those of `*args` and `**kwargs`.
    fn is_called(&self, name: &[u8]) -> bool {
        let callable = match self.mode {
            mode::POS_OR_NAME | mode::NAME_ONLY => true,
            mode::POS_ONLY => planted(Fault::PosOnlyByName),
            _ => planted(Fault::StarByName),
        };
        callable && self.name == name
    }
}

/// The place of a refusal: an argument by its place in the call, or a parameter by its flat index.
#[derive(Clone, Copy, Debug, PartialEq, Eq)]
pub enum At {
    Argument(usize),
    Parameter(usize),
}

pub type Refused = (u32, At);

/// The flat list of one that is accepted: the written list without its marks, each entry with its range's mode.
pub fn flat<'a>(written: &[Entry<'a>], unpacked: &Unpacked) -> Vec<Parameter<'a>> {
    let entries = written.iter().filter(|entry| !entry.is_mark());
    let parameter = |(entry, mode): (&Entry<'a>, u8)| Parameter {
        mode,
        name: entry.name,
        has_default: entry.has_default,
    };
    entries.zip(unpacked.modes()).map(parameter).collect()
}

/// The flat index that each argument reaches, where the list and the call are accepted by themselves.
pub fn bind(parameters: &[Parameter], arguments: &[Argument]) -> Result<Vec<usize>, Refused> {
    let star_last = planted(Fault::TooManyBeforeStar);
    if !star_last {
        no_star(arguments)?;
    }
    let mut reached = positionals(parameters, arguments)?;
    if star_last {
        no_star(arguments)?;
    }
    if planted(Fault::EmptyBeforeUnknown) && arguments.len() == reached.len() + 1 {
        none_is_empty(parameters, &reached)?;
    }
    for at in reached.len()..arguments.len() {
        let place = named(parameters, &reached, arguments[at].name);
        reached.push(place.map_err(|number| (number, At::Argument(at)))?);
    }
    none_is_empty(parameters, &reached)?;
    Ok(reached)
}

/// 80 at the first star or `**` of the call.
fn no_star(arguments: &[Argument]) -> Result<(), Refused> {
    let is_star = |argument: &Argument| {
        argument.kind == kind::STAR_ARGUMENT
            || argument.kind == kind::STAR_STAR_ARGUMENT && !planted(Fault::StarStarBinds)
    };
    match arguments.iter().position(is_star) {
        Some(at) => Err((number::STAR_IN_CALL, At::Argument(at))),
        None => Ok(()),
    }
}

/// Positionals fill positional parameters from the left, the rest go to `*args`; 81 at the first too many without it.
fn positionals(parameters: &[Parameter], arguments: &[Argument]) -> Result<Vec<usize>, Refused> {
    let most = parameters.iter().filter(|parameter| parameter.is_positional()).count();
    let count = arguments.iter().filter(|argument| argument.kind == kind::POSITIONAL).count();
    let args = parameters.iter().position(|parameter| parameter.mode == mode::ARGS);
    let reach = |place: usize| if place < most { Some(place) } else { args };
    (0..count).map(|place| reach(place).ok_or((number::TOO_MANY_POSITIONAL, At::Argument(place)))).collect()
}

/// A named one goes to the parameter of that name, 83 if it is filled already, else to `**kwargs`; 82 without it.
fn named(parameters: &[Parameter], reached: &[usize], name: &[u8]) -> Result<usize, u32> {
    match parameters.iter().position(|parameter| parameter.is_called(name)) {
        Some(at) if reached.contains(&at) && !planted(Fault::FilledTwice) => Err(number::FILLED_ALREADY),
        Some(at) => Ok(at),
        None => {
            let kwargs = parameters.iter().position(|parameter| parameter.mode == mode::KWARGS);
            kwargs.ok_or(number::UNKNOWN_NAMED)
        }
    }
}

/// 84 at the lowest ordinary parameter left empty without default.
fn none_is_empty(parameters: &[Parameter], reached: &[usize]) -> Result<(), Refused> {
    let is_empty = |at: usize| parameters[at].is_ordinary() && !parameters[at].has_default && !reached.contains(&at);
    let mut empty = (0..parameters.len()).filter(|&at| is_empty(at));
    let found = if planted(Fault::HighestEmpty) { empty.last() } else { empty.next() };
    match found {
        Some(at) => Err((number::LEFT_EMPTY, At::Parameter(at))),
        None => Ok(()),
    }
}

/// The words of an accepted binding: for each flat parameter the node of the argument that it takes, 0 for its default and for
/// star parameters; then for each argument the flat index that it reached.
pub fn words(parameters: &[Parameter], reached: &[usize], nodes: &[usize]) -> Vec<u32> {
    let taken = |at: usize| reached.iter().position(|&place| place == at).map_or(0, |place| nodes[place] as u32);
    let starred = planted(Fault::StarTakesItsFirst);
    let word = |at: usize| if parameters[at].is_ordinary() || starred { taken(at) } else { 0 };
    let takes = (0..parameters.len()).map(word);
    takes.chain(reached.iter().map(|&at| at as u32)).collect()
}
