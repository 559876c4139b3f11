//! A safe wrapper of the proved checks: each job takes slices, and answers a value or why it refuses.
//!
//! Any bytes may come in. A job keeps nothing between calls and allocates nothing, but for the words that [`fstring_write`] makes of its parts.
//! A job that refuses leaves its buffer unchanged.
//!
//! What a job only reads may overlap: table, names, dialect and input may be parts of one slice. What it writes is borrowed `&mut`, so that
//! the compiler rules out that it overlaps anything else.
//!
//! A job needs stack: the header says how much each was measured to need, and [`STACK_BYTES`] is more than twice the most. The threads that
//! Rust starts by default have more. A thread with a stack of its own size is to have as much:
//!
//! ```
//! use starlark_checks::{Kind, Table, STACK_BYTES};
//!
//! // one record: a break, in source file 1
//! let mut nodes = [0; 24];
//! nodes[0] = Kind::Break.into();
//! (nodes[16], nodes[18]) = (1, 1);
//! let job = move || Table { nodes: &nodes, names: &[] }.check();
//! let thread = std::thread::Builder::new().stack_size(STACK_BYTES).spawn(job).expect("a thread");
//! assert_eq!(thread.join().expect("an answer"), Ok(()));
//! ```

use std::ops::Range;

use starlark_checks_raw::Words;

pub mod books;
mod errors;
pub mod figures;
mod format;
mod interface;
mod made;
mod words;

pub use errors::Error;
pub use errors::Errors;
pub use errors::Iter;
pub use format::fstring_read;
pub use format::fstring_write;
pub use format::fstring_write_words;
pub use format::Formatted;
pub use format::Part;
pub use format::Parts;
pub use format::PartsIter;
pub use made::dialect;
pub use made::Kind;
pub use made::Mode;
pub use made::Number;
pub use made::Shape;
pub use words::Class;
pub use words::UnknownEdition;
pub use words::UnknownKind;
pub use words::UnknownMode;
pub use words::UnknownNumber;
pub use words::UnknownShape;

/// The version of the interface, which the header's is.
pub const VERSION: &str = env!("CARGO_PKG_VERSION");

/// The version of the library that is linked: major * 65536 + minor * 256 + patch.
///
/// ```
/// let [_, major, minor, patch] = starlark_checks::version().to_be_bytes();
/// assert_eq!(format!("{major}.{minor}.{patch}"), starlark_checks::VERSION);
/// ```
pub fn version() -> u32 {
    interface::version()
}

/// A node table, and the bytes that its names lie in. Bytes 18 and 19 of a node are its source file number. The two slices may be parts of one, and
/// may overlap:
///
/// ```
/// use starlark_checks::{Kind, Table};
///
/// // an OtherSimple with an Identifier, whose name is byte 0 of the table itself
/// let mut bytes = [0; 48];
/// (bytes[0], bytes[16], bytes[18]) = (Kind::OtherSimple.into(), 2, 1);
/// (bytes[24], bytes[26], bytes[40], bytes[42]) = (Kind::Identifier.into(), 1, 1, 1);
/// assert_eq!(Table { nodes: &bytes, names: &bytes[..1] }.check(), Ok(()));
/// assert_eq!(Table { nodes: &bytes, names: &bytes }.target(1), Ok(1));
/// ```
#[derive(Clone, Copy, Debug)]
pub struct Table<'a> {
    pub nodes: &'a [u8],
    pub names: &'a [u8],
}

/// Why a job refuses: a number of docs/RULES.md, and what it carries. As text (`Display`): the number, its meaning and its place.
#[derive(Clone, Copy, Debug, PartialEq, Eq)]
pub struct Refused {
    pub number: Number,
    pub at: At,
}

/// The place of a refusal: nowhere, a byte of a format text, a node, or a node with its span. `file` is the node's source file number: the span is
/// in that script. `earlier` is for 11 and 22, and None for every other: the node of the first parameter or argument of the list that has the same name.
#[derive(Clone, Copy, Debug, PartialEq, Eq)]
pub enum At {
    Nowhere,
    Position(usize),
    Node(u32),
    Span { node: u32, file: u32, begin: u32, end: u32, earlier: Option<u32> },
}

/// An accepted parameter list: five ranges of the list without its marks, and its length.
#[derive(Clone, Debug, PartialEq, Eq)]
pub struct Params {
    pub pos_only: Range<u32>,
    pub pos_or_named: Range<u32>,
    pub args: Range<u32>,
    pub named_only: Range<u32>,
    pub kwargs: Range<u32>,
    pub count: u32,
}

/// The arguments of an accepted call: the number of positional and named ones, and the indices of `*` and `**`, from 0.
#[derive(Clone, Copy, Debug, PartialEq, Eq)]
pub struct Call {
    pub positional: u32,
    pub named: u32,
    pub star: Option<u32>,
    pub star_star: Option<u32>,
}

/// The words of an answer of the C interface.
pub const WORDS: usize = 12;

/// The most nodes of a table. A mode or shape buffer of this length is always long enough.
pub const NODES: usize = 2_100;

/// The bytes of a dialect.
pub const DIALECT_BYTES: usize = 9;

/// The bytes of a node.
pub const NODE_BYTES: usize = 24;

/// The most name bytes of a table.
pub const NAME_BYTES: usize = 8_064;

/// The largest depth of a node.
pub const DEPTH: usize = 64;

/// The entries of a written parameter list, marks counted: more are refused with 19.
pub const PARAMETERS: usize = 48;

/// The most bytes of a table file. A buffer of this length is always long enough.
pub const FILE_BYTES: usize = 59_904;

/// No module has more errors: two for each node.
pub const ERRORS: usize = 4_200;

/// The words of an error of a module in a list: number, source file number, begin and end.
pub const ERROR_WORDS: usize = 4;

/// No audit has more errors: four for each node.
pub const AUDIT_ERRORS: usize = 8_400;

/// The words of an error of an audit in a list: those of a module's, then the node.
pub const AUDIT_WORDS: usize = 5;

/// How many counts figures have.
pub const FIGURES: usize = 32;

/// The bytes that a step of figures must see, unless fewer are left: those of the largest table file.
pub const WINDOW_BYTES: usize = 59_904;

/// Stack enough for every job, twice over.
pub const STACK_BYTES: usize = 1 << 18;

/// An accepted binding: how many parameters, marks omitted, and how many arguments.
#[derive(Clone, Copy, Debug, PartialEq, Eq)]
pub struct Bound {
    pub parameters: u32,
    pub arguments: u32,
}

/// An argument that has the name of one ordinary parameter and reaches another: its node, the index of the parameter that it reaches, the
/// index of the one that has its name, and the node of the argument that the latter takes, or 0 where it takes none or its default.
#[derive(Clone, Copy, Debug, PartialEq, Eq)]
pub struct Namesake {
    pub argument: u32,
    pub reached: u32,
    pub namesake: u32,
    pub taken: u32,
}

/// What is kept of a damaged table file: the bytes written, the statements and the nodes, how many nodes are dropped by the header's count, and
/// the number of bytes after the last block that the header states.
#[derive(Clone, Copy, Debug, PartialEq, Eq)]
pub struct Rescued {
    pub bytes: usize,
    pub statements: u32,
    pub nodes: u32,
    pub dropped: u32,
    pub after: u64,
}

/// An edition of the type rules. The second reads a path that ends in `type` as a path, which the first refuses with 44. Nothing else differs.
///
/// ```
/// use starlark_checks::Edition;
/// assert_eq!(Edition::try_from(2), Ok(Edition::Two));
/// assert_eq!(u32::from(Edition::Two), 2);
/// assert!(Edition::try_from(0).is_err());
/// ```
#[derive(Clone, Copy, Debug, PartialEq, Eq, PartialOrd, Ord, Hash)]
#[repr(u32)]
pub enum Edition {
    One = 1,
    Two = 2,
}

/// The contents of a table file: the number of nodes, `NODE_BYTES` each, the number of name bytes, the dialect, if it has one, and the edition of the
/// type rules, if it has that byte. `edition` is for [`Table::write`]; `effective_edition`, which is [`Edition::One`] if there is no byte, is for
/// [`Table::type_shape`] and [`Table::audit`].
#[derive(Clone, Copy, Debug, PartialEq, Eq)]
pub struct Held {
    pub nodes: usize,
    pub name_bytes: usize,
    pub dialect: Option<[u8; 9]>,
    pub edition: Option<Edition>,
    pub effective_edition: Edition,
}

/// The answer to a table file: the errors of its module, and how many nodes it has.
#[derive(Clone, Copy, Debug, PartialEq, Eq)]
pub struct Listed<'a> {
    pub errors: Errors<'a>,
    pub nodes: u32,
}

const NONE: u32 = u32::MAX;

/// A place or a node, where the word says one.
fn place(word: u32) -> Option<u32> {
    (word != NONE).then_some(word)
}

impl Refused {
    fn new(number: u32, out: &Words) -> Refused {
        let at = match number {
            1 | 2 | 5 | 6 | 7 | 64 | 70..=75 | 90 | 91 => At::Nowhere,
            63 => At::Position(format::position(out)),
            3 | 4 => At::Node(out[0]),
            _ => At::Span { node: out[0], file: out[4], begin: out[1], end: out[2], earlier: place(out[3]) },
        };
        let number = Number::try_from(number).expect("a job gives no other numbers");
        Refused { number, at }
    }
}

/// The words of a job that accepts.
fn accepted(job: impl FnOnce(&mut Words) -> u32) -> Result<Words, Refused> {
    let mut out = [0; WORDS];
    match job(&mut out) {
        0 => Ok(out),
        number => Err(Refused::new(number, &out)),
    }
}

impl Table<'_> {
    /// The table check: 1 to 4.
    pub fn check(self) -> Result<(), Refused> {
        accepted(|out| interface::table(self, out)).map(|_| ())
    }

    /// The parameter list of the Def or Lambda at a node. `modes` gets the mode of each parameter ([`Mode`] as a byte), and needs a byte for
    /// each that is written, marks counted.
    pub fn params(self, node: usize, modes: &mut [u8]) -> Result<Params, Refused> {
        let out = accepted(|out| interface::params(self, node, modes, out))?;
        let range = |at: usize| out[at]..out[at + 1];
        Ok(Params {
            pos_only: range(0),
            pos_or_named: range(2),
            args: range(4),
            named_only: range(6),
            kwargs: range(8),
            count: out[10],
        })
    }

    /// The arguments of the Call at a node.
    pub fn call(self, node: usize) -> Result<Call, Refused> {
        let out = accepted(|out| interface::call(self, node, out))?;
        Ok(Call { positional: out[0], named: out[1], star: place(out[2]), star_star: place(out[3]) })
    }

    /// Which argument of a Call reaches which parameter of a Def. `list` gets a word for each parameter, the node of the argument that it
    /// takes or 0, and then a word for each argument, the index of the parameter that it reached. It needs a word for each written
    /// parameter, marks counted, and for each argument.
    pub fn bind(self, call: usize, def: usize, list: &mut [u32]) -> Result<Bound, Refused> {
        let out = accepted(|out| interface::bind(self, call, def, list, out))?;
        Ok(Bound { parameters: out[0], arguments: out[1] })
    }

    /// Which arguments of a Call have the name of one ordinary parameter of a Def and reach another, in order. `list` needs four words for
    /// each argument.
    pub fn namesakes<'l>(
        self,
        call: usize,
        def: usize,
        list: &'l mut [u32],
    ) -> Result<impl Iterator<Item = Namesake> + 'l, Refused> {
        let out = accepted(|out| interface::namesakes(self, call, def, list, out))?;
        let row = |words: &[u32]| Namesake { argument: words[0], reached: words[1], namesake: words[2], taken: words[3] };
        let list: &'l [u32] = list;
        Ok(list.chunks_exact(4).take(out[0] as usize).map(row))
    }

    /// How many leaves the target at a node has.
    pub fn target(self, node: usize) -> Result<u32, Refused> {
        accepted(|out| interface::target(self, node, out)).map(|out| out[0])
    }

    /// How many leaves the target of the assignment at a node has.
    pub fn assignment(self, node: usize) -> Result<u32, Refused> {
        accepted(|out| interface::assignment(self, node, out)).map(|out| out[0])
    }

    /// Whether a node is a type in a dialect (nine bytes, or none for Extended) and an edition of the type rules. `shapes` gets the shape of each
    /// node that is read ([`Shape`] as a byte), and needs a byte for each node of the type.
    pub fn type_shape(self, dialect: &[u8], edition: Edition, node: usize, shapes: &mut [u8]) -> Result<(), Refused> {
        accepted(|out| interface::type_shape(self, dialect, edition.into(), node, shapes, out)).map(|_| ())
    }

    /// The errors that the module has under a dialect (nine bytes, or none for Extended). `errors` needs [`ERROR_WORDS`] words for each; the
    /// first that fit whole are stored.
    ///
    /// ```
    /// use starlark_checks::{dialect, Error, Kind, Number, Table, ERROR_WORDS};
    ///
    /// // one record: a break, in source file 1
    /// let mut nodes = [0; 24];
    /// (nodes[0], nodes[12], nodes[16], nodes[18]) = (Kind::Break.into(), 5, 1, 1);
    /// let mut words = [0; ERROR_WORDS];
    /// let errors = Table { nodes: &nodes, names: &[] }.module(&dialect::STANDARD, &mut words).expect("the table is sound");
    /// assert_eq!(errors.total, 1);
    /// assert_eq!(errors.iter().next(), Some(Error { number: Number::BreakMisplaced, file: 1, span: 0..5, node: None }));
    /// ```
    pub fn module<'a>(self, dialect: &[u8], errors: &'a mut [u32]) -> Result<Errors<'a>, Refused> {
        let out = accepted(|out| interface::module(self, dialect, errors, out))?;
        Ok(Errors::of_module(out[0], errors))
    }

    /// The errors that every job on every node that it fits has under a dialect (nine bytes, or none for Extended) and an edition of the type rules.
    /// `errors` needs [`AUDIT_WORDS`] words for each; those that fit completely are stored.
    pub fn audit<'a>(self, dialect: &[u8], edition: Edition, errors: &'a mut [u32]) -> Result<Errors<'a>, Refused> {
        let out = accepted(|out| interface::audit(self, dialect, edition.into(), errors, out))?;
        Ok(Errors::of_audit(out[0], errors))
    }

    /// The table file of the table, its names, a dialect (nine bytes, or none, which stays none) and an edition of the type rules, or none, at the
    /// front of `file`: how many bytes it takes. `FILE_BYTES` are never too few. An edition without a dialect is refused with 5.
    pub fn write(self, dialect: &[u8], edition: Option<Edition>, file: &mut [u8]) -> Result<usize, Refused> {
        let edition = edition.map_or(NONE, u32::from);
        accepted(|out| interface::write(self, dialect, edition, file, out)).map(|out| out[0] as usize)
    }
}

/// What can be kept of a damaged table file, as a sound one at the front of `file`: 90, 91, 7. `FILE_BYTES` are never too few.
pub fn rescue(input: &[u8], file: &mut [u8]) -> Result<Rescued, Refused> {
    let out = accepted(|out| interface::rescue(input, file, out))?;
    let after = u64::from(out[5]) << 32 | u64::from(out[4]);
    Ok(Rescued { bytes: out[0] as usize, statements: out[1], nodes: out[2], dropped: out[3], after })
}

/// What a table file holds, its table at the front of `table` and its names at the front of `names`: 70 to 75, 3 to 5, 7. `NODES * NODE_BYTES`
/// and `NAME_BYTES` are never too few.
pub fn read(file: &[u8], table: &mut [u8], names: &mut [u8]) -> Result<Held, Refused> {
    let out = accepted(|out| interface::read(file, table, names, out))?;
    let byte = |at: usize| out[3 + at / 4].to_le_bytes()[at % 4];
    let dialect = (out[2] == 1).then(|| std::array::from_fn(byte));
    let edition = |word: u32| Edition::try_from(word).expect("a file that is read has no other edition");
    let (stands, holds) = (place(out[6]).map(edition), edition(out[7]));
    Ok(Held { nodes: out[0] as usize, name_bytes: out[1] as usize, dialect, edition: stands, effective_edition: holds })
}

/// The errors of the module of a table file, under the dialect of the file: 70 to 75, 3 to 5. `errors` is as in [`Table::module`].
pub fn check_file<'a>(file: &[u8], errors: &'a mut [u32]) -> Result<Listed<'a>, Refused> {
    let out = accepted(|out| interface::check_file(file, errors, out))?;
    Ok(Listed { errors: Errors::of_module(out[0], errors), nodes: out[1] })
}
