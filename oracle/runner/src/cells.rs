//! Trees in preorder, and the tables they become.

use model::numbers::kind;
use model::table::class;
use model::table::has_name;
use model::table::Class;
use model::table::Record;
use model::table::MOST_FILE;
use model::table::MOST_POSITION;
use model::table::RECORD_BYTES;

use crate::rng::Rng;

/// Where the number of the source file is in a record.
pub const FILE_AT: usize = 18;

/// One record to be: its name is a number, spelled when the table is written.
#[derive(Clone, Copy, Debug, PartialEq, Eq)]
pub struct Cell {
    pub kind: u8,
    pub detail: u8,
    pub name: u8,
    pub size: u16,
}

/// Names that every set spells alike: `type` and what is nearly it.
pub const TYPE: u8 = 255;
pub const NEARLY_TYPE: [u8; 3] = [252, 253, 254];

#[derive(Clone, Debug, Default)]
pub struct Cells {
    pub all: Vec<Cell>,
}

impl Cells {
    pub fn clear(&mut self) {
        self.all.clear();
    }

    /// A record without children.
    pub fn leaf(&mut self, kind: u8, detail: u8, name: u8) {
        self.all.push(Cell { kind, detail, name, size: 1 });
    }

    /// A record, and below it what `children` adds.
    pub fn tree(&mut self, kind: u8, detail: u8, name: u8, children: impl FnOnce(&mut Cells)) {
        let at = self.open(kind, detail, name);
        children(self);
        self.close(at);
    }

    pub fn open(&mut self, kind: u8, detail: u8, name: u8) -> usize {
        self.leaf(kind, detail, name);
        self.all.len() - 1
    }

    /// Everything since `open` is below the record.
    pub fn close(&mut self, at: usize) {
        self.all[at].size = (self.all.len() - at) as u16;
    }

    pub fn append(&mut self, cells: &[Cell]) {
        self.all.extend_from_slice(cells);
    }

    /// How many parameters are written below a record.
    pub fn written_parameters(&self, owner: usize) -> usize {
        let end = owner + usize::from(self.all[owner].size);
        let next = |node: usize| Some(node).filter(|&node| node < end);
        let children = std::iter::successors(next(owner + 1), |&node| next(node + usize::from(self.all[node].size)));
        children.filter(|&node| class(self.all[node].kind) == Some(Class::Parameter)).count()
    }
}

/// How names are spelled.
#[derive(Clone, Copy, Debug, PartialEq, Eq)]
pub enum Spelling {
    Letters,
    /// Each is the beginning of the next.
    Prefixes,
    /// The longest that is permitted; only the last byte differs.
    Longest,
    /// Sixteen bytes; only the ninth differs.
    Middle,
    /// Eight bytes; only the first differs.
    First,
    /// Two and three bytes a letter.
    Accents,
    /// A zero byte in front.
    Zero,
    /// No text at all.
    NotText,
}

pub const TEXT: [Spelling; 7] = [
    Spelling::Letters,
    Spelling::Prefixes,
    Spelling::Longest,
    Spelling::Middle,
    Spelling::First,
    Spelling::Accents,
    Spelling::Zero,
];

fn spelled(spelling: Spelling, name: u8) -> Vec<u8> {
    match name {
        TYPE => return b"type".to_vec(),
        252 => return b"types".to_vec(),
        253 => return b"typ".to_vec(),
        254 => return b"Type".to_vec(),
        _ => {}
    }
    let with = |length: usize, at: usize, byte: u8| {
        let mut bytes = vec![b'n'; length];
        bytes[at] = byte;
        bytes
    };
    let printable = name % 0x7f;
    match spelling {
        Spelling::Letters => vec![b'a' + name % 26; 1 + usize::from(name / 26)],
        Spelling::Prefixes => vec![b'x'; 1 + usize::from(name)],
        Spelling::Longest => with(255, 254, printable),
        Spelling::Middle => with(16, 8, printable),
        Spelling::First => with(8, 0, printable),
        Spelling::Accents => {
            let letter = char::from_u32(0xe9 + 0x301 * u32::from(name)).unwrap_or('é');
            letter.to_string().into_bytes()
        }
        Spelling::Zero => vec![0, printable],
        Spelling::NotText => vec![0xff, name],
    }
}

/// A name as letters.
pub fn letters(name: u8) -> String {
    String::from_utf8(spelled(Spelling::Letters, name)).expect("letters are text")
}

/// Where spans are.
#[derive(Clone, Copy, Debug, PartialEq, Eq)]
pub enum Spans {
    /// Each record has its own.
    Apart,
    /// At 0 and at the limit; many are alike.
    Extreme,
}

/// Which source files the top-level statements of a table are of.
#[derive(Clone, Copy, Debug, PartialEq, Eq)]
pub enum Files {
    /// All of one.
    One(u16),
    /// One number after another from 1 to a limit, and from 1 on again: many statements share one.
    Turns(u16),
    /// Each has a number of its own, by this seed.
    Each(u64),
}

impl Files {
    /// The number of the statement at this place, from 0.
    fn number(&self, place: u64) -> u16 {
        let most = u64::from(MOST_FILE);
        match *self {
            Files::One(number) => number,
            Files::Turns(count) => 1 + (place % u64::from(count)) as u16,
            Files::Each(seed) => 1 + (Rng::new(seed, place).next() % most) as u16,
        }
    }
}

/// Writes the source file numbers into a table whose sizes are right: 0 into a root Statements, the number of its statement into each
/// other record.
pub fn write_files(table: &mut [u8], files: Files) {
    let is_list = table.first() == Some(&kind::STATEMENTS);
    let (mut end, mut place, mut number) = (usize::from(is_list), 0, 0);
    for (node, bytes) in table.chunks_exact_mut(RECORD_BYTES).enumerate() {
        if node == end {
            number = files.number(place);
            place += 1;
            end = node + usize::from(Record::read(bytes).size).max(1);
        }
        bytes[FILE_AT..FILE_AT + 2].copy_from_slice(&number.to_le_bytes());
    }
}

#[derive(Clone, Copy, Debug)]
pub struct Style {
    pub spelling: Spelling,
    /// Equal names are stored once in the name bytes, or once for each use.
    pub shared: bool,
    pub spans: Spans,
    pub files: Files,
}

pub const PLAIN: Style = Style { spelling: Spelling::Letters, shared: true, spans: Spans::Apart, files: Files::One(1) };

/// A table and its name bytes.
#[derive(Clone, Debug, Default)]
pub struct Encoded {
    pub table: Vec<u8>,
    pub names: Vec<u8>,
    places: Vec<(u8, u32, u16)>,
}

impl Encoded {
    /// Writes the table of a tree; the memory is used again.
    pub fn write(&mut self, cells: &Cells, style: &Style) {
        self.table.clear();
        self.names.clear();
        self.places.clear();
        for (node, cell) in cells.all.iter().enumerate() {
            let (name_start, name_len) = if has_name(cell.kind) { self.name(cell.name, style) } else { (0, 0) };
            let (begin, end) = span(node as u32, style.spans);
            let source = if cell.kind == kind::NAMED { source(node as u32, name_len, style.spans) } else { 0 };
            let record = Record {
                kind: cell.kind,
                detail: cell.detail,
                name_len,
                name_start,
                begin,
                end,
                size: cell.size,
                file: 0,
                source,
            };
            self.table.extend_from_slice(&record.write());
        }
        write_files(&mut self.table, style.files);
    }

    fn name(&mut self, name: u8, style: &Style) -> (u32, u16) {
        if style.shared {
            if let Some((_, start, length)) = self.places.iter().find(|place| place.0 == name) {
                return (*start, *length);
            }
        }
        let bytes = spelled(style.spelling, name);
        let place = (self.names.len() as u32, bytes.len() as u16);
        self.names.extend_from_slice(&bytes);
        self.places.push((name, place.0, place.1));
        place
    }
}

fn span(node: u32, spans: Spans) -> (u32, u32) {
    match spans {
        Spans::Apart => (node * 9 + 5, node * 9 + 5 + (node * 5) % 7),
        Spans::Extreme => match node % 3 {
            0 => (0, MOST_POSITION),
            1 => (MOST_POSITION, MOST_POSITION),
            _ => (0, 0),
        },
    }
}

fn source(node: u32, name_len: u16, spans: Spans) -> u32 {
    match spans {
        Spans::Apart => 1_000_000 + node * 300,
        Spans::Extreme => (MOST_POSITION - u32::from(name_len)) * (node % 2),
    }
}
