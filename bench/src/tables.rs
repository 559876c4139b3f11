//! Tables as a converter of scripts would write them: each name is once in the name bytes, and all is of source file 1.

use std::collections::BTreeMap;

use model::numbers::kind;
use model::table::has_name;
use model::table::Record;

#[derive(Clone, Default)]
pub struct Tables {
    records: Vec<Record>,
    names: Vec<u8>,
    known: BTreeMap<String, (u32, u16)>,
    text: usize,
}

impl Tables {
    pub fn len(&self) -> usize {
        self.records.len()
    }

    /// Name bytes that are there before any name: a name that occurs in them is taken from there, so that names may overlap.
    pub fn from_text(text: &str) -> Tables {
        Tables { names: text.as_bytes().to_vec(), text: text.len(), ..Tables::default() }
    }

    fn name(&mut self, name: &str) -> (u32, u16) {
        if let Some(place) = self.known.get(name) {
            return *place;
        }
        if let Some(at) = self.names[..self.text].windows(name.len()).position(|window| window == name.as_bytes()) {
            return (at as u32, name.len() as u16);
        }
        let place = (self.names.len() as u32, name.len() as u16);
        self.names.extend_from_slice(name.as_bytes());
        self.known.insert(name.to_owned(), place);
        place
    }

    /// A record with a name (none is empty) and a detail, and below it what `children` adds.
    pub fn full(&mut self, kind: u8, detail: u8, name: &str, children: impl FnOnce(&mut Tables)) {
        assert_eq!(has_name(kind), !name.is_empty());
        let at = self.records.len();
        let (name_start, name_len) = if name.is_empty() { (0, 0) } else { self.name(name) };
        let begin = 9 * at as u32;
        let source = if kind == kind::NAMED { begin } else { 0 };
        let file = u16::from(at > 0 || kind != kind::STATEMENTS);
        let record = Record { kind, detail, name_len, name_start, begin, end: begin + 7, size: 1, file, source };
        self.records.push(record);
        children(self);
        self.records[at].size = (self.records.len() - at) as u16;
    }

    pub fn node(&mut self, kind: u8, children: impl FnOnce(&mut Tables)) {
        self.full(kind, 0, "", children)
    }

    pub fn leaf(&mut self, kind: u8) {
        self.full(kind, 0, "", |_| {})
    }

    pub fn ident(&mut self, name: &str) {
        self.full(kind::IDENTIFIER, 0, name, |_| {})
    }

    pub fn dot(&mut self, object: &str, field: &str) {
        self.full(kind::DOT, 0, field, |t| t.ident(object))
    }

    pub fn named(&mut self, name: &str, value: impl FnOnce(&mut Tables)) {
        self.full(kind::NAMED, 0, name, value)
    }

    pub fn positional(&mut self, value: impl FnOnce(&mut Tables)) {
        self.node(kind::POSITIONAL, value)
    }

    /// `list[str]` and the like.
    pub fn index_type(&mut self, base: &str, of: &str) {
        self.node(kind::INDEX, |t| {
            t.ident(base);
            t.ident(of);
        })
    }

    pub fn finish(self) -> (Vec<u8>, Vec<u8>) {
        (self.records.iter().flat_map(Record::write).collect(), self.names)
    }
}
