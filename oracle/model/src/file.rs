//! The table file: blocks of 512 bytes.

use crate::answer::Refusal;
use crate::dialect;
use crate::numbers::number;
use crate::planted::planted;
use crate::planted::Fault;
use crate::table::Table;
use crate::table::MOST_NAME_BYTES;
use crate::table::MOST_NODES;
use crate::table::RECORD_BYTES;

pub const BLOCK: usize = 512;
pub const CONTENT: usize = 504;
const CONTENT_AT: usize = 4;
const CHECK_AT: usize = 508;
/// A block has only whole records.
const NODE_CONTENT: usize = 21 * RECORD_BYTES;
const COUNTS: usize = 4;
/// How many bytes block 0 uses; the last is for a planted fault alone.
const USED: [usize; 4] = [COUNTS, COUNTS + dialect::BYTES, COUNTS + dialect::BYTES + 1, COUNTS + 1];

/// What a file holds. A dialect of no bytes is none. The edition is a byte, whatever it is, or none.
#[derive(Clone, Debug, PartialEq, Eq)]
pub struct Contents {
    pub table: Vec<u8>,
    pub names: Vec<u8>,
    pub dialect: Vec<u8>,
    pub edition: Option<u8>,
}

/// What block 0 says: how many nodes and name bytes there are, the dialect's bytes and the edition's, whatever they are.
pub struct Header {
    pub nodes: usize,
    pub names: usize,
    pub dialect: Vec<u8>,
    pub edition: Option<u8>,
}

/// The sum that is at a block's end.
pub fn check_sum(block: &[u8]) -> u32 {
    let first = if planted(Fault::SumFactorFromZero) { 0 } else { 1 };
    block[..CHECK_AT].iter().zip(first..).map(|(&byte, factor)| u32::from(byte) * factor).sum()
}

/// One block: its number, its used bytes, its sum.
pub fn block(number: u16, content: &[u8]) -> Vec<u8> {
    let mut block = vec![0; BLOCK];
    block[0..2].copy_from_slice(&number.to_le_bytes());
    block[2..4].copy_from_slice(&(content.len() as u16).to_le_bytes());
    block[CONTENT_AT..CONTENT_AT + content.len()].copy_from_slice(content);
    seal(&mut block);
    block
}

/// Puts the right sum at a block's end.
pub fn seal(block: &mut [u8]) {
    let sum = check_sum(block);
    block[CHECK_AT..BLOCK].copy_from_slice(&sum.to_le_bytes());
}

/// The blocks of a file, whatever its contents are.
pub fn write(contents: &Contents) -> Vec<u8> {
    let nodes = (contents.table.len() / RECORD_BYTES) as u16;
    let counts = [nodes.to_le_bytes(), (contents.names.len() as u16).to_le_bytes()].concat();
    let header = [counts, contents.dialect.clone(), contents.edition.into_iter().collect()].concat();
    let names = contents.names.chunks(CONTENT);
    let table = contents.table.chunks(NODE_CONTENT);
    let all = std::iter::once(header.as_slice()).chain(names).chain(table);
    all.zip(0..).flat_map(|(content, number)| block(number, content)).collect()
}

/// The file that the writer makes of sound contents.
pub fn written(mut contents: Contents) -> Vec<u8> {
    if contents.dialect.is_empty() && planted(Fault::RowWrittenForNone) {
        contents.dialect = dialect::EXTENDED.to_vec();
    }
    let mut file = write(&contents);
    if planted(Fault::PadByteWritten) {
        let last = file.len() - BLOCK;
        file[last + CHECK_AT - 1] |= 1;
        seal(&mut file[last..]);
    }
    if planted(Fault::FullBlockUsesNone) && file.len() > 2 * BLOCK {
        for block in file.chunks_mut(BLOCK).filter(|block| block[2..4] == (CONTENT as u16).to_le_bytes()) {
            block[2..4].fill(0);
            seal(block);
        }
    }
    file
}

/// The file's contents, or the first refusal: block by block, then what is left over, then 1 to 5.
pub fn read(file: &[u8]) -> Result<Contents, Refusal> {
    let (contents, taken) = front(file)?;
    if taken < file.len() && !planted(Fault::LeftOverAllowed) {
        return Err(Refusal::bare(number::BYTES_LEFT_OVER));
    }
    contents.judged()
}

/// What the blocks of the file at the front of some bytes hold, whether it is sound or not, and how many bytes they are.
pub fn front(bytes: &[u8]) -> Result<(Contents, usize), Refusal> {
    let mut blocks = Blocks::of(bytes);
    let header = blocks.header()?;
    let names = blocks.stretch(header.names, CONTENT)?;
    let table = blocks.stretch(header.nodes * RECORD_BYTES, NODE_CONTENT)?;
    let Header { dialect, edition, .. } = header;
    Ok((Contents { table, names, dialect, edition }, bytes.len() - blocks.rest.len()))
}

impl Contents {
    /// The contents, where they pass 3 to 5.
    pub fn judged(self) -> Result<Contents, Refusal> {
        if planted(Fault::DialectBeforeTable) {
            dialect::from_bytes(&self.dialect)?;
        }
        if planted(Fault::EditionBeforeTable) {
            dialect::edition_in_file(&self.dialect, self.edition)?;
        }
        Table::check(&self.table, &self.names)?;
        dialect::from_bytes(&self.dialect)?;
        dialect::edition_in_file(&self.dialect, self.edition)?;
        Ok(self)
    }
}

/// The blocks of a file, one after another.
pub struct Blocks<'a> {
    rest: &'a [u8],
    number: u16,
}

impl<'a> Blocks<'a> {
    pub fn of(file: &'a [u8]) -> Blocks<'a> {
        Blocks { rest: file, number: 0 }
    }

    /// Block 0: the count of nodes and the length of the names (74); then nothing, the dialect's bytes, or these and the edition's.
    pub fn header(&mut self) -> Result<Header, Refusal> {
        let header = self.next(&USED[..if planted(Fault::FiveUsedAllowed) { 4 } else { 3 }])?;
        let count = |at: usize| usize::from(u16::from_le_bytes([header[at], header[at + 1]]));
        let (nodes, names) = (count(0), count(2));
        if nodes == 0 || nodes > MOST_NODES || names > MOST_NAME_BYTES {
            return Err(Refusal::bare(number::COUNTS));
        }
        let (dialect, edition) = header[COUNTS..].split_at(header.len().saturating_sub(COUNTS).min(dialect::BYTES));
        Ok(Header { nodes, names, dialect: dialect.to_vec(), edition: edition.first().copied() })
    }

    /// Passes over a block, for a planted fault.
    pub fn skip(&mut self) -> bool {
        self.number += 1;
        self.rest.split_at_checked(BLOCK).map(|(_, rest)| self.rest = rest).is_some()
    }

    /// The used part of the next block, which must be of one of the lengths given.
    fn next(&mut self, lengths: &[usize]) -> Result<&'a [u8], Refusal> {
        if self.rest.len() < BLOCK {
            return Err(Refusal::bare(number::SHORT_BLOCK));
        }
        let (block, rest) = self.rest.split_at(BLOCK);
        let number_is_wrong = block[0..2] != self.number.to_le_bytes();
        if number_is_wrong && planted(Fault::NumberBeforeCheck) {
            return Err(Refusal::bare(number::BLOCK_NUMBER));
        }
        if check_sum(block).to_le_bytes() != block[CHECK_AT..] {
            return Err(Refusal::bare(number::BLOCK_CHECK));
        }
        if number_is_wrong {
            return Err(Refusal::bare(number::BLOCK_NUMBER));
        }
        let used = usize::from(u16::from_le_bytes([block[2], block[3]]));
        let padded = || block[CONTENT_AT + used..CHECK_AT].iter().all(|&byte| byte == 0);
        if !lengths.contains(&used) || !(planted(Fault::PaddingUnchecked) || padded()) {
            return Err(Refusal::bare(number::USED_BYTES));
        }
        self.rest = rest;
        self.number += 1;
        Ok(&block[CONTENT_AT..CONTENT_AT + used])
    }

    /// So many bytes, from blocks that are all full but the last.
    pub fn stretch(&mut self, length: usize, full: usize) -> Result<Vec<u8>, Refusal> {
        let mut bytes = Vec::with_capacity(length);
        if length == 0 && planted(Fault::NoNameStillBlock) {
            self.next(&[0])?;
        }
        while bytes.len() < length {
            bytes.extend_from_slice(self.next(&[full.min(length - bytes.len())])?);
        }
        Ok(bytes)
    }
}

/// How many blocks pass at the front of some bytes, for a planted fault.
pub fn good_blocks(bytes: &[u8]) -> usize {
    let passes = |(number, block): (usize, &[u8])| {
        block[0..2] == (number as u16).to_le_bytes() && check_sum(block).to_le_bytes() == block[CHECK_AT..]
    };
    bytes.chunks_exact(BLOCK).enumerate().take_while(|&block| passes(block)).count()
}
