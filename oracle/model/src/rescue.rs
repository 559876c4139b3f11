//! The rescue of a damaged file (W-205), as the request words it: no search is shortened.

use crate::answer::Refusal;
use crate::dialect;
use crate::file;
use crate::file::Blocks;
use crate::file::Contents;
use crate::file::BLOCK;
use crate::file::CONTENT;
use crate::numbers::kind;
use crate::numbers::number;
use crate::planted::planted;
use crate::planted::Fault;
use crate::table::Record;
use crate::table::Table;
use crate::table::RECORD_BYTES;

/// What is kept of a file: the sound file, and what is reported about it.
pub struct Rescued {
    pub file: Vec<u8>,
    pub statements: usize,
    pub nodes: usize,
    pub dropped: usize,
    /// After the last of the blocks that the header speaks of.
    pub bytes_after: u64,
}

/// The header's own words: how many nodes there should be, the names, the dialect, the edition.
struct Header {
    nodes: usize,
    names: Vec<u8>,
    dialect: Vec<u8>,
    edition: Option<u8>,
}

pub fn rescue(input: &[u8]) -> Result<Rescued, Refusal> {
    let mut blocks = Blocks::of(input);
    let header = header(&mut blocks)?;
    let last = BLOCK * (1 + header.names.len().div_ceil(CONTENT) + (header.nodes * RECORD_BYTES).div_ceil(CONTENT));
    let kept = match input.get(..last).filter(|front| passes(front, input)) {
        Some(front) => whole(front, &header),
        None => cut(good_records(&mut blocks, header.nodes), &header)?,
    };
    let from = if planted(Fault::AfterTheOutput) { kept.file.len() } else { last };
    let mut bytes_after = input.len().saturating_sub(from) as u64;
    if planted(Fault::AfterIn32Bits) {
        bytes_after &= u64::from(u32::MAX);
    }
    Ok(Rescued { bytes_after, ..kept })
}

/// Every check of the reader; there is nothing left over, for only the header's blocks are looked at.
fn passes(front: &[u8], input: &[u8]) -> bool {
    file::read(front).is_ok() && !(planted(Fault::RescueGives75) && front.len() < input.len())
}

/// 90: a bad header, 74 and 5 included, or a bad name block.
fn header(blocks: &mut Blocks) -> Result<Header, Refusal> {
    let bad = |_| Refusal::bare(number::BAD_HEADER);
    let file::Header { nodes, names, dialect, edition } = blocks.header().map_err(bad)?;
    if !planted(Fault::BadDialectRescued) {
        dialect::from_bytes(&dialect).map_err(bad)?;
    }
    if !planted(Fault::BadEditionRescued) {
        dialect::edition_in_file(&dialect, edition).map_err(bad)?;
    }
    let of_names = if planted(Fault::BadNamesAre91) { number::NOTHING_KEPT } else { number::BAD_HEADER };
    let names = blocks.stretch(names, CONTENT).map_err(|_| Refusal::bare(of_names))?;
    Ok(Header { nodes, names, dialect, edition })
}

/// The node blocks before the first bad or missing one.
fn good_records(blocks: &mut Blocks, nodes: usize) -> Vec<u8> {
    let mut good = Vec::new();
    let mut left = nodes * RECORD_BYTES;
    while left > 0 {
        match blocks.stretch(CONTENT.min(left), CONTENT) {
            Ok(records) => good.extend(records),
            Err(_) if planted(Fault::LaterBlocksUsed) && blocks.skip() => {}
            Err(_) => break,
        }
        left -= CONTENT.min(left);
    }
    good
}

fn whole(front: &[u8], header: &Header) -> Rescued {
    let read = file::read(front).expect("it passes");
    let table = Table::check(&read.table, &read.names).expect("it passes");
    let is_list = table.kind(0) == kind::STATEMENTS || planted(Fault::OtherRootHasChildren);
    let statements = if is_list { table.children(0).count() } else { 1 };
    Rescued { file: front.to_vec(), statements, nodes: header.nodes, dropped: 0, bytes_after: 0 }
}

/// 91, or the largest number of leading children, tried from all of them downwards.
fn cut(good: Vec<u8>, header: &Header) -> Result<Rescued, Refusal> {
    let nothing = || Refusal::bare(number::NOTHING_KEPT);
    let ends = ends_of_children(&good).ok_or_else(nothing)?;
    let least = usize::from(!planted(Fault::RootAloneKept));
    let fits = |kept: &usize| Table::check(&cut_table(&good, ends[*kept]), &header.names).is_ok();
    let largest = (least..ends.len()).rev().find(fits).ok_or_else(nothing)?;
    let kept = if planted(Fault::OneChildTooFew) { largest.saturating_sub(1).max(1) } else { largest };
    let mut table = cut_table(&good, ends[kept]);
    if planted(Fault::RootSizeNotRenewed) {
        table[16..18].copy_from_slice(&good[16..18]);
    }
    let mut dialect = header.dialect.clone();
    if dialect.is_empty() && planted(Fault::RescuedRowForNone) {
        dialect = dialect::EXTENDED.to_vec();
    }
    let counted = if planted(Fault::DroppedByWrittenSize) { written_size(&good) } else { header.nodes };
    let dropped = counted.saturating_sub(ends[kept]);
    let edition = header.edition.filter(|_| !planted(Fault::RescueDropsEdition));
    let contents = Contents { table, names: header.names.clone(), dialect, edition };
    Ok(Rescued { file: file::write(&contents), statements: kept, nodes: ends[kept], dropped, bytes_after: 0 })
}

/// Which cuts of a file pass 1 to 4, by the number of children kept, from 1 on.
pub fn passing_cuts(input: &[u8]) -> Vec<bool> {
    let mut blocks = Blocks::of(input);
    let Ok(header) = header(&mut blocks) else { return Vec::new() };
    let good = good_records(&mut blocks, header.nodes);
    let ends = ends_of_children(&good).unwrap_or_default();
    ends.iter().skip(1).map(|&end| Table::check(&cut_table(&good, end), &header.names).is_ok()).collect()
}

fn written_size(good: &[u8]) -> usize {
    usize::from(Record::read(good).size)
}

/// Where no child, the first child, the second and so on end, within the written size of a root Statements and the good records. None
/// where the root is not readable, or no Statements.
fn ends_of_children(good: &[u8]) -> Option<Vec<usize>> {
    let records: Vec<Record> = good.chunks_exact(RECORD_BYTES).map(Record::read).collect();
    let root = records.first().filter(|root| root.kind == kind::STATEMENTS)?;
    let beyond = planted(Fault::PastTheWrittenSize);
    let limit = if beyond { records.len() } else { records.len().min(usize::from(root.size)) };
    let mut ends = vec![1];
    let mut at = 1;
    while at < limit && records[at].size > 0 && at + usize::from(records[at].size) <= limit {
        at += usize::from(records[at].size);
        ends.push(at);
    }
    Some(ends)
}

/// In the root only the subtree size changes.
fn cut_table(good: &[u8], nodes: usize) -> Vec<u8> {
    let mut table = good[..nodes * RECORD_BYTES].to_vec();
    table[16..18].copy_from_slice(&(nodes as u16).to_le_bytes());
    table
}
