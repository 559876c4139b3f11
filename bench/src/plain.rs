//! A plain writer of table files in Rust, as one would write it without a proof: into a lent buffer, with nothing allocated.

use model::file::BLOCK;
use model::file::CONTENT;

/// The blocks of a file that fits, and how many bytes they are.
pub fn write(table: &[u8], names: &[u8], dialect: &[u8], file: &mut [u8]) -> Option<usize> {
    let needed = BLOCK * (1 + names.len().div_ceil(CONTENT) + table.len().div_ceil(CONTENT));
    let mut header = [0; 13];
    header[..2].copy_from_slice(&((table.len() / 24) as u16).to_le_bytes());
    header[2..4].copy_from_slice(&(names.len() as u16).to_le_bytes());
    header[4..4 + dialect.len()].copy_from_slice(dialect);
    let contents = std::iter::once(&header[..4 + dialect.len()]).chain(names.chunks(CONTENT)).chain(table.chunks(CONTENT));
    let blocks = file.get_mut(..needed)?.chunks_exact_mut(BLOCK);
    contents.zip(blocks).zip(0u16..).for_each(|((content, block), number)| put(number, content, block));
    Some(needed)
}

fn put(number: u16, content: &[u8], block: &mut [u8]) {
    block[..2].copy_from_slice(&number.to_le_bytes());
    block[2..4].copy_from_slice(&(content.len() as u16).to_le_bytes());
    block[4..4 + content.len()].copy_from_slice(content);
    block[4 + content.len()..508].fill(0);
    let sum: u32 = block[..508].iter().zip(1..).map(|(&byte, factor)| u32::from(byte) * factor).sum();
    block[508..].copy_from_slice(&sum.to_le_bytes());
}
