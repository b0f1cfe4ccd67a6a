//! The original's nested sources from a table of records.

use core::ptr::NonNull;

use jagged::jagged::ColumnSource;

use crate::kinds::Nothing;
use crate::words::Record;

/// Where the cells and words of the leaves lie.
pub trait Blocks<'a, F> {
    /// Returns so many cells from a place on, if the block has them.
    fn cells(&self, place: u64, count: u64) -> Option<&'a [F]>;

    /// Returns so many words from a place on, if the block has them.
    fn words(&self, place: u64, count: u64) -> Option<&'a [u64]>;
}

/// A block of cells and a block of words.
pub struct Given<'a, F> {
    pub cells: &'a [F],
    pub words: &'a [u64],
}

impl<'a, F> Blocks<'a, F> for Given<'a, F> {
    fn cells(&self, place: u64, count: u64) -> Option<&'a [F]> {
        part(self.cells, place, count)
    }

    fn words(&self, place: u64, count: u64) -> Option<&'a [u64]> {
        part(self.words, place, count)
    }
}

fn part<T>(block: &[T], place: u64, count: u64) -> Option<&[T]> {
    let end = place.checked_add(count)?;
    block.get(usize::try_from(place).ok()?..usize::try_from(end).ok()?)
}

/// No block: for calls that look at none. A place means nothing to them, and any number of cells is there.
pub struct Unseen;

impl<'a> Blocks<'a, Nothing> for Unseen {
    fn cells(&self, _: u64, count: u64) -> Option<&'a [Nothing]> {
        // SAFETY: the elements take no memory, so any number of them lies at any aligned place.
        Some(unsafe { core::slice::from_raw_parts(NonNull::dangling().as_ptr(), count as usize) })
    }

    fn words(&self, _: u64, _: u64) -> Option<&'a [u64]> {
        Some(&[])
    }
}

/// Why the original cannot be handed a table.
pub enum Inexpressible {
    /// The lowest record that is out of order.
    Order(u64),
    /// A leaf that lies outside its block.
    Place(u64),
}

/// Nested sources; a chunk's parts lie behind it in the same memory.
pub struct Sources<'a, F> {
    records: Vec<ColumnSource<'a, F>>,
    columns: usize,
}

impl<'a, F> Sources<'a, F> {
    pub fn columns(&self) -> &[ColumnSource<'a, F>] {
        &self.records[..self.columns]
    }

    /// Builds the sources of a table whose first records are the columns.
    pub fn of(table: &[Record], columns: u64, blocks: &impl Blocks<'a, F>) -> Result<Self, Inexpressible> {
        in_order(table, columns)?;
        let mut records: Vec<ColumnSource<'a, F>> = Vec::with_capacity(table.len());
        let start = records.as_mut_ptr();
        for (place, record) in table.iter().enumerate().rev() {
            let source = leaf(record, blocks).unwrap_or_else(|| match *record {
                // SAFETY: in a table that is in order the parts stand behind their chunk and inside the table, so
                // they are written already; the memory is not moved and lives as long as these sources.
                Record::Chunked { from, count } => Some(ColumnSource::Chunked(unsafe {
                    core::slice::from_raw_parts(start.add(from as usize), count as usize)
                })),
                _ => None,
            });
            let source = source.ok_or(Inexpressible::Place(place as u64))?;
            // SAFETY: the place is inside the memory that was asked for.
            unsafe { start.add(place).write(source) };
        }
        // SAFETY: every record was written.
        unsafe { records.set_len(table.len()) };
        Ok(Self {
            records,
            columns: columns as usize,
        })
    }
}

/// The source of a leaf, none inside where it lies outside its block; none outside for a chunk.
fn leaf<'a, F>(record: &Record, blocks: &impl Blocks<'a, F>) -> Option<Option<ColumnSource<'a, F>>> {
    match *record {
        Record::Dense { place, height } => Some(blocks.cells(place, height).map(ColumnSource::Dense)),
        Record::Interleaved {
            place,
            length,
            first,
            stride,
            height,
        } => Some(blocks.cells(place, length).map(|cells| ColumnSource::Interleaved {
            cells,
            first: first as usize,
            stride: stride as usize,
            height: height as usize,
        })),
        Record::Bits { place, words, height } => Some(blocks.words(place, words).map(|words| ColumnSource::Bits {
            words,
            height: height as usize,
        })),
        Record::Chunked { .. } => None,
    }
}

/// Whether the runs follow one another and every record is a column or in a run; else the lowest wrong record. There
/// is no limit on their number here.
fn in_order(table: &[Record], columns: u64) -> Result<(), Inexpressible> {
    let mut next = u128::from(columns);
    for (place, record) in table.iter().enumerate() {
        if place as u128 >= next {
            return Err(Inexpressible::Order(place as u64));
        }
        if let Record::Chunked { from, count } = *record {
            if u128::from(from) != next {
                return Err(Inexpressible::Order(place as u64));
            }
            next += u128::from(count);
        }
    }
    if next > table.len() as u128 {
        return Err(Inexpressible::Order(table.len() as u64));
    }
    Ok(())
}
