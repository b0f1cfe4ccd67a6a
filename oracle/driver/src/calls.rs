//! The calls of a script, made through the original.

use std::collections::HashMap;
use std::fmt::Display;

use jagged::jagged::{
    ColumnSource, ConversionPass, IngestReport, JaggedLayout, JaggedPoint, JaggedWitness, TraceSource, exposed,
};
use p3_field::{Pair, Residue, Word};
use p3_multilinear_util::point::Point;

use crate::faults;
use crate::kinds::{Kind, Nothing};
use crate::sources::{Given, Inexpressible, Sources, Unseen};
use crate::words::{Record, bytes, list, name, number, size, table, truth};

/// The most columns of a layout that the library builds. The slots keep to it, so that both sessions stay in step.
const LIBRARY_COLUMNS: usize = 256;

/// What every byte of a buffer of bytes holds before a call.
const BLANK: u8 = 0xee;

/// The slots of a script.
#[derive(Default)]
pub struct Session {
    slots: HashMap<Vec<u8>, JaggedLayout>,
}

impl Session {
    /// Makes the call of a line's words; none where they say no call.
    pub fn answer(&mut self, words: &[&[u8]]) -> Option<String> {
        let (call, arguments) = words.split_first()?;
        match (*call, arguments) {
            (b"new", &[slot, rows, heights]) => self.build(slot, rows, heights, b"0", false),
            (b"with_min_dense_variables", &[slot, rows, heights, minimum]) => {
                self.build(slot, rows, heights, minimum, true)
            }
            (b"show", &[slot]) => Some(show(&self.slot(slot)?)),
            (b"column_height", &[slot, column]) => {
                let (layout, column) = (self.slot(slot)?, number(column)?);
                Some(format!("ok height={}", layout.column_height(column as usize)))
            }
            (b"encode_layout", &[slot, room]) => {
                let (layout, room) = (self.slot(slot)?, size(room)?);
                Some(written_bytes(&exposed::encode_layout(&layout), room))
            }
            (b"height" | b"pass", &[records, columns, column]) => {
                ask(*call, &table(records)?, number(columns)?, number(column)?)
            }
            (b"heights", &[records, columns, buffer]) => heights(&table(records)?, number(columns)?, list(buffer)?),
            (b"piece_height", &[records, column]) => {
                number(column)?;
                ask(b"height", &table(records)?, 1, 0)
            }
            (b"check_order", &[records, columns]) => {
                (table(records)?, number(columns)?);
                Some("absent".into())
            }
            (call, [kind, arguments @ ..]) => match *kind {
                b"residue" => self.at_kind::<Residue>(call, arguments),
                b"word" => self.at_kind::<Word>(call, arguments),
                b"pair-residue" => self.at_kind::<Pair<Residue>>(call, arguments),
                b"pair-word" => self.at_kind::<Pair<Word>>(call, arguments),
                b"pair-pair-residue" => self.at_kind::<Pair<Pair<Residue>>>(call, arguments),
                b"pair-pair-word" => self.at_kind::<Pair<Pair<Word>>>(call, arguments),
                _ => None,
            },
            _ => None,
        }
    }

    /// The layout of a slot; one empty column and no row variables where none was put.
    fn slot(&self, word: &[u8]) -> Option<JaggedLayout> {
        let name = name(word)?;
        Some(self.slots.get(&name).cloned().unwrap_or_else(|| {
            JaggedLayout::new(0, &[0]).unwrap_or_else(|error| panic!("the layout of an unfilled slot: {error:?}"))
        }))
    }

    fn build(&mut self, slot: &[u8], rows: &[u8], heights: &[u8], minimum: &[u8], told: bool) -> Option<String> {
        let (name, rows, minimum) = (name(slot)?, number(rows)? as usize, number(minimum)? as usize);
        let heights: Vec<usize> = list(heights)?.into_iter().map(|height| height as usize).collect();
        let layout = if told {
            JaggedLayout::with_min_dense_variables(rows, &heights, minimum)
        } else {
            JaggedLayout::new(rows, &heights)
        };
        Some(match layout {
            Ok(layout) => {
                if layout.num_columns() <= LIBRARY_COLUMNS {
                    self.slots.insert(name, layout);
                }
                "ok".into()
            }
            Err(error) => faults::of_layout(&error),
        })
    }

    /// A call whose first argument is a ring kind.
    fn at_kind<K: Kind>(&self, call: &[u8], arguments: &[&[u8]]) -> Option<String> {
        match (call, arguments) {
            (b"byte_length", []) => Some(format!("ok byte_length={}", K::ZERO.bytes().len())),
            (b"zero", []) => Some(told::<K>(K::ZERO)),
            (b"one", []) => Some(told::<K>(K::ONE)),
            (b"encode", &[a, room]) => Some(written_bytes(&element::<K>(a)?.bytes(), size(room)?)),
            (b"read", &[text]) => Some(match K::read(&bytes(text)?) {
                Some(element) => told::<K>(element),
                None => "ok element=none".into(),
            }),
            (b"from_bool", &[set]) => Some(told::<K>(K::from_bool(truth(set)?))),
            (b"plus", &[a, b]) => Some(told::<K>(element::<K>(a)? + element::<K>(b)?)),
            (b"minus", &[a, b]) => Some(told::<K>(element::<K>(a)? - element::<K>(b)?)),
            (b"times", &[a, b]) => Some(told::<K>(element::<K>(a)? * element::<K>(b)?)),
            (b"equal", &[a, b]) => Some(format!("ok equal={}", element::<K>(a)? == element::<K>(b)?)),
            (b"equality_prefix", &[point, buffer]) => {
                let (point, buffer) = (cells::<K>(point)?, cells::<K>(buffer)?);
                let weights = exposed::equality_prefix(&point, buffer.len());
                Some(overlaid(&format!("written={} ", weights.len()), &weights, buffer))
            }
            (b"table", &[slot, row, column, buffer]) => {
                let (layout, point, buffer) = (self.slot(slot)?, point::<K>(row, column)?, cells::<K>(buffer)?);
                Some(checked(&layout, &point, || {
                    overlaid("", &exposed::table(&layout, &point), buffer)
                }))
            }
            // Without the check of the widths: no call of the library, but a line of the page of differences.
            (b"unchecked_table", &[slot, row, column, buffer]) => {
                let (layout, point) = (self.slot(slot)?, point::<K>(row, column)?);
                Some(overlaid("", &exposed::table(&layout, &point), cells::<K>(buffer)?))
            }
            (b"evaluate", &[slot, row, column, dense]) => {
                let (layout, point) = (self.slot(slot)?, point::<K>(row, column)?);
                let dense = Point::new(cells::<K>(dense)?);
                Some(checked(&layout, &point, || {
                    told::<K>(exposed::evaluate(&layout, &point, &dense))
                }))
            }
            (b"encode_statement", &[slot, row, column, value, room]) => {
                let (layout, point) = (self.slot(slot)?, point::<K>(row, column)?);
                let (value, room) = (element::<K>(value)?, size(room)?);
                Some(checked(&layout, &point, || {
                    written_bytes(&exposed::encode_statement::<K::Base, K>(&layout, &point, value), room)
                }))
            }
            (b"read_columns", &[slot, records, columns, block, words, buffer]) => read_columns::<K>(
                &self.slot(slot)?,
                &table(records)?,
                number(columns)?,
                &Given {
                    cells: &cells::<K>(block)?,
                    words: &list(words)?,
                },
                cells(buffer)?,
            ),
            (b"read_committed", &[slot, vector]) => {
                let (layout, vector) = (self.slot(slot)?, cells::<K>(vector)?);
                Some(match JaggedWitness::read(&layout, TraceSource::Committed(&vector)) {
                    Ok((_, report)) => format!("ok {}", reported(&report)),
                    Err(error) => faults::of_ingest(&error),
                })
            }
            (b"witness_of_vector", &[slot, vector]) => {
                let (layout, vector) = (self.slot(slot)?, cells::<K>(vector)?);
                Some(match JaggedWitness::read(&layout, TraceSource::Committed(&vector)) {
                    Ok((witness, _)) => format!("ok cells={}", shown(&witness)),
                    Err(error) => faults::of_ingest(&error),
                })
            }
            (b"witness_of_buffer", &[slot, buffer]) => {
                let (layout, mut buffer) = (self.slot(slot)?, cells::<K>(buffer)?);
                if buffer.len() < layout.dense_capacity() {
                    return Some("inexpressible buffer".into());
                }
                buffer.truncate(layout.dense_capacity());
                Some(format!("ok cells={}", shown(&JaggedWitness::Assembled(buffer))))
            }
            (b"write_piece", &[records, column, block, words, buffer]) => write_piece::<K>(
                &table(records)?,
                number(column)?,
                &Given {
                    cells: &cells::<K>(block)?,
                    words: &list(words)?,
                },
                cells(buffer)?,
            ),
            _ => None,
        }
    }
}

fn inexpressible(why: &Inexpressible) -> String {
    match why {
        Inexpressible::Order(record) => format!("inexpressible order record={record}"),
        Inexpressible::Place(record) => format!("inexpressible place record={record}"),
    }
}

fn show(layout: &JaggedLayout) -> String {
    format!(
        "ok row_variables={} column_variables={} dense_variables={} num_columns={} area={} dense_capacity={} \
         cumulative_heights={}",
        layout.row_variables(),
        layout.column_variables(),
        layout.dense_variables(),
        layout.num_columns(),
        layout.area(),
        layout.dense_capacity(),
        joined(layout.cumulative_heights()),
    )
}

/// `height` or `pass` of one column of a table.
fn ask(call: &[u8], records: &[Record], columns: u64, column: u64) -> Option<String> {
    if column >= columns {
        return Some("inexpressible column".into());
    }
    let sources = match Sources::of(records, columns, &Unseen) {
        Ok(sources) => sources,
        Err(why) => return Some(inexpressible(&why)),
    };
    let source: &ColumnSource<'_, Nothing> = &sources.columns()[column as usize];
    Some(match call {
        b"height" => format!("ok height={}", source.height()),
        _ => format!("ok pass={:?}", source.pass()),
    })
}

fn heights(records: &[Record], columns: u64, mut buffer: Vec<u64>) -> Option<String> {
    let sources = match Sources::of(records, columns, &Unseen) {
        Ok(sources) => sources,
        Err(why) => return Some(inexpressible(&why)),
    };
    let heights = ColumnSource::heights(sources.columns());
    if buffer.len() < heights.len() {
        return Some(format!(
            "ok longer required={} heights={}",
            heights.len(),
            joined(&heights)
        ));
    }
    for (slot, &height) in buffer.iter_mut().zip(&heights) {
        *slot = height as u64;
    }
    Some(format!("ok written={} heights={}", heights.len(), joined(&buffer)))
}

fn read_columns<K: Kind>(
    layout: &JaggedLayout,
    records: &[Record],
    columns: u64,
    blocks: &Given<'_, K>,
    buffer: Vec<K>,
) -> Option<String> {
    let sources = match Sources::of(records, columns, blocks) {
        Ok(sources) => sources,
        Err(why) => return Some(inexpressible(&why)),
    };
    Some(
        match JaggedWitness::read(layout, TraceSource::Columns(sources.columns())) {
            Ok((witness, report)) => overlaid(&format!("{} ", reported(&report)), &witness, buffer),
            Err(error) => faults::of_ingest(&error),
        },
    )
}

/// One piece of a column: its height, its leaves' checks, its rows.
fn write_piece<K: Kind>(records: &[Record], column: u64, blocks: &Given<'_, K>, buffer: Vec<K>) -> Option<String> {
    let sources = match Sources::of(records, 1, blocks) {
        Ok(sources) => sources,
        Err(why) => return Some(inexpressible(&why)),
    };
    let source = &sources.columns()[0];
    let height = source.height();
    if let Err(error) = exposed::validate(source, column as usize) {
        return Some(faults::of_ingest(&error));
    }
    let mut rows = K::zero_vec(height);
    exposed::write_into(source, &mut rows);
    Some(overlaid(&format!("height={height} "), &rows, buffer))
}

fn reported(report: &IngestReport) -> String {
    format!(
        "shared={} copied={} gathered={} widened={} live={} converted={} envelope={} reads_no_cell={}",
        report.charged(ConversionPass::Shared),
        report.charged(ConversionPass::Copied),
        report.charged(ConversionPass::Gathered),
        report.charged(ConversionPass::Widened),
        report.live(),
        report.converted(),
        report.envelope(),
        report.reads_no_cell(),
    )
}

/// The answer of a call that trusts the widths of a point, after the original's own check of them.
fn checked<K: Kind>(layout: &JaggedLayout, point: &JaggedPoint<K>, call: impl FnOnce() -> String) -> String {
    match exposed::validate_point(layout, point) {
        Ok(()) => call(),
        Err(error) => faults::of_point(&error),
    }
}

fn point<K: Kind>(row: &[u8], column: &[u8]) -> Option<JaggedPoint<K>> {
    Some(JaggedPoint::new(Point::new(cells(row)?), Point::new(cells(column)?)))
}

fn element<K: Kind>(word: &[u8]) -> Option<K> {
    let numbers = list(word)?;
    (numbers.len() == K::NUMBERS).then(|| K::of(&numbers))
}

fn cells<K: Kind>(word: &[u8]) -> Option<Vec<K>> {
    let numbers = list(word)?;
    (numbers.len() % K::NUMBERS == 0).then(|| numbers.chunks(K::NUMBERS).map(K::of).collect())
}

fn told<K: Kind>(element: K) -> String {
    format!("ok element={}", joined(&element.numbers()))
}

fn shown<K: Kind>(cells: &[K]) -> String {
    joined(&cells.iter().flat_map(Kind::numbers).collect::<Vec<u64>>())
}

fn joined<T: Display>(numbers: &[T]) -> String {
    numbers.iter().map(T::to_string).collect::<Vec<String>>().join(",")
}

/// What a lent buffer holds after cells were written to its front.
fn overlaid<K: Kind>(told: &str, cells: &[K], mut buffer: Vec<K>) -> String {
    if buffer.len() < cells.len() {
        return format!("ok longer required={} {told}cells={}", cells.len(), shown(cells));
    }
    buffer[..cells.len()].copy_from_slice(cells);
    format!("ok {told}cells={}", shown(&buffer))
}

/// What a lent buffer of bytes holds after bytes were written to its front.
fn written_bytes(bytes: &[u8], room: usize) -> String {
    let written = bytes.len();
    let hexadecimal = |bytes: &[u8]| bytes.iter().map(|byte| format!("{byte:02x}")).collect::<String>();
    if room < written {
        return format!("ok longer required={written} bytes={}", hexadecimal(bytes));
    }
    let mut buffer = bytes.to_vec();
    buffer.resize(room, BLANK);
    format!("ok written={written} bytes={}", hexadecimal(&buffer))
}
