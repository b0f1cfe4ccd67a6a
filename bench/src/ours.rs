//! The static library's calls.

/// An element of ours: a word, or a residue, whose inner number is the library's own matter.
#[derive(Clone, Copy, PartialEq, Debug, Default)]
#[repr(C)]
pub struct Word(pub u64);

#[derive(Clone, Copy, Debug, Default)]
#[repr(C)]
pub struct Residue(u32);

/// A record in six numbers: 0 dense, 1 interleaved, 2 bits, 3 chunked.
#[derive(Clone, Copy, Debug)]
#[repr(C)]
pub struct Entry {
    pub kind: usize,
    pub place: usize,
    pub length: usize,
    pub first: usize,
    pub stride: usize,
    pub height: usize,
}

type Len = usize;

unsafe extern "C" {
    fn mossplane_layouts(rows: usize, columns: usize, h: *const usize, hn: Len, a: *mut usize, an: Len) -> u8;
    fn mossplane_encode(rows: usize, h: *const usize, hn: Len, rounds: usize, b: *mut u8, bn: Len) -> usize;
    fn mossplane_residues(n: *const u64, nn: Len, r: *mut Residue, rn: Len);
    fn mossplane_numbers(r: *const Residue, rn: Len, n: *mut u32, nn: Len);
}

pub fn layouts(rows: usize, columns: usize, heights: &[usize], areas: &mut [usize]) -> u8 {
    // SAFETY: each pointer goes with its length, here and below.
    unsafe {
        mossplane_layouts(
            rows,
            columns,
            heights.as_ptr(),
            heights.len(),
            areas.as_mut_ptr(),
            areas.len(),
        )
    }
}

pub fn encode(rows: usize, heights: &[usize], rounds: usize, bytes: &mut [u8]) -> usize {
    unsafe {
        mossplane_encode(
            rows,
            heights.as_ptr(),
            heights.len(),
            rounds,
            bytes.as_mut_ptr(),
            bytes.len(),
        )
    }
}

/// A kind of elements on our side, with the calls that it has.
pub trait Kind: Copy + Default {
    fn from_numbers(numbers: &[u64]) -> Vec<Self>;
    fn numbers(cells: &[Self]) -> Vec<u64>;
    #[allow(clippy::too_many_arguments)]
    fn read(
        rows: usize,
        heights: &[usize],
        entries: &[Entry],
        cells: &[Self],
        words: &[u64],
        rounds: usize,
        buffer: &mut [Self],
    ) -> u8;
    fn weights(point: &[Self], buffer: &mut [Self]) -> usize;
    fn table(rows: usize, heights: &[usize], row: &[Self], column: &[Self], buffer: &mut [Self]) -> u8;
    fn values(rows: usize, heights: &[usize], row: &[Self], column: &[Self], dense: &[Self], values: &mut [Self])
    -> u8;
}

macro_rules! kind {
    ($kind:ident, $read:ident, $weights:ident, $table:ident, $values:ident, $from:expr, $to:expr) => {
        unsafe extern "C" {
            fn $read(
                rows: usize,
                h: *const usize,
                hn: Len,
                e: *const Entry,
                en: Len,
                c: *const $kind,
                cn: Len,
                w: *const u64,
                wn: Len,
                rounds: usize,
                b: *mut $kind,
                bn: Len,
            ) -> u8;
            fn $weights(p: *const $kind, pn: Len, b: *mut $kind, bn: Len) -> usize;
            fn $table(
                rows: usize,
                h: *const usize,
                hn: Len,
                r: *const $kind,
                rn: Len,
                c: *const $kind,
                cn: Len,
                b: *mut $kind,
                bn: Len,
            ) -> u8;
            fn $values(
                rows: usize,
                h: *const usize,
                hn: Len,
                r: *const $kind,
                rn: Len,
                c: *const $kind,
                cn: Len,
                d: *const $kind,
                dn: Len,
                v: *mut $kind,
                vn: Len,
            ) -> u8;
        }

        impl Kind for $kind {
            fn from_numbers(numbers: &[u64]) -> Vec<Self> {
                $from(numbers)
            }

            fn numbers(cells: &[Self]) -> Vec<u64> {
                $to(cells)
            }

            fn read(
                rows: usize,
                heights: &[usize],
                entries: &[Entry],
                cells: &[Self],
                words: &[u64],
                rounds: usize,
                buffer: &mut [Self],
            ) -> u8 {
                unsafe {
                    $read(
                        rows,
                        heights.as_ptr(),
                        heights.len(),
                        entries.as_ptr(),
                        entries.len(),
                        cells.as_ptr(),
                        cells.len(),
                        words.as_ptr(),
                        words.len(),
                        rounds,
                        buffer.as_mut_ptr(),
                        buffer.len(),
                    )
                }
            }

            fn weights(point: &[Self], buffer: &mut [Self]) -> usize {
                unsafe { $weights(point.as_ptr(), point.len(), buffer.as_mut_ptr(), buffer.len()) }
            }

            fn table(rows: usize, heights: &[usize], row: &[Self], column: &[Self], buffer: &mut [Self]) -> u8 {
                unsafe {
                    $table(
                        rows,
                        heights.as_ptr(),
                        heights.len(),
                        row.as_ptr(),
                        row.len(),
                        column.as_ptr(),
                        column.len(),
                        buffer.as_mut_ptr(),
                        buffer.len(),
                    )
                }
            }

            fn values(
                rows: usize,
                heights: &[usize],
                row: &[Self],
                column: &[Self],
                dense: &[Self],
                values: &mut [Self],
            ) -> u8 {
                unsafe {
                    $values(
                        rows,
                        heights.as_ptr(),
                        heights.len(),
                        row.as_ptr(),
                        row.len(),
                        column.as_ptr(),
                        column.len(),
                        dense.as_ptr(),
                        dense.len(),
                        values.as_mut_ptr(),
                        values.len(),
                    )
                }
            }
        }
    };
}

fn residues_of(numbers: &[u64]) -> Vec<Residue> {
    let mut cells = vec![Residue::default(); numbers.len()];
    unsafe { mossplane_residues(numbers.as_ptr(), numbers.len(), cells.as_mut_ptr(), cells.len()) };
    cells
}

fn numbers_of(cells: &[Residue]) -> Vec<u64> {
    let mut numbers = vec![0; cells.len()];
    unsafe { mossplane_numbers(cells.as_ptr(), cells.len(), numbers.as_mut_ptr(), numbers.len()) };
    numbers.into_iter().map(u64::from).collect()
}

kind!(
    Word,
    mossplane_read_words,
    mossplane_weights_words,
    mossplane_table_words,
    mossplane_values_words,
    |n: &[u64]| n.iter().map(|&n| Word(n)).collect(),
    |c: &[Word]| c.iter().map(|w| w.0).collect()
);
kind!(
    Residue,
    mossplane_read_residues,
    mossplane_weights_residues,
    mossplane_table_residues,
    mossplane_values_residues,
    residues_of,
    numbers_of
);
