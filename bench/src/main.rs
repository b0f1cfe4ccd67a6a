//! Times the library and the original on the same inputs, checks that their answers agree, and prints a table.

mod inputs;
mod memory;
mod ours;
mod timing;

use std::hint::black_box;

use inputs::{Both, Numbers, heights_of};
use jagged::jagged::{ColumnSource, JaggedLayout, JaggedPoint, JaggedWitness, TraceSource, exposed};
use ours::{Entry, Kind};
use p3_multilinear_util::point::Point;
use timing::in_turns;

#[global_allocator]
static MEMORY: memory::Keeping = memory::Keeping::new();

/// The cases that are asked for, by parts of their names; all if none is.
struct Asked(Vec<String>);

impl Asked {
    fn wants(&self, name: &str) -> bool {
        self.0.is_empty() || self.0.iter().any(|part| name.contains(part.as_str()))
    }

    /// Times one case, and prints its line: nanoseconds for each of so many units.
    fn case(&self, name: &str, unit: &str, units: usize, ours: &mut dyn FnMut(), theirs: &mut dyn FnMut()) {
        let times = in_turns(ours, theirs);
        let each = |time: f64| time / units as f64;
        println!(
            "| {name} | {unit} | {:.3} | {:.3} | {:.2} |",
            each(times.ours),
            each(times.theirs),
            times.ratio
        );
    }
}

fn layouts(asked: &Asked) {
    let mut numbers = Numbers::new(1);
    let columns = 256;
    let blocks = 64;
    let heights: Vec<usize> = (0..blocks)
        .flat_map(|_| heights_of(&mut numbers, columns, 1 << 20))
        .collect();
    let mut areas = vec![0; blocks];
    let name = "layout, 256 columns";
    if asked.wants(name) {
        assert_eq!(ours::layouts(60, columns, &heights, &mut areas), 0);
        for (block, area) in heights.chunks(columns).zip(&areas) {
            assert_eq!(JaggedLayout::new(60, block).unwrap().area(), *area);
        }
        asked.case(
            name,
            "call",
            blocks,
            &mut || {
                ours::layouts(60, columns, black_box(&heights), &mut areas);
            },
            &mut || {
                for block in black_box(&heights).chunks(columns) {
                    black_box(JaggedLayout::new(60, block).unwrap().area());
                }
            },
        );
    }
    let name = "encode, 256 columns";
    if asked.wants(name) {
        let layout = JaggedLayout::new(60, &heights[..columns]).unwrap();
        let mut bytes = vec![0; 4096];
        let taken = ours::encode(60, &heights[..columns], 1, &mut bytes);
        assert_eq!(bytes[..taken], exposed::encode_layout(&layout)[..]);
        let rounds = 256;
        asked.case(
            name,
            "call",
            rounds,
            &mut || {
                ours::encode(60, black_box(&heights[..columns]), rounds, &mut bytes);
            },
            &mut || {
                for _ in 0..rounds {
                    black_box(exposed::encode_layout(black_box(&layout)));
                }
            },
        );
    }
}

/// A trace on both sides.
struct Trace<'a, B: Both> {
    heights: Vec<usize>,
    entries: Vec<Entry>,
    ours: &'a [B::Ours],
    words: &'a [u64],
    columns: Vec<ColumnSource<'a, B::Theirs>>,
}

fn read<B: Both>(asked: &Asked, name: &str, trace: &Trace<B>, rounds: usize, copy: bool) {
    if !asked.wants(name) {
        return;
    }
    let layout = JaggedLayout::new(60, &trace.heights).unwrap();
    let mut buffer = vec![B::Ours::default(); layout.dense_capacity()];
    let fault = B::Ours::read(
        60,
        &trace.heights,
        &trace.entries,
        trace.ours,
        trace.words,
        1,
        &mut buffer,
    );
    assert_eq!(fault, 0, "{name}");
    let (witness, _) = JaggedWitness::read(&layout, TraceSource::Columns(&trace.columns)).unwrap();
    assert_eq!(B::Ours::numbers(&buffer), B::numbers(&witness), "{name}");
    drop(witness);
    let cells = rounds * layout.area();
    asked.case(
        name,
        "cell",
        cells,
        &mut || {
            B::Ours::read(
                60,
                &trace.heights,
                black_box(&trace.entries),
                trace.ours,
                trace.words,
                rounds,
                &mut buffer,
            );
        },
        &mut || {
            for _ in 0..rounds {
                black_box(JaggedWitness::read(&layout, TraceSource::Columns(black_box(&trace.columns))).unwrap());
            }
        },
    );
    if copy {
        let name = format!("{name}, against a memory copy");
        let mut other = vec![B::Ours::default(); layout.area()];
        asked.case(
            &name,
            "cell",
            cells,
            &mut || {
                B::Ours::read(
                    60,
                    &trace.heights,
                    black_box(&trace.entries),
                    trace.ours,
                    trace.words,
                    rounds,
                    &mut buffer,
                );
            },
            &mut || {
                for _ in 0..rounds {
                    other.copy_from_slice(black_box(&trace.ours[..layout.area()]));
                    black_box(&mut other);
                }
            },
        );
    }
}

/// The checks alone: ours by a buffer that is too short, which is found last; theirs by the heights and the leaves.
fn check<B: Both>(asked: &Asked, name: &str, trace: &Trace<B>, rounds: usize) {
    if !asked.wants(name) {
        return;
    }
    assert_eq!(
        B::Ours::read(60, &trace.heights, &trace.entries, trace.ours, trace.words, 1, &mut []),
        18
    );
    asked.case(
        name,
        "record",
        rounds * trace.entries.len(),
        &mut || {
            B::Ours::read(
                60,
                &trace.heights,
                black_box(&trace.entries),
                trace.ours,
                trace.words,
                rounds,
                &mut [],
            );
        },
        &mut || {
            for _ in 0..rounds {
                for (index, column) in black_box(&trace.columns).iter().enumerate() {
                    assert_eq!(column.height(), trace.heights[index]);
                    exposed::validate(column, index).unwrap();
                    black_box(column.pass());
                }
            }
        },
    );
}

const DENSE: Entry = Entry {
    kind: 0,
    place: 0,
    length: 0,
    first: 0,
    stride: 0,
    height: 0,
};

fn reads<B: Both>(asked: &Asked) {
    let kind = B::NAME;
    for log in [16, 20, 22] {
        let area = 1usize << log;
        let mut numbers = Numbers::new(2);
        let cells: Vec<u64> = (0..area).map(|_| numbers.next()).collect();
        let ours = B::Ours::from_numbers(&cells);
        let theirs = B::theirs(&cells);
        let words: Vec<u64> = (0..area / 64 + 64).map(|_| numbers.next()).collect();
        let rounds = ((1 << 20) / area).max(1);

        let heights = heights_of(&mut numbers, 16, area);
        let starts: Vec<usize> = (0..16).map(|y| heights[..y].iter().sum()).collect();
        let trace = Trace::<B> {
            entries: (0..16)
                .map(|y| Entry {
                    place: starts[y],
                    height: heights[y],
                    ..DENSE
                })
                .collect(),
            columns: (0..16)
                .map(|y| ColumnSource::Dense(&theirs[starts[y]..starts[y] + heights[y]]))
                .collect(),
            heights: heights.clone(),
            ours: &ours,
            words: &words,
        };
        read(asked, &format!("read dense, {kind}, 2^{log}"), &trace, rounds, true);

        let height = area / 16;
        let trace = Trace::<B> {
            entries: (0..16)
                .map(|y| Entry {
                    kind: 1,
                    place: 0,
                    length: area,
                    first: y,
                    stride: 16,
                    height,
                })
                .collect(),
            columns: (0..16)
                .map(|y| ColumnSource::Interleaved {
                    cells: &theirs,
                    first: y,
                    stride: 16,
                    height,
                })
                .collect(),
            heights: vec![height; 16],
            ours: &ours,
            words: &words,
        };
        read(
            asked,
            &format!("read interleaved, {kind}, 2^{log}"),
            &trace,
            rounds,
            false,
        );

        let places: Vec<usize> = (0..16)
            .map(|y| heights[..y].iter().map(|h: &usize| h.div_ceil(64)).sum())
            .collect();
        let trace = Trace::<B> {
            entries: (0..16)
                .map(|y| Entry {
                    kind: 2,
                    place: places[y],
                    length: heights[y].div_ceil(64),
                    height: heights[y],
                    ..DENSE
                })
                .collect(),
            columns: (0..16)
                .map(|y| ColumnSource::Bits {
                    words: &words[places[y]..],
                    height: heights[y],
                })
                .collect(),
            heights: heights.clone(),
            ours: &ours,
            words: &words,
        };
        read(asked, &format!("read packed, {kind}, 2^{log}"), &trace, rounds, false);

        // 16 columns, each a chain of 100 chunks: a dense piece, and the rest
        let piece = area / 16 / 101;
        let chain = Chain::of(&theirs, 16, 100, piece);
        let trace = Trace::<B> {
            entries: chain.entries.clone(),
            columns: chain.columns(),
            heights: vec![101 * piece; 16],
            ours: &ours,
            words: &words,
        };
        read(
            asked,
            &format!("read chunked 100 deep, {kind}, 2^{log}"),
            &trace,
            rounds,
            false,
        );
    }
}

/// Columns that are chains of chunks: a dense piece, then the rest of the chain; the last is a dense piece.
struct Chain<'a, F> {
    entries: Vec<Entry>,
    parts: Vec<&'a [ColumnSource<'a, F>]>,
}

impl<'a, F: Copy> Chain<'a, F> {
    fn of(cells: &'a [F], columns: usize, depth: usize, piece: usize) -> Self {
        let place = |column: usize, step: usize| (column * (depth + 1) + step) * piece;
        // in the table the runs follow one another, so the columns' chains go in step
        let mut entries: Vec<Entry> = (0..columns)
            .map(|y| Entry {
                kind: 3,
                place: columns + 2 * y,
                height: 2,
                ..DENSE
            })
            .collect();
        for step in 0..depth {
            for y in 0..columns {
                entries.push(Entry {
                    place: place(y, step),
                    height: piece,
                    ..DENSE
                });
                let next = columns + 2 * columns * (step + 1) + 2 * y;
                entries.push(if step + 1 < depth {
                    Entry {
                        kind: 3,
                        place: next,
                        height: 2,
                        ..DENSE
                    }
                } else {
                    Entry {
                        place: place(y, depth),
                        height: piece,
                        ..DENSE
                    }
                });
            }
        }
        let parts = (0..columns)
            .map(|y| {
                let dense = |step: usize| ColumnSource::Dense(&cells[place(y, step)..place(y, step) + piece]);
                let mut last = dense(depth);
                let mut run: &'a [ColumnSource<'a, F>] = &[];
                for step in (0..depth).rev() {
                    run = Vec::leak(vec![dense(step), last]);
                    last = ColumnSource::Chunked(run);
                }
                run
            })
            .collect();
        Self { entries, parts }
    }

    fn columns(&self) -> Vec<ColumnSource<'a, F>> {
        self.parts.iter().map(|run| ColumnSource::Chunked(run)).collect()
    }
}

fn tables_of_records<B: Both>(asked: &Asked) {
    let kind = B::NAME;
    let mut numbers = Numbers::new(3);
    let cells: Vec<u64> = (0..1 << 17).map(|_| numbers.next()).collect();
    let ours = B::Ours::from_numbers(&cells);
    let theirs = B::theirs(&cells);
    let rounds = 32;

    let leaves = 4095;
    let piece = 16;
    let mut entries = vec![Entry {
        kind: 3,
        place: 1,
        height: leaves,
        ..DENSE
    }];
    entries.extend((0..leaves).map(|k| Entry {
        place: k * piece,
        height: piece,
        ..DENSE
    }));
    let run: Vec<ColumnSource<B::Theirs>> = (0..leaves)
        .map(|k| ColumnSource::Dense(&theirs[k * piece..(k + 1) * piece]))
        .collect();
    let trace = Trace::<B> {
        heights: vec![leaves * piece],
        entries,
        ours: &ours,
        words: &[],
        columns: vec![ColumnSource::Chunked(&run)],
    };
    read(asked, &format!("read 4096 records flat, {kind}"), &trace, rounds, false);
    check(asked, &format!("check 4096 records flat, {kind}"), &trace, rounds);

    let piece = 32;
    let chain = Chain::of(&theirs, 1, 2047, piece);
    let trace = Trace::<B> {
        heights: vec![2048 * piece],
        entries: chain.entries.clone(),
        ours: &ours,
        words: &[],
        columns: chain.columns(),
    };
    read(
        asked,
        &format!("read 4095 records nested, {kind}"),
        &trace,
        rounds,
        false,
    );
    check(asked, &format!("check 4095 records nested, {kind}"), &trace, rounds);
}

fn weights<B: Both>(asked: &Asked) {
    let kind = B::NAME;
    let mut numbers = Numbers::new(4);
    let point: Vec<u64> = (0..60).map(|_| numbers.next()).collect();
    let (ours, theirs) = (B::Ours::from_numbers(&point), B::theirs(&point));
    for (length, text) in [
        (1 << 16, "2^16"),
        (1 << 20, "2^20"),
        (1 << 22, "2^22"),
        (3 << 18, "3 x 2^18"),
    ] {
        let name = format!("equality weights, {kind}, {text}");
        if !asked.wants(&name) {
            continue;
        }
        let mut buffer = vec![B::Ours::default(); length];
        assert_eq!(B::Ours::weights(&ours, &mut buffer), length);
        assert_eq!(
            B::Ours::numbers(&buffer),
            B::numbers(&exposed::equality_prefix(&theirs, length)),
            "{name}"
        );
        asked.case(
            &name,
            "cell",
            length,
            &mut || {
                B::Ours::weights(black_box(&ours), &mut buffer);
            },
            &mut || {
                black_box(exposed::equality_prefix(black_box(&theirs), length));
            },
        );
    }
}

fn selector<B: Both>(asked: &Asked) {
    let kind = B::NAME;
    let mut numbers = Numbers::new(5);
    let mut point = |count: usize| -> Vec<u64> { (0..count).map(|_| numbers.next()).collect() };
    let mut more = Numbers::new(6);
    for columns in [1usize, 16, 256] {
        let column = point(columns.trailing_zeros() as usize);
        let row = point(60);
        let sparse = JaggedPoint::new(Point::new(B::theirs(&row)), Point::new(B::theirs(&column)));
        let (row_ours, column_ours) = (B::Ours::from_numbers(&row), B::Ours::from_numbers(&column));
        for log in [16, 20, 22] {
            let name = format!("table, {kind}, {columns} columns, 2^{log}");
            if !asked.wants(&name) {
                continue;
            }
            let heights = heights_of(&mut more, columns, 1 << log);
            let layout = JaggedLayout::new(60, &heights).unwrap();
            let mut buffer = vec![B::Ours::default(); layout.dense_capacity()];
            assert_eq!(B::Ours::table(60, &heights, &row_ours, &column_ours, &mut buffer), 0);
            assert_eq!(
                B::Ours::numbers(&buffer),
                B::numbers(&exposed::table(&layout, &sparse)),
                "{name}"
            );
            asked.case(
                &name,
                "cell",
                1 << log,
                &mut || {
                    B::Ours::table(60, black_box(&heights), &row_ours, &column_ours, &mut buffer);
                },
                &mut || {
                    black_box(exposed::table(&layout, black_box(&sparse)));
                },
            );
        }
    }
    for columns in [1usize, 16, 256] {
        for rows in [20usize, 60] {
            let name = format!("evaluate, {kind}, {columns} columns, {rows} row variables");
            if !asked.wants(&name) {
                continue;
            }
            let column = point(columns.trailing_zeros() as usize);
            let row = point(rows);
            let points = (4096 / columns).min(256);
            let dense = point(20 * points);
            let sparse = JaggedPoint::new(Point::new(B::theirs(&row)), Point::new(B::theirs(&column)));
            let theirs: Vec<Point<B::Theirs>> = dense.chunks(20).map(|z| Point::new(B::theirs(z))).collect();
            let (row_ours, column_ours, dense_ours) = (
                B::Ours::from_numbers(&row),
                B::Ours::from_numbers(&column),
                B::Ours::from_numbers(&dense),
            );
            let heights = heights_of(&mut more, columns, 1 << 20);
            let layout = JaggedLayout::new(rows, &heights).unwrap();
            let mut values = vec![B::Ours::default(); points];
            assert_eq!(
                B::Ours::values(rows, &heights, &row_ours, &column_ours, &dense_ours, &mut values),
                0
            );
            let expected: Vec<B::Theirs> = theirs.iter().map(|z| exposed::evaluate(&layout, &sparse, z)).collect();
            assert_eq!(B::Ours::numbers(&values), B::numbers(&expected), "{name}");
            asked.case(
                &name,
                "call",
                points,
                &mut || {
                    B::Ours::values(
                        rows,
                        black_box(&heights),
                        &row_ours,
                        &column_ours,
                        &dense_ours,
                        &mut values,
                    );
                },
                &mut || {
                    for z in black_box(&theirs) {
                        black_box(exposed::evaluate(&layout, &sparse, z));
                    }
                },
            );
        }
    }
}

fn kind<B: Both>(asked: &Asked) {
    reads::<B>(asked);
    tables_of_records::<B>(asked);
    weights::<B>(asked);
    selector::<B>(asked);
}

fn main() {
    let asked = Asked(std::env::args().skip(1).collect());
    println!("| case | for each | ours, ns | original, ns | ours / original |\n|---|---|---|---|---|");
    layouts(&asked);
    kind::<inputs::Words>(&asked);
    kind::<inputs::Residues>(&asked);
}
