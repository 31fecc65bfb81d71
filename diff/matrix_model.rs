//! The plain slow model for scripts on matrices: a `BTreeSet` for each row. It has each call, as this library documents
//! it.
use crate::matrices::{Call, Line};
use crate::random::Random;
use std::collections::BTreeSet;

/// A matrix of this many columns.
#[derive(Clone, Default, PartialEq, Eq)]
pub struct Matrix {
    pub rows: Vec<BTreeSet<usize>>,
    pub columns: usize,
}

/// The matrix that is called, another one, and a set with its length.
#[derive(Default)]
pub struct Sides {
    pub matrix: Matrix,
    pub other: Matrix,
    pub set: BTreeSet<usize>,
    pub len: usize,
}

/// Stands for a length error.
const LENGTH: usize = 3;

/// The input of a hasher: the number of calls, and a digest of the bytes.
#[derive(Default)]
struct Feed {
    calls: u64,
    digest: u64,
}

impl Feed {
    fn number(&mut self, number: usize) {
        self.calls += 1;
        for byte in number.to_le_bytes() {
            self.digest = self.digest.wrapping_mul(1_099_511_628_211).wrapping_add(u64::from(byte));
        }
    }
}

/// Whether a matrix would have more bits than fit a `usize`, with each row in whole blocks of this many bits.
fn is_too_large(rows: usize, columns: usize, bits: usize) -> bool {
    rows.checked_mul(columns.div_ceil(bits)).and_then(|blocks| blocks.checked_mul(bits)).is_none()
}

fn text_of(row: &BTreeSet<usize>) -> String {
    let items: Vec<String> = row.iter().map(usize::to_string).collect();
    format!("{{{}}}", items.join(", "))
}

impl Matrix {
    fn of(row: &BTreeSet<usize>, rows: usize, columns: usize) -> Matrix {
        Matrix { rows: vec![row.clone(); rows], columns }
    }

    fn transpose(&self) -> Matrix {
        let row = |column: usize| (0..self.rows.len()).filter(|row| self.rows[*row].contains(&column)).collect();
        Matrix { rows: (0..self.columns).map(row).collect(), columns: self.rows.len() }
    }

    fn display(&self) -> String {
        self.rows.iter().map(|row| text_of(row) + "\n").collect()
    }

    fn debug(&self) -> String {
        let rows: Vec<String> = self.rows.iter().map(text_of).collect();
        format!("BitMatrix {{ columns: {}, rows: [{}] }}", self.columns, rows.join(", "))
    }

    fn feed(&self) -> [usize; 2] {
        let mut feed = Feed::default();
        feed.number(self.columns);
        for row in &self.rows {
            feed.number(row.len());
            row.iter().for_each(|column| feed.number(*column));
        }
        [feed.calls as usize, feed.digest as usize]
    }

    /// The contents of all rows, as at the end of a script.
    pub fn write(&self, words: &mut Vec<usize>) {
        words.push(self.columns);
        self.rows.iter().for_each(|row| write_walk(row.iter().copied(), words));
    }
}

fn write_walk(items: impl Iterator<Item = usize>, words: &mut Vec<usize>) {
    let before = words.len();
    words.extend(items);
    words.push(words.len() - before);
}

fn write_text(text: &str, words: &mut Vec<usize>) {
    words.push(text.len());
    words.extend(text.bytes().map(usize::from));
}

impl Sides {
    /// The results of a line's call, over blocks of this many bits.
    pub fn answer(&mut self, line: &Line, bits: usize, words: &mut Vec<usize>) {
        let (first, second) = (line.first, line.second);
        match line.call {
            Call::New | Call::FromRow | Call::Clone | Call::Transpose => self.make(line, bits, words),
            Call::Swap => std::mem::swap(&mut self.matrix, &mut self.other),
            Call::SetInsert => {
                self.len = self.len.max(first + 1);
                words.push(usize::from(self.set.insert(first)));
            }
            Call::SetRemove => words.push(usize::from(self.set.remove(&first))),
            Call::Get => {
                let row = self.matrix.rows.get(first).filter(|_| second < self.matrix.columns);
                words.push(row.map_or(0, |row| 1 + usize::from(row.contains(&second))));
            }
            Call::Eq => words.push(usize::from(self.matrix == self.other)),
            Call::Display => write_text(&self.matrix.display(), words),
            Call::Debug => write_text(&self.matrix.debug(), words),
            Call::Hash => words.extend(self.matrix.feed()),
            _ if first >= self.matrix.rows.len() => {}
            Call::Insert | Call::Remove | Call::Contains => self.at_column(line, words),
            Call::UnionRows | Call::IntersectRows | Call::DifferenceRows | Call::IsSubsetRow | Call::IsDisjointRow => {
                self.of_rows(line, words);
            }
            _ => self.of_row(line, words),
        }
    }

    fn make(&mut self, line: &Line, bits: usize, words: &mut Vec<usize>) {
        let (rows, columns) = match line.call {
            Call::New => (line.first, line.second),
            Call::FromRow => (line.first, self.len),
            Call::Clone => (0, 0),
            _ => (self.other.columns, self.other.rows.len()),
        };
        if is_too_large(rows, columns, bits) {
            return words.push(LENGTH);
        }
        self.matrix = match line.call {
            Call::New => Matrix::of(&BTreeSet::new(), rows, columns),
            Call::FromRow => Matrix::of(&self.set, rows, columns),
            Call::Clone => self.other.clone(),
            _ => self.other.transpose(),
        };
        words.push(1);
    }

    fn at_column(&mut self, line: &Line, words: &mut Vec<usize>) {
        if line.second >= self.matrix.columns {
            return;
        }
        let row = &mut self.matrix.rows[line.first];
        words.push(usize::from(match line.call {
            Call::Insert => row.insert(line.second),
            Call::Remove => row.remove(&line.second),
            _ => row.contains(&line.second),
        }));
    }

    fn of_rows(&mut self, line: &Line, words: &mut Vec<usize>) {
        let Some(other) = self.matrix.rows.get(line.second) else { return };
        let row = &self.matrix.rows[line.first];
        let now: BTreeSet<usize> = match line.call {
            Call::UnionRows => other | row,
            Call::IntersectRows => other & row,
            Call::DifferenceRows => other - row,
            Call::IsSubsetRow => return words.push(usize::from(row.is_subset(other))),
            _ => return words.push(usize::from(row.is_disjoint(other))),
        };
        words.push(usize::from(now != *other));
        self.matrix.rows[line.second] = now;
    }

    fn of_row(&mut self, line: &Line, words: &mut Vec<usize>) {
        let columns = self.matrix.columns;
        let row = &mut self.matrix.rows[line.first];
        match line.call {
            Call::InsertRange if line.third <= columns => row.extend(line.second..line.third),
            Call::FillRow => row.extend(0..columns),
            Call::ClearRow => row.clear(),
            Call::Count => words.push(row.len()),
            Call::Iter => write_walk(row.iter().copied(), words),
            Call::IterFrom => write_walk(row.range(line.second..).copied(), words),
            Call::IterClone => {
                let steps = line.second % 8;
                words.extend((0..steps).map(|step| row.iter().nth(step).map_or(0, |column| column + 1)));
                write_walk(row.iter().skip(steps).copied(), words);
                write_walk(row.iter().skip(steps).copied(), words);
            }
            Call::UnionRowWith => {
                self.set.retain(|number| *number < columns);
                self.len = self.len.min(columns);
                let before = row.len();
                row.extend(&self.set);
                words.push(usize::from(row.len() != before));
            }
            Call::RowToSet => {
                self.set = row.clone();
                self.len = columns;
            }
            _ => {}
        }
    }
}

/// A wrong result of the model, for the self test: each must be detected.
pub struct Bend {
    pub name: &'static str,
    pub call: Call,
    turn: fn(&Line, &mut Sides, &mut Vec<usize>),
}

impl Bend {
    pub fn apply(&self, line: &Line, sides: &mut Sides, words: &mut Vec<usize>) {
        if line.call == self.call {
            (self.turn)(line, sides, words);
        }
    }
}

/// Changes the row that the call of a line writes, if there is one.
fn change(sides: &mut Sides, row: usize, change: fn(&mut BTreeSet<usize>)) {
    sides.matrix.rows.get_mut(row).into_iter().for_each(change);
}

pub static BENDS: [Bend; 10] = [
    Bend {
        name: "union_rows leaves out column 64",
        call: Call::UnionRows,
        turn: |line, sides, _| {
            let read = sides.matrix.rows.get(line.first).is_some_and(|row| row.contains(&64));
            if read && line.first != line.second {
                change(sides, line.second, |row| _ = row.remove(&64));
            }
        },
    },
    Bend {
        name: "difference_rows keeps what is in the same row",
        call: Call::DifferenceRows,
        turn: |line, sides, words| {
            if line.first == line.second && words.last() == Some(&1) {
                change(sides, line.second, |row| _ = row.insert(0));
            }
        },
    },
    Bend {
        name: "intersect_rows says that it changed nothing",
        call: Call::IntersectRows,
        turn: |_, _, words| words.iter_mut().for_each(|word| *word = 0),
    },
    Bend {
        name: "insert_range goes one column too far",
        call: Call::InsertRange,
        turn: |line, sides, _| {
            if line.third < sides.matrix.columns && line.second < line.third {
                let end = line.third;
                if let Some(row) = sides.matrix.rows.get_mut(line.first) {
                    row.insert(end);
                }
            }
        },
    },
    Bend {
        name: "fill_row leaves out the last column",
        call: Call::FillRow,
        turn: |line, sides, _| change(sides, line.first, |row| _ = row.pop_last()),
    },
    Bend {
        name: "a transpose forgets its last row",
        call: Call::Transpose,
        turn: |_, sides, _| _ = sides.matrix.rows.last_mut().map(BTreeSet::clear),
    },
    Bend {
        name: "row_to_set is one shorter",
        call: Call::RowToSet,
        turn: |line, sides, _| {
            if line.first < sides.matrix.rows.len() {
                sides.len = sides.len.saturating_sub(1);
            }
        },
    },
    Bend {
        name: "is_subset_row always holds",
        call: Call::IsSubsetRow,
        turn: |_, _, words| words.iter_mut().for_each(|word| *word = 1),
    },
    Bend {
        name: "a matrix of no rows has no columns",
        call: Call::New,
        turn: |_, sides, _| {
            if sides.matrix.rows.is_empty() {
                sides.matrix.columns = 0;
            }
        },
    },
    Bend { name: "the text has no line for the last row", call: Call::Display, turn: |_, _, words| _ = words.pop() },
];

/// A length, most often near the end of a block.
pub fn length(random: &mut Random, most: usize) -> usize {
    let length = match random.below(3) {
        0 => random.of(&[0, 1, 7, 8, 9, 31, 32, 33, 63, 64, 65, 127, 128, 129, 255, 256, 257]),
        1 => random.below(40),
        _ => random.below(most),
    };
    length.min(most)
}
