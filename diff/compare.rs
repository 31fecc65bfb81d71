//! Runs a script on the three sides, and finds where they first differ.
use crate::bends::Bend;
use crate::calls::Line;
use crate::departures::{DEPARTURES, Rule};
use crate::model::{self, Model};
use crate::ours;
use crate::peers::{Block, Peer};
use crate::sides::{Answers, Set, answer};
use std::panic::{AssertUnwindSafe, catch_unwind};

/// A block type by its name in a script.
#[derive(Clone, Copy)]
pub struct Blocks {
    pub name: &'static str,
    bits: usize,
    /// Its number for this library's side.
    word: usize,
    peers: fn() -> Option<Box<dyn Beside>>,
}

pub const BLOCKS: [Blocks; 6] = [
    Blocks { name: "u8", bits: 8, word: 8, peers: peers::<u8> },
    Blocks { name: "u16", bits: 16, word: 16, peers: peers::<u16> },
    Blocks { name: "u32", bits: 32, word: 32, peers: peers::<u32> },
    Blocks { name: "u64", bits: 64, word: 64, peers: peers::<u64> },
    Blocks { name: "usize", bits: usize::BITS as usize, word: 0, peers: peers::<usize> },
    Blocks { name: "u128", bits: 128, word: 128, peers: || None },
];

fn peers<B: Block>() -> Option<Box<dyn Beside>> {
    Some(Box::new(Peers::<B> { sets: [(); 4].map(|()| Peer::of(&Model::default())) }))
}

/// Where sides differ: after how many lines, and the results of each there.
pub struct Difference {
    pub line: usize,
    pub model: Vec<usize>,
    pub other: Vec<usize>,
    pub side: &'static str,
}

/// The peers' sets, over some block type.
trait Beside {
    /// The results of a line's call.
    fn answer(&mut self, line: &Line, bend: Option<&Bend>) -> Vec<usize>;
    /// Sets the peers' sets to those of the model.
    fn follow(&mut self, line: &Line, model: &[Model; 4]);
    fn blocks(&self) -> Vec<usize>;
}

struct Peers<B: Block> {
    sets: [Peer<B>; 4],
}

impl<B: Block> Beside for Peers<B> {
    fn answer(&mut self, line: &Line, bend: Option<&Bend>) -> Vec<usize> {
        let mut answers = Answers::default();
        answer(&mut self.sets, line, &mut answers);
        if let Some(bend) = bend.filter(|bend| bend.calls.contains(&line.call)) {
            bend.apply(line, &mut self.sets, &mut answers.0);
        }
        answers.0
    }

    fn follow(&mut self, line: &Line, model: &[Model; 4]) {
        for set in [line.set, line.other] {
            self.sets[set] = Peer::of(&model[set]);
        }
    }

    fn blocks(&self) -> Vec<usize> {
        blocks_of(&self.sets)
    }
}

fn blocks_of<S: Set>(sets: &[S; 4]) -> Vec<usize> {
    let mut answers = Answers::default();
    for set in sets {
        answers.storage(&set.bits_storage());
    }
    answers.0
}

/// The sides, and how often each departure occurred.
pub struct Sides {
    pub blocks: Blocks,
    pub bend: Option<&'static Bend>,
    pub met: Vec<usize>,
    places: Vec<usize>,
}

impl Sides {
    pub fn new(blocks: Blocks, bend: Option<&'static Bend>) -> Sides {
        model::set_width(blocks.bits);
        Sides { blocks, bend, met: vec![0; DEPARTURES.len()], places: Vec::new() }
    }

    /// Runs the lines that `next` returns, given the sets at that point. They are left in `lines`.
    pub fn differ(
        &mut self,
        lines: &mut Vec<Line>,
        mut next: impl FnMut(&[Model; 4]) -> Option<Line>,
    ) -> Option<Difference> {
        let mut sets: [Model; 4] = Default::default();
        let mut peers = (self.blocks.peers)();
        let mut answers = Answers::default();
        let mut ends = vec![0];
        while let Some(line) = next(&sets) {
            let departure = DEPARTURES.iter().position(|departure| (departure.holds)(&line, &sets, self.is_u32()));
            let begin = answers.0.len();
            answer(&mut sets, &line, &mut answers);
            ends.push(answers.0.len());
            lines.push(line);
            if let Some(peers) = peers.as_deref_mut() {
                let difference = self.beside(peers, lines, &sets, &answers.0[begin..], departure);
                if difference.is_some() {
                    return difference;
                }
            }
        }
        answers.0.extend(blocks_of(&sets));
        ends.push(answers.0.len());
        self.ours(lines, &answers.0, &ends).or_else(|| {
            let other = peers?.blocks();
            let model = answers.0[ends[lines.len()]..].to_vec();
            (model != other).then_some(Difference { line: lines.len(), model, other, side: "the Rust crates" })
        })
    }

    fn is_u32(&self) -> bool {
        self.blocks.name == "u32"
    }

    /// Compares the last line's results with those of the peers.
    fn beside(
        &mut self,
        peers: &mut dyn Beside,
        lines: &[Line],
        sets: &[Model; 4],
        words: &[usize],
        departure: Option<usize>,
    ) -> Option<Difference> {
        let line = lines.last()?;
        let mut model = words.to_vec();
        if let Some(departure) = departure {
            self.met[departure] += 1;
            match DEPARTURES[departure].rule {
                Rule::ByModel => {
                    peers.follow(line, sets);
                    return None;
                }
                Rule::Turned(turn) => turn(line, sets, &mut model),
            }
        }
        let bend = self.bend;
        let (other, side) = match catch_unwind(AssertUnwindSafe(|| peers.answer(line, bend))) {
            Ok(other) => (other, "the Rust crates"),
            Err(_) => (Vec::new(), "the Rust crates, which panicked"),
        };
        (model != other).then_some(Difference { line: lines.len(), model, other, side })
    }

    /// Compares all results with those of this library.
    fn ours(&mut self, lines: &[Line], words: &[usize], ends: &[usize]) -> Option<Difference> {
        let side = "this library";
        if !ours::run(self.blocks.word, lines, &mut self.places) {
            return Some(Difference { line: lines.len(), model: Vec::new(), other: Vec::new(), side });
        }
        if self.places == words {
            return None;
        }
        let same = words.iter().zip(&self.places).take_while(|(word, place)| word == place).count();
        let line = ends.iter().filter(|end| **end <= same).count().min(ends.len() - 1);
        let range = ends[line - 1]..ends[line];
        let other = self.places.get(range.clone()).unwrap_or_default().to_vec();
        Some(Difference { line, model: words[range].to_vec(), other, side })
    }
}
