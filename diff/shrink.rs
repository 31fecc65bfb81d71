//! Shortens a script whose sides differ.
use crate::calls::Line;
use crate::compare::{Difference, Sides};

/// Where the sides of these lines differ, if they do.
pub fn difference(sides: &mut Sides, script: &[Line]) -> Option<Difference> {
    let mut rest = script.iter();
    sides.differ(&mut Vec::new(), |_| rest.next().cloned())
}

/// The shortest script found by leaving out lines and decreasing numbers, one after another.
pub fn shortest(sides: &mut Sides, mut script: Vec<Line>) -> Vec<Line> {
    loop {
        let before = script.clone();
        let mut piece = script.len().div_ceil(2);
        while piece > 0 {
            without_pieces(sides, &mut script, piece);
            piece /= 2;
        }
        for place in 0..script.len() {
            with_less(sides, &mut script, place);
        }
        if script == before {
            return script;
        }
    }
}

/// Leaves out each piece of this many lines without which the sides still differ.
fn without_pieces(sides: &mut Sides, script: &mut Vec<Line>, piece: usize) {
    let mut begin = script.len();
    while begin > 0 {
        let end = begin;
        begin = begin.saturating_sub(piece);
        let mut shorter = script.clone();
        shorter.drain(begin..end);
        if difference(sides, &shorter).is_some() {
            *script = shorter;
        }
    }
}

/// Decreases the numbers of a line, and shortens its lists, if the sides still differ.
fn with_less(sides: &mut Sides, script: &mut [Line], place: usize) {
    for less in lesser(&script[place]) {
        let old = std::mem::replace(&mut script[place], less);
        if difference(sides, script).is_none() {
            script[place] = old;
        } else {
            return with_less(sides, script, place);
        }
    }
}

/// Lines that are less than this one, those that are much less first.
fn lesser(line: &Line) -> Vec<Line> {
    let mut lines = Vec::new();
    for set in 0..line.set {
        let other = if line.call.form().contains('t') { line.other } else { (set + 1) % 4 };
        lines.push(Line { set, other, ..line.clone() });
    }
    if line.call.form().contains('t') {
        lines.extend((0..line.other).map(|other| Line { other, ..line.clone() }));
    }
    let part = |number: usize, part: usize| number - number / part;
    let less = |number: usize| [0, number / 2, part(number, 8), part(number, 64), part(number, 512), number.saturating_sub(1)];
    for count in less(line.numbers.len()) {
        lines.push(Line { numbers: line.numbers[..count].to_vec(), ..line.clone() });
        let begin = line.numbers.len() - count;
        lines.push(Line { numbers: line.numbers[begin..].to_vec(), ..line.clone() });
    }
    lines.extend(less(line.first).map(|first| Line { first, ..line.clone() }));
    lines.extend(less(line.second).map(|second| Line { second, ..line.clone() }));
    for place in 0..line.numbers.len().min(20) {
        for number in less(line.numbers[place]) {
            let mut lesser = line.clone();
            lesser.numbers[place] = number;
            lines.push(lesser);
        }
    }
    lines.retain(|lesser| lesser != line);
    lines
}
