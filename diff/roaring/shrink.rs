//! Shortens a script whose sides differ.
use crate::calls::Line;

/// The shortest script found by leaving out lines and decreasing counts, one after another.
pub fn shortest(mut script: Vec<Line>, differs: impl Fn(&[Line]) -> bool) -> Vec<Line> {
    loop {
        let before = script.clone();
        let mut piece = script.len().div_ceil(2);
        while piece > 0 {
            for begin in (0..script.len()).step_by(piece).rev() {
                let mut shorter = script.clone();
                shorter.drain(begin..(begin + piece).min(script.len()));
                if differs(&shorter) {
                    script = shorter;
                }
            }
            piece /= 2;
        }
        for place in 0..script.len() {
            with_less(&mut script, place, &differs);
        }
        if script == before {
            return script;
        }
    }
}

/// Decreases the count of a line if the script still differs.
fn with_less(script: &mut [Line], place: usize, differs: impl Fn(&[Line]) -> bool) {
    let count = script[place].count;
    for less in [0, count / 2, count - count / 8, count.saturating_sub(1)] {
        if less < count {
            script[place].count = less;
            if differs(script) {
                return with_less(script, place, differs);
            }
            script[place].count = count;
        }
    }
}
