//! Makes a list shorter on which two engines differ, so that a reader sees what matters.

use crate::calls::Call;
use crate::drive::{Difference, Pair};
use crate::engines::Engine;

/// How many shorter lists are tried at the most.
const TRIES: usize = 3000;

/// Drops calls, and then lines of their texts, while there is still a difference. It need not be the same one. Where
/// the calls alone don't show it again, the list stays as it is.
pub fn shorten<L: Engine, R: Engine>(left: &L, right: &R, difference: Difference) -> Difference {
    let found = replay(left, right, &difference.calls).unwrap_or(difference);
    let mut shorter = Shorter { left, right, found, tries: 0 };
    shorter.drop_calls();
    shorter.drop_lines();
    shorter.found
}

/// Makes the calls on new sessions, up to the first difference.
pub fn replay<L: Engine, R: Engine>(left: &L, right: &R, calls: &[Call]) -> Option<Difference> {
    let mut pair = Pair::new(left, right);
    for (place, call) in calls.iter().enumerate() {
        if let Err(clash) = pair.make(call) {
            return Some(Difference { calls: calls[..=place].to_vec(), clash });
        }
    }
    None
}

struct Shorter<'a, L, R> {
    left: &'a L,
    right: &'a R,
    found: Difference,
    tries: usize,
}

impl<L: Engine, R: Engine> Shorter<'_, L, R> {
    /// Takes the calls if they differ too.
    fn try_calls(&mut self, calls: &[Call]) -> bool {
        self.tries += 1;
        let found = if self.tries > TRIES { None } else { replay(self.left, self.right, calls) };
        let differs = found.is_some();
        self.found = found.unwrap_or_else(|| self.found.clone());
        differs
    }

    /// Drops many calls at once, and then fewer and fewer.
    fn drop_calls(&mut self) {
        let mut many = self.found.calls.len();
        while many > 0 {
            let mut place = 0;
            while place < self.found.calls.len() {
                let mut calls = self.found.calls.clone();
                calls.drain(place..(place + many).min(calls.len()));
                if !self.try_calls(&calls) {
                    place += many;
                }
            }
            many /= 2;
        }
    }

    /// From the last line up: what a line declares is needed by lines below it alone.
    fn drop_lines(&mut self) {
        for place in (0..self.found.calls.len()).rev() {
            let text = self.found.calls.get(place).and_then(Call::text);
            let lines = text.map_or(0, |text| text.split_inclusive(|&byte| byte == b'\n').count());
            for line in (0..lines).rev() {
                if let Some(calls) = self.without_line(place, line) {
                    self.try_calls(&calls);
                }
            }
        }
    }

    /// The calls without this line of the text of this one.
    fn without_line(&self, place: usize, line: usize) -> Option<Vec<Call>> {
        let mut calls = self.found.calls.clone();
        let call = calls.get_mut(place)?;
        let mut lines: Vec<&[u8]> = call.text()?.split_inclusive(|&byte| byte == b'\n').collect();
        (line < lines.len()).then(|| lines.remove(line))?;
        *call = call.with_text(lines.concat());
        Some(calls)
    }
}
