//! What is printed about a difference.

use crate::calls::script;
use crate::drive::Difference;

/// The seed, the number of the call, both answers and the shorter list as a script for the program `replay`, which
/// begins after the line that tells its length.
pub fn report(seed: u64, difference: &Difference, shorter: &Difference) -> Vec<u8> {
    let mut lines = String::new();
    for (which, Difference { calls, clash }) in [("seed", difference), ("a shorter list of seed", shorter)] {
        lines += &format!("{which} {seed}, call {}: {}\n", calls.len(), clash.what);
        lines += &format!("hengvoat:      {}\nsecond-engine: {}\n", clash.left, clash.right);
    }
    let script = script(&shorter.calls);
    lines += &format!("the shorter list, {} bytes:\n", script.len());
    let last = format!("\ncompare: difference at seed {seed}, call {}\n", difference.calls.len());
    [lines.as_bytes(), &script, last.as_bytes()].concat()
}
