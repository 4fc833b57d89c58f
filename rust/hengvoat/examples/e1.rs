//! Opens a drawing, applies a rule, and prints what came of it, as the program `trial` does: `done=` with the five counts and the new
//! drawing's file, or `refused=` with the refusal's number and what is returned with it.

use std::io::{self, Write};
use std::process::ExitCode;

use hengvoat::{Applied, Refusal, Session};

/// Class 0 is a cabinet, class 1 a width. Name 0 is "is as wide as", of which a cabinet has one; name 1 is "stands beside". Cabinet 3 is
/// 60 mm wide (node 6; widths are tenths of a millimetre) and stands beside cabinet 5, whose width nobody has drawn.
const DRAWING: &[u8] = b"\
class=0,0
class=1,1
name=0,0
name=1,1
may=0,0,1
may=0,1,0
node=3,0,0
node=5,0,0
node=6,1,600
edge=3,0,6
edge=3,1,5
";

/// Edge addition: where a cabinet (pattern node 0) has a width (2) and stands beside a cabinet (1), that one gets the same width.
const RULE: &[u8] = b"\
op=2
pnode=0,0,0
pnode=0,0,0
pnode=1,0,0
pedge=0,0,2
pedge=0,1,1
put=1,0,2
";

fn trial(drawing: &[u8], rule: &[u8]) -> Result<(Applied, Vec<u8>), Refusal> {
    let mut session = Session::new();
    session.open(drawing)?;
    let applied = session.apply(rule)?;
    Ok((applied, session.save()?))
}

fn main() -> io::Result<ExitCode> {
    match trial(DRAWING, RULE) {
        Ok((done, file)) => {
            println!(
                "done={},{},{},{},{}",
                done.matchings, done.nodes_added, done.edges_added, done.nodes_removed, done.edges_removed
            );
            io::stdout().write_all(&file)?;
            Ok(ExitCode::SUCCESS)
        }
        Err(refusal) => {
            println!("refused={},{}", refusal.number(), refusal.returned());
            eprintln!("{refusal}");
            Ok(ExitCode::FAILURE)
        }
    }
}
