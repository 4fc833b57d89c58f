//! Where does a rule apply? Lists the matchings of its pattern before anything is changed, and shows how a refusal reads.

use hengvoat::{Refusal, Session};

/// A run of three cabinets (class 0) between two walls (class 1). Name 0 is "stands against", name 1 "stands beside".
const RUN: &[u8] = b"\
class=0,0
class=1,0
name=0,1
name=1,1
may=0,0,1
may=0,1,0
node=1,1,0
node=2,1,0
node=10,0,0
node=11,0,0
node=12,0,0
edge=10,0,1
edge=10,1,11
edge=11,1,12
edge=12,0,2
";

/// A cabinet that stands against a wall.
const AT_A_WALL: &[u8] = b"op=0\npnode=0,0,0\npnode=1,0,0\npedge=0,0,1\n";

/// Two cabinets, which may be one and the same.
const ANY_TWO: &[u8] = b"op=0\npnode=0,0,0\npnode=0,0,0\n";

/// Class 2 is nowhere declared.
const A_SINK: &[u8] = b"op=0\npnode=2,0,0\n";

fn main() -> Result<(), Refusal> {
    let mut session = Session::new();
    session.open(RUN)?;

    for matching in session.matchings(AT_A_WALL)? {
        println!("cabinet {} stands against wall {}", matching[0], matching[1]);
    }

    // A listing asks for one matching at a time, so it costs nothing to stop early.
    let first: Vec<_> = session.matchings(ANY_TWO)?.take(4).collect();
    println!("the first pairs of cabinets: {first:?}");
    let different = session.matchings(ANY_TWO)?.filter(|pair| pair[0] != pair[1]).count();
    println!("pairs of two different cabinets: {different}");

    match session.matchings(A_SINK) {
        Ok(listing) => println!("sinks: {}", listing.count()),
        Err(refusal) => println!("refused: {refusal}"),
    }
    Ok(())
}
