//! The engine of a kitchen planner: drawings that are graphs, and the rules that change them.
//!
//! A joiner's drawing is a graph: cabinets, panels and measures are nodes, and what joins them are edges, under a scheme of classes and
//! edge names. A rule is a pattern with an action. The engine finds every place where the pattern matches and changes the drawing there;
//! it keeps undo copies, and reads and writes drawing files. Every call gives a report or one of fourteen [`Refusal`]s, which change
//! nothing.
//!
//! The calls are those of `libhengvoat.a`, a library in which every function is proved to meet its contract, for every text and in every
//! order of calls. This crate adds what Rust can say of them and C can't: what is lent, for how long, and to whom. It has no state and no
//! dependencies; its `unsafe` is in one short file, `raw.rs`. The repository's `docs/REFERENCE.md` describes drawing files, rule texts
//! and operations.
//!
//! ```
//! use hengvoat::{Refusal, Session};
//!
//! // Cabinets (class 0) and widths (class 1, with values); a cabinet is as wide as (name 0) one width, and stands beside (name 1) any
//! // number of cabinets. Cabinet 3 is 60 mm wide (node 6; widths are tenths of a millimetre) and stands beside cabinet 5, whose width
//! // nobody has drawn.
//! let kitchen = b"class=0,0\nclass=1,1\nname=0,0\nname=1,1\nmay=0,0,1\nmay=0,1,0\n\
//!     node=3,0,0\nnode=5,0,0\nnode=6,1,600\nedge=3,0,6\nedge=3,1,5\n";
//! // Where a cabinet has a width and stands beside a cabinet, that one gets the same width.
//! let same_width = b"op=2\npnode=0,0,0\npnode=0,0,0\npnode=1,0,0\npedge=0,0,2\npedge=0,1,1\nput=1,0,2\n";
//!
//! let mut session = Session::new();
//! session.open(kitchen)?;
//! for matching in session.matchings(same_width)? {
//!     println!("cabinet {} stands beside {}, and has width {}", matching[0], matching[1], matching[2]);
//! }
//! let applied = session.apply(same_width)?;
//! assert_eq!((applied.matchings, applied.edges_added), (1, 1));
//! assert!(session.save()?.ends_with(b"edge=5,0,6\n"));
//! session.undo()?;
//! assert_eq!(session.save()?, kitchen);
//! # Ok::<(), Refusal>(())
//! ```
//!
//! # Threads
//!
//! There is no shared state: two sessions never meet. A session is `Send` and `Sync`, so one may go to another thread, and several
//! threads may read one at the same time:
//!
//! ```
//! # use hengvoat::{Refusal, Session};
//! # let mut session = Session::new();
//! # session.open(b"class=0,0\nnode=3,0,0\n")?;
//! std::thread::scope(|scope| {
//!     scope.spawn(|| session.save());
//!     scope.spawn(|| session.first(b"op=0\npnode=0,0,0\n"));
//! });
//! # Ok::<(), Refusal>(())
//! ```
//!
//! Two threads that change one session don't compile:
//!
//! ```compile_fail,E0499
//! # use hengvoat::{Refusal, Session};
//! # let mut session = Session::new();
//! # session.open(b"class=0,0\nnode=3,0,0\n")?;
//! std::thread::scope(|scope| {
//!     scope.spawn(|| session.undo());
//!     scope.spawn(|| session.close());
//! });
//! # Ok::<(), Refusal>(())
//! ```
//!
//! nor does a thread that changes what another reads:
//!
//! ```compile_fail,E0502
//! # use hengvoat::{Refusal, Session};
//! # let mut session = Session::new();
//! # session.open(b"class=0,0\nnode=3,0,0\n")?;
//! std::thread::scope(|scope| {
//!     scope.spawn(|| session.save());
//!     scope.spawn(|| session.undo());
//! });
//! # Ok::<(), Refusal>(())
//! ```
//!
//! A session is moved, not copied behind one's back; a snapshot is a clone that is asked for:
//!
//! ```compile_fail,E0382
//! # use hengvoat::Session;
//! let session = Session::new();
//! let snapshot = session;
//! session.save();
//! ```
//!
//! A thread with a small stack needs [`STACK`] bytes for a call; the usual 2 MiB are enough.
//!
//! # Building
//!
//! `tools/build hengvoat`, at the root of the repository, proves the library and writes `target/staticlib/libhengvoat.a`, which this crate
//! links. If the archive stands elsewhere, set `HENGVOAT_LIB_DIR` to its folder. It is for x86-64 Unix.

#![deny(missing_docs)]
#![deny(unsafe_op_in_unsafe_fn)]
#![deny(unsafe_code)]

mod matching;
#[allow(unsafe_code)]
mod raw;
mod refusal;
mod session;

pub use matching::{Matching, Matchings};
pub use refusal::Refusal;
pub use session::{Applied, Opened, Session};

/// How many nodes a drawing has at most.
pub const NODES_MOST: usize = raw::NODES;

/// How many edges a drawing has at most.
pub const EDGES_MOST: usize = raw::EDGES;

/// How many triples of class, name and class a scheme permits at most.
pub const PERMITTED_MOST: usize = raw::PERMITTED;

/// How many nodes a pattern has at most, and so how many numbers a [`Matching`] has.
pub const PATTERN_NODES_MOST: usize = raw::PATTERN_NODES;

/// How many edges a pattern has at most.
pub const PATTERN_EDGES_MOST: usize = 8;

/// How many undo copies are kept.
pub const COPIES_MOST: usize = raw::COPIES;

/// No saved file has more bytes, so a buffer of this length is never too short for [`Session::save_into`].
pub const FILE_MOST: usize = 20_032;

/// The first so many bytes of a drawing file decide the answer to it: a longer text is refused as this part of it is.
pub const FILE_DECIDED: usize = 20_106;

/// The first so many bytes of a rule text decide the answer to it: a longer text is refused as this part of it is.
pub const RULE_DECIDED: usize = 465;

/// How many bytes of stack must be free where a call is made: more than was measured.
///
/// ```
/// # use hengvoat::{Session, STACK};
/// let small = std::thread::Builder::new().stack_size(STACK + 64 * 1024);
/// let thread = small.spawn(|| Session::new().open(b"class=0,0\n")).unwrap();
/// assert!(thread.join().unwrap().is_ok());
/// ```
pub const STACK: usize = 512 * 1024;
