//! A second engine for "The drawing as a graph, and the rules that change it" (document 01).
//!
//! The engine holds one scheme and one drawing, runs one rule per call and keeps undo copies. It
//! is written with standard collections only and shares nothing with any other engine, so that it
//! can stand on the other side of a differential test and serve as the yardstick of a benchmark.
//!
//! What things cost, with n nodes, m edges and M matchings:
//!
//! * `open` and `save` take O((n + m) log (n + m)).
//! * `apply` copies the drawing once and then visits every matching, one after another, since it
//!   has to report how many there are. M can be as large as n to the power of 6.
//! * `first` and `after` stop at the first matching found; `after` goes straight to the given
//!   list.
//! * `undo` and `close` move whole drawings and copy nothing.
//!
//! ```
//! use second_engine::Engine;
//!
//! let mut engine = Engine::new();
//! let opened = engine.open(b"class=0,0\nnode=3,0,0\nnode=5,0,0\n").unwrap();
//! assert_eq!((opened.classes, opened.names), (1, 0));
//! let rule = b"op=0\npnode=0,0,0\n";
//! assert_eq!(engine.first(rule), Ok(Some(vec![3])));
//! assert_eq!(engine.after(rule, &[3]), Ok(Some(vec![5])));
//! assert_eq!(engine.after(rule, &[5]), Ok(None));
//! ```

#![forbid(unsafe_code)]
#![warn(missing_docs)]

mod drawing;
mod engine;
mod file;
mod lines;
mod matching;
mod operations;
mod refusal;
mod rule;
mod scheme;

pub use engine::{Counts, Engine, Opened};
pub use refusal::Refused;
