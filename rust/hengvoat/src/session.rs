//! The session, and the calls on it.

use std::fmt;

use crate::matching::{Matching, Matchings};
use crate::raw;
use crate::refusal::Refusal;
use crate::FILE_MOST;

/// What [`Session::open`] reports.
#[derive(Clone, Copy, Debug, PartialEq, Eq, Hash)]
pub struct Opened {
    /// How many classes the file declares.
    pub classes: u64,
    /// How many edge names it declares.
    pub names: u64,
}

/// What [`Session::apply`] reports. Nodes and edges are compared whole: what both drawings have is counted neither as added nor as removed.
#[derive(Clone, Copy, Debug, PartialEq, Eq, Hash)]
pub struct Applied {
    /// How many matchings the pattern has in the old drawing.
    pub matchings: u64,
    /// How many nodes only the new drawing has.
    pub nodes_added: u64,
    /// How many edges only the new drawing has.
    pub edges_added: u64,
    /// How many nodes only the old drawing has.
    pub nodes_removed: u64,
    /// How many edges only the old drawing has.
    pub edges_removed: u64,
}

/// A session: nothing, or one open drawing under its scheme, with at most eight undo copies.
///
/// A clone is a snapshot that goes its own way. A session is plain data: it can be sent to another thread, and several threads may read
/// one at the same time ([`first`](Session::first), [`after`](Session::after), [`matchings`](Session::matchings), [`save`](Session::save)).
///
/// ```
/// use hengvoat::{Refusal, Session};
///
/// let mut session = Session::new();
/// session.open(b"class=0,0\nnode=3,0,0\n")?;
/// let before = session.clone();
/// session.apply(b"op=3\npnode=0,0,0\ndrop=0\n")?;
/// assert_eq!(session.save()?, b"class=0,0\n");
/// assert_eq!(before.save()?, b"class=0,0\nnode=3,0,0\n");
/// # Ok::<(), Refusal>(())
/// ```
#[derive(Clone)]
pub struct Session {
    // 56 KiB: on the heap, so that a session is moved as a pointer.
    raw: Box<raw::Session>,
}

impl Session {
    /// A session with nothing open.
    ///
    /// # Examples
    ///
    /// ```
    /// use hengvoat::{Refusal, Session};
    ///
    /// assert_eq!(Session::new().save(), Err(Refusal::NotOpen));
    /// ```
    pub fn new() -> Session {
        Session { raw: raw::new() }
    }

    /// Opens a drawing file: scheme and drawing are the file's, with no undo copies. The empty text is an empty drawing.
    ///
    /// # Errors
    ///
    /// Refused with [`AlreadyOpen`](Refusal::AlreadyOpen), or for the file's first bad line with the first of
    /// [`Malformed`](Refusal::Malformed), [`TooMany`](Refusal::TooMany), [`Undeclared`](Refusal::Undeclared) and
    /// [`Nonconforming`](Refusal::Nonconforming) that applies to it.
    ///
    /// # Examples
    ///
    /// ```
    /// use hengvoat::{Opened, Refusal, Session};
    ///
    /// // Cabinets (class 0) and widths (class 1, with values); a cabinet is as wide as (name 0) one width, and stands beside (name 1) any
    /// // number of cabinets. Cabinet 3 is 60 mm wide and stands beside cabinet 5.
    /// let kitchen = b"class=0,0\nclass=1,1\nname=0,0\nname=1,1\nmay=0,0,1\nmay=0,1,0\n\
    ///     node=3,0,0\nnode=5,0,0\nnode=6,1,600\nedge=3,0,6\nedge=3,1,5\n";
    /// let mut session = Session::new();
    /// assert_eq!(session.open(kitchen), Ok(Opened { classes: 2, names: 2 }));
    /// assert_eq!(session.open(kitchen), Err(Refusal::AlreadyOpen));
    /// ```
    ///
    /// A file is bytes. A text in a string is given as its bytes, and a string is not taken for the name of a file:
    ///
    /// ```compile_fail,E0308
    /// # let mut session = hengvoat::Session::new();
    /// session.open("class=0,0\n");
    /// ```
    ///
    /// ```
    /// # let mut session = hengvoat::Session::new();
    /// session.open("class=0,0\n".as_bytes())?;
    /// # Ok::<(), hengvoat::Refusal>(())
    /// ```
    pub fn open(&mut self, file: &[u8]) -> Result<Opened, Refusal> {
        let result = raw::open(&mut self.raw, file);
        done(result.refusal, result.returned)?;
        Ok(Opened {
            classes: result.classes,
            names: result.names,
        })
    }

    /// Applies a rule to every matching of its pattern in the drawing as it stands. The old drawing becomes the newest undo copy, and a
    /// ninth is dropped, also where the rule changes nothing.
    ///
    /// The time grows with the number of matchings, which is at most 256 to the power of the pattern's nodes: join them by edges.
    ///
    /// # Errors
    ///
    /// Refused with [`NotOpen`](Refusal::NotOpen); for the text's first bad line with [`Malformed`](Refusal::Malformed),
    /// [`TooMany`](Refusal::TooMany), [`Undeclared`](Refusal::Undeclared), [`Nonconforming`](Refusal::Nonconforming) or
    /// [`BadAction`](Refusal::BadAction); or, as the result has no room or would not conform, with [`NodesFull`](Refusal::NodesFull),
    /// [`NumbersFull`](Refusal::NumbersFull), [`EdgesFull`](Refusal::EdgesFull) or [`FunctionalClash`](Refusal::FunctionalClash).
    ///
    /// # Examples
    ///
    /// ```
    /// use hengvoat::{Applied, Refusal, Session};
    ///
    /// let mut session = Session::new();
    /// session.open(
    ///     b"class=0,0\nclass=1,1\nname=0,0\nname=1,1\nmay=0,0,1\nmay=0,1,0\n\
    ///     node=3,0,0\nnode=5,0,0\nnode=6,1,600\nedge=3,0,6\nedge=3,1,5\n",
    /// )?;
    ///
    /// // Where a cabinet has a width and stands beside a cabinet, that one gets the same width.
    /// let same_width = b"op=2\npnode=0,0,0\npnode=0,0,0\npnode=1,0,0\npedge=0,0,2\npedge=0,1,1\nput=1,0,2\n";
    /// let applied = session.apply(same_width)?;
    /// assert_eq!(applied, Applied { matchings: 1, nodes_added: 0, edges_added: 1, nodes_removed: 0, edges_removed: 0 });
    /// assert!(session.save()?.ends_with(b"edge=5,0,6\n"));
    ///
    /// // A rule that would give a node two edges of a functional name is refused, and changes nothing.
    /// session.undo()?;
    /// session.close()?;
    /// session.open(b"class=0,0\nclass=1,1\nname=0,0\nmay=0,0,1\nnode=3,0,0\nnode=6,1,600\nnode=7,1,720\n")?;
    /// let every_width = b"op=2\npnode=0,0,0\npnode=1,0,0\nput=0,0,1\n";
    /// assert_eq!(session.apply(every_width), Err(Refusal::FunctionalClash { node: 3 }));
    /// # Ok::<(), Refusal>(())
    /// ```
    pub fn apply(&mut self, rule: &[u8]) -> Result<Applied, Refusal> {
        let result = raw::apply(&mut self.raw, rule);
        done(result.refusal, result.returned)?;
        Ok(Applied {
            matchings: result.matchings,
            nodes_added: result.nodes_added,
            edges_added: result.edges_added,
            nodes_removed: result.nodes_removed,
            edges_removed: result.edges_removed,
        })
    }

    /// The newest copy is the drawing again, and is no copy any more. There is no redo; a clone keeps what should not be lost.
    ///
    /// # Errors
    ///
    /// Refused with [`NotOpen`](Refusal::NotOpen) or [`NoCopy`](Refusal::NoCopy).
    ///
    /// # Examples
    ///
    /// ```
    /// use hengvoat::{Refusal, Session};
    ///
    /// let mut session = Session::new();
    /// session.open(b"class=0,0\nnode=3,0,0\n")?;
    /// session.apply(b"op=3\npnode=0,0,0\ndrop=0\n")?;
    /// session.undo()?;
    /// assert_eq!(session.save()?, b"class=0,0\nnode=3,0,0\n");
    /// assert_eq!(session.undo(), Err(Refusal::NoCopy));
    /// # Ok::<(), Refusal>(())
    /// ```
    pub fn undo(&mut self) -> Result<(), Refusal> {
        let result = raw::undo(&mut self.raw);
        done(result.refusal, result.returned)
    }

    /// Nothing is open any more; drawing and copies are gone.
    ///
    /// # Errors
    ///
    /// Refused with [`NotOpen`](Refusal::NotOpen).
    ///
    /// # Examples
    ///
    /// ```
    /// use hengvoat::{Refusal, Session};
    ///
    /// let mut session = Session::new();
    /// session.open(b"")?;
    /// session.close()?;
    /// assert_eq!(session.close(), Err(Refusal::NotOpen));
    /// # Ok::<(), Refusal>(())
    /// ```
    pub fn close(&mut self) -> Result<(), Refusal> {
        let result = raw::close(&mut self.raw);
        done(result.refusal, result.returned)
    }

    /// The smallest matching of the rule's pattern in the drawing, or none. The action is not carried out, but its lines too must be such
    /// as [`apply`](Session::apply) accepts.
    ///
    /// # Errors
    ///
    /// Refused with [`NotOpen`](Refusal::NotOpen), or for the text's first bad line as [`apply`](Session::apply) is.
    ///
    /// # Examples
    ///
    /// ```
    /// use hengvoat::{Refusal, Session};
    ///
    /// let mut session = Session::new();
    /// session.open(b"class=0,0\nclass=1,0\nnode=3,0,0\nnode=5,0,0\n")?;
    /// assert_eq!(session.first(b"op=0\npnode=0,0,0\npnode=0,0,0\n")?.as_deref(), Some(&[3, 3][..]));
    /// assert_eq!(session.first(b"op=0\npnode=1,0,0\n")?, None);
    /// // The empty pattern has one matching, the empty list.
    /// assert_eq!(session.first(b"op=0\n")?.as_deref(), Some(&[][..]));
    /// assert_eq!(session.first(b"op=0\npnode=2,0,0\n"), Err(Refusal::Undeclared { line: 2 }));
    /// # Ok::<(), Refusal>(())
    /// ```
    pub fn first(&self, rule: &[u8]) -> Result<Option<Matching>, Refusal> {
        found(raw::first(&self.raw, rule))
    }

    /// The smallest matching greater than the list, or none. The list need not be a matching, and its numbers may be of any size, but it
    /// has as many as the pattern has nodes.
    ///
    /// # Errors
    ///
    /// Refused as [`first`](Session::first) is, and with [`LengthDiffers`](Refusal::LengthDiffers).
    ///
    /// # Examples
    ///
    /// ```
    /// use hengvoat::{Refusal, Session};
    ///
    /// let mut session = Session::new();
    /// session.open(b"class=0,0\nnode=3,0,0\nnode=5,0,0\n")?;
    /// let pair = b"op=0\npnode=0,0,0\npnode=0,0,0\n";
    /// assert_eq!(session.after(pair, &[3, 4])?.as_deref(), Some(&[3, 5][..]));
    /// assert_eq!(session.after(pair, &[5, u64::MAX])?, None);
    /// assert_eq!(session.after(pair, &[5]), Err(Refusal::LengthDiffers { length: 2 }));
    /// # Ok::<(), Refusal>(())
    /// ```
    pub fn after(&self, rule: &[u8], list: &[u64]) -> Result<Option<Matching>, Refusal> {
        found(raw::after(&self.raw, rule, list))
    }

    /// All matchings of the rule's pattern, each once, in rising order: [`first`](Session::first), and then [`after`](Session::after) on
    /// each matching given.
    ///
    /// # Errors
    ///
    /// Refused as [`first`](Session::first) is. Once the rule is accepted, the iterator meets no refusal: the session can't change while
    /// it is lent to the listing.
    ///
    /// # Examples
    ///
    /// ```
    /// use hengvoat::{Refusal, Session};
    ///
    /// let mut session = Session::new();
    /// session.open(b"class=0,0\nnode=3,0,0\nnode=5,0,0\n")?;
    /// let pairs: Vec<_> = session.matchings(b"op=0\npnode=0,0,0\npnode=0,0,0\n")?.map(|matching| matching.to_vec()).collect();
    /// assert_eq!(pairs, [[3, 3], [3, 5], [5, 3], [5, 5]]);
    /// # Ok::<(), Refusal>(())
    /// ```
    ///
    /// To apply a rule in the midst of a listing doesn't compile:
    ///
    /// ```compile_fail,E0502
    /// # use hengvoat::{Refusal, Session};
    /// # let mut session = Session::new();
    /// # session.open(b"class=0,0\nnode=3,0,0\nnode=5,0,0\n")?;
    /// # let rule = b"op=3\npnode=0,0,0\ndrop=0\n";
    /// for matching in session.matchings(rule)? {
    ///     session.apply(rule)?;
    /// }
    /// # Ok::<(), Refusal>(())
    /// ```
    ///
    /// Collect the listing, or list a clone:
    ///
    /// ```
    /// # use hengvoat::{Refusal, Session};
    /// # let mut session = Session::new();
    /// # session.open(b"class=0,0\nnode=3,0,0\nnode=5,0,0\n")?;
    /// # let rule = b"op=3\npnode=0,0,0\ndrop=0\n";
    /// for matching in session.clone().matchings(rule)? {
    ///     session.apply(rule)?;
    /// }
    /// # Ok::<(), Refusal>(())
    /// ```
    ///
    /// Nor does a listing outlive its rule:
    ///
    /// ```compile_fail,E0597
    /// # use hengvoat::{Refusal, Session};
    /// # let mut session = Session::new();
    /// # session.open(b"class=0,0\nnode=3,0,0\nnode=5,0,0\n")?;
    /// let listing = {
    ///     let rule = b"op=0\npnode=0,0,0\n".to_vec();
    ///     session.matchings(&rule)?
    /// };
    /// assert_eq!(listing.count(), 2);
    /// # Ok::<(), Refusal>(())
    /// ```
    pub fn matchings<'a>(&'a self, rule: &'a [u8]) -> Result<Matchings<'a>, Refusal> {
        Ok(Matchings::of(self, rule, self.first(rule)?))
    }

    /// The drawing file of what is open. A file that was opened is saved as the same bytes, and a saved file opens as the same drawing.
    ///
    /// # Errors
    ///
    /// Refused with [`NotOpen`](Refusal::NotOpen).
    ///
    /// # Examples
    ///
    /// ```
    /// use hengvoat::{Refusal, Session};
    ///
    /// let file = b"class=0,0\nnode=3,0,0\n";
    /// let mut session = Session::new();
    /// session.open(file)?;
    /// assert_eq!(session.save()?, file);
    /// # Ok::<(), Refusal>(())
    /// ```
    pub fn save(&self) -> Result<Vec<u8>, Refusal> {
        // No file is longer, so this is not refused for its length.
        let mut file = vec![0; FILE_MOST];
        let length = self.save_into(&mut file)?;
        file.truncate(length);
        file.shrink_to_fit();
        Ok(file)
    }

    /// Writes the drawing file at the front of the buffer, and gives its length. The rest of the buffer is left as it was. A buffer of
    /// exactly the file's length is enough, and one of [`FILE_MOST`] bytes always is.
    ///
    /// # Errors
    ///
    /// Refused with [`NotOpen`](Refusal::NotOpen) or [`BufferShort`](Refusal::BufferShort).
    ///
    /// # Examples
    ///
    /// ```
    /// use hengvoat::{Refusal, Session};
    ///
    /// let mut session = Session::new();
    /// session.open(b"class=0,0\n")?;
    /// let mut buffer = *b"............";
    /// assert_eq!(session.save_into(&mut buffer), Ok(10));
    /// assert_eq!(&buffer, b"class=0,0\n..");
    /// assert_eq!(session.save_into(&mut buffer[..9]), Err(Refusal::BufferShort { needed: 10 }));
    /// # Ok::<(), Refusal>(())
    /// ```
    pub fn save_into(&self, buffer: &mut [u8]) -> Result<usize, Refusal> {
        let result = raw::save(&self.raw, buffer);
        done(result.refusal, result.returned)?;
        Ok(result.length as usize)
    }
}

fn done(refusal: u64, returned: u64) -> Result<(), Refusal> {
    Refusal::of(refusal, returned).map_or(Ok(()), Err)
}

fn found(result: raw::MatchingResult) -> Result<Option<Matching>, Refusal> {
    done(result.refusal, result.returned)?;
    Ok((result.found != 0).then(|| Matching::of(result.numbers, result.length)))
}

impl Default for Session {
    fn default() -> Session {
        Session::new()
    }
}

/// Whether something is open, and how much: not the drawing itself, which [`save`](Session::save) gives.
impl fmt::Debug for Session {
    fn fmt(&self, f: &mut fmt::Formatter<'_>) -> fmt::Result {
        if !self.raw.opened {
            return f.write_str("Session(shut)");
        }
        f.debug_struct("Session")
            .field("nodes", &self.raw.instance.order)
            .field("edges", &self.raw.instance.size)
            .field("copies", &self.raw.history.depth)
            .finish()
    }
}
