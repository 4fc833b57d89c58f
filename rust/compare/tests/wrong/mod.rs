//! An engine that is wrong in one small way, made from a right one by its public calls.

mod applying;
mod growing;
mod reading;

use compare::calls::{Answer, Call};
use compare::engines::{Engine, Second};
use compare::kitchen::Kitchen;

/// What is wrong with an engine.
#[derive(Clone, Copy, Debug, PartialEq, Eq)]
pub enum Fault {
    /// Nothing: what stands around a fault is right.
    Nothing,
    // Plausible, and a fault.
    MatchesOneToOne,
    MatchesNodesJustAdded,
    ServesWithExtraTargets,
    TwelveThoughEleven,
    KeepsAnEdgeToADeletedNode,
    // The operations.
    CountsOneMatchingMore,
    CountsOneNodeLess,
    NoMatchingOfTheEmptyPattern,
    AfterGivesTheListItself,
    AfterReads16Bits,
    AfterReads32Bits,
    FillsGaps,
    JustAddedDontServe,
    ServesExactly,
    NoGroupWithoutEdges,
    GroupsByFirstTarget,
    GroupsTheWholeClass,
    NineForTheWhole,
    LargestClash,
    TenBeforeNine,
    ElevenBeforeTen,
    // The record.
    NineCopies,
    SevenCopies,
    NoCopyOfTheSame,
    CopyWhenRefused,
    UndoKeepsTheCopy,
    RefusalDropsAnEdge,
    RefusedSaveWrites,
    SaveClearsTheRest,
    SaveOneByteLess,
    SaveWantsOneByteMore,
    // The texts.
    Wraps16,
    Wraps32,
    Wraps64,
    LeadingZeros,
    Signs,
    CarriageReturns,
    LastLineUnended,
    EmptyLastLine,
    AnyCase,
    MissingLineIsTheLast,
    ThreeBeforeTwo,
    LengthBeforeLines,
    LinesBeforeShut,
}

/// How many copies document 01 allows.
const COPIES: usize = 8;

/// An engine with a fault. It keeps its copies itself, as files, so that it can set the drawing.
pub struct Wrong {
    fault: Fault,
    inner: Second,
    copies: Vec<Vec<u8>>,
}

impl Wrong {
    /// A session of an engine with the fault.
    pub fn new(fault: Fault) -> Wrong {
        Wrong { fault, inner: Second::new(), copies: Vec::new() }
    }

    fn has(&self, fault: Fault) -> bool {
        self.fault == fault
    }

    /// The drawing that is open.
    fn kitchen(&mut self) -> Option<Kitchen> {
        self.inner.file().ok().map(|file| Kitchen::read(&file))
    }

    /// Sets the drawing.
    fn set(&mut self, file: &[u8]) {
        self.inner.make(&Call::Close, &mut []);
        self.inner.make(&Call::Open(file.to_vec()), &mut []);
    }

    fn apply(&mut self, rule: &[u8]) -> Answer {
        let old = self.inner.file();
        let answer = self.applied(rule);
        let Ok(old) = old else {
            return answer;
        };
        let same = self.has(Fault::NoCopyOfTheSame) && self.inner.file().as_ref() == Ok(&old);
        if !same && (answer.accepted() || self.has(Fault::CopyWhenRefused)) {
            let most = match self.fault {
                Fault::NineCopies => COPIES + 1,
                Fault::SevenCopies => COPIES - 1,
                _ => COPIES,
            };
            self.copies.insert(0, old);
            self.copies.truncate(most);
        }
        answer
    }

    fn undo(&mut self) -> Answer {
        if self.inner.file().is_err() {
            return Answer::Refused(6, 0);
        }
        let Some(copy) = self.copies.first().cloned() else {
            return Answer::Refused(8, 0);
        };
        if !self.has(Fault::UndoKeepsTheCopy) {
            self.copies.remove(0);
        }
        self.set(&copy);
        Answer::Done(Vec::new())
    }

    fn open(&mut self, file: &[u8]) -> Answer {
        let answer = self.inner.make(&Call::Open(file.to_vec()), &mut []);
        if answer.accepted() {
            self.copies.clear();
        }
        answer
    }

    fn save(&mut self, buffer: &mut [u8]) -> Answer {
        let Ok(file) = self.inner.file() else {
            return Answer::Refused(6, 0);
        };
        let (length, given) = (file.len(), buffer.len());
        if given < length || given == length && self.has(Fault::SaveWantsOneByteMore) {
            if self.has(Fault::RefusedSaveWrites) {
                buffer.copy_from_slice(&file[..given]);
            }
            return Answer::Refused(13, length as u64);
        }
        buffer[..length].copy_from_slice(&file);
        if self.has(Fault::SaveClearsTheRest) {
            buffer[length..].fill(0);
        }
        let less = usize::from(self.has(Fault::SaveOneByteLess)).min(length);
        Answer::Done(vec![(length - less) as u64])
    }

    /// First, or after the list.
    fn next(&mut self, rule: &[u8], list: Option<&[u64]>) -> Answer {
        if let (Fault::AfterGivesTheListItself, Some([front @ .., last @ (1..)])) = (self.fault, list) {
            let before = [front, &[last - 1]].concat();
            return self.inner.make(&Call::After(rule.to_vec(), before), &mut []);
        }
        let bits = match self.fault {
            Fault::AfterReads16Bits => u64::from(u16::MAX),
            Fault::AfterReads32Bits => u64::from(u32::MAX),
            _ => u64::MAX,
        };
        let mut call = match list {
            None => Call::First(rule.to_vec()),
            Some(list) => Call::After(rule.to_vec(), list.iter().map(|number| number & bits).collect()),
        };
        loop {
            match self.inner.make(&call, &mut []) {
                Answer::Matching(found) if !self.matches(&found) => call = Call::After(rule.to_vec(), found),
                other => return other,
            }
        }
    }

    /// Whether this engine sees the matching.
    fn matches(&self, matching: &[u64]) -> bool {
        match self.fault {
            Fault::MatchesOneToOne => (1..matching.len()).all(|place| !matching[..place].contains(&matching[place])),
            Fault::NoMatchingOfTheEmptyPattern => !matching.is_empty(),
            _ => true,
        }
    }
}

impl Engine for Wrong {
    fn fresh(&self) -> Wrong {
        Wrong::new(self.fault)
    }

    fn make(&mut self, call: &Call, buffer: &mut [u8]) -> Answer {
        let read = self.read(call);
        let answer = match &read {
            Call::Open(file) => self.open(file),
            Call::Apply(rule) => self.apply(rule),
            Call::Undo => self.undo(),
            Call::Close => self.inner.make(&read, &mut []),
            Call::First(rule) => self.next(rule, None),
            Call::After(rule, list) => self.next(rule, Some(list)),
            Call::Save(_) => self.save(buffer),
        };
        self.told(call, answer)
    }
}
