//! The accepted steps, in the order in which they were accepted.

use crate::types::*;

/// A run of the history's pairs.
#[derive(Clone, Copy, PartialEq, Eq, Debug)]
pub struct Span {
    start: u32,
    len: u32,
}

#[derive(Clone, Copy, PartialEq, Eq, Debug)]
pub struct RangeArgs {
    pub min: i64,
    pub max: i64,
    pub step: u64,
    pub default: i64,
}

#[derive(Clone, Copy, PartialEq, Eq, Debug)]
pub enum Step {
    OpenFh {
        handler: u32,
    },
    CloseFh {
        fh: u32,
    },
    Set {
        fh: u32,
        pairs: Span,
    },
    Store {
        request: u32,
        pairs: Span,
    },
    Grab {
        control: u32,
        on: bool,
    },
    Alloc,
    Buffer {
        request: u32,
        buffer: u32,
    },
    Queue {
        request: u32,
    },
    Begin {
        request: u32,
    },
    Complete {
        request: u32,
    },
    Cancel {
        request: u32,
    },
    StreamOff,
    Reinit {
        request: u32,
    },
    Free {
        request: u32,
    },
    Subscribe {
        fh: u32,
        control: u32,
        flags: u32,
    },
    Unsubscribe {
        fh: u32,
        control: Option<u32>,
    },
    Take {
        fh: u32,
        control: u32,
    },
    /// The range is at this place of the history's ranges.
    ModifyRange {
        control: u32,
        range: u32,
    },
}

#[derive(Clone, Copy, PartialEq, Eq, Debug)]
pub struct Entry {
    pub seat: u32,
    pub step: Step,
}

/// Entries beside the pairs and ranges that their steps point to.
#[derive(Default)]
pub struct History {
    entries: Vec<Entry>,
    pairs: Vec<Pair>,
    ranges: Vec<RangeArgs>,
}

impl History {
    pub fn entries(&self) -> &[Entry] {
        &self.entries
    }

    /// The id that the next step makes, or ENOSPC.
    #[inline]
    pub fn room(&self) -> Result<u32, Errno> {
        if self.entries.len() < MAX_STEPS {
            Ok(self.entries.len() as u32)
        } else {
            Err(Errno::NoSpc)
        }
    }

    #[inline]
    pub fn push(&mut self, seat: u32, step: Step) {
        self.entries.push(Entry { seat, step });
    }

    pub fn add_pairs(&mut self, pairs: impl Iterator<Item = Pair>) -> Span {
        let start = self.pairs.len();
        self.pairs.extend(pairs);
        Span { start: start as u32, len: (self.pairs.len() - start) as u32 }
    }

    pub fn add_range(&mut self, range: RangeArgs) -> u32 {
        self.ranges.push(range);
        self.ranges.len() as u32 - 1
    }

    pub fn pairs(&self, span: Span) -> &[Pair] {
        &self.pairs[span.start as usize..][..span.len as usize]
    }

    pub fn range(&self, place: u32) -> RangeArgs {
        self.ranges[place as usize]
    }
}
