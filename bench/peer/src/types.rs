//! Numbers, values and small sets.

/// Flags of a control.
pub mod flag {
    pub const DISABLED: u32 = 0x1;
    pub const GRABBED: u32 = 0x2;
    pub const READ_ONLY: u32 = 0x4;
    pub const UPDATE: u32 = 0x8;
    pub const INACTIVE: u32 = 0x10;
    pub const WRITE_ONLY: u32 = 0x40;
    pub const EXECUTE_ON_WRITE: u32 = 0x200;
}

/// Bits of an event's `changes`.
pub mod change {
    pub const VALUE: u32 = 1;
    pub const FLAGS: u32 = 2;
    pub const RANGE: u32 = 4;
}

/// Bits of a subscription.
pub mod sub {
    pub const SEND_INITIAL: u32 = 1;
    pub const ALLOW_FEEDBACK: u32 = 2;
}

pub const WHICH_CURRENT: u32 = 0;
pub const WHICH_DEFAULT: u32 = 0x0f00_0000;
pub const WHICH_REQUEST: u32 = 0x0f01_0000;
pub const CLASS_MASK: u32 = 0x0fff_0000;
pub const USER_CLASS: u32 = 0x0098_0000;
pub const CAMERA_CLASS: u32 = 0x009a_0000;

pub const MAX_CONTROLS: usize = 256;
pub const MAX_MEMBERS: usize = 8;
pub const MAX_HANDLERS: usize = 16;
/// File handles, and requests too.
pub const MAX_HANDLES: usize = 64;
pub const MAX_ENTRIES: usize = 64;
pub const MAX_STEPS: usize = 1_000_000;
pub const MAX_ELEMS: usize = 32;
pub const MAX_SCRIPT: usize = 1_048_576;

/// The id that never names anything.
pub const NO_ID: u32 = u32::MAX;

#[derive(Clone, Copy, PartialEq, Eq, Debug)]
pub enum Errno {
    NoEnt = 2,
    BadF = 9,
    Acces = 13,
    Busy = 16,
    Inval = 22,
    NoSpc = 28,
    Range = 34,
}

/// A refusal; the index is there for lists alone.
#[derive(Clone, Copy, PartialEq, Eq, Debug)]
pub struct Fault {
    pub errno: Errno,
    pub index: Option<u32>,
}

impl From<Errno> for Fault {
    fn from(errno: Errno) -> Fault {
        Fault { errno, index: None }
    }
}

/// The kinds of the sample device's controls, and of arrays.
#[derive(Clone, Copy, PartialEq, Eq, Debug)]
pub enum Kind {
    Integer = 1,
    Boolean = 2,
    Menu = 3,
    Button = 4,
    U8 = 0x100,
}

#[derive(Clone, Copy, PartialEq, Eq, Debug)]
pub enum Which {
    Current,
    Defaults,
    Class(u32),
    Request,
}

impl Which {
    pub fn read(raw: u32) -> Result<Which, Errno> {
        match raw {
            WHICH_CURRENT => Ok(Which::Current),
            WHICH_DEFAULT => Ok(Which::Defaults),
            WHICH_REQUEST => Ok(Which::Request),
            class if class & !CLASS_MASK == 0 => Ok(Which::Class(class)),
            _ => Err(Errno::Inval),
        }
    }
}

/// The bytes of a U8 array; those behind `len` are zero.
#[derive(Clone, Copy, PartialEq, Eq, Debug)]
pub struct ByteRow {
    len: u8,
    bytes: [u8; MAX_ELEMS],
}

impl ByteRow {
    /// `None` for more than 32 bytes.
    pub fn new(bytes: &[u8]) -> Option<ByteRow> {
        let mut row = ByteRow { len: bytes.len() as u8, bytes: [0; MAX_ELEMS] };
        row.bytes.get_mut(..bytes.len())?.copy_from_slice(bytes);
        Some(row)
    }

    pub fn filled(byte: u8, len: usize) -> ByteRow {
        let mut row = ByteRow { len: len as u8, bytes: [0; MAX_ELEMS] };
        row.bytes[..len].fill(byte);
        row
    }

    pub fn as_slice(&self) -> &[u8] {
        &self.bytes[..self.len as usize]
    }

    pub fn as_mut_slice(&mut self) -> &mut [u8] {
        &mut self.bytes[..self.len as usize]
    }
}

#[derive(Clone, Copy, PartialEq, Eq, Debug)]
pub enum Value {
    Number(i64),
    Bytes(ByteRow),
}

impl Value {
    pub fn number(&self) -> Option<i64> {
        match self {
            Value::Number(n) => Some(*n),
            Value::Bytes(_) => None,
        }
    }
}

/// An entry of a caller's list.
#[derive(Clone, Copy, Debug)]
pub struct ExtControl {
    pub id: u32,
    pub value: Value,
}

/// A control's number with a value as the caller gave it.
#[derive(Clone, Copy, PartialEq, Eq, Debug)]
pub struct Pair {
    pub control: u32,
    pub value: Value,
}

/// A set of numbers below 256: controls or clusters.
#[derive(Clone, Copy, PartialEq, Eq, Debug, Default)]
pub struct Set256([u64; 4]);

impl Set256 {
    pub const EMPTY: Set256 = Set256([0; 4]);

    #[inline]
    pub fn insert(&mut self, n: usize) {
        self.0[n >> 6] |= 1 << (n & 63);
    }

    #[inline]
    pub fn remove(&mut self, n: usize) {
        self.0[n >> 6] &= !(1 << (n & 63));
    }

    #[inline]
    pub fn put(&mut self, n: usize, on: bool) {
        if on {
            self.insert(n)
        } else {
            self.remove(n)
        }
    }

    #[inline]
    pub fn contains(&self, n: usize) -> bool {
        self.0[n >> 6] >> (n & 63) & 1 != 0
    }

    pub fn is_empty(&self) -> bool {
        self.0 == [0; 4]
    }

    /// How many members lie below `n`.
    #[inline]
    pub fn rank(&self, n: usize) -> usize {
        let word = n >> 6;
        let below = (self.0[word] & ((1 << (n & 63)) - 1)).count_ones();
        self.0[..word].iter().map(|w| w.count_ones()).sum::<u32>() as usize + below as usize
    }

    /// The members, rising.
    #[inline]
    pub fn iter(self) -> Members {
        Members { words: self.0, at: 0 }
    }

    pub fn union(self, other: Set256) -> Set256 {
        Set256(std::array::from_fn(|i| self.0[i] | other.0[i]))
    }
}

pub struct Members {
    words: [u64; 4],
    at: usize,
}

impl Iterator for Members {
    type Item = usize;

    #[inline]
    fn next(&mut self) -> Option<usize> {
        while let Some(&word) = self.words.get(self.at) {
            if word != 0 {
                self.words[self.at] = word & (word - 1);
                return Some(self.at * 64 + word.trailing_zeros() as usize);
            }
            self.at += 1;
        }
        None
    }
}

/// The places of the ones of a word, rising.
pub struct Bits(pub u64);

impl Iterator for Bits {
    type Item = usize;

    #[inline]
    fn next(&mut self) -> Option<usize> {
        if self.0 == 0 {
            return None;
        }
        let place = self.0.trailing_zeros() as usize;
        self.0 &= self.0 - 1;
        Some(place)
    }
}
