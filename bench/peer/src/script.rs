//! The script language and the reply lines, as docs/SCRIPTS.md has them.

use std::collections::HashMap;
use std::hash::{BuildHasherDefault, Hasher};
use std::ops::Range;

use crate::device::{Device, ListAsk};
use crate::history::RangeArgs;
use crate::requests::State;
use crate::sample;
use crate::types::*;

/// A line that isn't a command.
#[derive(Debug)]
pub struct NotACommand;

type Parsed<T> = Result<T, NotACommand>;

/// A name of 1 to 16 letters and digits, padded with zeros.
pub type Name = u128;

#[derive(Clone, Copy)]
pub enum ListOp {
    Get,
    Set,
    Try,
}

#[derive(Clone, Copy)]
pub enum RequestOp {
    Queue,
    Cancel,
    Reinit,
    Free,
    State,
}

pub enum Command {
    Open {
        fh: Name,
        handler: u32,
    },
    Close {
        fh: Name,
    },
    List {
        op: ListOp,
        fh: Name,
        which: u32,
        request: Option<Name>,
        entries: Range<usize>,
    },
    Grab {
        control: usize,
        on: bool,
    },
    Alloc {
        request: Name,
    },
    Buffer {
        request: Name,
        buffer: u32,
    },
    Request {
        op: RequestOp,
        request: Name,
    },
    Begin,
    Complete,
    Off,
    Sub {
        fh: Name,
        id: u32,
        flags: u32,
    },
    Unsub {
        fh: Name,
        id: u32,
    },
    Take {
        fh: Name,
    },
    Query {
        fh: Name,
        id: u32,
    },
    Next {
        fh: Name,
        id: u32,
    },
    Menu {
        fh: Name,
        id: u32,
        index: u32,
    },
    Told {
        cluster: u32,
    },
    Row {
        place: u32,
    },
    Range {
        control: usize,
        args: RangeArgs,
    },
    Audit,
    /// The dividing line of `pair`.
    Divide,
}

/// A script that is read command by command.
pub struct Script<'a> {
    data: &'a [u8],
    /// Whether the device has an array, for which there is a word then.
    has_array: bool,
    at: usize,
    line: u32,
}

/// The words of the rest of a line.
struct Words<'s, 'a>(&'s mut Script<'a>);

impl<'a> Iterator for Words<'_, 'a> {
    type Item = &'a [u8];

    #[inline]
    fn next(&mut self) -> Option<&'a [u8]> {
        let rest = &self.0.data[self.0.at..];
        let start = rest.iter().position(|&b| b != b' ').unwrap_or(rest.len());
        let rest = &rest[start..];
        let len = rest.iter().position(|&b| b == b' ' || b == b'\n').unwrap_or(rest.len());
        self.0.at += start + len;
        (len > 0).then(|| &rest[..len])
    }
}

impl Words<'_, '_> {
    /// The number of the control that the next word names.
    fn control(&mut self) -> Parsed<usize> {
        let word = self.next().ok_or(NotACommand)?;
        sample::word(word, self.0.has_array).ok_or(NotACommand)
    }

    /// The id that the next word is, or that of the control that it names.
    fn id(&mut self) -> Parsed<u32> {
        let word = self.next().ok_or(NotACommand)?;
        id_of(word, self.0.has_array)
    }
}

impl<'a> Script<'a> {
    pub fn new(data: &'a [u8], has_array: bool) -> Script<'a> {
        Script { data, has_array, at: 0, line: 0 }
    }

    /// The number of the line that was read last.
    pub fn line(&self) -> u32 {
        self.line
    }

    /// The next command; the entries of a list are put behind those in `entries`.
    pub fn next(&mut self, entries: &mut Vec<ExtControl>) -> Option<Parsed<Command>> {
        while self.at < self.data.len() {
            self.line += 1;
            let command = match Words(self).next() {
                None => None,
                Some([b'#', ..]) => {
                    let rest = &self.data[self.at..];
                    self.at += rest.iter().position(|&b| b == b'\n').unwrap_or(rest.len());
                    None
                }
                Some(first) => Some(command(first, Words(self), entries)),
            };
            self.at += 1;
            if command.is_some() {
                return command;
            }
        }
        None
    }
}

fn command(first: &[u8], mut words: Words, entries: &mut Vec<ExtControl>) -> Parsed<Command> {
    let words = &mut words;
    let command = match first {
        b"get" => list(ListOp::Get, words, entries)?,
        b"set" => list(ListOp::Set, words, entries)?,
        b"try" => list(ListOp::Try, words, entries)?,
        b"open" => Command::Open { fh: name(words.next())?, handler: number(words.next())? },
        b"close" => Command::Close { fh: name(words.next())? },
        b"grab" => {
            let control = words.control()?;
            let on = match words.next() {
                Some(b"on") => true,
                Some(b"off") => false,
                _ => return Err(NotACommand),
            };
            Command::Grab { control, on }
        }
        b"alloc" => Command::Alloc { request: name(words.next())? },
        b"buffer" => Command::Buffer { request: name(words.next())?, buffer: number(words.next())? },
        b"queue" => Command::Request { op: RequestOp::Queue, request: name(words.next())? },
        b"cancel" => Command::Request { op: RequestOp::Cancel, request: name(words.next())? },
        b"reinit" => Command::Request { op: RequestOp::Reinit, request: name(words.next())? },
        b"free" => Command::Request { op: RequestOp::Free, request: name(words.next())? },
        b"state" => Command::Request { op: RequestOp::State, request: name(words.next())? },
        b"begin" => Command::Begin,
        b"complete" => Command::Complete,
        b"off" => Command::Off,
        b"sub" => {
            let (fh, id) = (name(words.next())?, words.id()?);
            let flags = match (words.next(), words.next()) {
                (None, _) => 0,
                (Some(b"initial"), None) => sub::SEND_INITIAL,
                (Some(b"feedback"), None) => sub::ALLOW_FEEDBACK,
                (Some(b"initial"), Some(b"feedback")) => sub::SEND_INITIAL | sub::ALLOW_FEEDBACK,
                _ => return Err(NotACommand),
            };
            Command::Sub { fh, id, flags }
        }
        b"unsub" => Command::Unsub { fh: name(words.next())?, id: words.id()? },
        b"take" => Command::Take { fh: name(words.next())? },
        b"query" => Command::Query { fh: name(words.next())?, id: words.id()? },
        b"next" => Command::Next { fh: name(words.next())?, id: id(words.next().ok_or(NotACommand)?)? },
        b"menu" => Command::Menu { fh: name(words.next())?, id: words.id()?, index: number(words.next())? },
        b"told" => Command::Told { cluster: number(words.next())? },
        b"row" => Command::Row { place: number(words.next())? },
        b"range" => {
            let control = words.control()?;
            let mut next = || words.next().ok_or(NotACommand);
            let (min, max) = (signed(next()?)?, signed(next()?)?);
            let (step, default) = (digits(next()?, 20, u64::MAX)?, signed(next()?)?);
            Command::Range { control, args: RangeArgs { min, max, step, default } }
        }
        b"audit" => Command::Audit,
        b"==" => Command::Divide,
        _ => return Err(NotACommand),
    };
    match words.next() {
        None => Ok(command),
        Some(_) => Err(NotACommand),
    }
}

fn list(op: ListOp, words: &mut Words, entries: &mut Vec<ExtControl>) -> Parsed<Command> {
    let fh = name(words.next())?;
    let (which, request) = match words.next().ok_or(NotACommand)? {
        b"cur" => (WHICH_CURRENT, None),
        b"def" => (WHICH_DEFAULT, None),
        b"user" => (USER_CLASS, None),
        b"camera" => (CAMERA_CLASS, None),
        [b'r', b'e', b'q', b':', request @ ..] => (WHICH_REQUEST, Some(name(Some(request))?)),
        raw => (id(raw)?, None),
    };
    let (start, has_array) = (entries.len(), words.0.has_array);
    for entry in words {
        let entry = match op {
            ListOp::Get => ExtControl { id: id_of(entry, has_array)?, value: Value::Number(0) },
            ListOp::Set | ListOp::Try => {
                let equals = entry.iter().position(|&b| b == b'=').ok_or(NotACommand)?;
                ExtControl { id: id_of(&entry[..equals], has_array)?, value: value(&entry[equals + 1..])? }
            }
        };
        entries.push(entry);
    }
    Ok(Command::List { op, fh, which, request, entries: start..entries.len() })
}

fn name(word: Option<&[u8]>) -> Parsed<Name> {
    let word = word.ok_or(NotACommand)?;
    if word.is_empty() || word.len() > 16 || !word.iter().all(u8::is_ascii_alphanumeric) {
        return Err(NotACommand);
    }
    let mut padded = [0; 16];
    padded[..word.len()].copy_from_slice(word);
    Ok(u128::from_le_bytes(padded))
}

fn id_of(word: &[u8], has_array: bool) -> Parsed<u32> {
    match sample::word(word, has_array) {
        Some(control) => Ok(sample::word_id(control)),
        None => id(word),
    }
}

fn hex_digit(byte: u8) -> Parsed<u32> {
    (byte as char).to_digit(16).ok_or(NotACommand)
}

fn id(word: &[u8]) -> Parsed<u32> {
    match word {
        [b'0', b'x', digits @ ..] if (1..=8).contains(&digits.len()) => {
            digits.iter().try_fold(0, |n, &b| Ok(n << 4 | hex_digit(b)?))
        }
        _ => Err(NotACommand),
    }
}

/// 1 to `most` decimal digits with a number up to `max`.
#[inline]
fn digits(word: &[u8], most: usize, max: u64) -> Parsed<u64> {
    if word.is_empty() || word.len() > most {
        return Err(NotACommand);
    }
    if !word.iter().all(u8::is_ascii_digit) {
        return Err(NotACommand);
    }
    let digit = |byte: u8| (byte - b'0') as u64;
    // 19 digits always fit
    let (head, tail) = word.split_at(word.len().min(19));
    let mut n = head.iter().fold(0, |n, &byte| n * 10 + digit(byte));
    for &byte in tail {
        n = n.checked_mul(10).and_then(|n| n.checked_add(digit(byte))).ok_or(NotACommand)?;
    }
    if n > max {
        return Err(NotACommand);
    }
    Ok(n)
}

fn number(word: Option<&[u8]>) -> Parsed<u32> {
    digits(word.ok_or(NotACommand)?, 10, u32::MAX as u64).map(|n| n as u32)
}

fn signed(word: &[u8]) -> Parsed<i64> {
    match word {
        [b'-', digits @ ..] => self::digits(digits, 19, 1 << 63).map(|n| (n as i64).wrapping_neg()),
        digits => self::digits(digits, 19, i64::MAX as u64).map(|n| n as i64),
    }
}

fn value(word: &[u8]) -> Parsed<Value> {
    let hex = match word {
        [b'x', hex @ ..] => hex,
        number => return signed(number).map(Value::Number),
    };
    if hex.is_empty() || hex.len() % 2 != 0 || hex.len() > 2 * MAX_ELEMS {
        return Err(NotACommand);
    }
    let mut bytes = [0; MAX_ELEMS];
    for (byte, pair) in bytes.iter_mut().zip(hex.chunks_exact(2)) {
        *byte = (hex_digit(pair[0])? << 4 | hex_digit(pair[1])?) as u8;
    }
    ByteRow::new(&bytes[..hex.len() / 2]).map(Value::Bytes).ok_or(NotACommand)
}

/// Multiplies and folds; names aren't chosen against it.
#[derive(Default)]
pub struct NameHasher(u64);

impl Hasher for NameHasher {
    fn write(&mut self, bytes: &[u8]) {
        for &byte in bytes {
            self.write_u128(byte as u128);
        }
    }

    fn write_u128(&mut self, n: u128) {
        let mixed = (n as u64 ^ self.0) as u128 * 0x9e37_79b9_7f4a_7c15 + (n >> 64) * 0xc2b2_ae3d_27d4_eb4f;
        self.0 = mixed as u64 ^ (mixed >> 64) as u64;
    }

    fn finish(&self) -> u64 {
        self.0
    }
}

type Bindings = HashMap<Name, u32, BuildHasherDefault<NameHasher>>;

/// One script's names. File handles and requests have separate ones.
#[derive(Default)]
pub struct Names {
    handles: Bindings,
    requests: Bindings,
}

impl Names {
    fn fh(&self, name: Name) -> u32 {
        self.handles.get(&name).copied().unwrap_or(NO_ID)
    }

    fn request(&self, name: Name) -> u32 {
        self.requests.get(&name).copied().unwrap_or(NO_ID)
    }
}

/// One seat's names and its room for replies.
#[derive(Default)]
pub struct Runner {
    seat: u32,
    names: Names,
    answers: Vec<Value>,
}

impl Runner {
    pub fn new(seat: u32) -> Runner {
        Runner { seat, ..Runner::default() }
    }

    /// Runs a command and appends its reply line.
    pub fn run(&mut self, device: &mut Device, command: &Command, entries: &[ExtControl], out: &mut Vec<u8>) {
        if let Err(fault) = self.answer(device, command, entries, out) {
            put(out, b"error ");
            put_unsigned(out, fault.errno as u64);
            if let Some(index) = fault.index {
                put(out, b" index ");
                put_unsigned(out, index as u64);
            }
        }
        out.push(b'\n');
    }

    fn answer(
        &mut self,
        device: &mut Device,
        command: &Command,
        entries: &[ExtControl],
        out: &mut Vec<u8>,
    ) -> Result<(), Fault> {
        let (seat, names) = (self.seat, &mut self.names);
        match *command {
            Command::List { op, fh, which, request, entries: ref range } => {
                let list = &entries[range.clone()];
                let request = request.map(|name| names.request(name));
                let ask = ListAsk { fh: names.fh(fh), which, request, list };
                match op {
                    ListOp::Get => device.get(ask, &mut self.answers)?,
                    ListOp::Set => device.set(seat, ask, &mut self.answers)?,
                    ListOp::Try => device.try_set(ask, &mut self.answers)?,
                }
                put(out, b"ok");
                put_values(out, &self.answers);
                return Ok(());
            }
            Command::Open { fh, handler } => {
                let id = device.open(seat, handler)?;
                names.handles.insert(fh, id);
            }
            Command::Close { fh } => device.close(seat, names.fh(fh))?,
            Command::Grab { control, on } => device.grab(seat, control as u32, on)?,
            Command::Alloc { request } => {
                let id = device.alloc(seat)?;
                names.requests.insert(request, id);
            }
            Command::Buffer { request, buffer } => device.add_buffer(seat, names.request(request), buffer)?,
            Command::Request { op, request } => {
                let request = names.request(request);
                match op {
                    RequestOp::Queue => device.queue(seat, request)?,
                    RequestOp::Cancel => device.cancel(seat, request)?,
                    RequestOp::Reinit => device.reinit(seat, request)?,
                    RequestOp::Free => device.free(seat, request)?,
                    RequestOp::State => {
                        put(
                            out,
                            match device.state_of(request)? {
                                State::Idle => b"ok idle",
                                State::Queued => b"ok queued",
                                State::Running => b"ok running",
                                State::Complete => b"ok complete",
                            },
                        );
                        return Ok(());
                    }
                }
            }
            Command::Begin => {
                let frame = device.begin(seat)?;
                put(out, b"ok");
                put_field(out, b" buffer ", frame.buffer);
                put_refused(out, frame.refused);
                return Ok(());
            }
            Command::Complete => device.complete(seat)?,
            Command::Off => device.stream_off(seat)?,
            Command::Sub { fh, id, flags } => device.subscribe(seat, names.fh(fh), id, flags)?,
            Command::Unsub { fh, id } => device.unsubscribe(seat, names.fh(fh), id)?,
            Command::Take { fh } => {
                let event = device.take(seat, names.fh(fh))?;
                put(out, b"event ");
                put_id(out, event.id);
                put_field(out, b" changes ", event.waiting.changes);
                put(out, b" value ");
                put_signed(out, event.waiting.payload.value);
                put(out, b" flags ");
                put_flags(out, event.waiting.payload.flags);
                put_field(out, b" sequence ", event.waiting.sequence);
                put_field(out, b" pending ", event.pending);
                return Ok(());
            }
            Command::Query { fh, id } => {
                let info = device.query(names.fh(fh), id)?;
                put(out, b"ok ");
                put_id(out, info.ctrl.id);
                put_field(out, b" kind ", info.ctrl.kind as u32);
                put(out, b" min ");
                put_signed(out, info.ctrl.min);
                put(out, b" max ");
                put_signed(out, info.ctrl.max);
                put(out, b" step ");
                put_unsigned(out, info.ctrl.step);
                put(out, b" default ");
                put_signed(out, info.ctrl.default);
                put(out, b" flags ");
                put_flags(out, info.flags);
                if info.ctrl.kind == Kind::U8 {
                    put_field(out, b" elems ", info.ctrl.elems);
                }
                return Ok(());
            }
            Command::Next { fh, id } => {
                let id = device.next_id(names.fh(fh), id)?;
                put(out, b"ok ");
                put_id(out, id);
                return Ok(());
            }
            Command::Menu { fh, id, index } => {
                let name = device.menu_item(names.fh(fh), id, index)?;
                put(out, b"ok ");
                put(out, name.as_bytes());
                return Ok(());
            }
            Command::Told { cluster } => {
                let word = device.told(cluster)?;
                put(out, b"ok ");
                put_unsigned(out, word);
                return Ok(());
            }
            Command::Row { place } => return put_row(out, device, place),
            Command::Range { control, args } => device.modify_range(seat, control as u32, args)?,
            Command::Audit => {
                put_audit(out, device);
                return Ok(());
            }
            Command::Divide => unreachable!("a dividing line is no command"),
        }
        put(out, b"ok");
        Ok(())
    }
}

/// The line of a forecast, without its line feed.
pub fn put_row(out: &mut Vec<u8>, device: &Device, place: u32) -> Result<(), Fault> {
    let (row, buffer) = device.forecast(place)?;
    put(out, b"frame");
    put_field(out, b" ", place);
    put_field(out, b" buffer ", buffer);
    put_refused(out, row.refused);
    put(out, b" values");
    put_values(out, &row.values);
    Ok(())
}

/// The line of an audit, without its line feed.
pub fn put_audit(out: &mut Vec<u8>, device: &Device) {
    if device.audit() {
        put_field(out, b"audit equal ", device.steps().len() as u32);
    } else {
        put(out, b"audit differs");
    }
}

pub fn put(out: &mut Vec<u8>, text: &[u8]) {
    out.extend_from_slice(text);
}

pub fn put_field(out: &mut Vec<u8>, label: &[u8], n: u32) {
    put(out, label);
    put_unsigned(out, n as u64);
}

fn put_unsigned(out: &mut Vec<u8>, mut n: u64) {
    let mut digits = [0; 20];
    let mut at = digits.len();
    loop {
        at -= 1;
        digits[at] = b'0' + (n % 10) as u8;
        n /= 10;
        if n == 0 {
            break;
        }
    }
    put(out, &digits[at..]);
}

fn put_signed(out: &mut Vec<u8>, n: i64) {
    if n < 0 {
        out.push(b'-');
    }
    put_unsigned(out, n.unsigned_abs());
}

const HEX: &[u8; 16] = b"0123456789abcdef";

fn put_hex(out: &mut Vec<u8>, n: u32, digits: u32) {
    put(out, b"0x");
    out.extend((0..digits).rev().map(|place| HEX[(n >> (4 * place) & 15) as usize]));
}

fn put_id(out: &mut Vec<u8>, id: u32) {
    put_hex(out, id, 8);
}

fn put_flags(out: &mut Vec<u8>, flags: u32) {
    put_hex(out, flags, (35 - flags.leading_zeros()).max(4) / 4);
}

fn put_values(out: &mut Vec<u8>, values: &[Value]) {
    for value in values {
        out.push(b' ');
        match value {
            Value::Number(n) => put_signed(out, *n),
            Value::Bytes(row) => {
                out.push(b'x');
                for &byte in row.as_slice() {
                    out.extend([HEX[(byte >> 4) as usize], HEX[(byte & 15) as usize]]);
                }
            }
        }
    }
}

fn put_refused(out: &mut Vec<u8>, refused: Set256) {
    put(out, b" refused ");
    if refused.is_empty() {
        out.push(b'-');
    }
    for (place, cluster) in refused.iter().enumerate() {
        if place > 0 {
            out.push(b',');
        }
        put_unsigned(out, cluster as u64);
    }
}

#[cfg(test)]
mod tests {
    use super::*;

    #[test]
    fn numbers() {
        let line = |f: &dyn Fn(&mut Vec<u8>)| {
            let mut out = Vec::new();
            f(&mut out);
            String::from_utf8(out).unwrap()
        };
        for n in [0, 1, 9, 10, -1, i64::MIN, i64::MAX] {
            assert_eq!(line(&|out| put_signed(out, n)), n.to_string());
            assert_eq!(signed(n.to_string().as_bytes()).unwrap(), n);
        }
        for n in [0, 1, 0xf, 0x10, 0x240, 0xffff_ffff] {
            assert_eq!(line(&|out| put_flags(out, n)), format!("{n:#x}"));
            assert_eq!(line(&|out| put_id(out, n)), format!("{n:#010x}"));
        }
        for bad in ["", "-", "9223372036854775808", "-9223372036854775809", "00000000000000000000", "+1", "1 "] {
            assert!(signed(bad.as_bytes()).is_err(), "{bad}");
        }
        assert!(number(Some(b"4294967296")).is_err() && number(Some(b"00000000001")).is_err());
        assert_eq!(digits(b"18446744073709551615", 20, u64::MAX).unwrap(), u64::MAX);
    }
}
