//! The device: a method for each ask. What is present is kept beside the accepted steps.

use std::sync::Arc;

use crate::board::{Board, Row, Rules};
use crate::events::{Events, Payload, Waiting};
use crate::history::{Entry, History, RangeArgs, Step};
use crate::plan::{Plan, EMPTY_ROW};
use crate::requests::{IdTable, Requests, State};
use crate::settle::Ctrl;
use crate::types::*;

/// A get, set or try of a list.
#[derive(Clone, Copy)]
pub struct ListAsk<'a> {
    pub fh: u32,
    pub which: u32,
    pub request: Option<u32>,
    pub list: &'a [ExtControl],
}

#[derive(Clone, Copy, PartialEq, Eq)]
enum Op {
    Get,
    Set,
    Try,
}

/// What checks 1 to 5 have found.
struct Head {
    slot: usize,
    handler: u32,
    which: Which,
    /// The slot of the request of a list with REQUEST_VAL.
    request: Option<usize>,
}

pub struct Frame {
    pub request: u32,
    pub buffer: u32,
    pub refused: Set256,
}

pub struct Info {
    pub ctrl: Ctrl,
    pub flags: u32,
}

pub struct TakenEvent {
    pub id: u32,
    pub waiting: Waiting,
    pub pending: u32,
}

/// How often validators and notifiers were called by the last ask.
#[derive(Clone, Copy, Default)]
pub struct Work {
    pub asked: u64,
    pub told: u64,
}

/// Room that list calls use again and again.
#[derive(Default)]
struct Scratch {
    /// The control of each entry.
    controls: Vec<u32>,
    /// By control: the settled value of a listed one, the judged value of each in a touched cluster.
    rows: Vec<Value>,
    listed: Set256,
    /// The touched clusters in order of first appearance, with their first entry's index.
    touched: Vec<(usize, usize)>,
}

/// What a step changed, by control.
#[derive(Default)]
struct Changes {
    value: Set256,
    flags: Set256,
    range: Set256,
}

/// The controls with what is present of them.
struct Controls {
    plan: Arc<Plan>,
    /// Each control with its range of the moment.
    ranges: Vec<Ctrl>,
    values: Vec<Value>,
    grabs: Set256,
    /// By cluster: the word that its notifier answered last.
    words: Vec<u64>,
}

pub struct Device {
    controls: Controls,
    handles: IdTable,
    /// By the slot of a file handle.
    handler_of: [u32; MAX_HANDLES],
    events: Events,
    requests: Requests,
    board: Board,
    running: Option<usize>,
    history: History,
    work: Work,
    scratch: Scratch,
}

impl Controls {
    fn new(plan: Arc<Plan>) -> Controls {
        let ranges = plan.controls().to_vec();
        let values = ranges.iter().map(Ctrl::default_value).collect();
        let words = vec![0; plan.clusters().len()];
        let mut controls = Controls { plan, ranges, values, grabs: Set256::EMPTY, words };
        (0..controls.words.len()).for_each(|cluster| controls.tell(cluster, &mut 0));
        controls
    }

    fn rules<'a>(&'a self, requests: &'a Requests) -> Rules<'a> {
        Rules { plan: &self.plan, ranges: &self.ranges, grabs: &self.grabs, requests }
    }

    fn flags(&self, control: usize) -> u32 {
        let mut flags = self.plan.controls()[control].flags;
        if self.grabs.contains(control) {
            flags |= flag::GRABBED;
        }
        let cluster = &self.plan.clusters()[self.plan.cluster_of(control)];
        if cluster.members[0] != control && cluster.inactive(&self.values) {
            flags |= flag::INACTIVE;
        }
        flags
    }

    fn payload(&self, control: usize) -> Payload {
        let Ctrl { flags, min, max, step, default, .. } = self.ranges[control];
        let readable = flags & flag::WRITE_ONLY == 0;
        let value = self.values[control].number().filter(|_| readable).unwrap_or(0);
        Payload { value, flags: self.flags(control), min, max, step, default }
    }

    /// Makes a cluster's values present and tells it where a member changed. A member of `written` with
    /// EXECUTE_ON_WRITE changes even if its value stays. Answers whether a value differs.
    fn make_present(
        &mut self,
        number: usize,
        values: &[Value],
        written: Set256,
        changes: &mut Changes,
        told: &mut u64,
    ) -> bool {
        let cluster = &self.plan.clusters()[number];
        let inactive = cluster.inactive(&self.values);
        let (mut differs, mut tell) = (false, false);
        for &member in &cluster.members {
            if self.values[member] != values[member] {
                self.values[member] = values[member];
                differs = true;
            } else if self.ranges[member].flags & flag::EXECUTE_ON_WRITE == 0 || !written.contains(member) {
                continue;
            }
            changes.value.insert(member);
            tell = true;
        }
        if differs && cluster.inactive(&self.values) != inactive {
            cluster.members[1..].iter().for_each(|&member| changes.flags.insert(member));
        }
        if tell {
            self.tell(number, told);
        }
        differs
    }

    fn tell(&mut self, number: usize, told: &mut u64) {
        let cluster = &self.plan.clusters()[number];
        if let Some(notifier) = &cluster.calls.notifier {
            *told += 1;
            let mut row = EMPTY_ROW;
            self.words[number] = notifier(cluster.gather(&self.values, &mut row));
        }
    }
}

impl Device {
    pub fn new(plan: Arc<Plan>) -> Device {
        let controls = Controls::new(plan);
        Device {
            scratch: Scratch { rows: controls.values.clone(), ..Scratch::default() },
            events: Events::new(controls.ranges.len()),
            controls,
            handles: IdTable::default(),
            handler_of: [0; MAX_HANDLES],
            requests: Requests::default(),
            board: Board::default(),
            running: None,
            history: History::default(),
            work: Work::default(),
        }
    }

    pub fn steps(&self) -> &[Entry] {
        self.history.entries()
    }

    #[cfg(test)]
    pub fn work(&self) -> Work {
        self.work
    }

    // ---- file handles and queries

    pub fn open(&mut self, seat: u32, handler: u32) -> Result<u32, Errno> {
        self.work = Work::default();
        if handler as usize >= self.controls.plan.handlers() {
            return Err(Errno::Inval);
        }
        if self.handles.is_full() {
            return Err(Errno::NoSpc);
        }
        let id = self.history.room()?;
        let slot = self.handles.insert(id);
        self.handler_of[slot] = handler;
        self.events.open(slot);
        self.history.push(seat, Step::OpenFh { handler });
        Ok(id)
    }

    pub fn close(&mut self, seat: u32, fh: u32) -> Result<(), Errno> {
        self.work = Work::default();
        let slot = self.handle(fh)?;
        self.history.room()?;
        self.events.close(slot);
        self.handles.remove(fh);
        self.history.push(seat, Step::CloseFh { fh });
        Ok(())
    }

    pub fn query(&self, fh: u32, id: u32) -> Result<Info, Errno> {
        let control = self.shown(fh, id)?;
        Ok(Info { ctrl: self.controls.ranges[control], flags: self.controls.flags(control) })
    }

    pub fn next_id(&self, fh: u32, id: u32) -> Result<u32, Errno> {
        let slot = self.handle(fh)?;
        self.controls.plan.next_id(self.handler_of[slot], id).ok_or(Errno::Inval)
    }

    /// The name of a menu's item.
    pub fn menu_item(&self, fh: u32, id: u32, index: u32) -> Result<&str, Errno> {
        let control = self.shown(fh, id)?;
        let range = &self.controls.ranges[control];
        let name = self.controls.plan.item_name(control, index).ok_or(Errno::Inval)?;
        if (range.min..=range.max).contains(&(index as i64)) {
            Ok(name)
        } else {
            Err(Errno::Inval)
        }
    }

    pub fn told(&self, cluster: u32) -> Result<u64, Errno> {
        self.controls.words.get(cluster as usize).copied().ok_or(Errno::Inval)
    }

    #[inline]
    fn handle(&self, fh: u32) -> Result<usize, Errno> {
        self.handles.find(fh).ok_or(Errno::BadF)
    }

    fn shown(&self, fh: u32, id: u32) -> Result<usize, Errno> {
        let slot = self.handle(fh)?;
        self.controls.plan.find(self.handler_of[slot], id).ok_or(Errno::Inval)
    }

    // ---- lists

    /// Answers the values of the entries, in order, in `answers`.
    pub fn get(&mut self, ask: ListAsk, answers: &mut Vec<Value>) -> Result<(), Fault> {
        self.work = Work::default();
        answers.clear();
        let head = self.check_head(Op::Get, &ask)?;
        self.resolve(Op::Get, &head, ask.list)?;
        for &control in &self.scratch.controls {
            if self.controls.plan.controls()[control as usize].flags & flag::WRITE_ONLY != 0 {
                return Err(ask.fault(Errno::Acces));
            }
        }
        let controls = self.scratch.controls.iter().map(|&c| c as usize);
        match (head.which, head.request) {
            (Which::Defaults, _) => answers.extend(controls.map(|c| self.controls.ranges[c].default_value())),
            (_, None) => answers.extend(controls.map(|c| self.controls.values[c])),
            (_, Some(request)) => {
                let snapshot = self.requests.at(request).snapshot();
                answers.extend(controls.map(|c| snapshot[c]));
            }
        }
        Ok(())
    }

    pub fn try_set(&mut self, ask: ListAsk, answers: &mut Vec<Value>) -> Result<(), Fault> {
        self.work = Work::default();
        answers.clear();
        let head = self.check_head(Op::Try, &ask)?;
        self.resolve(Op::Try, &head, ask.list)?;
        self.judge_list(Op::Try, &head, ask.list)?;
        self.answer(answers);
        Ok(())
    }

    pub fn set(&mut self, seat: u32, ask: ListAsk, answers: &mut Vec<Value>) -> Result<(), Fault> {
        self.work = Work::default();
        answers.clear();
        let head = self.check_head(Op::Set, &ask)?;
        self.resolve(Op::Set, &head, ask.list)?;
        self.judge_list(Op::Set, &head, ask.list)?;
        self.history.room().map_err(|errno| ask.fault(errno))?;
        let pair = |(&control, entry): (&u32, &ExtControl)| Pair { control, value: entry.value };
        let pairs = self.history.add_pairs(self.scratch.controls.iter().zip(ask.list).map(pair));
        match (head.request, ask.request) {
            (Some(slot), Some(request)) => {
                self.requests.store(&self.controls.plan, slot, self.history.pairs(pairs));
                self.history.push(seat, Step::Store { request, pairs });
            }
            _ => {
                self.history.push(seat, Step::Set { fh: ask.fh, pairs });
                self.apply_set(head.slot);
            }
        }
        self.answer(answers);
        Ok(())
    }

    /// Checks 1 to 5.
    #[inline]
    fn check_head(&self, op: Op, ask: &ListAsk) -> Result<Head, Fault> {
        let fail = |errno| Err(ask.fault(errno));
        let slot = self.handle(ask.fh).map_err(|errno| ask.fault(errno))?;
        let handler = self.handler_of[slot];
        let which = Which::read(ask.which).map_err(|errno| ask.fault(errno))?;
        if which == Which::Defaults && op != Op::Get {
            return fail(Errno::Inval);
        }
        let mut request = None;
        if which == Which::Request {
            let slot = ask.request.ok_or(Errno::Inval).and_then(|id| self.requests.slot(id));
            let slot = slot.map_err(|errno| ask.fault(errno))?;
            match (op, self.requests.at(slot).state) {
                (Op::Get, State::Complete) | (Op::Set | Op::Try, State::Idle) => request = Some(slot),
                (Op::Get, _) => return fail(Errno::Acces),
                _ => return fail(Errno::Busy),
            }
        }
        if ask.list.len() > MAX_ENTRIES {
            return fail(Errno::Inval);
        }
        if let (true, Which::Class(class)) = (ask.list.is_empty(), which) {
            if !self.controls.plan.shows_class(handler, class) {
                return fail(Errno::Inval);
            }
        }
        Ok(Head { slot, handler, which, request })
    }

    /// Check 6. Finds the control of each entry.
    #[inline]
    fn resolve(&mut self, op: Op, head: &Head, list: &[ExtControl]) -> Result<(), Fault> {
        let class = match head.which {
            Which::Class(class) => Some(class),
            _ => None,
        };
        self.scratch.controls.clear();
        for (index, entry) in list.iter().enumerate() {
            let control = self.controls.plan.find(head.handler, entry.id);
            match control {
                Some(control)
                    if class.map_or(true, |class| entry.id & CLASS_MASK == class)
                        && self.controls.plan.controls()[control].flags & flag::DISABLED == 0 =>
                {
                    self.scratch.controls.push(control as u32)
                }
                _ => return Err(entry_fault(op, Errno::Inval, index, list)),
            }
        }
        Ok(())
    }

    /// Checks 7 and 8 of a set or try. Leaves the judged rows in the scratch.
    fn judge_list(&mut self, op: Op, head: &Head, list: &[ExtControl]) -> Result<(), Fault> {
        let scratch = &mut self.scratch;
        scratch.listed = Set256::EMPTY;
        scratch.touched.clear();
        let mut seen = Set256::EMPTY;
        for (index, (entry, &control)) in list.iter().zip(&scratch.controls).enumerate() {
            let control = control as usize;
            let range = &self.controls.ranges[control];
            if range.flags & flag::READ_ONLY != 0 {
                return Err(entry_fault(op, Errno::Acces, index, list));
            }
            if op == Op::Set && self.controls.grabs.contains(control) {
                return Err(entry_fault(op, Errno::Busy, index, list));
            }
            match range.settle(&entry.value) {
                Ok(value) => scratch.rows[control] = value,
                Err(errno) => return Err(entry_fault(op, errno, index, list)),
            }
            scratch.listed.insert(control);
            let cluster = self.controls.plan.cluster_of(control);
            if !seen.contains(cluster) {
                seen.insert(cluster);
                scratch.touched.push((cluster, index));
            }
        }
        let asked = head.request.map(|slot| &self.requests.at(slot).asked);
        for &(number, index) in &scratch.touched {
            let cluster = &self.controls.plan.clusters()[number];
            let refuse = |errno| Err(entry_fault(op, errno, index, list));
            // present values and listed ones are settled already, the request's own may not be
            for &member in &cluster.members {
                if scratch.listed.contains(member) {
                    continue;
                }
                scratch.rows[member] = match asked.and_then(|asked| asked.get(member)) {
                    None => self.controls.values[member],
                    Some(value) => match self.controls.ranges[member].settle(value) {
                        Ok(value) => value,
                        Err(errno) => return refuse(errno),
                    },
                };
            }
            if cluster.calls.validator.is_none() {
                continue;
            }
            let mut row = EMPTY_ROW;
            let row = cluster.gather(&scratch.rows, &mut row);
            if let Err(errno) = cluster.judge(&self.controls.ranges, row, &mut self.work.asked) {
                return refuse(errno);
            }
            cluster.members.iter().zip(row).for_each(|(&member, value)| scratch.rows[member] = *value);
        }
        Ok(())
    }

    fn answer(&self, answers: &mut Vec<Value>) {
        answers.extend(self.scratch.controls.iter().map(|&c| self.scratch.rows[c as usize]));
    }

    /// Makes the judged rows present.
    fn apply_set(&mut self, slot: usize) {
        let Scratch { rows, listed, touched, .. } = &self.scratch;
        let mut changes = Changes::default();
        for &(cluster, _) in touched {
            if self.controls.make_present(cluster, rows, *listed, &mut changes, &mut self.work.told) {
                let rules = self.controls.rules(&self.requests);
                self.board.renew(cluster, true, rules, &self.controls.values, &mut self.work.asked);
            }
        }
        self.announce(&changes, Some((slot, *listed)));
    }

    // ---- what steps that change controls share

    /// Renews a cluster's forecasts.
    fn renew(&mut self, cluster: usize, values_only: bool) {
        let rules = self.controls.rules(&self.requests);
        self.board.renew(cluster, values_only, rules, &self.controls.values, &mut self.work.asked);
    }

    /// Raises the events of a step. After a set the caller's slot comes with the controls of its list.
    fn announce(&mut self, changes: &Changes, caller: Option<(usize, Set256)>) {
        for control in changes.value.union(changes.flags).union(changes.range).iter() {
            let mut bits = 0;
            if changes.value.contains(control) {
                bits |= change::VALUE;
            }
            if changes.flags.contains(control) {
                bits |= change::FLAGS;
            }
            if changes.range.contains(control) {
                bits |= change::RANGE;
            }
            let quiet = match caller {
                Some((slot, listed)) if bits & change::FLAGS == 0 && listed.contains(control) => Some(slot),
                _ => None,
            };
            let audience = self.events.audience(control, quiet);
            if audience != 0 {
                self.events.raise(audience, control, bits, &self.controls.payload(control));
            }
        }
    }

    // ---- the driver's asks

    pub fn grab(&mut self, seat: u32, control: u32, on: bool) -> Result<(), Errno> {
        self.work = Work::default();
        let number = control as usize;
        if number >= self.controls.ranges.len() {
            return Err(Errno::Inval);
        }
        self.history.room()?;
        if self.controls.grabs.contains(number) != on {
            self.controls.grabs.put(number, on);
            self.renew(self.controls.plan.cluster_of(number), false);
            let mut changes = Changes::default();
            changes.flags.insert(number);
            self.announce(&changes, None);
        }
        self.history.push(seat, Step::Grab { control, on });
        Ok(())
    }

    pub fn modify_range(&mut self, seat: u32, control: u32, args: RangeArgs) -> Result<(), Errno> {
        self.work = Work::default();
        let number = control as usize;
        let old = *self.controls.ranges.get(number).ok_or(Errno::Inval)?;
        let RangeArgs { min, max, step, default } = args;
        let new = old.with_range(min, max, step, default).map_err(|_| Errno::Range)?;
        self.history.room()?;
        if !new.same_range(&old) {
            self.controls.ranges[number] = new;
            let mut changes = Changes::default();
            changes.range.insert(number);
            let settled = new.settle(&self.controls.values[number]).unwrap_or_else(|_| new.default_value());
            let cluster = self.controls.plan.cluster_of(number);
            if settled != self.controls.values[number] {
                let rows = &mut self.scratch.rows;
                rows.copy_from_slice(&self.controls.values);
                rows[number] = settled;
                self.controls.make_present(cluster, rows, Set256::EMPTY, &mut changes, &mut self.work.told);
            }
            self.renew(cluster, false);
            self.announce(&changes, None);
        }
        let range = self.history.add_range(args);
        self.history.push(seat, Step::ModifyRange { control, range });
        Ok(())
    }

    // ---- requests

    pub fn alloc(&mut self, seat: u32) -> Result<u32, Errno> {
        self.work = Work::default();
        if self.requests.is_full() {
            return Err(Errno::NoSpc);
        }
        let id = self.history.room()?;
        self.requests.alloc(id);
        self.history.push(seat, Step::Alloc);
        Ok(id)
    }

    pub fn add_buffer(&mut self, seat: u32, request: u32, buffer: u32) -> Result<(), Errno> {
        self.work = Work::default();
        let slot = self.requests.slot(request)?;
        let object = self.requests.at(slot);
        if object.state != State::Idle || object.buffer.is_some() || self.requests.holds(buffer) {
            return Err(Errno::Busy);
        }
        self.history.room()?;
        self.requests.at_mut(slot).buffer = Some(buffer);
        self.history.push(seat, Step::Buffer { request, buffer });
        Ok(())
    }

    pub fn queue(&mut self, seat: u32, request: u32) -> Result<(), Errno> {
        self.work = Work::default();
        let slot = self.requests.slot(request)?;
        let object = self.requests.at(slot);
        if object.state != State::Idle {
            return Err(Errno::Busy);
        }
        if object.buffer.is_none() {
            return Err(Errno::NoEnt);
        }
        self.history.room()?;
        self.requests.at_mut(slot).state = State::Queued;
        let rules = self.controls.rules(&self.requests);
        self.board.push(rules, &self.controls.values, slot, &mut self.work.asked);
        self.history.push(seat, Step::Queue { request });
        Ok(())
    }

    pub fn begin(&mut self, seat: u32) -> Result<Frame, Errno> {
        self.work = Work::default();
        if self.running.is_some() {
            return Err(Errno::Busy);
        }
        let row = self.board.rows().front().ok_or(Errno::NoEnt)?;
        self.history.room()?;
        let (slot, refused) = (row.slot, row.refused);
        let asked = &self.requests.at(slot).asked;
        let mut changes = Changes::default();
        for cluster in asked.clusters().iter().filter(|&c| !refused.contains(c)) {
            let told = &mut self.work.told;
            self.controls.make_present(cluster, &row.values, asked.controls(), &mut changes, told);
        }
        let mut applied = asked.controls();
        for control in asked.controls().iter().filter(|&c| refused.contains(self.controls.plan.cluster_of(c))) {
            applied.remove(control);
        }
        self.board.pop();
        self.running = Some(slot);
        let object = self.requests.at_mut(slot);
        object.begin(&self.controls.values, applied);
        let frame = Frame { request: object.id, buffer: object.buffer.unwrap_or(0), refused };
        self.announce(&changes, None);
        self.history.push(seat, Step::Begin { request: frame.request });
        Ok(frame)
    }

    pub fn complete(&mut self, seat: u32) -> Result<(), Errno> {
        self.work = Work::default();
        let slot = self.running.ok_or(Errno::NoEnt)?;
        self.history.room()?;
        self.running = None;
        let object = self.requests.at_mut(slot);
        object.complete(&self.controls.values);
        self.history.push(seat, Step::Complete { request: object.id });
        Ok(())
    }

    pub fn cancel(&mut self, seat: u32, request: u32) -> Result<(), Errno> {
        self.work = Work::default();
        let slot = self.requests.slot(request)?;
        match self.requests.at(slot).state {
            State::Running => return Err(Errno::Busy),
            State::Idle | State::Complete => return Err(Errno::Inval),
            State::Queued => {}
        }
        self.history.room()?;
        if let Some(place) = self.board.rows().iter().position(|row| row.slot == slot) {
            let rules = self.controls.rules(&self.requests);
            self.board.remove(place, rules, &self.controls.values, &mut self.work.asked);
        }
        self.requests.at_mut(slot).complete(&self.controls.values);
        self.history.push(seat, Step::Cancel { request });
        Ok(())
    }

    pub fn stream_off(&mut self, seat: u32) -> Result<(), Errno> {
        self.work = Work::default();
        self.history.room()?;
        for slot in self.running.take().into_iter().chain(self.board.rows().iter().map(|row| row.slot)) {
            self.requests.at_mut(slot).complete(&self.controls.values);
        }
        self.board.clear();
        self.history.push(seat, Step::StreamOff);
        Ok(())
    }

    pub fn reinit(&mut self, seat: u32, request: u32) -> Result<(), Errno> {
        self.work = Work::default();
        let slot = self.at_rest(request)?;
        self.history.room()?;
        self.requests.reinit(slot);
        self.history.push(seat, Step::Reinit { request });
        Ok(())
    }

    pub fn free(&mut self, seat: u32, request: u32) -> Result<(), Errno> {
        self.work = Work::default();
        self.at_rest(request)?;
        self.history.room()?;
        self.requests.free(request);
        self.history.push(seat, Step::Free { request });
        Ok(())
    }

    /// The slot of a request that is neither queued nor running.
    fn at_rest(&self, request: u32) -> Result<usize, Errno> {
        let slot = self.requests.slot(request)?;
        match self.requests.at(slot).state {
            State::Queued | State::Running => Err(Errno::Busy),
            State::Idle | State::Complete => Ok(slot),
        }
    }

    pub fn state_of(&self, request: u32) -> Result<State, Errno> {
        Ok(self.requests.at(self.requests.slot(request)?).state)
    }

    pub fn queued(&self) -> usize {
        self.board.rows().len()
    }

    /// The forecast at a place with its buffer number.
    pub fn forecast(&self, place: u32) -> Result<(&Row, u32), Errno> {
        let row = self.board.rows().get(place as usize).ok_or(Errno::NoEnt)?;
        Ok((row, self.requests.at(row.slot).buffer.unwrap_or(0)))
    }

    // ---- events

    pub fn subscribe(&mut self, seat: u32, fh: u32, id: u32, flags: u32) -> Result<(), Errno> {
        self.work = Work::default();
        let slot = self.handle(fh)?;
        let control = self.shown(fh, id)?;
        self.history.room()?;
        if self.events.subscribe(slot, control, flags) && flags & sub::SEND_INITIAL != 0 {
            let readable = self.controls.plan.controls()[control].flags & flag::WRITE_ONLY == 0;
            let changes = if readable { change::FLAGS | change::VALUE } else { change::FLAGS };
            self.events.raise(1 << slot, control, changes, &self.controls.payload(control));
        }
        self.history.push(seat, Step::Subscribe { fh, control: control as u32, flags });
        Ok(())
    }

    pub fn unsubscribe(&mut self, seat: u32, fh: u32, id: u32) -> Result<(), Errno> {
        let slot = self.handle(fh)?;
        let control = self.controls.plan.find(self.handler_of[slot], id);
        self.unsubscribe_control(seat, fh, control)
    }

    fn unsubscribe_control(&mut self, seat: u32, fh: u32, control: Option<usize>) -> Result<(), Errno> {
        self.work = Work::default();
        let slot = self.handle(fh)?;
        self.history.room()?;
        if let Some(control) = control {
            self.events.unsubscribe(slot, control);
        }
        self.history.push(seat, Step::Unsubscribe { fh, control: control.map(|c| c as u32) });
        Ok(())
    }

    pub fn take(&mut self, seat: u32, fh: u32) -> Result<TakenEvent, Errno> {
        self.work = Work::default();
        let slot = self.handle(fh)?;
        let waiting = self.events.first(slot).ok_or(Errno::NoEnt)?;
        self.history.room()?;
        let pending = self.events.pop(slot);
        self.history.push(seat, Step::Take { fh, control: waiting.control as u32 });
        Ok(TakenEvent { id: self.controls.plan.controls()[waiting.control].id, waiting, pending })
    }

    // ---- audit

    /// Whether a replay of the steps on a fresh device is legal and gives this state.
    pub fn audit(&self) -> bool {
        let mut fresh = Device::new(self.controls.plan.clone());
        let mut answers = Vec::new();
        for (place, entry) in self.steps().iter().enumerate() {
            let accepted = fresh.replay(&self.history, entry, &mut answers).is_some();
            if !accepted || fresh.steps().get(place) != Some(entry) {
                return false;
            }
        }
        self.agrees(&fresh)
    }

    /// Makes an ask whose accepted step can only be this one. `None` where it is refused.
    fn replay(&mut self, history: &History, entry: &Entry, answers: &mut Vec<Value>) -> Option<()> {
        let seat = entry.seat;
        match entry.step {
            Step::OpenFh { handler } => self.open(seat, handler).ok().map(drop),
            Step::CloseFh { fh } => self.close(seat, fh).ok(),
            Step::Set { fh, pairs } => {
                let list = self.list_through(fh, history.pairs(pairs))?;
                let ask = ListAsk { fh, which: WHICH_CURRENT, request: None, list: &list };
                self.set(seat, ask, answers).ok()
            }
            Step::Store { request, pairs } => {
                let pairs = history.pairs(pairs);
                let handles: Vec<u32> = self.handles.iter().map(|h| h.0).collect();
                let (fh, list) = handles.into_iter().find_map(|fh| Some((fh, self.list_through(fh, pairs)?)))?;
                let ask = ListAsk { fh, which: WHICH_REQUEST, request: Some(request), list: &list };
                self.set(seat, ask, answers).ok()
            }
            Step::Grab { control, on } => self.grab(seat, control, on).ok(),
            Step::Alloc => self.alloc(seat).ok().map(drop),
            Step::Buffer { request, buffer } => self.add_buffer(seat, request, buffer).ok(),
            Step::Queue { request } => self.queue(seat, request).ok(),
            Step::Begin { .. } => self.begin(seat).ok().map(drop),
            Step::Complete { .. } => self.complete(seat).ok(),
            Step::Cancel { request } => self.cancel(seat, request).ok(),
            Step::StreamOff => self.stream_off(seat).ok(),
            Step::Reinit { request } => self.reinit(seat, request).ok(),
            Step::Free { request } => self.free(seat, request).ok(),
            Step::Subscribe { fh, control, flags } => {
                let id = self.controls.plan.controls().get(control as usize)?.id;
                self.subscribe(seat, fh, id, flags).ok()
            }
            Step::Unsubscribe { fh, control } => match control {
                Some(control) => {
                    self.unsubscribe(seat, fh, self.controls.plan.controls().get(control as usize)?.id).ok()
                }
                None => self.unsubscribe_control(seat, fh, None).ok(),
            },
            Step::Take { fh, .. } => self.take(seat, fh).ok().map(drop),
            Step::ModifyRange { control, range } => self.modify_range(seat, control, history.range(range)).ok(),
        }
    }

    /// A list that names these pairs' controls through an open file handle that shows them.
    fn list_through(&self, fh: u32, pairs: &[Pair]) -> Option<Vec<ExtControl>> {
        let handler = self.handler_of[self.handles.find(fh)?];
        let entry = |pair: &Pair| {
            let id = self.controls.plan.controls().get(pair.control as usize)?.id;
            (self.controls.plan.find(handler, id)? == pair.control as usize)
                .then_some(ExtControl { id, value: pair.value })
        };
        pairs.iter().map(entry).collect()
    }

    /// Compares all that the state shows. The replay's forecasts are computed anew.
    fn agrees(&self, other: &Device) -> bool {
        let requests = |d: &Device| -> Vec<u32> { d.requests.iter().map(|r| r.id).collect() };
        let handles = |d: &Device| -> Vec<u32> { d.handles.iter().map(|h| h.0).collect() };
        let slots = other.board.rows().iter().map(|row| row.slot);
        let board = Board::compute(other.controls.rules(&other.requests), &other.controls.values, slots, &mut 0);
        self.controls.values == other.controls.values
            && self.controls.ranges == other.controls.ranges
            && (0..self.controls.ranges.len()).all(|c| self.controls.flags(c) == other.controls.flags(c))
            && requests(self) == requests(other)
            && self.requests.iter().zip(other.requests.iter()).all(|(a, b)| {
                (a.state, a.buffer, a.asked.pairs()) == (b.state, b.buffer, b.asked.pairs())
                    && (a.state != State::Complete || a.snapshot() == b.snapshot())
            })
            && self.board.rows().len() == board.rows().len()
            && self.board.rows().iter().zip(board.rows()).all(|(a, b)| {
                self.requests.at(a.slot).id == other.requests.at(b.slot).id
                    && (&a.values, a.refused) == (&b.values, b.refused)
            })
            && handles(self) == handles(other)
            && self.handles.iter().zip(other.handles.iter()).all(|((_, a), (_, b))| {
                self.events.next_sequence(a) == other.events.next_sequence(b)
                    && self.events.waiting(a).eq(other.events.waiting(b))
            })
    }
}

impl ListAsk<'_> {
    /// A refusal at the count of entries.
    fn fault(&self, errno: Errno) -> Fault {
        Fault { errno, index: Some(self.list.len() as u32) }
    }
}

/// A refusal in checks 6 to 8: at the entry for a try, else at the count.
fn entry_fault(op: Op, errno: Errno, index: usize, list: &[ExtControl]) -> Fault {
    let index = if op == Op::Try { index } else { list.len() };
    Fault { errno, index: Some(index as u32) }
}

#[cfg(test)]
mod tests {
    use super::*;
    use crate::plan::{Calls, PlanBuilder};
    use crate::sample::sample_plan;

    fn sample() -> (Device, u32) {
        let mut device = Device::new(Arc::new(sample_plan(false).unwrap()));
        let fh = device.open(0, 1).unwrap();
        (device, fh)
    }

    fn number(id: u32, value: i64) -> ExtControl {
        ExtControl { id, value: Value::Number(value) }
    }

    fn cur<'a>(fh: u32, list: &'a [ExtControl]) -> ListAsk<'a> {
        ListAsk { fh, which: WHICH_CURRENT, request: None, list }
    }

    fn fault<T>(errno: Errno, index: u32) -> Result<T, Fault> {
        Err(Fault { errno, index: Some(index) })
    }

    #[test]
    fn a_set_renews_what_waits_behind_it() {
        let (mut d, fh) = sample();
        let mut out = Vec::new();
        for (place, blue) in [100, 200].into_iter().enumerate() {
            let request = d.alloc(0).unwrap();
            let list = [number(0x0098_090f, blue)];
            let ask = ListAsk { which: WHICH_REQUEST, request: Some(request), ..cur(fh, &list) };
            d.set(0, ask, &mut out).unwrap();
            assert_eq!(d.work().asked, 1);
            d.add_buffer(0, request, place as u32).unwrap();
            d.queue(0, request).unwrap();
            assert_eq!(d.work().asked, 1);
        }
        d.set(0, cur(fh, &[number(0x0098_090e, 250)]), &mut out).unwrap();
        assert!(d.work().asked <= 3 && d.work().told == 1);
        assert_eq!(d.forecast(1).unwrap().0.refused.iter().collect::<Vec<_>>(), [1]);
        d.begin(0).unwrap();
        assert_eq!((d.work().asked, d.work().told), (0, 1));
        assert!(d.audit());
    }

    #[test]
    fn the_step_limit() {
        let (mut d, fh) = sample();
        let (list, mut out) = ([number(0x0098_0914, 1)], Vec::new());
        for _ in 1..MAX_STEPS {
            d.set(0, cur(fh, &list), &mut out).unwrap();
        }
        assert_eq!(d.set(0, cur(fh, &list), &mut out), fault(Errno::NoSpc, 1));
        assert_eq!(d.close(0, fh), Err(Errno::NoSpc));
        assert_eq!(d.open(0, 1), Err(Errno::NoSpc));
        assert_eq!(d.modify_range(0, 9, RangeArgs { min: 0, max: 1, step: 1, default: 0 }), Err(Errno::NoSpc));
        assert_eq!(d.set(0, cur(fh, &[]), &mut out), fault(Errno::NoSpc, 0));
        d.try_set(cur(fh, &list), &mut out).unwrap();
        assert_eq!((d.steps().len(), out[0]), (MAX_STEPS, Value::Number(1)));
    }

    #[test]
    fn one_control_of_each_flag() {
        let mut plan = PlanBuilder::new();
        let h = plan.handler().unwrap();
        for (id, flags) in [(1, 0), (2, flag::READ_ONLY), (3, flag::WRITE_ONLY), (4, flag::DISABLED), (5, 0)] {
            let ctrl = Ctrl::new(id, Kind::Integer, 0, 255, 1, 0).unwrap().with_flags(flags).unwrap();
            plan.control(h, ctrl).unwrap();
        }
        let wild = |row: &mut [Value]| {
            row[0] = Value::Number(300);
            Ok(())
        };
        plan.cluster(&[4], Calls { validator: Some(Box::new(wild)), notifier: None }).unwrap();
        let mut d = Device::new(Arc::new(plan.finish()));
        let fh = d.open(0, 0).unwrap();
        let (one, mut out) = (|id| [number(id, 7)], Vec::new());
        assert_eq!(d.set(0, cur(fh, &one(2)), &mut out), fault(Errno::Acces, 1));
        assert_eq!(d.get(cur(fh, &one(3)), &mut out), fault(Errno::Acces, 1));
        let list = one(3);
        assert_eq!(d.get(ListAsk { which: WHICH_DEFAULT, ..cur(fh, &list) }, &mut out), fault(Errno::Acces, 1));
        d.set(0, cur(fh, &one(3)), &mut out).unwrap();
        for disabled in [d.get(cur(fh, &one(4)), &mut out), d.set(0, cur(fh, &one(4)), &mut out)] {
            assert_eq!(disabled, fault(Errno::Inval, 1));
        }
        assert_eq!(d.query(fh, 4).unwrap().flags, flag::DISABLED);
        d.grab(0, 0, true).unwrap();
        let list = [number(1, 0), number(99, 0)];
        assert_eq!(d.try_set(cur(fh, &list), &mut out), fault(Errno::Inval, 1));
        assert_eq!(d.set(0, cur(fh, &list), &mut out), fault(Errno::Inval, 2));
        assert_eq!(d.grab(0, 99, true), Err(Errno::Inval));
        // the validator answers a value that its control doesn't take
        assert_eq!(d.set(0, cur(fh, &one(5)), &mut out), fault(Errno::Inval, 1));
        assert!(d.audit() && d.steps().len() == 3);
    }

    #[test]
    fn an_array_takes_a_range() {
        let mut d = Device::new(Arc::new(sample_plan(true).unwrap()));
        let (fh, mut out) = (d.open(0, 1).unwrap(), Vec::new());
        let bytes = |bytes: &[u8]| Value::Bytes(ByteRow::new(bytes).unwrap());
        let list = [ExtControl { id: 0x0098_1000, value: bytes(&[5, 14, 4, 255]) }];
        d.set(0, cur(fh, &list), &mut out).unwrap();
        assert_eq!(out, [bytes(&[10, 10, 0, 250])]);
        d.modify_range(0, 10, RangeArgs { min: 0, max: 100, step: 10, default: 0 }).unwrap();
        d.get(cur(fh, &list), &mut out).unwrap();
        assert_eq!(out, [bytes(&[10, 10, 0, 100])]);
        assert!(d.audit());
    }
}
