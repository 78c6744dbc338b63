//! Request objects: state, buffer, what is asked for, and what the frame had.

use crate::plan::Plan;
use crate::types::*;

/// At most 64 live ids, each with a slot below 64. Ids must be inserted rising.
#[derive(Default)]
pub struct IdTable {
    entries: Vec<(u32, u32)>,
    used: u64,
}

impl IdTable {
    #[inline]
    pub fn find(&self, id: u32) -> Option<usize> {
        let place = self.entries.binary_search_by_key(&id, |e| e.0).ok()?;
        Some(self.entries[place].1 as usize)
    }

    pub fn is_full(&self) -> bool {
        self.used == u64::MAX
    }

    pub fn insert(&mut self, id: u32) -> usize {
        debug_assert!(!self.is_full() && self.entries.last().map_or(true, |e| e.0 < id));
        let slot = self.used.trailing_ones();
        self.used |= 1 << slot;
        self.entries.push((id, slot));
        slot as usize
    }

    pub fn remove(&mut self, id: u32) {
        if let Ok(place) = self.entries.binary_search_by_key(&id, |e| e.0) {
            let (_, slot) = self.entries.remove(place);
            self.used &= !(1 << slot);
        }
    }

    /// Ids with their slots, ids rising.
    pub fn iter(&self) -> impl Iterator<Item = (u32, usize)> + '_ {
        self.entries.iter().map(|&(id, slot)| (id, slot as usize))
    }
}

#[derive(Clone, Copy, PartialEq, Eq, Debug)]
pub enum State {
    Idle,
    Queued,
    Running,
    Complete,
}

/// The pairs of a request: of each control the last one, in order of control numbers.
#[derive(Default)]
pub struct Asked {
    pairs: Vec<Pair>,
    controls: Set256,
    clusters: Set256,
}

impl Asked {
    pub fn pairs(&self) -> &[Pair] {
        &self.pairs
    }

    pub fn controls(&self) -> Set256 {
        self.controls
    }

    /// The clusters that the pairs name.
    pub fn clusters(&self) -> Set256 {
        self.clusters
    }

    #[inline]
    pub fn get(&self, control: usize) -> Option<&Value> {
        self.controls.contains(control).then(|| &self.pairs[self.controls.rank(control)].value)
    }

    fn store(&mut self, plan: &Plan, pair: Pair) {
        let control = pair.control as usize;
        let place = self.controls.rank(control);
        if self.controls.contains(control) {
            self.pairs[place] = pair;
        } else {
            self.pairs.insert(place, pair);
            self.controls.insert(control);
            self.clusters.insert(plan.cluster_of(control));
        }
    }

    fn clear(&mut self) {
        self.pairs.clear();
        self.controls = Set256::EMPTY;
        self.clusters = Set256::EMPTY;
    }
}

pub struct Request {
    pub id: u32,
    pub state: State,
    pub buffer: Option<u32>,
    pub asked: Asked,
    /// While running: the values after the begin. When complete: the snapshot.
    values: Vec<Value>,
    /// The controls whose snapshot is the value after the begin.
    applied: Set256,
}

impl Request {
    fn renew(&mut self, id: u32) {
        self.id = id;
        self.state = State::Idle;
        self.buffer = None;
        self.asked.clear();
        self.values.clear();
        self.applied = Set256::EMPTY;
    }

    pub fn snapshot(&self) -> &[Value] {
        debug_assert_eq!(self.state, State::Complete);
        &self.values
    }

    pub fn begin(&mut self, values: &[Value], applied: Set256) {
        self.state = State::Running;
        self.values.clear();
        self.values.extend_from_slice(values);
        self.applied = applied;
    }

    pub fn complete(&mut self, values: &[Value]) {
        if self.state == State::Running {
            for (control, value) in values.iter().enumerate() {
                if !self.applied.contains(control) {
                    self.values[control] = *value;
                }
            }
        } else {
            self.values.clear();
            self.values.extend_from_slice(values);
        }
        self.state = State::Complete;
    }
}

/// All requests that exist. Slots keep their memory for the next request.
#[derive(Default)]
pub struct Requests {
    ids: IdTable,
    slots: Vec<Request>,
}

impl Requests {
    /// The slot of a request that exists.
    #[inline]
    pub fn slot(&self, id: u32) -> Result<usize, Errno> {
        self.ids.find(id).ok_or(Errno::Inval)
    }

    pub fn at(&self, slot: usize) -> &Request {
        &self.slots[slot]
    }

    pub fn at_mut(&mut self, slot: usize) -> &mut Request {
        &mut self.slots[slot]
    }

    pub fn iter(&self) -> impl Iterator<Item = &Request> {
        self.ids.iter().map(|(_, slot)| &self.slots[slot])
    }

    pub fn is_full(&self) -> bool {
        self.ids.is_full()
    }

    pub fn alloc(&mut self, id: u32) {
        let slot = self.ids.insert(id);
        if slot == self.slots.len() {
            let asked = Asked::default();
            let (values, applied) = (Vec::new(), Set256::EMPTY);
            self.slots.push(Request { id, state: State::Idle, buffer: None, asked, values, applied });
        } else {
            self.slots[slot].renew(id);
        }
    }

    pub fn reinit(&mut self, slot: usize) {
        let id = self.slots[slot].id;
        self.slots[slot].renew(id);
    }

    pub fn free(&mut self, id: u32) {
        self.ids.remove(id);
    }

    /// Whether an idle, queued or running request holds this buffer number.
    pub fn holds(&self, buffer: u32) -> bool {
        self.iter().any(|r| r.state != State::Complete && r.buffer == Some(buffer))
    }

    pub fn store(&mut self, plan: &Plan, slot: usize, pairs: &[Pair]) {
        for pair in pairs {
            self.slots[slot].asked.store(plan, *pair);
        }
    }
}
