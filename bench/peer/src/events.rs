//! Subscriptions, and the events that wait for each file handle.

use crate::types::*;

#[derive(Clone, Copy, PartialEq, Eq, Debug)]
pub struct Payload {
    pub value: i64,
    pub flags: u32,
    pub min: i64,
    pub max: i64,
    pub step: u64,
    pub default: i64,
}

#[derive(Clone, Copy, PartialEq, Eq, Debug)]
pub struct Waiting {
    pub control: usize,
    pub changes: u32,
    pub sequence: u32,
    pub payload: Payload,
}

const NONE: u16 = u16::MAX;

#[derive(Clone, Copy)]
struct Node {
    before: u16,
    behind: u16,
    changes: u32,
    sequence: u32,
    payload: Payload,
}

const NODE: Node = Node {
    before: NONE,
    behind: NONE,
    changes: 0,
    sequence: 0,
    payload: Payload { value: 0, flags: 0, min: 0, max: 0, step: 0, default: 0 },
};

/// The waiting events of a file handle: a list threaded through one node per control.
/// A node with `changes` 0 isn't in the list.
struct Queue {
    next_sequence: u32,
    len: u32,
    first: u16,
    last: u16,
    nodes: Vec<Node>,
}

impl Queue {
    fn new(controls: usize) -> Queue {
        Queue { next_sequence: 0, len: 0, first: NONE, last: NONE, nodes: vec![NODE; controls] }
    }

    fn clear(&mut self) {
        self.nodes.fill(NODE);
        (self.next_sequence, self.len, self.first, self.last) = (0, 0, NONE, NONE);
    }

    fn raise(&mut self, control: usize, changes: u32, payload: &Payload) {
        let waiting = self.nodes[control].changes;
        if waiting == 0 {
            self.append(control);
        } else if self.last as usize != control {
            self.unlink(control);
            self.append(control);
        }
        let node = &mut self.nodes[control];
        node.changes = waiting | changes;
        node.sequence = self.next_sequence;
        node.payload = *payload;
        self.next_sequence += 1;
    }

    fn append(&mut self, control: usize) {
        let node = &mut self.nodes[control];
        (node.before, node.behind) = (self.last, NONE);
        match self.last {
            NONE => self.first = control as u16,
            last => self.nodes[last as usize].behind = control as u16,
        }
        self.last = control as u16;
        self.len += 1;
    }

    fn unlink(&mut self, control: usize) {
        let Node { before, behind, .. } = self.nodes[control];
        match before {
            NONE => self.first = behind,
            before => self.nodes[before as usize].behind = behind,
        }
        match behind {
            NONE => self.last = before,
            behind => self.nodes[behind as usize].before = before,
        }
        self.len -= 1;
    }

    fn waiting(&self, control: usize) -> Waiting {
        let Node { changes, sequence, payload, .. } = self.nodes[control];
        Waiting { control, changes, sequence, payload }
    }
}

/// The events of all file handles; handles and controls are named by their slots and numbers.
pub struct Events {
    queues: Vec<Queue>,
    /// Per control the handles that are subscribed.
    subscribed: Vec<u64>,
    /// Per control those of them with ALLOW_FEEDBACK.
    feedback: Vec<u64>,
}

impl Events {
    pub fn new(controls: usize) -> Events {
        Events { queues: Vec::new(), subscribed: vec![0; controls], feedback: vec![0; controls] }
    }

    pub fn open(&mut self, slot: usize) {
        while self.queues.len() <= slot {
            self.queues.push(Queue::new(self.subscribed.len()));
        }
        self.queues[slot].clear();
    }

    pub fn close(&mut self, slot: usize) {
        for mask in self.subscribed.iter_mut().chain(&mut self.feedback) {
            *mask &= !(1 << slot);
        }
    }

    /// False where it was subscribed already, and nothing is changed.
    pub fn subscribe(&mut self, slot: usize, control: usize, flags: u32) -> bool {
        let bit = 1 << slot;
        if self.subscribed[control] & bit != 0 {
            return false;
        }
        self.subscribed[control] |= bit;
        if flags & sub::ALLOW_FEEDBACK != 0 {
            self.feedback[control] |= bit;
        }
        true
    }

    pub fn unsubscribe(&mut self, slot: usize, control: usize) {
        self.subscribed[control] &= !(1 << slot);
        self.feedback[control] &= !(1 << slot);
        let queue = &mut self.queues[slot];
        if queue.nodes[control].changes != 0 {
            queue.unlink(control);
            queue.nodes[control].changes = 0;
        }
    }

    /// The handles that a raise for this control goes to; `quiet` gets it with ALLOW_FEEDBACK alone.
    #[inline]
    pub fn audience(&self, control: usize, quiet: Option<usize>) -> u64 {
        match quiet {
            None => self.subscribed[control],
            Some(slot) => self.subscribed[control] & (!(1 << slot) | self.feedback[control]),
        }
    }

    pub fn raise(&mut self, audience: u64, control: usize, changes: u32, payload: &Payload) {
        for slot in Bits(audience) {
            self.queues[slot].raise(control, changes, payload);
        }
    }

    pub fn first(&self, slot: usize) -> Option<Waiting> {
        let queue = &self.queues[slot];
        (queue.first != NONE).then(|| queue.waiting(queue.first as usize))
    }

    /// Drops the first event, answers how many wait after it.
    pub fn pop(&mut self, slot: usize) -> u32 {
        let queue = &mut self.queues[slot];
        let first = queue.first as usize;
        queue.unlink(first);
        queue.nodes[first].changes = 0;
        queue.len
    }

    pub fn next_sequence(&self, slot: usize) -> u32 {
        self.queues[slot].next_sequence
    }

    /// The waiting events in order.
    pub fn waiting(&self, slot: usize) -> impl Iterator<Item = Waiting> + '_ {
        let queue = &self.queues[slot];
        let mut at = queue.first;
        std::iter::from_fn(move || {
            let control = (at != NONE).then_some(at as usize)?;
            at = queue.nodes[control].behind;
            Some(queue.waiting(control))
        })
    }
}
