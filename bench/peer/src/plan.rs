//! Controls, handlers and clusters as they were declared.

use crate::settle::Ctrl;
use crate::types::*;

/// Judges a cluster's row and may change any member.
pub type Validator = Box<dyn Fn(&mut [Value]) -> Result<(), Errno> + Send + Sync>;
/// Is told a cluster's new row and answers the word that is kept.
pub type Notifier = Box<dyn Fn(&[Value]) -> u64 + Send + Sync>;

#[derive(Default)]
pub struct Calls {
    pub validator: Option<Validator>,
    pub notifier: Option<Notifier>,
}

#[derive(Clone, Copy, PartialEq, Eq, Debug)]
pub enum PlanFault {
    DuplicateId,
    InCluster,
    ClusterSize,
    LaterHandler,
    UnknownNumber,
    Limit,
    ArrayAlone,
}

pub struct Cluster {
    pub members: Vec<usize>,
    /// The manual value of an auto cluster's master.
    pub manual: Option<Value>,
    pub calls: Calls,
}

impl Cluster {
    /// Whether the members behind the master are inactive under these values.
    #[inline]
    pub fn inactive(&self, values: &[Value]) -> bool {
        self.manual.map_or(false, |manual| values[self.members[0]] != manual)
    }

    /// This cluster's members' values, in member order.
    #[inline]
    pub fn gather<'r>(&self, values: &[Value], row: &'r mut [Value; MAX_MEMBERS]) -> &'r mut [Value] {
        for (to, &member) in row.iter_mut().zip(&self.members) {
            *to = values[member];
        }
        &mut row[..self.members.len()]
    }

    /// What the validator makes of a row, where there is one. A row that is refused is left in any state.
    #[inline]
    pub fn judge(&self, ranges: &[Ctrl], row: &mut [Value], asked: &mut u64) -> Result<(), Errno> {
        let validator = match &self.calls.validator {
            Some(validator) => validator,
            None => return Ok(()),
        };
        *asked += 1;
        validator(row).map_err(|errno| match errno {
            Errno::Acces | Errno::Busy | Errno::Inval | Errno::Range => errno,
            _ => Errno::Inval,
        })?;
        let settled = |(&member, value): (&usize, &Value)| ranges[member].settle(value) == Ok(*value);
        if self.members.iter().zip(row.iter()).all(settled) {
            Ok(())
        } else {
            Err(Errno::Inval)
        }
    }
}

pub const EMPTY_ROW: [Value; MAX_MEMBERS] = [Value::Number(0); MAX_MEMBERS];

struct Handler {
    /// Shown ids with their controls, rising.
    shown: Vec<(u32, u32)>,
    /// The classes of shown ids, rising.
    classes: Vec<u32>,
}

pub struct Plan {
    controls: Vec<Ctrl>,
    /// By control: the names of its items.
    menus: Vec<Vec<Option<String>>>,
    clusters: Vec<Cluster>,
    cluster_of: Vec<u32>,
    handlers: Vec<Handler>,
}

impl Plan {
    pub fn controls(&self) -> &[Ctrl] {
        &self.controls
    }

    pub fn clusters(&self) -> &[Cluster] {
        &self.clusters
    }

    pub fn handlers(&self) -> usize {
        self.handlers.len()
    }

    #[inline]
    pub fn cluster_of(&self, control: usize) -> usize {
        self.cluster_of[control] as usize
    }

    #[inline]
    pub fn find(&self, handler: u32, id: u32) -> Option<usize> {
        let shown = &self.handlers[handler as usize].shown;
        let place = shown.binary_search_by_key(&id, |s| s.0).ok()?;
        Some(shown[place].1 as usize)
    }

    pub fn next_id(&self, handler: u32, id: u32) -> Option<u32> {
        let shown = &self.handlers[handler as usize].shown;
        shown.get(shown.partition_point(|s| s.0 <= id)).map(|s| s.0)
    }

    pub fn shows_class(&self, handler: u32, class: u32) -> bool {
        self.handlers[handler as usize].classes.binary_search(&class).is_ok()
    }

    pub fn item_name(&self, control: usize, index: u32) -> Option<&str> {
        self.menus[control].get(index as usize)?.as_deref()
    }
}

#[derive(Default)]
pub struct PlanBuilder {
    controls: Vec<Ctrl>,
    menus: Vec<Vec<Option<String>>>,
    own: Vec<Vec<usize>>,
    added: Vec<Vec<usize>>,
    clusters: Vec<Cluster>,
    cluster_of: Vec<Option<usize>>,
}

impl PlanBuilder {
    pub fn new() -> PlanBuilder {
        PlanBuilder::default()
    }

    pub fn handler(&mut self) -> Result<u32, PlanFault> {
        if self.own.len() == MAX_HANDLERS {
            return Err(PlanFault::Limit);
        }
        self.own.push(Vec::new());
        self.added.push(Vec::new());
        Ok(self.own.len() as u32 - 1)
    }

    pub fn control(&mut self, handler: u32, ctrl: Ctrl) -> Result<u32, PlanFault> {
        let own = self.own.get_mut(handler as usize).ok_or(PlanFault::UnknownNumber)?;
        if self.controls.len() == MAX_CONTROLS {
            return Err(PlanFault::Limit);
        }
        if own.iter().any(|&c| self.controls[c].id == ctrl.id) {
            return Err(PlanFault::DuplicateId);
        }
        own.push(self.controls.len());
        self.controls.push(ctrl);
        self.menus.push(Vec::new());
        self.cluster_of.push(None);
        Ok(self.controls.len() as u32 - 1)
    }

    pub fn menu_name(&mut self, control: u32, index: u32, name: &str) -> Result<(), PlanFault> {
        let ctrl = self.controls.get(control as usize).ok_or(PlanFault::UnknownNumber)?;
        if ctrl.kind != Kind::Menu || ctrl.settle_number(index as i64).is_err() {
            return Err(PlanFault::UnknownNumber);
        }
        if name.len() > 32 {
            return Err(PlanFault::Limit);
        }
        let items = &mut self.menus[control as usize];
        if items.len() <= index as usize {
            items.resize(index as usize + 1, None);
        }
        items[index as usize] = Some(name.to_owned());
        Ok(())
    }

    pub fn cluster(&mut self, members: &[u32], calls: Calls) -> Result<u32, PlanFault> {
        self.add_cluster(members, None, calls)
    }

    pub fn auto_cluster(&mut self, members: &[u32], manual: i64, calls: Calls) -> Result<u32, PlanFault> {
        self.add_cluster(members, Some(manual), calls)
    }

    fn add_cluster(&mut self, members: &[u32], manual: Option<i64>, calls: Calls) -> Result<u32, PlanFault> {
        if members.is_empty() || members.len() > MAX_MEMBERS {
            return Err(PlanFault::ClusterSize);
        }
        let members: Vec<usize> = members.iter().map(|&m| m as usize).collect();
        if members.iter().any(|&m| m >= self.controls.len()) {
            return Err(PlanFault::UnknownNumber);
        }
        let twice = |(i, m): (usize, &usize)| members[..i].contains(m) || self.cluster_of[*m].is_some();
        if members.iter().enumerate().any(twice) {
            return Err(PlanFault::InCluster);
        }
        let crowded = members.len() > 1 || manual.is_some();
        if crowded && members.iter().any(|&m| self.controls[m].kind == Kind::U8) {
            return Err(PlanFault::ArrayAlone);
        }
        let number = self.clusters.len();
        for &member in &members {
            self.cluster_of[member] = Some(number);
        }
        if manual.is_some() {
            self.controls[members[0]].flags |= flag::UPDATE;
        }
        self.clusters.push(Cluster { members, manual: manual.map(Value::Number), calls });
        Ok(number as u32)
    }

    pub fn add_handler(&mut self, to: u32, added: u32) -> Result<(), PlanFault> {
        let (to, added) = (to as usize, added as usize);
        if to >= self.own.len() || added >= self.own.len() {
            return Err(PlanFault::UnknownNumber);
        }
        if added >= to {
            return Err(PlanFault::LaterHandler);
        }
        if !self.added[to].contains(&added) {
            self.added[to].push(added);
        }
        Ok(())
    }

    pub fn finish(mut self) -> Plan {
        let mut cluster_of = Vec::with_capacity(self.controls.len());
        for control in 0..self.controls.len() {
            let number = self.cluster_of[control].unwrap_or_else(|| {
                self.clusters.push(Cluster { members: vec![control], manual: None, calls: Calls::default() });
                self.clusters.len() - 1
            });
            cluster_of.push(number as u32);
        }
        let mut handlers: Vec<Handler> = Vec::with_capacity(self.own.len());
        for (own, added) in self.own.iter().zip(&self.added) {
            // which control an id shows is settled in the order of showing: own ones first, then each added handler's
            let mut shown: Vec<(u32, u32)> = own.iter().map(|&c| (self.controls[c].id, c as u32)).collect();
            shown.sort_unstable();
            for &from in added {
                let news: Vec<(u32, u32)> = handlers[from]
                    .shown
                    .iter()
                    .filter(|s| !self.controls[s.1 as usize].is_private)
                    .filter(|s| shown.binary_search_by_key(&s.0, |t| t.0).is_err())
                    .copied()
                    .collect();
                shown.extend(news);
                shown.sort_unstable();
            }
            let mut classes: Vec<u32> = shown.iter().map(|s| s.0 & CLASS_MASK).collect();
            classes.sort_unstable();
            classes.dedup();
            handlers.push(Handler { shown, classes });
        }
        Plan { controls: self.controls, menus: self.menus, clusters: self.clusters, cluster_of, handlers }
    }
}
