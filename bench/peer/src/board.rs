//! The queue of requests, with what each frame will have.

use std::collections::VecDeque;

use crate::plan::{Plan, EMPTY_ROW};
use crate::requests::{Asked, Requests};
use crate::settle::Ctrl;
use crate::types::*;

/// What an overlay goes by, apart from the values.
#[derive(Clone, Copy)]
pub struct Rules<'a> {
    pub plan: &'a Plan,
    pub ranges: &'a [Ctrl],
    pub grabs: &'a Set256,
    pub requests: &'a Requests,
}

impl Rules<'_> {
    /// Lays the pairs of one cluster over its row. True where it is refused, and the row stays.
    /// The row handed in is settled.
    fn overlay(&self, asked: &Asked, cluster: usize, row: &mut [Value], work: &mut u64) -> bool {
        let cluster = &self.plan.clusters()[cluster];
        let mut new = EMPTY_ROW;
        let new = &mut new[..row.len()];
        for ((&member, old), new) in cluster.members.iter().zip(&*row).zip(&mut *new) {
            *new = match asked.get(member) {
                None => *old,
                Some(_) if self.grabs.contains(member) => return true,
                Some(value) => match self.ranges[member].settle(value) {
                    Ok(value) => value,
                    Err(_) => return true,
                },
            };
        }
        if cluster.judge(self.ranges, new, work).is_err() {
            return true;
        }
        row.copy_from_slice(new);
        false
    }
}

#[derive(Default)]
pub struct Row {
    /// The request's slot.
    pub slot: usize,
    pub values: Vec<Value>,
    pub refused: Set256,
}

#[derive(Default)]
pub struct Board {
    rows: VecDeque<Row>,
    spare: Vec<Row>,
}

impl Board {
    pub fn rows(&self) -> &VecDeque<Row> {
        &self.rows
    }

    /// The board of these requests over these values, from nothing.
    pub fn compute(rules: Rules, values: &[Value], slots: impl Iterator<Item = usize>, work: &mut u64) -> Board {
        let mut board = Board::default();
        for slot in slots {
            board.push(rules, values, slot, work);
        }
        board
    }

    pub fn push(&mut self, rules: Rules, values: &[Value], slot: usize, work: &mut u64) {
        let mut row = self.spare.pop().unwrap_or_default();
        row.slot = slot;
        row.refused = Set256::EMPTY;
        row.values.clear();
        row.values.extend_from_slice(self.rows.back().map_or(values, |last| &last.values));
        let asked = &rules.requests.at(slot).asked;
        let mut buffer = EMPTY_ROW;
        for cluster in asked.clusters().iter() {
            let members = &rules.plan.clusters()[cluster].members;
            let part = rules.plan.clusters()[cluster].gather(&row.values, &mut buffer);
            if rules.overlay(asked, cluster, part, work) {
                row.refused.insert(cluster);
            } else {
                members.iter().zip(part).for_each(|(&member, value)| row.values[member] = *value);
            }
        }
        self.rows.push_back(row);
    }

    /// Drops the first row, whose values have become present.
    pub fn pop(&mut self) {
        self.spare.extend(self.rows.pop_front());
    }

    pub fn clear(&mut self) {
        self.spare.extend(self.rows.drain(..));
    }

    /// Drops a row and renews those behind it in the clusters that it named.
    pub fn remove(&mut self, place: usize, rules: Rules, values: &[Value], work: &mut u64) {
        if let Some(row) = self.rows.remove(place) {
            let named = rules.requests.at(row.slot).asked.clusters();
            self.spare.push(row);
            for cluster in named.iter() {
                self.renew_from(place, cluster, true, rules, values, work);
            }
        }
    }

    /// Renews one cluster after its present values changed and, if `!values_only`, grabs or ranges too.
    pub fn renew(&mut self, cluster: usize, values_only: bool, rules: Rules, values: &[Value], work: &mut u64) {
        self.renew_from(0, cluster, values_only, rules, values, work);
    }

    fn renew_from(
        &mut self,
        from: usize,
        number: usize,
        values_only: bool,
        rules: Rules,
        values: &[Value],
        work: &mut u64,
    ) {
        if from == self.rows.len() {
            return;
        }
        let cluster = &rules.plan.clusters()[number];
        let mut buffer = EMPTY_ROW;
        let before = if from == 0 { values } else { &self.rows[from - 1].values };
        let part = cluster.gather(before, &mut buffer);
        for row in self.rows.range_mut(from..) {
            let asked = &rules.requests.at(row.slot).asked;
            if asked.clusters().contains(number) {
                let refused = rules.overlay(asked, number, part, work);
                row.refused.put(number, refused);
            }
            let mut same = true;
            for (&member, value) in cluster.members.iter().zip(&*part) {
                if row.values[member] != *value {
                    row.values[member] = *value;
                    same = false;
                }
            }
            // the later rows rest on this one: where it stays they stay
            if same && values_only {
                return;
            }
        }
    }
}
