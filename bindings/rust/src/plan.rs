use std::fmt;

use crate::{calls, lanes, sys, Error, Finding, MAX_NODES};

/// A record that was accepted, and the plan that it stands for.
#[derive(Clone, Copy, PartialEq, Eq)]
pub struct Plan {
    record: [u8; 7],
    record_len: usize,
    numbers: [u8; 5],
    shifts: [u8; MAX_NODES],
    firsts: [u8; MAX_NODES],
    base: [u16; MAX_NODES],
}

impl Plan {
    /// The plan of a record, or what turns the record away: one of the errors from `Kind` to `Root`.
    pub fn new(record: &[u8]) -> Result<Plan, Error> {
        let mut plan = Plan {
            record: [0; 7],
            record_len: record.len(),
            numbers: [0; 5],
            shifts: [0; MAX_NODES],
            firsts: [0; MAX_NODES],
            base: [0; MAX_NODES],
        };
        // the slice and the four arrays are not null, have the lengths beside them and do not overlap
        let number = unsafe {
            sys::balanced_plan(
                record.as_ptr(),
                record.len(),
                plan.numbers.as_mut_ptr(),
                plan.numbers.len(),
                plan.shifts.as_mut_ptr(),
                plan.shifts.len(),
                plan.firsts.as_mut_ptr(),
                plan.firsts.len(),
                plan.base.as_mut_ptr(),
                plan.base.len(),
            )
        };
        Error::check(number)?;
        // an accepted record has 4, 5 or 7 bytes
        plan.record[..record.len()].copy_from_slice(record);
        Ok(plan)
    }

    /// The record.
    pub fn record(&self) -> &[u8] {
        &self.record[..self.record_len]
    }

    /// The number of nodes.
    pub fn n(&self) -> usize {
        self.numbers[0].into()
    }

    /// The number of symbols of a message, in each lane.
    pub fn k(&self) -> usize {
        self.numbers[1].into()
    }

    /// n−k+1, the number of nodes that a change of one symbol alters.
    pub fn d(&self) -> usize {
        self.numbers[2].into()
    }

    /// k·d/n rounded down, the least number of symbols that a node depends on.
    pub fn low_reads(&self) -> usize {
        self.numbers[3].into()
    }

    /// k·d/n rounded up, the greatest number of symbols that a node depends on. No scheme has a lesser greatest number.
    pub fn high_reads(&self) -> usize {
        self.numbers[4].into()
    }

    /// The k shifts, in the order of the rows.
    pub fn shifts(&self) -> &[u8] {
        &self.shifts[..self.k()]
    }

    /// The node at which each of the k rows begins, (−shift) modulo n: its entries are not zero at the d nodes from there on,
    /// going round.
    pub fn firsts(&self) -> &[u8] {
        &self.firsts[..self.k()]
    }

    /// The n entries of the base word, which is row 0 of the generator.
    pub fn base_word(&self) -> &[u16] {
        &self.base[..self.n()]
    }

    /// Entry (row, node) of the generator, by which symbol `row` of a message goes into `node`.
    ///
    /// # Panics
    ///
    /// If `row` is not below k or `node` is not below n.
    pub fn entry(&self, row: usize, node: usize) -> u16 {
        assert!(node < self.n(), "node {} is not below {}", node, self.n());
        self.base_word()[(node + usize::from(self.shifts()[row])) % self.n()]
    }

    /// The bytes of a symbol: two in kind 3, else one.
    pub fn symbol_len(&self) -> usize {
        if self.record[0] == 3 {
            2
        } else {
            1
        }
    }

    /// The length of a message of so many lanes.
    pub fn message_len(&self, lanes: u32) -> usize {
        self.k() * lanes as usize * self.symbol_len()
    }

    /// The length of the shares of a block of so many lanes.
    pub fn shares_len(&self, lanes: u32) -> usize {
        self.n() * lanes as usize * self.symbol_len()
    }

    /// The length of one node's share of a block of so many lanes.
    pub fn share_len(&self, lanes: u32) -> usize {
        lanes as usize * self.symbol_len()
    }

    /// [`encode`](crate::encode) with this plan's record.
    pub fn encode(&self, lanes: u32, message: &[u8], shares: &mut [u8]) -> Result<(), Error> {
        calls::encode(self.record(), lanes, message, shares)
    }

    /// [`update`](crate::update) with this plan's record.
    pub fn update(&self, lanes: u32, symbol: u32, lane: u32, old: u32, new: u32, shares: &mut [u8]) -> Result<u32, Error> {
        calls::update(self.record(), lanes, symbol, lane, old, new, shares)
    }

    /// [`recover`](crate::recover) with this plan's record.
    pub fn recover(&self, lanes: u32, nodes: &[u8], shares: &[u8], message: &mut [u8]) -> Result<(), Error> {
        calls::recover(self.record(), lanes, nodes, shares, message)
    }

    /// [`rebuild`](crate::rebuild) with this plan's record.
    pub fn rebuild(&self, lanes: u32, nodes: &[u8], shares: &[u8], target: u32, share: &mut [u8]) -> Result<(), Error> {
        calls::rebuild(self.record(), lanes, nodes, shares, target, share)
    }

    /// [`belongs`](crate::belongs) with this plan's record.
    pub fn belongs(&self, lanes: u32, shares: &[u8]) -> Result<Option<u32>, Error> {
        calls::belongs(self.record(), lanes, shares)
    }

    /// [`correct`](crate::correct) with this plan's record.
    pub fn correct(&self, lanes: u32, shares: &mut [u8]) -> Result<u32, Error> {
        calls::correct(self.record(), lanes, shares)
    }

    /// [`find_update`](crate::find_update) with this plan's record.
    pub fn find_update(&self, before: &[u8], after: &[u8]) -> Result<Finding, Error> {
        lanes::find_update(self.record(), before, after)
    }

    /// [`mends`](crate::mends) with this plan's record.
    pub fn mends(&self, lane: &[u8], nodes: &mut [u8], symbols: &mut [u8]) -> Result<usize, Error> {
        lanes::mends(self.record(), lane, nodes, symbols)
    }

    /// [`to_lanes`](crate::to_lanes) with this plan's record.
    pub fn to_lanes(&self, lanes: u32, by_node: &[u8], by_lane: &mut [u8]) -> Result<(), Error> {
        calls::to_lanes(self.record(), lanes, by_node, by_lane)
    }

    /// [`to_nodes`](crate::to_nodes) with this plan's record.
    pub fn to_nodes(&self, lanes: u32, by_lane: &[u8], by_node: &mut [u8]) -> Result<(), Error> {
        calls::to_nodes(self.record(), lanes, by_lane, by_node)
    }

    /// [`listed_to_lanes`](crate::listed_to_lanes) with this plan's record.
    pub fn listed_to_lanes(&self, lanes: u32, by_node: &[u8], by_lane: &mut [u8]) -> Result<(), Error> {
        calls::listed_to_lanes(self.record(), lanes, by_node, by_lane)
    }

    /// [`listed_to_nodes`](crate::listed_to_nodes) with this plan's record.
    pub fn listed_to_nodes(&self, lanes: u32, by_lane: &[u8], by_node: &mut [u8]) -> Result<(), Error> {
        calls::listed_to_nodes(self.record(), lanes, by_lane, by_node)
    }

    /// [`weights`](crate::weights) with this plan's record.
    pub fn weights(&self, counts: &mut [u32]) -> Result<(), Error> {
        calls::weights(self.record(), counts)
    }
}

impl fmt::Debug for Plan {
    fn fmt(&self, f: &mut fmt::Formatter<'_>) -> fmt::Result {
        f.debug_struct("Plan")
            .field("record", &self.record())
            .field("n", &self.n())
            .field("k", &self.k())
            .field("d", &self.d())
            .field("low_reads", &self.low_reads())
            .field("high_reads", &self.high_reads())
            .finish()
    }
}
