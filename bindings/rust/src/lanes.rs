//! The calls on single lanes.
use crate::{sys, Error};

/// What leads from one lane to another.
#[derive(Clone, Copy, Debug, PartialEq, Eq)]
pub enum Finding {
    /// The two lanes are equal.
    Unchanged,
    /// The amount that was added to a symbol of the message. It is a symbol of the field: in the field of 256 elements, the
    /// exclusive or of what the symbol was and what it became.
    Added {
        /// The number of the symbol.
        symbol: u32,
        /// What was added to it.
        amount: u32,
    },
    /// The lanes differ, and no symbol and amount lead from the first to the second.
    NoSingleUpdate,
}

/// Finds the update that leads from one lane to another.
///
/// `before` and `after` have n symbols each, and need not be words of the code. Where an update is found, adding the amount
/// times the symbol's row of the generator to `before` gives `after`, taking it away again gives `before`, and no other
/// symbol and amount do.
pub fn find_update(record: &[u8], before: &[u8], after: &[u8]) -> Result<Finding, Error> {
    let (mut answer, mut symbol, mut amount) = (0, 0, 0);
    let number = unsafe {
        sys::balanced_find_update(
            record.as_ptr(),
            record.len(),
            before.as_ptr(),
            before.len(),
            after.as_ptr(),
            after.len(),
            &mut answer,
            &mut symbol,
            &mut amount,
        )
    };
    Error::check(number).map(|()| match answer {
        0 => Finding::Unchanged,
        1 => Finding::Added { symbol, amount },
        _ => Finding::NoSingleUpdate,
    })
}

/// Lists the single changes that make a lane a word of the code, lowest node first, and gives how many there are.
///
/// `lane` and `symbols` have n symbols each, `nodes` n bytes. Change i puts symbol i of `symbols` in the place of what node `nodes[i]` holds.
/// Places after the last change hold what they held. A lane that is a word has none; another has one at most where k is
/// below n−1, and one for each node where k is n−1. Where k is n every lane is a word.
pub fn mends(record: &[u8], lane: &[u8], nodes: &mut [u8], symbols: &mut [u8]) -> Result<usize, Error> {
    let mut count = 0;
    let number = unsafe {
        sys::balanced_mends(
            record.as_ptr(),
            record.len(),
            lane.as_ptr(),
            lane.len(),
            nodes.as_mut_ptr(),
            nodes.len(),
            symbols.as_mut_ptr(),
            symbols.len(),
            &mut count,
        )
    };
    Error::check(number).map(|()| count as usize)
}
