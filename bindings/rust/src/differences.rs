//! Changes of one symbol in many lanes: what each node has to add, and Update for a run of lanes.
use crate::{sys, Error, Plan};

// Each call lends slices and a local, which are not null, have the length beside them and do not overlap.

/// What each node has to add where one symbol changes in every lane, node after node.
///
/// `old` and `new` have `lanes` symbols, those that the messages hold there and are to hold. `differences` has n·lanes symbols: what node
/// j adds in lane t stands at j·lanes + t. It is zero at all but the n−k+1 nodes of the symbol's row, so that only these are to be told.
///
/// ```
/// use balanced::{Error, Plan};
///
/// let plan = Plan::new(&[2, 11, 15, 10])?;
/// let (mut message, mut shares) = (vec![7; plan.message_len(2)], vec![0; plan.shares_len(2)]);
/// plan.encode(2, &message, &mut shares)?;
/// let mut nodes = vec![0; plan.shares_len(2)];
/// plan.to_nodes(2, &shares, &mut nodes)?;
///
/// // symbol 4 becomes 9 in lane 0 and 8 in lane 1: six nodes are told, and each adds its part
/// let mut differences = vec![0; plan.shares_len(2)];
/// plan.differences(2, 4, &[7, 7], &[9, 8], &mut differences)?;
/// let told: Vec<usize> = (0..15).filter(|j| differences[2 * j..2 * j + 2] != [0, 0]).collect();
/// assert_eq!(told.len(), plan.d());
/// for j in told {
///     plan.add_share(2, &differences[2 * j..2 * j + 2], &mut nodes[2 * j..2 * j + 2])?;
/// }
///
/// message[2 * 4..2 * 4 + 2].copy_from_slice(&[9, 8]);
/// plan.encode(2, &message, &mut shares)?;
/// let mut wanted = vec![0; plan.shares_len(2)];
/// plan.to_nodes(2, &shares, &mut wanted)?;
/// assert_eq!(nodes, wanted);
/// # Ok::<(), Error>(())
/// ```
pub fn differences(
    record: &[u8],
    lanes: u32,
    symbol: u32,
    old: &[u8],
    new: &[u8],
    differences: &mut [u8],
) -> Result<(), Error> {
    let number = unsafe {
        sys::balanced_differences(
            record.as_ptr(),
            record.len(),
            lanes,
            symbol,
            old.as_ptr(),
            old.len(),
            new.as_ptr(),
            new.len(),
            differences.as_mut_ptr(),
            differences.len(),
        )
    };
    Error::check(number)
}

/// Adds a difference to one node's share, symbol by symbol. Both have `lanes` symbols.
pub fn add_share(record: &[u8], lanes: u32, difference: &[u8], share: &mut [u8]) -> Result<(), Error> {
    let number = unsafe {
        sys::balanced_add_share(
            record.as_ptr(),
            record.len(),
            lanes,
            difference.as_ptr(),
            difference.len(),
            share.as_mut_ptr(),
            share.len(),
        )
    };
    Error::check(number)
}

/// [`update`](crate::update) for a run of lanes at once: lane `first` + i changes from symbol i of `old` to symbol i of `new`. Gives the
/// number of symbols that it altered.
///
/// `old` and `new` have equally many symbols, and the run ends within the block. Every lane is judged before anything is written, in their order: each
/// must encode a message, else the call meets [`Error::Word`], and this message must hold the old symbol, else it meets [`Error::Stale`]; the
/// first lane that does not decides. A run of no lanes changes nothing.
///
/// ```
/// use balanced::{Error, Plan};
///
/// let plan = Plan::new(&[1, 7, 3, 6, 3])?;
/// let mut shares = [6, 1, 1, 3, 6, 2, 0, 6, 1, 3, 1, 0]; // the messages 1 0 2 and 1 5 2
/// assert_eq!(plan.update_lanes(2, 1, 0, &[0, 5], &[5, 5], &mut shares)?, 4);
/// assert_eq!(shares, [0, 6, 1, 3, 1, 0, 0, 6, 1, 3, 1, 0]);
/// // lane 1 does not hold 4 there: neither lane changes
/// assert_eq!(plan.update_lanes(2, 1, 0, &[5, 4], &[0, 0], &mut shares), Err(Error::Stale));
/// assert_eq!(shares, [0, 6, 1, 3, 1, 0, 0, 6, 1, 3, 1, 0]);
/// # Ok::<(), Error>(())
/// ```
pub fn update_lanes(
    record: &[u8],
    lanes: u32,
    symbol: u32,
    first: u32,
    old: &[u8],
    new: &[u8],
    shares: &mut [u8],
) -> Result<u32, Error> {
    let mut altered = 0;
    let number = unsafe {
        sys::balanced_update_lanes(
            record.as_ptr(),
            record.len(),
            lanes,
            symbol,
            first,
            old.as_ptr(),
            old.len(),
            new.as_ptr(),
            new.len(),
            shares.as_mut_ptr(),
            shares.len(),
            &mut altered,
        )
    };
    Error::check(number).map(|()| altered)
}

impl Plan {
    /// [`differences`](crate::differences()) with this plan's record.
    pub fn differences(&self, lanes: u32, symbol: u32, old: &[u8], new: &[u8], out: &mut [u8]) -> Result<(), Error> {
        differences(self.record(), lanes, symbol, old, new, out)
    }

    /// [`add_share`](crate::add_share) with this plan's record.
    pub fn add_share(&self, lanes: u32, difference: &[u8], share: &mut [u8]) -> Result<(), Error> {
        add_share(self.record(), lanes, difference, share)
    }

    /// [`update_lanes`](crate::update_lanes) with this plan's record.
    pub fn update_lanes(
        &self,
        lanes: u32,
        symbol: u32,
        first: u32,
        old: &[u8],
        new: &[u8],
        shares: &mut [u8],
    ) -> Result<u32, Error> {
        update_lanes(self.record(), lanes, symbol, first, old, new, shares)
    }
}
