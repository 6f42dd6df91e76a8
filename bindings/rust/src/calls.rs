use crate::sys;
use crate::Error;

// Each call lends slices and a local, which are not null, have the length beside them and do not overlap: a `&mut` of
// Rust is the only way to what it lends. So every duty of the header is met.

/// Encodes a message: writes the shares of all n nodes, lane after lane.
///
/// `message` has k·lanes symbols and `shares` n·lanes.
pub fn encode(record: &[u8], lanes: u32, message: &[u8], shares: &mut [u8]) -> Result<(), Error> {
    let number = unsafe {
        sys::balanced_encode(
            record.as_ptr(),
            record.len(),
            lanes,
            message.as_ptr(),
            message.len(),
            shares.as_mut_ptr(),
            shares.len(),
        )
    };
    Error::check(number)
}

/// Changes one symbol of one lane in shares that are in place: adds (new − old) times the symbol's row of the generator to
/// that lane. Gives the number of nodes that it altered.
///
/// `shares` has n·lanes symbols. The lane must encode a message, else the update meets [`Error::Word`], and this message must
/// hold `old` there, else it meets [`Error::Stale`]; afterwards the lane encodes the message with `new` in its place. Bytes of
/// other lanes neither matter nor change. A number that is no symbol of the field meets [`Error::Symbol`].
pub fn update(
    record: &[u8],
    lanes: u32,
    symbol: u32,
    lane: u32,
    old: u32,
    new: u32,
    shares: &mut [u8],
) -> Result<u32, Error> {
    let mut altered = 0;
    let number = unsafe {
        sys::balanced_update(
            record.as_ptr(),
            record.len(),
            lanes,
            symbol,
            lane,
            old,
            new,
            shares.as_mut_ptr(),
            shares.len(),
            &mut altered,
        )
    };
    Error::check(number).map(|()| altered)
}

/// Recovers a message from the shares of any k nodes.
///
/// `nodes` lists k different nodes in any order, `shares` has k·lanes symbols, in each lane what these nodes hold in list
/// order, and `message` has k·lanes symbols. The message is the only one whose encoding holds these shares at these nodes.
pub fn recover(record: &[u8], lanes: u32, nodes: &[u8], shares: &[u8], message: &mut [u8]) -> Result<(), Error> {
    let number = unsafe {
        sys::balanced_recover(
            record.as_ptr(),
            record.len(),
            lanes,
            nodes.as_ptr(),
            nodes.len(),
            shares.as_ptr(),
            shares.len(),
            message.as_mut_ptr(),
            message.len(),
        )
    };
    Error::check(number)
}

/// Rebuilds what one node holds from the shares of any k nodes.
///
/// `nodes` and `shares` are as in [`recover`]; the target may be in the list. `share` has `lanes` symbols.
pub fn rebuild(record: &[u8], lanes: u32, nodes: &[u8], shares: &[u8], target: u32, share: &mut [u8]) -> Result<(), Error> {
    let number = unsafe {
        sys::balanced_rebuild(
            record.as_ptr(),
            record.len(),
            lanes,
            nodes.as_ptr(),
            nodes.len(),
            shares.as_ptr(),
            shares.len(),
            target,
            share.as_mut_ptr(),
            share.len(),
        )
    };
    Error::check(number)
}

/// Tests whether every lane of a block is a word of the code: `None`, or the smallest lane that is none.
///
/// `shares` has n·lanes symbols.
pub fn belongs(record: &[u8], lanes: u32, shares: &[u8]) -> Result<Option<u32>, Error> {
    let mut first_wrong = 0;
    let number = unsafe {
        sys::balanced_belongs(
            record.as_ptr(),
            record.len(),
            lanes,
            shares.as_ptr(),
            shares.len(),
            &mut first_wrong,
        )
    };
    Error::check(number).map(|()| (first_wrong != lanes).then_some(first_wrong))
}

/// Sets wrong symbols right: each lane becomes the word of the code that differs from it at no more than (n−k)/2 nodes,
/// rounded down. Gives the number of symbols that it altered.
///
/// `shares` has n·lanes symbols. There is at most one such word, and for a lane that is a word it is the lane itself. If some
/// lane has no word that near, the call meets [`Error::Far`] and no lane is touched; for k = n and k = n−1 every lane must be
/// a word. A lane with more wrong symbols than that may be near to another word than the one it was, and becomes that one.
pub fn correct(record: &[u8], lanes: u32, shares: &mut [u8]) -> Result<u32, Error> {
    let mut altered = 0;
    let number = unsafe {
        sys::balanced_correct(
            record.as_ptr(),
            record.len(),
            lanes,
            shares.as_mut_ptr(),
            shares.len(),
            &mut altered,
        )
    };
    Error::check(number).map(|()| altered)
}

/// Puts shares that stand node after node, as those of an older store do, lane after lane.
///
/// Both buffers have n·lanes symbols: what stands at j·lanes + t of `by_node` goes to t·n + j of `by_lane`, for each node j and
/// lane t. Symbols are moved, not judged: they need not be symbols of the field.
pub fn to_lanes(record: &[u8], lanes: u32, by_node: &[u8], by_lane: &mut [u8]) -> Result<(), Error> {
    let number = unsafe {
        sys::balanced_to_lanes(
            record.as_ptr(),
            record.len(),
            lanes,
            by_node.as_ptr(),
            by_node.len(),
            by_lane.as_mut_ptr(),
            by_lane.len(),
        )
    };
    Error::check(number)
}

/// Puts shares that stand lane after lane node after node: undoes [`to_lanes`].
pub fn to_nodes(record: &[u8], lanes: u32, by_lane: &[u8], by_node: &mut [u8]) -> Result<(), Error> {
    let number = unsafe {
        sys::balanced_to_nodes(
            record.as_ptr(),
            record.len(),
            lanes,
            by_lane.as_ptr(),
            by_lane.len(),
            by_node.as_mut_ptr(),
            by_node.len(),
        )
    };
    Error::check(number)
}

/// Puts the shares of k listed nodes that stand node after node lane after lane, as [`recover`] and [`rebuild`] take them.
///
/// Both buffers have k·lanes symbols: what stands at i·lanes + t of `by_node` goes to t·k + i of `by_lane`, for each place i of the
/// list and each lane t. Symbols are moved, not judged.
///
/// ```
/// use balanced::{Error, Plan};
///
/// let plan = Plan::new(&[1, 7, 3, 6, 3])?;
/// // two lanes of nodes 2, 3 and 4, each as its node sent it
/// let mut by_lane = [0; 6];
/// plan.listed_to_lanes(2, &[[1, 1], [3, 3], [6, 1]].concat(), &mut by_lane)?;
/// assert_eq!(by_lane, [1, 3, 6, 1, 3, 1]);
/// let mut message = [0; 6];
/// plan.recover(2, &[2, 3, 4], &by_lane, &mut message)?;
/// assert_eq!(message, [1, 1, 0, 5, 2, 2]);
/// # Ok::<(), Error>(())
/// ```
pub fn listed_to_lanes(record: &[u8], lanes: u32, by_node: &[u8], by_lane: &mut [u8]) -> Result<(), Error> {
    let number = unsafe {
        sys::balanced_listed_to_lanes(
            record.as_ptr(),
            record.len(),
            lanes,
            by_node.as_ptr(),
            by_node.len(),
            by_lane.as_mut_ptr(),
            by_lane.len(),
        )
    };
    Error::check(number)
}

/// Puts the shares of k listed nodes that stand lane after lane node after node: undoes [`listed_to_lanes`].
pub fn listed_to_nodes(record: &[u8], lanes: u32, by_lane: &[u8], by_node: &mut [u8]) -> Result<(), Error> {
    let number = unsafe {
        sys::balanced_listed_to_nodes(
            record.as_ptr(),
            record.len(),
            lanes,
            by_lane.as_ptr(),
            by_lane.len(),
            by_node.as_mut_ptr(),
            by_node.len(),
        )
    };
    Error::check(number)
}

/// Counts the messages by the nodes that hold something other than zero: `counts[w]` is the number of messages whose
/// encoding has just w nodes that are not zero, the Hamming weight w.
///
/// `counts` has n+1 numbers. `counts[0]` is 1, for the message of zeros, and no other message has fewer than n−k+1 nodes
/// that are not zero. There are at most 65,536 messages, or the call is turned away.
pub fn weights(record: &[u8], counts: &mut [u32]) -> Result<(), Error> {
    let number = unsafe { sys::balanced_weights(record.as_ptr(), record.len(), counts.as_mut_ptr(), counts.len()) };
    Error::check(number)
}
