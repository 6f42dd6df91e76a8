//! Lost and wrong together: the message of listed nodes, some of which hold wrong symbols.
use crate::{sys, Error, Plan};

/// Recovers a message from the shares of s listed nodes, k ≤ s ≤ n, of which some may be wrong, and counts the wrong symbols. Gives how many
/// there are.
///
/// `nodes` lists s different nodes in any order, `shares` has s·lanes symbols, in each lane what these nodes hold in list order, and `message`
/// k·lanes. In each lane it is the one message whose encoding differs from the listed symbols at no more than (s−k)/2 of them, rounded
/// down. `wrong` has s numbers, and receives for each place of the list in how many lanes it was wrong. If some lane has no message that
/// near, the call meets [`Error::Far`] and writes nothing.
///
/// With s = k it is [`recover`](crate::recover); with s = n the message is that of what [`correct`](crate::correct) makes of the block.
///
/// ```
/// use balanced::{Error, Plan};
///
/// // 15 nodes, any 10 give the message back; three are lost, and one of the others is wrong
/// let plan = Plan::new(&[2, 11, 15, 10])?;
/// let (message, mut shares) = ([7, 7, 7, 7, 7, 7, 7, 7, 7, 1], [0; 15]);
/// plan.encode(1, &message, &mut shares)?;
/// let nodes: Vec<u8> = (0..15).filter(|j| ![2, 3, 11].contains(j)).collect();
/// let mut listed: Vec<u8> = nodes.iter().map(|&j| shares[usize::from(j)]).collect();
/// listed[4] ^= 99;
///
/// let (mut back, mut wrong) = ([0; 10], [0; 12]);
/// assert_eq!(plan.correct_listed(1, &nodes, &listed, &mut back, &mut wrong)?, 1);
/// assert_eq!(back, message);
/// assert_eq!(wrong, [0, 0, 0, 0, 1, 0, 0, 0, 0, 0, 0, 0]);
/// assert_eq!(nodes[4], 6);
///
/// // two wrong ones are too many for 12 nodes: (12 − 10)/2 is 1
/// listed[5] ^= 1;
/// assert_eq!(plan.correct_listed(1, &nodes, &listed, &mut back, &mut wrong), Err(Error::Far));
/// # Ok::<(), Error>(())
/// ```
pub fn correct_listed(
    record: &[u8],
    lanes: u32,
    nodes: &[u8],
    shares: &[u8],
    message: &mut [u8],
    wrong: &mut [u32],
) -> Result<u32, Error> {
    let mut altered = 0;
    // slices and a local, which are not null, have the length beside them and do not overlap
    let number = unsafe {
        sys::balanced_correct_listed(
            record.as_ptr(),
            record.len(),
            lanes,
            nodes.as_ptr(),
            nodes.len(),
            shares.as_ptr(),
            shares.len(),
            message.as_mut_ptr(),
            message.len(),
            wrong.as_mut_ptr(),
            wrong.len(),
            &mut altered,
        )
    };
    Error::check(number).map(|()| altered)
}

impl Plan {
    /// [`correct_listed`](crate::correct_listed) with this plan's record.
    pub fn correct_listed(
        &self,
        lanes: u32,
        nodes: &[u8],
        shares: &[u8],
        message: &mut [u8],
        wrong: &mut [u32],
    ) -> Result<u32, Error> {
        correct_listed(self.record(), lanes, nodes, shares, message, wrong)
    }
}
