//! Repair by traces: one node's share from a few bits of each symbol of the others.
use crate::{sys, Error, Plan};

// Each call lends slices and locals, which are not null, have the length beside them and do not overlap.

/// What a repair by traces takes.
#[derive(Clone, Copy, Debug, PartialEq, Eq)]
pub struct RepairPlan {
    /// The bits of a symbol that each node sends: 1, 2 or 4.
    pub bits: u32,
    /// How many further nodes may be missing with no more bits.
    pub spare: u32,
}

impl RepairPlan {
    /// The length of what a node sends of its share of so many lanes: `bits` planes, a bit for each lane.
    pub fn bits_len(&self, lanes: u32) -> usize {
        self.bits as usize * (lanes as usize).div_ceil(8)
    }
}

/// What a repair takes with so many nodes missing beside the target. There is one for records of kind 2 where n − k less the missing nodes is 16
/// or more; others meet [`Error::Traces`].
pub fn repair_plan(record: &[u8], missing: u32) -> Result<RepairPlan, Error> {
    let mut plan = RepairPlan { bits: 0, spare: 0 };
    let number =
        unsafe { sys::balanced_repair_plan(record.as_ptr(), record.len(), missing, &mut plan.bits, &mut plan.spare) };
    Error::check(number).map(|()| plan)
}

/// What a node sends to the target: of each symbol of its share as many bits as [`repair_plan`] says, in planes of a bit for each lane.
///
/// `missing` lists nodes that send nothing, in any order. `share` has `lanes` symbols, `bits` as many bytes as [`RepairPlan::bits_len`] says.
///
/// ```
/// use balanced::{Error, Plan};
///
/// // 255 nodes, any 120 of which give a message back; node 7 is lost, and nodes 8 and 9 are not asked
/// let plan = Plan::new(&[2, 2, 255, 120])?;
/// let (message, mut shares) = (vec![65; plan.message_len(8)], vec![0; plan.shares_len(8)]);
/// plan.encode(8, &message, &mut shares)?;
/// let share = |j: usize| -> Vec<u8> { (0..8).map(|lane| shares[lane * 255 + j]).collect() };
/// let (target, missing) = (7, [8, 9]);
/// let repair = plan.repair_plan(2)?;
/// assert_eq!((repair.bits, repair.spare, repair.bits_len(8)), (1, 5, 1));
///
/// // each other node sends one bit of each symbol, a byte for eight lanes
/// let mut rows = Vec::new();
/// for node in (0..255).filter(|node| ![7, 8, 9].contains(node)) {
///     let mut bits = [0];
///     plan.repair_bits(8, node, target, &missing, &share(node as usize), &mut bits)?;
///     rows.extend(bits);
/// }
/// let mut repaired = [0; 8];
/// plan.repair_share(8, target, &missing, &rows, &mut repaired)?;
/// assert_eq!(repaired, share(7)[..]);
/// // 252 bytes were sent, where Rebuild reads 120 nodes
/// assert_eq!((rows.len(), 120 * 8), (252, 960));
/// # Ok::<(), Error>(())
/// ```
pub fn repair_bits(
    record: &[u8],
    lanes: u32,
    node: u32,
    target: u32,
    missing: &[u8],
    share: &[u8],
    bits: &mut [u8],
) -> Result<(), Error> {
    let number = unsafe {
        sys::balanced_repair_bits(
            record.as_ptr(),
            record.len(),
            lanes,
            node,
            target,
            missing.as_ptr(),
            missing.len(),
            share.as_ptr(),
            share.len(),
            bits.as_mut_ptr(),
            bits.len(),
        )
    };
    Error::check(number)
}

/// The target's share from what all other nodes sent that are not missing, one after the other in the order of their numbers.
///
/// From what nodes of one encoding sent it is that encoding's share, in every lane. `share` has `lanes` symbols.
pub fn repair_share(
    record: &[u8],
    lanes: u32,
    target: u32,
    missing: &[u8],
    rows: &[u8],
    share: &mut [u8],
) -> Result<(), Error> {
    let number = unsafe {
        sys::balanced_repair_share(
            record.as_ptr(),
            record.len(),
            lanes,
            target,
            missing.as_ptr(),
            missing.len(),
            rows.as_ptr(),
            rows.len(),
            share.as_mut_ptr(),
            share.len(),
        )
    };
    Error::check(number)
}

impl Plan {
    /// [`repair_plan`](crate::repair_plan) with this plan's record.
    pub fn repair_plan(&self, missing: u32) -> Result<RepairPlan, Error> {
        repair_plan(self.record(), missing)
    }

    /// [`repair_bits`](crate::repair_bits) with this plan's record.
    pub fn repair_bits(
        &self,
        lanes: u32,
        node: u32,
        target: u32,
        missing: &[u8],
        share: &[u8],
        bits: &mut [u8],
    ) -> Result<(), Error> {
        repair_bits(self.record(), lanes, node, target, missing, share, bits)
    }

    /// [`repair_share`](crate::repair_share) with this plan's record.
    pub fn repair_share(&self, lanes: u32, target: u32, missing: &[u8], rows: &[u8], share: &mut [u8]) -> Result<(), Error> {
        repair_share(self.record(), lanes, target, missing, rows, share)
    }
}
