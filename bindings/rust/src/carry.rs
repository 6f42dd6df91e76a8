//! Any bytes over any number of nodes: bytes carried in symbols of two bytes, and a record for n and k that carries them.
use crate::{sys, Error, Plan};

// Each call lends slices and a local, which are not null, have the length beside them and do not overlap.

/// How many bytes the symbols take that carry so many bytes.
///
/// A record of kind 2 carries bytes as they are. With a prime from 34,816 on they are carried two by two, in groups behind a mask, in
/// little more room; other records carry none, and meet [`Error::Carry`].
pub fn carried_len(record: &[u8], bytes: usize) -> Result<usize, Error> {
    let mut carried = 0;
    let number = unsafe { sys::balanced_carried_len(record.as_ptr(), record.len(), bytes, &mut carried) };
    Error::check(number).map(|()| carried)
}

/// Carries bytes in symbols. `symbols` is as long as [`carried_len`] says.
///
/// ```
/// use balanced::{Error, Plan};
///
/// // six nodes, any five of which give the bytes back
/// let plan = Plan::choose(6, 5)?;
/// assert_eq!((plan.n(), plan.k(), plan.symbol_len()), (6, 5, 2));
/// let image = b"any bytes at all, an odd number of them: \xff\xff\xff\xff";
/// let mut symbols = vec![0; plan.carried_len(image.len())?];
/// plan.carry_in(image, &mut symbols)?;
///
/// // filled up with zeros to whole lanes, it is a message
/// let lanes = symbols.len().div_ceil(plan.message_len(1)) as u32;
/// let mut message = symbols.clone();
/// message.resize(plan.message_len(lanes), 0);
/// let mut shares = vec![0; plan.shares_len(lanes)];
/// plan.encode(lanes, &message, &mut shares)?;
///
/// // and read again
/// let mut back = vec![0; image.len()];
/// plan.carry_out(&symbols, &mut back)?;
/// assert_eq!(back, image);
/// # Ok::<(), Error>(())
/// ```
pub fn carry_in(record: &[u8], bytes: &[u8], symbols: &mut [u8]) -> Result<(), Error> {
    let number = unsafe {
        sys::balanced_carry_in(
            record.as_ptr(),
            record.len(),
            bytes.as_ptr(),
            bytes.len(),
            symbols.as_mut_ptr(),
            symbols.len(),
        )
    };
    Error::check(number)
}

/// Reads the bytes that symbols carry, as many as there is room for. `symbols` is as long as [`carried_len`] says.
pub fn carry_out(record: &[u8], symbols: &[u8], bytes: &mut [u8]) -> Result<(), Error> {
    let number = unsafe {
        sys::balanced_carry_out(
            record.as_ptr(),
            record.len(),
            symbols.as_ptr(),
            symbols.len(),
            bytes.as_mut_ptr(),
            bytes.len(),
        )
    };
    Error::check(number)
}

/// Changes bytes where symbols carry them: those from `at` on, of `bytes` bytes that the symbols carry, become `new_bytes`.
///
/// A group of words that holds one of them keeps its mask while all its words are symbols under it, so that a byte that changes changes one
/// symbol; else it is carried anew. No other group is written. A part that ends behind the bytes meets [`Error::Range`].
///
/// ```
/// use balanced::{Error, Plan};
///
/// let plan = Plan::choose(6, 5)?;
/// let mut symbols = vec![0; plan.carried_len(9)?];
/// plan.carry_in(b"any bytes", &mut symbols)?;
/// let before = symbols.clone();
/// plan.carry_change(9, 4, b"B", &mut symbols)?;
/// assert_eq!(before.chunks(2).zip(symbols.chunks(2)).filter(|(old, new)| old != new).count(), 1);
///
/// let mut back = vec![0; 9];
/// plan.carry_out(&symbols, &mut back)?;
/// assert_eq!(back, b"any Bytes");
/// # Ok::<(), Error>(())
/// ```
pub fn carry_change(record: &[u8], bytes: usize, at: usize, new_bytes: &[u8], symbols: &mut [u8]) -> Result<(), Error> {
    let number = unsafe {
        sys::balanced_carry_change(
            record.as_ptr(),
            record.len(),
            bytes,
            at,
            new_bytes.as_ptr(),
            new_bytes.len(),
            symbols.as_mut_ptr(),
            symbols.len(),
        )
    };
    Error::check(number)
}

/// Writes a record with n nodes, any k of which give a message back, that carries bytes, and gives its length. `record` has seven bytes; those
/// behind the record are left as they are. Every n from 2 to 255 and k from 1 to n has one; others meet [`Error::Size`].
pub fn choose(n: u32, k: u32, record: &mut [u8]) -> Result<usize, Error> {
    let mut len = 0;
    let number = unsafe { sys::balanced_choose(n, k, record.as_mut_ptr(), record.len(), &mut len) };
    Error::check(number).map(|()| len as usize)
}

impl Plan {
    /// The plan of the record that [`choose`](crate::choose) gives.
    pub fn choose(n: u32, k: u32) -> Result<Plan, Error> {
        let mut record = [0; 7];
        let len = choose(n, k, &mut record)?;
        Plan::new(&record[..len])
    }

    /// [`carried_len`](crate::carried_len) with this plan's record.
    pub fn carried_len(&self, bytes: usize) -> Result<usize, Error> {
        carried_len(self.record(), bytes)
    }

    /// [`carry_in`](crate::carry_in) with this plan's record.
    pub fn carry_in(&self, bytes: &[u8], symbols: &mut [u8]) -> Result<(), Error> {
        carry_in(self.record(), bytes, symbols)
    }

    /// [`carry_out`](crate::carry_out) with this plan's record.
    pub fn carry_out(&self, symbols: &[u8], bytes: &mut [u8]) -> Result<(), Error> {
        carry_out(self.record(), symbols, bytes)
    }

    /// [`carry_change`](crate::carry_change) with this plan's record.
    pub fn carry_change(&self, bytes: usize, at: usize, new_bytes: &[u8], symbols: &mut [u8]) -> Result<(), Error> {
        carry_change(self.record(), bytes, at, new_bytes, symbols)
    }
}
