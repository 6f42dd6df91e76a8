use std::fmt;

use crate::{sys, Error, MAX_NODES};

/// Which nodes of a store are present, as nodes leave and return.
///
/// Every call takes the record beside the roster, and a roster belongs to the record that it was started with. A node is
/// present exactly if the last event that names it is a return, or no event names it.
///
/// ```
/// use balanced::{Error, Roster};
///
/// let record = [1, 7, 3, 6, 3];
/// let mut roster = Roster::start(&record)?;
/// roster.leave(&record, 0)?;
/// roster.leave(&record, 3)?;
/// assert_eq!(roster.leave(&record, 3), Err(Error::Already));
/// let mut list = [0; 3];
/// assert!(roster.lowest(&record, &mut list)?);
/// assert_eq!(list, [1, 2, 4]);
/// roster.rejoin(&record, 0)?;
/// assert!(roster.lowest(&record, &mut list)?);
/// assert_eq!(list, [0, 1, 2]);
/// # Ok::<(), Error>(())
/// ```
#[derive(Clone, Copy, PartialEq, Eq)]
pub struct Roster {
    bytes: [u8; Roster::LEN],
}

impl Roster {
    /// The length of a roster as bytes.
    pub const LEN: usize = 256;

    /// The roster with all n nodes present, or what turns the record away.
    pub fn start(record: &[u8]) -> Result<Roster, Error> {
        let mut roster = Roster { bytes: [0; Roster::LEN] };
        // the slice and the array are not null, have the lengths beside them and do not overlap; so in every call below
        let number = unsafe {
            sys::balanced_roster_start(record.as_ptr(), record.len(), roster.bytes.as_mut_ptr(), roster.bytes.len())
        };
        Error::check(number).map(|()| roster)
    }

    /// A node leaves. A refused event leaves the roster as it was.
    pub fn leave(&mut self, record: &[u8], node: u32) -> Result<(), Error> {
        let number = unsafe {
            sys::balanced_roster_leave(record.as_ptr(), record.len(), self.bytes.as_mut_ptr(), self.bytes.len(), node)
        };
        Error::check(number)
    }

    /// A node returns. A refused event leaves the roster as it was.
    pub fn rejoin(&mut self, record: &[u8], node: u32) -> Result<(), Error> {
        let number = unsafe {
            sys::balanced_roster_rejoin(record.as_ptr(), record.len(), self.bytes.as_mut_ptr(), self.bytes.len(), node)
        };
        Error::check(number)
    }

    /// Writes the k lowest present nodes, rising, into a list of k bytes, which [`recover`](crate::recover) and
    /// [`rebuild`](crate::rebuild) take. False where fewer than k nodes are present: the list is then as it was.
    pub fn lowest(&self, record: &[u8], list: &mut [u8]) -> Result<bool, Error> {
        let mut enough = 0;
        let number = unsafe {
            sys::balanced_roster_lowest(
                record.as_ptr(),
                record.len(),
                self.bytes.as_ptr(),
                self.bytes.len(),
                list.as_mut_ptr(),
                list.len(),
                &mut enough,
            )
        };
        Error::check(number).map(|()| enough != 0)
    }

    /// Writes the nodes that the next job reads into a list of k bytes, and moves the roster on: with s present nodes, job i
    /// reads those at the places (i·k + t) mod s for t from 0 to k−1. Over a run of jobs no present node is read more than
    /// once oftener than another. False where fewer than k nodes are present: list and roster are then as they were.
    ///
    /// ```
    /// use balanced::{Error, Roster};
    ///
    /// let record = [1, 7, 3, 6, 3];
    /// let mut roster = Roster::start(&record)?;
    /// roster.leave(&record, 4)?;
    /// let mut list = [0; 3];
    /// let mut reads = Vec::new();
    /// for _ in 0..3 {
    ///     assert!(roster.next_job(&record, &mut list)?);
    ///     reads.push(list);
    /// }
    /// assert_eq!(reads, [[0, 1, 2], [3, 5, 0], [1, 2, 3]]);
    /// # Ok::<(), Error>(())
    /// ```
    pub fn next_job(&mut self, record: &[u8], list: &mut [u8]) -> Result<bool, Error> {
        let mut enough = 0;
        let number = unsafe {
            sys::balanced_roster_job(
                record.as_ptr(),
                record.len(),
                self.bytes.as_mut_ptr(),
                self.bytes.len(),
                list.as_mut_ptr(),
                list.len(),
                &mut enough,
            )
        };
        Error::check(number).map(|()| enough != 0)
    }

    /// The number of the next job.
    pub fn job(&self) -> u8 {
        self.bytes[MAX_NODES]
    }

    /// Whether a node is marked as present.
    pub fn is_present(&self, node: usize) -> bool {
        node < MAX_NODES && self.bytes[node] != 0
    }

    /// The roster as bytes, to be kept: the marks of the nodes 0 to 254, then the number of the next job.
    pub fn as_bytes(&self) -> &[u8; Roster::LEN] {
        &self.bytes
    }

    /// The roster of bytes that were kept.
    pub fn from_bytes(bytes: [u8; Roster::LEN]) -> Roster {
        Roster { bytes }
    }
}

impl fmt::Debug for Roster {
    fn fmt(&self, f: &mut fmt::Formatter<'_>) -> fmt::Result {
        let present: Vec<usize> = (0..MAX_NODES).filter(|&node| self.is_present(node)).collect();
        f.debug_struct("Roster")
            .field("present", &present)
            .field("job", &self.bytes[MAX_NODES])
            .finish()
    }
}
