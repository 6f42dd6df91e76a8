use std::fmt;

/// What turns a call away. The call has then changed nothing that it was lent.
///
/// The conditions are tested in the order of the numbers, and the lowest that holds is given.
///
/// ```
/// use balanced::{Error, Plan};
///
/// let error = Plan::new(&[1, 7, 2, 6, 3]).unwrap_err();
/// assert_eq!((error, error.number(), error.name()), (Error::Root, 5, "root"));
/// assert_eq!(error.text(), "the root is not a symbol of order exactly n");
/// assert_eq!(error.to_string(), "root (5): the root is not a symbol of order exactly n");
/// ```
#[derive(Clone, Copy, Debug, PartialEq, Eq, PartialOrd, Ord, Hash)]
#[repr(u8)]
pub enum Error {
    /// The record is empty or its first byte is none of 1, 2 and 3.
    Kind = 1,
    /// The record's body has another length than its kind's.
    Body = 2,
    /// p is not a prime from 3 to 251 in kind 1, from 257 to 65,521 in kind 3.
    Field = 3,
    /// n is below 2, k is 0, or k is above n.
    Size = 4,
    /// The root is not a symbol of order exactly n.
    Root = 5,
    /// Reserved: no longer given. It turned a record away whose nodes cannot share evenly.
    Uneven = 6,
    /// The number of lanes is 0 or above 4,096.
    Lanes = 7,
    /// A buffer or a list of nodes has another length than stated.
    Length = 8,
    /// A node, symbol or lane number is outside its range.
    Range = 9,
    /// A node stands twice in a list.
    Twice = 10,
    /// A number that the call reads as a symbol is p or more, in kind 2 above 255.
    Symbol = 11,
    /// The lane that an update is to change is no word of the code.
    Word = 12,
    /// The message of that lane holds another symbol than the old one.
    Stale = 13,
    /// Some lane has no word of the code within (n−k)/2 nodes, or (s−k)/2 of s listed ones.
    Far = 14,
    /// The node already is what the event says: absent, or present.
    Already = 15,
    /// There are more than 65,536 messages.
    Many = 16,
    /// The record has no repair by traces with so many nodes missing.
    Traces = 17,
    /// The record's symbols do not carry bytes.
    Carry = 18,
}

impl Error {
    /// Every error, in the order of the numbers.
    pub const ALL: [Error; 18] = [
        Error::Kind,
        Error::Body,
        Error::Field,
        Error::Size,
        Error::Root,
        Error::Uneven,
        Error::Lanes,
        Error::Length,
        Error::Range,
        Error::Twice,
        Error::Symbol,
        Error::Word,
        Error::Stale,
        Error::Far,
        Error::Already,
        Error::Many,
        Error::Traces,
        Error::Carry,
    ];

    /// The number of the table.
    pub fn number(self) -> u8 {
        self as u8
    }

    /// The error of a number.
    pub fn from_number(number: u8) -> Option<Error> {
        Error::ALL.into_iter().find(|error| error.number() == number)
    }

    /// The name of the table.
    pub fn name(self) -> &'static str {
        match self {
            Error::Kind => "kind",
            Error::Body => "body",
            Error::Field => "field",
            Error::Size => "size",
            Error::Root => "root",
            Error::Uneven => "uneven",
            Error::Lanes => "lanes",
            Error::Length => "length",
            Error::Range => "range",
            Error::Twice => "twice",
            Error::Symbol => "symbol",
            Error::Word => "word",
            Error::Stale => "stale",
            Error::Far => "far",
            Error::Already => "already",
            Error::Many => "many",
            Error::Traces => "traces",
            Error::Carry => "carry",
        }
    }

    /// What is wrong, in the words of the header.
    pub fn text(self) -> &'static str {
        match self {
            Error::Kind => "the record is empty or its first byte is none of 1, 2 and 3",
            Error::Body => "the record's body has another length than its kind's",
            Error::Field => "p is not a prime from 3 to 251 in kind 1, from 257 to 65,521 in kind 3",
            Error::Size => "n is below 2, k is 0, or k is above n",
            Error::Root => "the root is not a symbol of order exactly n",
            Error::Uneven => "reserved: no longer given",
            Error::Lanes => "lanes is 0 or above 4,096",
            Error::Length => "a buffer or a list of nodes has another length than stated",
            Error::Range => "a node, symbol or lane number is outside its range",
            Error::Twice => "a node stands twice in a list",
            Error::Symbol => "a number that the call reads as a symbol is p or more, in kind 2 above 255",
            Error::Word => "the lane that an update is to change is no word of the code",
            Error::Stale => "the message of that lane holds another symbol than the old one",
            Error::Far => "some lane has no word of the code within (n-k)/2 nodes, or (s-k)/2 of s listed ones",
            Error::Already => "the node already is what the event says: absent, or present",
            Error::Many => "there are more than 65,536 messages",
            Error::Traces => "the record has no repair by traces with so many nodes missing",
            Error::Carry => "the record's symbols do not carry bytes",
        }
    }

    /// What a call's returned number says.
    pub(crate) fn check(number: u8) -> Result<(), Error> {
        if number == 0 {
            return Ok(());
        }
        Err(Error::from_number(number).expect("the library returns 0 or a number of the table"))
    }
}

impl fmt::Display for Error {
    fn fmt(&self, f: &mut fmt::Formatter<'_>) -> fmt::Result {
        write!(f, "{} ({}): {}", self.name(), self.number(), self.text())
    }
}

impl std::error::Error for Error {}
