//! The balanced image store: a message of k symbols per lane is laid over n nodes so that any k of them give it back, a
//! change of one symbol writes n−k+1 nodes, and the symbols that nodes depend on are shared out as evenly as can be.
//!
//! This crate is a safe interface to the library `balanced`, whose functions are written in Rattle and proved to do what their
//! contracts say (`crates/balanced_c`). It has no other dependency.
//!
//! # Records
//!
//! A record fixes a code. It is one byte of kind, then a body:
//!
//! | Kind | Record | Symbols |
//! |---|---|---|
//! | 1, a prime field | `[1, p, root, n, k]`, p a prime from 3 to 251 | the bytes 0 to p−1 |
//! | 2, the field of 256 elements | `[2, root, n, k]` | every byte; products are reduced by 0x11D |
//! | 3, a prime field above a byte | `[3, p, p, root, root, n, k]`, p a prime from 257 to 65,521 | the numbers 0 to p−1, two bytes each |
//!
//! In kind 3 p and the root are two bytes each, high byte first. n is at least 2, k runs from 1 to n, and the root has order
//! exactly n. With d = n−k+1, each node depends on k·d/n symbols,
//! rounded down or up.
//! A [`Plan`] is a record that was accepted, with what it stands for. Its methods are the calls of the store. The
//! functions of this module are the same calls on a record that was not looked at before.
//!
//! # Blocks
//!
//! A block has L lanes, L from 1 to 4,096, and each lane is encoded by itself. A message has k·L symbols: symbol r of lane t
//! stands at r·L + t. The shares of a block have n·L symbols and stand lane after lane: what node j holds of lane t stands at
//! t·n + j, so lane t is the part of n symbols that starts at t·n. Nodes, symbols and lanes are numbered from 0.
//!
//! In every buffer a symbol is one byte, and in kind 3 two bytes, high byte first ([`Plan::symbol_len`]); buffers are slices of
//! bytes, so in kind 3 they are twice as long. [`symbols_to_bytes`] and [`symbols_from_bytes`] turn slices of `u16` into such
//! buffers and back.
//!
//! Shares of an older store stand node after node: what node j holds of lane t at j·L + t. [`to_lanes`] and [`to_nodes`]
//! rearrange them.
//!
//! A call that is turned away gives the [`Error`] and has changed nothing that it was lent.
//!
//! # Storage and stack
//!
//! A block of k·L symbols is stored as n·L. A symbol is a byte in kind 2, and there n is 3, 5, 15, 17, 51, 85 or 255: an image
//! takes n/k times its size on all nodes together. Kind 3 has every n from 2 to 255; a symbol there is two bytes, and [`carry_in`]
//! carries any bytes in such symbols, at 1/255 more room where the prime is 65,296 or above, and 1/6 more at most. [`Plan::choose`]
//! gives a plan that carries bytes for any n and k.
//!
//! No call allocates. A call takes less than 664 KiB of stack ([`Plan::recover`] the most): threads of Rust's standard library,
//! which have 2 MiB, are large enough; a thread that is made with another size ([`std::thread::Builder::stack_size`]) needs
//! 1 MiB.
//!
//! # Sums
//!
//! [`Plan::encode`], [`Plan::recover`] and [`Plan::rebuild`] give sums of what they read, each symbol times a weight, and each
//! lane by itself. So the encoding of the differences between two messages is what every node has to add; `recover` may be
//! given just the lanes that are wanted; and a node is rebuilt along a chain if each listed node calls `rebuild` with its own
//! share and zeros for the others, and adds what it gets to the sum that it was sent:
//!
//! ```
//! use balanced::{Error, Plan};
//!
//! let plan = Plan::new(&[2, 11, 15, 10])?;
//! let (old, new) = ([7; 10], [7, 7, 9, 7, 7, 0, 7, 7, 7, 1]);
//! let (mut shares, mut added, mut wanted) = ([0; 15], [0; 15], [0; 15]);
//! plan.encode(1, &old, &mut shares)?;
//! plan.encode(1, &new, &mut wanted)?;
//!
//! // three symbols change, and one call gives what each node adds
//! let change: Vec<u8> = old.iter().zip(&new).map(|(before, after)| before ^ after).collect();
//! plan.encode(1, &change, &mut added)?;
//! for (share, amount) in shares.iter_mut().zip(&added) {
//!     *share ^= amount;
//! }
//! assert_eq!(shares, wanted);
//!
//! // node 3 is rebuilt from nodes 4 to 13, each of which knows its own share alone
//! let nodes: Vec<u8> = (4..14).collect();
//! let mut sum = 0;
//! for (place, &node) in nodes.iter().enumerate() {
//!     let (mut alone, mut part) = ([0; 10], [0]);
//!     alone[place] = shares[usize::from(node)];
//!     plan.rebuild(1, &nodes, &alone, 3, &mut part)?;
//!     sum ^= part[0];
//! }
//! assert_eq!(sum, shares[3]);
//! # Ok::<(), Error>(())
//! ```
//!
//! # Rosters
//!
//! A [`Roster`] says which nodes are present, as nodes leave and return, and gives the nodes to read from: the k lowest, or
//! those of the next rebuild job, each present node in its turn.
//!
//! # Example
//!
//! ```
//! use balanced::{symbols_from_bytes, symbols_to_bytes, Error, Finding, Plan};
//!
//! // The field of 7 elements, 6 nodes, any 3 of which give the message back.
//! let plan = Plan::new(&[1, 7, 3, 6, 3])?;
//! assert_eq!((plan.n(), plan.k(), plan.d()), (6, 3, 4));
//! assert_eq!((plan.low_reads(), plan.high_reads()), (2, 2));
//! assert_eq!(plan.shifts(), [0, 2, 4]);
//! assert_eq!(plan.firsts(), [0, 4, 2]);
//! assert_eq!(plan.base_word(), [6, 1, 3, 1, 0, 0]);
//!
//! // One lane.
//! let mut shares = [0; 6];
//! plan.encode(1, &[1, 0, 2], &mut shares)?;
//! assert_eq!(shares, [6, 1, 1, 3, 6, 2]);
//!
//! // Symbol 1 of lane 0 changes from 0 to 5, which alters d = 4 nodes.
//! assert_eq!(plan.update(1, 1, 0, 0, 5, &mut shares)?, 4);
//! assert_eq!(shares, [0, 6, 1, 3, 1, 0]);
//! assert_eq!(plan.belongs(1, &shares)?, None);
//!
//! // The update is found again from the lane before and after it.
//! let found = plan.find_update(&[6, 1, 1, 3, 6, 2], &shares)?;
//! assert_eq!(found, Finding::Added { symbol: 1, amount: 5 });
//!
//! // Nodes 2, 3 and 4 are left, and give back the message and what node 0 held.
//! let mut message = [0; 3];
//! plan.recover(1, &[2, 3, 4], &[1, 3, 1], &mut message)?;
//! assert_eq!(message, [1, 5, 2]);
//! let mut share = [9];
//! plan.rebuild(1, &[2, 3, 4], &[1, 3, 1], 0, &mut share)?;
//! assert_eq!(share, [0]);
//!
//! // A damaged block is found. A node that stands twice is turned away, and the message stays as it was.
//! shares[5] = 1;
//! assert_eq!(plan.belongs(1, &shares)?, Some(0));
//! assert_eq!(plan.recover(1, &[2, 3, 2], &[1, 3, 1], &mut message), Err(Error::Twice));
//! assert_eq!(message, [1, 5, 2]);
//!
//! // It is a word again if node 5 holds 0, and no other single change makes it one.
//! let (mut nodes, mut symbols) = ([9; 6], [9; 6]);
//! assert_eq!(plan.mends(&shares, &mut nodes, &mut symbols)?, 1);
//! assert_eq!((nodes[0], symbols[0]), (5, 0));
//!
//! // Any wrong symbol is set right, for (n − k)/2 is 1 here. With two in one lane nothing is touched.
//! assert_eq!(plan.correct(1, &mut shares)?, 1);
//! assert_eq!(shares, [0, 6, 1, 3, 1, 0]);
//! let mut spoiled = [5, 5, 1, 3, 1, 0];
//! assert_eq!(plan.correct(1, &mut spoiled), Err(Error::Far));
//! assert_eq!(spoiled, [5, 5, 1, 3, 1, 0]);
//!
//! // Two lanes: lane 0 and then lane 1. Node after node, the two symbols of node 0 come first.
//! let mut shares = [0; 12];
//! plan.encode(2, &[1, 1, 0, 5, 2, 2], &mut shares)?;
//! assert_eq!(shares, [6, 1, 1, 3, 6, 2, 0, 6, 1, 3, 1, 0]);
//! let mut by_node = [0; 12];
//! plan.to_nodes(2, &shares, &mut by_node)?;
//! assert_eq!(by_node, [6, 0, 1, 6, 1, 1, 3, 3, 6, 1, 2, 0]);
//!
//! // Of the 343 messages 90 have an encoding with four nodes that are not zero, 108 one with five, 144 one with six.
//! let mut counts = [0; 7];
//! plan.weights(&mut counts)?;
//! assert_eq!(counts, [1, 0, 0, 0, 90, 108, 144]);
//!
//! // 257 elements, 4 nodes, any 2 of which give the message back: symbols of two bytes.
//! let plan = Plan::new(&[3, 1, 1, 0, 16, 4, 2])?;
//! assert_eq!((plan.symbol_len(), plan.base_word()), (2, &[15, 255, 240, 0][..]));
//! let mut shares = vec![0; plan.shares_len(1)];
//! plan.encode(1, &symbols_to_bytes(&[1, 256]), &mut shares)?;
//! assert_eq!(symbols_from_bytes(&shares), [17, 15, 240, 242]);
//! assert_eq!(plan.update(1, 1, 0, 256, 0, &mut shares)?, 3);
//! assert_eq!(symbols_from_bytes(&shares), [15, 255, 240, 0]);
//! # Ok::<(), Error>(())
//! ```

mod calls;
mod carry;
mod differences;
mod error;
mod lanes;
mod listed;
mod plan;
mod repair;
mod roster;
mod symbols;
pub mod sys;

pub use calls::{
    belongs, correct, encode, listed_to_lanes, listed_to_nodes, rebuild, recover, to_lanes, to_nodes, update, weights,
};
pub use carry::{carried_len, carry_change, carry_in, carry_out, choose};
pub use differences::{add_share, differences, update_lanes};
pub use error::Error;
pub use lanes::{find_update, mends, Finding};
pub use listed::correct_listed;
pub use plan::Plan;
pub use repair::{repair_bits, repair_plan, repair_share, RepairPlan};
pub use roster::Roster;
pub use symbols::{symbols_from_bytes, symbols_to_bytes};

/// The version of this crate and of the library that it belongs to.
pub const VERSION: &str = env!("CARGO_PKG_VERSION");

/// The version of the library that the program runs with: 10,000 times the first number of the version, 100 times the second, and
/// the third.
///
/// ```
/// let numbers = [balanced::version() / 10_000, balanced::version() / 100 % 100, balanced::version() % 100];
/// assert_eq!(numbers.map(|x| x.to_string()).join("."), balanced::VERSION);
/// ```
pub fn version() -> u32 {
    unsafe { sys::balanced_version() }
}

/// The largest number of lanes of a block.
pub const MAX_LANES: u32 = 4096;

/// The largest number of nodes of a plan.
pub const MAX_NODES: usize = 255;

// The programs of the manual are tested like those of this crate's pages.
#[cfg(doctest)]
#[doc = include_str!("../../../docs/MANUAL.md")]
mod manual {}
