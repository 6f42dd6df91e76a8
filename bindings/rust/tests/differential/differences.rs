//! What each node adds, the node's side of it, and Update for a run of lanes: on valid and on damaged input.
use crate::compare::{expected, number, Lent};
use crate::damage;
use crate::random::{shapes, Random, Shape};
use crate::reference;
use balanced::sys;

/// A change of one symbol in a run of lanes of a block, and the shares of the block.
struct Change {
    record: Vec<u8>,
    lanes: u32,
    symbol: u32,
    first: u32,
    old: Vec<u8>,
    new: Vec<u8>,
    message: Vec<u8>,
    shares: Vec<u8>,
}

impl Change {
    /// Some symbols stay as they are.
    fn new(random: &mut Random, shape: &Shape, lanes: usize, first: usize, run: usize) -> Change {
        let record = shape.record(random);
        let message = random.buffer(shape.size, shape.k * lanes);
        let mut shares = vec![0; shape.bytes(shape.n * lanes)];
        balanced::encode(&record, lanes as u32, &message, &mut shares).unwrap();
        let symbol = random.below(shape.k);
        let at = shape.bytes(symbol * lanes + first);
        let old = message[at..at + shape.bytes(run)].to_vec();
        let mut new = random.buffer(shape.size, run);
        for (new, old) in new.chunks_mut(shape.bytes(1)).zip(old.chunks(shape.bytes(1))) {
            if random.below(4) == 0 {
                new.copy_from_slice(old);
            }
        }
        Change {
            record,
            lanes: lanes as u32,
            symbol: symbol as u32,
            first: first as u32,
            old,
            new,
            message,
            shares,
        }
    }

    /// The shares of the message with the new symbols.
    fn wanted(&self, shape: &Shape) -> Vec<u8> {
        let mut message = self.message.clone();
        let at = shape.bytes(self.symbol as usize * self.lanes as usize + self.first as usize);
        message[at..at + self.new.len()].copy_from_slice(&self.new);
        let mut shares = vec![0; self.shares.len()];
        balanced::encode(&self.record, self.lanes, &message, &mut shares).unwrap();
        shares
    }

    fn damage(&mut self, random: &mut Random, shape: &Shape) {
        match random.below(12) {
            0 => damage::record(random, &mut self.record),
            1 => damage::lanes(random, &mut self.lanes),
            2 => damage::length(random, &mut self.old),
            3 => damage::length(random, &mut self.new),
            4 => damage::length(random, &mut self.shares),
            5 => damage::range(random, &mut self.symbol, shape.k as u32),
            6 => damage::range(random, &mut self.first, self.lanes),
            7 => damage::no_symbol(random, shape, &mut self.old),
            8 => damage::no_symbol(random, shape, &mut self.new),
            9 => damage::no_symbol(random, shape, &mut self.shares),
            10 => damage::symbol(random, shape, &mut self.old),
            _ => damage::symbol(random, shape, &mut self.shares),
        }
    }
}

fn differences(c: &Change, before: &[u8]) -> u8 {
    let result = reference::differences(&c.record, c.lanes, c.symbol, &c.old, &c.new, before.len());
    let (expect, after) = expected(result, before.to_vec());
    let mut out = Lent::new(before);
    let (got, _) = number(balanced::differences(
        &c.record,
        c.lanes,
        c.symbol,
        &c.old,
        &c.new,
        out.slice(),
    ));
    assert_eq!(got, expect, "differences {:?} {} {}", c.record, c.lanes, c.symbol);
    assert!(out.holds(&after), "differences {:?} {} {}", c.record, c.lanes, c.symbol);
    got
}

fn add_share(record: &[u8], lanes: u32, difference: &[u8], before: &[u8]) -> u8 {
    let (expect, after) = expected(reference::add_share(record, lanes, difference, before), before.to_vec());
    let mut share = Lent::new(before);
    let (got, _) = number(balanced::add_share(record, lanes, difference, share.slice()));
    assert_eq!(got, expect, "add_share {record:?} {lanes}");
    assert!(share.holds(&after), "add_share {record:?} {lanes}");
    got
}

/// Through the safe interface and through the C function, whose count is lent.
fn update_lanes(c: &Change) -> u8 {
    const MARK: u32 = 0x5a5a_5a5a;
    let result = reference::update_lanes(&c.record, c.lanes, c.symbol, c.first, &c.old, &c.new, &c.shares);
    let (expect, (after, altered)) = expected(result, (c.shares.clone(), MARK));
    let words = format!("update_lanes {:?} {} {} {}", c.record, c.lanes, c.symbol, c.first);
    let mut shares = Lent::new(&c.shares);
    let answer = balanced::update_lanes(&c.record, c.lanes, c.symbol, c.first, &c.old, &c.new, shares.slice());
    let (got, count) = number(answer);
    assert_eq!((got, count.unwrap_or(MARK)), (expect, altered), "{words}");
    assert!(shares.holds(&after), "{words}");
    let (mut shares, mut count) = (Lent::new(&c.shares), MARK);
    let got = unsafe {
        sys::balanced_update_lanes(
            c.record.as_ptr(),
            c.record.len(),
            c.lanes,
            c.symbol,
            c.first,
            c.old.as_ptr(),
            c.old.len(),
            c.new.as_ptr(),
            c.new.len(),
            shares.slice().as_mut_ptr(),
            c.shares.len(),
            &mut count,
        )
    };
    assert_eq!((got, count), (expect, altered), "{words}");
    assert!(shares.holds(&after), "{words}");
    got
}

/// A whole change: what the nodes add gives the shares of the changed message, and n−k nodes get nothing.
fn changed(random: &mut Random, shape: &Shape, lanes: usize) {
    let c = Change::new(random, shape, lanes, 0, lanes);
    let size = shape.bytes(shape.n * lanes);
    assert_eq!(differences(&c, &random.bytes(size)), 0);
    let (mut added, mut by_node) = (vec![0; size], vec![0; size]);
    balanced::differences(&c.record, c.lanes, c.symbol, &c.old, &c.new, &mut added).unwrap();
    balanced::to_nodes(&c.record, c.lanes, &c.shares, &mut by_node).unwrap();
    let part = shape.bytes(lanes);
    let told = added.chunks(part).filter(|part| part.iter().any(|&x| x != 0)).count();
    assert_eq!(told, if c.old == c.new { 0 } else { shape.n - shape.k + 1 });
    for (difference, share) in added.chunks(part).zip(by_node.chunks_mut(part)) {
        assert_eq!(add_share(&c.record, c.lanes, difference, share), 0);
        balanced::add_share(&c.record, c.lanes, difference, share).unwrap();
    }
    let mut shares = vec![0; size];
    balanced::to_lanes(&c.record, c.lanes, &by_node, &mut shares).unwrap();
    assert!(shares == c.wanted(shape));
}

/// A run of lanes, among others that may hold anything.
fn updated(random: &mut Random, shape: &Shape, lanes: usize) {
    let first = random.below(lanes + 1);
    let run = random.below(lanes - first + 1);
    let mut c = Change::new(random, shape, lanes, first, run);
    assert_eq!(update_lanes(&c), 0);
    let mut shares = c.shares.clone();
    balanced::update_lanes(&c.record, c.lanes, c.symbol, c.first, &c.old, &c.new, &mut shares).unwrap();
    assert!(shares == c.wanted(shape));
    let part = shape.bytes(shape.n);
    let mut others = random.bytes(c.shares.len());
    others[first * part..(first + run) * part].copy_from_slice(&c.shares[first * part..(first + run) * part]);
    c.shares = others;
    assert_eq!(update_lanes(&c), 0);
}

#[test]
fn every_shape() {
    let mut random = Random::new(70);
    let shapes = shapes(255);
    let mut count = 0;
    for shape in shapes.iter().filter(|shape| shape.n <= 24 || shape.k % 61 == 1) {
        let lanes = 1 + random.below(4);
        changed(&mut random, shape, lanes);
        updated(&mut random, shape, lanes);
        count += 1;
    }
    println!("changes in many lanes of {count} shapes");
}

#[test]
fn long_blocks() {
    let mut random = Random::new(71);
    let all = shapes(30);
    for lanes in [255, 256, 257, 1024, 4095, 4096] {
        for _ in 0..3 {
            let shape = random.pick(&all);
            changed(&mut random, shape, lanes);
            updated(&mut random, shape, lanes);
        }
    }
}

#[test]
fn damaged() {
    let mut random = Random::new(72);
    let shapes = shapes(16);
    let mut seen = [[0; 19]; 3];
    for _ in 0..25_000 {
        let shape = random.pick(&shapes);
        let lanes = 1 + random.below(5);
        let first = random.below(lanes);
        let run = random.below(lanes - first) + 1;
        // the differences are of whole rows
        let mut part = Change::new(&mut random, shape, lanes, first, run);
        let mut whole = Change::new(&mut random, shape, lanes, 0, lanes);
        for _ in 0..random.below(3) {
            part.damage(&mut random, shape);
            whole.damage(&mut random, shape);
        }
        seen[0][update_lanes(&part) as usize] += 1;
        seen[1][differences(&whole, &whole.shares) as usize] += 1;
        seen[2][add_share(&whole.record, whole.lanes, &whole.old, &whole.new) as usize] += 1;
    }
    damage::judge("update_lanes", &seen[0], &[0, 1, 2, 3, 4, 5, 7, 8, 9, 11, 12, 13]);
    damage::judge("differences", &seen[1], &[0, 1, 2, 3, 4, 5, 7, 8, 9, 11]);
    damage::judge("add_share", &seen[2], &[0, 1, 2, 3, 4, 5, 7, 8, 11]);
}
