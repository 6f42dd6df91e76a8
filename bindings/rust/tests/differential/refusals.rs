//! Damaged input: each number of each call, alone and beside others, and nothing lent is changed.
use crate::random::{shapes, Random, Shape};
use crate::reference::bytes_of;
use crate::{compare, damage};

const ROUNDS: usize = 50_000;

/// Input of the calls on one code, which was valid before it was damaged.
struct Input {
    record: Vec<u8>,
    lanes: u32,
    symbol: u32,
    lane: u32,
    old: u32,
    new: u32,
    nodes: Vec<u8>,
    target: u32,
    /// What is read, and what is written.
    read: Vec<u8>,
    written: Vec<u8>,
}

impl Input {
    /// Rows of symbols to be read, and of bytes to be written.
    fn new(random: &mut Random, shape: &Shape, read: usize, written: usize) -> Input {
        let lanes = 1 + random.below(5);
        Input {
            record: shape.record(random),
            lanes: lanes as u32,
            symbol: random.below(shape.k) as u32,
            lane: random.below(lanes) as u32,
            old: random.below(shape.size as usize) as u32,
            new: random.below(shape.size as usize) as u32,
            nodes: random.nodes(shape.n, shape.k),
            target: random.below(shape.n) as u32,
            read: random.buffer(shape.size, read * lanes),
            written: random.bytes(shape.bytes(written * lanes)),
        }
    }

    /// Shares that encode a message, and the old symbol as the message has it.
    fn encode(&mut self, random: &mut Random, shape: &Shape) {
        let lanes = self.lanes as usize;
        let message = random.symbols(shape.size, shape.k * lanes);
        self.old = message[self.symbol as usize * lanes + self.lane as usize].into();
        let message = bytes_of(shape.size, &message);
        balanced::encode(&self.record, self.lanes, &message, &mut self.read).unwrap();
    }

    /// One thing made wrong: mostly so that a number is met, and sometimes so that none is.
    fn damage(&mut self, random: &mut Random, shape: &Shape) {
        match random.below(14) {
            0..=2 => damage::record(random, &mut self.record),
            3 => damage::lanes(random, &mut self.lanes),
            4 => damage::length(random, &mut self.read),
            5 => damage::length(random, &mut self.written),
            6 => damage::length(random, &mut self.nodes),
            7 | 8 => damage::nodes(random, shape, &mut self.nodes),
            9 => match random.below(3) {
                0 => damage::range(random, &mut self.symbol, shape.k as u32),
                1 => damage::range(random, &mut self.lane, self.lanes),
                _ => damage::range(random, &mut self.target, shape.n as u32),
            },
            10 => self.damage_number(random, shape),
            11 => self.old = random.below(shape.size as usize) as u32,
            12 => damage::symbol(random, shape, &mut self.read),
            _ => {
                damage::no_symbol(random, shape, &mut self.read);
                damage::no_symbol(random, shape, &mut self.written);
            }
        }
    }

    /// A number is no symbol, or is one only if it is cut to one byte or two.
    fn damage_number(&mut self, random: &mut Random, shape: &Shape) {
        let cut = [self.old.wrapping_add(256), self.new.wrapping_add(65_536)];
        let bad = *random.pick(&[shape.size, 255, 65_535, cut[0], cut[1], u32::MAX]);
        match random.below(3) {
            0 => self.old = bad,
            1 => self.new = bad,
            _ => {}
        }
    }
}

/// Runs a call on damaged input, and sees that each number that it can give was given often.
fn run(
    seed: u64,
    name: &str,
    read: fn(&Shape) -> usize,
    written: fn(&Shape) -> usize,
    numbers: &[usize],
    prepare: fn(&mut Input, &mut Random, &Shape),
    call: fn(&Input) -> u8,
) {
    let mut random = Random::new(seed);
    let shapes = shapes(16);
    let mut seen = [0; 19];
    for _ in 0..ROUNDS {
        let shape = random.pick(&shapes);
        let mut input = Input::new(&mut random, shape, read(shape), written(shape));
        prepare(&mut input, &mut random, shape);
        for _ in 0..random.below(4) {
            input.damage(&mut random, shape);
        }
        seen[call(&input) as usize] += 1;
    }
    damage::judge(name, &seen, numbers);
}

#[test]
fn encode() {
    let numbers = [0, 1, 2, 3, 4, 5, 7, 8, 11];
    run(
        20,
        "encode",
        |s| s.k,
        |s| s.n,
        &numbers,
        |_, _, _| {},
        |i| compare::encode(&i.record, i.lanes, &i.read, &i.written),
    );
}

#[test]
fn update() {
    let numbers = [0, 1, 2, 3, 4, 5, 7, 8, 9, 11, 12, 13];
    run(
        21,
        "update",
        |s| s.n,
        |_| 0,
        &numbers,
        Input::encode,
        |i| compare::update(&i.record, i.lanes, i.symbol, i.lane, i.old, i.new, &i.read),
    );
}

#[test]
fn recover() {
    let numbers = [0, 1, 2, 3, 4, 5, 7, 8, 9, 10, 11];
    run(
        22,
        "recover",
        |s| s.k,
        |s| s.k,
        &numbers,
        |_, _, _| {},
        |i| compare::recover(&i.record, i.lanes, &i.nodes, &i.read, &i.written),
    );
}

#[test]
fn rebuild() {
    let numbers = [0, 1, 2, 3, 4, 5, 7, 8, 9, 10, 11];
    run(
        23,
        "rebuild",
        |s| s.k,
        |_| 1,
        &numbers,
        |_, _, _| {},
        |i| compare::rebuild(&i.record, i.lanes, &i.nodes, &i.read, i.target, &i.written),
    );
}

#[test]
fn correct() {
    let numbers = [0, 1, 2, 3, 4, 5, 7, 8, 11, 14];
    run(
        27,
        "correct",
        |s| s.n,
        |_| 0,
        &numbers,
        Input::encode,
        |i| compare::correct(&i.record, i.lanes, &i.read),
    );
}

#[test]
fn to_lanes() {
    let numbers = [0, 1, 2, 3, 4, 5, 7, 8];
    run(
        25,
        "to_lanes",
        |s| s.n,
        |s| s.n,
        &numbers,
        |_, _, _| {},
        |i| compare::to_lanes(&i.record, i.lanes, &i.read, &i.written),
    );
}

#[test]
fn to_nodes() {
    let numbers = [0, 1, 2, 3, 4, 5, 7, 8];
    run(
        26,
        "to_nodes",
        |s| s.n,
        |s| s.n,
        &numbers,
        |_, _, _| {},
        |i| compare::to_nodes(&i.record, i.lanes, &i.read, &i.written),
    );
}

#[test]
fn belongs() {
    let numbers = [0, 1, 2, 3, 4, 5, 7, 8, 11];
    run(
        24,
        "belongs",
        |s| s.n,
        |_| 0,
        &numbers,
        |_, _, _| {},
        |i| compare::belongs(&i.record, i.lanes, &i.read).0,
    );
}
