//! Repair by traces: every target of records with one, two and four bits a symbol, missing nodes, what is sent and what is made of any bits
//! beside the reference, and what turns the calls away.
use crate::compare::{expected, number, Lent};
use crate::damage;
use crate::random::{shapes, Random, Shape};
use crate::reference;
use balanced::{sys, Plan};

/// The plan through the safe interface and through the C function, whose numbers are lent.
fn repair_plan(record: &[u8], missing: u32) -> u8 {
    const MARK: u32 = 0x5a5a_5a5a;
    let (expect, after) = expected(reference::repair_plan(record, missing), (MARK, MARK));
    let (got, plan) = number(balanced::repair_plan(record, missing));
    let told = plan.map_or((MARK, MARK), |plan| (plan.bits, plan.spare));
    assert_eq!((got, told), (expect, after), "repair_plan {record:?} {missing}");
    let mut lent = (MARK, MARK);
    let got = unsafe { sys::balanced_repair_plan(record.as_ptr(), record.len(), missing, &mut lent.0, &mut lent.1) };
    assert_eq!((got, lent), (expect, after), "repair_plan {record:?} {missing}");
    got
}

/// What one call is given.
struct Repair {
    record: Vec<u8>,
    lanes: u32,
    node: u32,
    target: u32,
    missing: Vec<u8>,
    share: Vec<u8>,
    rows: Vec<u8>,
    bits: Vec<u8>,
    out: Vec<u8>,
}

impl Repair {
    /// Any share and any bits, of the right lengths: b is 0 where there is no repair.
    fn new(random: &mut Random, shape: &Shape, lanes: usize, missing: usize) -> Repair {
        let record = shape.record(random);
        let nodes = random.nodes(shape.n, (missing + 2).min(shape.n));
        let (missing, ends) = nodes.split_at(nodes.len() - 2);
        let plan = balanced::repair_plan(&record, missing.len() as u32);
        let size = plan.map_or(0, |plan| plan.bits_len(lanes as u32));
        let senders = shape.n - 1 - missing.len();
        Repair {
            record,
            lanes: lanes as u32,
            node: ends[0].into(),
            target: ends[1].into(),
            missing: missing.to_vec(),
            share: random.buffer(shape.size, lanes),
            rows: random.bytes(senders * size),
            bits: random.bytes(size),
            out: random.bytes(shape.bytes(lanes)),
        }
    }

    fn send(&self) -> u8 {
        let (missing, share) = (&self.missing, &self.share);
        let (before, words) = (
            &self.bits,
            format!("repair_bits {:?} {} {missing:?}", self.record, self.lanes),
        );
        let result = reference::repair_bits(&self.record, self.lanes, self.node, self.target, missing, share, before.len());
        let (expect, after) = expected(result, before.clone());
        let mut bits = Lent::new(before);
        let answer = balanced::repair_bits(&self.record, self.lanes, self.node, self.target, missing, share, bits.slice());
        assert_eq!(number(answer).0, expect, "{words} {} to {}", self.node, self.target);
        assert!(bits.holds(&after), "{words} {} to {}", self.node, self.target);
        expect
    }

    fn repair(&self) -> u8 {
        let (missing, rows) = (&self.missing, &self.rows);
        let (before, words) = (
            &self.out,
            format!("repair_share {:?} {} {missing:?}", self.record, self.lanes),
        );
        let result = reference::repair_share(&self.record, self.lanes, self.target, missing, rows, before.len());
        let (expect, after) = expected(result, before.clone());
        let mut share = Lent::new(before);
        let answer = balanced::repair_share(&self.record, self.lanes, self.target, missing, rows, share.slice());
        assert_eq!(number(answer).0, expect, "{words} {}", self.target);
        assert!(share.holds(&after), "{words} {}", self.target);
        expect
    }

    fn damage(&mut self, random: &mut Random, shape: &Shape) {
        match random.below(14) {
            0 | 12 | 13 => damage::record(random, &mut self.record),
            1 => damage::lanes(random, &mut self.lanes),
            2 => damage::length(random, &mut self.share),
            3 => damage::length(random, &mut self.rows),
            4 => damage::length(random, &mut self.bits),
            5 => damage::length(random, &mut self.out),
            6 => damage::range(random, &mut self.node, shape.n as u32),
            7 => damage::range(random, &mut self.target, shape.n as u32),
            8 => self.node = self.target,
            9 => damage::length(random, &mut self.missing),
            10 => damage::nodes(random, shape, &mut self.missing),
            _ => {
                let node = *random.pick(&[self.node as u8, self.target as u8]);
                self.missing.iter_mut().take(1).for_each(|gone| *gone = node);
            }
        }
    }
}

/// The records of kind 2 with at least 16 nodes beyond k.
fn repairing() -> Vec<Shape> {
    let all = shapes(255).into_iter();
    all.filter(|shape| shape.size == 256 && shape.n - shape.k >= 16).collect()
}

/// What node j holds of every lane.
fn share_of(plan: &Plan, shares: &[u8], j: usize) -> Vec<u8> {
    shares.chunks(plan.n()).map(|lane| lane[j]).collect()
}

/// A block, a target and missing nodes: every node sends, and the target is as it was encoded. Gives the bits of a symbol.
fn trip(random: &mut Random, shape: &Shape, target: usize, missing: usize, lanes: usize) -> u32 {
    let plan = Plan::new(&shape.record(random)).unwrap();
    let (message, mut shares) = (random.bytes(shape.k * lanes), vec![0; shape.n * lanes]);
    plan.encode(lanes as u32, &message, &mut shares).unwrap();
    let gone: Vec<u8> = random
        .nodes(shape.n, shape.n)
        .into_iter()
        .filter(|&j| usize::from(j) != target)
        .take(missing)
        .collect();
    let repair = plan.repair_plan(missing as u32).unwrap();
    let (mut rows, mut bits) = (Vec::new(), vec![0; repair.bits_len(lanes as u32)]);
    for node in (0..shape.n).filter(|&j| j != target && !gone.contains(&(j as u8))) {
        let share = share_of(&plan, &shares, node);
        plan.repair_bits(lanes as u32, node as u32, target as u32, &gone, &share, &mut bits)
            .unwrap();
        rows.extend(&bits);
    }
    let mut share = vec![0; lanes];
    plan.repair_share(lanes as u32, target as u32, &gone, &rows, &mut share)
        .unwrap();
    assert!(
        share == share_of(&plan, &shares, target),
        "{:?} {target} {gone:?}",
        plan.record()
    );
    repair.bits
}

/// Every target, and missing lists of every length that a record bears.
#[test]
fn every_target() {
    let mut random = Random::new(100);
    let mut seen = [0; 5];
    for shape in repairing() {
        let most = shape.n - shape.k - 16;
        if shape.n == 255 && ![1, 120, 127, 191, 239].contains(&shape.k) {
            let (target, missing) = (random.below(shape.n), random.below(most + 1));
            seen[trip(&mut random, &shape, target, missing, 1 + shape.k % 17) as usize] += 1;
            continue;
        }
        for target in 0..shape.n {
            let some = random.below(most + 1);
            let missing = *random.pick(&[0, 0, most, some]);
            seen[trip(&mut random, &shape, target, missing, 1 + target % 17) as usize] += 1;
        }
    }
    println!("repairs of whole blocks, by the bits of a symbol: {seen:?}");
    assert!([1, 2, 4].iter().all(|&bits| seen[bits] >= 100));
}

/// Every number of missing nodes, at the ends of 1, 2 and 4 bits.
#[test]
fn every_count_of_missing_nodes() {
    let mut random = Random::new(101);
    for shape in repairing()
        .iter()
        .filter(|shape| shape.n < 255 || [1, 64, 120].contains(&shape.k))
    {
        for missing in 0..=shape.n - shape.k - 16 {
            let target = random.below(shape.n);
            trip(&mut random, shape, target, missing, 3);
        }
    }
}

#[test]
fn long_blocks() {
    let mut random = Random::new(102);
    for (n, k, missing, lanes) in [
        (255, 120, 0, 4096),
        (255, 120, 7, 4095),
        (255, 136, 3, 4096),
        (255, 205, 30, 257),
        (51, 3, 5, 4096),
    ] {
        let all = repairing();
        let shape = all.iter().find(|shape| (shape.n, shape.k) == (n, k)).unwrap();
        let target = random.below(n);
        trip(&mut random, shape, target, missing, lanes);
        let any = Repair::new(&mut random, shape, lanes, missing);
        assert_eq!((any.send(), any.repair()), (0, 0));
    }
}

/// Any share and any bits, beside the reference.
#[test]
fn any_bits() {
    let mut random = Random::new(103);
    let shapes = repairing();
    for _ in 0..1_000 {
        let shape = random.pick(&shapes);
        let (lanes, missing) = (1 + random.below(40), random.below(shape.n - shape.k - 15));
        let any = Repair::new(&mut random, shape, lanes, missing);
        assert_eq!((any.send(), any.repair()), (0, 0));
    }
}

#[test]
fn plans() {
    let mut random = Random::new(104);
    let mut seen = [0; 19];
    for shape in shapes(255)
        .iter()
        .filter(|shape| shape.k % if shape.size == 256 { 9 } else { 61 } == 1)
    {
        let record = shape.record(&mut random);
        for missing in (0..=shape.n as u32 + 1).chain([256, 65_536, u32::MAX - 1, u32::MAX]) {
            seen[repair_plan(&record, missing) as usize] += 1;
        }
        let mut damaged = record.clone();
        damage::record(&mut random, &mut damaged);
        seen[repair_plan(&damaged, 0) as usize] += 1;
    }
    for _ in 0..5_000 {
        let mut record = random.pick(&[vec![2, 32, 51, 18], vec![3, 255, 241, 15, 41, 16, 8]]).clone();
        damage::record(&mut random, &mut record);
        seen[repair_plan(&record, random.below(9) as u32) as usize] += 1;
    }
    damage::judge("repair_plan", &seen, &[0, 1, 2, 3, 4, 5, 17]);
}

#[test]
fn damaged() {
    let mut random = Random::new(105);
    let (few, many) = (shapes(17), repairing());
    let mut seen = [[0; 19]; 2];
    for _ in 0..20_000 {
        // records that have no repair by traces, and such as have
        let shapes = if random.below(3) == 0 { &few } else { &many };
        let shape = random.pick(shapes);
        let spare = (shape.n - shape.k).saturating_sub(16);
        let missing = *random.pick(&[0, 1, spare.min(9), spare.min(200), spare + 1]);
        let lanes = 1 + random.below(12);
        let mut repair = Repair::new(&mut random, shape, lanes, missing);
        for _ in 0..random.below(3) {
            repair.damage(&mut random, shape);
        }
        seen[0][repair.send() as usize] += 1;
        seen[1][repair.repair() as usize] += 1;
    }
    damage::judge("repair_bits", &seen[0], &[0, 1, 2, 3, 4, 5, 7, 8, 9, 10, 17]);
    damage::judge("repair_share", &seen[1], &[0, 1, 2, 3, 4, 5, 7, 8, 9, 10, 17]);
}
