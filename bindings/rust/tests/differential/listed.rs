//! Lost and wrong together: every number of listed nodes, with as many wrong symbols as can be borne and with one more, every lane of small
//! codes beside a search through all messages, long blocks, and what turns the call away.
use crate::compare::{expected, number, Lent};
use crate::damage;
use crate::random::{shapes, Random, Shape};
use crate::reference::{self, bytes_of, Code};
use balanced::sys;

/// The call through the safe interface and through the C function, whose count is lent.
fn correct_listed(record: &[u8], lanes: u32, nodes: &[u8], shares: &[u8], before: &[u8], wrong_before: &[u32]) -> u8 {
    const MARK: u32 = 0x5a5a_5a5a;
    let words = format!("correct_listed {record:?} {lanes} {nodes:?}");
    let result = reference::correct_listed(record, lanes, nodes, shares, before.len(), wrong_before.len());
    let (expect, (after, wrong_after)) = expected(result, (before.to_vec(), wrong_before.to_vec()));
    let altered = if expect == 0 { wrong_after.iter().sum() } else { MARK };
    let (mut message, mut wrong) = (Lent::new(before), Lent::new(wrong_before));
    let (got, count) = number(balanced::correct_listed(
        record,
        lanes,
        nodes,
        shares,
        message.slice(),
        wrong.slice(),
    ));
    assert_eq!((got, count.unwrap_or(MARK)), (expect, altered), "{words}");
    assert!(message.holds(&after) && wrong.holds(&wrong_after), "{words}");
    let (mut message, mut wrong, mut count) = (Lent::new(before), Lent::new(wrong_before), MARK);
    let got = unsafe {
        sys::balanced_correct_listed(
            record.as_ptr(),
            record.len(),
            lanes,
            nodes.as_ptr(),
            nodes.len(),
            shares.as_ptr(),
            shares.len(),
            message.slice().as_mut_ptr(),
            before.len(),
            wrong.slice().as_mut_ptr(),
            wrong_before.len(),
            &mut count,
        )
    };
    assert_eq!((got, count), (expect, altered), "{words}");
    assert!(message.holds(&after) && wrong.holds(&wrong_after), "{words}");
    got
}

/// A block as s listed nodes hold it.
struct Block {
    record: Vec<u8>,
    lanes: usize,
    nodes: Vec<u8>,
    message: Vec<u8>,
    shares: Vec<u8>,
}

impl Block {
    fn new(random: &mut Random, shape: &Shape, s: usize, lanes: usize) -> Block {
        let (record, nodes) = (shape.record(random), random.nodes(shape.n, s));
        let message = random.buffer(shape.size, shape.k * lanes);
        let mut all = vec![0; shape.bytes(shape.n * lanes)];
        balanced::encode(&record, lanes as u32, &message, &mut all).unwrap();
        let held = |lane: &[u8], j: u8| lane[shape.bytes(j.into())..shape.bytes(usize::from(j) + 1)].to_vec();
        let shares = all
            .chunks(shape.bytes(shape.n))
            .flat_map(|lane| nodes.iter().flat_map(move |&j| held(lane, j)))
            .collect();
        Block {
            record,
            lanes,
            nodes,
            message,
            shares,
        }
    }

    /// So many symbols of a lane become others, at these places of the list.
    fn spoil(&mut self, random: &mut Random, code: &Code, lane: usize, places: &[u8]) {
        let part = code.size(self.nodes.len());
        let at = lane * part..(lane + 1) * part;
        let mut symbols = code.symbols(&self.shares[at.clone()]);
        for &place in places {
            let x = 1 + random.below(code.field.size() as usize - 1);
            symbols[place as usize] = code.field.add(symbols[place as usize], x as u16);
        }
        self.shares[at].copy_from_slice(&code.bytes(&symbols));
    }

    /// The answer beside the reference's.
    fn compare(&self, random: &mut Random) -> u8 {
        let (before, wrong) = (random.bytes(self.message.len()), vec![random.next() as u32; self.nodes.len()]);
        correct_listed(&self.record, self.lanes as u32, &self.nodes, &self.shares, &before, &wrong)
    }

    /// The message and the counts, of an accepted call.
    fn answer(&self) -> (Vec<u8>, Vec<u32>, u32) {
        let (mut message, mut wrong) = (vec![0; self.message.len()], vec![0; self.nodes.len()]);
        let count = balanced::correct_listed(
            &self.record,
            self.lanes as u32,
            &self.nodes,
            &self.shares,
            &mut message,
            &mut wrong,
        );
        (message, wrong, count.unwrap())
    }
}

/// A block of so many listed nodes with so many wrong symbols in every lane: the message is got back, and the counts say where.
fn set_right(random: &mut Random, shape: &Shape, s: usize, wrong: usize) {
    let mut block = Block::new(random, shape, s, 1 + shape.n % 3);
    let code = Code::of(&block.record).unwrap();
    let mut counts = vec![0; s];
    for lane in 0..block.lanes {
        let places = random.nodes(s, wrong);
        places.iter().for_each(|&place| counts[place as usize] += 1);
        block.spoil(random, &code, lane, &places);
    }
    assert_eq!(block.compare(random), 0);
    let total = counts.iter().sum();
    assert_eq!(block.answer(), (block.message.clone(), counts, total));
}

/// One lane with one more wrong symbol than can be borne: refused, or near to another message.
fn one_more(random: &mut Random, shape: &Shape, s: usize) -> u8 {
    let lanes = 1 + random.below(3);
    let mut block = Block::new(random, shape, s, lanes);
    let code = Code::of(&block.record).unwrap();
    let (lane, places) = (random.below(block.lanes), random.nodes(s, ((s - shape.k) / 2 + 1).min(s)));
    block.spoil(random, &code, lane, &places);
    block.compare(random)
}

#[test]
fn every_number_of_nodes() {
    let mut random = Random::new(80);
    let (mut blocks, mut beyond) = (0, [0; 19]);
    for shape in shapes(13) {
        for s in shape.k..=shape.n {
            for wrong in 0..=(s - shape.k) / 2 {
                set_right(&mut random, &shape, s, wrong);
                blocks += 1;
            }
            beyond[one_more(&mut random, &shape, s) as usize] += 1;
        }
    }
    // larger codes here and there
    let many = shapes(255)
        .into_iter()
        .filter(|shape| shape.n > 13 && (shape.n <= 24 || shape.k % 61 == 1));
    for shape in &many.step_by(8).collect::<Vec<Shape>>() {
        for s in [shape.k, shape.k + random.below(shape.n - shape.k + 1), shape.n] {
            let most = (s - shape.k) / 2;
            let some = random.below(most + 1);
            for wrong in [some, most] {
                set_right(&mut random, shape, s, wrong);
                blocks += 1;
            }
            beyond[one_more(&mut random, shape, s) as usize] += 1;
        }
    }
    println!("{blocks} blocks of listed nodes set right, and by number with one wrong symbol more: {beyond:?}");
    assert!(beyond[0] >= 100 && beyond[14] >= 1000);
}

/// Each lane and each list of nodes of small codes, beside a search through all messages.
#[test]
fn every_lane() {
    let mut random = Random::new(81);
    let mut seen = [0; 2];
    for record in [
        [1, 3, 2, 2, 1],
        [1, 5, 2, 4, 1],
        [1, 5, 2, 4, 2],
        [1, 7, 3, 6, 1],
        [1, 7, 2, 3, 1],
        [1, 11, 3, 5, 1],
    ] {
        let code = Code::of(&record).unwrap();
        let (size, k) = (code.field.size() as usize, code.k);
        let list = |index: usize, long: u32| (0..long).map(|e| (index / size.pow(e) % size) as u16).collect::<Vec<u16>>();
        let messages: Vec<Vec<u16>> = (0..size.pow(k as u32)).map(|index| list(index, k as u32)).collect();
        let words: Vec<Vec<u16>> = messages.iter().map(|message| code.encoding(1, message)).collect();
        for set in (0..1u32 << code.n).filter(|set| (k..=4).contains(&(set.count_ones() as usize))) {
            let mut nodes: Vec<u8> = (0..code.n as u8).filter(|j| set >> j & 1 == 1).collect();
            random.shuffle(&mut nodes);
            let s = nodes.len();
            for index in 0..size.pow(s as u32) {
                let lane = list(index, s as u32);
                let wrong = |word: &[u16]| {
                    (0..s)
                        .map(|i| (word[nodes[i] as usize] != lane[i]) as u32)
                        .collect::<Vec<u32>>()
                };
                let near: Vec<usize> = (0..words.len())
                    .filter(|&at| wrong(&words[at]).iter().sum::<u32>() as usize <= (s - k) / 2)
                    .collect();
                assert!(near.len() <= 1, "{record:?} {nodes:?} {lane:?}");
                let (mut message, mut counts) = (vec![9; k], vec![9; s]);
                let shares = bytes_of(size as u32, &lane);
                let answer = balanced::correct_listed(&record, 1, &nodes, &shares, &mut message, &mut counts);
                let expect = match near.first() {
                    None => (Err(14), vec![9; k], vec![9; s]),
                    Some(&at) => {
                        let counts = wrong(&words[at]);
                        (Ok(counts.iter().sum()), bytes_of(size as u32, &messages[at]), counts)
                    }
                };
                assert_eq!(
                    (answer.map_err(|error| error.number()), message, counts),
                    expect,
                    "{record:?} {nodes:?} {lane:?}"
                );
                seen[near.len()] += 1;
            }
        }
    }
    println!(
        "{} lanes of small codes near to no message and {} near to one, each beside every message",
        seen[0], seen[1]
    );
}

/// With all nodes it agrees with Correct, with k nodes with Recover, whatever the shares hold.
#[test]
fn agrees() {
    let mut random = Random::new(82);
    let mut seen = [0; 2];
    for shape in shapes(24) {
        let (lanes, record) = (1 + random.below(3), shape.record(&mut random));
        let mut shares = random.buffer(shape.size, shape.n * lanes);
        if random.below(2) == 0 {
            let message = random.buffer(shape.size, shape.k * lanes);
            balanced::encode(&record, lanes as u32, &message, &mut shares).unwrap();
            damage::symbol(&mut random, &shape, &mut shares);
        }
        let nodes: Vec<u8> = (0..shape.n as u8).collect();
        let (mut message, mut wrong) = (vec![0; shape.bytes(shape.k * lanes)], vec![0; shape.n]);
        let one = balanced::correct_listed(&record, lanes as u32, &nodes, &shares, &mut message, &mut wrong);
        let mut right = shares.clone();
        assert_eq!(one, balanced::correct(&record, lanes as u32, &mut right));
        if one.is_ok() {
            let mut all = vec![0; right.len()];
            balanced::encode(&record, lanes as u32, &message, &mut all).unwrap();
            assert!(all == right);
        }
        seen[usize::from(one.is_ok())] += 1;
        let nodes = random.nodes(shape.n, shape.k);
        let any = random.buffer(shape.size, shape.k * lanes);
        let (mut message, mut wrong) = (vec![0; any.len()], vec![7; shape.k]);
        let none = balanced::correct_listed(&record, lanes as u32, &nodes, &any, &mut message, &mut wrong);
        let mut back = vec![0; any.len()];
        balanced::recover(&record, lanes as u32, &nodes, &any, &mut back).unwrap();
        assert_eq!((none, message, wrong), (Ok(0), back, vec![0; shape.k]));
    }
    println!("beside Correct, refused and set right: {seen:?}");
    assert!(seen.iter().all(|&count| count >= 100));
}

/// Long blocks with a few lanes that are wrong, at the first, the last and other places.
#[test]
fn long_blocks() {
    let mut random = Random::new(83);
    let all = shapes(255);
    for (n, k, s, lanes) in [
        (255, 120, 200, 4096),
        (85, 40, 60, 1000),
        (30, 20, 27, 4096),
        (252, 126, 190, 140),
        (16, 8, 13, 2048),
    ] {
        let fit = |shape: &&Shape| (shape.n, shape.k) == (n, k) && (n != 16 || shape.size == 65_521);
        let shape = all.iter().find(fit).unwrap();
        let mut block = Block::new(&mut random, shape, s, lanes);
        let code = Code::of(&block.record).unwrap();
        let most = (s - k) / 2;
        for lane in [0, 1, 63, 64, 65, 127, lanes / 2, lanes - 1] {
            let places = random.nodes(s, most);
            block.spoil(&mut random, &code, lane, &places);
        }
        assert_eq!(block.compare(&mut random), 0);
        assert!(block.answer().0 == block.message);
        // the last lane alone is beyond help: nothing is written
        let last = (lanes - 1) * code.size(s);
        let kept = block.shares[last..].to_vec();
        while block.compare(&mut random) == 0 {
            block.shares[last..].copy_from_slice(&kept);
            let places = random.nodes(s, most + 1);
            block.spoil(&mut random, &code, lanes - 1, &places);
        }
    }
}

#[test]
fn damaged() {
    let mut random = Random::new(84);
    let shapes = shapes(16);
    let mut seen = [0; 19];
    for _ in 0..40_000 {
        let shape = random.pick(&shapes);
        let (s, lanes) = (shape.k + random.below(shape.n - shape.k + 1), 1 + random.below(4));
        let block = Block::new(&mut random, shape, s, lanes);
        let (mut record, mut nodes, mut shares, mut lanes) = (block.record, block.nodes, block.shares, lanes as u32);
        let (mut message, mut wrong) = (random.bytes(block.message.len()), vec![3; s]);
        for _ in 0..random.below(4) {
            match random.below(10) {
                0 => damage::record(&mut random, &mut record),
                1 => damage::lanes(&mut random, &mut lanes),
                2 => damage::length(&mut random, &mut nodes),
                3 => damage::length(&mut random, &mut shares),
                4 => damage::length(&mut random, &mut message),
                5 => damage::length(&mut random, &mut wrong),
                6 => damage::nodes(&mut random, shape, &mut nodes),
                7 => damage::no_symbol(&mut random, shape, &mut shares),
                _ => damage::symbol(&mut random, shape, &mut shares),
            }
        }
        seen[correct_listed(&record, lanes, &nodes, &shares, &message, &wrong) as usize] += 1;
    }
    damage::judge("correct_listed", &seen, &[0, 1, 2, 3, 4, 5, 7, 8, 9, 10, 11, 14]);
}
