//! The calls on valid input: short blocks of many codes, every list of nodes of small codes, long blocks.
use crate::compare;
use crate::random::{shapes, Random, Shape};
use crate::reference::{bytes_of, width};

/// A block through every call, whole, damaged and updated. Gives the number of calls.
fn round(random: &mut Random, shape: &Shape, lanes: usize) -> usize {
    let record = shape.record(random);
    let (n, k, size, l) = (shape.n, shape.k, shape.size, lanes as u32);
    let (message_len, shares_len, share_len) = (shape.bytes(k * lanes), shape.bytes(n * lanes), shape.bytes(lanes));
    let mut calls = 0;
    let mut accepted = |number: u8| {
        assert_eq!(number, 0);
        calls += 1;
    };

    let symbols = random.symbols(size, k * lanes);
    let message = bytes_of(size, &symbols);
    accepted(compare::encode(&record, l, &message, &random.bytes(shares_len)));
    let mut shares = vec![0; shares_len];
    balanced::encode(&record, l, &message, &mut shares).unwrap();

    let nodes = random.nodes(n, k);
    let held = |lane: &[u8], j: usize| lane[shape.bytes(j)..shape.bytes(j + 1)].to_vec();
    let left: Vec<u8> = shares
        .chunks(shape.bytes(n))
        .flat_map(|lane| nodes.iter().flat_map(|&j| held(lane, j.into())))
        .collect();
    accepted(compare::recover(&record, l, &nodes, &left, &random.bytes(message_len)));
    let mut back = vec![0; message_len];
    balanced::recover(&record, l, &nodes, &left, &mut back).unwrap();
    assert!(back == message);

    let target = random.below(n);
    accepted(compare::rebuild(
        &record,
        l,
        &nodes,
        &left,
        target as u32,
        &random.bytes(share_len),
    ));
    let mut share = vec![0; share_len];
    balanced::rebuild(&record, l, &nodes, &left, target as u32, &mut share).unwrap();
    let expect = shares.chunks(shape.bytes(n)).flat_map(|lane| held(lane, target));
    assert!(share.into_iter().eq(expect));

    // any symbols on k nodes
    let any = random.buffer(size, k * lanes);
    accepted(compare::recover(&record, l, &nodes, &any, &random.bytes(message_len)));
    accepted(compare::rebuild(
        &record,
        l,
        &nodes,
        &any,
        target as u32,
        &random.bytes(share_len),
    ));

    // a block as it was encoded; with some symbols changed; of any symbols
    let (number, lane) = compare::belongs(&record, l, &shares);
    accepted(number);
    assert_eq!(lane, l);
    let mut damaged = shares.clone();
    for _ in 0..1 + random.below(3) {
        let at = random.below(n * lanes);
        damaged[shape.bytes(at)..shape.bytes(at + 1)].copy_from_slice(&random.buffer(size, 1));
    }
    accepted(compare::belongs(&record, l, &damaged).0);
    accepted(compare::belongs(&record, l, &random.buffer(size, n * lanes)).0);

    // set right: as it was encoded; with some symbols changed; of any symbols
    accepted(compare::correct(&record, l, &shares));
    let some = [0, 14].contains(&compare::correct(&record, l, &damaged));
    let any = [0, 14].contains(&compare::correct(&record, l, &random.buffer(size, n * lanes)));
    assert!(some && any);

    // an update of a true symbol, and of one that may be another, of a block that may be damaged, with equal symbols
    let (symbol, lane) = (random.below(k), random.below(lanes));
    let old = u32::from(symbols[symbol * lanes + lane]);
    let [other, new] = [random.below(size as usize) as u32, random.below(size as usize) as u32];
    let (s, t) = (symbol as u32, lane as u32);
    accepted(compare::update(&record, l, s, t, old, new, &shares));
    accepted(compare::update(&record, l, s, t, old, old, &shares));
    let whole = [0, 13].contains(&compare::update(&record, l, s, t, other, new, &shares));
    let stale = [0, 13].contains(&compare::update(&record, l, s, t, new, new, &shares));
    let spoiled = [0, 12, 13].contains(&compare::update(&record, l, s, t, other, new, &damaged));
    assert!(whole && stale && spoiled);
    let altered = balanced::update(&record, l, s, t, old, new, &mut shares).unwrap();
    assert_eq!(altered as usize, if old == new { 0 } else { n - k + 1 });
    assert_eq!(compare::belongs(&record, l, &shares), (0, l));

    // bytes of other lanes do not matter to an update, even where they are no symbols
    let mut others = random.bytes(shares_len);
    let part = shape.bytes(lane * n)..shape.bytes((lane + 1) * n);
    others[part.clone()].copy_from_slice(&shares[part]);
    accepted(compare::update(&record, l, s, t, new, old, &others));

    // bytes that need be no symbols, rearranged, and back
    accepted(compare::to_nodes(&record, l, &others, &random.bytes(shares_len)));
    let mut by_node = vec![0; shares_len];
    balanced::to_nodes(&record, l, &others, &mut by_node).unwrap();
    accepted(compare::to_lanes(&record, l, &by_node, &random.bytes(shares_len)));
    let mut by_lane = vec![0; shares_len];
    balanced::to_lanes(&record, l, &by_node, &mut by_lane).unwrap();
    assert!(by_lane == others);
    calls + 1
}

#[test]
fn short_blocks() {
    let mut random = Random::new(10);
    let shapes = shapes(24);
    let mut calls = 0;
    for _ in 0..10_000 {
        let lanes = 1 + random.below(9);
        let shape = random.pick(&shapes);
        calls += round(&mut random, shape, lanes);
    }
    println!("{calls} calls on short blocks");
}

#[test]
fn every_shape() {
    let mut random = Random::new(11);
    let shapes = shapes(64);
    let mut calls = 0;
    for shape in &shapes {
        let lanes = 1 + random.below(3);
        calls += round(&mut random, shape, lanes);
    }
    println!("{calls} calls on one block of each of {} shapes", shapes.len());
}

#[test]
fn many_nodes() {
    let mut random = Random::new(12);
    let mut shapes = shapes(255);
    shapes.retain(|shape| shape.n > 64);
    let mut calls = 0;
    for _ in 0..60 {
        let lanes = 1 + random.below(40);
        let shape = random.pick(&shapes);
        calls += round(&mut random, shape, lanes);
    }
    for shape in shapes.iter().filter(|shape| shape.n == 255 && shape.k % 17 == 0) {
        calls += round(&mut random, shape, 1);
    }
    println!("{calls} calls on blocks of many nodes");
}

#[test]
fn long_blocks() {
    let mut random = Random::new(13);
    let mut calls = 0;
    let all = shapes(30);
    for lanes in [255, 1024, 4095, 4096] {
        for _ in 0..4 {
            let shape = random.pick(&all);
            calls += round(&mut random, shape, lanes);
        }
    }
    let largest = shapes(255);
    for bytes in [1, 2] {
        let is_large = |shape: &&Shape| (shape.n, shape.k, width(shape.size)) == (255, 120, bytes);
        calls += round(&mut random, largest.iter().find(is_large).unwrap(), 4096);
    }
    println!("{calls} calls on long blocks");
}

/// Every list of k nodes, in a random order, and every target.
#[test]
fn every_list_of_nodes() {
    let mut random = Random::new(14);
    let (mut lists, mut targets) = (0, 0);
    for shape in shapes(10) {
        let record = shape.record(&mut random);
        let (n, k) = (shape.n, shape.k);
        let shares = random.buffer(shape.size, k * 2);
        let (message_len, share_len) = (shape.bytes(k * 2), shape.bytes(2));
        for set in (0..1u32 << n).filter(|set| set.count_ones() as usize == k) {
            let mut nodes: Vec<u8> = (0..n as u8).filter(|j| set >> j & 1 == 1).collect();
            random.shuffle(&mut nodes);
            assert_eq!(compare::recover(&record, 2, &nodes, &shares, &random.bytes(message_len)), 0);
            for target in 0..n as u32 {
                assert_eq!(
                    compare::rebuild(&record, 2, &nodes, &shares, target, &random.bytes(share_len)),
                    0
                );
                targets += 1;
            }
            lists += 1;
        }
    }
    println!("{lists} lists of nodes, and {targets} targets");
}
