//! The shares of k listed nodes, from node after node to lane after lane and back.
use crate::random::{shapes, Random};
use crate::{compare, damage};

/// Rearranged and back, and what turns the two calls away.
#[test]
fn listed() {
    let mut random = Random::new(73);
    let shapes = shapes(40);
    let mut seen = [[0; 19]; 2];
    for _ in 0..30_000 {
        let shape = random.pick(&shapes);
        let mut lanes = 1 + random.below(7) as u32;
        let mut record = shape.record(&mut random);
        let size = shape.bytes(shape.k * lanes as usize);
        let (mut read, mut written) = (random.bytes(size), random.bytes(size));
        for _ in 0..random.below(3) {
            match random.below(4) {
                0 => damage::record(&mut random, &mut record),
                1 => damage::lanes(&mut random, &mut lanes),
                2 => damage::length(&mut random, &mut read),
                _ => damage::length(&mut random, &mut written),
            }
        }
        let one = compare::listed_to_lanes(&record, lanes, &read, &written);
        let two = compare::listed_to_nodes(&record, lanes, &read, &written);
        if one == 0 {
            let mut back = vec![0; read.len()];
            balanced::listed_to_lanes(&record, lanes, &read, &mut written).unwrap();
            balanced::listed_to_nodes(&record, lanes, &written, &mut back).unwrap();
            assert!(back == read);
        }
        seen[0][one as usize] += 1;
        seen[1][two as usize] += 1;
    }
    damage::judge("listed_to_lanes", &seen[0], &[0, 1, 2, 3, 4, 5, 7, 8]);
    damage::judge("listed_to_nodes", &seen[1], &[0, 1, 2, 3, 4, 5, 7, 8]);
}
