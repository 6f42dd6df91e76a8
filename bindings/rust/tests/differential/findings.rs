//! Which update it was: of random lanes with one symbol, two symbols, one node more or nothing changed, and what turns the
//! call away.
use crate::compare;
use crate::random::{shapes, Random, Shape};
use crate::reference::{added, Code};

/// The lane with something added to one symbol of the message.
fn updated(random: &mut Random, code: &Code, shape: &Shape, lane: &[u16]) -> Vec<u16> {
    let x = 1 + random.below(shape.size as usize - 1);
    added(code, lane, &code.generator()[random.below(shape.k)], x as u16)
}

/// The lane with one node's symbol replaced by another.
fn changed(random: &mut Random, code: &Code, shape: &Shape, lane: &[u16]) -> Vec<u16> {
    let mut lane = lane.to_vec();
    let node = random.below(shape.n);
    lane[node] = code.field.add(lane[node], 1 + random.below(shape.size as usize - 1) as u16);
    lane
}

#[test]
fn every_shape() {
    let mut random = Random::new(50);
    let mut seen = [0; 3];
    let all = shapes(255);
    for shape in all
        .iter()
        .filter(|shape| shape.n <= 40 || shape.k % 17 == 1 || shape.k == shape.n)
    {
        let record = shape.record(&mut random);
        let code = Code::of(&record).unwrap();
        let before = random.symbols(shape.size, shape.n);
        let once = updated(&mut random, &code, shape, &before);
        let lanes = [
            before.clone(),
            once.clone(),
            updated(&mut random, &code, shape, &once),
            changed(&mut random, &code, shape, &once),
            changed(&mut random, &code, shape, &before),
        ];
        for after in lanes {
            let (number, answer) = compare::find_update(&record, &code.bytes(&before), &code.bytes(&after));
            assert_eq!(number, 0);
            seen[answer as usize] += 1;
        }
    }
    println!("findings, unchanged, found, none: {seen:?}");
    assert!(seen.iter().all(|&count| count >= 200));
}

#[test]
fn damaged() {
    let mut random = Random::new(51);
    let shapes = shapes(24);
    let mut seen = [0; 17];
    for _ in 0..20_000 {
        let shape = random.pick(&shapes);
        let mut record = shape.record(&mut random);
        if random.below(3) == 0 {
            let at = random.below(record.len());
            record[at] = random.byte();
        }
        let mut lane = |long: usize| match random.below(4) {
            0 => random.bytes(shape.bytes(long)),
            1 => random.buffer(shape.size, long + 1),
            _ => random.buffer(shape.size, long),
        };
        let (before, after) = (lane(shape.n), lane(shape.n));
        seen[compare::find_update(&record, &before, &after).0 as usize] += 1;
    }
    println!("20,000 records and lanes, by their number: {seen:?}");
    assert!([0, 5, 8, 11].iter().all(|&number| seen[number] >= 100));
}
