//! The single changes that make a lane a word: of words, of words with one or two nodes changed and of any lane, and what
//! turns the call away.
use crate::compare;
use crate::random::{shapes, Random, Shape};
use crate::reference::Code;

/// The lane with one node's symbol replaced by another.
fn changed(random: &mut Random, code: &Code, shape: &Shape, lane: &[u16]) -> Vec<u16> {
    let mut lane = lane.to_vec();
    let node = random.below(shape.n);
    lane[node] = code.field.add(lane[node], 1 + random.below(shape.size as usize - 1) as u16);
    lane
}

#[test]
fn every_shape() {
    let mut random = Random::new(60);
    let mut seen = [0; 3];
    let all = shapes(255);
    for shape in all
        .iter()
        .filter(|shape| shape.n <= 40 || shape.k % 17 == 1 || shape.k + 2 >= shape.n)
    {
        let record = shape.record(&mut random);
        let code = Code::of(&record).unwrap();
        let word = code.encoding(1, &random.symbols(shape.size, shape.k));
        let once = changed(&mut random, &code, shape, &word);
        let lanes = [
            word,
            once.clone(),
            changed(&mut random, &code, shape, &once),
            random.symbols(shape.size, shape.n),
        ];
        for lane in lanes {
            let (nodes, symbols) = (random.bytes(shape.n), random.bytes(shape.bytes(shape.n)));
            let (number, count) = compare::mends(&record, &code.bytes(&lane), &nodes, &symbols);
            assert_eq!(number, 0);
            seen[count.min(2) as usize] += 1;
        }
    }
    println!("lanes with no change, one and more: {seen:?}");
    assert!(seen.iter().all(|&count| count >= 100));
}

#[test]
fn damaged() {
    let mut random = Random::new(61);
    let shapes = shapes(24);
    let mut seen = [0; 17];
    for _ in 0..20_000 {
        let shape = random.pick(&shapes);
        let mut record = shape.record(&mut random);
        if random.below(3) == 0 {
            let at = random.below(record.len());
            record[at] = random.byte();
        }
        let lane = match random.below(4) {
            0 => random.bytes(shape.bytes(shape.n)),
            1 => random.buffer(shape.size, shape.n + 1),
            _ => random.buffer(shape.size, shape.n),
        };
        let mut long = |right: usize| right - 1 + *random.pick(&[0, 1, 1, 1, 1, 1, 2]);
        let (nodes, symbols) = (long(shape.n), long(shape.bytes(shape.n)));
        let (nodes, symbols) = (random.bytes(nodes), random.bytes(symbols));
        seen[compare::mends(&record, &lane, &nodes, &symbols).0 as usize] += 1;
    }
    println!("20,000 records, lanes and lengths, by their number: {seen:?}");
    assert!([0, 5, 8, 11].iter().all(|&number| seen[number] >= 100));
}
