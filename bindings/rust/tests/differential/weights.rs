//! Weight distributions: of every code with few messages, by going through them, and what turns the call away.
use crate::compare;
use crate::random::{shapes, Random};

/// q^k, if it is at most 65,536.
fn few(size: u32, k: usize) -> Option<usize> {
    (0..k).try_fold(1, |count: usize, _| {
        Some(count * size as usize).filter(|&next| next <= 65_536)
    })
}

#[test]
fn every_small_shape() {
    let mut random = Random::new(40);
    let (mut codes, mut messages) = (0, 0);
    for shape in shapes(255) {
        let Some(count) = few(shape.size, shape.k) else { continue };
        if count * shape.n <= 200_000 {
            let record = shape.record(&mut random);
            let before: Vec<u32> = (0..=shape.n).map(|_| random.next() as u32).collect();
            assert_eq!(compare::weights(&record, &before), 0);
            codes += 1;
            messages += count;
        }
    }
    println!("{codes} weight distributions over {messages} messages");
}

#[test]
fn many_messages() {
    let mut random = Random::new(41);
    let (mut most, mut refused) = (0, 0);
    for shape in shapes(255) {
        let record = shape.record(&mut random);
        let before: Vec<u32> = (0..=shape.n).map(|_| random.next() as u32).collect();
        match few(shape.size, shape.k) {
            Some(count) if count > 40_000 && most < 6 => {
                assert_eq!(compare::weights(&record, &before), 0);
                most += 1;
            }
            None if refused < 300 => {
                assert_eq!(compare::weights(&record, &before), 16);
                refused += 1;
            }
            _ => {}
        }
    }
    println!("{most} of the largest codes, {refused} with too many messages");
}

#[test]
fn damaged() {
    let mut random = Random::new(42);
    let shapes = shapes(24);
    let mut seen = [0; 17];
    for _ in 0..4_000 {
        let shape = random.pick(&shapes);
        let mut record = shape.record(&mut random);
        if random.below(3) == 0 {
            let at = random.below(record.len());
            record[at] = random.byte();
        }
        let len = shape.n + *random.pick(&[0, 1, 1, 1, 2]);
        let before: Vec<u32> = (0..len).map(|_| random.next() as u32).collect();
        // the reference would take long
        if few(shape.size, shape.k).map_or(true, |count| count * shape.n <= 20_000) {
            seen[compare::weights(&record, &before) as usize] += 1;
        }
    }
    println!("4,000 records and lengths, by their number: {seen:?}");
    assert!([0, 5, 8, 16].iter().all(|&number| seen[number] >= 20));
}
