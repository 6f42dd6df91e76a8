//! Plans: of every shape, of random records, and in buffers of other lengths.
use crate::compare;
use crate::random::{shapes, Random};
use balanced::Plan;

#[test]
fn every_shape() {
    let mut random = Random::new(1);
    let shapes = shapes(255);
    for shape in &shapes {
        let record = shape.record(&mut random);
        assert_eq!(compare::plan(&record), 0);
    }
    println!("{} plans, one of each field, n and k", shapes.len());
}

/// The rows that are not zero at a node are the lower or the upper number for every node, and sum to k·d.
#[test]
fn every_share() {
    let mut random = Random::new(4);
    let shapes = shapes(61);
    for shape in &shapes {
        let plan = Plan::new(&shape.record(&mut random)).unwrap();
        let rows: Vec<usize> = (0..plan.n())
            .map(|j| (0..plan.k()).filter(|&r| plan.entry(r, j) != 0).count())
            .collect();
        assert_eq!(rows.iter().sum::<usize>(), plan.k() * plan.d());
        assert_eq!(rows.iter().min(), Some(&plan.low_reads()));
        assert_eq!(rows.iter().max(), Some(&plan.high_reads()));
        assert!(plan.high_reads() - plan.low_reads() <= 1);
    }
    println!("{} plans whose nodes share as evenly as can be", shapes.len());
}

#[test]
fn every_root() {
    let mut count = 0;
    for shape in shapes(16) {
        for root in 0..=255 {
            let expect = if shape.roots.contains(&root) { 0 } else { 5 };
            assert!(compare::plan(&shape.record_with(root)) == expect || shape.size > 1024);
            count += 1;
        }
    }
    println!("{count} records with every byte as their root");
}

#[test]
fn random_records() {
    let mut random = Random::new(2);
    let shapes = shapes(255);
    let mut seen = [0; 12];
    for round in 0..60_000 {
        // a record that is accepted, with up to two bytes changed, or of another length, or of random bytes
        let mut record = random.pick(&shapes).record(&mut random);
        match round % 4 {
            0 => {}
            1 => {
                for _ in 0..1 + random.below(2) {
                    let at = random.below(record.len());
                    record[at] = random.byte();
                }
            }
            2 => {
                let len = random.below(10);
                record.resize(len, 0);
            }
            _ => {
                let len = 4 + random.below(4);
                record = random.bytes(len);
                record[0] = 1 + random.below(4) as u8;
            }
        }
        seen[compare::plan(&record) as usize] += 1;
    }
    println!("60,000 records, by their number: {seen:?}");
    assert!(seen[..=5].iter().all(|&count| count >= 100));
    assert!(seen[6..].iter().all(|&count| count == 0));
}

#[test]
fn other_lengths() {
    let mut random = Random::new(3);
    let shapes = shapes(255);
    let lengths: [usize; 7] = [0, 4, 5, 6, 254, 255, 256];
    let mut count = 0;
    for choice in 0..lengths.len().pow(4) {
        let length = |i: u32| lengths[choice / lengths.len().pow(i) % lengths.len()];
        let [numbers, shifts, firsts, base] = [0, 1, 2, 3].map(length);
        let record = random.pick(&shapes).record(&mut random);
        let fits = (numbers, shifts, firsts, base) == (5, 255, 255, 255);
        assert_eq!(
            compare::plan_in(&record, numbers, shifts, firsts, base),
            if fits { 0 } else { 8 }
        );
        // the record's number comes first
        assert_eq!(compare::plan_in(&[1, 7, 2, 6, 3], numbers, shifts, firsts, base), 5);
        count += 2;
    }
    println!("{count} plans in buffers of other lengths");
}
