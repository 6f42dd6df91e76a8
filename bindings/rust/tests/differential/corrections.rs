//! Setting a block right: every shape of code with few, with as many as it can bear and with more wrong symbols, every lane of
//! small codes beside a search through all words, and what turns the call away is in `refusals`.
use crate::compare;
use crate::random::{shapes, Random, Shape};
use crate::reference::{bytes_of, Code};

/// A block of so many lanes as it was encoded.
fn encoded(random: &mut Random, shape: &Shape, record: &[u8], lanes: usize) -> Vec<u8> {
    let message = random.buffer(shape.size, shape.k * lanes);
    let mut shares = vec![0; shape.bytes(shape.n * lanes)];
    balanced::encode(record, lanes as u32, &message, &mut shares).unwrap();
    shares
}

/// A lane with so many symbols replaced by others.
fn spoil(random: &mut Random, code: &Code, lane: &mut [u8], wrong: usize) {
    let mut symbols = code.symbols(lane);
    for j in random.nodes(code.n, wrong) {
        let x = 1 + random.below(code.field.size() as usize - 1);
        symbols[j as usize] = code.field.add(symbols[j as usize], x as u16);
    }
    lane.copy_from_slice(&code.bytes(&symbols));
}

#[test]
fn every_shape() {
    let mut random = Random::new(60);
    let mut seen = [0; 15];
    let all = shapes(255);
    for shape in all
        .iter()
        .filter(|shape| shape.n <= 40 || shape.k % 17 == 1 || shape.k + 2 > shape.n)
    {
        let record = shape.record(&mut random);
        let code = Code::of(&record).unwrap();
        let (n, most, lanes) = (shape.bytes(shape.n), (shape.n - shape.k) / 2, 1 + random.below(3));
        let shares = encoded(&mut random, shape, &record, lanes);
        for wrong in [0, most.min(1), random.below(most + 1), most] {
            let mut damaged = shares.clone();
            damaged.chunks_mut(n).for_each(|lane| spoil(&mut random, &code, lane, wrong));
            assert_eq!(compare::correct(&record, lanes as u32, &damaged), 0);
            let altered = balanced::correct(&record, lanes as u32, &mut damaged).unwrap();
            assert_eq!((altered as usize, &damaged), (wrong * lanes, &shares));
            seen[0] += 1;
        }
        // one lane with more wrong symbols than can be borne, and a block of any symbols
        let mut damaged = shares.clone();
        let at = random.below(lanes) * n;
        spoil(&mut random, &code, &mut damaged[at..at + n], most + 1);
        seen[compare::correct(&record, lanes as u32, &damaged) as usize] += 1;
        let any = random.buffer(shape.size, shape.n * lanes);
        seen[compare::correct(&record, lanes as u32, &any) as usize] += 1;
    }
    println!("corrections of every shape, by their number: {seen:?}");
    assert!(seen[0] >= 1000 && seen[14] >= 1000);
}

/// Every lane of a small code: the word that differs from it at no more than (n − k)/2 nodes is searched for among all words.
#[test]
fn every_lane() {
    let mut lanes = 0;
    for record in [
        [1, 3, 2, 2, 1],
        [1, 5, 2, 4, 1],
        [1, 5, 2, 4, 2],
        [1, 5, 4, 2, 1],
        [1, 7, 3, 6, 1],
        [1, 7, 3, 6, 2],
        [1, 7, 2, 3, 1],
        [1, 11, 3, 5, 1],
        [1, 11, 3, 5, 3],
    ] {
        let code = Code::of(&record).unwrap();
        let (n, size) = (code.n, code.field.size() as usize);
        let list = |mut index: usize, long: usize| -> Vec<u16> {
            (0..long)
                .map(|_| {
                    let symbol = index % size;
                    index /= size;
                    symbol as u16
                })
                .collect()
        };
        let words: Vec<Vec<u8>> = (0..size.pow(code.k as u32))
            .map(|index| code.bytes(&code.encoding(1, &list(index, code.k))))
            .collect();
        for index in 0..size.pow(n as u32) {
            let lane = bytes_of(size as u32, &list(index, n));
            let near: Vec<&Vec<u8>> = words
                .iter()
                .filter(|word| word.iter().zip(&lane).filter(|(x, y)| x != y).count() <= (n - code.k) / 2)
                .collect();
            assert!(near.len() <= 1, "{record:?} {lane:?}");
            let mut after = lane.clone();
            let answer = balanced::correct(&record, 1, &mut after);
            assert_eq!(answer.is_ok(), near.len() == 1, "{record:?} {lane:?}");
            assert_eq!(&after, near.first().copied().unwrap_or(&lane), "{record:?} {lane:?}");
            compare::correct(&record, 1, &lane);
            lanes += 1;
        }
    }
    println!("{lanes} lanes of small codes, each beside every word");
}

/// Long blocks with a few lanes that are no words, at the first, the last and other places.
#[test]
fn long_blocks() {
    let mut random = Random::new(61);
    let all = shapes(255);
    for (n, k, lanes) in [
        (255, 120, 4096),
        (255, 254, 300),
        (85, 40, 1000),
        (250, 3, 700),
        (30, 20, 4096),
        (252, 126, 300),
    ] {
        let shape = all.iter().find(|shape| (shape.n, shape.k) == (n, k)).unwrap();
        let record = shape.record(&mut random);
        let code = Code::of(&record).unwrap();
        let shares = encoded(&mut random, shape, &record, lanes);
        let mut damaged = shares.clone();
        let most = (n - k) / 2;
        let n = shape.bytes(n);
        for t in [0, 1, 255, 256, 257, lanes / 2, lanes - 1] {
            spoil(&mut random, &code, &mut damaged[t * n..(t + 1) * n], most);
        }
        assert_eq!(compare::correct(&record, lanes as u32, &damaged), 0);
        // the last lane alone is beyond help: the others stay as they are
        let last = (lanes - 1) * n;
        damaged[last..].copy_from_slice(&shares[last..]);
        while compare::correct(&record, lanes as u32, &damaged) == 0 {
            damaged[last..].copy_from_slice(&shares[last..]);
            spoil(&mut random, &code, &mut damaged[last..], most + 1);
        }
    }
}
