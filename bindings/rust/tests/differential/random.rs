//! A small generator of pseudo-random numbers (splitmix64), and random inputs. Every test starts from a seed of its own, so
//! that it is the same at each run.
use crate::reference::{bytes_of, is_prime, width, Field};

pub struct Random(u64);

impl Random {
    pub fn new(seed: u64) -> Random {
        Random(seed)
    }

    pub fn next(&mut self) -> u64 {
        self.0 = self.0.wrapping_add(0x9e37_79b9_7f4a_7c15);
        let mut x = self.0;
        x = (x ^ (x >> 30)).wrapping_mul(0xbf58_476d_1ce4_e5b9);
        x = (x ^ (x >> 27)).wrapping_mul(0x94d0_49bb_1331_11eb);
        x ^ (x >> 31)
    }

    /// A number below `bound`.
    pub fn below(&mut self, bound: usize) -> usize {
        (self.next() % bound as u64) as usize
    }

    pub fn byte(&mut self) -> u8 {
        self.next() as u8
    }

    pub fn pick<'a, T>(&mut self, list: &'a [T]) -> &'a T {
        &list[self.below(list.len())]
    }

    /// So many symbols of a field.
    pub fn symbols(&mut self, size: u32, count: usize) -> Vec<u16> {
        (0..count).map(|_| self.below(size as usize) as u16).collect()
    }

    /// A buffer of so many symbols of a field.
    pub fn buffer(&mut self, size: u32, count: usize) -> Vec<u8> {
        bytes_of(size, &self.symbols(size, count))
    }

    /// So many bytes.
    pub fn bytes(&mut self, count: usize) -> Vec<u8> {
        (0..count).map(|_| self.byte()).collect()
    }

    /// k different nodes below n, in a random order.
    pub fn nodes(&mut self, n: usize, k: usize) -> Vec<u8> {
        let mut all: Vec<u8> = (0..n).map(|j| j as u8).collect();
        self.shuffle(&mut all);
        all.truncate(k);
        all
    }

    pub fn shuffle<T>(&mut self, list: &mut [T]) {
        for i in (1..list.len()).rev() {
            list.swap(i, self.below(i + 1));
        }
    }
}

/// A field, a number of nodes and a number of symbols that make a plan, with every root of that order.
pub struct Shape {
    pub kind: Vec<u8>,
    pub size: u32,
    pub n: usize,
    pub k: usize,
    pub roots: Vec<u16>,
}

impl Shape {
    pub fn record(&self, random: &mut Random) -> Vec<u8> {
        self.record_with(*random.pick(&self.roots))
    }

    pub fn record_with(&self, root: u16) -> Vec<u8> {
        let mut record = self.kind.clone();
        record.extend(bytes_of(self.size, &[root]));
        record.extend([self.n as u8, self.k as u8]);
        record
    }

    /// The bytes of so many symbols.
    pub fn bytes(&self, count: usize) -> usize {
        count * width(self.size)
    }
}

/// Primes above a byte: the least, some of which 255, 252 and many small n are orders, and the largest.
const LARGE: [u32; 4] = [257, 1021, 8191, 65_521];

/// Every shape with at most `most` nodes.
pub fn shapes(most: usize) -> Vec<Shape> {
    let mut fields: Vec<(Vec<u8>, Field)> = (3..=251)
        .filter(|&p| is_prime(p))
        .map(|p| (vec![1, p as u8], Field::Prime(p)))
        .collect();
    fields.push((vec![2], Field::bytes()));
    fields.extend(LARGE.map(|p| (vec![3, (p / 256) as u8, p as u8], Field::Prime(p))));
    let mut shapes = Vec::new();
    for (kind, field) in fields {
        let size = field.size();
        for n in (2..=most).filter(|n| (size as usize - 1) % n == 0) {
            let roots = roots_of(&field, n);
            for k in 1..=n {
                shapes.push(Shape {
                    kind: kind.clone(),
                    size,
                    n,
                    k,
                    roots: roots.clone(),
                });
            }
        }
    }
    shapes
}

/// Symbols of order n, the powers a^((q − 1)/n) of that order: all of them where the field has at most 1,024 symbols.
fn roots_of(field: &Field, n: usize) -> Vec<u16> {
    let mut roots: Vec<u16> = (1..field.size().min(1024))
        .map(|a| field.power(a as u16, (field.size() as usize - 1) / n))
        .filter(|&root| field.order(root) == n)
        .collect();
    roots.sort();
    roots.dedup();
    roots
}
