//! Parts of an input made wrong: mostly so that a number is met, and sometimes so that none is.
use crate::random::{Random, Shape};
use crate::reference::{bytes_of, width};

/// A byte of the record is another, or its length is.
pub fn record(random: &mut Random, record: &mut Vec<u8>) {
    let at = random.below(record.len().max(1));
    let byte = match random.below(3) {
        0 => return record.resize(random.below(9), 1),
        1 => random.byte(),
        _ => *random.pick(&[0, 1, 2, 3, 9, 253]),
    };
    record.iter_mut().skip(at).take(1).for_each(|x| *x = byte);
}

/// More lanes than there are, too many, or none.
pub fn lanes(random: &mut Random, lanes: &mut u32) {
    *lanes = *random.pick(&[0, 4097, 65_536, u32::MAX, lanes.saturating_add(1)]);
}

/// A list is longer or shorter.
pub fn length<T: Clone + Default>(random: &mut Random, list: &mut Vec<T>) {
    let len = *random.pick(&[0, list.len() + 1, list.len().saturating_sub(1), 2 * list.len()]);
    list.resize(len, T::default());
}

/// A number is its limit or above.
pub fn range(random: &mut Random, number: &mut u32, limit: u32) {
    *number = *random.pick(&[limit, limit.saturating_add(1), u32::MAX]);
}

/// A node of a list is none, or stands there twice.
pub fn nodes(random: &mut Random, shape: &Shape, nodes: &mut [u8]) {
    if nodes.is_empty() {
        return;
    }
    let (at, other) = (random.below(nodes.len()), nodes[random.below(nodes.len())]);
    nodes[at] = *random.pick(&[shape.n as u8, 255, shape.n as u8 - 1, other, other, other]);
}

/// The least number that is no symbol, where there is one of so many bytes, or the largest, in a place of a buffer.
pub fn no_symbol(random: &mut Random, shape: &Shape, buffer: &mut [u8]) {
    let w = width(shape.size);
    let least = bytes_of(shape.size, &[shape.size as u16]);
    let bad = random.pick(&[least, vec![255; w]]).clone();
    if buffer.len() >= w {
        let at = random.below(buffer.len() / w) * w;
        buffer[at..at + w].copy_from_slice(&bad);
    }
}

/// A place of a buffer holds another symbol.
pub fn symbol(random: &mut Random, shape: &Shape, buffer: &mut [u8]) {
    let w = width(shape.size);
    if buffer.len() >= w {
        let at = random.below(buffer.len() / w) * w;
        buffer[at..at + w].copy_from_slice(&random.buffer(shape.size, 1));
    }
}

/// Whether a call gave each of its numbers often, and no other.
pub fn judge(name: &str, seen: &[usize; 19], numbers: &[usize]) {
    println!("{} calls of {name}, by their number: {seen:?}", seen.iter().sum::<usize>());
    for (number, &count) in seen.iter().enumerate() {
        if numbers.contains(&number) {
            assert!(count >= 100, "{name} gave {number} only {count} times");
        } else {
            assert_eq!(count, 0, "{name} gave {number}");
        }
    }
}
