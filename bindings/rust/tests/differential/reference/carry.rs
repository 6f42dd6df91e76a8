//! Bytes carried in symbols: masks by counting, for every mask, under how many words of the group it makes no symbol.
use super::{Code, Field};

/// The prime, or 0 for bytes.
fn carrier(code: &Code) -> Result<u32, u8> {
    match code.field {
        Field::Bytes { .. } => Ok(0),
        Field::Prime(p) if p >= 34_816 => Ok(p),
        Field::Prime(_) => Err(18),
    }
}

/// The words of a group: of the 65,536 masks each word and the mask itself rule out 65,536 − p, and 4,096 at least are to be left.
fn group_words(p: u32) -> usize {
    (0..256).rev().find(|words| (words + 1) * (65_536 - p) <= 61_440).unwrap() as usize
}

/// From all masks, the half that fewer words rule out, the lower one where they are as many; from that again, until one is left.
pub fn mask_of(p: u32, words: &[u16]) -> u16 {
    let mut counts = vec![0u32; 65_536];
    for word in [0].iter().chain(words) {
        (p..65_536).for_each(|no_symbol| counts[(no_symbol as u16 ^ word) as usize] += 1);
    }
    let mut left = 0..65_536;
    while left.len() > 1 {
        let middle = (left.start + left.end) / 2;
        let ruled_out = |part: std::ops::Range<usize>| counts[part].iter().sum::<u32>();
        let low = ruled_out(left.start..middle) <= ruled_out(middle..left.end);
        left = if low { left.start..middle } else { middle..left.end };
    }
    assert_eq!(counts[left.start], 0, "a mask is left");
    left.start as u16
}

/// How many symbols carry so many bytes.
fn symbols_for(p: u32, bytes: usize) -> usize {
    let words = bytes.div_ceil(2);
    words + words.div_ceil(group_words(p))
}

pub fn carried_len(record: &[u8], bytes: usize) -> Result<usize, u8> {
    let p = carrier(&Code::of(record)?)?;
    if bytes > 1 << 62 {
        return Err(8);
    }
    Ok(if p == 0 { bytes } else { 2 * symbols_for(p, bytes) })
}

pub fn carry_in(record: &[u8], bytes: &[u8], out: usize) -> Result<Vec<u8>, u8> {
    if carried_len(record, bytes.len())? != out {
        return Err(8);
    }
    let p = carrier(&Code::of(record)?)?;
    if p == 0 {
        return Ok(bytes.to_vec());
    }
    let word = |pair: &[u8]| u16::from(pair[0]) << 8 | u16::from(*pair.get(1).unwrap_or(&0));
    let words: Vec<u16> = bytes.chunks(2).map(word).collect();
    let mut symbols = Vec::new();
    for group in words.chunks(group_words(p)) {
        let mask = mask_of(p, group);
        symbols.push(mask);
        symbols.extend(group.iter().map(|word| word ^ mask));
    }
    Ok(symbols.iter().flat_map(|symbol| symbol.to_be_bytes()).collect())
}

pub fn carry_out(record: &[u8], symbols: &[u8], out: usize) -> Result<Vec<u8>, u8> {
    if carried_len(record, out)? != symbols.len() {
        return Err(8);
    }
    let code = Code::of(record)?;
    let p = carrier(&code)?;
    if p == 0 {
        return Ok(symbols.to_vec());
    }
    let symbols = code.symbols(symbols);
    code.symbols_fault(&symbols)?;
    let words = symbols
        .chunks(group_words(p) + 1)
        .flat_map(|group| group[1..].iter().map(|symbol| symbol ^ group[0]));
    let mut bytes: Vec<u8> = words.flat_map(u16::to_be_bytes).collect();
    bytes.truncate(out);
    Ok(bytes)
}

/// Bytes changed one by one in the words; then each group that holds one of them is written, under its mask if that still serves.
pub fn carry_change(record: &[u8], count: usize, at: usize, new: &[u8], symbols: &[u8]) -> Result<Vec<u8>, u8> {
    if carried_len(record, count)? != symbols.len() {
        return Err(8);
    }
    if at.checked_add(new.len()).is_none_or(|end| end > count) {
        return Err(9);
    }
    let code = Code::of(record)?;
    let p = carrier(&code)?;
    if p == 0 {
        let mut after = symbols.to_vec();
        new.iter().zip(at..).for_each(|(&byte, place)| after[place] = byte);
        return Ok(after);
    }
    let mut symbols = code.symbols(symbols);
    code.symbols_fault(&symbols)?;
    let size = group_words(p);
    for (i, group) in symbols.chunks_mut(size + 1).enumerate() {
        let mut words: Vec<u16> = group[1..].iter().map(|symbol| symbol ^ group[0]).collect();
        let mut touched = false;
        for (j, word) in words.iter_mut().enumerate() {
            for half in 0..2 {
                let place = (i * size + j) * 2 + half;
                if (at..at + new.len()).contains(&place) {
                    let mut bytes = word.to_be_bytes();
                    bytes[half] = new[place - at];
                    (*word, touched) = (u16::from_be_bytes(bytes), true);
                }
            }
        }
        if touched {
            let kept = words.iter().all(|word| u32::from(word ^ group[0]) < p);
            let mask = if kept { group[0] } else { mask_of(p, &words) };
            group[0] = mask;
            group[1..]
                .iter_mut()
                .zip(&words)
                .for_each(|(symbol, word)| *symbol = word ^ mask);
        }
    }
    Ok(symbols.iter().flat_map(|symbol| symbol.to_be_bytes()).collect())
}
