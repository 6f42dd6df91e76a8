//! Changes of one symbol in many lanes: entry by entry, and lane by lane through the update of one lane.
use super::{update, Code};

/// What each node adds, node after node.
pub fn differences(record: &[u8], lanes: u32, symbol: u32, old: &[u8], new: &[u8], out: usize) -> Result<Vec<u8>, u8> {
    let code = Code::of(record)?;
    let l = Code::lanes_fault(lanes)?;
    if old.len() != code.size(l) || new.len() != code.size(l) || out != code.size(code.n * l) {
        return Err(8);
    }
    if symbol as usize >= code.k {
        return Err(9);
    }
    let (old, new) = (code.symbols(old), code.symbols(new));
    code.symbols_fault(&old)?;
    code.symbols_fault(&new)?;
    let f = &code.field;
    let mut added = Vec::new();
    for j in 0..code.n {
        let entry = code.entry(symbol as usize, j);
        added.extend((0..l).map(|t| f.sub(f.mul(entry, new[t]), f.mul(entry, old[t]))));
    }
    Ok(code.bytes(&added))
}

/// The share with the difference added.
pub fn add_share(record: &[u8], lanes: u32, difference: &[u8], share: &[u8]) -> Result<Vec<u8>, u8> {
    let code = Code::of(record)?;
    let l = Code::lanes_fault(lanes)?;
    if difference.len() != code.size(l) || share.len() != code.size(l) {
        return Err(8);
    }
    let (difference, share) = (code.symbols(difference), code.symbols(share));
    code.symbols_fault(&difference)?;
    code.symbols_fault(&share)?;
    let sums: Vec<u16> = share.iter().zip(&difference).map(|(&x, &y)| code.field.add(x, y)).collect();
    Ok(code.bytes(&sums))
}

/// Each lane's update by itself, on shares that no other one has changed: the number of the first lane that meets one, where all hold symbols, or all of them.
pub fn update_lanes(
    record: &[u8],
    lanes: u32,
    symbol: u32,
    first: u32,
    old: &[u8],
    new: &[u8],
    shares: &[u8],
) -> Result<(Vec<u8>, u32), u8> {
    let code = Code::of(record)?;
    let l = Code::lanes_fault(lanes)?;
    if old.len() != new.len() || old.len() % code.size(1) != 0 || shares.len() != code.size(code.n * l) {
        return Err(8);
    }
    let run = (old.len() / code.size(1)) as u64;
    if symbol as usize >= code.k || u64::from(first) + run > u64::from(lanes) {
        return Err(9);
    }
    let (old, new) = (code.symbols(old), code.symbols(new));
    let part = code.size(code.n);
    let (mut after, mut altered, mut refused) = (shares.to_vec(), 0, Vec::new());
    for (i, (&old, &new)) in old.iter().zip(&new).enumerate() {
        let lane = first as usize + i;
        match update(record, lanes, symbol, lane as u32, old.into(), new.into(), shares) {
            Err(number) => refused.push(number),
            Ok((one, count)) => {
                after[lane * part..(lane + 1) * part].copy_from_slice(&one[lane * part..(lane + 1) * part]);
                altered += count;
            }
        }
    }
    if refused.contains(&11) {
        return Err(11);
    }
    refused.first().map_or(Ok((after, altered)), |&number| Err(number))
}
