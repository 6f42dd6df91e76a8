//! Bytes over any number of nodes: every n from 2 to 255 there and back, random, constant and adversarial bytes beside the reference, records
//! of every kind, and what turns the calls away.
use crate::compare::{expected, number, Lent};
use crate::damage;
use crate::random::{shapes, Random};
use crate::reference::{self, is_prime, Code, Field};
use balanced::{sys, Error, Plan};

/// The length through the safe interface and through the C function, whose number is lent.
fn carried_len(record: &[u8], bytes: usize) -> u8 {
    const MARK: usize = 0x5a5a_5a5a;
    let (expect, after) = expected(reference::carried_len(record, bytes), MARK);
    let (got, len) = number(balanced::carried_len(record, bytes));
    assert_eq!((got, len.unwrap_or(MARK)), (expect, after), "carried_len {record:?} {bytes}");
    let mut len = MARK;
    let got = unsafe { sys::balanced_carried_len(record.as_ptr(), record.len(), bytes, &mut len) };
    assert_eq!((got, len), (expect, after), "carried_len {record:?} {bytes}");
    got
}

fn carry_in(record: &[u8], bytes: &[u8], before: &[u8]) -> u8 {
    let (expect, after) = expected(reference::carry_in(record, bytes, before.len()), before.to_vec());
    let mut symbols = Lent::new(before);
    let (got, _) = number(balanced::carry_in(record, bytes, symbols.slice()));
    assert_eq!(got, expect, "carry_in {record:?} {}", bytes.len());
    assert!(symbols.holds(&after), "carry_in {record:?} {}", bytes.len());
    got
}

fn carry_out(record: &[u8], symbols: &[u8], before: &[u8]) -> u8 {
    let (expect, after) = expected(reference::carry_out(record, symbols, before.len()), before.to_vec());
    let mut bytes = Lent::new(before);
    let (got, _) = number(balanced::carry_out(record, symbols, bytes.slice()));
    assert_eq!(got, expect, "carry_out {record:?} {}", symbols.len());
    assert!(bytes.holds(&after), "carry_out {record:?} {}", symbols.len());
    got
}

fn carry_change(record: &[u8], count: usize, at: usize, new: &[u8], before: &[u8]) -> u8 {
    let (expect, after) = expected(reference::carry_change(record, count, at, new, before), before.to_vec());
    let mut symbols = Lent::new(before);
    let (got, _) = number(balanced::carry_change(record, count, at, new, symbols.slice()));
    assert_eq!(got, expect, "carry_change {record:?} {count} {at} {}", new.len());
    assert!(symbols.holds(&after), "carry_change {record:?} {count} {at} {}", new.len());
    got
}

/// The prime of a record of kind 3.
fn prime_of(record: &[u8]) -> u32 {
    u32::from(record[1]) * 256 + u32::from(record[2])
}

/// Bytes of each sort: any, all alike, words that are no symbols, words that rule out as many masks as they can.
fn sorts(random: &mut Random, record: &[u8], len: usize) -> Vec<Vec<u8>> {
    let gap = if record[0] == 3 { 65_536 - prime_of(record) } else { 1 };
    let words = |word: &mut dyn FnMut(usize) -> u32| -> Vec<u8> {
        let bytes = (0..len.div_ceil(2)).flat_map(|i| (word(i) as u16).to_be_bytes());
        bytes.take(len).collect()
    };
    let turn = random.next() as u32;
    vec![
        random.bytes(len),
        vec![0; len],
        vec![255; len],
        vec![random.byte(); len],
        words(&mut |_| 65_536 - 1 - random.below(gap as usize) as u32),
        words(&mut |i| i as u32 * gap),
        words(&mut |i| i as u32 * gap ^ turn),
        words(&mut |i| 65_535 - i as u32 % 256),
    ]
}

/// A plan for n and k that carries bytes: bytes as they are where n divides 255, else the largest prime with a root of order n.
fn carrying(n: usize, k: usize) -> Plan {
    if 255 % n == 0 {
        let root = (1..=255).find(|&a| Field::bytes().order(a.into()) == n).unwrap();
        return Plan::new(&[2, root, n as u8, k as u8]).unwrap();
    }
    let p = best_prime(n);
    let field = Field::Prime(p);
    let powers = (2..p).map(|a| field.power(a as u16, (p as usize - 1) / n));
    let root = powers.into_iter().find(|&root| field.order(root) == n).unwrap();
    let record = [&[3][..], &(p as u16).to_be_bytes(), &root.to_be_bytes(), &[n as u8, k as u8]].concat();
    Plan::new(&record).unwrap()
}

/// The prime that carries most bytes for n: the largest that n divides p − 1.
fn best_prime(n: usize) -> u32 {
    (257..65_536)
        .rev()
        .find(|p| (p - 1) as usize % n == 0 && is_prime(*p))
        .unwrap()
}

/// Every n there and back, through carry_in, Encode, Recover from k nodes in any order, and carry_out.
#[test]
fn every_n() {
    let mut random = Random::new(90);
    let mut trips = 0;
    for n in 2..=255 {
        let k = 1 + random.below(n);
        let plan = carrying(n, k);
        let some = 1 + random.below(3000);
        let len = *random.pick(&[1, 2, 509, 510, 511, 512, 1021, some]);
        for bytes in sorts(&mut random, plan.record(), len) {
            let size = plan.carried_len(len).unwrap();
            assert_eq!(carry_in(plan.record(), &bytes, &random.bytes(size)), 0);
            let mut symbols = vec![0; size];
            plan.carry_in(&bytes, &mut symbols).unwrap();
            let lanes = size.div_ceil(plan.message_len(1));
            let mut message = symbols.clone();
            message.resize(plan.message_len(lanes as u32), 0);
            let back = recovered(&mut random, &plan, lanes, &message);
            assert!(back == message);
            assert_eq!(carry_out(plan.record(), &back[..size], &random.bytes(len)), 0);
            let mut read = vec![0; len];
            plan.carry_out(&back[..size], &mut read).unwrap();
            assert!(read == bytes);
            trips += 1;
        }
    }
    println!("{trips} trips of bytes over every number of nodes");
}

/// Every n once more with a change, of one byte and of a part: the bytes that are read afterwards, and how many symbols a byte changes.
#[test]
fn every_n_changed() {
    let mut random = Random::new(96);
    let (mut one, mut anew) = (0, 0);
    for n in 2..=255 {
        let plan = carrying(n, 1);
        let some = 1 + random.below(2000);
        let len = *random.pick(&[1, 2, 509, 510, 511, 512, 1021, some]);
        let sorts = sorts(&mut random, plan.record(), len);
        let mut symbols = vec![0; plan.carried_len(len).unwrap()];
        let mut bytes = random.pick(&sorts).clone();
        plan.carry_in(&bytes, &mut symbols).unwrap();
        for turn in 0..6 {
            let at = random.below(len);
            let count = if turn < 4 { 1 } else { random.below(len - at + 1) };
            let new = random.pick(&sorts)[at..at + count].to_vec();
            assert_eq!(carry_change(plan.record(), len, at, &new, &symbols), 0);
            let before = symbols.clone();
            plan.carry_change(len, at, &new, &mut symbols).unwrap();
            bytes[at..at + count].copy_from_slice(&new);
            let mut back = vec![0; len];
            plan.carry_out(&symbols, &mut back).unwrap();
            assert!(back == bytes);
            let w = plan.symbol_len();
            let changed = before
                .chunks(w)
                .zip(symbols.chunks(w))
                .filter(|(old, new)| old != new)
                .count();
            if count == 1 {
                *if changed < 2 { &mut one } else { &mut anew } += 1;
            }
        }
    }
    assert!(one > 0 && anew > 0, "{one} {anew}");
    println!("a byte changed one symbol or none {one} times, a group {anew} times");
}

/// The message from k random nodes, block by block of at most 4,096 lanes.
fn recovered(random: &mut Random, plan: &Plan, lanes: usize, message: &[u8]) -> Vec<u8> {
    assert!(lanes <= 4096, "{lanes} lanes in one block");
    let w = plan.symbol_len();
    let mut shares = vec![0; plan.shares_len(lanes as u32)];
    plan.encode(lanes as u32, message, &mut shares).unwrap();
    let nodes = random.nodes(plan.n(), plan.k());
    let held = shares
        .chunks(plan.n() * w)
        .flat_map(|lane| nodes.iter().flat_map(move |&j| lane[usize::from(j) * w..][..w].to_vec()));
    let mut back = vec![0; message.len()];
    plan.recover(lanes as u32, &nodes, &held.collect::<Vec<u8>>(), &mut back)
        .unwrap();
    back
}

/// Every prime that carries bytes, near its ends and here and there: lengths around the ends of groups.
#[test]
fn primes() {
    let mut random = Random::new(91);
    let all: Vec<u32> = (34_816..65_536).filter(|&p| is_prime(p)).collect();
    let mut calls = 0;
    for p in all
        .iter()
        .copied()
        .filter(|&p| p < 34_900 || p > 65_200 || p % 41 == 0 || p % 53 == 1)
    {
        let record = [&[3][..], &(p as u16).to_be_bytes(), &((p - 1) as u16).to_be_bytes(), &[2, 1]].concat();
        let words = (61_440 / (65_536 - p)).min(256) as usize - 1;
        for len in [
            0,
            1,
            2,
            2 * words - 1,
            2 * words,
            2 * words + 1,
            2 * words + 2,
            4 * words,
            4 * words + 3,
        ] {
            assert_eq!(carried_len(&record, len), 0);
            let size = balanced::carried_len(&record, len).unwrap();
            assert_eq!(size, 2 * (len.div_ceil(2) + len.div_ceil(2).div_ceil(words)));
            let sorts = sorts(&mut random, &record, len);
            let bytes = random.pick(&sorts);
            assert_eq!(carry_in(&record, bytes, &random.bytes(size)), 0);
            let (mut symbols, mut back) = (vec![0; size], vec![0; len]);
            balanced::carry_in(&record, bytes, &mut symbols).unwrap();
            assert_eq!(carry_out(&record, &symbols, &random.bytes(len)), 0);
            balanced::carry_out(&record, &symbols, &mut back).unwrap();
            assert!(&back == bytes);
            calls += 1;
        }
    }
    println!("{calls} lists of bytes over many primes");
}

/// Any symbols are read, whatever masks stand there, and a word that is changed under its group's mask is read as such.
#[test]
fn any_masks() {
    let mut random = Random::new(92);
    for n in [2, 6, 7, 12, 100, 254] {
        let plan = carrying(n, 1);
        let size = Code::of(plan.record()).unwrap().field.size();
        let len = 1 + random.below(2000);
        let symbols = random.buffer(size, plan.carried_len(len).unwrap() / 2);
        assert_eq!(carry_out(plan.record(), &symbols, &random.bytes(len)), 0);
    }
}

/// Long lists of bytes, of every sort.
#[test]
fn long_lists() {
    let mut random = Random::new(93);
    for n in [6, 12, 253] {
        let plan = carrying(n, n - 1);
        let len = 40_000 + random.below(3);
        for bytes in sorts(&mut random, plan.record(), len) {
            let size = plan.carried_len(len).unwrap();
            assert_eq!(carry_in(plan.record(), &bytes, &vec![0; size]), 0);
            let (mut symbols, mut back) = (vec![0; size], vec![0; len]);
            plan.carry_in(&bytes, &mut symbols).unwrap();
            plan.carry_out(&symbols, &mut back).unwrap();
            assert!(back == bytes);
        }
    }
}

/// Every n and k has a record, of these n and k, that carries bytes; others have none.
#[test]
fn chosen() {
    for n in 2..=255 {
        for k in 1..=n {
            let mut record = Lent::new(&[0xee; 7]);
            let len = balanced::choose(n as u32, k as u32, record.slice()).unwrap();
            let written = record.slice()[..len].to_vec();
            let mut after = [&written[..], &[0xee; 7]].concat();
            after.truncate(7);
            assert!(record.holds(&after));
            assert_eq!(&written[len - 2..], [n as u8, k as u8]);
            if k == 1 || k % 50 == 0 || k == n {
                let code = Code::of(&written).unwrap();
                assert_eq!((code.n, code.k), (n, k));
                match code.field {
                    Field::Bytes { .. } => assert_eq!((255 % n, len), (0, 4)),
                    Field::Prime(p) => assert_eq!((255 % n == 0, len, p), (false, 7, best_prime(n))),
                }
            }
        }
    }
    let mut random = Random::new(94);
    let mut seen = [0; 19];
    for _ in 0..20_000 {
        let (n, k) = (random.below(258) as u32, random.below(258) as u32);
        let huge = [n, k, n + 256, k + 65_536, u32::MAX];
        let [n, k] = [
            *random.pick(&[n, n, n, huge[0], huge[2], huge[4]]),
            *random.pick(&[k, k, k, k % 3, huge[3], huge[4]]),
        ];
        let before = vec![0xee; *random.pick(&[7, 7, 7, 7, 0, 4, 6, 8])];
        let expect = if !(2..=255).contains(&n) || k == 0 || k > n {
            4
        } else if before.len() != 7 {
            8
        } else {
            0
        };
        let (mut record, mut len) = (Lent::new(&before), 0x5a5a_5a5a);
        let got = unsafe { sys::balanced_choose(n, k, record.slice().as_mut_ptr(), before.len(), &mut len) };
        assert_eq!(got, expect, "choose {n} {k} {}", before.len());
        assert!(
            got == 0 || len == 0x5a5a_5a5a && record.holds(&before),
            "choose {n} {k} {}",
            before.len()
        );
        seen[got as usize] += 1;
    }
    damage::judge("choose", &seen, &[0, 4, 8]);
    assert_eq!(Plan::choose(256, 1), Err(Error::Size));
}

#[test]
fn damaged() {
    let mut random = Random::new(95);
    let (shapes, carriers): (_, Vec<Plan>) = (shapes(20), (2..22).map(|n| carrying(n, 1)).collect());
    let mut seen = [[0; 19]; 4];
    for _ in 0..20_000 {
        // records of every kind, most of which carry no bytes
        let shape = random.pick(&shapes);
        let mut record = match random.below(3) {
            0 => shape.record(&mut random),
            _ => random.pick(&carriers).record().to_vec(),
        };
        let mut len = random.below(700);
        let mut bytes = random.bytes(len);
        let mut symbols = vec![0; balanced::carried_len(&record, len).unwrap_or(len)];
        let _ = balanced::carry_in(&record, &bytes, &mut symbols);
        for _ in 0..random.below(3) {
            match random.below(5) {
                0 => damage::record(&mut random, &mut record),
                1 => damage::length(&mut random, &mut bytes),
                2 => damage::length(&mut random, &mut symbols),
                3 => len = *random.pick(&[usize::MAX, 1 << 62, (1 << 62) + 1, (1 << 63) - 1]),
                _ => damage::no_symbol(&mut random, shape, &mut symbols),
            }
        }
        seen[0][carried_len(&record, len) as usize] += 1;
        seen[1][carry_in(&record, &bytes, &symbols) as usize] += 1;
        seen[2][carry_out(&record, &symbols, &bytes) as usize] += 1;
        let (near, few, many) = (random.below(700), random.below(9), random.below(900));
        let at = *random.pick(&[0, 0, near, len, usize::MAX]);
        let count = *random.pick(&[0, 1, few, many]);
        let new = random.bytes(count);
        seen[3][carry_change(&record, len, at, &new, &symbols) as usize] += 1;
    }
    damage::judge("carried_len", &seen[0], &[0, 1, 2, 3, 4, 5, 8, 18]);
    damage::judge("carry_in", &seen[1], &[0, 1, 2, 3, 4, 5, 8, 18]);
    damage::judge("carry_out", &seen[2], &[0, 1, 2, 3, 4, 5, 8, 11, 18]);
    damage::judge("carry_change", &seen[3], &[0, 1, 2, 3, 4, 5, 8, 9, 11, 18]);
}

/// A mask of the reference serves, and is the one that the words leave: tried by hand.
#[test]
fn masks() {
    assert_eq!(reference::mask_of(65_521, &[1, 2, 3]), 0);
    let no_symbols: Vec<u16> = (65_521..=65_535).map(|x| x as u16).collect();
    let mask = reference::mask_of(65_521, &no_symbols);
    assert!(no_symbols.iter().all(|word| word ^ mask < 65_521) && mask < 65_521);
}
