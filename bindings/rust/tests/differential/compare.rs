//! One call of the library beside the same call of the reference: the same number, and every lent byte and number the same
//! afterwards. Where the reference gives a number, that is as it was before. Each function gives the number.
use crate::reference::{self, Code};
use balanced::{sys, Error, Finding, Plan};

/// A buffer that the library writes, inside a larger one: a write beside it is found.
pub struct Lent<T> {
    all: Vec<T>,
    start: usize,
    len: usize,
}

impl<T: Copy + PartialEq + From<u8>> Lent<T> {
    const GUARD: usize = 32;
    const MARK: u8 = 0xa7;

    pub fn new(before: &[T]) -> Lent<T> {
        let start = Self::GUARD + before.len() % 16;
        let mut all = vec![T::from(Self::MARK); start + before.len() + Self::GUARD];
        all[start..start + before.len()].copy_from_slice(before);
        Lent {
            all,
            start,
            len: before.len(),
        }
    }

    pub fn slice(&mut self) -> &mut [T] {
        &mut self.all[self.start..self.start + self.len]
    }

    pub fn holds(&self, after: &[T]) -> bool {
        let end = self.start + self.len;
        let beside = self.all[..self.start]
            .iter()
            .chain(&self.all[end..])
            .all(|&x| x == T::from(Self::MARK));
        beside && &self.all[self.start..end] == after
    }
}

pub fn number<T>(result: Result<T, Error>) -> (u8, Option<T>) {
    match result {
        Ok(value) => (0, Some(value)),
        Err(error) => (error.number(), None),
    }
}

pub fn expected<T>(result: Result<T, u8>, before: T) -> (u8, T) {
    match result {
        Ok(value) => (0, value),
        Err(number) => (number, before),
    }
}

/// The plan through the safe interface and through the C function.
pub fn plan(record: &[u8]) -> u8 {
    let got = Plan::new(record);
    let expect = Code::of(record);
    match (&got, &expect) {
        (Ok(plan), Ok(code)) => {
            assert_eq!(
                (plan.n(), plan.k(), plan.d(), plan.low_reads(), plan.high_reads()),
                (code.n, code.k, code.d, code.low, code.high),
                "{record:?}"
            );
            assert_eq!(
                (plan.record(), plan.shifts(), plan.firsts(), plan.base_word()),
                (record, &code.shifts[..], &code.firsts()[..], &code.base[..])
            );
        }
        _ => assert_eq!(
            got.map(|_| ()),
            expect.as_ref().map(|_| ()).map_err(|&f| Error::from_number(f).unwrap()),
            "{record:?}"
        ),
    }
    plan_in(record, 5, 255, 255, 255)
}

/// The plan through the C function, in buffers of these lengths.
pub fn plan_in(record: &[u8], numbers: usize, shifts: usize, firsts: usize, base: usize) -> u8 {
    let before = [vec![1; numbers], vec![2; shifts], vec![3; firsts]];
    let base_before = vec![4; base];
    let number = match Code::of(record) {
        Err(number) => number,
        Ok(_) if (numbers, shifts, firsts, base) != (5, 255, 255, 255) => 8,
        Ok(_) => 0,
    };
    let (after, base_after) = match Code::of(record) {
        Ok(code) if number == 0 => {
            let padded = |list: &[u8]| [list, &vec![0; 255 - list.len()]].concat();
            let parts = [
                [code.n, code.k, code.d, code.low, code.high].map(|x| x as u8).to_vec(),
                padded(&code.shifts),
                padded(&code.firsts()),
            ];
            (parts, [&code.base[..], &vec![0; 255 - code.n]].concat())
        }
        _ => (before.clone(), base_before.clone()),
    };
    let mut lent = before.map(|list| Lent::new(&list));
    let mut base_lent = Lent::new(&base_before);
    let [a, b, c] = &mut lent;
    let (a, b, c, d) = (a.slice(), b.slice(), c.slice(), base_lent.slice());
    let got = unsafe {
        sys::balanced_plan(
            record.as_ptr(),
            record.len(),
            a.as_mut_ptr(),
            a.len(),
            b.as_mut_ptr(),
            b.len(),
            c.as_mut_ptr(),
            c.len(),
            d.as_mut_ptr(),
            d.len(),
        )
    };
    assert_eq!(got, number, "plan of {record:?} in {numbers}, {shifts}, {firsts}, {base}");
    assert!(
        lent.iter().zip(&after).all(|(lent, after)| lent.holds(after)) && base_lent.holds(&base_after),
        "plan of {record:?}"
    );
    number
}

pub fn encode(record: &[u8], lanes: u32, message: &[u8], before: &[u8]) -> u8 {
    let (expect, after) = expected(reference::encode(record, lanes, message, before.len()), before.to_vec());
    let mut shares = Lent::new(before);
    let (got, _) = number(balanced::encode(record, lanes, message, shares.slice()));
    assert_eq!(got, expect, "encode {record:?} {lanes}");
    assert!(shares.holds(&after), "encode {record:?} {lanes}");
    got
}

/// The update through the safe interface and through the C function, whose count is lent.
pub fn update(record: &[u8], lanes: u32, symbol: u32, lane: u32, old: u32, new: u32, before: &[u8]) -> u8 {
    const MARK: u32 = 0x5a5a_5a5a;
    let result = reference::update(record, lanes, symbol, lane, old, new, before);
    let (expect, (after, altered)) = expected(result, (before.to_vec(), MARK));
    let mut shares = Lent::new(before);
    let (got, count) = number(balanced::update(record, lanes, symbol, lane, old, new, shares.slice()));
    assert_eq!(
        (got, count.unwrap_or(MARK)),
        (expect, altered),
        "update {record:?} {lanes} {symbol} {lane} {old} {new}"
    );
    assert!(shares.holds(&after), "update {record:?} {lanes} {symbol} {lane} {old} {new}");

    let mut shares = Lent::new(before);
    let lent = shares.slice();
    let mut count = MARK;
    let got = unsafe {
        sys::balanced_update(
            record.as_ptr(),
            record.len(),
            lanes,
            symbol,
            lane,
            old,
            new,
            lent.as_mut_ptr(),
            lent.len(),
            &mut count,
        )
    };
    assert_eq!(
        (got, count),
        (expect, altered),
        "update {record:?} {lanes} {symbol} {lane} {old} {new}"
    );
    assert!(shares.holds(&after), "update {record:?} {lanes} {symbol} {lane} {old} {new}");
    got
}

pub fn recover(record: &[u8], lanes: u32, nodes: &[u8], shares: &[u8], before: &[u8]) -> u8 {
    let result = reference::recover(record, lanes, nodes, shares, before.len());
    let (expect, after) = expected(result, before.to_vec());
    let mut message = Lent::new(before);
    let (got, _) = number(balanced::recover(record, lanes, nodes, shares, message.slice()));
    assert_eq!(got, expect, "recover {record:?} {lanes} {nodes:?}");
    assert!(message.holds(&after), "recover {record:?} {lanes} {nodes:?}");
    got
}

pub fn rebuild(record: &[u8], lanes: u32, nodes: &[u8], shares: &[u8], target: u32, before: &[u8]) -> u8 {
    let result = reference::rebuild(record, lanes, nodes, shares, target, before.len());
    let (expect, after) = expected(result, before.to_vec());
    let mut share = Lent::new(before);
    let (got, _) = number(balanced::rebuild(record, lanes, nodes, shares, target, share.slice()));
    assert_eq!(got, expect, "rebuild {record:?} {lanes} {nodes:?} {target}");
    assert!(share.holds(&after), "rebuild {record:?} {lanes} {nodes:?} {target}");
    got
}

/// The test through the safe interface and through the C function, whose lane is lent. Gives the number and the lane.
pub fn belongs(record: &[u8], lanes: u32, shares: &[u8]) -> (u8, u32) {
    const MARK: u32 = 0x5a5a_5a5a;
    let (expect, wrong) = expected(reference::belongs(record, lanes, shares), MARK);
    let (got, lane) = number(balanced::belongs(record, lanes, shares));
    assert_eq!(
        (got, lane.map_or(MARK, |lane| lane.unwrap_or(lanes))),
        (expect, wrong),
        "belongs {record:?} {lanes}"
    );
    let mut lane = MARK;
    let got =
        unsafe { sys::balanced_belongs(record.as_ptr(), record.len(), lanes, shares.as_ptr(), shares.len(), &mut lane) };
    assert_eq!((got, lane), (expect, wrong), "belongs {record:?} {lanes}");
    (got, lane)
}

/// Setting right through the safe interface and through the C function, whose count is lent.
pub fn correct(record: &[u8], lanes: u32, before: &[u8]) -> u8 {
    const MARK: u32 = 0x5a5a_5a5a;
    let (expect, (after, altered)) = expected(reference::correct(record, lanes, before), (before.to_vec(), MARK));
    let mut shares = Lent::new(before);
    let (got, count) = number(balanced::correct(record, lanes, shares.slice()));
    assert_eq!((got, count.unwrap_or(MARK)), (expect, altered), "correct {record:?} {lanes}");
    assert!(shares.holds(&after), "correct {record:?} {lanes}");

    let mut shares = Lent::new(before);
    let lent = shares.slice();
    let mut count = MARK;
    let got = unsafe {
        sys::balanced_correct(
            record.as_ptr(),
            record.len(),
            lanes,
            lent.as_mut_ptr(),
            lent.len(),
            &mut count,
        )
    };
    assert_eq!((got, count), (expect, altered), "correct {record:?} {lanes}");
    assert!(shares.holds(&after), "correct {record:?} {lanes}");
    got
}

pub fn to_lanes(record: &[u8], lanes: u32, by_node: &[u8], before: &[u8]) -> u8 {
    let (expect, after) = expected(reference::to_lanes(record, lanes, by_node, before.len()), before.to_vec());
    let mut by_lane = Lent::new(before);
    let (got, _) = number(balanced::to_lanes(record, lanes, by_node, by_lane.slice()));
    assert_eq!(got, expect, "to_lanes {record:?} {lanes}");
    assert!(by_lane.holds(&after), "to_lanes {record:?} {lanes}");
    got
}

pub fn to_nodes(record: &[u8], lanes: u32, by_lane: &[u8], before: &[u8]) -> u8 {
    let (expect, after) = expected(reference::to_nodes(record, lanes, by_lane, before.len()), before.to_vec());
    let mut by_node = Lent::new(before);
    let (got, _) = number(balanced::to_nodes(record, lanes, by_lane, by_node.slice()));
    assert_eq!(got, expect, "to_nodes {record:?} {lanes}");
    assert!(by_node.holds(&after), "to_nodes {record:?} {lanes}");
    got
}

pub fn listed_to_lanes(record: &[u8], lanes: u32, by_node: &[u8], before: &[u8]) -> u8 {
    let result = reference::listed_to_lanes(record, lanes, by_node, before.len());
    let (expect, after) = expected(result, before.to_vec());
    let mut by_lane = Lent::new(before);
    let (got, _) = number(balanced::listed_to_lanes(record, lanes, by_node, by_lane.slice()));
    assert_eq!(got, expect, "listed_to_lanes {record:?} {lanes}");
    assert!(by_lane.holds(&after), "listed_to_lanes {record:?} {lanes}");
    got
}

pub fn listed_to_nodes(record: &[u8], lanes: u32, by_lane: &[u8], before: &[u8]) -> u8 {
    let result = reference::listed_to_nodes(record, lanes, by_lane, before.len());
    let (expect, after) = expected(result, before.to_vec());
    let mut by_node = Lent::new(before);
    let (got, _) = number(balanced::listed_to_nodes(record, lanes, by_lane, by_node.slice()));
    assert_eq!(got, expect, "listed_to_nodes {record:?} {lanes}");
    assert!(by_node.holds(&after), "listed_to_nodes {record:?} {lanes}");
    got
}

/// The counts, inside a larger list: a write beside them is found.
pub fn weights(record: &[u8], before: &[u32]) -> u8 {
    const MARK: u32 = 0x5a5a_5a5a;
    let (expect, after) = expected(reference::weights(record, before.len()), before.to_vec());
    let mut lent = vec![MARK; before.len() + 2];
    let end = before.len() + 1;
    lent[1..end].copy_from_slice(before);
    let (got, _) = number(balanced::weights(record, &mut lent[1..end]));
    assert_eq!(got, expect, "weights {record:?} {}", before.len());
    assert!(
        lent[1..end] == after && lent[0] == MARK && lent[end] == MARK,
        "weights {record:?}"
    );
    got
}

/// The finding through the safe interface and through the C function, whose numbers are lent. Gives the number and the answer.
pub fn find_update(record: &[u8], before: &[u8], after: &[u8]) -> (u8, u32) {
    const MARK: u32 = 0x5a5a_5a5a;
    let (expect, found) = expected(reference::find_update(record, before, after), (MARK, MARK, MARK));
    let (got, finding) = number(balanced::find_update(record, before, after));
    let safe = finding.map_or((MARK, MARK, MARK), |finding| match finding {
        Finding::Unchanged => (0, 0, 0),
        Finding::Added { symbol, amount } => (1, symbol, amount),
        Finding::NoSingleUpdate => (2, 0, 0),
    });
    assert_eq!((got, safe), (expect, found), "find_update {record:?} {before:?} {after:?}");
    let mut lent = (MARK, MARK, MARK);
    let got = unsafe {
        sys::balanced_find_update(
            record.as_ptr(),
            record.len(),
            before.as_ptr(),
            before.len(),
            after.as_ptr(),
            after.len(),
            &mut lent.0,
            &mut lent.1,
            &mut lent.2,
        )
    };
    assert_eq!((got, lent), (expect, found), "find_update {record:?} {before:?} {after:?}");
    (got, found.0)
}

/// The list through the safe interface and through the C function, whose number is lent. Gives the number and the count.
pub fn mends(record: &[u8], lane: &[u8], nodes: &[u8], symbols: &[u8]) -> (u8, u32) {
    const MARK: u32 = 0x5a5a_5a5a;
    let result = reference::mends(record, lane, nodes.len(), symbols.len());
    let (expect, (list, written)) = expected(result, (Vec::new(), Vec::new()));
    let count = if expect == 0 { list.len() as u32 } else { MARK };
    let (mut nodes_after, mut symbols_after) = (nodes.to_vec(), symbols.to_vec());
    nodes_after[..list.len()].copy_from_slice(&list);
    symbols_after[..written.len()].copy_from_slice(&written);
    let (mut nodes_lent, mut symbols_lent) = (Lent::new(nodes), Lent::new(symbols));
    let (got, listed) = number(balanced::mends(record, lane, nodes_lent.slice(), symbols_lent.slice()));
    assert_eq!(
        (got, listed),
        (expect, (expect == 0).then_some(list.len())),
        "mends {record:?} {lane:?}"
    );
    assert!(
        nodes_lent.holds(&nodes_after) && symbols_lent.holds(&symbols_after),
        "mends {record:?} {lane:?}"
    );
    let (mut nodes_lent, mut symbols_lent, mut lent) = (Lent::new(nodes), Lent::new(symbols), MARK);
    let got = unsafe {
        sys::balanced_mends(
            record.as_ptr(),
            record.len(),
            lane.as_ptr(),
            lane.len(),
            nodes_lent.slice().as_mut_ptr(),
            nodes.len(),
            symbols_lent.slice().as_mut_ptr(),
            symbols.len(),
            &mut lent,
        )
    };
    assert_eq!((got, lent), (expect, count), "mends {record:?} {lane:?}");
    assert!(
        nodes_lent.holds(&nodes_after) && symbols_lent.holds(&symbols_after),
        "mends {record:?} {lane:?}"
    );
    (got, list.len() as u32)
}
