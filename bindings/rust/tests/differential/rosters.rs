//! Rosters against their history, and on bytes that did not come from here.
use crate::compare::Lent;
use crate::random::{shapes, Random};
use crate::reference::{Code, Event, History};
use balanced::{sys, Error, Roster};

const UNTOUCHED: u32 = 0x5a5a_5a5a;

fn event(random: &mut Random, n: usize) -> Event {
    let node = match random.below(20) {
        0 => *random.pick(&[n as u32, n as u32 + 1, 254, 255, 256, u32::MAX]),
        _ => random.below(n) as u32,
    };
    if random.below(2) == 0 {
        Event::Leave(node)
    } else {
        Event::Rejoin(node)
    }
}

fn take(roster: &mut Roster, record: &[u8], event: Event) -> u8 {
    let result = match event {
        Event::Leave(node) => roster.leave(record, node),
        Event::Rejoin(node) => roster.rejoin(record, node),
    };
    result.map_or_else(Error::number, |()| 0)
}

/// The query beside the history's answer.
fn query(roster: &Roster, history: &History, list: usize) {
    let before = vec![0xee; list];
    let mut lent = Lent::new(&before);
    let got = roster.lowest(&history.record, lent.slice()).map_err(Error::number);
    let expect = history.lowest(list);
    assert_eq!(got, expect.clone().map(|nodes| nodes.is_some()), "{history:?}");
    let after = expect.ok().flatten().unwrap_or(before);
    assert!(lent.holds(&after), "{history:?}");
}

/// A job beside the history's answer.
fn job(roster: &mut Roster, history: &mut History, list: usize) {
    let before = vec![0xee; list];
    let mut lent = Lent::new(&before);
    let kept = *roster;
    let got = roster.next_job(&history.record, lent.slice()).map_err(Error::number);
    let expect = history.job(list);
    assert_eq!(got, expect.clone().map(|nodes| nodes.is_some()), "{history:?}");
    let nodes = expect.ok().flatten();
    match &nodes {
        Some(_) => history.jobs += 1,
        None => assert!(*roster == kept),
    }
    assert!(lent.holds(&nodes.unwrap_or(before)), "{history:?}");
}

/// Runs of jobs: no present node is read more than once oftener than another, and each has its turn in time.
#[test]
fn turns() {
    let mut random = Random::new(32);
    let mut jobs = 0;
    for shape in shapes(60).iter().step_by(2) {
        let record = shape.record(&mut random);
        let mut roster = Roster::start(&record).unwrap();
        for _ in 0..random.below(shape.n - shape.k + 1) {
            let _ = roster.leave(&record, random.below(shape.n) as u32);
        }
        let present: Vec<usize> = (0..shape.n).filter(|&node| roster.is_present(node)).collect();
        // any job number
        let mut bytes = *roster.as_bytes();
        bytes[255] = random.byte();
        roster = Roster::from_bytes(bytes);
        let wait = present.len().div_ceil(shape.k);
        let (mut counts, mut last) = ([0; 255], [0; 255]);
        let mut list = vec![0; shape.k];
        for job in 1..=3 * present.len() + 2 {
            assert!(roster.next_job(&record, &mut list).unwrap());
            for &node in &list {
                counts[node as usize] += 1;
                last[node as usize] = job;
            }
            let read = present.iter().map(|&node| counts[node]);
            assert!(read.clone().max().unwrap() <= read.clone().min().unwrap() + 1, "{record:?}");
            assert_eq!(read.sum::<usize>(), job * shape.k);
            assert!(
                present.iter().all(|&node| job - last[node] < wait || job < wait),
                "{record:?}"
            );
            assert!((roster.job() as usize) < present.len());
            jobs += 1;
        }
    }
    println!("{jobs} jobs in runs");
}

impl std::fmt::Debug for History {
    fn fmt(&self, f: &mut std::fmt::Formatter<'_>) -> std::fmt::Result {
        write!(f, "{:?} after {} events", self.record, self.events.len())
    }
}

#[test]
fn histories() {
    let mut random = Random::new(30);
    let (mut events, mut seen) = (0, [0; 16]);
    for shape in shapes(16).iter().chain(&shapes(255)[..]).step_by(3) {
        let record = shape.record(&mut random);
        let mut roster = Roster::start(&record).unwrap();
        let mut history = History::new(&record).unwrap();
        let count = if shape.n > 16 { 40 } else { 24 };
        for _ in 0..count {
            query(&roster, &history, shape.k);
            let event = event(&mut random, shape.n);
            let (before, number) = (roster, take(&mut roster, &record, event));
            assert_eq!(number, history.number(event), "{history:?}, {event:?}");
            if number != 0 {
                assert!(roster == before);
            } else {
                assert_eq!(roster.job(), 0);
                history.jobs = 0;
            }
            history.events.push(event);
            for _ in 0..random.below(4) {
                job(&mut roster, &mut history, shape.k);
            }
            seen[number as usize] += 1;
            events += 1;
        }
        for node in 0..255 {
            assert_eq!(roster.is_present(node), node < shape.n && history.present(node as u32));
        }
        query(&roster, &history, shape.k + 1);
        query(&roster, &history, 0);
    }
    println!("{events} events, by their number: {seen:?}");
    assert!(seen[0] > 1000 && seen[9] > 100 && seen[15] > 1000);
}

/// Bytes of any length and with any marks, records that are turned away: the C functions, and every byte afterwards.
#[test]
fn any_bytes() {
    let mut random = Random::new(31);
    let shapes = shapes(16);
    let mut seen = [0; 16];
    for _ in 0..20_000 {
        let shape = random.pick(&shapes);
        let mut record = shape.record(&mut random);
        if random.below(6) == 0 {
            let at = random.below(record.len());
            record[at] = random.byte();
        }
        let len = *random.pick(&[256, 256, 256, 256, 256, 255, 257, 0]);
        let before: Vec<u8> = (0..len).map(|_| *random.pick(&[0, 0, 1, 1, 2, 255])).collect();
        let event = event(&mut random, shape.n);
        let number = match Code::of(&record) {
            Err(number) => number,
            Ok(_) if len != 256 => 8,
            Ok(code) if event.node() as usize >= code.n => 9,
            Ok(_) if (before[event.node() as usize] != 0) == matches!(event, Event::Rejoin(_)) => 15,
            Ok(_) => 0,
        };
        let mut after = before.clone();
        if number == 0 {
            after.iter_mut().for_each(|mark| *mark = (*mark != 0) as u8);
            after[event.node() as usize] ^= 1;
            after[255] = 0;
        }
        let mut lent = Lent::new(&before);
        let bytes = lent.slice();
        let call = match event {
            Event::Leave(_) => sys::balanced_roster_leave,
            Event::Rejoin(_) => sys::balanced_roster_rejoin,
        };
        let got = unsafe { call(record.as_ptr(), record.len(), bytes.as_mut_ptr(), bytes.len(), event.node()) };
        assert_eq!(got, number, "{record:?} {event:?}");
        assert!(lent.holds(&after), "{record:?} {event:?}");
        seen[got as usize] += 1;
        start(&record, &before);
        query_bytes(&mut random, &record, &before, false);
        query_bytes(&mut random, &record, &before, true);
    }
    println!("events on any bytes, by their number: {seen:?}");
    assert!([0, 8, 9, 15].iter().all(|&number| seen[number] > 100));
}

fn start(record: &[u8], before: &[u8]) {
    let mut after = before.to_vec();
    let number = match Code::of(record) {
        Err(number) => number,
        Ok(_) if before.len() != 256 => 8,
        Ok(_) => 0,
    };
    if before.len() == 256 {
        let n = Code::of(record).map_or(0, |code| code.n);
        after = (0..256).map(|j| (j < n) as u8).collect();
    }
    let mut lent = Lent::new(before);
    let bytes = lent.slice();
    let got = unsafe { sys::balanced_roster_start(record.as_ptr(), record.len(), bytes.as_mut_ptr(), bytes.len()) };
    assert_eq!(got, number, "{record:?}");
    assert!(lent.holds(&after), "{record:?}");
}

/// The query, or a job, on these bytes.
fn query_bytes(random: &mut Random, record: &[u8], before: &[u8], job: bool) {
    let code = Code::of(record);
    let k = code.as_ref().map_or(3, |code| code.k);
    let list_before = vec![0xee; *random.pick(&[k, k, k, k + 1, 0])];
    let (mut number, mut enough) = (0, UNTOUCHED);
    let (mut list_after, mut after) = (list_before.clone(), before.to_vec());
    match code {
        Err(fault) => number = fault,
        Ok(_) if before.len() != 256 || list_before.len() != k => number = 8,
        Ok(code) => {
            let nodes: Vec<u8> = (0..code.n).filter(|&j| before[j] != 0).map(|j| j as u8).collect();
            enough = (nodes.len() >= k) as u32;
            if enough == 1 {
                let first = if job { before[255] as usize * k } else { 0 };
                list_after = (0..k).map(|t| nodes[(first + t) % nodes.len()]).collect();
                if job {
                    after.iter_mut().for_each(|mark| *mark = (*mark != 0) as u8);
                    after[255] = ((before[255] as usize + 1) % nodes.len()) as u8;
                }
            }
        }
    }
    let (mut list, mut bytes) = (Lent::new(&list_before), Lent::new(before));
    let mut told = UNTOUCHED;
    let (lent, roster) = (list.slice(), bytes.slice());
    let (record_len, roster_len, lent_len) = (record.len(), roster.len(), lent.len());
    let (record, roster, lent) = (record.as_ptr(), roster.as_mut_ptr(), lent.as_mut_ptr());
    let got = unsafe {
        if job {
            sys::balanced_roster_job(record, record_len, roster, roster_len, lent, lent_len, &mut told)
        } else {
            sys::balanced_roster_lowest(record, record_len, roster, roster_len, lent, lent_len, &mut told)
        }
    };
    assert_eq!((got, told), (number, enough), "{before:?}");
    assert!(list.holds(&list_after) && bytes.holds(&after), "{before:?}");
}
