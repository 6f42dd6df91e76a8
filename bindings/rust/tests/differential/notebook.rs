//! The notebook's cases, through the interface.
use balanced::{Error, Plan};

/// The rows of the generator.
fn rows(record: &[u8]) -> Vec<Vec<u16>> {
    let plan = Plan::new(record).unwrap();
    (0..plan.k())
        .map(|r| (0..plan.n()).map(|j| plan.entry(r, j)).collect())
        .collect()
}

#[test]
fn plans() {
    let plan = Plan::new(&[1, 7, 3, 6, 4]).unwrap();
    assert_eq!((plan.n(), plan.k(), plan.d()), (6, 4, 3));
    assert_eq!((plan.low_reads(), plan.high_reads()), (2, 2));
    assert_eq!(plan.shifts(), [0, 1, 3, 4]);
    assert_eq!(plan.firsts(), [0, 5, 3, 2]);
    let expect = [[4, 6, 3, 0, 0, 0], [6, 3, 0, 0, 0, 4], [0, 0, 0, 4, 6, 3], [0, 0, 4, 6, 3, 0]];
    assert_eq!(rows(&[1, 7, 3, 6, 4]), expect);
    assert_eq!(
        rows(&[1, 7, 3, 6, 3]),
        [[6, 1, 3, 1, 0, 0], [3, 1, 0, 0, 6, 1], [0, 0, 6, 1, 3, 1]]
    );
    assert_eq!(rows(&[1, 7, 3, 6, 1]), [[1; 6]]);
    assert_eq!(rows(&[2, 214, 3, 3]), [[214, 0, 0], [0, 0, 214], [0, 214, 0]]);
    let is_even = |k: u8| {
        let plan = Plan::new(&[2, 2, 255, k]).unwrap();
        plan.low_reads() == plan.high_reads()
    };
    let even: Vec<u8> = (1..=255).filter(|&k| is_even(k)).collect();
    assert_eq!(even, [1, 51, 85, 120, 136, 171, 205, 255]);
    let plan = Plan::new(&[2, 2, 255, 120]).unwrap();
    assert_eq!((plan.d(), plan.low_reads(), plan.high_reads()), (136, 64, 64));
}

#[test]
fn uneven_plans() {
    let plan = Plan::new(&[1, 7, 3, 6, 5]).unwrap();
    assert_eq!((plan.d(), plan.low_reads(), plan.high_reads()), (2, 1, 2));
    assert_eq!(plan.shifts(), [0, 4, 2, 5, 3]);
    assert_eq!(plan.firsts(), [0, 2, 4, 1, 3]);
    assert_eq!(
        rows(&[1, 7, 3, 6, 5]),
        [
            [2, 4, 0, 0, 0, 0],
            [0, 0, 2, 4, 0, 0],
            [0, 0, 0, 0, 2, 4],
            [0, 2, 4, 0, 0, 0],
            [0, 0, 0, 2, 4, 0]
        ]
    );
    let weight = |j: usize| (0..5).filter(|&r| plan.entry(r, j) != 0).count();
    assert_eq!([0, 1, 2, 3, 4, 5].map(weight), [1, 2, 2, 2, 2, 1]);
    assert_eq!(rows(&[1, 7, 3, 6, 2]), [[2, 1, 5, 3, 4, 0], [1, 5, 3, 4, 0, 2]]);
}

#[test]
fn records_turned_away() {
    let error = |record: &[u8]| Plan::new(record).unwrap_err();
    assert_eq!(error(&[]), Error::Kind);
    assert_eq!(error(&[4, 7, 3, 6, 3]), Error::Kind);
    assert_eq!(error(&[3, 7, 3, 6, 3]), Error::Body);
    assert_eq!(error(&[3, 1, 3, 0, 16, 4, 2]), Error::Field);
    assert_eq!(error(&[3, 1, 1, 0, 16, 8, 2]), Error::Root);
    assert_eq!(error(&[1, 7, 3, 6, 4, 0]), Error::Body);
    assert_eq!(error(&[2, 2, 255]), Error::Body);
    assert!(Plan::new(&[1, 251, 6, 250, 1]).is_ok());
    for p in [2, 9, 253] {
        assert_eq!(error(&[1, p, 1, 6, 3]), Error::Field);
    }
    assert_eq!(error(&[1, 7, 3, 6, 0]), Error::Size);
    assert_eq!(error(&[1, 7, 3, 6, 7]), Error::Size);
    assert_eq!(error(&[1, 7, 2, 6, 3]), Error::Root);
}

#[test]
fn blocks() {
    let mut shares = [0; 6];
    balanced::encode(&[1, 7, 3, 6, 4], 1, &[1, 1, 0, 0], &mut shares).unwrap();
    assert_eq!(shares, [3, 2, 3, 0, 0, 4]);

    // the smallest and the largest number of lanes, and those beside them
    let plan = Plan::new(&[1, 7, 3, 6, 3]).unwrap();
    for (lanes, expect) in [(0, Err(Error::Lanes)), (1, Ok(())), (4096, Ok(())), (4097, Err(Error::Lanes))] {
        let message = vec![1; plan.message_len(lanes)];
        let mut shares = vec![0; plan.shares_len(lanes)];
        assert_eq!(plan.encode(lanes, &message, &mut shares), expect);
    }

    // equal symbols alter nothing
    let mut shares = [6, 1, 1, 3, 6, 2];
    assert_eq!(plan.update(1, 1, 0, 0, 0, &mut shares), Ok(0));
    assert_eq!(shares, [6, 1, 1, 3, 6, 2]);

    // a lane that is no word, and a message that holds another symbol: also with equal symbols, and nothing is altered
    assert_eq!(plan.update(1, 1, 0, 4, 4, &mut shares), Err(Error::Stale));
    assert_eq!(plan.update(1, 1, 0, 4, 5, &mut shares), Err(Error::Stale));
    assert_eq!(shares, [6, 1, 1, 3, 6, 2]);
    let mut spoiled = [6, 1, 1, 3, 6, 3];
    assert_eq!(plan.update(1, 1, 0, 0, 0, &mut spoiled), Err(Error::Word));
    assert_eq!(plan.update(1, 1, 0, 4, 5, &mut spoiled), Err(Error::Word));
    assert_eq!(spoiled, [6, 1, 1, 3, 6, 3]);

    // the same update twice: the second one is stale
    assert_eq!(plan.update(1, 1, 0, 0, 5, &mut shares), Ok(4));
    assert_eq!(plan.update(1, 1, 0, 0, 5, &mut shares), Err(Error::Stale));
    assert_eq!(shares, [0, 6, 1, 3, 1, 0]);
}

#[test]
fn numbers_and_names() {
    let names: Vec<(u8, &str)> = Error::ALL.iter().map(|error| (error.number(), error.name())).collect();
    let expect = [
        (1, "kind"),
        (2, "body"),
        (3, "field"),
        (4, "size"),
        (5, "root"),
        (6, "uneven"),
        (7, "lanes"),
        (8, "length"),
        (9, "range"),
        (10, "twice"),
        (11, "symbol"),
        (12, "word"),
        (13, "stale"),
        (14, "far"),
        (15, "already"),
        (16, "many"),
        (17, "traces"),
        (18, "carry"),
    ];
    assert_eq!(names, expect);
    for error in Error::ALL {
        assert_eq!(Error::from_number(error.number()), Some(error));
    }
    assert_eq!((Error::from_number(0), Error::from_number(255)), (None, None));
    assert_eq!(Error::Twice.to_string(), "twice (10): a node stands twice in a list");
}
