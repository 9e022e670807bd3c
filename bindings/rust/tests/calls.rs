//! What the tables of cborn's tests don't reach of this crate. Expected values come from RFC 8949 and docs/FORMATS.md.

use cborn::{
    check, check_one, compare, compare_one, items, normalise, normalise_one, same, show, show_one, version, CompareFault, Depth,
    Fault, Kind, Options, Order, Reason,
};

const LOOSE: [u8; 7] = [0x98, 2, 0x18, 1, 0x58, 1, 0x61];
const TIGHT: [u8; 4] = [0x82, 1, 0x41, 0x61];
const TWICE: [u8; 7] = [0xa2, 1, 0, 0xc2, 0x41, 1, 0];

#[test]
fn normalises_with_each_option() {
    assert_eq!(normalise(&LOOSE, Options::default()).unwrap(), TIGHT);
    let notation = b"{'b': 1, -1: 2, } # two";
    let options = Options::default().with_from(Kind::Notation2).with_order(Order::LengthFirst);
    let wire = normalise(notation, options).unwrap();
    assert_eq!(wire, [0xa2, 0x20, 2, 0x41, 0x62, 1]);
    let options = Options::default().with_to(Kind::Notation);
    assert_eq!(normalise(&wire, options).unwrap(), b"{-1: 2, h'62': 1}\n");
    let mut options = Options::default();
    options.depth = Depth::new(1).unwrap();
    assert_eq!(options, Options::default().with_depth(options.depth));
    assert!(normalise(&[0x81, 0x80], options).is_err());
    assert_eq!(normalise(&[], Options::default()).unwrap(), []);
}

#[test]
fn an_answer_may_be_longer_than_its_input() {
    let mut long = vec![0x9f];
    long.resize(70_001, 0);
    long.push(0xff);
    let answer = normalise(&long, Options::default()).unwrap();
    assert_eq!(answer[..5], [0x9a, 0, 1, 0x11, 0x70]);
    assert_eq!(answer.len(), 70_005);
    let text = show(&[0x41, 0].repeat(5000), Kind::Wire, Kind::Notation, Depth::default()).unwrap();
    assert_eq!(text.len(), 5000 * "h'00',\n".len() - 1);
}

#[test]
fn shows_there_and_back() {
    let text = show(&LOOSE, Kind::Wire, Kind::Notation, Depth::default()).unwrap();
    assert_eq!(text, b"[_0 1_0, h'61'_0]\n");
    assert_eq!(show(&text, Kind::Notation, Kind::Wire, Depth::default()).unwrap(), LOOSE);
}

#[test]
fn checks() {
    assert_eq!(check(&TIGHT, Order::Bytewise, Depth::default()), Ok(None));
    let defect = check(&[1, 0x18, 1], Order::Bytewise, Depth::default()).unwrap().unwrap();
    assert_eq!((defect.place, defect.reason), (1, Reason::DefectLongHead));
    assert_eq!(defect.to_string(), "offset 1: long head");
}

#[test]
fn compares() {
    let compared = |a: &[u8], b: &[u8]| compare(a, Kind::Wire, b, Kind::Wire, Depth::default());
    assert_eq!(compared(&LOOSE, &TIGHT), Ok(None));
    assert_eq!(compared(&[1, 2], &[1, 3]), Ok(Some(1)));
    let why = compared(&TIGHT, &TWICE).unwrap_err();
    assert!(matches!(why, CompareFault::Second(Fault::Refused { place: 3, .. })));
    assert_eq!(why.to_string(), "second: offset 3: duplicate key");
    assert!(matches!(compared(&TWICE, &[0xff]), Err(CompareFault::First(Fault::Refused { place: 3, .. }))));
    let notation = compare(b"[1, 'a']", Kind::Notation, &LOOSE, Kind::Wire, Depth::default());
    assert_eq!(notation, Ok(None));
}

#[test]
fn tells_the_same() {
    let depth = Depth::default();
    assert_eq!(same(b"[1, 'a']", Kind::Notation, &LOOSE, Kind::Wire, depth), Ok(true));
    assert_eq!(same(&[1, 2], Kind::Wire, &[1, 3], Kind::Wire, depth), Ok(false));
    let why = same(&TIGHT, Kind::Wire, &TWICE, Kind::Wire, depth).unwrap_err();
    assert_eq!(why.to_string(), "second: offset 3: duplicate key");
}

#[test]
fn a_fault_has_a_reason_and_a_place() {
    match normalise(&TWICE, Options::default()) {
        Err(Fault::Refused { reason, place }) => {
            assert_eq!((reason, place), (Reason::InvalidDuplicateKey, 3));
            assert_eq!((reason.number(), reason.words()), (0x503, "duplicate key"));
            assert_eq!(reason.to_string(), "duplicate key");
        }
        other => panic!("{other:?}"),
    }
}

#[test]
fn a_fault_explains_itself() {
    let depth = Depth::default();
    let why = normalise(&TWICE, Options::default()).unwrap_err();
    let lines = why.explain(&TWICE, Kind::Wire, depth).unwrap();
    assert!(lines.starts_with("  path  item 0 {key #1}\n  bytes a2 01 00 >c2< 41 01 00\n  why   "), "{lines}");
    let text = b"1, # one\nh'0g'";
    let why = show(text, Kind::Notation2, Kind::Wire, depth).unwrap_err();
    let lines = why.explain(text, Kind::Notation2, depth).unwrap();
    assert!(lines.starts_with("  path  item 1\n  line  2:4\n"), "{lines}");
    // no input of bytes has a bad digit, and a length is no place
    assert_eq!(why.explain(text, Kind::Wire, depth), None);
    assert_eq!(Fault::TooLong.explain(text, Kind::Wire, depth), None);
    let loose = [0x81, 0x18, 1];
    let defect = check(&loose, Order::Bytewise, depth).unwrap().unwrap();
    let lines = defect.explain(&loose, depth).unwrap();
    assert!(lines.starts_with("  path  item 0 [0]\n  bytes 81 >18< 01\n"), "{lines}");
}

#[test]
fn limits_are_from_1_to_1024() {
    assert!(Depth::new(0).is_none() && Depth::new(1025).is_none());
    assert!(Depth::new(1).unwrap().stack() < Depth::new(1024).unwrap().stack());
}

#[test]
fn library_and_crate_are_of_one_version() {
    let (major, minor, patch) = version();
    let of_crate = env!("CARGO_PKG_VERSION").trim_end_matches("-dev");
    assert_eq!(format!("{major}.{minor}.{patch}"), of_crate);
}

#[test]
fn threads_with_the_stack_that_is_asked_for_answer_alike() {
    let depth = Depth::default();
    let nest: Vec<u8> = [0xa1, 0].repeat(128).into_iter().chain([0]).collect();
    let threads: Vec<_> = (0..8)
        .map(|_| {
            let nest = nest.clone();
            std::thread::Builder::new()
                .stack_size(depth.stack() + 64 * 1024)
                .spawn(move || normalise(&nest, Options::default()).unwrap() == nest)
                .unwrap()
        })
        .collect();
    assert!(threads.into_iter().all(|thread| thread.join().unwrap()));
}

#[test]
fn wants_exactly_one_item() {
    let none = Fault::Refused { reason: Reason::NoItem, place: 0 };
    let more = Fault::Refused { reason: Reason::MoreItems, place: 2 };
    let depth = Depth::default();
    assert_eq!(normalise_one(&LOOSE, Options::default()).unwrap(), TIGHT);
    assert_eq!(normalise_one(&[], Options::default()), Err(none));
    assert_eq!(normalise_one(&[0x18, 1, 2], Options::default()), Err(more));
    assert_eq!(show_one(&LOOSE, Kind::Wire, Kind::Notation, depth).unwrap(), b"[_0 1_0, h'61'_0]\n");
    assert_eq!(show_one(&[], Kind::Wire, Kind::Wire, depth), Err(none));
    let text = Fault::Refused { reason: Reason::MoreItems, place: 3 };
    assert_eq!(show_one(b"1, 2", Kind::Notation, Kind::Wire, depth), Err(text));
    assert_eq!(check_one(&TIGHT, Order::Bytewise, depth), Ok(None));
    assert_eq!(check_one(&[], Order::Bytewise, depth), Err(none));
    assert_eq!(check_one(&[0x18, 1, 2], Order::Bytewise, depth), Err(more));
    assert_eq!(compare_one(&LOOSE, Kind::Wire, b"[1, 'a']", Kind::Notation, depth), Ok(true));
    assert_eq!(compare_one(&[1], Kind::Wire, &[2], Kind::Wire, depth), Ok(false));
    assert_eq!(compare_one(&[], Kind::Wire, &[], Kind::Wire, depth), Err(CompareFault::First(none)));
    assert_eq!(compare_one(&[1], Kind::Wire, &[], Kind::Wire, depth), Err(CompareFault::Second(none)));
}

#[test]
fn gives_the_items_of_a_sequence() {
    // the integers, the string, the array, the map, the tag, the strings of indefinite length and the nest of appendix A
    let examples: [&[u8]; 10] = [
        &[0x00],
        &[0x1a, 0x00, 0x0f, 0x42, 0x40],
        &[0x64, 0x49, 0x45, 0x54, 0x46],
        &[0x83, 0x01, 0x82, 0x02, 0x03, 0x82, 0x04, 0x05],
        &[0xa2, 0x01, 0x02, 0x03, 0x04],
        &[0xc1, 0x1a, 0x51, 0x4b, 0x67, 0xb0],
        &[0x5f, 0x42, 0x01, 0x02, 0x43, 0x03, 0x04, 0x05, 0xff],
        &[0x9f, 0xff],
        &[0xbf, 0x61, 0x61, 0x01, 0x61, 0x62, 0x9f, 0x02, 0x03, 0xff, 0xff],
        &[0xf6],
    ];
    let sequence = examples.concat();
    let depth = Depth::default();
    assert!(items(&sequence, depth).map(Result::unwrap).eq(examples));
    assert_eq!(items(&[], depth).count(), 0);
    // of what is cut the items before it are given, then the fault at the end of the input, and then nothing
    let mut cut = items(&sequence[..12], depth);
    assert!(cut.by_ref().take(3).map(Result::unwrap).eq(examples[..3].iter().copied()));
    assert_eq!(cut.next(), Some(Err(Fault::Refused { reason: Reason::Truncated, place: 12 })));
    assert_eq!(cut.next(), None);
    // a break ends no item here, and a map with equal keys is well-formed
    let mut broken = items(&[0xa2, 1, 0, 1, 0, 0xff], depth);
    assert_eq!(broken.next(), Some(Ok(&[0xa2, 1, 0, 1, 0][..])));
    assert_eq!(broken.next(), Some(Err(Fault::Refused { reason: Reason::UnexpectedBreak, place: 5 })));
    let deep = Fault::Refused { reason: Reason::TooDeep, place: 2 };
    assert_eq!(items(&[0, 0x81, 0x80], Depth::new(1).unwrap()).last(), Some(Err(deep)));
}
