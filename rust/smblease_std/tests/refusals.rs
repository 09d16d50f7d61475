//! Each growth of each collection refused in turn: the call says so, what it was given comes back, and what was held is held.
use smblease_std::alloc::{AllocError, AllocFailed, Global};
use smblease_std::collections::{BTreeMap, BTreeSet, VecDeque};
use smblease_std::ports::bytes::Bytes;
use smblease_std::ports::hex;
use smblease_std::prelude::{Box, String, Vec};
use smblease_std::refusing::{Refusing, without};
use smblease_std::test::{Fail, passes};

#[global_allocator]
static REFUSING: Refusing = Refusing;

// What the call gives where so many growths are granted.
fn with<T>(granted: usize, call: impl FnOnce() -> T) -> T {
    without(granted + 1..=usize::MAX, call)
}

// Makes the call with no growth granted, with one, and so on until it succeeds; gives how many it needs.
fn growths(call: impl Fn() -> Result<(), AllocError>) -> usize {
    (0..10_000).find(|granted| with(*granted, &call).is_ok()).expect("it succeeds at some time")
}

#[test]
fn vectors() {
    let mut items = Vec::from_slice(Global, &[1, 2, 3]).expect("there is memory");
    assert_eq!(with(0, || items.push(4)), Err(AllocFailed { value: 4 }));
    assert_eq!(with(0, || items.insert(1, 4)), Err(AllocFailed { value: 4 }));
    assert_eq!(with(0, || items.extend_from_slice(&[4, 5])), Err(AllocError));
    assert_eq!(with(0, || items.resize(9, 0)), Err(AllocError));
    let mut others = Vec::from_array(Global, [4]).expect("there is memory");
    assert_eq!(with(0, || items.append(&mut others)), Err(AllocError));
    assert_eq!((items.as_slice(), others.as_slice()), (&[1, 2, 3][..], &[4][..]));
    assert_eq!(with(0, || items.clone()), Err(AllocError));
    assert_eq!(with(0, || items.resize(2, 0)), Ok(()));
    assert_eq!(growths(|| Vec::from_elem(Global, 7, 3).map(drop)), 1);
}

#[test]
fn sorts() {
    let mut items = Vec::from_slice(Global, &[(2, 'a'), (1, 'b'), (2, 'c'), (1, 'd'), (0, 'e')]).expect("there is memory");
    assert_eq!(with(0, || items.sort_by_key(|(number, _)| *number)), Err(AllocError));
    assert_eq!(items[0], (2, 'a'));
    assert_eq!(with(1, || items.sort_by_key(|(number, _)| *number)), Ok(()));
    assert_eq!(items.as_slice(), [(0, 'e'), (1, 'b'), (1, 'd'), (2, 'a'), (2, 'c')]);
    assert_eq!(with(1, || items.sort()), Ok(()));
}

#[test]
fn sorts_as_rusts_own_does() {
    let mut state = 7_u64;
    for count in 0..200 {
        let draw = |place: u64| {
            state = state.wrapping_mul(6_364_136_223_846_793_005).wrapping_add(1_442_695_040_888_963_407);
            ((state >> 40) % 20, place)
        };
        let mut rusts: std::vec::Vec<_> = (0..count).map(draw).collect();
        let mut items = Vec::from(rusts.clone());
        rusts.sort_by_key(|(number, _)| *number);
        items.sort_by_key(|(number, _)| *number).expect("there is memory");
        assert_eq!(items.as_slice(), rusts);
    }
}

#[test]
fn texts() {
    let mut text = String::from_str(Global, "abc").expect("there is memory");
    assert_eq!(with(0, || text.push_str("defghijklmnopqrstuvwxyz")), Err(AllocError));
    assert_eq!(text.as_str(), "abc");
    assert_eq!(with(0, || smblease_std::format!(in Global; "{} {}", 1, "two")), Err(AllocError));
    assert_eq!(smblease_std::format!(in Global; "{} {}", 1, "two").expect("there is memory").as_str(), "1 two");
    assert_eq!(with(0, || hex::encode(Global, [1, 2])), Err(AllocError));
    assert_eq!(with(0, || hex::decode(Global, "0102")), Err(hex::FromHexError::OutOfMemory));
    assert_eq!(with(0, || hex::decode(Global, "010")), Err(hex::FromHexError::Invalid));
}

#[test]
fn queues() {
    let mut queue = VecDeque::new(Global);
    assert_eq!(with(0, || queue.push_back(1)), Err(AllocFailed { value: 1 }));
    assert_eq!(with(0, || queue.push_front(1)), Err(AllocFailed { value: 1 }));
    assert!(queue.is_empty());
    assert_eq!(with(1, || queue.push_back(1)), Ok(()));
}

// Maps of every size up to some levels, with each growth of the next insertion refused.
#[test]
fn maps() {
    let mut map = BTreeMap::new(Global);
    for key in 0..2_000_u32 {
        let key = key.wrapping_mul(2_654_435_761);
        for granted in 0..20 {
            let before = map.len();
            match with(granted, || map.insert(key, granted)) {
                Ok(_) => break,
                Err(AllocFailed { value }) => assert_eq!((value, map.len(), map.get(&key)), ((key, granted), before, None)),
            }
        }
        assert!(map.contains_key(&key));
    }
    assert_eq!(map.len(), 2_000);
    assert!(map.keys().zip(map.keys().skip(1)).all(|(one, other)| one < other));
    with(0, || map.retain(|key, _| key % 3 == 0));
    assert!(map.keys().all(|key| key % 3 == 0) && map.len() > 500);
}

#[test]
fn sets() {
    let mut set = BTreeSet::new(Global);
    assert_eq!(with(0, || set.insert(7)), Err(AllocFailed { value: 7 }));
    assert_eq!(set.insert(7), Ok(true));
    assert_eq!(with(0, || set.insert(7)), Ok(false));
}

#[test]
fn boxes_and_shared_bytes() {
    assert_eq!(with(0, || Box::new(Global, 7)), Err(AllocFailed { value: 7 }));
    let boxed = Box::new(Global, std::string::String::from("seven")).expect("there is memory");
    let (at, alloc) = Box::into_raw_with_allocator(boxed);
    // SAFETY: it is a box's pointer, of which no box was made since.
    assert_eq!(Box::into_inner(unsafe { Box::from_raw(alloc, at) }), "seven");
    assert_eq!(growths(|| Bytes::from_vec(Vec::from_slice(Global, b"abc")?).map(drop)), 2);
    let bytes = Bytes::from_vec(Vec::from_slice(Global, b"abc").expect("there is memory")).expect("there is memory");
    let shared = with(0, || bytes.clone()).expect("sharing takes no memory");
    assert!(!bytes.is_unique() && shared.as_slice() == b"abc");
    let bytes = bytes.try_into_mut().map(|_| ()).expect_err("two hold it");
    drop(shared);
    let bytes = bytes.try_into_mut().unwrap_or_else(|_| unreachable!("one holds it")).into_vec().expect("it is a vector");
    assert_eq!(bytes.as_slice(), b"abc");
}

#[test]
#[should_panic(expected = "without allocations 1..=1 the test fails otherwise")]
fn a_test_that_takes_want_of_memory_for_an_answer_fails() {
    passes(|| -> Result<(), Fail> {
        assert!(Vec::from_slice(Global, &[1]).is_ok());
        Ok(())
    });
}

#[test]
#[should_panic(expected = "without allocations 2..=2: \"no room\"")]
fn a_test_that_ends_with_another_error_fails() {
    passes(|| -> Result<(), Fail> {
        let _first = Vec::from_slice(Global, &[1])?;
        let _second = Vec::from_slice(Global, &[2]).map_err(|_| "no room")?;
        Ok(())
    });
}

#[test]
fn a_test_may_end_with_want_of_memory() {
    passes(|| -> Result<(), Fail> {
        let mut text = String::from_str(Global, "a")?;
        text.push_str(" longer text than there was room for")?;
        Ok(())
    });
}
