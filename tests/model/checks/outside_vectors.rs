//! Outside vectors, which come from elsewhere than the rules: tag operations, bucket, ageing, cells, how full a table gets.

use crate::scene::*;
use model::addresses::{bucket, Addresses, Entry, PLACES};
use model::frame::Tag;
use model::operation::Operation;
use model::waiting::cells;
use streams::random::Random;

/// The stack that one operation makes of V1 and V2, as many as are there; N1 is what the operation gives.
fn outgoing(kind: u32, incoming: &[Tag]) -> Vec<Tag> {
    let operation = Operation { kind, ..push(n1().header) };
    operation.carried_out(incoming, incoming, header(1, 0, 0))
}

fn v1() -> Tag {
    tag_8100(header(101, 1, 1))
}

fn v2() -> Tag {
    tag_8100(header(102, 2, 0))
}

fn n1() -> Tag {
    tag_8100(header(201, 6, 1))
}

#[test]
fn example_1_swap_one_tag() {
    assert_eq!(outgoing(3, &[v1()]), [n1()]);
}

#[test]
fn example_2_push_on_one_tag() {
    assert_eq!(outgoing(2, &[v1()]), [n1(), v1()]);
}

#[test]
fn example_3_push_on_two_tags() {
    assert_eq!(outgoing(2, &[v1(), v2()]), [n1(), v1(), v2()]);
}

#[test]
fn example_4_pop_of_two_tags() {
    assert_eq!(outgoing(1, &[v1(), v2()]), [v2()]);
}

#[test]
fn penultimate_pop_removes_all_decoded_tags() {
    assert_eq!(outgoing(4, &[v1(), v2()]), []);
}

#[test]
fn hash_vector() {
    assert_eq!(bucket(4, 0x4661_62BC_84DD), 21);
}

/// The outside hash code: six parts of the 52-bit key, joined by exclusive or.
#[test]
fn hash_as_in_the_outside_code() {
    let mut random = Random::seeded(10);
    for _ in 0..1_000 {
        let (gid, address) = (random.below(16), random.number() >> 16);
        let key = gid << 48 | address;
        let joined = [0, 10, 20, 30, 40, 50].iter().fold(0, |joined, part| joined ^ key >> part & 0x3FF);
        assert_eq!(bucket(gid as u32, address), joined as usize);
    }
}

/// The outside table of ageing: 0b101 becomes 0b001, 0b001 is cleared, other values stay; the bits are hit, static, valid.
#[test]
fn marked_unmarked_gone() {
    let entry = |is_static, marked| Entry { gid: 0, address: A, port: 1, is_static, marked };
    for (before, after, removed) in [
        (Some(entry(false, true)), Some(entry(false, false)), 0),
        (Some(entry(false, false)), None, 1),
        (Some(entry(true, true)), Some(entry(true, true)), 0),
        (None, None, 0),
    ] {
        for place in [0, 4_095, 4_096, PLACES - 1] {
            let mut addresses = Addresses::fresh();
            addresses.places[place] = before;
            assert_eq!(addresses.age(), removed);
            assert_eq!(addresses.places[place], after);
        }
    }
}

#[test]
fn seventy_three_bytes_take_two_cells() {
    assert_eq!(cells(73), 2);
}

#[test]
fn sequential_addresses_fill_every_place() {
    let mut addresses = Addresses::fresh();
    assert!((0..PLACES as u64).all(|low| addresses.learn(0, 0x0200_0000_0000 + low, 0)));
    assert!(addresses.places.iter().all(Option::is_some));
    assert!(!addresses.learn(0, 0x0200_0000_0000 + PLACES as u64, 0));
}

/// The outside figure: 34 % of the table on average, before the first random address is not learned.
#[test]
fn random_addresses_fill_a_third_of_the_places() {
    let tables = 200;
    let mut filled = 0;
    let mut random = Random::seeded(34);
    for _ in 0..tables {
        let mut addresses = Addresses::fresh();
        while addresses.learn(0, random.number() >> 16 & !(1 << 40), 0) {
            filled += 1;
        }
    }
    let percent = 100.0 * filled as f64 / (tables * PLACES) as f64;
    assert!((33.5..34.5).contains(&percent), "{percent} %");
}
