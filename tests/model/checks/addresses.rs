//! The address table through the calls: moves, statics, removes, ageing, full places.

use crate::scene::*;
use model::addresses::bucket;

/// Address `number` of those that share the bucket of address 0.
fn colliding(number: u64) -> u64 {
    number << 10 | number
}

#[test]
fn colliding_addresses_do_collide() {
    assert!((0..40).all(|number| bucket(3, colliding(number)) == bucket(3, 0)));
}

#[test]
fn twenty_places_then_not_learned_then_refusal_8() {
    let mut switch = fresh();
    for number in 0..21 {
        switch.frame_in(2, &untagged(colliding(number), BROADCAST)).unwrap();
    }
    assert_eq!(switch.counter(2, 15), Ok((1, 0)));
    assert_eq!(switch.frame_in(0, &untagged(colliding(1), colliding(19))), Ok((0, 4)));
    assert_eq!(switch.frame_in(0, &untagged(colliding(1), colliding(20))), Ok((0, 30)));
    assert_eq!(switch.set_static(0, 1, colliding(20)), Err(8));
    assert_eq!(switch.set_static(0, 1, colliding(19)), Ok((0, 0)));
    // A removed entry's place is used again.
    switch.remove(0, colliding(4)).unwrap();
    assert_eq!(switch.set_static(0, 1, colliding(20)), Ok((0, 0)));
    assert_eq!(switch.set_static(0, 1, colliding(21)), Err(8));
}

#[test]
fn address_0_of_gid_0_is_an_address_like_any_other() {
    let mut switch = fresh();
    assert_eq!(switch.remove(0, 0), Err(9));
    assert_eq!(switch.frame_in(0, &untagged(A, 0)), Ok((0, 30)));
    switch.frame_in(3, &untagged(0, BROADCAST)).unwrap();
    assert_eq!(switch.frame_in(0, &untagged(A, 0)), Ok((0, 8)));
    assert_eq!(switch.remove(0, 0), Ok((0, 0)));
}

#[test]
fn a_station_that_moves_is_found_at_its_new_port() {
    let mut switch = fresh();
    switch.frame_in(1, &untagged(B, BROADCAST)).unwrap();
    switch.frame_in(2, &untagged(B, BROADCAST)).unwrap();
    assert_eq!(switch.frame_in(0, &untagged(A, B)), Ok((0, 4)));
}

#[test]
fn a_static_entry_stays_when_its_address_speaks_elsewhere() {
    let mut switch = fresh();
    switch.set_static(0, 3, B).unwrap();
    switch.frame_in(1, &untagged(B, BROADCAST)).unwrap();
    assert_eq!(switch.counter(1, 15), Ok((0, 0)));
    assert_eq!((0..3).map(|_| switch.age().unwrap().0).sum::<u32>(), 0);
    assert_eq!(switch.frame_in(0, &untagged(A, B)), Ok((0, 8)));
    assert_eq!(switch.remove(0, B), Ok((0, 0)));
}

#[test]
fn a_static_call_on_a_learned_entry_keeps_its_place() {
    let mut switch = fresh();
    for number in 0..6 {
        switch.frame_in(2, &untagged(colliding(number), BROADCAST)).unwrap();
    }
    let place = |switch: &model::switch::Switch| {
        let is_fifth = |entry: model::addresses::Entry| entry.address == colliding(5);
        switch.addresses.places.iter().position(|place| place.is_some_and(is_fifth))
    };
    let before = place(&switch);
    switch.remove(0, colliding(0)).unwrap();
    switch.set_static(0, 1, colliding(5)).unwrap();
    assert_eq!(place(&switch), before);
}

#[test]
fn the_same_address_under_two_gids_is_two_entries() {
    let mut switch = fresh();
    switch.set_static(1, 1, A).unwrap();
    assert_eq!(switch.remove(0, A), Err(9));
    switch.set_static(0, 2, A).unwrap();
    assert_eq!(switch.remove(1, A), Ok((0, 0)));
    assert_eq!(switch.frame_in(0, &untagged(B, A)), Ok((0, 4)));
}

#[test]
fn a_hit_marks_also_when_the_frame_is_dropped() {
    let mut switch = fresh();
    switch.frame_in(0, &untagged(B, BROADCAST)).unwrap();
    switch.age().unwrap();
    // B is behind the port that asks for it: no candidate, but marked.
    assert_eq!(switch.frame_in(0, &untagged(A, B)), Ok((11, 0)));
    assert_eq!(switch.age(), Ok((0, 0)));
    assert_eq!(switch.remove(0, B), Ok((0, 0)));
}
