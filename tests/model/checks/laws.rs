//! Laws that hold after every record of every stream, and of the streams themselves.

use crate::scene::*;
use model::addresses::{bucket, BUCKETS};
use model::bench::Bench;
use model::counters::LAST;
use model::records::records;
use model::switch::Switch;
use std::collections::HashSet;

const SEED: u64 = 7;

/// Calls `check` with the switch before and after each record of each sort of stream, and the record's refusal.
fn after_each_record(check: impl Fn(&Switch, &Switch, Option<u32>)) {
    for (sort, _) in streams::SORTS {
        let stream = streams::stream(sort, SEED).unwrap();
        let mut bench = Bench::fresh();
        for record in records(&stream.bytes) {
            let before = bench.switch.clone();
            let line = bench.line(record);
            check(&before, &bench.switch, line.answer.err());
        }
    }
}

#[test]
fn a_refused_call_changes_nothing() {
    after_each_record(|before, after, refusal| assert!(refusal.is_none() || before == after));
}

#[test]
fn offered_is_the_sum_of_the_reasons_and_accepted() {
    after_each_record(|_, after, _| {
        for counters in &after.counters.values {
            assert_eq!(counters[0], counters[1..=14].iter().sum());
        }
    });
}

#[test]
fn what_was_queued_is_sent_drained_or_waits() {
    after_each_record(|_, after, _| {
        for port in 0..5 {
            let waiting = after.waiting.iter().filter(|frame| frame.waits_at(port)).count() as u32;
            let count = |number| after.counters.value(port, number);
            assert_eq!(count(16), count(19) + count(20) + waiting);
        }
    });
}

#[test]
fn waiting_frames_wait_somewhere_and_fit_the_cells() {
    after_each_record(|_, after, _| {
        assert!(after.waiting.iter().all(|frame| frame.ports != 0 && frame.ports < 32));
        assert!(model::waiting::cells_in_use(&after.waiting) <= 200);
    });
}

#[test]
fn a_key_has_at_most_one_entry_and_it_stands_where_the_search_looks() {
    after_each_record(|before, after, _| {
        if before.addresses == after.addresses {
            return;
        }
        let mut keys = HashSet::new();
        for (place, entry) in after.addresses.places.iter().enumerate() {
            let Some(entry) = entry else { continue };
            assert!(keys.insert((entry.gid, entry.address)));
            assert!(place / 4 == bucket(entry.gid, entry.address) || place >= BUCKETS * 4);
        }
    });
}

#[test]
fn counters_go_from_the_largest_value_to_0() {
    let mut switch = fresh();
    switch.counters.values[1] = [u32::MAX; LAST as usize + 1];
    switch.frame_in(1, &untagged(A, B)).unwrap();
    assert_eq!(switch.counter(1, 0), Ok((0, 0)));
    assert_eq!(switch.counter(1, 14), Ok((0, 0)));
    assert_eq!(switch.counter(1, 13), Ok((u32::MAX, 0)));
}

#[test]
fn a_seed_gives_one_stream_and_another_seed_another() {
    for (sort, _) in streams::SORTS {
        let bytes = |seed| streams::stream(sort, seed).unwrap().bytes;
        assert_eq!(bytes(1), bytes(1));
        assert_ne!(bytes(1), bytes(2), "{sort}");
    }
}

#[test]
fn a_stream_has_as_many_lines_as_records() {
    for (sort, _) in streams::SORTS {
        let stream = streams::stream(sort, SEED).unwrap();
        assert_eq!(model::bench::lines(&stream.bytes).count(), stream.records, "{sort}");
    }
}
