//! The table of refused calls: each line alone, and the lowest number where several hold.

use crate::scene::*;
use model::operation::Operation;
use model::switch::Switch;

fn bad_operations() -> Vec<Operation> {
    let good = Operation::NONE;
    vec![
        Operation { kind: 5, ..good },
        Operation { tag_type: 2, ..good },
        Operation { vid_source: 3, ..good },
        Operation { pcp_source: 3, ..good },
        Operation { given: header(4_095, 0, 0), ..good },
        Operation { given: header(0, 8, 0), ..good },
        Operation { given: header(0, 0, 2), ..good },
        Operation { kind: 1 << 8, ..good },
    ]
}

#[test]
fn cell_counts() {
    for (cells, is_allowed) in [(0, false), (63, false), (64, true), (2_048, true), (2_049, false)] {
        assert_eq!(Switch::fresh(cells).err(), if is_allowed { None } else { Some(1) });
    }
}

#[test]
fn an_operations_fields_are_checked_for_each_kind() {
    for bad in bad_operations() {
        for kind in 0..5 {
            let bad = if bad.kind > 4 { bad } else { Operation { kind, ..bad } };
            assert_eq!(fresh().set_vlan(5, 0, 0, bad), Err(3), "{bad:?}");
            assert_eq!(fresh().set_port(0, 0, 0, header(1, 0, 0), 0, bad), Err(3), "{bad:?}");
            assert_eq!(fresh().set_port(5, 0, 0, header(1, 0, 0), 0, bad), Err(2), "{bad:?}");
        }
    }
    let greatest = Operation { kind: 4, tag_type: 1, vid_source: 2, pcp_source: 2, given: header(4_094, 7, 1) };
    assert_eq!(fresh().set_vlan(5, 0, 0, greatest), Ok((0, 0)));
}

#[test]
fn lowest_number_wins() {
    let mut switch = fresh();
    let group = 1 << 40;
    assert_eq!(switch.set_static(16, 5, group), Err(2));
    assert_eq!(switch.set_static(16, 4, group), Err(3));
    assert_eq!(switch.set_static(15, 4, group), Err(4));
    assert_eq!(switch.set_static(0, 0, 1 << 48 | group), Err(3));
    assert_eq!(switch.set_port(5, 9, 9, header(0, 9, 9), 8, Operation::NONE), Err(2));
    assert_eq!(switch.set_port(4, 0, 0, header(1, 0, 0), 8, Operation::NONE), Err(3));
    assert_eq!(switch.take(5, &mut []), Err(2));
    assert_eq!(switch.take(4, &mut []), Err(5));
    assert_eq!(switch.counter(5, 21), Err(2));
    assert_eq!(switch.counter(4, 21), Err(3));
    assert_eq!(switch.clear_vlan(0), Err(3));
    assert_eq!(switch.clear_vlan(2), Err(7));
    assert_eq!(switch.remove(0, group), Err(9));
    assert_eq!(switch.remove(16, 0), Err(3));
    assert_eq!(switch.set_queue_switch(5, 4, 2), Err(2));
}

/// Arguments are wide enough to hold bad values: nothing is cut to a byte first.
#[test]
fn wide_values_are_refused() {
    let mut switch = fresh();
    assert_eq!(switch.frame_in(256, &untagged(A, B)), Err(2));
    assert_eq!(switch.drain(1 << 16), Err(2));
    assert_eq!(switch.set_map(256, 0), Err(3));
    assert_eq!(switch.set_map(0, 256), Err(3));
    assert_eq!(switch.set_bpdu_handling(257), Err(3));
    assert_eq!(switch.set_vlan(1 << 16 | 1, 0, 0, Operation::NONE), Err(3));
    assert_eq!(switch.set_vlan(1, 1 << 8, 0, Operation::NONE), Err(3));
    assert_eq!(switch.set_static(u32::MAX, 0, u64::MAX), Err(3));
    assert_eq!(switch.remove(u32::MAX, u64::MAX), Err(3));
    assert_eq!(switch, fresh());
}

#[test]
fn the_seventeenth_vlan() {
    let mut switch = fresh();
    for vid in 2..=16 {
        assert_eq!(switch.set_vlan(vid, 0, 15, Operation::NONE), Ok((0, 0)));
    }
    assert_eq!(switch.set_vlan(17, 0, 0, Operation::NONE), Err(6));
    assert_eq!(switch.set_vlan(17, 32, 0, Operation::NONE), Err(3));
    assert_eq!(switch.set_vlan(16, 31, 0, Operation::NONE), Ok((0, 0)));
    assert_eq!(switch.clear_vlan(1), Ok((0, 0)));
    assert_eq!(switch.clear_vlan(1), Err(7));
    assert_eq!(switch.set_vlan(17, 0, 0, Operation::NONE), Ok((0, 0)));
}
