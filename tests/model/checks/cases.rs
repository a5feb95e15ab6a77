//! Cases P1 to P12 of the rules, and their run cases.

use crate::scene::*;
use model::addresses::bucket;
use model::operation::Operation;
use model::waiting::cells;

#[test]
fn p1_to_p6_bytes_to_cells() {
    for (bytes, expected) in [(60, 1), (72, 1), (73, 2), (1_592, 20), (1_600, 21), (4_083, 52)] {
        assert_eq!(cells(bytes), expected, "{bytes} bytes");
    }
}

#[test]
fn p7_to_p9_buckets() {
    assert_eq!(bucket(0, 0x0200_0000_0005), 7);
    assert_eq!(bucket(1, 0), 256);
    assert_eq!(bucket(15, 0), 771);
}

#[test]
fn p10_a_tags_two_bytes() {
    assert_eq!(tag_8100(header(20, 5, 0)).bytes()[2..], [0xA0, 0x14]);
}

#[test]
fn p11_pop_swap_push() {
    let (v1, v2) = (tag_8100(header(11, 1, 0)), tag_8100(header(12, 2, 1)));
    let (n1, n2) = (header(21, 3, 1), header(22, 4, 0));
    let operations = [Operation { kind: 1, ..push(n1) }, Operation { kind: 3, ..push(n1) }, push(n2)];
    let mut stack = vec![v1, v2];
    for operation in operations {
        stack = operation.carried_out(&stack, &[v1, v2], header(1, 0, 0));
    }
    assert_eq!(stack, [tag_8100(n2), tag_8100(n1)]);
}

#[test]
fn p12_pop_on_the_empty_stack() {
    let pop = Operation { kind: 1, ..Operation::NONE };
    assert_eq!(pop.carried_out(&[], &[], header(1, 0, 0)), []);
}

#[test]
fn run_cases() {
    assert_eq!(cells(152), 2);
    assert_eq!(cells(153), 3);
    assert_eq!(fresh().frame_in(0, &frame(A, B, &[], 4_084)), Ok((2, 0)));
}

/// The run cases seen from outside: how many frames of a length fit 64 cells.
#[test]
fn as_many_frames_fit_as_their_cells_allow() {
    for (length, fitting) in [(60, 64), (72, 64), (73, 32), (152, 32), (153, 21), (1_592, 3), (1_600, 3), (4_083, 1)] {
        let mut switch = model::switch::Switch::fresh(64).unwrap();
        let arriving = frame(A, BROADCAST, &[], length);
        for _ in 0..fitting {
            assert_eq!(switch.frame_in(0, &arriving), Ok((0, 30)), "{length} bytes");
        }
        assert_eq!(switch.frame_in(0, &arriving), Ok((13, 0)), "{length} bytes");
    }
}
