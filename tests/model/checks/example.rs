//! The worked example of docs/RULES.md, line by line.

const LINES: &str = "\
1 1 ok 0 30
2 1 ok 0 1
3 2 ok 60 0
4 2 ok 0 0
5 1 ok 1 0
6 2 refused 2
7 3 ok 0 0
8 3 ok 2 0
";

/// The input as the rules describe it, in bytes.
fn input() -> Vec<u8> {
    let a = [2, 0, 0, 0, 0, 1];
    let b = [2, 0, 0, 0, 0, 2];
    let arriving = |length: u8, port: u8, destination: [u8; 6], source: [u8; 6]| {
        let mut record = [&[length + 3, 0, 1, 0, port][..], &destination, &source, &[8, 0]].concat();
        record.resize(usize::from(length) + 5, 0x55);
        record
    };
    [
        arriving(60, 0, b, a),
        arriving(60, 1, a, b),
        vec![3, 0, 2, 0, 0],
        vec![3, 0, 2, 0, 0],
        arriving(59, 2, a, b),
        vec![3, 0, 2, 0, 5],
        vec![2, 0, 3, 0],
        vec![2, 0, 3, 0],
    ]
    .concat()
}

fn printed(input: &[u8]) -> String {
    model::bench::lines(input).map(|line| format!("{line}\n")).collect()
}

#[test]
fn the_examples_lines() {
    assert_eq!(printed(&input()), LINES);
}

#[test]
fn the_example_stream_has_the_same_lines() {
    assert_eq!(printed(&streams::stream("example", 1).unwrap().bytes), LINES);
}

#[test]
fn a_take_shows_its_bytes_in_hex() {
    let lines: Vec<String> = model::bench::lines(&input()).map(|line| line.with_bytes()).collect();
    let expected = format!("3 2 ok 60 0 0200000000010200000000020800{}", "55".repeat(46));
    assert_eq!(lines[2], expected);
    assert_eq!(lines[3], "4 2 ok 0 0");
}
