//! The coverage report: which reasons, refusals and counters a mixed stream shows; fails if one is missing.

use model::bench::Bench;
use model::records::{records, Record};

/// The refusals that a record can bring: 1 and 5 speak of lent lengths, 10 of damaged memory.
const REFUSALS: [u32; 8] = [2, 3, 4, 6, 7, 8, 9, 11];
const PORTS: usize = 5;
const COUNTERS: usize = 21;
const REASONS: usize = 14;

struct Coverage {
    records: usize,
    reasons: [u32; REASONS],
    refusals: [u32; 12],
    /// The largest value that a counter record answered.
    counters: [[u32; COUNTERS]; PORTS],
}

const SEEDS: u64 = 3;

fn main() {
    let coverages: Vec<Coverage> = (1..=SEEDS).map(cover).collect();
    report(&coverages[0]);
    let mut missing = Vec::new();
    for (coverage, seed) in coverages.iter().zip(1..) {
        missing.extend(missing_of_one(coverage).into_iter().map(|what| format!("{what} with seed {seed}")));
    }
    missing.extend(missing_at_a_port(&coverages));
    if !missing.is_empty() {
        println!("not covered: {}", missing.join(", "));
        std::process::exit(1);
    }
    println!(
        "covered with each of seeds 1 to {SEEDS}: every outcome, every refusal of a record, every counter above 0"
    );
    println!("covered by the {SEEDS} together: every counter above 0 at every port");
}

fn cover(seed: u64) -> Coverage {
    let stream = streams::stream("mixed", seed).expect("there are mixed streams");
    let mut coverage =
        Coverage { records: 0, reasons: [0; REASONS], refusals: [0; 12], counters: [[0; COUNTERS]; PORTS] };
    let mut bench = Bench::fresh();
    for record in records(&stream.bytes) {
        coverage.records += 1;
        let line = bench.line(record);
        match (record, line.answer) {
            (Record::Whole { kind: 1, .. }, Ok((reason, _))) => coverage.reasons[reason as usize] += 1,
            (Record::Whole { kind: 4, body }, Ok((value, _))) => {
                let shown = &mut coverage.counters[usize::from(body[0])][usize::from(body[1])];
                *shown = value.max(*shown);
            }
            (_, Ok(_)) => {}
            (_, Err(refusal)) => coverage.refusals[refusal as usize] += 1,
        }
    }
    coverage
}

fn report(coverage: &Coverage) {
    println!("a mixed stream of {} records, seed 1", coverage.records);
    let reasons = coverage.reasons.iter().enumerate().map(|(reason, times)| format!("{reason}: {times}"));
    println!("  outcomes: {}", reasons.collect::<Vec<_>>().join(", "));
    let refusals = REFUSALS.map(|refusal| format!("{refusal}: {}", coverage.refusals[refusal as usize]));
    println!("  refusals: {}", refusals.join(", "));
    println!("  counters as shown at the five ports:");
    for number in 0..COUNTERS {
        let values = coverage.counters.map(|port| format!("{:5}", port[number]));
        println!("    {number:2}: {}", values.join(" "));
    }
}

fn missing_of_one(coverage: &Coverage) -> Vec<String> {
    let mut missing = Vec::new();
    for (reason, times) in coverage.reasons.iter().enumerate() {
        if *times == 0 {
            missing.push(format!("outcome {reason}"));
        }
    }
    for refusal in REFUSALS {
        if coverage.refusals[refusal as usize] == 0 {
            missing.push(format!("refusal {refusal}"));
        }
    }
    for number in 0..COUNTERS {
        if coverage.counters.iter().all(|port| port[number] == 0) {
            missing.push(format!("counter {number}"));
        }
    }
    missing
}

fn missing_at_a_port(coverages: &[Coverage]) -> Vec<String> {
    let mut missing = Vec::new();
    for port in 0..PORTS {
        for number in 0..COUNTERS {
            if coverages.iter().all(|coverage| coverage.counters[port][number] == 0) {
                missing.push(format!("counter {number} at port {port}"));
            }
        }
    }
    missing
}
