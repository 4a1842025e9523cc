//! Random sequences against the book: committed settings outlive every cut.
mod common;
mod sequence;

use bokuhira::Geometry;
use common::{say, Met, NAMES};
use sequence::{on_two_threads, Cuts, Run};

/// Geometries, and how many calls their sequences make in all, on one plane and on two.
const SIZES: [(u16, u16, u16, usize); 10] = [
    (8, 8, 16, 60_000),
    (8, 8, 1, 12_000),
    (9, 8, 24, 30_000),
    (12, 8, 48, 30_000),
    (20, 8, 90, 30_000),
    (10, 9, 30, 20_000),
    (16, 16, 60, 24_000),
    (8, 13, 26, 8_000),
    (14, 33, 257, 6_000),
    (11, 64, 320, 4_000),
];

#[test]
fn committed_settings_outlive_cuts() {
    let jobs: Vec<(Geometry, usize, u64)> = [1, 2]
        .iter()
        .flat_map(|planes| SIZES.map(|(b, p, l, calls)| (Geometry::new(b, p, l).with_planes(*planes), calls)))
        .flat_map(|(g, calls)| (0..calls.div_ceil(2_000)).map(move |i| (g, 2_000, 1_000 * g.blocks as u64 + 100 * g.pages as u64 + i as u64)))
        .collect();
    let found = on_two_threads(&jobs, |&(g, calls, seed)| {
        let mut run = Run::new(g, seed);
        run.sequence(calls / 2);
        run.sequence(calls / 2);
        (run.met, run.cuts)
    });
    let (mut met, mut cuts) = (Met::new(), Cuts::default());
    for (m, c) in &found {
        met.add(m);
        cuts.add(c);
    }
    say(&format!(
        "book: {} calls and {} cuts agree with the book and on both layers; each command's answers, and how often:",
        met.calls(),
        cuts.all()
    ));
    met.say();
    cuts.say();
    assert!(met.calls() >= 100_000 && cuts.all() >= 5_000);
    for command in NAMES {
        assert!(met.times(command, 0) > 0, "{command} was never done");
    }
    for command in ["format", "checkpoint", "reclaim"] {
        assert!(met.times(command, 255) > 0, "{command} never had more to do");
    }
    for refusal in [1, 5, 6, 7, 8, 9, 10, 11, 12, 14, 15, 16, 17] {
        assert!(met.in_all(refusal) > 0, "refusal {refusal} was never met");
    }
    for refusal in [5, 8, 10, 12, 17] {
        assert!(met.times("drop", refusal) > 0, "a drop was never refused with {refusal}");
    }
    for refusal in [2, 3, 4, 13] {
        assert_eq!(met.in_all(refusal), 0, "refusal {refusal} cannot come in a sequence");
    }
}
