//! Either order of commit (document 02, point 14; docs/PAPERS.md): at random points of random sequences, on one plane and on two, two open
//! changes are committed one straight after the other, in either order. Where they write and drop no logical page in common, each page
//! reads the same in either order, also after a cut next and recovery; where they share one, some read otherwise.
mod common;
mod sequence;

use bokuhira::{Call, Geometry};
use common::{say, Layer, Rng};
use sequence::{on_two_threads, Run};

/// The pairs that were tried, by what they had in common.
#[derive(Default)]
struct Pairs {
    apart: usize,
    /// Of these: a change drops a page; one has nothing written; pages ran before the first commit.
    with_drops: usize,
    with_nothing: usize,
    while_running: usize,
    sharing: usize,
    /// Of these: some logical page reads otherwise in the other order.
    differing: usize,
    refused: usize,
    /// The cut next fell between two calls, or in one that programs or erases.
    between: usize,
    in_operations: usize,
}

impl Pairs {
    fn counts(&mut self) -> [(&'static str, &mut usize); 9] {
        [
            ("with no logical page in common", &mut self.apart),
            ("of them with a drop", &mut self.with_drops),
            ("of them with nothing written in one", &mut self.with_nothing),
            ("of them while pages run", &mut self.while_running),
            ("that share a page", &mut self.sharing),
            ("of them that read otherwise", &mut self.differing),
            ("refused in either order", &mut self.refused),
            ("then cut between two calls", &mut self.between),
            ("then cut in an operation", &mut self.in_operations),
        ]
    }

    fn add(&mut self, other: &mut Pairs) {
        self.counts().into_iter().zip(other.counts()).for_each(|((_, n), (_, m))| *n += *m);
    }
}

/// Commits two changes in this order, by the book and on both layers; whether both are done.
fn commits(run: &mut Run, ids: [u32; 2]) -> bool {
    let done = ids.map(|id| run.call(&Call::Commit(id)) == 0) == [true; 2];
    run.all_read();
    assert!(!done || run.running.is_empty(), "pages run after a commit that is done: {:?}", run.running);
    done
}

/// What each logical page reads.
fn reads(run: &Run) -> Vec<Result<Vec<u8>, u8>> {
    (0..run.g.logical).map(|lpn| Layer::Proved.read(&run.proved, lpn).map(<[u8]>::to_vec)).collect()
}

/// A cut next, between two calls or in one that saves nothing, and the recovery: each logical page reads as before.
fn outlives(run: &mut Run, next: Option<&Call>) {
    let before = reads(run);
    run.cut_in(next);
    run.recover();
    assert!(reads(run) == before, "a page reads otherwise after a cut next and recovery");
}

/// Two open changes of the sequence, most often with something written, in either order.
fn either_order(run: &Run, rng: &mut Rng, pairs: &mut Pairs) {
    let any = rng.once_in(20);
    let mut open: Vec<u32> = run.book.open.iter().filter(|(_, writes)| any || !writes.is_empty()).map(|(id, _)| *id).collect();
    if open.len() < 2 {
        return;
    }
    rng.shuffle(&mut open);
    let (a, b) = (open[0], open[1]);
    let [mut first, mut second] = [run.clone(), run.clone()];
    let done = commits(&mut first, [a, b]);
    assert_eq!(commits(&mut second, [b, a]), done, "changes {a} and {b} can be committed in one order alone");
    if !done {
        pairs.refused += 1;
        return;
    }
    let same = reads(&first) == reads(&second);
    let writes = [&run.book.open[&a], &run.book.open[&b]];
    let apart = writes[0].iter().all(|(lpn, _)| writes[1].iter().all(|(other, _)| lpn != other));
    if apart {
        assert!(same, "changes {a} and {b} have no page in common, and a page reads otherwise in the other order");
        pairs.apart += 1;
        pairs.with_drops += usize::from(writes.iter().any(|w| w.iter().any(|(_, content)| content.is_none())));
        pairs.with_nothing += usize::from(writes.iter().any(|w| w.is_empty()));
        pairs.while_running += usize::from(!run.running.is_empty());
    } else {
        pairs.sharing += 1;
        pairs.differing += usize::from(!same);
    }
    // in the two orders another cut each: other bits, and other buffers for the recover
    first.rng = Rng::new(rng.next());
    second.rng = Rng::new(rng.next());
    for run in [&mut first, &mut second] {
        let next = rng.pick(&[None, Some(Call::Checkpoint), Some(Call::Reclaim), Some(Call::Begin(run.rng.next() as u32))]).clone();
        let cuts = run.cuts.clone();
        outlives(run, next.as_ref());
        pairs.between += usize::from(next.is_none());
        pairs.in_operations += usize::from(run.cuts.in_operations() > cuts.in_operations());
    }
    assert!(!apart || reads(&first) == reads(&second), "changes {a} and {b} read otherwise in the other order after a cut and recovery");
}

/// Geometries, and how many calls their sequences make in all, on one plane and on two.
const SIZES: [(u16, u16, u16, usize); 6] =
    [(8, 8, 16, 20_000), (9, 8, 24, 10_000), (12, 8, 48, 10_000), (20, 8, 90, 6_000), (16, 16, 60, 6_000), (14, 33, 257, 3_000)];

#[test]
fn who_commits_first_does_not_matter() {
    let jobs: Vec<(Geometry, u64)> = [1, 2]
        .iter()
        .flat_map(|planes| SIZES.map(|(b, p, l, calls)| (Geometry::new(b, p, l).with_planes(*planes), calls)))
        .flat_map(|(g, calls)| (0..calls / 1_000).map(move |i| (g, 10_000 * g.blocks as u64 + 1_000 * g.planes as u64 + i as u64)))
        .collect();
    let found = on_two_threads(&jobs, |&(g, seed)| {
        let (mut run, mut rng, mut pairs) = (Run::new(g, seed), Rng::new(!seed), Pairs::default());
        run.sequence_with(1_000, |run| {
            if rng.once_in(2) {
                either_order(run, &mut rng, &mut pairs);
            }
        });
        pairs
    });
    let mut pairs = Pairs::default();
    found.into_iter().for_each(|mut p| pairs.add(&mut p));
    say(&format!("either: {} pairs of changes committed in either order:", pairs.apart + pairs.sharing));
    for (what, n) in pairs.counts() {
        say(&format!("  {n} {what}"));
        assert!(*n >= 100, "few pairs {what}");
    }
}
