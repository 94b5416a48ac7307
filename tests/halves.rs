//! The join by halves (document 02 k): fixed examples, random lists, refusals and jobs beside the brute force, and rules with
//! one mistake each, which small lists tell from the true one.

use crate::calls;
use crate::campaigns::{self, Bench, cuts, either, results, same_job, same_status};
use crate::harness::{Harness, progress};
use crate::lists::{HIGHEST, KINDS, MAX, f, lawful, stacked, tower};
use crate::model::{self, CUSTOMERS, Columns, Counters, Entry, Site, Status, Strip, WAYS, Way, site};
use crate::pair_lists::same_k_list;
use crate::random::Random;
use std::ops::Range;

/// Sites on a line, one for each x, in its order.
fn line(xs: &[i32]) -> Vec<Site> {
    xs.iter().enumerate().map(|(i, x)| site(*x, 0, i as u32)).collect()
}

fn entry(distance: u64, first: u32, second: u32) -> Entry {
    Entry { distance, first, second }
}

/// The range pairs and the entries of a K list, by the brute force.
fn modelled(a: &[Site], b: &[Site], k: u32) -> (u64, Vec<Entry>) {
    let (entries, counters) = model::joined(Way::Halves, k, Strip::whole(a), Strip::whole(b), Vec::new());
    (counters.range_pairs, entries)
}

/// The same by the call.
fn called(r: &mut Random, a: &[Site], b: &[Site], k: u32) -> (u64, Vec<Entry>) {
    let mut columns = results(r, [k as usize; 3]);
    let told = calls::k_list(Way::Halves, &Columns::of(a), &Columns::of(b), k, &mut columns);
    let (count, counters) = told.unwrap();
    (counters.range_pairs, columns.entries(count as usize))
}

fn fixed_examples(r: &mut Random) {
    let six = [(9, 2, 0), (16, 1, 0), (16, 2, 1), (25, 0, 0), (25, 1, 1), (36, 0, 1)].map(|(d, i, j)| entry(d, i, j));
    let cases = [
        (line(&[100]), line(&[0, 1, 98, 99]), 1, 5, vec![entry(1, 0, 3)]),
        (line(&[0]), line(&[1, 2, 3]), 1, 3, vec![entry(1, 0, 0)]),
        (line(&[0, 100]), line(&[1, 2]), 1, 5, vec![entry(1, 0, 0)]),
        (line(&[0, 9]), line(&[0, 9]), 1, 7, vec![entry(81, 0, 1)]),
        (line(&[0, 1, 2]), line(&[5, 6]), 6, 11, six.to_vec()),
        (f().0, f().1, 3, 15, vec![entry(5, 2, 2), entry(9, 1, 1), entry(16, 0, 1)]),
    ];
    for (a, b, k, range_pairs, entries) in cases {
        let expected = (range_pairs, entries);
        assert_eq!(modelled(&a, &b, k), expected);
        assert_eq!(called(r, &a, &b, k), expected);
    }
}

fn empty_lists_and_strips(r: &mut Random) {
    let (none, some) = (line(&[]), line(&[1, 2, 3]));
    for k in [1, 5, 4_096] {
        for (a, b) in [(&none, &some), (&some, &none), (&none, &none)] {
            assert_eq!(modelled(a, b, k), (0, vec![]));
            assert_eq!(called(r, a, b, k), (0, vec![]));
            let columns = results(r, [k as usize; 3]);
            assert_eq!(same_k_list(Way::Halves, &Columns::of(a), &Columns::of(b), k, &columns), Ok(0));
        }
    }
    // an empty strip leaves the list; a campaign has none, and an empty list no job
    let held = vec![entry(4, 0, 2)];
    for (from, to) in [(0, 0), (2, 2), (3, 3)] {
        let (p, q) = (Strip { sites: &some, from, to }, Strip::whole(&some));
        assert_eq!(model::joined(Way::Halves, 1, p, q, held.clone()), (held.clone(), Counters::default()));
        assert_eq!(model::joined(Way::Halves, 2, q, p, held.clone()), (held.clone(), Counters::default()));
    }
    let (a, b) = (Columns::of(&none), Columns::of(&some));
    let mut bench = campaigns::opened(r, 2, [&a, &b], [&[], &[1, 3]], 5, [5; 3]);
    assert_eq!(same_job(Way::Halves, &mut bench, 0, 0), Err(8));
    assert_eq!(same_status(&bench), Ok(Status { settled: 0, jobs: 0, entries: 0, k: 5 }));
}

/// A mistake in the rule.
#[derive(Clone, Copy, Debug, PartialEq, Eq)]
enum Mistake {
    None,
    /// A gap squared equal to the last squared distance drops.
    DropsAtEquality,
    /// A drop needs no K entries, but one.
    DropsEarly,
    /// The upper half comes first at equal gaps.
    UpperFirst,
    /// The halves come by place, whatever the gaps.
    ByPlace,
    SplitsTheShorter,
    /// The second list's range splits at equal length.
    SplitsTheSecond,
    /// The lower half takes half the length rounded up.
    RoundsUp,
    /// Both halves are tested for a drop before the first of them is visited.
    TestsBeforeVisits,
    DroppedNotCounted,
    TakesCoSited,
    /// The boxes have no heights.
    Flat,
}

const MISTAKES: [Mistake; 11] = [
    Mistake::DropsAtEquality,
    Mistake::DropsEarly,
    Mistake::UpperFirst,
    Mistake::ByPlace,
    Mistake::SplitsTheShorter,
    Mistake::SplitsTheSecond,
    Mistake::RoundsUp,
    Mistake::TestsBeforeVisits,
    Mistake::DroppedNotCounted,
    Mistake::TakesCoSited,
    Mistake::Flat,
];

/// The rule with a mistake, or with none.
struct Rule<'a> {
    mistake: Mistake,
    k: usize,
    a: &'a [Site],
    b: &'a [Site],
    entries: Vec<Entry>,
    range_pairs: u64,
}

impl Rule<'_> {
    fn gap(&self, p: &Range<usize>, q: &Range<usize>) -> u64 {
        let apart = |coordinate: fn(&Site) -> i32| {
            let least = |sites: &[Site]| sites.iter().map(coordinate).min().unwrap() as i64;
            let greatest = |sites: &[Site]| sites.iter().map(coordinate).max().unwrap() as i64;
            let (p, q) = (&self.a[p.clone()], &self.b[q.clone()]);
            (least(q) - greatest(p)).max(least(p) - greatest(q)).max(0) as u64
        };
        let height = if self.mistake == Mistake::Flat { 0 } else { apart(|s| s.height) };
        apart(|s| s.x).pow(2) + apart(|s| s.y).pow(2) + height.pow(2)
    }

    fn drops(&self, gap: u64) -> bool {
        let needed = if self.mistake == Mistake::DropsEarly { 1 } else { self.k };
        let limit = gap + (self.mistake == Mistake::DropsAtEquality) as u64;
        self.entries.len() >= needed && limit > self.entries[self.entries.len() - 1].distance
    }

    fn visit(&mut self, p: Range<usize>, q: Range<usize>, dropped: bool) {
        self.range_pairs += !(dropped && self.mistake == Mistake::DroppedNotCounted) as u64;
        if dropped {
            return;
        }
        let (n, m) = (p.len(), q.len());
        if n == 1 && m == 1 {
            let distance = model::squared_distance(self.a[p.start], self.b[q.start]);
            if distance > 0 || self.mistake == Mistake::TakesCoSited {
                self.entries.push(entry(distance, p.start as u32, q.start as u32));
                self.entries.sort();
                self.entries.truncate(self.k);
            }
            return;
        }
        let first = match self.mistake {
            Mistake::SplitsTheShorter => m == 1 || (n > 1 && n <= m),
            Mistake::SplitsTheSecond => n > m,
            _ => n >= m,
        };
        let split = if first { &p } else { &q };
        let half = split.len() + (self.mistake == Mistake::RoundsUp) as usize;
        let middle = split.start + half / 2;
        let halves = [split.start..middle, middle..split.end]
            .map(|half| if first { (half, q.clone()) } else { (p.clone(), half) });
        let gaps = [0, 1].map(|i: usize| self.gap(&halves[i].0, &halves[i].1));
        let before = gaps.map(|gap| self.drops(gap));
        let upper_first = match self.mistake {
            Mistake::UpperFirst => gaps[1] <= gaps[0],
            Mistake::ByPlace => false,
            _ => gaps[1] < gaps[0],
        };
        for i in if upper_first { [1, 0] } else { [0, 1] } {
            let dropped = if self.mistake == Mistake::TestsBeforeVisits { before[i] } else { self.drops(gaps[i]) };
            self.visit(halves[i].0.clone(), halves[i].1.clone(), dropped);
        }
    }
}

/// The range pairs and the entries of a K list, by a rule.
fn mistaken(mistake: Mistake, a: &[Site], b: &[Site], k: u32) -> (u64, Vec<Entry>) {
    let mut rule = Rule { mistake, k: k as usize, a, b, entries: Vec::new(), range_pairs: 0 };
    if !a.is_empty() && !b.is_empty() {
        rule.visit(0..a.len(), 0..b.len(), false);
    }
    (rule.range_pairs, rule.entries)
}

/// Small lists that tell the true rule from a mistaken one, with the answers of both; the call gives the true one.
fn mistakes_told(r: &mut Random) {
    let (zero, one, both) = (line(&[0]), line(&[1, 2]), line(&[0, 0]));
    let floors = [site(1, 0, 0).up(1), site(1, 0, 1).up(3), site(1, 0, 2).up(3)].to_vec();
    let (near, far) = (entry(1, 0, 0), entry(4, 0, 1));
    let cases = [
        // the same count, and a pair of a later place
        (Mistake::DropsAtEquality, line(&[1]), line(&[0, 0, 1]), 1, (5, vec![near]), (5, vec![entry(1, 0, 1)])),
        (Mistake::DropsAtEquality, zero.clone(), line(&[1, 1, 1]), 1, (5, vec![near]), (3, vec![near])),
        (Mistake::DropsEarly, zero.clone(), one.clone(), 2, (3, vec![near, far]), (3, vec![near])),
        (Mistake::UpperFirst, line(&[0, 2]), line(&[1, 2, 2]), 1, (9, vec![near]), (11, vec![near])),
        (Mistake::ByPlace, line(&[0, 1]), line(&[2, 2]), 1, (5, vec![entry(1, 1, 0)]), (7, vec![entry(1, 1, 0)])),
        (Mistake::SplitsTheShorter, one.clone(), line(&[0, 0, 0]), 1, (9, vec![near]), (7, vec![near])),
        (Mistake::SplitsTheSecond, one.clone(), both.clone(), 1, (5, vec![near]), (7, vec![near])),
        (Mistake::SplitsTheSecond, both, one.clone(), 1, (7, vec![near]), (5, vec![near])),
        (Mistake::RoundsUp, line(&[2]), line(&[0, 0, 1]), 1, (5, vec![entry(1, 0, 2)]), (3, vec![entry(1, 0, 2)])),
        (Mistake::TestsBeforeVisits, zero.clone(), line(&[1, 2, 3]), 1, (3, vec![near]), (5, vec![near])),
        (Mistake::DroppedNotCounted, zero.clone(), one, 1, (3, vec![near]), (2, vec![near])),
        (Mistake::TakesCoSited, zero.clone(), zero.clone(), 1, (1, vec![]), (1, vec![entry(0, 0, 0)])),
        (Mistake::Flat, zero, floors, 1, (3, vec![entry(2, 0, 0)]), (5, vec![entry(2, 0, 0)])),
    ];
    for (mistake, a, b, k, right, wrong) in cases {
        assert_ne!(right, wrong, "{mistake:?}");
        assert_eq!(mistaken(mistake, &a, &b, k), wrong, "{mistake:?}");
        assert_eq!(mistaken(Mistake::None, &a, &b, k), right, "{mistake:?}");
        assert_eq!(modelled(&a, &b, k), right, "{mistake:?}");
        assert_eq!(called(r, &a, &b, k), right, "{mistake:?}");
    }
}

/// A list of a kind, or a tower, or sites at one position.
fn list(r: &mut Random, kind: usize, most: usize) -> Vec<Site> {
    match r.below(12) {
        0 => tower(r, 1, 1, most as u32, &[0, 0, 3, 40]),
        1 => stacked(1, 1, most as u32),
        _ => lawful(r, kind, most),
    }
}

/// Lengths of two lists: any, or very different ones.
fn lengths(r: &mut Random) -> (usize, usize) {
    let mut any = || [0, 1, 2, 3, 5, 12, 40][r.below(7)];
    let (n, m) = (any(), any());
    match r.below(8) {
        0 => (1 + n.min(2), 150),
        1 => (150, 1 + m.min(2)),
        _ => (n, m),
    }
}

/// Each list by halves as the brute force says, as both sweeps have it, and each mistake told by many of them.
fn random_lists(r: &mut Random) {
    let rounds = 6_000;
    let mut told = [0; MISTAKES.len()];
    for round in 0..rounds {
        progress(round, rounds);
        let (n, m) = lengths(r);
        let (a, b) = (list(r, round, n), list(r, round, m));
        let (p, q) = (Columns::of(&a), Columns::of(&b));
        let all = model::pair_count(Strip::whole(&a), Strip::whole(&b)) as u32;
        let k = [1, 2, 1 + r.below(40) as u32, all.saturating_sub(1), all, all + 1, 4_096][r.below(7)].clamp(1, 4_096);
        let lengths = [0; 3].map(|_| k as usize + r.below(3));
        let columns = results(r, lengths);
        assert_eq!(same_k_list(Way::Halves, &p, &q, k, &columns), Ok(all.min(k)));
        let entries = WAYS.map(|way| {
            let mut columns = columns.clone();
            calls::k_list(way, &p, &q, k, &mut columns).unwrap();
            columns
        });
        assert!(entries[2] == entries[0] && entries[2] == entries[1], "the halves differ from a sweep");
        let right = modelled(&a, &b, k);
        assert_eq!(right.1, model::best(k, model::pairs(Strip::whole(&a), Strip::whole(&b))));
        assert_eq!(mistaken(Mistake::None, &a, &b, k), right);
        if n * m < 500 {
            // mistakes are tried on the shorter lists
            for (mistake, often) in MISTAKES.into_iter().zip(&mut told) {
                *often += (mistaken(mistake, &a, &b, k) != right) as u32;
            }
        }
    }
    assert!(told.iter().all(|often| *often > 100), "{told:?}");
}

/// A list by halves, as the brute force has it, with the entries of a sweep: its range pairs, and the looks of that sweep.
fn beside_a_sweep(r: &mut Random, a: &[Site], b: &[Site], k: u32) -> (u64, u64) {
    let (range_pairs, entries) = called(r, a, b, k);
    assert_eq!(modelled(a, b, k), (range_pairs, entries.clone()));
    let mut columns = results(r, [k as usize; 3]);
    let told = calls::k_list(Way::ReverseRun, &Columns::of(a), &Columns::of(b), k, &mut columns);
    let (count, counters) = told.unwrap();
    assert_eq!(columns.entries(count as usize), entries);
    (range_pairs, counters.looks)
}

/// Long lists along a road. Where it is at one x, a sweep looks at every pair, and the halves visit far fewer range pairs.
fn long_roads(r: &mut Random) {
    let (a, b) = (lawful(r, 6, 5_000), lawful(r, 6, 7_000));
    let [p, q] = [0; 2].map(|_| {
        let mut ys: Vec<i32> = (0..10_000).map(|_| r.from_to(-1_000_000, 1_000_000) as i32).collect();
        ys.sort();
        ys.iter().enumerate().map(|(i, y)| site(7, *y, i as u32)).collect::<Vec<_>>()
    });
    for k in [1, 100, 4_096] {
        beside_a_sweep(r, &a, &b, k);
        let (range_pairs, looks) = beside_a_sweep(r, &p, &q, k);
        assert!(looks == 100_000_000 && range_pairs < looks / 500, "{range_pairs} {looks}");
    }
}

/// Columns with fault 1, 2 or 3 of a list.
fn faulty() -> [(Columns, u32); 5] {
    let lawful = Columns::of(&line(&[1, 2, 3]));
    let (mut short, mut unlevel) = (lawful.clone(), lawful);
    short.number.pop();
    unlevel.height.pop();
    let high = Columns::of(&[site(0, MAX + 1, 0)]);
    let far_up = Columns::of(&[site(0, 0, 0).up(HIGHEST + 1)]);
    [(short, 1), (unlevel, 1), (high, 2), (far_up, 2), (Columns::of(&line(&[1, 0])), 3)]
}

fn k_list_refusals(r: &mut Random) {
    let (a, b) = (Columns::of(&f().0), Columns::of(&f().1));
    let k_list = |a: &Columns, b: &Columns, k, r: &mut Random, lengths| {
        let columns = results(r, lengths);
        same_k_list(Way::Halves, a, b, k, &columns)
    };
    for (bad, number) in faulty() {
        for k in [0, 3, 4] {
            assert_eq!(k_list(&bad, &b, k, r, [3; 3]), Err(number));
            assert_eq!(k_list(&a, &bad, k, r, [3; 3]), Err(number));
        }
        for (other, _) in faulty() {
            assert_eq!(k_list(&bad, &other, 3, r, [3; 3]), Err(number));
        }
    }
    for k in [0, 4_097, u32::MAX] {
        assert_eq!(k_list(&a, &b, k, r, [4_096; 3]), Err(4));
        assert_eq!(k_list(&a, &b, k, r, [0; 3]), Err(4));
    }
    for short in [[2, 3, 3], [3, 2, 3], [3, 3, 2]] {
        assert_eq!(k_list(&a, &b, 3, r, short), Err(6));
        assert_eq!(k_list(&a, &Columns::default(), 3, r, short), Err(6));
    }
    assert_eq!(k_list(&a, &b, 3, r, [3; 3]), Ok(3));
}

/// A customer's campaign on F with this K, its first list cut at 2 and its second at 1.
fn opened(r: &mut Random, customer: u32, k: u32) -> Bench {
    let (a, b) = f();
    let lists = [&Columns::of(&a), &Columns::of(&b)];
    campaigns::opened(r, customer, lists, [&[2, 3], &[1, 3]], k, [k as usize; 3])
}

fn job_refusals(r: &mut Random) {
    for customer in CUSTOMERS {
        refused_jobs(opened(r, customer, 2));
    }
}

fn refused_jobs(mut bench: Bench) {
    assert_eq!(same_job(Way::Halves, &mut bench, 0, 0), Ok(true));
    let job = |change: &dyn Fn(&mut Bench), s, t| {
        let mut other = bench.clone();
        change(&mut other);
        same_job(Way::Halves, &mut other, s, t)
    };
    for (bad, number) in faulty() {
        assert_eq!(job(&|other| other.a = bad.clone(), 0, 0), Err(number));
        assert_eq!(job(&|other| other.b = bad.clone(), 9, 9), Err(number));
    }
    let faults: [&dyn Fn(&mut Bench); 11] = [
        &|other| other.share_mut().k = 0,
        &|other| other.g.first_ends[1] = 4,
        &|other| other.g.marks[0] = 4,
        &|other| other.g.marks[2] = 1,
        &|other| other.g.marks[64] = 2,
        &|other| other.g.marks[1023] = 3,
        &|other| other.r.second.truncate(1),
        &|other| other.share_mut().entries = 1,
        &|other| other.r.first[1] = 3,
        &|other| other.r.distance[1] += 1,
        &|other| {
            // another job settled in place of the one that has the entries
            other.mark(0, false);
            other.mark(1, true);
        },
    ];
    for fault in faults {
        // 7 before 8 and 9
        for (s, t) in [(0, 1), (0, 0), (2, 0), (0, 2)] {
            assert_eq!(job(fault, s, t), Err(7));
        }
    }
    for (s, t) in [(2, 0), (0, 2), (32, 0), (0, 32), (u32::MAX, u32::MAX)] {
        assert_eq!(job(&|_| (), s, t), Err(8));
    }
    assert_eq!(job(&|_| (), 0, 0), Err(9));
    assert_eq!(job(&|_| (), 1, 0), Ok(false));
    assert_eq!(job(&|_| (), 0, 1), Ok(true));
}

/// A job by the call, held to the brute force too: whether it was swept, and its range pairs.
fn job(bench: &mut Bench, s: u32, t: u32) -> (u32, u64) {
    let mut other = bench.clone();
    let told = calls::job(Way::Halves, &mut other.g, other.customer, &other.a, &other.b, &mut other.r, s, t).unwrap();
    same_job(Way::Halves, bench, s, t).unwrap();
    (told.0, told.1.range_pairs)
}

/// M6 by halves: its second job is skipped and has no range pair.
fn jobs_on_f(r: &mut Random) {
    for customer in CUSTOMERS {
        let mut bench = opened(r, customer, 2);
        let told = [(0, 0), (1, 0), (0, 1), (1, 1)].map(|(s, t)| job(&mut bench, s, t));
        assert_eq!(told, [(1, 3), (0, 0), (1, 7), (1, 3)]);
        assert_eq!(bench.r.entries(2), [entry(5, 2, 2), entry(9, 1, 1)]);
        assert_eq!(same_status(&bench), Ok(Status { settled: 4, jobs: 4, entries: 2, k: 2 }));
    }
}

/// Entries of an earlier job, by whatever way, drop range pairs of a later one that has to go further alone.
fn old_entries_drop(r: &mut Random) {
    let (a, b) = (line(&[0, 100]), line(&[1, 40, 41, 200, 201]));
    let lists = [&Columns::of(&a), &Columns::of(&b)];
    for (way, customer) in WAYS.into_iter().flat_map(|way| CUSTOMERS.map(|customer| (way, customer))) {
        let mut bench = campaigns::opened(r, customer, lists, [&[1, 2], &[1, 5]], 1, [1; 3]);
        assert_eq!(same_job(way, &mut bench, 0, 0), Ok(true));
        assert_eq!(job(&mut bench, 1, 1), (1, 3));
        assert_eq!(bench.r.entries(1), [entry(1, 0, 0)]);
    }
    assert_eq!(called(r, &a[1..], &b[1..], 1), (5, vec![entry(59 * 59, 0, 1)]));
    // a gap squared equal to the last squared distance: neither skipped nor dropped
    let (a, b) = (line(&[0, 9]), line(&[4, 13]));
    let lists = [&Columns::of(&a), &Columns::of(&b)];
    let mut bench = campaigns::opened(r, 1, lists, [&[1, 2], &[1, 2]], 1, [1; 3]);
    assert_eq!([(1, 1), (0, 0), (0, 1)].map(|(s, t)| job(&mut bench, s, t)), [(1, 1), (1, 1), (0, 0)]);
    assert_eq!(bench.r.entries(1), [entry(16, 0, 0)]);
}

/// One sequence of jobs by each way, and by ways mixed: the same jobs are skipped, and the same entries are held.
fn jobs_agree(r: &mut Random) {
    let rounds = 1_200;
    let mut seen = [0; 2];
    for round in 0..rounds {
        progress(round, rounds);
        let (n, m) = ([1, 4, 12, 40][r.below(4)], [1, 4, 12, 40][r.below(4)]);
        let (a, b) = (list(r, round % KINDS, n), list(r, round % KINDS, m));
        let k = [1, 3, 1 + r.below(40) as u32][r.below(3)];
        let (first, second) = (cuts(r, a.len()), cuts(r, b.len()));
        let customer = either(r);
        let lists = [&Columns::of(&a), &Columns::of(&b)];
        let bench = campaigns::opened(r, customer, lists, [&first, &second], k, [k as usize; 3]);
        let mut benches = [0; 4].map(|_: u8| bench.clone());
        for _ in 0..30 {
            let (s, t) = (r.below(first.len()) as u32, r.below(second.len()) as u32);
            let mixed = WAYS[r.below(3)];
            let [classic, reverse, halves, any] = &mut benches;
            let answers = [
                same_job(Way::Classic, classic, s, t),
                same_job(Way::ReverseRun, reverse, s, t),
                same_job(Way::Halves, halves, s, t),
                same_job(mixed, any, s, t),
            ];
            assert!(answers.iter().all(|answer| *answer == answers[0]), "{answers:?}");
            for other in &benches {
                assert!(other.g == benches[0].g && other.r == benches[0].r, "job {s} {t}: the ways differ");
            }
            if let Ok(swept) = answers[2] {
                seen[swept as usize] += 1;
            }
        }
    }
    assert!(seen.iter().all(|n| *n > 1_000), "{seen:?}");
}

pub fn run(h: &mut Harness) {
    h.test("halves: fixed examples", || fixed_examples(&mut Random::new(110)));
    h.test("halves: empty lists and strips", || empty_lists_and_strips(&mut Random::new(111)));
    h.test("halves: small lists tell mistakes in the rule", || mistakes_told(&mut Random::new(112)));
    h.test("halves: random lists beside the brute force and both sweeps", || random_lists(&mut Random::new(113)));
    h.test("halves: long lists along a road", || long_roads(&mut Random::new(119)));
    h.test("halves: refused K lists in their order", || k_list_refusals(&mut Random::new(114)));
    h.test("halves: refused jobs in their order", || job_refusals(&mut Random::new(115)));
    h.test("halves: the fixed campaign, with a job skipped", || jobs_on_f(&mut Random::new(116)));
    h.test("halves: old entries drop range pairs", || old_entries_drop(&mut Random::new(117)));
    h.test("halves: jobs by every way and by ways mixed", || jobs_agree(&mut Random::new(118)));
}
