//! Preparing, opening, lowering K, jobs, one by one and several in one call, and status beside the brute force, and whole
//! histories of one customer beside their book. The other customer's part of the grid holds anything meanwhile.

use crate::calls;
use crate::harness::{Harness, progress};
use crate::lists::{HIGHEST, LOWEST, MAX, damaged, even, f, lawful, stacked};
use crate::model::{
    self, Book, CUSTOMERS, Columns, Counters, Grid, Jobs, Opening, Results, Share, Status, Strip, WAYS, Way, site,
};
use crate::random::Random;
use std::collections::BTreeMap;

/// All that a customer's calls are lent, their number included.
#[derive(Clone)]
pub struct Bench {
    pub a: Columns,
    pub b: Columns,
    pub r: Results,
    pub g: Grid,
    pub customer: u32,
}

impl Bench {
    pub fn share(&self) -> &Share {
        self.g.share(self.customer)
    }

    pub fn share_mut(&mut self) -> &mut Share {
        self.g.share_mut(self.customer)
    }

    /// Sets the customer's bit of a mark, or clears it.
    pub fn mark(&mut self, mark: usize, settled: bool) {
        self.g.marks[mark] = model::marked(self.customer, self.g.marks[mark], settled);
    }
}

pub fn results(r: &mut Random, lengths: [usize; 3]) -> Results {
    Results {
        distance: (0..lengths[0]).map(|_| r.next()).collect(),
        first: (0..lengths[1]).map(|_| r.next() as u32).collect(),
        second: (0..lengths[2]).map(|_| r.next() as u32).collect(),
    }
}

/// A grid that holds anything, as before a preparing.
pub fn anything(r: &mut Random) -> Grid {
    let mut g = model::blank_grid();
    g.first_strips = r.next() as u32;
    g.second_strips = r.next() as u32;
    g.first_ends = [0; 32].map(|_: u32| r.next() as u32);
    g.second_ends = [0; 32].map(|_: u32| r.next() as u32);
    g.marks = [0; 1024].map(|_: u8| r.next() as u8);
    g.shares = g.shares.map(|_| Share { k: r.next() as u32, entries: r.next() as u32 });
    g
}

/// Either customer.
pub fn either(r: &mut Random) -> u32 {
    CUSTOMERS[r.below(2)]
}

pub fn other_customer(customer: u32) -> u32 {
    3 - customer
}

/// Puts anything into a customer's part of a lawful grid: whatever K and entry count, whatever bits inside the jobs.
pub fn any_part(r: &mut Random, g: &mut Grid, customer: u32) {
    let number = |r: &mut Random| [0, 1, 5, 4_096, 4_097, u32::MAX, r.next() as u32][r.below(7)];
    *g.share_mut(customer) = Share { k: number(r), entries: number(r) };
    for s in 0..g.first_strips as usize {
        for t in 0..g.second_strips as usize {
            let mark = &mut g.marks[32 * s + t];
            *mark = model::marked(customer, *mark, r.once_in(2));
        }
    }
}

/// A grid prepared for cuts of two lists, in which the other customer has anything, and columns of these lengths.
pub fn prepared(
    r: &mut Random,
    customer: u32,
    lists: [&Columns; 2],
    ends: [&[u32]; 2],
    lengths: [usize; 3],
) -> Bench {
    let [a, b] = lists.map(Columns::clone);
    let mut bench = Bench { a, b, r: results(r, lengths), g: anything(r), customer };
    same_prepare(&mut bench, ends[0], ends[1]).unwrap();
    any_part(r, &mut bench.g, other_customer(customer));
    bench
}

/// The same after an opening with this K.
pub fn opened(
    r: &mut Random,
    customer: u32,
    lists: [&Columns; 2],
    ends: [&[u32]; 2],
    k: u32,
    lengths: [usize; 3],
) -> Bench {
    let mut bench = prepared(r, customer, lists, ends, lengths);
    same_open(&mut bench, k, ends[0], ends[1]).unwrap();
    bench
}

pub fn same_prepare(bench: &mut Bench, first: &[u32], second: &[u32]) -> Result<(), u32> {
    let expected = model::prepare(&bench.a, &bench.b, first, second);
    let before = bench.g.clone();
    let answer = calls::prepare(&bench.a, &bench.b, first, second, &mut bench.g);
    match expected {
        Ok(grid) => {
            assert_eq!(answer, Ok(()), "{first:?} {second:?}");
            assert!(bench.g == grid, "the grid differs: {:?}", bench.g);
        }
        Err(refusal) => {
            assert_eq!(answer, Err(refusal), "{first:?} {second:?}");
            assert!(bench.g == before, "a refused preparing changed the grid");
        }
    }
    answer
}

pub fn same_open(bench: &mut Bench, k: u32, first: &[u32], second: &[u32]) -> Result<(), u32> {
    let o = Opening { k, first_ends: first, second_ends: second };
    let before = bench.g.clone();
    let expected = model::open(&before, bench.customer, &bench.a, &bench.b, o, &bench.r);
    let answer = calls::open(&mut bench.g, bench.customer, &bench.a, &bench.b, o, &bench.r);
    match expected {
        Ok(grid) => {
            assert_eq!(answer, Ok(()), "customer {} {o:?}", bench.customer);
            assert!(bench.g == grid, "the grid differs: {:?}", bench.g);
        }
        Err(refusal) => {
            assert_eq!(answer, Err(refusal), "customer {} {o:?}", bench.customer);
            assert!(bench.g == before, "a refused opening changed the grid");
        }
    }
    answer
}

pub fn same_lower(bench: &mut Bench, k: u32) -> Result<(), u32> {
    let before = bench.g.clone();
    let expected = model::lower_k(&before, bench.customer, &bench.a, &bench.b, k, &bench.r);
    let answer = calls::lower_k(&mut bench.g, bench.customer, &bench.a, &bench.b, k, &bench.r);
    match expected {
        Ok(grid) => {
            assert_eq!(answer, Ok(()), "customer {} lowers K to {k}", bench.customer);
            assert!(bench.g == grid, "the grid differs: {:?}", bench.g);
        }
        Err(refusal) => {
            assert_eq!(answer, Err(refusal), "customer {} lowers K to {k}", bench.customer);
            assert!(bench.g == before, "a refused lowering changed the grid");
        }
    }
    answer
}

pub fn same_job(way: Way, bench: &mut Bench, s: u32, t: u32) -> Result<bool, u32> {
    let before = bench.clone();
    let customer = bench.customer;
    let expected = model::job(way, &before.g, customer, &before.a, &before.b, &before.r, s, t);
    let answer = calls::job(way, &mut bench.g, customer, &bench.a, &bench.b, &mut bench.r, s, t);
    match expected {
        Ok(done) => {
            assert_eq!(answer, Ok((done.swept as u32, done.counters)), "customer {customer} {way:?} job {s} {t}");
            assert!(bench.g == done.grid, "customer {customer} {way:?} job {s} {t}: the grid differs");
            assert!(bench.r == done.results, "customer {customer} {way:?} job {s} {t}: a column differs");
            assert!(done.swept || done.counters == Counters::default());
            Ok(done.swept)
        }
        Err(refusal) => {
            assert_eq!(answer, Err(refusal), "customer {customer} {way:?} job {s} {t}");
            assert!(bench.g == before.g && bench.r == before.r, "a refused job changed something");
            Err(refusal)
        }
    }
}

/// Several jobs in one call: how many were skipped.
pub fn same_jobs(bench: &mut Bench, jobs: &Jobs) -> Result<u32, u32> {
    let before = bench.clone();
    let customer = bench.customer;
    let expected = model::jobs(&before.g, customer, &before.a, &before.b, &before.r, jobs);
    let answer = calls::jobs(&mut bench.g, customer, &bench.a, &bench.b, &mut bench.r, jobs);
    match expected {
        Ok(done) => {
            assert_eq!(answer, Ok((done.skipped, done.counters)), "customer {customer} {jobs:?}");
            assert!(bench.g == done.grid, "customer {customer} {jobs:?}: the grid differs");
            assert!(bench.r == done.results, "customer {customer} {jobs:?}: a column differs");
            Ok(done.skipped)
        }
        Err(refusal) => {
            assert_eq!(answer, Err(refusal), "customer {customer} {jobs:?}");
            assert!(bench.g == before.g && bench.r == before.r, "refused jobs changed something: {jobs:?}");
            Err(refusal)
        }
    }
}

pub fn same_status(bench: &Bench) -> Result<Status, u32> {
    let answer = calls::status(&bench.g, bench.customer, &bench.a, &bench.b, &bench.r);
    let expected = model::status(&bench.g, bench.customer, &bench.a, &bench.b, &bench.r);
    assert_eq!(answer, expected, "customer {}", bench.customer);
    answer
}

/// Bench A: the K list by the classic sweep, with a campaign's lists and the K in force, has the campaign's entries.
pub fn same_as_one_sweep(r: &mut Random, bench: &Bench) {
    let Share { k, entries } = *bench.share();
    let mut whole = results(r, [k as usize; 3]);
    let (count, _) = calls::k_list(Way::Classic, &bench.a, &bench.b, k, &mut whole).unwrap();
    assert_eq!(count, entries);
    assert_eq!(whole.entries(count as usize), bench.r.entries(count as usize));
}

/// Lawful cut ends of a list, at random places.
pub fn cuts(r: &mut Random, sites: usize) -> Vec<u32> {
    if sites == 0 {
        return Vec::new();
    }
    let wanted = 1 + r.below(sites.min(32));
    let mut ends: Vec<u32> = (0..wanted).map(|_| 1 + r.below(sites) as u32).collect();
    ends.push(sites as u32);
    ends.sort();
    ends.dedup();
    if ends.len() > 32 {
        ends.drain(..ends.len() - 32);
    }
    ends
}

/// A K to lower this one to: an allowed one as a rule, if there is any; now and then 0, or one above.
pub fn lower_to(r: &mut Random, present: u32) -> u32 {
    match r.below(10) {
        0 => 0,
        1 => present.wrapping_add(1),
        2 => [u32::MAX, present.wrapping_add(1 << r.below(32)), r.next() as u32][r.below(3)],
        3 => 1,
        4 => present,
        5 => present.saturating_sub(1),
        _ => 1 + r.below(present.max(1) as usize) as u32,
    }
}

/// A strip number, now and then one that is not below the count.
pub fn strip_number(r: &mut Random, strips: usize) -> u32 {
    if strips == 0 || r.once_in(12) {
        return [strips as u32, 32, u32::MAX][r.below(3)];
    }
    r.below(strips) as u32
}

/// Numbers that are no way: beside 2, and such that their last bits are those of a way.
pub const NO_WAY: [u32; 8] = [3, 4, 255, 0x100, 0x1_0001, 0x8000_0002, u32::MAX - 1, u32::MAX];

/// A job and the number of its way.
pub type Row = (u32, u32, u32);

/// A customer's open jobs of so many strips a list, in any order, each by any way.
pub fn open_jobs(r: &mut Random, g: &Grid, customer: u32, strips: [usize; 2]) -> Vec<Row> {
    let mut jobs: Vec<_> = (0..strips[0]).flat_map(|s| (0..strips[1]).map(move |t| (s, t))).collect();
    jobs.retain(|(s, t)| !g.settled(customer, *s, *t));
    for i in (1..jobs.len()).rev() {
        jobs.swap(i, r.below(i + 1));
    }
    jobs.into_iter().map(|(s, t)| (s as u32, t as u32, r.below(3) as u32)).collect()
}

/// A row that is at fault as a rule: a strip number or a way that is none, a job of the call once more, or any job.
fn some_row(r: &mut Random, rows: &[Row], strips: [usize; 2]) -> Row {
    let [s, t] = strips.map(|n| r.below(n.max(1)) as u32);
    let way = r.below(3) as u32;
    let beyond = |r: &mut Random, n: usize| [n as u32, 32, 0x100, u32::MAX][r.below(4)];
    match r.below(5) {
        0 => (beyond(r, strips[0]), t, way),
        1 => (s, beyond(r, strips[1]), way),
        2 => (s, t, NO_WAY[r.below(NO_WAY.len())]),
        3 if !rows.is_empty() => rows[r.below(rows.len())],
        _ => (s, t, way),
    }
}

/// At most so many jobs for one call: open ones of the customer as a rule, now and then with a fault among them, or with a
/// column that is one longer or shorter.
pub fn some_jobs(r: &mut Random, g: &Grid, customer: u32, strips: [usize; 2], most: usize) -> Jobs {
    let mut rows = open_jobs(r, g, customer, strips);
    rows.truncate(r.below(most + 1));
    if r.once_in(3) {
        let row = some_row(r, &rows, strips);
        rows.insert(r.below(rows.len() + 1), row);
    }
    let mut jobs = Jobs::of(&rows);
    if r.once_in(15) {
        let length = if r.once_in(2) { rows.len() + 1 } else { rows.len().saturating_sub(1) };
        [&mut jobs.first, &mut jobs.second, &mut jobs.way][r.below(3)].resize(length, 0);
    }
    jobs
}

fn fixed_example() {
    let r = &mut Random::new(50);
    let (a, b) = f();
    let mixed = [
        [Way::Classic, Way::ReverseRun, Way::ReverseRun, Way::Classic],
        [Way::Halves, Way::Classic, Way::ReverseRun, Way::Halves],
        [Way::ReverseRun, Way::Halves, Way::Halves, Way::Classic],
    ];
    let lists = [&Columns::of(&a), &Columns::of(&b)];
    for (i, ways) in WAYS.map(|way| [way; 4]).into_iter().chain(mixed).chain(mixed).enumerate() {
        let mut bench = opened(r, CUSTOMERS[i % 2], lists, [&[2, 3], &[1, 3]], 2, [2, 3, 4]);
        let jobs = [(0, 0, true), (1, 0, false), (0, 1, true), (1, 1, true)];
        for (way, (s, t, swept)) in ways.into_iter().zip(jobs) {
            assert_eq!(same_job(way, &mut bench, s, t), Ok(swept));
            assert_eq!(same_job(way, &mut bench, s, t), Err(9));
            assert_eq!(same_job(way, &mut bench, 2, t), Err(8));
            assert_eq!(same_job(way, &mut bench, s, 2), Err(8));
            same_status(&bench).unwrap();
        }
        assert_eq!((&bench.r.first[..2], &bench.r.second[..2]), (&[2, 1][..], &[2, 1][..]));
    }
}

fn opening_refusals() {
    let r = &mut Random::new(51);
    for customer in CUSTOMERS {
        refused_openings(r, customer);
    }
}

/// Preparings and openings as one customer. An opening gets the refusals of a preparing with the same lists and ends, too.
fn refused_openings(r: &mut Random, customer: u32) {
    let (a, b) = f();
    let (a, b) = (Columns::of(&a), Columns::of(&b));
    let lawful: &[u32] = &[1, 3];
    let bench = prepared(r, customer, [&a, &b], [lawful, lawful], [5, 5, 5]);
    let unlawful: [&[u32]; 10] =
        [&[], &[0], &[0, 3], &[1], &[4], &[1, 4], &[2, 1, 3], &[1, 1, 3], &[3, 3], &[u32::MAX, 3]];
    for ends in unlawful {
        for (first, second) in [(ends, lawful), (lawful, ends), (ends, ends)] {
            assert_eq!(same_prepare(&mut bench.clone(), first, second), Err(5));
            assert_eq!(same_open(&mut bench.clone(), 5, first, second), Err(5));
            // 4 before 5, 5 before 6
            assert_eq!(same_open(&mut bench.clone(), 0, first, second), Err(4));
            assert_eq!(same_open(&mut bench.clone(), 4_097, first, second), Err(4));
            assert_eq!(same_open(&mut bench.clone(), 6, first, second), Err(5));
        }
    }
    assert_eq!(same_open(&mut bench.clone(), 6, lawful, lawful), Err(6));
    for ends in [&[3][..], &[1, 3], &[2, 3], &[1, 2, 3]] {
        for (first, second) in [(ends, lawful), (lawful, ends)] {
            let mut one = prepared(r, customer, [&a, &b], [first, second], [5, 5, 5]);
            assert_eq!(same_open(&mut one, 5, first, second), Ok(()));
        }
    }
    for k in [1usize, 5, 4_096] {
        for lengths in [[k - 1, k, k], [k, k - 1, k], [k, k, k - 1], [k, k, k]] {
            let mut one = Bench { r: results(r, lengths), ..bench.clone() };
            let answer = if lengths == [k, k, k] { Ok(()) } else { Err(6) };
            assert_eq!(same_open(&mut one, k as u32, lawful, lawful), answer);
        }
    }
    // empty lists have no ends, and every job of theirs gets 8
    let none = Columns::default();
    let mut one = Bench { a: none.clone(), ..bench.clone() };
    assert_eq!(same_prepare(&mut one, &[0], lawful), Err(5));
    let mut one = prepared(r, customer, [&none, &b], [&[], lawful], [5, 5, 5]);
    assert_eq!(same_open(&mut one, 5, &[0], lawful), Err(5));
    assert_eq!(same_open(&mut one, 5, &[], lawful), Ok(()));
    assert_eq!(same_job(Way::Classic, &mut one, 0, 0), Err(8));
    assert_eq!(same_status(&one), Ok(Status { settled: 0, jobs: 0, entries: 0, k: 5 }));
    // 32 ends are taken, 33 are not
    let sites: Vec<_> = (0..40).map(|x| site(x, 0, 0)).collect();
    let long = Columns::of(&sites);
    let (most, more): (Vec<u32>, Vec<u32>) = ((9..=40).collect(), (8..=40).collect());
    let mut one = prepared(r, customer, [&long, &b], [&most, lawful], [5, 5, 5]);
    assert_eq!(same_open(&mut one, 5, &more, lawful), Err(5));
    assert_eq!(same_prepare(&mut one, &more, lawful), Err(5));
    assert_eq!(same_open(&mut one, 5, &most, lawful), Ok(()));
    // lists before everything, the first before the second
    let high = Columns::of(&[site(0, MAX + 1, 0)]);
    let falling = Columns::of(&[site(1, 0, 0), site(0, 0, 0)]);
    let mut one = Bench { a: falling.clone(), b: high.clone(), ..bench.clone() };
    let refused = |one: &mut Bench| [same_prepare(one, &[], &[]), same_open(one, 0, &[], &[])];
    assert_eq!(refused(&mut one), [Err(3); 2]);
    one.a = bench.a.clone();
    assert_eq!(refused(&mut one), [Err(2); 2]);
    one.b.y.pop();
    assert_eq!(refused(&mut one), [Err(1); 2]);
}

/// A number beside this one, or one of these.
fn other_than(r: &mut Random, number: u32, others: &[u32]) -> u32 {
    match r.below(others.len() + 2) {
        0 => number.wrapping_add(1),
        1 => number.wrapping_sub(1),
        i => others[i - 2],
    }
}

/// Changes one thing of what a customer's calls are lent.
pub fn tamper(r: &mut Random, bench: &mut Bench) {
    let Share { k, entries } = *bench.share();
    let whose = either(r);
    let g = &mut bench.g;
    let share = *g.share(whose);
    let job = 32 * r.below(g.first_strips.min(31) as usize + 1) + r.below(g.second_strips.min(31) as usize + 1);
    let (k, entries) = (k as usize, bench.r.shortest().min(entries as usize));
    let (n, m) = (bench.a.shortest(), bench.b.shortest());
    match r.below(30) {
        0 => g.share_mut(bench.customer).k = other_than(r, k as u32, &[0, 4_097, u32::MAX]),
        1 => g.share_mut(bench.customer).entries = other_than(r, entries as u32, &[u32::MAX, k as u32, 0]),
        2 => g.first_strips = other_than(r, g.first_strips, &[33, u32::MAX, 0]),
        3 => g.second_strips = other_than(r, g.second_strips, &[33, u32::MAX, 0]),
        4 => g.first_ends[r.below(32)] = [0, 1, 5, u32::MAX, r.next() as u32][r.below(5)],
        5 => g.second_ends[r.below(32)] = [0, 1, 5, u32::MAX, r.next() as u32][r.below(5)],
        6 => g.marks[r.below(1024)] = [0, 1, 2, 3, 4, 255, r.next() as u8][r.below(7)],
        7 => g.marks[job] ^= whose as u8,
        8 => g.marks[job] = [4, 5, 7, 128, 255, 4 | r.next() as u8][r.below(6)],
        9 => g.share_mut(whose).k = other_than(r, share.k, &[0, 4_097, u32::MAX]),
        10 => g.share_mut(whose).entries = other_than(r, share.entries, &[u32::MAX, share.k, 0]),
        11 => g.marks[job] ^= 3,
        12 => bench.r.distance.truncate(k.saturating_sub(1)),
        13 => bench.r.first.truncate(k.saturating_sub(1)),
        14 => bench.r.second.truncate(k.saturating_sub(1)),
        15 => bench.a = damaged(r, &bench.a),
        16 => bench.b = damaged(r, &bench.b),
        17 => std::mem::swap(&mut bench.a, &mut bench.b),
        18 => {
            // a lawful list of as many sites, moved up
            for y in &mut bench.a.y {
                *y = y.saturating_add(1).min(MAX);
            }
        }
        19 => {
            // one floor higher
            for h in &mut bench.b.height {
                *h = h.saturating_add(1).min(HIGHEST);
            }
        }
        20 if n > 0 => bench.a.height[r.below(n)] = [LOWEST, 0, HIGHEST, HIGHEST + 1][r.below(4)],
        _ if entries == 0 => bench.r = results(r, [4_100, 4_100, 4_100]),
        21 => bench.r.distance[r.below(entries)] ^= 1 << r.below(64),
        22 => bench.r.first[r.below(entries)] = [u32::MAX, bench.a.x.len() as u32, 0][r.below(3)],
        23 => bench.r.second[r.below(entries)] = [u32::MAX, bench.b.x.len() as u32, 0][r.below(3)],
        24 => {
            let (i, j) = (r.below(entries), r.below(entries));
            bench.r.distance.swap(i, j);
            bench.r.first.swap(i, j);
            bench.r.second.swap(i, j);
        }
        25 => {
            // an entry twice
            let i = r.below(entries);
            let j = (i + 1) % entries;
            bench.r.distance[j] = bench.r.distance[i];
            bench.r.first[j] = bench.r.first[i];
            bench.r.second[j] = bench.r.second[i];
        }
        _ if n == 0 || m == 0 => bench.b.x.clear(),
        _ => {
            // another pair, or co-sited cells, with its true squared distance: settled or not, in order or not
            let (a, b) = (bench.a.sites(n), bench.b.sites(m));
            let (p, mut q) = (r.below(n), r.below(m));
            let mut at = if r.once_in(3) { r.below(entries) } else { entries - 1 };
            if let Some(place) = b.iter().position(|t| model::squared_distance(a[p], *t) == 0) {
                (q, at) = (place, 0);
            }
            bench.r.distance[at] = model::squared_distance(a[p], b[q]);
            bench.r.first[at] = p as u32;
            bench.r.second[at] = q as u32;
        }
    }
}

/// Every fault of refusal 7.
pub const FAULTS: [&str; 12] = [
    "K", "strip count", "ends", "mark above 3", "mark outside the jobs", "column", "entry count", "place",
    "squared distance", "co-sited", "unsettled job", "rank order",
];

/// What a history showed: refusals, faults of refusal 7, by each way jobs swept, skipped and repeated, jobs skipped though the
/// x gap alone would not do, and though the x and y gaps would not, tampered grids that passed, lowerings that were accepted,
/// calls for several jobs by their number, those that skipped some, and histories with no open job at their end.
#[derive(Default)]
struct Seen {
    refusals: BTreeMap<u32, u32>,
    faults: BTreeMap<&'static str, u32>,
    swept: [u32; 3],
    skipped: [u32; 3],
    repeated: [u32; 3],
    by_y: u32,
    by_height: u32,
    passed: u32,
    lowered: u32,
    calls: BTreeMap<u32, u32>,
    some_skipped: u32,
    complete: u32,
}

impl Seen {
    fn told<T>(&mut self, answer: Result<T, u32>) {
        *self.refusals.entry(answer.err().unwrap_or(0)).or_default() += 1;
    }
}

/// Calls on a grid that somebody tampered with: each as the brute force says, whatever it is.
fn tampered_calls(r: &mut Random, bench: &Bench, seen: &mut Seen) {
    let mut other = bench.clone();
    for _ in 0..1 + r.below(2) {
        tamper(r, &mut other);
    }
    if let Ok((a, b)) = model::lists(&other.a, &other.b) {
        match other.g.fault(other.customer, &a, &b, &other.r) {
            Some(fault) => *seen.faults.entry(fault).or_default() += 1,
            None => seen.passed += 1,
        }
    }
    seen.told(same_status(&other));
    let k = lower_to(r, other.share().k);
    seen.told(same_lower(&mut other.clone(), k));
    for way in WAYS {
        let s = r.below(other.g.first_strips.min(32) as usize + 1) as u32;
        let t = r.below(other.g.second_strips.min(32) as usize + 1) as u32;
        seen.told(same_job(way, &mut other, s, t));
    }
    let strips = [other.g.first_strips, other.g.second_strips].map(|n| n.min(32) as usize);
    let jobs = some_jobs(r, &other.g, other.customer, strips, 4);
    seen.told(same_jobs(&mut other, &jobs));
}

/// Whether a job that is skipped would be swept by the first `gaps` of the x gap, the y gap and the height gap.
fn swept_by(gaps: usize, bench: &Bench, s: u32, t: u32) -> bool {
    let (a, b) = model::lists(&bench.a, &bench.b).unwrap();
    let strip = |(from, to), sites| Strip { sites, from, to };
    let squares = model::squared_gaps(
        strip(model::strip_range(&bench.g.first_ends, s as usize), &a),
        strip(model::strip_range(&bench.g.second_ends, t as usize), &b),
    );
    squares[..gaps].iter().sum::<i128>() <= bench.r.distance[bench.share().k as usize - 1] as i128
}

/// A job held to the brute force and to the book.
fn job_in_history(r: &mut Random, bench: &mut Bench, book: &mut Book, strips: [usize; 2], seen: &mut Seen) {
    let [s, t] = strips.map(|n| strip_number(r, n));
    let before = bench.clone();
    let way = r.below(3);
    let answer = same_job(WAYS[way], bench, s, t);
    assert_eq!(answer.err().unwrap_or(0), book.job(s, t), "the book answers otherwise");
    match answer {
        Ok(true) => seen.swept[way] += 1,
        Ok(false) => {
            seen.skipped[way] += 1;
            seen.by_y += swept_by(1, &before, s, t) as u32;
            seen.by_height += swept_by(2, &before, s, t) as u32;
        }
        Err(refusal) => seen.repeated[way] += (refusal == 9) as u32,
    }
    seen.told(answer);
}

/// Several jobs in one call held to the brute force and to the book.
fn jobs_in_history(r: &mut Random, bench: &mut Bench, book: &mut Book, strips: [usize; 2], seen: &mut Seen) {
    let jobs = some_jobs(r, &bench.g, bench.customer, strips, 6);
    let answer = same_jobs(bench, &jobs);
    let number = answer.err().unwrap_or(0);
    assert_eq!(number, book.jobs(&jobs), "the book answers otherwise: {jobs:?}");
    *seen.calls.entry(number).or_default() += 1;
    seen.some_skipped += answer.is_ok_and(|skipped| skipped > 1) as u32;
    seen.told(answer);
}

/// One history of a customer: an opening, then calls of every kind, each held to the brute force and to the book.
fn history(r: &mut Random, kind: usize, seen: &mut Seen) {
    let (n, m) = ([0, 1, 3, 10, 40][r.below(5)], [1, 2, 3, 10, 40][r.below(5)]);
    let (a, b) = (Columns::of(&lawful(r, kind, n)), Columns::of(&lawful(r, kind, m)));
    let k = [1, 2, 5, 1 + r.below(30) as u32, 4_096][r.below(5)];
    let lengths = [0; 3].map(|_| k as usize + r.below(3));
    let (first, second) = (cuts(r, a.x.len()), cuts(r, b.x.len()));
    let customer = either(r);
    let mut bench = opened(r, customer, [&a, &b], [&first, &second], k, lengths);
    let mut book = Book::opened(&a, &b, Opening { k, first_ends: &first, second_ends: &second });
    let jobs = first.len() * second.len();
    for _ in 0..6 + 2 * jobs.min(60) {
        match r.below(12) {
            0 => tampered_calls(r, &bench, seen),
            1 => seen.told(same_status(&bench)),
            2 => {
                // a refused opening leaves the grid
                let ends: &[u32] = &[9, 8];
                let answer = same_open(&mut bench, k, ends, &second);
                assert!(answer.is_err());
                seen.told(answer);
            }
            3 if r.once_in(3) => {
                let k = lower_to(r, bench.share().k);
                let answer = same_lower(&mut bench, k);
                assert_eq!(answer.err().unwrap_or(0), book.lower(k), "the book answers otherwise");
                seen.lowered += answer.is_ok() as u32;
                seen.told(answer);
            }
            4 if r.once_in(3) => jobs_in_history(r, &mut bench, &mut book, [first.len(), second.len()], seen),
            _ => job_in_history(r, &mut bench, &mut book, [first.len(), second.len()], seen),
        }
        let status = book.status();
        assert_eq!(calls::status(&bench.g, customer, &bench.a, &bench.b, &bench.r), Ok(status));
        assert_eq!(bench.r.entries(status.entries as usize), book.entries(), "the book holds other entries");
    }
    if book.no_open_job() {
        seen.complete += 1;
        same_as_one_sweep(r, &bench);
    }
}

fn histories(r: &mut Random) {
    let mut seen = Seen::default();
    let rounds = 3_500;
    for round in 0..rounds {
        progress(round, rounds);
        history(r, round, &mut seen);
    }
    for number in [0, 1, 2, 3, 4, 5, 7, 8, 9] {
        assert!(seen.refusals.get(&number).is_some_and(|n| *n > 50), "{:?}", seen.refusals);
    }
    for fault in FAULTS {
        assert!(seen.faults.get(fault).is_some_and(|n| *n > 5), "{fault}: {:?}", seen.faults);
    }
    for jobs in [seen.swept, seen.skipped, seen.repeated] {
        assert!(jobs.iter().all(|n| *n > 1_000), "{:?} {:?} {:?}", seen.swept, seen.skipped, seen.repeated);
    }
    assert!(seen.passed > 50 && seen.complete > 50 && seen.lowered > 500, "{} {} {}", seen.passed, seen.complete, seen.lowered);
    assert!(seen.by_y > 100 && seen.by_height > 100, "{} {}", seen.by_y, seen.by_height);
    assert!(seen.calls.keys().eq(&[0, 8, 9]) && seen.calls.values().all(|n| *n > 200), "{:?}", seen.calls);
    assert!(seen.some_skipped > 200, "{}", seen.some_skipped);
}

/// The full grid of 32 strips a list, all 1,024 jobs in a random sequence.
fn full_grid(r: &mut Random) {
    let (a, b) = (lawful(r, 2, 200), lawful(r, 2, 200));
    let cut = |n: usize| (1..=32).map(|s| (n * s / 32) as u32).collect::<Vec<_>>();
    for k in [1, 50, 4_096] {
        let lengths = [k as usize; 3];
        let customer = either(r);
        let lists = [&Columns::of(&a), &Columns::of(&b)];
        let mut bench = opened(r, customer, lists, [&cut(a.len()), &cut(b.len())], k, lengths);
        let mut jobs: Vec<u32> = (0..1_024).collect();
        for i in (1..jobs.len()).rev() {
            jobs.swap(i, r.below(i + 1));
        }
        for job in jobs {
            same_job(WAYS[r.below(3)], &mut bench, job / 32, job % 32).unwrap();
        }
        assert_eq!(same_status(&bench).unwrap().settled, 1_024);
        let mut whole = results(r, lengths);
        let (count, _) = calls::k_list(Way::Classic, &bench.a, &bench.b, k, &mut whole).unwrap();
        assert_eq!(whole.entries(count as usize), bench.r.entries(bench.share().entries as usize));
    }
}

/// A list of 65,535 sites in 32 strips beside a short one.
fn long_list(r: &mut Random) {
    let (a, b) = (even(r, 65_535), lawful(r, 2, 9));
    let ends: Vec<u32> = (1..=32).map(|s| (65_535 * s / 32) as u32).collect();
    let lengths = [300; 3];
    let lists = [&Columns::of(&a), &Columns::of(&b)];
    let mut bench = opened(r, 2, lists, [&ends, &[4, b.len() as u32]], 300, lengths);
    for s in 0..32 {
        for t in 0..2 {
            same_job(WAYS[(s + t) as usize % 3], &mut bench, s, t).unwrap();
        }
    }
    let mut whole = results(r, lengths);
    calls::k_list(Way::Classic, &bench.a, &bench.b, 300, &mut whole).unwrap();
    assert_eq!(whole.entries(300), bench.r.entries(300));
}

/// All 65,535 sites of each list at one position, in one strip and in 32: status and opening need no look at each pair.
fn one_position(r: &mut Random) {
    let (mut a, b) = (stacked(-3, 8, 65_535), stacked(-3, 8, 65_535));
    let cut = |n: u32, strips: u32| (1..=strips).map(|s| n * s / strips).collect::<Vec<_>>();
    for (customer, strips) in [(2, 1), (1, 32)] {
        let ends = cut(65_535, strips);
        let lists = [&Columns::of(&a), &Columns::of(&b)];
        let mut bench = opened(r, customer, lists, [&ends, &ends], 40, [40; 3]);
        assert_eq!(same_status(&bench), Ok(Status { settled: 0, jobs: strips * strips, entries: 0, k: 40 }));
        for s in 0..strips as usize {
            for t in 0..strips as usize {
                bench.mark(32 * s + t, true);
            }
        }
        let all = Status { settled: strips * strips, jobs: strips * strips, entries: 0, k: 40 };
        assert_eq!(same_status(&bench), Ok(all));
        assert_eq!(same_job(Way::Classic, &mut bench, 0, 0), Err(9));
        // co-sited cells as an entry, whatever the count says
        for entries in 0..3 {
            bench.share_mut().entries = entries;
            bench.r = bench.r.holding(&[model::Entry { distance: 0, first: 5, second: 5 }]);
            assert_eq!(same_status(&bench).is_ok(), entries == 0);
        }
    }
    // one site beside the others makes as many pairs as the other list has sites
    a[65_534].y = 9;
    let lists = [&Columns::of(&a), &Columns::of(&b)];
    for count in [0, 39, 40, 41] {
        let customer = either(r);
        let mut bench = opened(r, customer, lists, [&[65_000, 65_535], &[30, 65_535]], 40, [4_096; 3]);
        bench.mark(32, true);
        bench.share_mut().entries = count;
        let beside = |second| model::Entry { distance: 1, first: 65_534, second };
        bench.r = bench.r.holding(&(0..30).map(beside).collect::<Vec<_>>());
        assert_eq!(same_status(&bench), Err(7));
        bench.share_mut().entries = 30;
        assert_eq!(same_status(&bench), Ok(Status { settled: 1, jobs: 4, entries: 30, k: 40 }));
    }
}

/// A skip needs a gap squared above the last squared distance: equal is swept. The gap is that of the sites, not of the cuts.
fn skips_at_the_limit() {
    let r = &mut Random::new(56);
    for (x, swept) in [(5, true), (6, false)] {
        for (way, customer) in WAYS.into_iter().flat_map(|way| CUSTOMERS.map(|customer| (way, customer))) {
            let a = Columns::of(&[site(0, 0, 0)]);
            let b = Columns::of(&[site(0, 5, 0), site(x, 0, 0)]);
            let mut bench = opened(r, customer, [&a, &b], [&[1], &[1, 2]], 1, [1; 3]);
            assert_eq!(same_job(way, &mut bench, 0, 0), Ok(true));
            assert_eq!(same_job(way, &mut bench, 0, 1), Ok(swept));
        }
    }
}

/// The gap squared is that of the strips' boxes, a sum of squares. The first job leaves a pair that is `dx` and `dy` apart;
/// the second is of two strips whose boxes are `x` and `y` apart, with their edges at sites in the middle.
fn skips_by_boxes() {
    let r = &mut Random::new(57);
    let cases = [
        ((1, 0), (0, 50), false), // by x alone it is swept
        ((1, 0), (0, 1), true),
        ((5, 0), (3, 4), true), // equal is swept
        ((5, 0), (3, 5), false),
        ((5, 1), (4, 3), true), // the square of 4 + 3 would be 49
        ((4, 2), (4, 3), false),
        ((5, 0), (5, 0), true),
        ((5, 0), (0, 6), false),
    ];
    for ((dx, dy), (x, y), swept) in cases {
        let mut lists = [
            [site(-4_000, 0, 0), site(-2_100, -7, 0), site(-2_050, 0, 0), site(-2_000, -90, 0)],
            [site(-4_000 + dx, dy, 0), site(-2_000 + x, y + 40, 0), site(-1_900 + x, y, 0), site(-1_890 + x, y + 9, 0)],
        ];
        for customer in CUSTOMERS {
            lists.swap(0, 1);
            for way in WAYS {
                let [a, b] = [0, 1].map(|l| Columns::of(&lists[l]));
                let mut bench = opened(r, customer, [&a, &b], [&[1, 4], &[1, 4]], 1, [1; 3]);
                assert_eq!(same_job(way, &mut bench, 0, 0), Ok(true));
                assert_eq!(same_job(way, &mut bench, 1, 1), Ok(swept), "{way:?} {dx} {dy} {x} {y}");
            }
        }
    }
}

pub fn run(h: &mut Harness) {
    h.test("campaign: the fixed example", fixed_example);
    h.test("campaign: refused preparings and openings in their order", opening_refusals);
    h.test("campaign: a skip at the limit", skips_at_the_limit);
    h.test("campaign: skips by the strips' boxes", skips_by_boxes);
    h.test("campaign: random histories beside the book, with tampering", || histories(&mut Random::new(52)));
    h.test("campaign: all 1,024 jobs", || full_grid(&mut Random::new(53)));
    h.test("campaign: 65,535 sites of each list at one position", || one_position(&mut Random::new(55)));
    h.test("campaign: 65,535 sites", || long_list(&mut Random::new(54)));
}
