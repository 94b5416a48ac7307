//! Two lists with every height 0 give the plane's answers: the calls beside the brute force of the plane, which has no heights.

use crate::calls;
use crate::campaigns::{Bench, cuts, either, opened, results};
use crate::harness::{Harness, progress};
use crate::lists::{KINDS, lawful, stacked};
use crate::model::{Columns, Counters, Jobs, Site, WAYS, Way, way_number};
use crate::pair_lists::numbers;
use crate::plane::{self, flat};
use crate::random::Random;

/// A list of the plane, and the same with every height 0.
struct Level {
    plane: Vec<plane::Site>,
    columns: Columns,
}

impl Level {
    fn of(sites: &[Site]) -> Level {
        let level: Vec<Site> = sites.iter().map(|s| s.up(0)).collect();
        Level { plane: flat(sites), columns: Columns::of(&level) }
    }

    /// A list of a kind, now and then with all its sites at one position.
    fn random(r: &mut Random, kind: usize, most: usize) -> Level {
        if r.once_in(20) { Level::of(&stacked(5, 5, most as u32)) } else { Level::of(&lawful(r, kind, most)) }
    }
}

fn same_k_list(r: &mut Random, way: Way, a: &Level, b: &Level, k: u32) {
    let (entries, counters) = plane::k_list(way, &a.plane, &b.plane, k);
    let before = results(r, [k as usize; 3]);
    let mut columns = before.clone();
    let answer = calls::k_list(way, &a.columns, &b.columns, k, &mut columns);
    assert_eq!(answer, Ok((entries.len() as u32, counters)), "{way:?} k {k}");
    assert!(columns == before.holding(&entries), "{way:?} k {k}: a column differs");
}

fn k_lists(r: &mut Random) {
    let rounds = 6_000;
    for round in 0..rounds {
        progress(round, rounds);
        let (n, m) = ([0, 1, 5, 12, 40][r.below(5)], [0, 1, 5, 12, 40][r.below(5)]);
        let (a, b) = (Level::random(r, round, n), Level::random(r, round, m));
        let k = [1, 2, 1 + r.below(40) as u32, 4_096][r.below(4)];
        let way = WAYS[r.below(3)];
        same_k_list(r, way, &a, &b, k);
    }
    for kind in 0..KINDS {
        let (a, b) = (Level::random(r, kind, 150), Level::random(r, kind, 150));
        for way in WAYS {
            for k in [1, 30, 500] {
                same_k_list(r, way, &a, &b, k);
            }
        }
    }
}

fn same_distance_list(r: &mut Random, a: &Level, b: &Level, e: u32) {
    let pairs = plane::distance_list(&a.plane, &b.plane, e);
    let (mut first, mut second) = (numbers(r, pairs.len()), numbers(r, pairs.len()));
    let answer = calls::distance_list(&a.columns, &b.columns, e, &mut first, &mut second);
    assert_eq!(answer, Ok(pairs.len() as u64), "e {e}");
    assert!(first.into_iter().zip(second).eq(pairs), "e {e}: a column differs");
}

fn same_forecast(r: &mut Random, a: &Level, b: &Level, e: u32) {
    let partners = plane::forecast(&a.plane, &b.plane, e);
    let mut column = numbers(r, partners.len());
    let answer = calls::forecast(&a.columns, &b.columns, e, &mut column);
    assert_eq!(answer, Ok(partners.iter().map(|n| *n as u64).sum()), "e {e}");
    assert!(column == partners, "e {e}: the column differs");
}

fn distance_lists(r: &mut Random) {
    let rounds = 6_000;
    for round in 0..rounds {
        progress(round, rounds);
        let (n, m) = ([0, 1, 5, 12, 40][r.below(5)], [0, 1, 5, 12, 40][r.below(5)]);
        let (a, b) = (Level::random(r, round, n), Level::random(r, round, m));
        let e = match r.below(4) {
            0 => r.below(8) as u32,
            1 => r.next() as u32,
            2 => [2_828_427_124, 2_828_427_125, u32::MAX][r.below(3)],
            _ => r.below(40) as u32,
        };
        same_distance_list(r, &a, &b, e);
        same_forecast(r, &a, &b, e);
    }
}

/// Lowers K in a campaign of the plane and in the library's, and is refused before: 1 where entries were cut.
fn same_lowering(r: &mut Random, bench: &mut Bench, book: &mut plane::Campaign) -> u32 {
    let Bench { a, b, r: columns, g, customer } = bench;
    let before = book.status();
    for k in [0, before.k + 1, u32::MAX] {
        assert_eq!(calls::lower_k(g, *customer, a, b, k, columns), Err(4), "K {k} from {}", before.k);
    }
    let k = 1 + r.below(before.k as usize) as u32;
    assert_eq!(calls::lower_k(g, *customer, a, b, k, columns), Ok(()), "K {k} from {}", before.k);
    book.lower(k);
    assert_eq!(calls::status(g, *customer, a, b, columns), Ok(book.status()));
    (book.status().entries < before.entries) as u32
}

/// Several jobs in one call beside a campaign of the plane, where they are done one after another: how many were skipped.
fn same_jobs(r: &mut Random, bench: &mut Bench, book: &mut plane::Campaign, jobs: &[(usize, usize)]) -> u32 {
    let Bench { a, b, r: columns, g, customer } = bench;
    let before = columns.clone();
    let (mut rows, mut skipped, mut sums) = (Vec::new(), 0, Counters::default());
    for (s, t) in jobs {
        let way = WAYS[r.below(3)];
        match book.job(way, *s, *t) {
            Some(counters) => sums = sums.plus(counters),
            None => skipped += 1,
        }
        rows.push((*s as u32, *t as u32, way_number(way)));
    }
    let answer = calls::jobs(g, *customer, a, b, columns, &Jobs::of(&rows));
    assert_eq!(answer, Ok((skipped, sums)), "{rows:?}");
    assert!(*columns == before.holding(&book.entries), "{rows:?}: a column differs");
    assert_eq!(calls::status(g, *customer, a, b, columns), Ok(book.status()));
    skipped
}

/// A campaign of the plane beside the library's, of either customer, status after each job, and now and then a smaller K or
/// several jobs in one call: jobs swept and skipped, lowerings that cut entries, and jobs done in a call for several.
fn same_campaign(r: &mut Random, a: &Level, b: &Level, k: u32, ends: [&[u32]; 2]) -> [u32; 4] {
    let customer = either(r);
    let mut bench = opened(r, customer, [&a.columns, &b.columns], ends, k, [k as usize; 3]);
    let mut book = plane::Campaign::opened(&a.plane, &b.plane, k, ends[0], ends[1]);
    let mut seen = [0; 4];
    let mut jobs: Vec<(usize, usize)> =
        (0..ends[0].len()).flat_map(|s| (0..ends[1].len()).map(move |t| (s, t))).collect();
    while !jobs.is_empty() {
        if r.once_in(8) {
            seen[2] += same_lowering(r, &mut bench, &mut book);
        }
        if r.once_in(10) {
            let number = r.below(jobs.len().min(8) + 1);
            let several: Vec<_> = (0..number).map(|_| jobs.swap_remove(r.below(jobs.len()))).collect();
            let skipped = same_jobs(r, &mut bench, &mut book, &several);
            seen[1] += skipped;
            seen[3] += number as u32;
            continue;
        }
        let (s, t) = jobs.swap_remove(r.below(jobs.len()));
        let way = WAYS[r.below(3)];
        let (g, columns) = (&mut bench.g, &mut bench.r);
        let before = columns.clone();
        let told = book.job(way, s, t);
        let expected = told.map_or((0, Counters::default()), |counters| (1, counters));
        let answer = calls::job(way, g, customer, &a.columns, &b.columns, columns, s as u32, t as u32);
        assert_eq!(answer, Ok(expected), "{way:?} job {s} {t}");
        assert!(*columns == before.holding(&book.entries), "{way:?} job {s} {t}: a column differs");
        assert_eq!(calls::status(g, customer, &a.columns, &b.columns, columns), Ok(book.status()));
        seen[told.is_none() as usize] += 1;
    }
    seen
}

fn campaigns(r: &mut Random) {
    let rounds = 1_500;
    let mut seen = [0; 4];
    for round in 0..rounds {
        progress(round, rounds);
        let (n, m) = ([1, 3, 10, 40][r.below(4)], [1, 3, 10, 40][r.below(4)]);
        let (a, b) = (Level::random(r, round, n), Level::random(r, round, m));
        let k = [1, 2, 5, 1 + r.below(30) as u32, 4_096][r.below(5)];
        let (first, second) = (cuts(r, a.plane.len()), cuts(r, b.plane.len()));
        let shown = same_campaign(r, &a, &b, k, [&first, &second]);
        seen.iter_mut().zip(shown).for_each(|(all, one)| *all += one);
    }
    assert!(seen[0] > 1_000 && seen[1] > 1_000 && seen[2] > 500 && seen[3] > 1_000, "{seen:?}");
}

pub fn run(h: &mut Harness) {
    h.test("every height 0: the plane's K lists", || k_lists(&mut Random::new(91)));
    h.test("every height 0: the plane's distance lists and forecasts", || distance_lists(&mut Random::new(92)));
    h.test("every height 0: the plane's campaigns", || campaigns(&mut Random::new(93)));
}
