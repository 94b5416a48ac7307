//! Several jobs in one call (document 02 m): each call beside the brute force and beside the same jobs in calls of their own,
//! one after another; and faults at every place of a call, which refuse it whole.

use crate::calls;
use crate::campaigns::{
    Bench, FAULTS, NO_WAY, Row, cuts, either, lower_to, open_jobs, opened, other_customer, prepared, same_as_one_sweep,
    same_job, same_jobs, same_lower, same_open, same_status, some_jobs, tamper,
};
use crate::customers::{FIRST, NOBODY, SECOND, lists_f, on_f, reading};
use crate::harness::{Harness, progress};
use crate::lists::{even, lawful};
use crate::model::{self, Book, CUSTOMERS, Columns, Counters, Jobs, Opening, Share, Status, WAYS, Way, way_number};
use crate::random::Random;
use crate::smaller_k::{refused_with, under_way};
use std::collections::BTreeMap;

fn strips(bench: &Bench) -> [usize; 2] {
    [bench.g.first_strips as usize, bench.g.second_strips as usize]
}

/// The call as it is: the number skipped and the sums.
fn told(bench: &mut Bench, rows: &[Row]) -> Result<(u32, Counters), u32> {
    calls::jobs(&mut bench.g, bench.customer, &bench.a, &bench.b, &mut bench.r, &Jobs::of(rows))
}

/// One job in a call of its own: whether it was swept, and its counters. A way that is none gets 8.
fn single(bench: &mut Bench, (s, t, way): Row) -> Result<(u32, Counters), u32> {
    let way = WAYS.get(way as usize).ok_or(8u32)?;
    calls::job(*way, &mut bench.g, bench.customer, &bench.a, &bench.b, &mut bench.r, s, t)
}

/// The jobs in calls of their own, up to the first that is refused: the number skipped and the sums, or its number.
fn one_by_one(bench: &mut Bench, rows: &[Row]) -> Result<(u32, Counters), u32> {
    let (mut skipped, mut sums) = (0, Counters::default());
    for row in rows {
        let (swept, counters) = single(bench, *row)?;
        skipped += 1 - swept;
        sums = sums.plus(counters);
    }
    Ok((skipped, sums))
}

/// The call beside the brute force and beside the jobs in calls of their own: the same end and the same sums, or the number of
/// the first job at fault. What the other customer reads stays.
fn beside_single_jobs(bench: &mut Bench, rows: &[Row]) -> Result<u32, u32> {
    let (before, mut apart, mut once_more) = (bench.g.clone(), bench.clone(), bench.clone());
    let answer = same_jobs(bench, &Jobs::of(rows));
    let sums = one_by_one(&mut apart, rows);
    assert_eq!(answer, sums.map(|(skipped, _)| skipped), "{rows:?}");
    assert_eq!(told(&mut once_more, rows), sums, "{rows:?}");
    if answer.is_ok() {
        assert!(bench.g == apart.g && bench.r == apart.r, "one by one they end otherwise: {rows:?}");
    }
    let other = other_customer(bench.customer);
    assert!(reading(&bench.g, other) == reading(&before, other), "customer {other} reads otherwise: {rows:?}");
    answer
}

// Jobs that are all accepted.

/// M6 as one call, by each way and by ways mixed, cut at every place: one job is skipped, and the sums are those worked out by
/// hand.
fn fixed_example(r: &mut Random) {
    let sums = |looks, distances, range_pairs| Counters { looks, distances, range_pairs };
    let cases = [
        ([0, 0, 0, 0], sums(8, 5, 0)),
        ([2, 2, 2, 2], sums(0, 0, 13)),
        ([0, 2, 2, 0], sums(4, 3, 7)),
        ([2, 0, 0, 2], sums(4, 2, 6)),
        ([0, 1, 2, 2], sums(2, 2, 10)),
    ];
    let [a, b] = lists_f();
    for (customer, (ways, expected)) in CUSTOMERS.into_iter().flat_map(|c| cases.map(|case| (c, case))) {
        let rows = [(0, 0, ways[0]), (1, 0, ways[1]), (0, 1, ways[2]), (1, 1, ways[3])];
        let good = opened(r, customer, [&a, &b], [FIRST, SECOND], 2, [2, 3, 4]);
        assert_eq!(told(&mut good.clone(), &rows), Ok((1, expected)), "{ways:?}");
        for cut in 0..=4 {
            let mut bench = good.clone();
            let skipped = [&rows[..cut], &rows[cut..]].map(|part| beside_single_jobs(&mut bench, part).unwrap());
            assert_eq!(skipped, if cut < 2 { [0, 1] } else { [1, 0] });
            assert_eq!(same_status(&bench), Ok(Status { settled: 4, jobs: 4, entries: 2, k: 2 }));
            assert_eq!((&bench.r.first[..2], &bench.r.second[..2]), (&[2, 1][..], &[2, 1][..]));
            same_as_one_sweep(r, &bench);
            assert_eq!(beside_single_jobs(&mut bench, &rows[cut.min(3)..]), Err(9));
        }
    }
}

/// A campaign on a full grid of 32 strips a list, anything being the other's.
fn full_grid(r: &mut Random, customer: u32, kind: usize, k: u32) -> Bench {
    let lists = [0; 2].map(|_| Columns::of(&lawful(r, kind, 45)));
    let ends = lists.each_ref().map(|l| {
        let n = l.x.len();
        assert!(n >= 32, "{n}");
        (1..=32).map(|s| (n * s / 32) as u32).collect::<Vec<_>>()
    });
    opened(r, customer, [&lists[0], &lists[1]], [&ends[0], &ends[1]], k, [k as usize, k as usize + 2, k as usize + 1])
}

/// Calls of every number of jobs from 0 to 1,024, and of the rest after each: as after so many jobs in calls of their own, each
/// of which is held to the brute force.
fn every_number(r: &mut Random) {
    for (customer, kind, k) in [(1, 2, 25), (2, 7, 60)] {
        let good = full_grid(r, customer, kind, k);
        let rows = open_jobs(r, &good.g, customer, [32, 32]);
        let mut after = vec![(good.clone(), (0, Counters::default()))];
        for row in &rows {
            let (mut bench, (skipped, sums)) = after.last().unwrap().clone();
            let swept = same_job(WAYS[row.2 as usize], &mut bench.clone(), row.0, row.1).unwrap();
            let (_, counters) = single(&mut bench, *row).unwrap();
            after.push((bench, (skipped + !swept as u32, sums.plus(counters))));
        }
        let (end, (all_skipped, all_sums)) = after.last().unwrap();
        assert!(*all_skipped > 100 && all_skipped + 100 < 1_024, "{all_skipped}");
        for (n, (expected, (skipped, sums))) in after.iter().enumerate() {
            progress(n, 1_025);
            let mut bench = good.clone();
            assert_eq!(told(&mut bench, &rows[..n]), Ok((*skipped, *sums)), "{n} jobs");
            assert!(bench.g == expected.g && bench.r == expected.r, "{n} jobs end otherwise");
            let (rest_skipped, rest) = told(&mut bench, &rows[n..]).unwrap();
            assert_eq!((skipped + rest_skipped, sums.plus(rest)), (*all_skipped, *all_sums), "{n} jobs and the rest");
            assert!(bench.g == end.g && bench.r == end.r, "{n} jobs and the rest end otherwise");
        }
        same_as_one_sweep(r, end);
        assert_eq!(same_jobs(&mut good.clone(), &Jobs::of(&rows)), Ok(*all_skipped));
        assert_eq!(same_status(end).map(|status| status.settled), Ok(1_024));
    }
}

/// Random campaigns under way and calls of any number of their open jobs, cut at every place.
fn random_calls(r: &mut Random) {
    let rounds = 1_200;
    let (mut swept, mut skipped, mut many) = ([0; 2], [0; 2], 0);
    for round in 0..rounds {
        progress(round, rounds);
        let (sites, most) = ([1, 2, 4, 7, 12][r.below(5)], [1, 3, 30][r.below(3)]);
        let good = under_way(r, round, sites, most);
        let mut rows = open_jobs(r, &good.g, good.customer, strips(&good));
        rows.truncate(r.below(rows.len() + 1));
        let mut whole = good.clone();
        let all = beside_single_jobs(&mut whole, &rows).unwrap();
        for cut in 0..=rows.len() {
            let mut bench = good.clone();
            let (first, rest) = (told(&mut bench, &rows[..cut]).unwrap(), told(&mut bench, &rows[cut..]).unwrap());
            assert_eq!(first.0 + rest.0, all, "cut at {cut} of {rows:?}");
            assert!(bench.g == whole.g && bench.r == whole.r, "cut at {cut} it ends otherwise: {rows:?}");
        }
        let whose = good.customer as usize - 1;
        skipped[whose] += all;
        swept[whose] += rows.len() as u32 - all;
        many += (all > 1) as u32;
    }
    assert!(swept.iter().chain(&skipped).all(|n| *n > 500) && many > 100, "{swept:?} {skipped:?} {many}");
}

/// Jobs of which some must be skipped, each by every way: a skipped one adds nothing to the sums.
fn skipped_jobs(r: &mut Random) {
    // two sites close to each other, and strips far from them and from each other
    let row = |y| (0..6).map(|i| model::site(1_000 * i, y, 0)).collect::<Vec<_>>();
    let (a, b) = (Columns::of(&row(0)), Columns::of(&row(1)));
    let ends: &[u32] = &[1, 2, 3, 4, 5, 6];
    for (customer, way) in CUSTOMERS.into_iter().flat_map(|c| (0..3).map(move |way| (c, way))) {
        for skips in 0..=5 {
            let mut bench = opened(r, customer, [&a, &b], [ends, ends], 1, [1; 3]);
            let mut rows = vec![(0, 0, way)];
            rows.extend((1..=skips).map(|t| (0, t, (way + t) % 3)));
            let counters = WAYS[way as usize].counters(1, 1, 1);
            assert_eq!(told(&mut bench.clone(), &rows), Ok((skips, counters)), "{rows:?}");
            assert_eq!(beside_single_jobs(&mut bench, &rows), Ok(skips));
            // all of them skipped
            let rest: Vec<Row> = (1..6).map(|s| (s, 0, (way + s) % 3)).collect();
            assert_eq!(told(&mut bench.clone(), &rest), Ok((5, Counters::default())));
            assert_eq!(beside_single_jobs(&mut bench, &rest), Ok(5));
            // the same strips the other way about are swept, as they touch in x
            assert_eq!(beside_single_jobs(&mut bench, &[(1, 1, way), (2, 1, way), (2, 2, way)]), Ok(1));
        }
    }
}

/// No job at all: nothing changes, the sums are 0; on lists without sites too. What is refused is refused all the same.
fn no_job(r: &mut Random) {
    for round in 0..300 {
        let mut bench = under_way(r, round, [1, 4, 9][round % 3], 9);
        let before = bench.clone();
        assert_eq!(told(&mut bench, &[]), Ok((0, Counters::default())));
        assert!(bench.g == before.g && bench.r == before.r, "no job changed something");
        assert_eq!(same_jobs(&mut bench, &Jobs::default()), Ok(0));
    }
    let (none, some) = (Columns::default(), Columns::of(&lawful(r, 1, 9)));
    let ends = [some.x.len() as u32];
    let lists = [(&none, &some), (&some, &none), (&none, &none)];
    for (customer, (a, b)) in CUSTOMERS.into_iter().flat_map(|c| lists.map(|l| (c, l))) {
        let cut = |l: &Columns| if l.x.is_empty() { &[][..] } else { &ends[..] };
        let mut bench = opened(r, customer, [a, b], [cut(a), cut(b)], 5, [5; 3]);
        assert_eq!(same_jobs(&mut bench, &Jobs::default()), Ok(0));
        for row in [(0, 0, 0), (1, 0, 1), (0, 1, 2), (0, 0, 3), (u32::MAX, u32::MAX, u32::MAX)] {
            assert_eq!(same_jobs(&mut bench, &Jobs::of(&[row])), Err(8));
        }
    }
}

/// 65,535 sites in 32 strips beside a few, all jobs in one call.
fn long_list(r: &mut Random) {
    let (a, b) = (Columns::of(&even(r, 65_535)), Columns::of(&lawful(r, 2, 9)));
    let ends: Vec<u32> = (1..=32).map(|s| (65_535 * s / 32) as u32).collect();
    let good = opened(r, 1, [&a, &b], [&ends, &[4, b.x.len() as u32]], 4_000, [4_000; 3]);
    let mut rows = open_jobs(r, &good.g, 1, [32, 2]);
    for way in [None, Some(Way::Classic), Some(Way::ReverseRun), Some(Way::Halves)] {
        if let Some(way) = way {
            rows.iter_mut().for_each(|row| row.2 = way_number(way));
        }
        let (mut bench, mut apart) = (good.clone(), good.clone());
        let sums = told(&mut bench, &rows);
        assert_eq!(sums, one_by_one(&mut apart, &rows), "{way:?}");
        assert!(bench.g == apart.g && bench.r == apart.r, "{way:?}");
        // more than 16 bits hold
        let Counters { looks, distances, range_pairs } = sums.unwrap().1;
        let counted = if way == Some(Way::Halves) { [range_pairs; 2] } else { [looks, distances] };
        assert!(way.is_none() || counted.iter().all(|n| *n > 65_536), "{way:?} {counted:?}");
        same_as_one_sweep(r, &bench);
    }
}

// Faults.

/// A campaign with some jobs settled and others open, at least so many of each. The other customer has settled half of all.
fn half_done(r: &mut Random, customer: u32, open: usize) -> Bench {
    let lists = [0; 2].map(|_| Columns::of(&lawful(r, 1, 12)));
    let ends = lists.each_ref().map(|l| (1..=5).map(|s| (l.x.len() * s / 5) as u32).collect::<Vec<_>>());
    let mut bench = opened(r, customer, [&lists[0], &lists[1]], [&ends[0], &ends[1]], 6, [6, 7, 9]);
    let rows = open_jobs(r, &bench.g, customer, [5, 5]);
    same_jobs(&mut bench, &Jobs::of(&rows[open..])).unwrap();
    bench
}

/// A job that is settled for a customer, and by the other's mark or not.
fn settled_job(r: &mut Random, bench: &Bench) -> (u32, u32) {
    loop {
        let [s, t] = strips(bench).map(|n| r.below(n));
        if bench.g.settled(bench.customer, s, t) {
            return (s as u32, t as u32);
        }
    }
}

/// Strip numbers that are none, beside the count, and such that their last bits are those of a strip.
fn beyond(count: u32, strip: u32) -> [u32; 7] {
    [count, count + 1, 32, 32 + strip, 0x100 + strip, 0x1_0000 + strip, u32::MAX]
}

/// A row at fault, with its number.
type Fault = (u32, Row);

/// What can be wrong with a job after these: `free` is an open job that is not among them.
fn faults(r: &mut Random, bench: &Bench, before: &[Row], free: Row) -> Vec<Fault> {
    let (s, t, way) = free;
    let settled = settled_job(r, bench);
    let mut all: Vec<Fault> = Vec::new();
    all.extend(beyond(bench.g.first_strips, s).map(|none| (8, (none, t, way))));
    all.extend(beyond(bench.g.second_strips, t).map(|none| (8, (s, none, way))));
    all.extend(NO_WAY.map(|none| (8, (s, t, none))));
    all.extend((0..3).map(|way| (9, (settled.0, settled.1, way))));
    all.extend(before.iter().flat_map(|row| (0..3).map(|way| (9, (row.0, row.1, way)))));
    // 8 before 9 at one job
    all.extend(NO_WAY.map(|none| (8, (settled.0, settled.1, none))));
    all.extend(before.first().map(|row| (8, (row.0, row.1, 3))));
    all.push((8, (bench.g.first_strips, bench.g.second_strips, 3)));
    all
}

/// Rows with one put in at a place.
fn with_row(rows: &[Row], place: usize, row: Row) -> Vec<Row> {
    [&rows[..place], &[row], &rows[place..]].concat()
}

/// Every fault at every place of a call: put in, and in place of the job there. It refuses the call, and nothing is written;
/// the jobs before it, in calls of their own, are accepted.
fn faults_at_every_place(r: &mut Random) {
    let (rounds, mut tried) = (12, BTreeMap::new());
    for round in 0..rounds {
        progress(round, rounds);
        let bench = half_done(r, CUSTOMERS[round % 2], 9);
        let mut rows = open_jobs(r, &bench.g, bench.customer, [5, 5]);
        let free = rows.pop().unwrap();
        for place in 0..=rows.len() {
            for (number, row) in faults(r, &bench, &rows[..place], free) {
                let mut put_in = with_row(&rows, place, row);
                assert_eq!(beside_single_jobs(&mut bench.clone(), &put_in), Err(number), "{row:?} at {place} of {rows:?}");
                if place < rows.len() {
                    put_in.remove(place + 1);
                    assert_eq!(same_jobs(&mut bench.clone(), &Jobs::of(&put_in)), Err(number), "{row:?} at {place}");
                }
                *tried.entry((number, bench.customer)).or_insert(0) += 1;
            }
            let accepted = with_row(&rows, place, free);
            assert!(beside_single_jobs(&mut bench.clone(), &accepted).is_ok(), "{free:?} at {place} of {rows:?}");
        }
    }
    assert!(tried.len() == 4 && tried.values().all(|n| *n > 200), "{tried:?}");
}

/// Two faults, each of any kind, at any two places: the first of them decides.
fn two_faults(r: &mut Random) {
    let rounds = 4;
    for round in 0..rounds {
        let bench = half_done(r, CUSTOMERS[round % 2], 6);
        let mut rows = open_jobs(r, &bench.g, bench.customer, [5, 5]);
        let (s, t, way) = rows.pop().unwrap();
        let settled = settled_job(r, &bench);
        let kinds = [(8, (5, t, way)), (8, (s, u32::MAX, way)), (8, (s, t, 3)), (9, (settled.0, settled.1, way))];
        for (first, second) in (0..rows.len()).flat_map(|q| (0..=q).map(move |p| (p, q + 1))) {
            let again = |row: Row| (9, (row.0, row.1, way));
            let firsts = kinds.into_iter().chain((first > 0).then(|| again(rows[r.below(first.max(1))])));
            for (number, row) in firsts {
                let one = with_row(&rows, first, row);
                for (_, later) in kinds.into_iter().chain([again(rows[0])]) {
                    let both = with_row(&one, second, later);
                    assert_eq!(beside_single_jobs(&mut bench.clone(), &both), Err(number), "{both:?}");
                }
            }
        }
    }
}

/// A fault at each place of a call for all 1,024 jobs but one, every kind in turn; then the call without it is accepted.
fn faults_of_a_full_call(r: &mut Random) {
    for customer in CUSTOMERS {
        let mut bench = full_grid(r, customer, 2, 10);
        let mut rows = open_jobs(r, &bench.g, customer, [32, 32]);
        let settled = rows.pop().unwrap();
        single(&mut bench, settled).unwrap();
        let kinds = |free: Row, earlier: Option<Row>, i: usize| match i % 6 {
            0 => (8, (32, free.1, free.2)),
            1 => (8, (free.0, [32, u32::MAX][i % 2], free.2)),
            2 => (8, (free.0, free.1, NO_WAY[i % NO_WAY.len()])),
            3 => (9, (settled.0, settled.1, free.2)),
            _ => earlier.map_or((8, (free.0, free.1, 3)), |row| (9, (row.0, row.1, (i % 3) as u32))),
        };
        for place in 0..rows.len() {
            let earlier = (place > 0).then(|| rows[[0, place - 1, r.below(place.max(1))][place % 3]]);
            let (number, row) = kinds(rows[place], earlier, r.below(6));
            let mut call = rows.clone();
            call[place] = row;
            assert_eq!(same_jobs(&mut bench.clone(), &Jobs::of(&call)), Err(number), "{row:?} at {place}");
        }
        assert!(same_jobs(&mut bench, &Jobs::of(&rows)).is_ok());
        same_as_one_sweep(r, &bench);
    }
}

/// More rows than there are jobs: one of them is at fault, at the latest the first one more than there are.
fn more_than_all(r: &mut Random) {
    let good = full_grid(r, 1, 2, 10);
    let rows = open_jobs(r, &good.g, 1, [32, 32]);
    let told = |bench: &Bench, rows: &[Row]| same_jobs(&mut bench.clone(), &Jobs::of(rows)).err().unwrap_or(0);
    let repeated = |n: usize| rows.iter().cycle().take(n).copied().collect::<Vec<_>>();
    for n in [1_025, 1_026, 1_500, 2_047, 2_048, 2_049, 65_535, 65_536, 65_537, 66_560, 70_000, 131_072] {
        let mut more = repeated(n);
        assert_eq!(told(&good, &more), 9, "{n} rows");
        more[n - 1].2 = 3;
        assert_eq!(told(&good, &more), if n == 1_025 { 8 } else { 9 }, "{n} rows");
        let fault = r.below(1_024);
        more[fault].0 = 32;
        assert_eq!(told(&good, &more), 8, "{n} rows");
        more.truncate(1_024);
        more[fault] = rows[fault];
        assert_eq!(told(&good, &more), 0);
    }
    for last in [(32, 0, 0), (0, 32, 0), (0, 0, 3)] {
        assert_eq!(told(&good, &with_row(&rows, 1_024, last)), 8);
    }
    // with jobs settled before, the first of them in the call gets 9
    let mut bench = good.clone();
    assert!(one_by_one(&mut bench, &rows[300..]).is_ok());
    assert_eq!([told(&bench, &repeated(1_025)), told(&bench, &rows), told(&bench, &rows[..301])], [9; 3]);
    assert_eq!([told(&bench, &rows[..300]), told(&bench, &with_row(&rows[..300], 300, (32, 0, 0)))], [0, 8]);
    // a small grid
    let small = half_done(r, 2, 4);
    let few = open_jobs(r, &small.g, 2, [5, 5]);
    assert_eq!(told(&small, &few.repeat(300)), 9);
    assert_eq!([told(&small, &few), told(&small, &few.repeat(2))], [0, 9]);
}

/// Columns of any lengths from 0 to 5: unless all three are equal they get 8, whatever the jobs are, and after 7.
fn unequal_columns(r: &mut Random) {
    let lengths: Vec<[usize; 3]> = (0..6).flat_map(|i| (0..6).flat_map(move |j| (0..6).map(move |k| [i, j, k]))).collect();
    for customer in CUSTOMERS {
        let bench = half_done(r, customer, 6);
        let rows = open_jobs(r, &bench.g, customer, [5, 5])[..5].to_vec();
        let (s, t) = settled_job(r, &bench);
        let with = |place: usize, row: Row| [&rows[..place], &[row], &rows[place + 1..]].concat();
        let [(p, q, way), ..] = rows[..] else { panic!("no open job") };
        // the number that so many of the rows get, or more
        let kinds = [
            (rows.clone(), 0, 0),
            (with(1, (p, q, way)), 9, 2),
            (with(0, (s, t, way)), 9, 1),
            (with(0, (p, q, 3)), 8, 1),
            (with(0, (5, q, way)), 8, 1),
            (with(0, (p, 5, way)), 8, 1),
        ];
        for ((rows, number, from), cut) in kinds.iter().flat_map(|kind| lengths.iter().map(move |cut| (kind, *cut))) {
            let mut jobs = Jobs::of(rows);
            jobs.first.truncate(cut[0]);
            jobs.second.truncate(cut[1]);
            jobs.way.truncate(cut[2]);
            let unequal = cut[0] != cut[1] || cut[1] != cut[2];
            let of_the_rows = if cut[0] >= *from { *number } else { 0 };
            let expected = if unequal { 8 } else { of_the_rows };
            assert_eq!(same_jobs(&mut bench.clone(), &jobs).err().unwrap_or(0), expected, "{cut:?} of {rows:?}");
            let mut other = bench.clone();
            other.g.marks[1_023] = 1;
            assert_eq!(same_jobs(&mut other, &jobs), Err(7), "{cut:?} of {rows:?}");
        }
    }
    long_unequal_columns(r);
}

/// Columns of about 1,024 rows, and of 65,536 beside none: lengths that agree in their last bits are not equal.
fn long_unequal_columns(r: &mut Random) {
    let bench = full_grid(r, 2, 2, 10);
    let rows = open_jobs(r, &bench.g, 2, [32, 32]);
    for (column, length) in (0..3).flat_map(|c| [0, 1, 512, 1_023, 1_025, 2_048, 65_536 + 1_024].map(|n| (c, n))) {
        let mut jobs = Jobs::of(&rows);
        [&mut jobs.first, &mut jobs.second, &mut jobs.way][column].resize(length, 1);
        assert_eq!(same_jobs(&mut bench.clone(), &jobs), Err(8), "column {column} of {length}");
        let mut alone = Jobs::default();
        [&mut alone.first, &mut alone.second, &mut alone.way][column].resize(65_536, 0);
        assert_eq!(same_jobs(&mut bench.clone(), &alone), Err(8), "column {column} alone");
        let others = [&mut alone.first, &mut alone.second, &mut alone.way];
        others.into_iter().enumerate().for_each(|(i, c)| c.resize(if i == column { 0 } else { 3 }, 1));
        assert_eq!(same_jobs(&mut bench.clone(), &alone), Err(8), "column {column} empty");
    }
    assert!(same_jobs(&mut bench.clone(), &Jobs::of(&rows)).is_ok());
}

/// Calls of every kind of number for an open campaign on F with the jobs (0, 0) settled.
fn calls_on_f() -> Vec<(u32, Jobs)> {
    let unequal = Jobs { first: vec![1], second: vec![0], way: vec![] };
    vec![
        (0, Jobs::default()),
        (0, Jobs::of(&[(1, 1, 2)])),
        (0, Jobs::of(&[(1, 0, 0), (0, 1, 1), (1, 1, 2)])),
        (8, unequal),
        (8, Jobs { way: vec![0; 3], ..Jobs::of(&[(0, 0, 0), (0, 0, 0)]) }),
        (8, Jobs::of(&[(2, 0, 0)])),
        (8, Jobs::of(&[(1, 0, 0), (0, 2, 0)])),
        (8, Jobs::of(&[(1, 0, 0), (1, 1, 3)])),
        (9, Jobs::of(&[(0, 0, 0)])),
        (9, Jobs::of(&[(1, 1, 0), (1, 1, 2), (2, 2, 3)])),
    ]
}

/// 15, then the first list's 1, 2 and 3, then the second list's, then 7, then the call's own: each refusal hides those behind.
fn refusals_in_order(r: &mut Random) {
    for (customer, nobody) in CUSTOMERS.into_iter().flat_map(|c| NOBODY.map(|n| (c, n))) {
        let mut good = on_f(r, customer, [5; 3]);
        same_open(&mut good, 5, FIRST, SECOND).unwrap();
        same_job(Way::Halves, &mut good, 0, 0).unwrap();
        for (number, jobs) in calls_on_f() {
            for (first, second) in (0..=3).flat_map(|first| (0..=3).map(move |second| (first, second))) {
                for mark in [0, 1 + r.below(255) as u8] {
                    let mut bench = good.clone();
                    bench.g.marks[2] = mark;
                    if first > 0 {
                        bench.a = refused_with(first);
                    }
                    if second > 0 {
                        bench.b = refused_with(second);
                    }
                    let mut theirs = Bench { customer: nobody, ..bench.clone() };
                    assert_eq!(same_jobs(&mut theirs, &jobs), Err(15), "{jobs:?}");
                    let expected = [first, second, if mark == 0 { 0 } else { 7 }, number];
                    let expected = expected.into_iter().find(|n| *n > 0).unwrap_or(0);
                    assert_eq!(same_jobs(&mut bench, &jobs).err().unwrap_or(0), expected, "{jobs:?}");
                }
            }
        }
    }
}

/// Before a customer has opened every call gets 7, whatever its jobs and whatever the other has done, after 15 and the lists'
/// 1 to 3; so it does after a preparing.
fn before_opening(r: &mut Random) {
    let [a, b] = lists_f();
    for customer in CUSTOMERS {
        let mut bench = prepared(r, customer, [&a, &b], [FIRST, SECOND], [5; 3]);
        for (_, jobs) in calls_on_f() {
            assert_eq!(same_jobs(&mut bench.clone(), &jobs), Err(7), "{jobs:?}");
            let mut lent = Bench { a: refused_with(2), ..bench.clone() };
            assert_eq!(same_jobs(&mut lent, &jobs), Err(2), "{jobs:?}");
            lent.customer = NOBODY[r.below(NOBODY.len())];
            assert_eq!(same_jobs(&mut lent, &jobs), Err(15), "{jobs:?}");
        }
        same_open(&mut bench, 5, FIRST, SECOND).unwrap();
        let all = Jobs::of(&[(1, 1, 0), (0, 0, 1), (0, 1, 2), (1, 0, 0)]);
        assert_eq!(same_jobs(&mut bench, &all), Ok(1));
        *bench.g.share_mut(other_customer(customer)) = Share::default();
        bench.customer = other_customer(customer);
        assert_eq!(same_jobs(&mut bench, &all), Err(7));
    }
}

/// Whatever was tampered with, no job gets what status gets, and so do jobs where that is a refusal.
fn tampered(r: &mut Random) {
    let rounds = 4_000;
    let (mut faults, mut numbers) = (BTreeMap::new(), BTreeMap::new());
    for round in 0..rounds {
        progress(round, rounds);
        let mut bench = under_way(r, round, [1, 3, 8][round % 3], 12);
        for _ in 0..1 + r.below(2) {
            tamper(r, &mut bench);
        }
        let status = same_status(&bench).err().unwrap_or(0);
        if let Ok((a, b)) = model::lists(&bench.a, &bench.b) {
            let fault = bench.g.fault(bench.customer, &a, &b, &bench.r).unwrap_or("none");
            *faults.entry(fault).or_insert(0) += 1;
        }
        assert_eq!(same_jobs(&mut bench.clone(), &Jobs::default()).err().unwrap_or(0), status);
        for _ in 0..3 {
            let few = strips(&bench).map(|n| n.min(32));
            let jobs = some_jobs(r, &bench.g, bench.customer, few, 5);
            let number = same_jobs(&mut bench.clone(), &jobs).err().unwrap_or(0);
            assert!(number == status || (status == 0 && [8, 9].contains(&number)), "{number} {status}: {jobs:?}");
            *numbers.entry(number).or_insert(0) += 1;
        }
    }
    for fault in ["none"].into_iter().chain(FAULTS) {
        assert!(faults.get(fault).is_some_and(|n| *n > 5), "{fault}: {faults:?}");
    }
    assert!(numbers.keys().eq(&[0, 1, 2, 3, 7, 8, 9]) && numbers.values().all(|often| *often > 20), "{numbers:?}");
}

// Histories.

/// What histories showed: calls by customer and number, jobs swept and skipped by them, lowerings between, and campaigns that
/// came to their end.
#[derive(Default)]
struct Seen {
    calls: BTreeMap<(u32, u32), u32>,
    jobs: [u32; 2],
    lowered: u32,
    complete: [u32; 2],
}

/// Several jobs on one campaign in one call, and on the other in calls of their own.
fn both(bench: &mut Bench, apart: &mut Bench, book: &mut Book, jobs: &Jobs, seen: &mut Seen) {
    let before = bench.clone();
    let answer = same_jobs(bench, jobs);
    let number = answer.err().unwrap_or(0);
    assert_eq!(number, book.jobs(jobs), "the book answers otherwise: {jobs:?}");
    *seen.calls.entry((bench.customer, number)).or_default() += 1;
    match (answer, jobs.rows()) {
        (Ok(skipped), Ok(rows)) => {
            let (one_by_one_skipped, sums) = one_by_one(apart, &rows).unwrap();
            assert_eq!(told(&mut before.clone(), &rows), Ok((one_by_one_skipped, sums)));
            seen.jobs = [seen.jobs[0] + rows.len() as u32 - skipped, seen.jobs[1] + skipped];
        }
        (Err(number), Ok(rows)) => assert_eq!(one_by_one(&mut apart.clone(), &rows), Err(number), "{jobs:?}"),
        (Err(number), Err(_)) => assert_eq!(number, 8),
        (Ok(_), Err(_)) => panic!("unequal columns were accepted: {jobs:?}"),
    }
}

/// A campaign of calls for several jobs, lowerings and statuses, held to the brute force, to the book and to a campaign with
/// the same calls, but each job in one of its own.
fn history(r: &mut Random, kind: usize, seen: &mut Seen) {
    let [n, m] = [0; 2].map(|_| [1, 3, 8, 16][r.below(4)]);
    let (a, b) = (Columns::of(&lawful(r, kind, n)), Columns::of(&lawful(r, kind, m)));
    let (first, second) = (cuts(r, a.x.len()), cuts(r, b.x.len()));
    let k = [1, 2, 6, 25, 100, 4_096][r.below(6)];
    let customer = either(r);
    let mut bench = opened(r, customer, [&a, &b], [&first, &second], k, [k as usize + 1; 3]);
    let mut apart = bench.clone();
    let mut book = Book::opened(&a, &b, Opening { k, first_ends: &first, second_ends: &second });
    for _ in 0..4 + r.below(12) {
        match r.below(6) {
            0 => {
                let k = lower_to(r, bench.share().k);
                let answers = [same_lower(&mut bench, k), same_lower(&mut apart, k)];
                assert_eq!(answers.map(|answer| answer.err().unwrap_or(0)), [book.lower(k); 2], "K {k}");
                seen.lowered += answers[0].is_ok() as u32;
            }
            1 => assert_eq!(same_status(&bench), same_status(&apart)),
            _ => {
                let jobs = some_jobs(r, &bench.g, customer, [first.len(), second.len()], 12);
                both(&mut bench, &mut apart, &mut book, &jobs, seen);
            }
        }
        assert!(bench.g == apart.g && bench.r == apart.r, "one by one they end otherwise");
        assert_eq!(same_status(&bench), Ok(book.status()));
        assert_eq!(bench.r.entries(bench.share().entries as usize), book.entries(), "the book holds other entries");
    }
    let rest = open_jobs(r, &bench.g, customer, [first.len(), second.len()]);
    both(&mut bench, &mut apart, &mut book, &Jobs::of(&rest), seen);
    assert!(bench.g == apart.g && bench.r == apart.r && book.no_open_job());
    seen.complete[customer as usize - 1] += 1;
    same_as_one_sweep(r, &bench);
}

fn histories(r: &mut Random) {
    let mut seen = Seen::default();
    let rounds = 800;
    for round in 0..rounds {
        progress(round, rounds);
        history(r, round, &mut seen);
    }
    for (customer, number) in CUSTOMERS.into_iter().flat_map(|c| [0, 8, 9].map(|n| (c, n))) {
        assert!(seen.calls.get(&(customer, number)).is_some_and(|n| *n > 100), "{number}: {:?}", seen.calls);
    }
    assert!(seen.jobs.iter().all(|n| *n > 2_000) && seen.lowered > 300, "{:?} {}", seen.jobs, seen.lowered);
    assert!(seen.complete.iter().all(|n| *n > 300), "{:?}", seen.complete);
}

pub fn run(h: &mut Harness) {
    h.test("several jobs: the fixed campaign in one call", || fixed_example(&mut Random::new(160)));
    h.test("several jobs: 0 to 1,024 of them beside single jobs", || every_number(&mut Random::new(161)));
    h.test("several jobs: random calls, cut at every place", || random_calls(&mut Random::new(162)));
    h.test("several jobs: skipped ones add nothing", || skipped_jobs(&mut Random::new(163)));
    h.test("several jobs: none at all", || no_job(&mut Random::new(164)));
    h.test("several jobs: 65,535 sites", || long_list(&mut Random::new(165)));
    h.test("several jobs: a fault at every place", || faults_at_every_place(&mut Random::new(166)));
    h.test("several jobs: two faults, the first decides", || two_faults(&mut Random::new(167)));
    h.test("several jobs: a fault at every place of a full call", || faults_of_a_full_call(&mut Random::new(168)));
    h.test("several jobs: more rows than jobs", || more_than_all(&mut Random::new(169)));
    h.test("several jobs: columns of unequal length", || unequal_columns(&mut Random::new(170)));
    h.test("several jobs: refusals in their order", || refusals_in_order(&mut Random::new(171)));
    h.test("several jobs: before opening", || before_opening(&mut Random::new(172)));
    h.test("several jobs: tampering", || tampered(&mut Random::new(173)));
    h.test("several jobs: histories beside single jobs, with lowerings", || histories(&mut Random::new(174)));
}
