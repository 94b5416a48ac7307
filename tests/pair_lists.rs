//! The K list by every way and the distance list, beside the brute force and independent sweeps and halves.

use crate::calls;
use crate::harness::{Harness, progress};
use crate::lists::{KINDS, MAX, MIN, damaged, even, f, lawful, stacked, two_lists};
use crate::model::{self, Columns, Counters, Entry, Results, Site, Strip, WAYS, Way, site};
use crate::random::Random;

/// Columns of these lengths that hold anything.
fn results(r: &mut Random, lengths: [usize; 3]) -> Results {
    Results {
        distance: (0..lengths[0]).map(|_| r.next()).collect(),
        first: (0..lengths[1]).map(|_| r.next() as u32).collect(),
        second: (0..lengths[2]).map(|_| r.next() as u32).collect(),
    }
}

pub fn numbers(r: &mut Random, n: usize) -> Vec<u32> {
    (0..n).map(|_| r.next() as u32).collect()
}

/// Calls for a K list and compares every answer and every element.
fn held_to(
    expected: &Result<(Vec<Entry>, Counters), u32>,
    way: Way,
    a: &Columns,
    b: &Columns,
    k: u32,
    before: &Results,
) -> Result<u32, u32> {
    let mut r = before.clone();
    let answer = calls::k_list(way, a, b, k, &mut r);
    match expected {
        Ok((entries, counters)) => {
            assert_eq!(answer, Ok((entries.len() as u32, *counters)), "{way:?} k {k}");
            assert!(r == before.holding(entries), "{way:?} k {k}: a column differs");
        }
        Err(refusal) => {
            assert_eq!(answer, Err(*refusal), "{way:?} k {k}");
            assert!(r == *before, "{way:?} k {k}: a refused call changed a column");
        }
    }
    answer.map(|told| told.0)
}

pub fn same_k_list(way: Way, a: &Columns, b: &Columns, k: u32, before: &Results) -> Result<u32, u32> {
    held_to(&model::k_list(way, a, b, k, before), way, a, b, k, before)
}

pub fn same_distance_list(a: &Columns, b: &Columns, e: u32, first: &[u32], second: &[u32]) -> Result<u64, u32> {
    let (mut f, mut s) = (first.to_vec(), second.to_vec());
    let answer = calls::distance_list(a, b, e, &mut f, &mut s);
    let (mut expected_f, mut expected_s) = (first.to_vec(), second.to_vec());
    match model::distance_list(a, b, e, first.len().min(second.len())) {
        Ok(pairs) => {
            assert_eq!(answer, Ok(pairs.len() as u64), "e {e}");
            for (i, p) in pairs.iter().enumerate() {
                (expected_f[i], expected_s[i]) = *p;
            }
        }
        Err(refusal) => assert_eq!(answer, Err(refusal), "e {e}"),
    }
    assert!(f == expected_f && s == expected_s, "e {e}: a column differs");
    answer
}

fn fixed_examples() {
    let r = &mut Random::new(40);
    let (a, b) = f();
    let (a, b) = (Columns::of(&a), Columns::of(&b));
    for way in WAYS {
        let mut columns = results(r, [3, 3, 3]);
        let counters = match way {
            Way::Classic => Counters::swept(9, 6),
            Way::ReverseRun => Counters::swept(7, 5),
            Way::Halves => Counters::halved(15),
        };
        assert_eq!(calls::k_list(way, &a, &b, 3, &mut columns), Ok((3, counters)));
        let expected = Results { distance: vec![5, 9, 16], first: vec![2, 1, 0], second: vec![2, 1, 1] };
        assert_eq!(columns, expected);
        for k in [9, 4_096] {
            let columns = results(r, [k, k, k]);
            assert_eq!(same_k_list(way, &a, &b, k as u32, &columns), Ok(9));
        }
        // a tie at 25
        let (p, q) = (Columns::of(&[site(0, 0, 1), site(5, 5, 2)]), Columns::of(&[site(5, 0, 3)]));
        let mut columns = results(r, [1, 1, 1]);
        calls::k_list(way, &p, &q, 1, &mut columns).unwrap();
        assert_eq!((columns.first[0], columns.second[0]), (0, 0));
        // opposite corners
        let (p, q) = (Columns::of(&[site(MIN, MAX, 1)]), Columns::of(&[site(MAX, MIN, 2)]));
        calls::k_list(way, &p, &q, 1, &mut columns).unwrap();
        assert_eq!(columns.distance[0], 8_000_000_000_000_000_000);
    }
}

/// How often two sites stand at one x and y, at unequal heights and at equal ones.
fn at_one_x_and_y(a: &[Site], b: &[Site]) -> [u32; 2] {
    let mut often = [0; 2];
    for s in a {
        for t in b.iter().filter(|t| (t.x, t.y) == (s.x, s.y)) {
            often[(t.height == s.height) as usize] += 1;
        }
    }
    often
}

fn random_k_lists(r: &mut Random) {
    let mut seen = [0u32; 12];
    let mut often = [0; 2];
    let rounds = 24_000;
    for round in 0..rounds {
        progress(round, rounds);
        let (n, m) = ([0, 1, 2, 5, 12, 40][r.below(6)], [0, 1, 2, 5, 12, 40][r.below(6)]);
        let (p, q) = (lawful(r, round, n), lawful(r, round, m));
        let met = at_one_x_and_y(&p, &q);
        often = [often[0] + met[0], often[1] + met[1]];
        let (mut a, mut b) = (Columns::of(&p), Columns::of(&q));
        let all = (a.x.len() * b.x.len()) as u32;
        let mut k = [1, 2, 3, all, all + 1, r.below(40) as u32 + 1][r.below(6)];
        if r.once_in(8) {
            a = damaged(r, &a);
        }
        if r.once_in(8) {
            b = damaged(r, &b);
        }
        if r.once_in(20) {
            k = [0, 4_096, 4_097, u32::MAX][r.below(4)];
        }
        let mut lengths = [0; 3].map(|_| k.min(4_097) as usize + r.below(3));
        if r.once_in(8) {
            let column = r.below(3);
            lengths[column] = (k.min(4_097) as usize).saturating_sub(1 + r.below(2));
        }
        let columns = results(r, lengths);
        let way = WAYS[r.below(3)];
        seen[same_k_list(way, &a, &b, k, &columns).err().unwrap_or(0) as usize] += 1;
    }
    for number in [0, 1, 2, 3, 4, 6] {
        assert!(seen[number] > 50, "{seen:?}");
    }
    assert!(often.iter().all(|n| *n > 10_000), "{often:?}");
}

/// Larger lists, where many looks stop a scan and many entries drop out.
fn larger_k_lists(r: &mut Random) {
    let rounds = 60;
    for round in 0..rounds {
        progress(round, rounds);
        let (n, m) = (100 + r.below(600), 100 + r.below(600));
        let a = Columns::of(&lawful(r, round, n));
        let b = Columns::of(&lawful(r, round, m));
        for k in [1, 10, 100, 1_000, 4_096] {
            let columns = results(r, [k, k + 1, k + 2]);
            for way in WAYS {
                assert!(same_k_list(way, &a, &b, k as u32, &columns).is_ok());
            }
        }
    }
}

/// Pairs that come in nearest first, farthest first, falling and then rising in ties, all at one distance, and none (every
/// second site is co-sited with the reference), for every K up to more than there are, in columns longer than K.
fn every_sequence(r: &mut Random) {
    for m in 1..=40 {
        progress(m, 40);
        let others: Vec<Site> = (0..m as i32).map(|y| site(0, 10 * y, 0)).collect();
        let stacked = stacked(0, 0, m as u32);
        let middle = 5 * (m as i32 - 1);
        let sequences = [(-5, &others), (10 * m as i32, &others), (middle, &others), (7, &stacked), (0, &stacked)];
        for (reference, others) in sequences {
            let a = [site(0, reference, 1), site(0, reference + 3, 2)];
            let all = model::pairs(Strip::whole(&a), Strip::whole(others)).len();
            let (a, b) = (Columns::of(&a), Columns::of(others));
            for k in 1..=2 * m + 2 {
                let columns = results(r, [k, k + 1, k + 2]);
                for way in WAYS {
                    assert_eq!(same_k_list(way, &a, &b, k as u32, &columns), Ok(k.min(all) as u32));
                    assert_eq!(same_k_list(way, &b, &a, k as u32, &columns), Ok(k.min(all) as u32));
                }
            }
        }
    }
}

fn k_list_refusals(r: &mut Random) {
    let (a, b) = f();
    let (a, b) = (Columns::of(&a), Columns::of(&b));
    let high = Columns::of(&[site(0, MAX + 1, 0)]);
    let falling = Columns::of(&[site(1, 0, 0), site(0, 0, 0)]);
    let mut unequal = a.clone();
    unequal.y.pop();
    for way in WAYS {
        let columns = results(r, [4_096, 4_096, 4_096]);
        for (k, number) in [(0, 4), (4_097, 4), (u32::MAX, 4)] {
            assert_eq!(same_k_list(way, &a, &b, k, &columns), Err(number));
            assert_eq!(same_k_list(way, &high, &falling, k, &columns), Err(2));
            assert_eq!(same_k_list(way, &a, &falling, k, &columns), Err(3));
        }
        for k in [1, 3, 9, 10, 4_096] {
            let k = k as usize;
            for lengths in [[k - 1, k, k], [k, k - 1, k], [k, k, k - 1]] {
                let columns = results(r, lengths);
                assert_eq!(same_k_list(way, &a, &b, k as u32, &columns), Err(6));
                // 4 before 6
                assert_eq!(same_k_list(way, &a, &b, 0, &columns), Err(4));
                assert_eq!(same_k_list(way, &a, &b, 4_097, &columns), Err(4));
                // the lists before both, the first before the second
                assert_eq!(same_k_list(way, &falling, &unequal, k as u32, &columns), Err(3));
                assert_eq!(same_k_list(way, &a, &unequal, k as u32, &columns), Err(1));
            }
            let columns = results(r, [k, k, k]);
            assert_eq!(same_k_list(way, &a, &b, k as u32, &columns), Ok(k.min(9) as u32));
        }
        let columns = results(r, [1, 1, 1]);
        assert_eq!(same_k_list(way, &Columns::default(), &b, 1, &columns), Ok(0));
        assert_eq!(same_k_list(way, &a, &Columns::default(), 1, &columns), Ok(0));
        assert_eq!(same_k_list(way, &Columns::default(), &Columns::default(), 1, &columns), Ok(0));
    }
}

/// Lists of 65,535 sites: a long one beside a short one by brute force, two long ones by the independent sweeps and halves.
fn long_lists(r: &mut Random) {
    let (long, other) = (even(r, 65_535), even(r, 65_535));
    let short = lawful(r, 2, 12);
    let (a, b, c) = (Columns::of(&long), Columns::of(&short), Columns::of(&other));
    let over = Columns::of(&even(r, 65_536));
    for way in WAYS {
        for k in [1, 100, 4_096] {
            let columns = results(r, [k, k, k]);
            assert!(same_k_list(way, &a, &b, k as u32, &columns).is_ok());
            assert!(same_k_list(way, &b, &a, k as u32, &columns).is_ok());
            let expected = model::joined(way, k as u32, Strip::whole(&long), Strip::whole(&other), Vec::new());
            assert!(held_to(&Ok(expected), way, &a, &c, k as u32, &columns).is_ok());
            assert_eq!(same_k_list(way, &over, &b, k as u32, &columns), Err(1));
            assert_eq!(same_k_list(way, &b, &over, k as u32, &columns), Err(1));
        }
    }
    // every site at one place: no look ever stops, no range pair is dropped, and there is no pair but those with a site beside
    // it
    let many = Columns::of(&stacked(5, 5, 65_535));
    let mut few = stacked(5, 5, 20);
    for (beside, entries) in [(0, 0), (1, 4_096)] {
        few.extend(stacked(5, 6, beside));
        let few = Columns::of(&few);
        for way in WAYS {
            let columns = results(r, [4_096, 4_096, 4_096]);
            assert_eq!(same_k_list(way, &many, &few, 4_096, &columns), Ok(entries));
            assert_eq!(same_k_list(way, &few, &many, 4_096, &columns), Ok(entries));
        }
    }
}

fn random_distance_lists(r: &mut Random) {
    let mut seen = [0u32; 12];
    let rounds = 24_000;
    for round in 0..rounds {
        progress(round, rounds);
        let (a, b) = two_lists(r, round);
        let e = match r.below(5) {
            0 => r.below(8) as u32,
            1 => r.next() as u32,
            2 => [0, 1, 2_828_427_124, 2_828_427_125, u32::MAX][r.below(5)],
            3 => [400_000_000u32, 2_000_000_000][r.below(2)] + r.below(5) as u32 - 2,
            _ => r.below(40) as u32,
        };
        // as many as there are pairs, one short, or others
        let found = model::distance_list(&a, &b, e, usize::MAX).map_or(3, |pairs| pairs.len());
        let lengths = [0; 2].map(|_| match r.below(4) {
            0 => found.saturating_sub(1),
            1 => found,
            _ => found + r.below(4),
        });
        let (first, second) = (numbers(r, lengths[0]), numbers(r, lengths[1]));
        seen[same_distance_list(&a, &b, e, &first, &second).err().unwrap_or(0) as usize] += 1;
    }
    for number in [0, 1, 2, 3, 6] {
        assert!(seen[number] > 50, "{seen:?}");
    }
}

fn distance_list_bounds(r: &mut Random) {
    let (a, b) = f();
    let (mut first, mut second) = (vec![77; 6], vec![88; 5]);
    assert_eq!(calls::distance_list(&Columns::of(&a), &Columns::of(&b), 5, &mut first, &mut second), Ok(5));
    assert_eq!((first, second), (vec![0, 0, 1, 1, 2, 77], vec![0, 1, 0, 1, 2]));
    // exactly at the limit, and one unit of either side beyond it
    let a = Columns::of(&[site(0, 0, 0)]);
    for (x, y, e, count) in [(3, 4, 5, 1), (3, 4, 4, 0), (5, 0, 5, 1), (0, -5, 5, 1), (6, 0, 5, 0), (0, 0, 0, 0), (0, 0, 5, 0), (0, 1, 1, 1)] {
        let b = Columns::of(&[site(x, y, 0)]);
        assert_eq!(same_distance_list(&a, &b, e, &[1], &[2]), Ok(count));
        assert_eq!(same_distance_list(&b, &a, e, &[1], &[2]), Ok(count));
    }
    let (p, q) = (Columns::of(&[site(MIN, MIN, 0)]), Columns::of(&[site(MAX, MAX, 0)]));
    assert_eq!(same_distance_list(&p, &q, 2_828_427_124, &[1], &[2]), Ok(0));
    assert_eq!(same_distance_list(&p, &q, 2_828_427_125, &[1], &[2]), Ok(1));
    assert_eq!(same_distance_list(&p, &q, u32::MAX, &[1], &[2]), Ok(1));
    assert_eq!(same_distance_list(&p, &q, u32::MAX, &[], &[2]), Err(6));
    assert_eq!(same_distance_list(&p, &q, u32::MAX, &[1], &[]), Err(6));
    assert_eq!(same_distance_list(&p, &q, 0, &[], &[]), Ok(0));
    // more pairs than 32 bits of places would suggest: a long list beside a short one
    let long = even(r, 65_535);
    let a = Columns::of(&long);
    let b = Columns::of(&lawful(r, 2, 8));
    for e in [0, 10_000_000, 500_000_000, u32::MAX] {
        let found = model::distance_list(&a, &b, e, usize::MAX).unwrap().len();
        let (first, second) = (numbers(r, found), numbers(r, found + 3));
        assert_eq!(same_distance_list(&a, &b, e, &first, &second), Ok(found as u64));
        assert_eq!(same_distance_list(&b, &a, e, &second, &first), Ok(found as u64));
        if found > 0 {
            assert_eq!(same_distance_list(&a, &b, e, &first[1..], &second), Err(6));
            assert_eq!(same_distance_list(&a, &b, e, &first, &second[4..]), Err(6));
        }
    }
    let over = Columns::of(&even(r, 65_536));
    assert_eq!(same_distance_list(&over, &b, 0, &[], &[]), Err(1));
    assert_eq!(same_distance_list(&b, &over, 0, &[], &[]), Err(1));
}

/// Every e from 0 until all pairs are found, over small lists of every kind.
fn every_limit(r: &mut Random) {
    for kind in 0..2 * KINDS {
        let a = Columns::of(&lawful(r, kind % 2, 12));
        let b = Columns::of(&lawful(r, kind % 2, 12));
        for e in 0..50 {
            let (first, second) = (numbers(r, 150), numbers(r, 144));
            assert!(same_distance_list(&a, &b, e, &first, &second).is_ok());
        }
    }
}

/// A site beside co-sited ones: both lists leave those out, both sweeps count their distance, and the halves visit them.
fn co_sited_cells(r: &mut Random) {
    let (a, b) = (Columns::of(&[site(0, 0, 1)]), Columns::of(&[site(0, 0, 1), site(3, 4, 2)]));
    for way in WAYS {
        for k in [1, 2, 4_096] {
            let mut columns = results(r, [k, k, k]);
            let told = Ok((1, way.counters(2, 2, 3)));
            assert_eq!(calls::k_list(way, &a, &b, k as u32, &mut columns), told);
            assert_eq!((columns.distance[0], columns.first[0], columns.second[0]), (25, 0, 1));
            assert_eq!(same_k_list(way, &b, &a, k as u32, &columns), Ok(1));
        }
    }
    for (e, count) in [(0, 0), (4, 0), (5, 1), (u32::MAX, 1)] {
        assert_eq!(same_distance_list(&a, &b, e, &[9, 9], &[8]), Ok(count));
        assert_eq!(same_distance_list(&b, &a, e, &[9, 9], &[8]), Ok(count));
    }
    // one position, whatever the numbers
    let (p, q) = (Columns::of(&stacked(MAX, MIN, 300)), Columns::of(&stacked(MAX, MIN, 200)));
    for way in WAYS {
        let columns = results(r, [7, 7, 7]);
        assert_eq!(same_k_list(way, &p, &q, 7, &columns), Ok(0));
    }
    assert_eq!(same_distance_list(&p, &q, u32::MAX, &[], &[]), Ok(0));
}

pub fn run_k_list(h: &mut Harness) {
    h.test("K list: fixed examples", fixed_examples);
    h.test("K list: refusals in their order", || k_list_refusals(&mut Random::new(41)));
    h.test("K list: random lists, lawful and damaged", || random_k_lists(&mut Random::new(42)));
    h.test("K list: pairs in every sequence", || every_sequence(&mut Random::new(48)));
    h.test("K list and distance list: co-sited cells", || co_sited_cells(&mut Random::new(49)));
    h.test("K list: larger lists", || larger_k_lists(&mut Random::new(43)));
    h.test("K list: 65,535 sites", || long_lists(&mut Random::new(44)));
}

pub fn run_distance_list(h: &mut Harness) {
    h.test("distance list: bounds", || distance_list_bounds(&mut Random::new(45)));
    h.test("distance list: every limit", || every_limit(&mut Random::new(46)));
    h.test("distance list: random lists, lawful and damaged", || random_distance_lists(&mut Random::new(47)));
}
