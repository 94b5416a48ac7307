//! What document 02 g adds: the forecast of room, beside the brute force, and the distance lists that it books columns for.

use crate::calls;
use crate::harness::{Harness, progress};
use crate::lists::{MAX, MIN, even, f, lawful, stacked, tower, two_lists};
use crate::model::{self, Columns, Site, site};
use crate::pair_lists::{numbers, same_distance_list};
use crate::random::Random;

fn same_forecast(a: &Columns, b: &Columns, e: u32, before: &[u32]) -> Result<u64, u32> {
    let mut column = before.to_vec();
    let answer = calls::forecast(a, b, e, &mut column);
    match model::forecast(a, b, e, before.len()) {
        Ok((partners, total)) => {
            assert_eq!(answer, Ok(total), "e {e}");
            let (written, past) = column.split_at(partners.len());
            assert!(written == partners, "e {e}: {written:?} for {partners:?}");
            assert!(past == &before[partners.len()..], "e {e}: the column past the list was written");
        }
        Err(refusal) => {
            assert_eq!(answer, Err(refusal), "e {e}");
            assert!(column == before, "e {e}: a refused call changed the column");
        }
    }
    answer
}

/// A limit: small, any, the largest, or near what the lists of some kinds have between them.
fn limit(r: &mut Random) -> u32 {
    match r.below(5) {
        0 => r.below(8) as u32,
        1 => r.next() as u32,
        2 => [0, 1, 1_999_999_999, 2_000_000_000, 2_000_000_001, u32::MAX][r.below(6)],
        3 => 400_000_000 + r.below(5) as u32 - 2,
        _ => r.below(40) as u32,
    }
}

fn fixed_examples() {
    let (a, b) = f();
    let (a, b) = (Columns::of(&a), Columns::of(&b));
    for (e, total, partners) in [(4, 5, [2, 2, 1, 77]), (0, 2, [1, 1, 0, 77]), (u32::MAX, 9, [3, 3, 3, 77])] {
        let mut column = vec![77; 4];
        assert_eq!(calls::forecast(&a, &b, e, &mut column), Ok(total));
        assert_eq!(column, partners);
    }
}

/// A partner exactly `e` away on either side counts, one a unit further does not, over the whole range of x.
fn limits_in_x() {
    for (s, t) in [(0, 0), (0, 5), (-3, 4), (MIN, MAX), (MIN, MIN), (MAX - 1, MAX), (-1, 0)] {
        let (a, b) = (Columns::of(&[site(s, MIN, 0)]), Columns::of(&[site(t, MAX, 9)]));
        let gap = s.abs_diff(t);
        for e in [gap.checked_sub(1), Some(gap), Some(gap + 1), Some(0), Some(u32::MAX)].into_iter().flatten() {
            let told = Ok((e >= gap) as u64);
            assert_eq!(same_forecast(&a, &b, e, &[7]), told, "{s} {t} {e}");
            assert_eq!(same_forecast(&b, &a, e, &[7, 8]), told, "{t} {s} {e}");
        }
    }
    // co-sited cells and towers are partners
    let (p, q) = (Columns::of(&stacked(4, 4, 30)), Columns::of(&stacked(4, 4, 20)));
    assert_eq!(same_forecast(&p, &q, 0, &[1; 30]), Ok(600));
}

/// 6 for a column one short of the first list, whatever the second list's length, and never for one as long.
fn room(r: &mut Random) {
    for (n, m) in [(0, 0), (0, 9), (9, 0), (1, 9), (9, 1), (5, 5), (30, 2), (2, 30)] {
        let (a, b) = (Columns::of(&even(r, n)), Columns::of(&even(r, m)));
        for length in 0..n + 3 {
            let answer = same_forecast(&a, &b, u32::MAX, &numbers(r, length));
            assert_eq!(answer, if length < n { Err(6) } else { Ok((n * m) as u64) });
        }
    }
}

/// The first list's fault, the second's, then 6.
fn refusals_in_order() {
    let good = Columns::of(&[site(0, 0, 1), site(1, 0, 1)]);
    let with = |change: fn(&mut Columns)| {
        let mut c = good.clone();
        change(&mut c);
        c
    };
    let faults = [
        (0, good.clone()),
        (1, with(|c| c.height.truncate(1))),
        (2, with(|c| c.y[1] = MAX + 1)),
        (3, with(|c| c.x[1] = 0)),
    ];
    for (first, a) in &faults {
        for (second, b) in &faults {
            for column in [&[][..], &[5], &[5, 6], &[5, 6, 7]] {
                let short = if column.len() < 2 { 6 } else { 0 };
                let number = [*first, *second, short].into_iter().find(|n| *n != 0).unwrap_or(0);
                assert_eq!(same_forecast(a, b, 3, column).err().unwrap_or(0), number);
            }
        }
    }
}

/// Every e from 0 until all places are partners, over small lists of the kinds that are at most 50 apart in x.
fn every_limit(r: &mut Random) {
    for kind in [0, 1, 4, 7, 8] {
        for _ in 0..8 {
            let (a, b) = (Columns::of(&lawful(r, kind, 12)), Columns::of(&lawful(r, kind, 12)));
            let totals: Vec<_> = (0..=50).map(|e| same_forecast(&a, &b, e, &numbers(r, 12)).unwrap()).collect();
            assert!(totals.is_sorted());
            assert_eq!(totals[50], (a.x.len() * b.x.len()) as u64);
        }
    }
}

fn random_forecasts(r: &mut Random) {
    let mut seen = [0u32; 7];
    let rounds = 24_000;
    for round in 0..rounds {
        progress(round, rounds);
        let (a, b) = two_lists(r, round);
        let length = match r.below(6) {
            0 => a.x.len().saturating_sub(1),
            1 => b.x.len(),
            _ => a.x.len() + r.below(4),
        };
        let e = limit(r);
        seen[same_forecast(&a, &b, e, &numbers(r, length)).err().unwrap_or(0) as usize] += 1;
    }
    for number in [0, 1, 2, 3, 6] {
        assert!(seen[number] > 50, "{seen:?}");
    }
}

/// Columns as long as the total take the distance list, and neither it nor a place has more pairs than was forecast.
fn books_columns(r: &mut Random) {
    let (mut full, mut spare) = (0, 0);
    for round in 0..6_000 {
        let (n, m) = ([0, 1, 5, 12, 40][r.below(5)], [0, 1, 5, 12, 40][r.below(5)]);
        let (a, b) = (Columns::of(&lawful(r, round, n)), Columns::of(&lawful(r, round, m)));
        let e = limit(r);
        let mut partners = numbers(r, a.x.len());
        let total = calls::forecast(&a, &b, e, &mut partners).unwrap();
        assert_eq!(partners.iter().map(|p| *p as u64).sum::<u64>(), total);
        let (first, second) = (numbers(r, total as usize), numbers(r, total as usize));
        let count = same_distance_list(&a, &b, e, &first, &second).unwrap();
        assert!(count <= total);
        let (mut first, mut second) = (first, second);
        calls::distance_list(&a, &b, e, &mut first, &mut second).unwrap();
        for (place, most) in partners.iter().enumerate() {
            let pairs = first[..count as usize].iter().filter(|p| **p == place as u32).count();
            assert!(pairs <= *most as usize, "place {place}: {pairs} pairs, {most} forecast");
        }
        full += (count == total && total > 0) as u32;
        spare += (count < total) as u32;
    }
    assert!(full > 100 && spare > 100, "{full} {spare}");
}

/// 65,535 sites a list, beside a search for each place.
fn most_sites(r: &mut Random) {
    let (a, b) = (even(r, 65_535), even(r, 65_535));
    let mut told = |a: &[Site], b: &[Site], e: u32| {
        let mut column = numbers(r, 65_537);
        let past = column[65_535..].to_vec();
        let total = calls::forecast(&Columns::of(a), &Columns::of(b), e, &mut column).unwrap();
        assert_eq!(column[65_535..], past);
        column.truncate(65_535);
        (column, total)
    };
    let expected = |a: &[Site], b: &[Site], e: u32| {
        let below = |x: i64| b.partition_point(|t| (t.x as i64) < x) as u32;
        let partners = |s: &Site| below(s.x as i64 + e as i64 + 1) - below(s.x as i64 - e as i64);
        let column: Vec<u32> = a.iter().map(partners).collect();
        let total = column.iter().map(|p| *p as u64).sum::<u64>();
        (column, total)
    };
    for e in [0, 1, 30_000, 10_000_000, 999_999_999, 2_000_000_000, u32::MAX] {
        assert!(told(&a, &b, e) == expected(&a, &b, e), "e {e}");
    }
    // all at one x: as many as there can be
    let heights = [-10_000, 0, 10_000];
    let (p, q) = (tower(r, MAX, 0, 65_535, &heights), tower(r, MAX, 7, 65_535, &heights));
    for e in [0, u32::MAX] {
        let mut column = vec![0; 65_535];
        assert_eq!(calls::forecast(&Columns::of(&p), &Columns::of(&q), e, &mut column), Ok(4_294_836_225));
        assert!(column.iter().all(|n| *n == 65_535));
    }
    let over = Columns::of(&even(r, 65_536));
    let few = Columns::of(&a[..3]);
    assert_eq!(same_forecast(&over, &few, 0, &[]), Err(1));
    assert_eq!(same_forecast(&few, &over, 0, &[]), Err(1));
}

pub fn run(h: &mut Harness) {
    h.test("forecast: lists F", fixed_examples);
    h.test("forecast: exactly e away, on either side", limits_in_x);
    h.test("forecast: a column as long as the first list, and one short", || room(&mut Random::new(51)));
    h.test("forecast: refusals in their order", refusals_in_order);
    h.test("forecast: every limit", || every_limit(&mut Random::new(52)));
    h.test("forecast: random lists, lawful and damaged", || random_forecasts(&mut Random::new(53)));
    h.test("forecast: books the columns of a distance list", || books_columns(&mut Random::new(54)));
    h.test("forecast: 65,535 sites", || most_sites(&mut Random::new(55)));
}
