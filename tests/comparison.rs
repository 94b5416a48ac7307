//! What document 02 c adds: the compiled comparison of two entries, beside the order of their numbers.

use crate::harness::Harness;
use crate::random::Random;
use crate::raw;
use std::cmp::Ordering;

/// An entry's squared distance, first place and second place.
type Numbers = (u64, u32, u32);

/// What is told of two entries, which must be what their numbers tell: the first that differs.
fn same_comparison(a: Numbers, b: Numbers) -> u32 {
    let told = unsafe { raw::compare_entries(a.0, a.1, a.2, b.0, b.1, b.2) };
    let stated = match a.0.cmp(&b.0).then(a.1.cmp(&b.1)).then(a.2.cmp(&b.2)) {
        Ordering::Less => 0,
        Ordering::Equal => 1,
        Ordering::Greater => 2,
    };
    assert_eq!(told, stated, "{a:?} beside {b:?}");
    told
}

/// Entries whose numbers are the least, the greatest and those around a half of the bits.
fn at_the_ends() -> Vec<Numbers> {
    let half = u32::MAX as u64;
    let distances = [0, 1, half, half + 1, 1 << 63, (1 << 63) + 1, u64::MAX];
    let places = [0, 1, 65_534, 1 << 31, u32::MAX];
    let with = |d, i| places.map(|j| (d, i, j));
    distances.iter().flat_map(|&d| places.iter().flat_map(move |&i| with(d, i))).collect()
}

pub fn run(h: &mut Harness) {
    h.test("compare: all pairs of entries with numbers at the ends", || {
        let entries = at_the_ends();
        for (i, &a) in entries.iter().enumerate() {
            for (j, &b) in entries.iter().enumerate() {
                assert_eq!(same_comparison(a, b), 1 + (i > j) as u32 - (i < j) as u32);
            }
        }
    });
    h.test("compare: random entries, many of which agree in a number", || {
        let r = &mut Random::new(15);
        let mut told = [0; 3];
        for _ in 0..300_000 {
            let [d, i, j] = [0; 3].map(|_| [2, 3, 1 << 32][r.below(3)]);
            let mut entry = || (r.next() % d, (r.next() % i) as u32, (r.next() % j) as u32);
            told[same_comparison(entry(), entry()) as usize] += 1;
        }
        assert!(told.iter().all(|&n| n > 1_000), "{told:?}");
    });
}
