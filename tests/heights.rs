//! What document 02 l adds: the column of heights in every call that is lent lists, beside the brute force.

use crate::calls;
use crate::campaigns::{
    Bench, any_part, either, opened, other_customer, results, same_job, same_jobs, same_open, same_prepare, same_status,
};
use crate::harness::{Harness, progress};
use crate::lists::{HIGHEST, LOWEST, MAX, MIN, stacked, tower};
use crate::model::{self, CUSTOMERS, Columns, Entry, Jobs, Share, Site, Status, Strip, WAYS, Way, site};
use crate::pair_lists::{numbers, same_distance_list, same_k_list};
use crate::random::Random;
use crate::site_lists::{same_add, same_check};

fn number<T>(answer: Result<T, u32>) -> u32 {
    answer.err().unwrap_or(0)
}

/// A grid of one job on lists of these lengths, neither prepared nor opened by a call: the lists may be at fault.
fn one_job(r: &mut Random, customer: u32, a: &Columns, b: &Columns) -> model::Grid {
    let mut g = model::blank_grid();
    (g.first_strips, g.second_strips) = (1, 1);
    (g.first_ends[0], g.second_ends[0]) = (a.x.len() as u32, b.x.len() as u32);
    any_part(r, &mut g, other_customer(customer));
    *g.share_mut(customer) = Share { k: 1, entries: 0 };
    g
}

/// The number that K list, distance list, preparing, opening, job, a call for several and status all answer on two lists.
fn number_of_every_call(r: &mut Random, a: &Columns, b: &Columns) -> u32 {
    let customer = either(r);
    let g = one_job(r, customer, a, b);
    let bench = Bench { a: a.clone(), b: b.clone(), r: results(r, [1; 3]), g, customer };
    let (first, second) = (numbers(r, 20), numbers(r, 20));
    let (ends_a, ends_b) = ([a.x.len() as u32], [b.x.len() as u32]);
    let mut told = vec![
        number(same_distance_list(a, b, u32::MAX, &first, &second)),
        number(same_prepare(&mut bench.clone(), &ends_a, &ends_b)),
        number(same_open(&mut bench.clone(), 1, &ends_a, &ends_b)),
        number(same_status(&bench)),
        number(same_jobs(&mut bench.clone(), &Jobs::default())),
    ];
    for way in WAYS {
        told.push(number(same_k_list(way, a, b, 1, &bench.r)));
        told.push(number(same_job(way, &mut bench.clone(), 0, 0)));
        told.push(number(same_jobs(&mut bench.clone(), &Jobs::of(&[(0, 0, model::way_number(way))]))));
    }
    assert!(told.iter().all(|n| *n == told[0]), "{told:?}");
    told[0]
}

/// The same of a list as the first, as the second and as both.
fn number_of_every_use(r: &mut Random, c: &Columns) -> u32 {
    let other = Columns::of(&[site(0, 0, 0), site(1, 0, 0).up(4)]);
    let told = [(c, &other), (&other, c), (c, c)].map(|(a, b)| number_of_every_call(r, a, b));
    assert!(told.iter().all(|n| *n == told[0]), "{told:?}");
    told[0]
}

/// Three sites, in order, at these heights.
fn three(heights: [i32; 3]) -> [Site; 3] {
    [0, 1, 2].map(|i| site(3 * i, 7, 5).up(heights[i as usize]))
}

/// The limits, one beyond either, and the farthest numbers: each with the refusal that it gets.
const HEIGHTS: [(i32, u32); 7] =
    [(HIGHEST, 0), (LOWEST, 0), (HIGHEST + 1, 2), (LOWEST - 1, 2), (i32::MAX, 2), (i32::MIN, 2), (0, 0)];

fn limits_of_a_list(r: &mut Random) {
    for (h, number) in HEIGHTS {
        for place in 0..3 {
            let mut heights = [0; 3];
            heights[place] = h;
            let c = Columns::of(&three(heights));
            assert_eq!(same_check(&c).err().unwrap_or(0), number);
            assert_eq!(number_of_every_use(r, &c), number);
        }
    }
}

fn limits_in_adding() {
    for (h, number) in HEIGHTS {
        // the new site's height
        let c = Columns::of(&three([1, 2, i32::MAX]));
        for s in [site(-9, 0, 0), site(2, 0, 0), site(99, 0, 0)] {
            assert_eq!(same_add(&c, 2, s.up(h)).err().unwrap_or(0), number);
        }
        // that of a site in use, and of one past those
        let c = Columns::of(&three([1, h, 0]));
        assert_eq!(same_add(&c, 2, site(2, 0, 0)).err().unwrap_or(0), number);
        assert_eq!(same_add(&c, 1, site(2, 0, 0)), Ok((1, 2)));
    }
}

fn columns_of_another_length(r: &mut Random) {
    let whole = Columns::of(&three([4, 5, 6]));
    let (mut short, mut long, mut none) = (whole.clone(), whole.clone(), whole.clone());
    short.height.pop();
    long.height.push(0);
    none.height.clear();
    for c in [&short, &long, &none] {
        assert_eq!(same_check(c), Err(1));
        assert_eq!(number_of_every_use(r, c), 1);
        for in_use in 0..=4 {
            assert_eq!(same_add(c, in_use, site(1, 1, 1)), Err(1));
        }
    }
    assert_eq!(number_of_every_use(r, &whole), 0);
    // a height and no site
    let alone = Columns { height: vec![0], ..Columns::default() };
    assert_eq!(same_check(&alone), Err(1));
    assert_eq!(same_add(&alone, 0, site(1, 1, 1)), Err(1));
}

/// 1 before 2 before 3, and all of them in the first list before any in the second.
fn refusals_in_their_order(r: &mut Random) {
    let falling = Columns::of(&[site(5, 0, 0), site(0, 0, 0)]);
    let high = Columns::of(&[site(5, 0, 0), site(0, 0, 0).up(HIGHEST + 1)]);
    let mut short = high.clone();
    short.height.remove(0);
    for (c, number) in [(&falling, 3), (&high, 2), (&short, 1)] {
        assert_eq!(same_check(c), Err(number));
        for other in [&falling, &high, &short] {
            assert_eq!(number_of_every_call(r, c, other), number);
        }
    }
    // adding: the list's before the new site's height, and this before 6 and 11
    let (mut falling, mut high, mut good) = (falling, high, Columns::of(&three([0; 3])));
    let s = site(0, 7, 5).up(LOWEST - 1);
    assert_eq!(same_add(&short, 2, s), Err(1));
    assert_eq!(same_add(&high, 2, s), Err(2));
    assert_eq!(same_add(&falling, 2, s), Err(3));
    assert_eq!(same_add(&good, 3, s), Err(2));
    assert_eq!(same_add(&good, 3, s.up(LOWEST)), Err(6));
    for c in [&mut falling, &mut high, &mut good] {
        for column in [&mut c.x, &mut c.y, &mut c.height] {
            column.push(1);
        }
        c.number.push(1);
    }
    assert_eq!(same_add(&good, 3, s), Err(2));
    assert_eq!(same_add(&good, 3, s.up(LOWEST)), Err(11));
    assert_eq!(same_add(&high, 2, s.up(0)), Err(2));
    assert_eq!(same_add(&falling, 2, s.up(0)), Err(3));
}

fn order_without_heights(r: &mut Random) {
    // falling, equal and rising heights at one x and y, and beside
    for heights in [[9, 0, -9], [4, 4, 4], [-9, 0, 9]] {
        assert_eq!(number_of_every_use(r, &Columns::of(&three(heights))), 0);
        let at_one = [1, 2, 3].map(|n| site(0, 0, n).up(heights[n as usize - 1]));
        assert_eq!(same_check(&Columns::of(&at_one)), Ok(3));
        assert_eq!(number_of_every_use(r, &Columns::of(&at_one)), 0);
    }
    // one x, y and number twice, at whatever heights
    for h in [-1, 0, 1, HIGHEST, LOWEST] {
        let twice = Columns::of(&[site(0, 0, 1), site(0, 0, 1).up(h)]);
        assert_eq!(same_check(&twice), Err(3));
        assert_eq!(number_of_every_use(r, &twice), 3);
    }
    // 11 at whatever height, and a place by number
    let c = Columns::of(&[site(0, 0, 1).up(50), site(0, 0, 5).up(-50), site(7, 7, 7)]);
    for h in [-50, 0, 50, HIGHEST, LOWEST] {
        assert_eq!(same_add(&c, 2, site(0, 0, 1).up(h)), Err(11));
        assert_eq!(same_add(&c, 2, site(0, 0, 5).up(h)), Err(11));
        for (n, place) in [(0, 0), (2, 1), (4, 1), (6, 2)] {
            assert_eq!(same_add(&c, 2, site(0, 0, n).up(h)), Ok((place, 3)));
        }
    }
}

fn squared_distances(r: &mut Random) {
    let (low, high) = (site(0, 0, 1), site(0, 0, 1).up(3));
    let (p, q) = (site(MIN, MAX, 1).up(LOWEST), site(MAX, MIN, 2).up(HIGHEST));
    let cases = [
        (low, high, 9, 3),
        (high, low, 9, 3),
        (low.up(LOWEST), low.up(HIGHEST), 400_000_000, 20_000),
        (site(2, 3, 0).up(-6), low, 49, 7),
        (p, q, 8_000_000_000_400_000_000, 2_828_427_125),
    ];
    for (s, t, distance, e) in cases {
        let (a, b) = (Columns::of(&[s]), Columns::of(&[t]));
        for (way, customer) in WAYS.into_iter().flat_map(|way| CUSTOMERS.map(|customer| (way, customer))) {
            let mut columns = results(r, [1; 3]);
            calls::k_list(way, &a, &b, 1, &mut columns).unwrap();
            assert_eq!(columns.distance[0], distance);
            let mut bench = opened(r, customer, [&a, &b], [&[1], &[1]], 1, [1; 3]);
            assert_eq!(same_job(way, &mut bench, 0, 0), Ok(true));
            assert_eq!((bench.share().entries, bench.r.distance[0]), (1, distance));
            assert_eq!(same_status(&bench), Ok(Status { settled: 1, jobs: 1, entries: 1, k: 1 }));
        }
        assert_eq!(same_distance_list(&a, &b, e, &[7], &[7]), Ok(1));
        assert_eq!(same_distance_list(&a, &b, e - 1, &[7], &[7]), Ok(0));
        // at one height it is no pair where x and y are equal
        let level = Columns::of(&[site(s.x, s.y, 9).up(t.height)]);
        let pairs = u64::from((s.x, s.y) != (t.x, t.y));
        assert_eq!(same_distance_list(&level, &b, u32::MAX, &[7], &[7]), Ok(pairs));
    }
}

fn adding() {
    let sites = [site(1, 0, 0).up(10), site(3, 0, 0).up(-30), site(5, 0, 0).up(50), site(9, 9, 9).up(77)];
    let cases = [
        (0, 0, [-2, 10, -30, 50]),
        (2, 1, [10, -2, -30, 50]),
        (4, 2, [10, -30, -2, 50]),
        (6, 3, [10, -30, 50, -2]),
    ];
    for (x, place, heights) in cases {
        let mut c = Columns::of(&sites);
        assert_eq!(same_add(&c, 3, site(x, 0, 0).up(-2)), Ok((place, 4)));
        assert_eq!(calls::add(&mut c, 3, site(x, 0, 0).up(-2)), Ok((place, 4)));
        assert_eq!(c.height, heights);
    }
    // what stands past the sites in use stays
    let mut c = Columns::of(&sites);
    assert_eq!(calls::add(&mut c, 1, site(2, 0, 0).up(HIGHEST)), Ok((1, 2)));
    assert_eq!(c.height, [10, HIGHEST, 50, 77]);
}

/// The first job leaves a pair that is `dx`, `dy` and `dh` apart; the second is of two strips whose boxes are `x`, `y` and `h`
/// apart, with their edges at sites in the middle.
fn skips_by_boxes(r: &mut Random) {
    let cases = [
        ((1, 0, 0), (0, 0, 50), false), // by x and y alone it is swept
        ((1, 0, 0), (0, 0, 1), true),
        ((0, 0, 5), (0, 0, 5), true), // equal is swept
        ((0, 0, 5), (0, 0, 6), false),
        ((0, 0, 5), (3, 0, 4), true),
        ((0, 0, 5), (0, 4, 4), false),
        ((1, 2, 2), (2, 2, 1), true), // the square of 2 + 2 + 1 would be 25
        ((1, 2, 2), (2, 2, 2), false),
        ((0, 4, 0), (0, 3, 3), false),
    ];
    for ((dx, dy, dh), (x, y, h), swept) in cases {
        let middle = [site(-2_100, -7, 0).up(-50), site(-2_050, 0, 0).up(-90), site(-2_000, -90, 0)];
        let other = [
            site(-2_000 + x, y + 40, 0).up(h + 20),
            site(-1_900 + x, y, 0).up(h + 30),
            site(-1_890 + x, y + 9, 0).up(h),
        ];
        let first = [&[site(-4_000, 0, 0).up(60)], &middle[..]].concat();
        let second = [&[site(-4_000 + dx, dy, 0).up(60 + dh)], &other[..]].concat();
        for way in WAYS {
            for (customer, a, b) in [(1, &first, &second), (2, &second, &first)] {
                let (a, b) = (Columns::of(a), Columns::of(b));
                let mut bench = opened(r, customer, [&a, &b], [&[1, 4], &[1, 4]], 1, [1; 3]);
                assert_eq!(same_job(way, &mut bench, 0, 0), Ok(true));
                assert_eq!(same_job(way, &mut bench, 1, 1), Ok(swept), "{dx} {dy} {dh} {x} {y} {h}");
            }
        }
    }
}

/// A list of towers, one at each of these positions.
fn towers(r: &mut Random, positions: &[(i32, i32)], n: u32, heights: &[i32]) -> Vec<Site> {
    positions.iter().flat_map(|(x, y)| tower(r, *x, *y, n, heights)).collect()
}

/// Heights that leave few pairs, many pairs, all pairs at the limits, and any.
const FLOORS: [&[i32]; 5] = [
    &[0, 0, 0, 0, 0, 0, 0, 0, 0, 0, 0, 0, 0, 0, 0, 0, 0, 0, 0, 0, 0, 0, 0, 0, 3],
    &[0, 3, 6, 9],
    &[LOWEST, HIGHEST],
    &[LOWEST, LOWEST + 1, -1, 0, 1, HIGHEST - 1, HIGHEST],
    &[2],
];

/// Runs at one x and y just below 1,024 pairs, at as many, and far above: K lists and distance lists.
fn lists_of_towers(r: &mut Random) {
    let sizes = [(31, 33), (32, 32), (33, 32), (1, 1_023), (1, 1_024), (100, 100)];
    for (round, (n, m)) in sizes.into_iter().enumerate() {
        progress(round, sizes.len());
        for heights in FLOORS {
            let a = Columns::of(&tower(r, 5, -5, n, heights));
            let b = Columns::of(&tower(r, 5, -5, m, heights));
            for way in WAYS {
                for k in [1, 100, 4_096] {
                    let columns = results(r, [k, k + 1, k + 2]);
                    assert!(same_k_list(way, &a, &b, k as u32, &columns).is_ok());
                    assert!(same_k_list(way, &b, &a, k as u32, &columns).is_ok());
                }
            }
            let (first, second) = (numbers(r, 10_000), numbers(r, 10_001));
            for e in [0, 2, 3, 20_000] {
                assert!(same_distance_list(&a, &b, e, &first, &second).is_ok());
            }
        }
    }
}

/// Status of a campaign whose entry count must be the pair total, and with any other count.
fn count_decides(bench: &Bench) {
    let held = same_status(bench).unwrap();
    for entries in [0, held.entries.wrapping_sub(1), held.entries + 1, held.k, 4_096] {
        let mut other = bench.clone();
        other.share_mut().entries = entries;
        assert_eq!(same_status(&other).is_ok(), entries == held.entries, "{entries} for {}", held.entries);
    }
}

/// All jobs of a campaign of either customer on two lists, status after each.
fn all_jobs(r: &mut Random, a: &[Site], b: &[Site], k: u32, ends: [&[u32]; 2]) -> Bench {
    let customer = either(r);
    let mut bench = opened(r, customer, [&Columns::of(a), &Columns::of(b)], ends, k, [k as usize; 3]);
    for s in 0..ends[0].len() {
        for t in 0..ends[1].len() {
            same_job(WAYS[r.below(3)], &mut bench, s as u32, t as u32).unwrap();
            same_status(&bench).unwrap();
        }
    }
    bench
}

fn cut(n: usize, strips: usize) -> Vec<u32> {
    (1..=strips).map(|s| (n * s / strips) as u32).collect()
}

/// Campaigns on towers, in one strip and in several that cut through them.
fn campaigns_on_towers(r: &mut Random) {
    let positions = [(0, 0), (0, 1), (2, -1)];
    let mut exact = 0;
    for round in 0..60 {
        progress(round, 60);
        let heights = FLOORS[round % FLOORS.len()];
        let (n, m) = ([31, 32, 100][r.below(3)], [33, 32, 100][r.below(3)]);
        let (p, q) = (1 + r.below(2), 1 + r.below(2));
        let (a, b) = (towers(r, &positions[..p], n, heights), towers(r, &positions[2 - q..2], m, heights));
        let k = [1, 50, 4_096][r.below(3)];
        let (first, second) = (cut(a.len(), 1 + r.below(3)), cut(b.len(), 1 + r.below(3)));
        let bench = all_jobs(r, &a, &b, k, [&first, &second]);
        let total = model::pair_count(Strip::whole(&a), Strip::whole(&b));
        assert_eq!(bench.share().entries as u64, total.min(k as u64));
        if total < k as u64 {
            exact += 1;
            count_decides(&bench);
        }
    }
    assert!(exact > 5, "{exact}");
}

/// All 65,535 sites of each list at one position: at one height no pair, and one site higher makes as many as there are sites
/// of the other list.
fn long_towers(r: &mut Random) {
    let b = stacked(-3, 8, 65_535);
    for h in [LOWEST, -1, 1, HIGHEST] {
        let mut a = b.clone();
        a[65_534].height = h;
        let lists = [&Columns::of(&a), &Columns::of(&b)];
        for count in [29, 30, 31] {
            let customer = either(r);
            let mut bench = opened(r, customer, lists, [&[65_000, 65_535], &[30, 65_535]], 40, [40; 3]);
            // the job of 535 and 30 sites, and those that have no pair
            for mark in [0, 1, 32] {
                bench.mark(mark, true);
            }
            bench.share_mut().entries = count;
            let above = |second| Entry { distance: h.unsigned_abs() as u64 * h.unsigned_abs() as u64, first: 65_534, second };
            bench.r = bench.r.holding(&(0..40).map(above).collect::<Vec<_>>());
            assert_eq!(same_status(&bench).is_ok(), count == 30);
        }
    }
}

/// Campaigns on towers of thousands of sites, each strip far above 1,024 pairs: status with any marks.
fn marks_on_towers(r: &mut Random) {
    let (a, b) = (tower(r, 1, 1, 6_000, FLOORS[1]), tower(r, 1, 1, 7_000, FLOORS[1]));
    let a: Vec<Site> = a.into_iter().enumerate().map(|(i, s)| if i < 3_000 { s.up(0) } else { s }).collect();
    let b: Vec<Site> = b.into_iter().enumerate().map(|(i, s)| if i < 4_000 { s.up(0) } else { s }).collect();
    let lists = [&Columns::of(&a), &Columns::of(&b)];
    for customer in CUSTOMERS {
        let mut bench = opened(r, customer, lists, [&[3_000, 6_000], &[4_000, 7_000]], 3, [3; 3]);
        // 12,000,000 co-sited cells and no pair
        bench.mark(0, true);
        assert_eq!(same_status(&bench), Ok(Status { settled: 1, jobs: 4, entries: 0, k: 3 }));
        assert_eq!(same_job(Way::ReverseRun, &mut bench, 0, 1), Ok(true));
        assert_eq!(same_job(Way::Classic, &mut bench, 1, 0), Ok(true));
        assert_eq!(same_status(&bench), Ok(Status { settled: 3, jobs: 4, entries: 3, k: 3 }));
    }
}

pub fn run(h: &mut Harness) {
    h.test("height: limits in a list, in every call", || limits_of_a_list(&mut Random::new(81)));
    h.test("height: limits in adding", limits_in_adding);
    h.test("height: columns one short and one long, in every call", || columns_of_another_length(&mut Random::new(82)));
    h.test("height: refusals in their order", || refusals_in_their_order(&mut Random::new(83)));
    h.test("height: the order of a list and 11 do not look at it", || order_without_heights(&mut Random::new(84)));
    h.test("height: squared distances up to opposite corners", || squared_distances(&mut Random::new(85)));
    h.test("height: adding puts it at its place", adding);
    h.test("height: skips by the strips' boxes", || skips_by_boxes(&mut Random::new(86)));
    h.test("height: K lists and distance lists of towers", || lists_of_towers(&mut Random::new(87)));
    h.test("height: campaigns on towers", || campaigns_on_towers(&mut Random::new(88)));
    h.test("height: status on towers of thousands", || marks_on_towers(&mut Random::new(89)));
    h.test("height: 65,535 sites of each list at one x and y", || long_towers(&mut Random::new(90)));
}
