//! The brute force itself, held to document 01's fixed examples and to some of our own.

use crate::harness::Harness;
use crate::lists::f;
use crate::model::*;
use crate::plane;

fn results(n: usize) -> Results {
    Results { distance: vec![0; n], first: vec![0; n], second: vec![0; n] }
}

/// The places of the entries, and the counters.
fn listed(way: Way, a: &[Site], b: &[Site], k: u32) -> (Vec<(u32, u32)>, Counters) {
    let (a, b) = (Columns::of(a), Columns::of(b));
    let (entries, counters) = k_list(way, &a, &b, k, &results(k as usize)).unwrap();
    (entries.iter().map(|e| (e.first, e.second)).collect(), counters)
}

/// What each way itself leaves is what the brute force finds.
fn ways_agree(a: &[Site], b: &[Site], k: u32) {
    for way in WAYS {
        let (p, q) = (Strip::whole(a), Strip::whole(b));
        assert_eq!(joined(way, k, p, q, Vec::new()).0, best(k, pairs(p, q)));
    }
}

fn m1_to_m3_and_m9() {
    let (a, b) = f();
    let places = vec![(2, 2), (1, 1), (0, 1)];
    assert_eq!(listed(Way::Classic, &a, &b, 3), (places.clone(), Counters::swept(9, 6)));
    assert_eq!(listed(Way::ReverseRun, &a, &b, 3), (places.clone(), Counters::swept(7, 5)));
    assert_eq!(listed(Way::Halves, &a, &b, 3), (places, Counters::halved(15)));
    for way in WAYS {
        assert_eq!(listed(way, &a, &b, 9).0.len(), 9);
        assert_eq!(listed(way, &a, &b, 4_096).0.len(), 9);
    }
    for k in 1..10 {
        ways_agree(&a, &b, k);
    }
}

fn m4_and_m5() {
    let (a, b) = f();
    let (a, b) = (Columns::of(&a), Columns::of(&b));
    assert_eq!(distance_list(&a, &b, 5, 9).unwrap(), [(0, 0), (0, 1), (1, 0), (1, 1), (2, 2)]);
    assert_eq!(distance_list(&a, &b, 4, 9).unwrap(), [(0, 1), (1, 1), (2, 2)]);
}

fn m6() {
    let (a, b) = f();
    let (a, b) = (Columns::of(&a), Columns::of(&b));
    let opening = Opening { k: 2, first_ends: &[2, 3], second_ends: &[1, 3] };
    for (way, customer) in WAYS.into_iter().flat_map(|way| CUSTOMERS.map(|customer| (way, customer))) {
        let mut r = results(2);
        let mut g = prepare(&a, &b, &[2, 3], &[1, 3]).unwrap();
        g = open(&g, customer, &a, &b, opening, &r).unwrap();
        let mut swept = Vec::new();
        for (s, t) in [(0, 0), (1, 0), (0, 1), (1, 1)] {
            let done = job(way, &g, customer, &a, &b, &r, s, t).unwrap();
            (g, r) = (done.grid, done.results);
            swept.push(done.swept);
        }
        assert_eq!(swept, [true, false, true, true]);
        assert_eq!((&r.first[..], &r.second[..]), (&[2, 1][..], &[2, 1][..]));
        assert_eq!(status(&g, customer, &a, &b, &r), Ok(Status { settled: 4, jobs: 4, entries: 2, k: 2 }));
    }
}

/// M6's jobs in one call: 2, 4 and 2 looks and 2, 2 and 1 distances by the classic sweep, 3, 7 and 3 range pairs by halves.
fn several_jobs() {
    let (a, b) = f();
    let (a, b) = (Columns::of(&a), Columns::of(&b));
    let opening = Opening { k: 2, first_ends: &[2, 3], second_ends: &[1, 3] };
    let g = open(&prepare(&a, &b, &[2, 3], &[1, 3]).unwrap(), 2, &a, &b, opening, &results(2)).unwrap();
    let call = |rows: &[(u32, u32, u32)]| jobs(&g, 2, &a, &b, &results(2), &Jobs::of(rows));
    let by = |ways: [u32; 4]| [(0, 0, ways[0]), (1, 0, ways[1]), (0, 1, ways[2]), (1, 1, ways[3])];
    for (ways, looks, distances, range_pairs) in [([0; 4], 8, 5, 0), ([2; 4], 0, 0, 13), ([0, 2, 2, 0], 4, 3, 7)] {
        let done = call(&by(ways)).unwrap();
        assert_eq!((done.skipped, done.counters), (1, Counters { looks, distances, range_pairs }));
        assert_eq!((&done.results.first[..], &done.results.second[..]), (&[2, 1][..], &[2, 1][..]));
        assert_eq!([0, 1, 32, 33].map(|mark| done.grid.marks[mark]), [2; 4]);
    }
    let done = call(&[]).unwrap();
    assert!(done.grid == g && (done.skipped, done.counters) == (0, Counters::default()));
    assert_eq!(call(&by([0, 0, 0, 3])).err(), Some(8));
    assert_eq!(call(&[(0, 0, 0), (1, 1, 0), (0, 0, 1), (2, 0, 0)]).err(), Some(9));
    assert_eq!(call(&[(0, 0, 0), (1, 1, 0), (0, 2, 1), (0, 0, 0)]).err(), Some(8));
    let unequal = Jobs { way: vec![0], ..Jobs::default() };
    assert_eq!(jobs(&g, 2, &a, &b, &results(2), &unequal).err(), Some(8));
    assert_eq!(jobs(&g, 1, &a, &b, &results(2), &unequal).err(), Some(7));
}

fn m7_m8_and_m10() {
    let (a, b) = (vec![site(0, 0, 1), site(5, 5, 2)], vec![site(5, 0, 3)]);
    for way in WAYS {
        assert_eq!(listed(way, &a, &b, 1).0, [(0, 0)]);
        assert_eq!(listed(way, &[], &b, 1), (vec![], Counters::default()));
        assert_eq!(listed(way, &a, &[], 1), (vec![], Counters::default()));
    }
    let (none, b) = (Columns::of(&[]), Columns::of(&b));
    let g = prepare(&none, &b, &[], &[1]).unwrap();
    for customer in CUSTOMERS {
        let opening = Opening { k: 1, first_ends: &[], second_ends: &[1] };
        let g = open(&g, customer, &none, &b, opening, &results(1)).unwrap();
        let counts = status(&g, customer, &none, &b, &results(1)).unwrap();
        assert_eq!((counts.jobs, counts.entries), (0, 0));
    }
    let corner = 1_000_000_000;
    assert_eq!(squared_distance(site(-corner, -corner, 0), site(corner, corner, 0)), 8_000_000_000_000_000_000);
}

/// M6's lists and cuts for two customers, mark by mark.
fn two_customers() {
    let (a, b) = f();
    let (a, b) = (Columns::of(&a), Columns::of(&b));
    let opening = |k| Opening { k, first_ends: &[2, 3], second_ends: &[1, 3] };
    let (mut r, mut q) = (results(2), results(9));
    let mut g = prepare(&a, &b, &[2, 3], &[1, 3]).unwrap();
    assert_eq!((g.first_ends[..3].to_vec(), g.second_ends[..3].to_vec()), (vec![2, 3, 0], vec![1, 3, 0]));
    assert_eq!([status(&g, 1, &a, &b, &r), status(&g, 2, &a, &b, &q)], [Err(7); 2]);
    g = open(&g, 2, &a, &b, opening(9), &q).unwrap();
    assert_eq!(status(&g, 1, &a, &b, &r), Err(7));
    let mut told = Vec::new();
    for (customer, s, t) in [(2, 1, 0), (2, 0, 1), (1, 0, 0), (1, 1, 0), (2, 0, 0)] {
        if (customer, s) == (1, 0) {
            g = open(&g, 1, &a, &b, opening(2), &r).unwrap();
        }
        let columns = if customer == 1 { &mut r } else { &mut q };
        let done = job(Way::Classic, &g, customer, &a, &b, columns, s, t).unwrap();
        (g, *columns) = (done.grid, done.results);
        told.push((g.marks[0], g.marks[1], g.marks[32], g.shares[0].entries, g.shares[1].entries, done.swept));
    }
    let expected = [
        (0, 0, 2, 0, 1, true),
        (0, 2, 2, 0, 5, true),
        (1, 2, 2, 2, 5, true),
        (1, 2, 3, 2, 5, false),
        (3, 2, 3, 2, 7, true),
    ];
    assert_eq!(told, expected);
    assert_eq!(status(&g, 1, &a, &b, &r), Ok(Status { settled: 2, jobs: 4, entries: 2, k: 2 }));
    assert_eq!(status(&g, 2, &a, &b, &q), Ok(Status { settled: 3, jobs: 4, entries: 7, k: 9 }));
    assert_eq!(job(Way::Classic, &g, 2, &a, &b, &q, 1, 0).err(), Some(9));
    assert_eq!(open(&g, 1, &a, &b, Opening { first_ends: &[1, 3], ..opening(2) }, &r).err(), Some(5));
    assert_eq!(open(&g, 3, &a, &b, opening(0), &r).err(), Some(15));
    g = open(&g, 1, &a, &b, opening(1), &r).unwrap();
    assert_eq!((g.marks[0], g.marks[1], g.marks[32]), (2, 2, 2));
    assert_eq!(g.shares, [Share { k: 1, entries: 0 }, Share { k: 9, entries: 7 }]);
}

/// Document 02 l's own numbers, and what follows from them.
fn heights() {
    let (low, high) = (site(0, 0, 1), site(0, 0, 1).up(3));
    assert_eq!(squared_distance(low, high), 9);
    let corner = 1_000_000_000;
    let (p, q) = (site(-corner, corner, 1).up(-10_000), site(corner, -corner, 2).up(10_000));
    assert_eq!(squared_distance(p, q), 8_000_000_000_400_000_000);
    for way in WAYS {
        // at one x and y, a pair where the heights differ
        assert_eq!(listed(way, &[low], &[high], 1), (vec![(0, 0)], way.counters(1, 1, 1)));
        assert_eq!(listed(way, &[high], &[high], 1), (vec![], way.counters(1, 1, 1)));
        // nearer in the plane, farther by height
        assert_eq!(listed(way, &[low], &[site(1, 0, 0).up(4), site(2, 3, 0)], 1).0, [(0, 1)]);
    }
    let (a, b) = ([low, site(4, 0, 2).up(2)], [high, site(1, 9, 2).up(7)]);
    assert_eq!(squared_gaps(Strip::whole(&a), Strip::whole(&b)), [0, 0, 1]);
    assert_eq!(pair_count(Strip::whole(&[low, high]), Strip::whole(&[high, high.up(3), low])), 3);
    // the order does not look at the height, the limits do
    assert_eq!(content_refusal(&[site(0, 0, 1).up(9), site(0, 0, 2).up(-9)]), 0);
    assert_eq!(content_refusal(&[low, high]), 3);
    assert_eq!(content_refusal(&[low.up(10_001)]), 2);
    assert_eq!(content_refusal(&[low.up(-10_000)]), 0);
}

/// Document 02 f's example: what moves down, and what stays.
fn removing() {
    let row = |x, y, number, height| site(x, y, number).up(height);
    let c = Columns::of(&[row(0, 0, 11, 1), row(4, 3, 12, 2), row(10, 0, 13, 3), row(7, 7, 7, 7)]);
    let after = Columns::of(&[row(4, 3, 12, 2), row(10, 0, 13, 3), row(10, 0, 13, 3), row(7, 7, 7, 7)]);
    assert_eq!(remove(&c, 3, site(0, 0, 11)), Ok((0, 2, after)));
    assert_eq!(remove(&c, 3, site(10, 0, 13)), Ok((2, 2, c.clone())));
    assert_eq!(remove(&c, 3, site(7, 7, 7)), Err(16));
    assert_eq!(remove(&c, 4, site(0, 0, 11)), Err(3));
    assert_eq!(remove(&c, 0, site(0, 0, 11)), Err(16));
}

/// The brute force of the plane, held to the examples apart from the other.
fn of_the_plane() {
    let (a, b) = f();
    let (a, b) = (plane::flat(&a), plane::flat(&b));
    let counts = [Counters::swept(9, 6), Counters::swept(7, 5), Counters::halved(15)];
    for (way, expected) in WAYS.into_iter().zip(counts) {
        let (entries, counters) = plane::k_list(way, &a, &b, 3);
        assert_eq!(entries.iter().map(|e| (e.first, e.second)).collect::<Vec<_>>(), [(2, 2), (1, 1), (0, 1)]);
        assert_eq!(counters, expected);
        let (first_ends, second_ends) = (&[2, 3][..], &[1, 3][..]);
        let mut c = plane::Campaign::opened(&a, &b, 2, first_ends, second_ends);
        let swept = [(0, 0), (1, 0), (0, 1), (1, 1)].map(|(s, t)| c.job(way, s, t).is_some());
        assert_eq!(swept, [true, false, true, true]);
        assert_eq!(c.status(), Status { settled: 4, jobs: 4, entries: 2, k: 2 });
    }
    assert_eq!(plane::distance_list(&a, &b, 5), [(0, 0), (0, 1), (1, 0), (1, 1), (2, 2)]);
    assert_eq!(plane::distance_list(&a, &b, 4), [(0, 1), (1, 1), (2, 2)]);
}

fn own_examples() {
    let sites = |l: &[(i32, i32)]| l.iter().map(|(x, y)| site(*x, *y, 0)).collect::<Vec<_>>();
    // a stop at equality makes 2 and 1
    let b = sites(&[(3, 4), (5, 0)]);
    assert_eq!(listed(Way::Classic, &sites(&[(0, 0)]), &b, 1), (vec![(0, 0)], Counters::swept(2, 2)));
    // a limit place that is looked at again makes 3 and 1
    let b = sites(&[(3, 2), (4, 1), (6, 1)]);
    assert_eq!(listed(Way::ReverseRun, &sites(&[(1, 0)]), &b, 1), (vec![(0, 0)], Counters::swept(2, 1)));
    // co-sited cells: both distances and both single range pairs are counted, one pair is there
    let (a, b) = (sites(&[(0, 0)]), sites(&[(0, 0), (3, 4)]));
    for way in WAYS {
        assert_eq!(listed(way, &a, &b, 1), (vec![(0, 1)], way.counters(2, 2, 3)));
        ways_agree(&a, &b, 1);
    }
    assert_eq!(distance_list(&Columns::of(&a), &Columns::of(&b), 5, 9), Ok(vec![(0, 1)]));
    assert_eq!((pair_count(Strip::whole(&a), Strip::whole(&b)), pair_count(Strip::whole(&a), Strip::whole(&a))), (1, 0));
}

fn forecasts() {
    let (a, b) = f();
    let (a, b) = (Columns::of(&a), Columns::of(&b));
    assert_eq!(forecast(&a, &b, 4, 3), Ok((vec![2, 2, 1], 5)));
    assert_eq!(forecast(&a, &b, 0, 4), Ok((vec![1, 1, 0], 2)));
    assert_eq!(forecast(&a, &b, 4, 2), Err(6));
    // co-sited cells are partners
    let one = Columns::of(&[site(0, 0, 1)]);
    assert_eq!(forecast(&one, &one, 0, 1), Ok((vec![1], 1)));
    assert_eq!(plane::forecast(&plane::flat(&f().0), &plane::flat(&f().1), 4), [2, 2, 1]);
}

fn case_listing() {
    let (a, b) = f();
    let mut input = 3u32.to_le_bytes().to_vec();
    input.extend(plane::encode(&plane::flat(&a), &plane::flat(&b)));
    assert_eq!(plane::listing(&input), "pairs 3 of 9\n1 5 13 23\n2 9 12 22\n3 16 11 22\n");
    input[0] = 0;
    assert_eq!(plane::listing(&input), "refused 4\n");
    assert_eq!(plane::listing(&input[..3]), "refused 10\n");
    assert_eq!(plane::listing(&[0; 48_021]), "refused 6\n");
}

pub fn run(h: &mut Harness) {
    h.test("model: M1, M2, M3, M9", m1_to_m3_and_m9);
    h.test("model: M4, M5", m4_and_m5);
    h.test("model: M6", m6);
    h.test("model: M6 in one call", several_jobs);
    h.test("model: M7, M8, M10", m7_m8_and_m10);
    h.test("model: two customers", two_customers);
    h.test("model: own examples", own_examples);
    h.test("model: heights", heights);
    h.test("model: removing", removing);
    h.test("model: forecasts", forecasts);
    h.test("model: the plane", of_the_plane);
    h.test("model: case listing", case_listing);
}
