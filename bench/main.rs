//! The exported calls beside the same work in ordinary optimised Rust, in one run.

mod keepers;
mod ordinary;
#[allow(dead_code)]
#[path = "../tests/random.rs"]
mod random;
#[allow(dead_code)]
#[path = "../tests/raw.rs"]
mod raw;

use keepers::{Buffered, Entry, Heap, KList, Sorted};
use ordinary::{Counters, Lent, List};
use random::Random;
use raw::Band;
use std::cell::RefCell;
use std::hint::black_box;
use std::time::Instant;

const SITES: usize = 50_000;
const ROUNDS: usize = 7;

#[derive(Clone, PartialEq)]
struct Columns {
    x: Vec<i32>,
    y: Vec<i32>,
    number: Vec<u32>,
    height: Vec<i32>,
}

/// The floor of a site, from 0 to 30. It is drawn from the site alone, so that positions do not depend on it.
fn floor(s: &(i32, i32, u32)) -> i32 {
    let seed = ((s.0 as u32 as u64) << 32 | s.1 as u32 as u64) ^ s.2 as u64;
    Random::new(seed).from_to(0, 30) as i32
}

impl Columns {
    /// Sites, each on its floor.
    fn of(mut sites: Vec<(i32, i32, u32)>) -> Columns {
        sites.sort();
        Columns {
            x: sites.iter().map(|s| s.0).collect(),
            y: sites.iter().map(|s| s.1).collect(),
            number: sites.iter().map(|s| s.2).collect(),
            height: sites.iter().map(floor).collect(),
        }
    }

    fn lent(&self) -> List<'_> {
        List { x: &self.x, y: &self.y, number: &self.number, height: &self.height }
    }

    fn changed(&mut self) -> Lent<'_> {
        Lent { x: &mut self.x, y: &mut self.y, number: &mut self.number, height: &mut self.height }
    }
}

/// Sites spread evenly over the whole range.
fn even(r: &mut Random, sites: usize) -> Columns {
    let c = |r: &mut Random| r.from_to(-1_000_000_000, 1_000_000_000) as i32;
    Columns::of((0..sites).map(|i| (c(r), c(r), i as u32)).collect())
}

/// Sites spread evenly over a band of x one thousandth as wide as it is long in y.
fn band(r: &mut Random, sites: usize) -> Columns {
    let sites = (0..sites).map(|i| {
        (r.from_to(-1_000_000, 1_000_000) as i32, r.from_to(-1_000_000_000, 1_000_000_000) as i32, i as u32)
    });
    Columns::of(sites.collect())
}

/// Sites along a road that runs through all of y and hardly moves in x, 10,000 of them.
fn road(r: &mut Random) -> Columns {
    let sites = (0..10_000).map(|i| {
        let x = r.from_to(-500, 500);
        let y = 1_900_000 * x + r.from_to(-50_000_000, 50_000_000);
        (x as i32, y as i32, i as u32)
    });
    Columns::of(sites.collect())
}

/// Sites at one position, the height included.
fn stacked(sites: usize) -> Columns {
    Columns { height: vec![7; sites], ..Columns::of((0..sites).map(|i| (7, 7, i as u32)).collect()) }
}

/// Sites in 100 clusters, dense at their centres. The centres are those of both lists.
fn clustered(r: &mut Random, centres: &[(i64, i64)]) -> Columns {
    let mut off = |c: i64| {
        let spread = (r.from_to(-10_000_000, 10_000_000) + r.from_to(-10_000_000, 10_000_000)) / 2;
        (c + spread).clamp(-1_000_000_000, 1_000_000_000) as i32
    };
    let sites = (0..SITES).map(|i| {
        let (x, y) = centres[i % centres.len()];
        (off(x), off(y), i as u32)
    });
    Columns::of(sites.collect())
}

/// The least milliseconds of each piece of work, over rounds that take turns.
fn least<const N: usize>(mut work: [&mut dyn FnMut(); N]) -> [f64; N] {
    let mut best = [f64::INFINITY; N];
    for _ in 0..ROUNDS {
        for (time, piece) in best.iter_mut().zip(&mut work) {
            let began = Instant::now();
            piece();
            *time = time.min(began.elapsed().as_secs_f64() * 1_000.0);
        }
    }
    best
}

/// A comparison of two entries, by their numbers.
type Compare = unsafe extern "C" fn(u64, u32, u32, u64, u32, u32) -> u32;

/// How many entries come before the next one.
fn ascents(compare: Compare, entries: &[Entry]) -> usize {
    let before = |w: &&[Entry]| {
        let (a, b) = (w[0], w[1]);
        unsafe { compare(a.distance, a.first, a.second, b.distance, b.first, b.second) == 0 }
    };
    entries.windows(2).filter(before).count()
}

/// The comparison alone, each entry with the next one, on random entries and on the same ones sorted.
fn comparisons(name: &str, r: &mut Random, distances: i64) {
    let place = |r: &mut Random| r.from_to(0, 65_534) as u32;
    let mut entries: Vec<Entry> = (0..200_000)
        .map(|_| Entry { distance: r.from_to(1, distances) as u64, first: place(r), second: place(r) })
        .collect();
    for order in ["random", "sorted"] {
        let (mut ours, mut theirs) = (0, 0);
        let [proved, plain] = least([
            &mut || ours = ascents(black_box(raw::compare_entries), &entries),
            &mut || theirs = ascents(black_box(ordinary::compare_entries), &entries),
        ]);
        assert_eq!(ours, theirs, "the answers differ");
        let each = |ms: f64| ms * 1e6 / entries.len() as f64;
        println!(
            "comparison, {order} entries, {name}: {:.2} ns, Rust {:.2} ns, ratio {:.2}",
            each(proved),
            each(plain),
            proved / plain
        );
        entries.sort();
    }
}

/// A check of a lawful list.
fn checked(a: &Columns) {
    let mut count = 0;
    let number = unsafe {
        raw::vumlintel_check(
            a.x.as_ptr(), a.x.len(), a.y.as_ptr(), a.y.len(), a.number.as_ptr(), a.number.len(),
            a.height.as_ptr(), a.height.len(),
            &mut count,
        )
    };
    assert_eq!((number, black_box(count)), (0, a.x.len() as u32));
}

fn list_check(name: &str, a: &Columns) {
    let [proved, plain] =
        least([&mut || checked(a), &mut || assert_eq!(ordinary::check(black_box(a.lent())), 0)]);
    println!("check {SITES} {name} sites: {proved:.3} ms, Rust {plain:.3} ms, ratio {:.2}", proved / plain);
}

/// A site: x, y, number and height.
type Row = (i32, i32, u32, i32);

/// A site added to all but the last of the columns' elements: its place.
fn added(c: &mut Columns, s: Row) -> u32 {
    let (n, mut place, mut count) = (c.x.len(), 0, 0);
    let number = unsafe {
        raw::vumlintel_add(
            c.x.as_mut_ptr(), n, c.y.as_mut_ptr(), n, c.number.as_mut_ptr(), n, c.height.as_mut_ptr(), n,
            n as u32 - 1, s.0, s.1, s.2, s.3, &mut place, &mut count,
        )
    };
    assert_eq!((number, count), (0, n as u32));
    place
}

/// A site removed from columns that are full: its place.
fn removed(c: &mut Columns, s: Row) -> u32 {
    let (n, mut place, mut count) = (c.x.len(), 0, 0);
    let number = unsafe {
        raw::vumlintel_remove(
            c.x.as_mut_ptr(), n, c.y.as_mut_ptr(), n, c.number.as_mut_ptr(), n, c.height.as_mut_ptr(), n,
            n as u32, s.0, s.1, s.2, &mut place, &mut count,
        )
    };
    assert_eq!((number, count), (0, n as u32 - 1));
    place
}

/// A site added at a place of a list, and removed again.
fn changes(name: &str, a: &Columns, place: usize) {
    let used = a.x.len();
    let next = a.x.get(place).map_or(1_000_000_000, |x| *x);
    let s: Row = (next, -1_000_000_000, 7, 9);
    let mut with_room = a.clone();
    for column in [&mut with_room.x, &mut with_room.y, &mut with_room.height] {
        column.push(0);
    }
    with_room.number.push(0);
    let (ours, theirs) = (RefCell::new(with_room.clone()), RefCell::new(with_room));
    let [add, plain_add, remove, plain_remove] = least([
        &mut || assert_eq!(added(&mut ours.borrow_mut(), s), place as u32),
        &mut || assert_eq!(theirs.borrow_mut().changed().add(used, (s.0, s.1, s.2), s.3), Ok(place)),
        &mut || assert_eq!(removed(&mut ours.borrow_mut(), s), place as u32),
        &mut || assert_eq!(theirs.borrow_mut().changed().remove(used + 1, (s.0, s.1, s.2)), Ok(place)),
    ]);
    assert!(ours == theirs, "the columns differ");
    for (work, proved, plain) in [("add", add, plain_add), ("remove", remove, plain_remove)] {
        println!(
            "{work} at place {place} of {used} {name} sites: {proved:.3} ms, Rust {plain:.3} ms, ratio {:.2}",
            proved / plain
        );
    }
}

type Call = unsafe extern "C" fn(
    *const i32, usize, *const i32, usize, *const u32, usize, *const i32, usize,
    *const i32, usize, *const i32, usize, *const u32, usize, *const i32, usize,
    u32, *mut u64, usize, *mut u32, usize, *mut u32, usize,
    *mut u32, *mut u64, *mut u64,
) -> u32;

/// Result columns of a K list.
struct Results {
    distance: Vec<u64>,
    first: Vec<u32>,
    second: Vec<u32>,
}

impl Results {
    fn new(k: usize) -> Results {
        Results { distance: vec![0; k], first: vec![0; k], second: vec![0; k] }
    }

    fn entries(&self) -> Vec<Entry> {
        (0..self.distance.len())
            .map(|i| Entry { distance: self.distance[i], first: self.first[i], second: self.second[i] })
            .collect()
    }
}

/// Both lists tested and swept, in ordinary Rust.
fn plain_k_list(classic: bool, a: List, b: List, mut list: impl KList) -> (Vec<Entry>, Counters) {
    assert!(ordinary::check(a) == 0 && ordinary::check(b) == 0);
    let (p, q) = ((0, a.x.len()), (0, b.x.len()));
    let counters = if classic {
        ordinary::classic(a, b, p, q, &mut list)
    } else {
        ordinary::reverse_run(a, b, p, q, &mut list)
    };
    (list.entries(), counters)
}

/// A K list of K entries by a sweep.
fn swept(call: Call, a: &Columns, b: &Columns, k: usize, r: &mut Results) -> Counters {
    let (mut entries, mut counters) = (0, Counters::default());
    let number = unsafe {
        call(
            a.x.as_ptr(), a.x.len(), a.y.as_ptr(), a.y.len(), a.number.as_ptr(), a.number.len(),
            a.height.as_ptr(), a.height.len(),
            b.x.as_ptr(), b.x.len(), b.y.as_ptr(), b.y.len(), b.number.as_ptr(), b.number.len(),
            b.height.as_ptr(), b.height.len(),
            k as u32,
            r.distance.as_mut_ptr(), k, r.first.as_mut_ptr(), k, r.second.as_mut_ptr(), k,
            &mut entries, &mut counters.looks, &mut counters.distances,
        )
    };
    assert_eq!((number, entries as usize), (0, k));
    counters
}

fn k_list(name: &str, way: &str, call: Call, a: &Columns, b: &Columns, k: usize) {
    let mut r = Results::new(k);
    let mut told = Counters::default();
    let (mut sorted, mut heaped, mut buffered) = (None, None, None);
    let classic = way == "classic";
    let [proved, by_sorting, by_heap, by_buffer] = least([
        &mut || told = swept(call, a, b, k, &mut r),
        &mut || sorted = Some(plain_k_list(classic, a.lent(), b.lent(), Sorted::new(k, Vec::new()))),
        &mut || heaped = Some(plain_k_list(classic, a.lent(), b.lent(), Heap::new(k, Vec::new()))),
        &mut || buffered = Some(plain_k_list(classic, a.lent(), b.lent(), Buffered::new(k, Vec::new()))),
    ]);
    let answer = Some((r.entries(), told));
    assert!([sorted, heaped, buffered].iter().all(|l| *l == answer), "the answers differ");
    println!(
        "K list, {way}, {name}, K {k}: {proved:.2} ms, Rust {by_sorting:.2} ms by insertion, {by_heap:.2} ms by heap, \
         {by_buffer:.2} ms by buffer, ratio {:.2}; {} looks, {:.0} million a second",
        proved / by_sorting.min(by_heap).min(by_buffer),
        told.looks,
        told.looks as f64 / proved / 1_000.0,
    );
}

/// A K list of K entries by halves: its range pairs.
fn halved(a: &Columns, b: &Columns, k: usize, r: &mut Results) -> u64 {
    let (mut entries, mut range_pairs) = (0, 0);
    let number = unsafe {
        raw::vumlintel_k_list_halves(
            a.x.as_ptr(), a.x.len(), a.y.as_ptr(), a.y.len(), a.number.as_ptr(), a.number.len(),
            a.height.as_ptr(), a.height.len(),
            b.x.as_ptr(), b.x.len(), b.y.as_ptr(), b.y.len(), b.number.as_ptr(), b.number.len(),
            b.height.as_ptr(), b.height.len(),
            k as u32,
            r.distance.as_mut_ptr(), k, r.first.as_mut_ptr(), k, r.second.as_mut_ptr(), k,
            &mut entries, &mut range_pairs,
        )
    };
    assert_eq!((number, entries as usize), (0, k));
    range_pairs
}

/// Both lists tested and joined by halves, in ordinary Rust.
fn plain_halves(a: List, b: List, mut list: impl KList) -> (Vec<Entry>, u64) {
    assert!(ordinary::check(a) == 0 && ordinary::check(b) == 0);
    let range_pairs = ordinary::halves(a, b, (0, a.x.len()), (0, b.x.len()), &mut list);
    (list.entries(), range_pairs)
}

/// A K list by halves beside the same in ordinary Rust, and beside both sweeps.
fn k_list_by_halves(name: &str, a: &Columns, b: &Columns, k: usize) {
    let [mut r, mut by_classic, mut by_reverse_run] = [0; 3].map(|_| Results::new(k));
    let (mut range_pairs, mut classic_looks, mut reverse_run_looks) = (0, 0, 0);
    let (mut sorted, mut heaped, mut buffered) = (None, None, None);
    let [proved, by_sorting, by_heap, by_buffer, classic, reverse_run] = least([
        &mut || range_pairs = halved(a, b, k, &mut r),
        &mut || sorted = Some(plain_halves(a.lent(), b.lent(), Sorted::new(k, Vec::new()))),
        &mut || heaped = Some(plain_halves(a.lent(), b.lent(), Heap::new(k, Vec::new()))),
        &mut || buffered = Some(plain_halves(a.lent(), b.lent(), Buffered::new(k, Vec::new()))),
        &mut || classic_looks = swept(raw::vumlintel_k_list_classic, a, b, k, &mut by_classic).looks,
        &mut || reverse_run_looks = swept(raw::vumlintel_k_list_reverse_run, a, b, k, &mut by_reverse_run).looks,
    ]);
    let entries = r.entries();
    assert!(entries == by_classic.entries() && entries == by_reverse_run.entries(), "the ways differ");
    let answer = Some((entries, range_pairs));
    assert!([sorted, heaped, buffered].iter().all(|l| *l == answer), "the answers differ");
    println!(
        "K list, halves, {} sites, {name}, K {k}: {proved:.2} ms, Rust {by_sorting:.2} ms by insertion, {by_heap:.2} ms by \
         heap, {by_buffer:.2} ms by buffer, ratio {:.2}; {range_pairs} range pairs, {:.0} million a second; classic \
         {classic:.2} ms, {classic_looks} looks, Reverse Run {reverse_run:.2} ms, {reverse_run_looks} looks",
        a.x.len(),
        proved / by_sorting.min(by_heap).min(by_buffer),
        range_pairs as f64 / proved / 1_000.0,
    );
}

/// An e that has about this many pairs.
fn limit_for(a: List, b: List, pairs: usize) -> u32 {
    let (mut low, mut high) = (0, 100_000_000);
    while high - low > high / 1_000 + 1 {
        let e = (low + high) / 2;
        if ordinary::distance_pairs(a, b, e).len() < pairs { low = e } else { high = e }
    }
    high
}

fn distance_list(name: &str, a: &Columns, b: &Columns, wanted: usize) {
    let e = limit_for(a.lent(), b.lent(), wanted);
    let found = ordinary::distance_pairs(a.lent(), b.lent(), e).len();
    let mut ours = (vec![0; found], vec![0; found]);
    let mut theirs = (vec![0; found], vec![0; found]);
    let [proved, plain] = least([
        &mut || {
            let mut count = 0;
            let number = unsafe {
                raw::vumlintel_distance_list(
                    a.x.as_ptr(), a.x.len(), a.y.as_ptr(), a.y.len(), a.number.as_ptr(), a.number.len(),
                    a.height.as_ptr(), a.height.len(),
                    b.x.as_ptr(), b.x.len(), b.y.as_ptr(), b.y.len(), b.number.as_ptr(), b.number.len(),
                    b.height.as_ptr(), b.height.len(),
                    e,
                    ours.0.as_mut_ptr(), found, ours.1.as_mut_ptr(), found,
                    &mut count,
                )
            };
            assert_eq!((number, count as usize), (0, found));
        },
        &mut || {
            assert!(ordinary::check(a.lent()) == 0 && ordinary::check(b.lent()) == 0);
            let count = ordinary::distance_list(a.lent(), b.lent(), e, &mut theirs.0, &mut theirs.1);
            assert_eq!(count, Some(found));
        },
    ]);
    assert!(ours == theirs, "the answers differ");
    println!(
        "distance list, {name}, e {e}, {found} pairs: {proved:.2} ms, Rust {plain:.2} ms, ratio {:.2}",
        proved / plain
    );
}

/// A forecast beside the same in ordinary Rust, and beside checking the two lists.
fn forecast(name: &str, a: &Columns, b: &Columns, e: u32) {
    let (mut ours, mut theirs) = (vec![0; SITES], vec![0; SITES]);
    let (mut total, mut expected) = (0, None);
    let [proved, plain, checks] = least([
        &mut || {
            let number = unsafe {
                raw::vumlintel_forecast(
                    a.x.as_ptr(), a.x.len(), a.y.as_ptr(), a.y.len(), a.number.as_ptr(), a.number.len(),
                    a.height.as_ptr(), a.height.len(),
                    b.x.as_ptr(), b.x.len(), b.y.as_ptr(), b.y.len(), b.number.as_ptr(), b.number.len(),
                    b.height.as_ptr(), b.height.len(),
                    e,
                    ours.as_mut_ptr(), ours.len(),
                    &mut total,
                )
            };
            assert_eq!(number, 0);
        },
        &mut || {
            assert!(ordinary::check(a.lent()) == 0 && ordinary::check(b.lent()) == 0);
            expected = ordinary::forecast(a.lent(), b.lent(), e, &mut theirs);
        },
        &mut || [a, b].into_iter().for_each(checked),
    ]);
    assert!(Some(total) == expected && ours == theirs, "the answers differ");
    println!(
        "forecast, {name}, e {e}, {total} pairs: {proved:.3} ms, Rust {plain:.3} ms, ratio {:.2}; both lists checked in \
         {checks:.3} ms, ratio {:.2}",
        proved / plain,
        proved / checks,
    );
}

/// Lawful bands of equal width but for the last, each with a price of its own.
fn table(bands: u32) -> Vec<Band> {
    let last = 2_828_427_125;
    let to = |i: u32| if i == bands { last } else { last / bands * i };
    (0..bands).map(|i| Band { from: to(i), to: to(i + 1), price: 1_000_000 / (i + 1) }).collect()
}

/// Entries priced by bands, a hundred times over, beside the same in ordinary Rust.
fn pricing(name: &str, bands: &[Band], distance: &[u64]) {
    let (n, times) = (distance.len(), 100);
    let (mut ours, mut theirs) = (vec![0; n], vec![0; n]);
    let (mut total, mut expected) = (0, Ok(0));
    let [proved, plain] = least([
        &mut || {
            for _ in 0..times {
                let number = unsafe {
                    raw::vumlintel_price(
                        bands.as_ptr(), bands.len(),
                        distance.as_ptr(), n, n as u32,
                        ours.as_mut_ptr(), n,
                        &mut total,
                    )
                };
                assert_eq!(number, 0);
            }
        },
        &mut || {
            for _ in 0..times {
                expected = ordinary::price(black_box(bands), black_box(distance), n, black_box(&mut theirs));
            }
        },
    ]);
    assert!(Ok(total) == expected && ours == theirs, "the answers differ");
    let each = |ms: f64| ms * 1_000.0 / times as f64;
    println!(
        "price {n} entries, {name}: {:.2} us, Rust {:.2} us, ratio {:.2}",
        each(proved),
        each(plain),
        proved / plain
    );
}

/// As many entries as there can be, about as many in each of 64 bands, ascending as in a K list and in random order.
fn prices() {
    let r = &mut Random::new(5);
    let mut distance: Vec<u64> = (0..4_096).map(|_| r.from_to(0, 2_828_427_124) as u64).map(|d| d * d).collect();
    let (many, one) = (table(64), table(1));
    distance.sort();
    pricing("ascending, 64 bands", &many, &distance);
    pricing("ascending, one band", &one, &distance);
    for i in (1..distance.len()).rev() {
        distance.swap(i, r.below(i + 1));
    }
    pricing("shuffled, 64 bands", &many, &distance);
}

/// A grid as the calls take it.
struct Grid {
    strips: [u32; 2],
    first_ends: [u32; 32],
    second_ends: [u32; 32],
    marks: [u8; 1024],
    shares: [u32; 4],
}

/// The ends of this many strips of a list.
fn cuts(l: &Columns, strips: usize) -> Vec<u32> {
    (1..=strips).map(|s| (l.x.len() * s / strips) as u32).collect()
}

impl Grid {
    /// A grid prepared with this many strips a list. What is measured afterwards is one customer's, from their opening on.
    fn prepared(a: &Columns, b: &Columns, strips: usize) -> Grid {
        let mut g =
            Grid { strips: [9; 2], first_ends: [9; 32], second_ends: [9; 32], marks: [9; 1024], shares: [9; 4] };
        let (first, second) = (cuts(a, strips), cuts(b, strips));
        let ([fs, ss], [k1, e1, k2, e2]) = (&mut g.strips, &mut g.shares);
        let number = unsafe {
            raw::vumlintel_prepare(
                a.x.as_ptr(), a.x.len(), a.y.as_ptr(), a.y.len(), a.number.as_ptr(), a.number.len(),
                a.height.as_ptr(), a.height.len(),
                b.x.as_ptr(), b.x.len(), b.y.as_ptr(), b.y.len(), b.number.as_ptr(), b.number.len(),
                b.height.as_ptr(), b.height.len(),
                first.as_ptr(), strips, second.as_ptr(), strips,
                fs, ss, &mut g.first_ends, &mut g.second_ends, &mut g.marks, k1, e1, k2, e2,
            )
        };
        assert_eq!(number, 0);
        g
    }
}

/// An opening as customer 1, with the grid's ends.
fn opened(a: &Columns, b: &Columns, k: usize, strips: usize, g: &mut Grid, r: &Results) {
    let (first, second) = (cuts(a, strips), cuts(b, strips));
    let ([fs, ss], [k1, e1, k2, e2]) = (&mut g.strips, &mut g.shares);
    let number = unsafe {
        raw::vumlintel_open(
            fs, ss, &mut g.first_ends, &mut g.second_ends, &mut g.marks, k1, e1, k2, e2, 1,
            a.x.as_ptr(), a.x.len(), a.y.as_ptr(), a.y.len(), a.number.as_ptr(), a.number.len(),
            a.height.as_ptr(), a.height.len(),
            b.x.as_ptr(), b.x.len(), b.y.as_ptr(), b.y.len(), b.number.as_ptr(), b.number.len(),
            b.height.as_ptr(), b.height.len(),
            k as u32, first.as_ptr(), strips, second.as_ptr(), strips,
            r.distance.as_ptr(), k, r.first.as_ptr(), k, r.second.as_ptr(), k,
        )
    };
    assert_eq!(number, 0);
}

/// A job: whether it was swept, and its looks or its range pairs.
type Job = fn(&Columns, &Columns, usize, &mut Grid, &mut Results, (u32, u32)) -> (u32, u64);

/// A job by a sweep, as the library has it.
type SweptJob = unsafe extern "C" fn(
    *mut u32, *mut u32, *mut [u32; 32], *mut [u32; 32], *mut [u8; 1024], *mut u32, *mut u32, *mut u32, *mut u32, u32,
    *const i32, usize, *const i32, usize, *const u32, usize, *const i32, usize,
    *const i32, usize, *const i32, usize, *const u32, usize, *const i32, usize,
    *mut u64, usize, *mut u32, usize, *mut u32, usize,
    u32, u32, *mut u32, *mut u64, *mut u64,
) -> u32;

fn swept_job(
    call: SweptJob,
    a: &Columns,
    b: &Columns,
    k: usize,
    g: &mut Grid,
    r: &mut Results,
    (s, t): (u32, u32),
) -> (u32, u64) {
    let ([fs, ss], [k1, e1, k2, e2]) = (&mut g.strips, &mut g.shares);
    let (mut swept, mut looks, mut distances) = (0, 0, 0);
    let number = unsafe {
        call(
            fs, ss, &mut g.first_ends, &mut g.second_ends, &mut g.marks, k1, e1, k2, e2, 1,
            a.x.as_ptr(), a.x.len(), a.y.as_ptr(), a.y.len(), a.number.as_ptr(), a.number.len(),
            a.height.as_ptr(), a.height.len(),
            b.x.as_ptr(), b.x.len(), b.y.as_ptr(), b.y.len(), b.number.as_ptr(), b.number.len(),
            b.height.as_ptr(), b.height.len(),
            r.distance.as_mut_ptr(), k, r.first.as_mut_ptr(), k, r.second.as_mut_ptr(), k,
            s, t, &mut swept, &mut looks, &mut distances,
        )
    };
    assert_eq!(number, 0);
    (swept, looks)
}

fn classic_job(a: &Columns, b: &Columns, k: usize, g: &mut Grid, r: &mut Results, job: (u32, u32)) -> (u32, u64) {
    swept_job(raw::vumlintel_job_classic, a, b, k, g, r, job)
}

fn reverse_run_job(a: &Columns, b: &Columns, k: usize, g: &mut Grid, r: &mut Results, job: (u32, u32)) -> (u32, u64) {
    swept_job(raw::vumlintel_job_reverse_run, a, b, k, g, r, job)
}

fn halves_job(
    a: &Columns,
    b: &Columns,
    k: usize,
    g: &mut Grid,
    r: &mut Results,
    (s, t): (u32, u32),
) -> (u32, u64) {
    let ([fs, ss], [k1, e1, k2, e2]) = (&mut g.strips, &mut g.shares);
    let (mut swept, mut range_pairs) = (0, 0);
    let number = unsafe {
        raw::vumlintel_job_halves(
            fs, ss, &mut g.first_ends, &mut g.second_ends, &mut g.marks, k1, e1, k2, e2, 1,
            a.x.as_ptr(), a.x.len(), a.y.as_ptr(), a.y.len(), a.number.as_ptr(), a.number.len(),
            a.height.as_ptr(), a.height.len(),
            b.x.as_ptr(), b.x.len(), b.y.as_ptr(), b.y.len(), b.number.as_ptr(), b.number.len(),
            b.height.as_ptr(), b.height.len(),
            r.distance.as_mut_ptr(), k, r.first.as_mut_ptr(), k, r.second.as_mut_ptr(), k,
            s, t, &mut swept, &mut range_pairs,
        )
    };
    assert_eq!(number, 0);
    (swept, range_pairs)
}

/// An opening as customer 1 and all their jobs by mark, one call a job: looks or range pairs, and jobs skipped.
fn all_jobs(
    job: Job,
    a: &Columns,
    b: &Columns,
    k: usize,
    strips: usize,
    g: &mut Grid,
    r: &mut Results,
) -> (u64, u32) {
    opened(a, b, k, strips, g, r);
    let strips = strips as u32;
    let (mut count, mut skips) = (0, 0);
    for mark in 0..strips * strips {
        let (swept, counted) = job(a, b, k, g, r, (mark / strips, mark % strips));
        count += counted;
        skips += 1 - swept;
    }
    (count, skips)
}

/// The jobs of one call: two columns of strips and one of ways.
#[derive(Default)]
struct Rows {
    first: Vec<u32>,
    second: Vec<u32>,
    way: Vec<u32>,
}

impl Rows {
    /// Jobs by one way.
    fn by(way: u32, jobs: &[(u32, u32)]) -> Rows {
        Rows {
            first: jobs.iter().map(|job| job.0).collect(),
            second: jobs.iter().map(|job| job.1).collect(),
            way: vec![way; jobs.len()],
        }
    }
}

/// All jobs by mark.
fn by_mark(strips: u32) -> Vec<(u32, u32)> {
    (0..strips * strips).map(|mark| (mark / strips, mark % strips)).collect()
}

/// The jobs that are swept when all are done by mark.
fn swept_jobs(job: Job, a: &Columns, b: &Columns, k: usize, strips: usize) -> Vec<(u32, u32)> {
    let (mut g, mut r) = (Grid::prepared(a, b, strips), Results::new(k));
    opened(a, b, k, strips, &mut g, &r);
    let mut jobs = by_mark(strips as u32);
    jobs.retain(|one| job(a, b, k, &mut g, &mut r, *one).0 == 1);
    jobs
}

/// Several jobs of customer 1 in one call: looks or range pairs, and jobs skipped.
fn in_one_call(rows: &Rows, a: &Columns, b: &Columns, k: usize, g: &mut Grid, r: &mut Results) -> (u64, u32) {
    let ([fs, ss], [k1, e1, k2, e2]) = (&mut g.strips, &mut g.shares);
    let (mut skipped, mut looks, mut distances, mut range_pairs) = (0, 0, 0, 0);
    let number = unsafe {
        raw::vumlintel_jobs(
            fs, ss, &mut g.first_ends, &mut g.second_ends, &mut g.marks, k1, e1, k2, e2, 1,
            a.x.as_ptr(), a.x.len(), a.y.as_ptr(), a.y.len(), a.number.as_ptr(), a.number.len(),
            a.height.as_ptr(), a.height.len(),
            b.x.as_ptr(), b.x.len(), b.y.as_ptr(), b.y.len(), b.number.as_ptr(), b.number.len(),
            b.height.as_ptr(), b.height.len(),
            r.distance.as_mut_ptr(), k, r.first.as_mut_ptr(), k, r.second.as_mut_ptr(), k,
            rows.first.as_ptr(), rows.first.len(), rows.second.as_ptr(), rows.second.len(),
            rows.way.as_ptr(), rows.way.len(),
            &mut skipped, &mut looks, &mut distances, &mut range_pairs,
        )
    };
    assert!(number == 0 && (looks == 0 || range_pairs == 0));
    (looks + range_pairs, skipped)
}

/// A status of customer 1 with all jobs settled: the tests of both lists and refusal 7.
fn status(a: &Columns, b: &Columns, k: usize, strips: usize, g: &Grid, r: &Results) {
    let (mut settled, mut jobs, mut entries, mut got) = (0, 0, 0, 0);
    let ([fs, ss], [k1, e1, k2, e2]) = (&g.strips, &g.shares);
    let number = unsafe {
        raw::vumlintel_status(
            fs, ss, &g.first_ends, &g.second_ends, &g.marks, k1, e1, k2, e2, 1,
            a.x.as_ptr(), a.x.len(), a.y.as_ptr(), a.y.len(), a.number.as_ptr(), a.number.len(),
            a.height.as_ptr(), a.height.len(),
            b.x.as_ptr(), b.x.len(), b.y.as_ptr(), b.y.len(), b.number.as_ptr(), b.number.len(),
            b.height.as_ptr(), b.height.len(),
            r.distance.as_ptr(), k, r.first.as_ptr(), k, r.second.as_ptr(), k,
            &mut settled, &mut jobs, &mut entries, &mut got,
        )
    };
    let all = (strips * strips) as u32;
    assert_eq!((number, settled, jobs, got), (0, all, all, k as u32));
}

/// A lowering of customer 1's K to the present one, which changes nothing: the tests of both lists, 4 and refusal 7.
fn lowered(a: &Columns, b: &Columns, k: usize, g: &mut Grid, r: &Results) {
    let ([fs, ss], [k1, e1, k2, e2]) = (&mut g.strips, &mut g.shares);
    let number = unsafe {
        raw::vumlintel_lower_k(
            fs, ss, &mut g.first_ends, &mut g.second_ends, &mut g.marks, k1, e1, k2, e2, 1,
            a.x.as_ptr(), a.x.len(), a.y.as_ptr(), a.y.len(), a.number.as_ptr(), a.number.len(),
            a.height.as_ptr(), a.height.len(),
            b.x.as_ptr(), b.x.len(), b.y.as_ptr(), b.y.len(), b.number.as_ptr(), b.number.len(),
            b.height.as_ptr(), b.height.len(),
            k as u32, r.distance.as_ptr(), k, r.first.as_ptr(), k, r.second.as_ptr(), k,
        )
    };
    assert_eq!(number, 0);
}

/// All 256 jobs in ordinary Rust, on lists that `keep` makes: what `join` counts, jobs skipped, and the entries.
fn plain_jobs<L: KList>(
    a: List,
    b: List,
    k: usize,
    keep: impl Fn(usize, Vec<Entry>) -> L,
    join: impl Fn(List, List, (usize, usize), (usize, usize), &mut L) -> u64,
) -> (u64, u32, Vec<Entry>) {
    let ends = |l: List| (1..=16).map(|s| l.x.len() * s / 16).collect();
    let mut c = ordinary::Campaign::new(k, [ends(a), ends(b)]);
    let (mut count, mut skips) = (0, 0);
    for job in 0..256 {
        match c.job(&keep, &join, a, b, job / 16, job % 16) {
            Some(counted) => count += counted,
            None => skips += 1,
        }
    }
    (count, skips, c.entries)
}

/// The classic sweep of two strips in ordinary Rust: its looks.
fn looks(a: List, b: List, p: (usize, usize), q: (usize, usize), list: &mut impl KList) -> u64 {
    ordinary::classic(a, b, p, q, list).looks
}

/// A campaign beside the same in ordinary Rust and beside one classic sweep, and where its time goes.
fn campaign(name: &str, a: &Columns, b: &Columns, k: usize) {
    let mut r = Results::new(k);
    let mut g = Grid::prepared(a, b, 16);
    let (mut told, mut whole) = ((0, 0), None);
    let (mut sorted, mut heaped, mut buffered) = (None, None, None);
    let (la, lb) = (a.lent(), b.lent());
    let [jobs, by_sorting, by_heap, by_buffer, sweep] = least([
        &mut || told = all_jobs(classic_job, a, b, k, 16, &mut g, &mut r),
        &mut || sorted = Some(plain_jobs(la, lb, k, Sorted::new, looks)),
        &mut || heaped = Some(plain_jobs(la, lb, k, Heap::new, looks)),
        &mut || buffered = Some(plain_jobs(la, lb, k, Buffered::new, looks)),
        &mut || whole = Some(plain_k_list(true, la, lb, Heap::new(k, Vec::new()))),
    ]);
    let answer = Some((told.0, told.1, r.entries()));
    assert!([sorted, heaped, buffered].iter().all(|l| *l == answer), "the answers differ");
    assert!(Some(r.entries()) == whole.map(|w| w.0), "the answers differ");
    let [statuses, checks] = least([
        &mut || (0..256).for_each(|_| status(a, b, k, 16, &g, &r)),
        &mut || (0..256).for_each(|_| [a, b].into_iter().for_each(checked)),
    ]);
    println!(
        "campaign, {name}, 256 jobs, K {k}: {jobs:.1} ms, Rust {by_sorting:.1} ms by insertion, {by_heap:.1} ms by heap, \
         {by_buffer:.1} ms by buffer, ratio {:.2}; one classic sweep in Rust {sweep:.1} ms, ratio {:.2}; \
         {} skipped, {} looks; list tests {checks:.1} ms, refusal 7 {:.1} ms, the rest {:.1} ms",
        jobs / by_sorting.min(by_heap).min(by_buffer),
        jobs / sweep,
        told.1,
        told.0,
        statuses - checks,
        jobs - statuses,
    );
}

/// A campaign by halves beside the same in ordinary Rust, and beside the same jobs by the classic sweep.
fn campaign_by_halves(name: &str, a: &Columns, b: &Columns, k: usize) {
    let [mut r, mut by_classic] = [0; 2].map(|_| Results::new(k));
    let [mut g, mut d] = [0; 2].map(|_| Grid::prepared(a, b, 16));
    let (mut told, mut classic_told) = ((0, 0), (0, 0));
    let (mut sorted, mut heaped, mut buffered) = (None, None, None);
    let (la, lb) = (a.lent(), b.lent());
    let [jobs, by_sorting, by_heap, by_buffer, classic] = least([
        &mut || told = all_jobs(halves_job, a, b, k, 16, &mut g, &mut r),
        &mut || sorted = Some(plain_jobs(la, lb, k, Sorted::new, ordinary::halves)),
        &mut || heaped = Some(plain_jobs(la, lb, k, Heap::new, ordinary::halves)),
        &mut || buffered = Some(plain_jobs(la, lb, k, Buffered::new, ordinary::halves)),
        &mut || classic_told = all_jobs(classic_job, a, b, k, 16, &mut d, &mut by_classic),
    ]);
    let answer = Some((told.0, told.1, r.entries()));
    assert!([sorted, heaped, buffered].iter().all(|l| *l == answer), "the answers differ");
    assert!(r.entries() == by_classic.entries() && told.1 == classic_told.1, "the ways differ");
    println!(
        "campaign by halves, {name}, 256 jobs, K {k}: {jobs:.1} ms, Rust {by_sorting:.1} ms by insertion, {by_heap:.1} ms by \
         heap, {by_buffer:.1} ms by buffer, ratio {:.2}; {} skipped, {} range pairs; by the classic sweep {classic:.1} ms, \
         {} looks",
        jobs / by_sorting.min(by_heap).min(by_buffer),
        told.1,
        told.0,
        classic_told.0,
    );
}

/// A way by which all jobs of a campaign are done: its name, its number, a job by it, and what it counts.
type JobWay = (&'static str, u32, Job, &'static str);

const JOB_WAYS: [JobWay; 3] = [
    ("classic", 0, classic_job, "looks"),
    ("Reverse Run", 1, reverse_run_job, "looks"),
    ("halves", 2, halves_job, "range pairs"),
];

/// A campaign, its opening and all 256 jobs in one call, beside one classic sweep of the same lists in ordinary Rust, as a K
/// list with its tests, and beside the same jobs in calls of their own. Where its time goes: the opening; the call's tests,
/// which are all that a call with no job does, the lists' being measured by two checks; the jobs that are skipped, which are
/// left out of another call; the rest.
fn campaign_in_one_call((way, way_number, job, counted): JobWay, name: &str, a: &Columns, b: &Columns, k: usize) {
    let [mut r, mut apart, mut fewer, mut none] = [0; 4].map(|_| Results::new(k));
    let [mut g, mut h, mut f] = [0; 3].map(|_| Grid::prepared(a, b, 16));
    let d = RefCell::new(Grid::prepared(a, b, 16));
    let [rows, swept] = [by_mark(16), swept_jobs(job, a, b, k, 16)].map(|jobs| Rows::by(way_number, &jobs));
    let (mut told, mut apart_told, mut fewer_told) = ((0, 0), (0, 0), (0, 0));
    let (mut sorted, mut heaped, mut buffered) = (None, None, None);
    let (la, lb, empty) = (a.lent(), b.lent(), Results::new(k));
    let [whole, singles, without, opening, tests, checks, by_sorting, by_heap, by_buffer] = least([
        &mut || {
            opened(a, b, k, 16, &mut g, &r);
            told = in_one_call(&rows, a, b, k, &mut g, &mut r);
        },
        &mut || apart_told = all_jobs(job, a, b, k, 16, &mut h, &mut apart),
        &mut || {
            opened(a, b, k, 16, &mut f, &fewer);
            fewer_told = in_one_call(&swept, a, b, k, &mut f, &mut fewer);
        },
        &mut || opened(a, b, k, 16, &mut d.borrow_mut(), &empty),
        &mut || assert_eq!(in_one_call(&Rows::default(), a, b, k, &mut d.borrow_mut(), &mut none), (0, 0)),
        &mut || [a, b].into_iter().for_each(checked),
        &mut || sorted = Some(plain_k_list(true, la, lb, Sorted::new(k, Vec::new())).0),
        &mut || heaped = Some(plain_k_list(true, la, lb, Heap::new(k, Vec::new())).0),
        &mut || buffered = Some(plain_k_list(true, la, lb, Buffered::new(k, Vec::new())).0),
    ]);
    let answer = Some(r.entries());
    assert!([sorted, heaped, buffered].iter().all(|l| *l == answer), "the answers differ");
    assert!(told == apart_told && answer == Some(apart.entries()) && g.marks == h.marks, "one by one they end otherwise");
    assert!(fewer_told == (told.0, 0) && answer == Some(fewer.entries()), "without the skipped ones they end otherwise");
    let sweep = by_sorting.min(by_heap).min(by_buffer);
    let rest = without - opening - tests;
    println!(
        "campaign in one call, {way}, {name}, 256 jobs, K {k}: {whole:.2} ms; one classic sweep in Rust {by_sorting:.2} ms by \
         insertion, {by_heap:.2} ms by heap, {by_buffer:.2} ms by buffer, ratio {:.2}; in calls of their own {singles:.2} ms, \
         ratio {:.2}; {} {counted}, {:.0} million a second; opening {opening:.2} ms, list tests {checks:.2} ms, refusal 7 \
         {:.2} ms, {} jobs skipped {:.2} ms, the rest {rest:.2} ms",
        whole / sweep,
        singles / sweep,
        told.0,
        told.0 as f64 / rest / 1_000.0,
        tests - checks,
        told.1,
        whole - without,
    );
}

/// Statuses of a campaign on even lists of 65,535 sites, and lowerings of its K, and statuses of one on lists of that length at
/// one position, each with all jobs settled. There the jobs are settled by hand: doing them takes 65,535 times 65,535 looks.
fn one_position(r: &mut Random, k: usize, strips: usize) {
    let most = 65_535;
    let (a, b) = (even(r, most), even(r, most));
    let (p, q) = (stacked(most), stacked(most));
    let (mut held, mut none) = (Results::new(k), Results::new(k));
    let (mut g, mut d) = (Grid::prepared(&a, &b, strips), Grid::prepared(&p, &q, strips));
    all_jobs(classic_job, &a, &b, k, strips, &mut g, &mut held);
    opened(&p, &q, k, strips, &mut d, &mut none);
    d.marks = g.marks;
    let g = RefCell::new(g);
    let [spread, stacked, lowerings] = least([
        &mut || (0..100).for_each(|_| status(&a, &b, k, strips, &g.borrow(), &held)),
        &mut || (0..100).for_each(|_| status(&p, &q, k, strips, &d, &none)),
        &mut || (0..100).for_each(|_| lowered(&a, &b, k, &mut g.borrow_mut(), &held)),
    ]);
    println!(
        "100 statuses, {strips} strips a list, K {k}: even lists of {most} sites {spread:.2} ms, at one position \
         {stacked:.2} ms, ratio {:.2}; 100 lowerings of K on the even lists {lowerings:.2} ms",
        stacked / spread,
    );
}

fn main() {
    let r = &mut Random::new(1);
    let centres: Vec<(i64, i64)> = (0..100)
        .map(|_| (r.from_to(-990_000_000, 990_000_000), r.from_to(-990_000_000, 990_000_000)))
        .collect();
    let kinds = [
        ("even", even(r, SITES), even(r, SITES)),
        ("clustered", clustered(r, &centres), clustered(r, &centres)),
    ];
    comparisons("few distances alike", &mut Random::new(2), 8_000_000_000_400_000_000);
    comparisons("many distances alike", &mut Random::new(3), 3);
    for (name, a, _) in &kinds {
        list_check(name, a);
    }
    for place in [0, SITES / 2, SITES] {
        changes(kinds[0].0, &kinds[0].1, place);
    }
    k_lists(&kinds);
    distance_lists(&kinds);
    forecasts(&kinds);
    prices();
    campaigns(&kinds, &[1_000, 4_096]);
    let long_in_y = [("band long in y", band(r, SITES), band(r, SITES)), ("road along y", road(r), road(r))];
    campaigns(&long_in_y, &[1_000]);
    campaigns_in_one_call([&kinds[0], &kinds[1], &long_in_y[0]]);
    by_halves(&kinds, &long_in_y[1]);
    for strips in [1, 32] {
        for k in [1, 4_096] {
            one_position(r, k, strips);
        }
    }
}

fn k_lists(kinds: &[(&str, Columns, Columns)]) {
    for (name, a, b) in kinds {
        for k in [1, 100, 1_000, 4_096] {
            k_list(name, "classic", raw::vumlintel_k_list_classic, a, b, k);
            k_list(name, "Reverse Run", raw::vumlintel_k_list_reverse_run, a, b, k);
        }
    }
}

/// K lists and campaigns by halves. The band is a shorter one, since there the halves take many times as long as a sweep.
fn by_halves(kinds: &[(&str, Columns, Columns); 2], road: &(&str, Columns, Columns)) {
    let r = &mut Random::new(4);
    let band = ("band long in y", band(r, 10_000), band(r, 10_000));
    for (name, a, b) in [&kinds[0], &kinds[1], &band, road] {
        for k in [1, 100, 1_000, 4_096] {
            k_list_by_halves(name, a, b, k);
        }
    }
    for (name, a, b) in [&kinds[0], road] {
        campaign_by_halves(name, a, b, 1_000);
    }
}

fn distance_lists(kinds: &[(&str, Columns, Columns)]) {
    for (name, a, b) in kinds {
        for pairs in [100_000, 1_000_000] {
            distance_list(name, a, b, pairs);
        }
    }
}

fn forecasts(kinds: &[(&str, Columns, Columns)]) {
    for (name, a, b) in kinds {
        for e in [0, 30_000, 10_000_000, u32::MAX] {
            forecast(name, a, b, e);
        }
    }
}

/// By each of the three ways.
fn campaigns_in_one_call(kinds: [&(&str, Columns, Columns); 3]) {
    for (name, a, b) in kinds {
        for way in JOB_WAYS {
            campaign_in_one_call(way, name, a, b, 1_000);
        }
    }
}

fn campaigns(kinds: &[(&str, Columns, Columns)], ks: &[usize]) {
    for (name, a, b) in kinds {
        for k in ks {
            campaign(name, a, b, *k);
        }
    }
}
