//! The exported calls, safe, with all that is lent between fences: a write outside a lent buffer is seen, and so is a
//! changed element of what is lent to be read only, and an answer written by a refused call.

use crate::model::{Columns, Counters, Grid, Jobs, Opening, Results, Site, Status, Way};
use crate::plane;
use crate::raw::{self, Band};

const FENCE: usize = 8;

/// A lent buffer with a fence on either side.
struct Lent<T> {
    all: Vec<T>,
    fence: T,
}

impl<T: Copy + PartialEq> Lent<T> {
    fn new(elements: &[T], fence: T) -> Lent<T> {
        let mut all = vec![fence; FENCE];
        all.extend_from_slice(elements);
        all.extend(vec![fence; FENCE]);
        Lent { all, fence }
    }

    fn len(&self) -> usize {
        self.all.len() - 2 * FENCE
    }

    fn shared(&self) -> *const T {
        self.all[FENCE..].as_ptr()
    }

    fn exclusive(&mut self) -> *mut T {
        self.all[FENCE..].as_mut_ptr()
    }

    /// The elements afterwards.
    fn back(&self) -> &[T] {
        let (low, rest) = self.all.split_at(FENCE);
        let (elements, high) = rest.split_at(self.len());
        assert!(low.iter().chain(high).all(|f| *f == self.fence), "a fence was written");
        elements
    }

    fn unchanged(&self, elements: &[T]) {
        assert!(self.back() == elements, "what was lent to be read was written");
    }
}

const I: i32 = -0x5eed_5eed;
const U: u32 = 0xfe9c_e0fe;
const L: u64 = 0xfe9c_e0fe_9ce0_fe9c;
const B: u8 = 0xa5;
const BAND: Band = Band { from: U, to: U, price: U };

/// A lent list.
struct LentList {
    x: Lent<i32>,
    y: Lent<i32>,
    n: Lent<u32>,
    h: Lent<i32>,
}

impl LentList {
    fn new(c: &Columns) -> LentList {
        LentList {
            x: Lent::new(&c.x, I),
            y: Lent::new(&c.y, I),
            n: Lent::new(&c.number, U),
            h: Lent::new(&c.height, I),
        }
    }

    fn back(&self) -> Columns {
        Columns {
            x: self.x.back().to_vec(),
            y: self.y.back().to_vec(),
            number: self.n.back().to_vec(),
            height: self.h.back().to_vec(),
        }
    }

    fn unchanged(&self, c: &Columns) {
        assert!(self.back() == *c, "a list that was lent to be read was written");
    }
}

/// A list of the plane, lent to be read.
struct LentPlane {
    x: Lent<i32>,
    y: Lent<i32>,
    n: Lent<u32>,
}

impl LentPlane {
    fn new(c: &plane::Columns) -> LentPlane {
        LentPlane { x: Lent::new(&c.x, I), y: Lent::new(&c.y, I), n: Lent::new(&c.number, U) }
    }

    fn unchanged(&self, c: &plane::Columns) {
        self.x.unchanged(&c.x);
        self.y.unchanged(&c.y);
        self.n.unchanged(&c.number);
    }
}

/// Result columns.
struct LentResults {
    distance: Lent<u64>,
    first: Lent<u32>,
    second: Lent<u32>,
}

impl LentResults {
    fn new(r: &Results) -> LentResults {
        LentResults {
            distance: Lent::new(&r.distance, L),
            first: Lent::new(&r.first, U),
            second: Lent::new(&r.second, U),
        }
    }

    fn back(&self) -> Results {
        Results {
            distance: self.distance.back().to_vec(),
            first: self.first.back().to_vec(),
            second: self.second.back().to_vec(),
        }
    }
}

/// The answer: the values where the number is 0; where it is not, no value may have been written.
fn told<T: PartialEq + std::fmt::Debug>(number: u32, values: T, before: T) -> Result<T, u32> {
    if number == 0 {
        return Ok(values);
    }
    assert_eq!(values, before, "a call refused with {number} wrote an answer");
    Err(number)
}

/// The counters of a way before a call: what it answers is not written yet.
fn unwritten(way: Way) -> Counters {
    way.counters(L, L, L)
}

pub fn check(c: &Columns) -> Result<u32, u32> {
    let l = LentList::new(c);
    let mut count = U;
    let number = unsafe {
        raw::vumlintel_check(
            l.x.shared(), l.x.len(), l.y.shared(), l.y.len(), l.n.shared(), l.n.len(), l.h.shared(), l.h.len(),
            &mut count,
        )
    };
    l.unchanged(c);
    told(number, count, U)
}

/// The place and the new count; the columns are changed in place.
pub fn add(c: &mut Columns, in_use: u32, s: Site) -> Result<(u32, u32), u32> {
    let mut l = LentList::new(c);
    let (mut place, mut count) = (U, U);
    let number = unsafe {
        raw::vumlintel_add(
            l.x.exclusive(), l.x.len(), l.y.exclusive(), l.y.len(), l.n.exclusive(), l.n.len(),
            l.h.exclusive(), l.h.len(),
            in_use, s.x, s.y, s.number, s.height,
            &mut place, &mut count,
        )
    };
    *c = l.back();
    told(number, (place, count), (U, U))
}

/// The place that the site with this x, y and number had, and the new count; the columns are changed in place.
pub fn remove(c: &mut Columns, in_use: u32, s: Site) -> Result<(u32, u32), u32> {
    let mut l = LentList::new(c);
    let (mut place, mut count) = (U, U);
    let number = unsafe {
        raw::vumlintel_remove(
            l.x.exclusive(), l.x.len(), l.y.exclusive(), l.y.len(), l.n.exclusive(), l.n.len(),
            l.h.exclusive(), l.h.len(),
            in_use, s.x, s.y, s.number,
            &mut place, &mut count,
        )
    };
    *c = l.back();
    told(number, (place, count), (U, U))
}

/// The entry count and the counters.
pub fn k_list(way: Way, a: &Columns, b: &Columns, k: u32, r: &mut Results) -> Result<(u32, Counters), u32> {
    let (p, q) = (LentList::new(a), LentList::new(b));
    let mut l = LentResults::new(r);
    let (mut entries, mut counters) = (U, unwritten(way));
    let Counters { looks, distances, range_pairs } = &mut counters;
    macro_rules! call {
        ($call:ident, $($counter:ident),*) => {
            raw::$call(
                p.x.shared(), p.x.len(), p.y.shared(), p.y.len(), p.n.shared(), p.n.len(), p.h.shared(), p.h.len(),
                q.x.shared(), q.x.len(), q.y.shared(), q.y.len(), q.n.shared(), q.n.len(), q.h.shared(), q.h.len(),
                k,
                l.distance.exclusive(), l.distance.len(),
                l.first.exclusive(), l.first.len(),
                l.second.exclusive(), l.second.len(),
                &mut entries, $($counter),*
            )
        };
    }
    let number = unsafe {
        match way {
            Way::Classic => call!(vumlintel_k_list_classic, looks, distances),
            Way::ReverseRun => call!(vumlintel_k_list_reverse_run, looks, distances),
            Way::Halves => call!(vumlintel_k_list_halves, range_pairs),
        }
    };
    p.unchanged(a);
    q.unchanged(b);
    *r = l.back();
    told(number, (entries, counters), (U, unwritten(way)))
}

/// The count of pairs.
pub fn distance_list(a: &Columns, b: &Columns, e: u32, first: &mut Vec<u32>, second: &mut Vec<u32>) -> Result<u64, u32> {
    let (p, q) = (LentList::new(a), LentList::new(b));
    let (mut f, mut s) = (Lent::new(first, U), Lent::new(second, U));
    let mut count = L;
    let number = unsafe {
        raw::vumlintel_distance_list(
            p.x.shared(), p.x.len(), p.y.shared(), p.y.len(), p.n.shared(), p.n.len(), p.h.shared(), p.h.len(),
            q.x.shared(), q.x.len(), q.y.shared(), q.y.len(), q.n.shared(), q.n.len(), q.h.shared(), q.h.len(),
            e,
            f.exclusive(), f.len(), s.exclusive(), s.len(),
            &mut count,
        )
    };
    p.unchanged(a);
    q.unchanged(b);
    *first = f.back().to_vec();
    *second = s.back().to_vec();
    told(number, count, L)
}

/// The total; the column is written in place.
pub fn forecast(a: &Columns, b: &Columns, e: u32, partners: &mut Vec<u32>) -> Result<u64, u32> {
    let (p, q) = (LentList::new(a), LentList::new(b));
    let mut column = Lent::new(partners, U);
    let mut total = L;
    let number = unsafe {
        raw::vumlintel_forecast(
            p.x.shared(), p.x.len(), p.y.shared(), p.y.len(), p.n.shared(), p.n.len(), p.h.shared(), p.h.len(),
            q.x.shared(), q.x.len(), q.y.shared(), q.y.len(), q.n.shared(), q.n.len(), q.h.shared(), q.h.len(),
            e,
            column.exclusive(), column.len(),
            &mut total,
        )
    };
    p.unchanged(a);
    q.unchanged(b);
    *partners = column.back().to_vec();
    told(number, total, L)
}

/// The grid is written in place by an accepted preparing.
pub fn prepare(a: &Columns, b: &Columns, first_cut: &[u32], second_cut: &[u32], g: &mut Grid) -> Result<(), u32> {
    let (p, q) = (LentList::new(a), LentList::new(b));
    let (f, s) = (Lent::new(first_cut, U), Lent::new(second_cut, U));
    let [one, two] = &mut g.shares;
    let number = unsafe {
        raw::vumlintel_prepare(
            p.x.shared(), p.x.len(), p.y.shared(), p.y.len(), p.n.shared(), p.n.len(), p.h.shared(), p.h.len(),
            q.x.shared(), q.x.len(), q.y.shared(), q.y.len(), q.n.shared(), q.n.len(), q.h.shared(), q.h.len(),
            f.shared(), f.len(), s.shared(), s.len(),
            &mut g.first_strips, &mut g.second_strips, &mut g.first_ends, &mut g.second_ends, &mut g.marks,
            &mut one.k, &mut one.entries, &mut two.k, &mut two.entries,
        )
    };
    p.unchanged(a);
    q.unchanged(b);
    f.unchanged(first_cut);
    s.unchanged(second_cut);
    told(number, (), ())
}

/// The grid is changed in place by an accepted opening.
pub fn open(g: &mut Grid, customer: u32, a: &Columns, b: &Columns, o: Opening, r: &Results) -> Result<(), u32> {
    let (p, q) = (LentList::new(a), LentList::new(b));
    let (f, s) = (Lent::new(o.first_ends, U), Lent::new(o.second_ends, U));
    let l = LentResults::new(r);
    let [one, two] = &mut g.shares;
    let number = unsafe {
        raw::vumlintel_open(
            &mut g.first_strips, &mut g.second_strips, &mut g.first_ends, &mut g.second_ends, &mut g.marks,
            &mut one.k, &mut one.entries, &mut two.k, &mut two.entries,
            customer,
            p.x.shared(), p.x.len(), p.y.shared(), p.y.len(), p.n.shared(), p.n.len(), p.h.shared(), p.h.len(),
            q.x.shared(), q.x.len(), q.y.shared(), q.y.len(), q.n.shared(), q.n.len(), q.h.shared(), q.h.len(),
            o.k,
            f.shared(), f.len(), s.shared(), s.len(),
            l.distance.shared(), l.distance.len(), l.first.shared(), l.first.len(), l.second.shared(), l.second.len(),
        )
    };
    p.unchanged(a);
    q.unchanged(b);
    f.unchanged(o.first_ends);
    s.unchanged(o.second_ends);
    assert!(l.back() == *r, "opening wrote a result column");
    told(number, (), ())
}

/// The grid is changed in place by an accepted lowering.
pub fn lower_k(g: &mut Grid, customer: u32, a: &Columns, b: &Columns, k: u32, r: &Results) -> Result<(), u32> {
    let (p, q) = (LentList::new(a), LentList::new(b));
    let l = LentResults::new(r);
    let [one, two] = &mut g.shares;
    let number = unsafe {
        raw::vumlintel_lower_k(
            &mut g.first_strips, &mut g.second_strips, &mut g.first_ends, &mut g.second_ends, &mut g.marks,
            &mut one.k, &mut one.entries, &mut two.k, &mut two.entries,
            customer,
            p.x.shared(), p.x.len(), p.y.shared(), p.y.len(), p.n.shared(), p.n.len(), p.h.shared(), p.h.len(),
            q.x.shared(), q.x.len(), q.y.shared(), q.y.len(), q.n.shared(), q.n.len(), q.h.shared(), q.h.len(),
            k,
            l.distance.shared(), l.distance.len(), l.first.shared(), l.first.len(), l.second.shared(), l.second.len(),
        )
    };
    p.unchanged(a);
    q.unchanged(b);
    assert!(l.back() == *r, "lowering wrote a result column");
    told(number, (), ())
}

/// Whether the job was swept, and the counters; the grid and the columns are changed in place.
pub fn job(
    way: Way,
    g: &mut Grid,
    customer: u32,
    a: &Columns,
    b: &Columns,
    r: &mut Results,
    first_strip: u32,
    second_strip: u32,
) -> Result<(u32, Counters), u32> {
    let (p, q) = (LentList::new(a), LentList::new(b));
    let mut l = LentResults::new(r);
    let (mut swept, mut counters) = (U, unwritten(way));
    let Counters { looks, distances, range_pairs } = &mut counters;
    let [one, two] = &mut g.shares;
    macro_rules! call {
        ($call:ident, $($counter:ident),*) => {
            raw::$call(
                &mut g.first_strips, &mut g.second_strips, &mut g.first_ends, &mut g.second_ends, &mut g.marks,
                &mut one.k, &mut one.entries, &mut two.k, &mut two.entries,
                customer,
                p.x.shared(), p.x.len(), p.y.shared(), p.y.len(), p.n.shared(), p.n.len(), p.h.shared(), p.h.len(),
                q.x.shared(), q.x.len(), q.y.shared(), q.y.len(), q.n.shared(), q.n.len(), q.h.shared(), q.h.len(),
                l.distance.exclusive(), l.distance.len(),
                l.first.exclusive(), l.first.len(),
                l.second.exclusive(), l.second.len(),
                first_strip, second_strip,
                &mut swept, $($counter),*
            )
        };
    }
    let number = unsafe {
        match way {
            Way::Classic => call!(vumlintel_job_classic, looks, distances),
            Way::ReverseRun => call!(vumlintel_job_reverse_run, looks, distances),
            Way::Halves => call!(vumlintel_job_halves, range_pairs),
        }
    };
    p.unchanged(a);
    q.unchanged(b);
    *r = l.back();
    told(number, (swept, counters), (U, unwritten(way)))
}

/// The number skipped and the sums; the grid and the columns are changed in place.
pub fn jobs(
    g: &mut Grid,
    customer: u32,
    a: &Columns,
    b: &Columns,
    r: &mut Results,
    jobs: &Jobs,
) -> Result<(u32, Counters), u32> {
    let (p, q) = (LentList::new(a), LentList::new(b));
    let mut l = LentResults::new(r);
    let [f, s, w] = [&jobs.first, &jobs.second, &jobs.way].map(|column| Lent::new(column, U));
    let unwritten = Counters { looks: L, distances: L, range_pairs: L };
    let (mut skipped, mut sums) = (U, unwritten);
    let [one, two] = &mut g.shares;
    let number = unsafe {
        raw::vumlintel_jobs(
            &mut g.first_strips, &mut g.second_strips, &mut g.first_ends, &mut g.second_ends, &mut g.marks,
            &mut one.k, &mut one.entries, &mut two.k, &mut two.entries,
            customer,
            p.x.shared(), p.x.len(), p.y.shared(), p.y.len(), p.n.shared(), p.n.len(), p.h.shared(), p.h.len(),
            q.x.shared(), q.x.len(), q.y.shared(), q.y.len(), q.n.shared(), q.n.len(), q.h.shared(), q.h.len(),
            l.distance.exclusive(), l.distance.len(),
            l.first.exclusive(), l.first.len(),
            l.second.exclusive(), l.second.len(),
            f.shared(), f.len(), s.shared(), s.len(), w.shared(), w.len(),
            &mut skipped, &mut sums.looks, &mut sums.distances, &mut sums.range_pairs,
        )
    };
    p.unchanged(a);
    q.unchanged(b);
    f.unchanged(&jobs.first);
    s.unchanged(&jobs.second);
    w.unchanged(&jobs.way);
    *r = l.back();
    told(number, (skipped, sums), (U, unwritten))
}

pub fn status(g: &Grid, customer: u32, a: &Columns, b: &Columns, r: &Results) -> Result<Status, u32> {
    let (p, q) = (LentList::new(a), LentList::new(b));
    let l = LentResults::new(r);
    let before = g.clone();
    let (mut settled, mut jobs, mut entries, mut k) = (U, U, U, U);
    let [one, two] = &g.shares;
    let number = unsafe {
        raw::vumlintel_status(
            &g.first_strips, &g.second_strips, &g.first_ends, &g.second_ends, &g.marks,
            &one.k, &one.entries, &two.k, &two.entries,
            customer,
            p.x.shared(), p.x.len(), p.y.shared(), p.y.len(), p.n.shared(), p.n.len(), p.h.shared(), p.h.len(),
            q.x.shared(), q.x.len(), q.y.shared(), q.y.len(), q.n.shared(), q.n.len(), q.h.shared(), q.h.len(),
            l.distance.shared(), l.distance.len(), l.first.shared(), l.first.len(), l.second.shared(), l.second.len(),
            &mut settled, &mut jobs, &mut entries, &mut k,
        )
    };
    p.unchanged(a);
    q.unchanged(b);
    assert!(*g == before && l.back() == *r, "status wrote the grid or a result column");
    told(number, Status { settled, jobs, entries, k }, Status { settled: U, jobs: U, entries: U, k: U })
}

/// The file's length; the buffer is changed in place.
pub fn write_file(a: &plane::Columns, b: &plane::Columns, buffer: &mut Vec<u8>) -> Result<u32, u32> {
    let (p, q) = (LentPlane::new(a), LentPlane::new(b));
    let mut l = Lent::new(buffer, B);
    let mut length = U;
    let number = unsafe {
        raw::vumlintel_write_file(
            p.x.shared(), p.x.len(), p.y.shared(), p.y.len(), p.n.shared(), p.n.len(),
            q.x.shared(), q.x.len(), q.y.shared(), q.y.len(), q.n.shared(), q.n.len(),
            l.exclusive(), l.len(),
            &mut length,
        )
    };
    p.unchanged(a);
    q.unchanged(b);
    *buffer = l.back().to_vec();
    told(number, length, U)
}

/// Both site counts.
pub fn read_file(file: &[u8]) -> Result<(u32, u32), u32> {
    let l = Lent::new(file, B);
    let (mut first, mut second) = (U, U);
    let number = unsafe { raw::vumlintel_read_file(l.shared(), l.len(), &mut first, &mut second) };
    l.unchanged(file);
    told(number, (first, second), (U, U))
}

/// A site of the first list (0) or the second (1).
pub fn file_site(file: &[u8], list: usize, place: u32) -> Result<plane::Site, u32> {
    let l = Lent::new(file, B);
    let (mut x, mut y, mut number) = (I, I, U);
    let call = if list == 0 { raw::vumlintel_file_site_first } else { raw::vumlintel_file_site_second };
    let refusal = unsafe { call(l.shared(), l.len(), place, &mut x, &mut y, &mut number) };
    l.unchanged(file);
    told(refusal, plane::site(x, y, number), plane::site(I, I, U))
}

/// The place; the table is changed in place.
pub fn edit_band(bands: &mut Vec<Band>, place: u32, band: Band) -> Result<u32, u32> {
    let mut l = Lent::new(bands, BAND);
    let mut edited = U;
    let number = unsafe {
        raw::vumlintel_edit_band(
            l.exclusive(), l.len(),
            place, band.from, band.to, band.price,
            &mut edited,
        )
    };
    *bands = l.back().to_vec();
    told(number, edited, U)
}

/// The total; the price column is written in place.
pub fn price(bands: &[Band], distance: &[u64], entries: u32, prices: &mut Vec<u32>) -> Result<u64, u32> {
    let (b, d) = (Lent::new(bands, BAND), Lent::new(distance, L));
    let mut column = Lent::new(prices, U);
    let mut total = L;
    let number = unsafe {
        raw::vumlintel_price(
            b.shared(), b.len(),
            d.shared(), d.len(), entries,
            column.exclusive(), column.len(),
            &mut total,
        )
    };
    b.unchanged(bands);
    d.unchanged(distance);
    *prices = column.back().to_vec();
    told(number, total, L)
}
