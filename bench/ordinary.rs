//! The same work in ordinary optimised Rust: what the proved calls are measured against.

use crate::keepers::{Entry, KList};
use crate::raw::Band;
use std::cmp::Ordering;

/// A list as it is lent.
#[derive(Clone, Copy)]
pub struct List<'a> {
    pub x: &'a [i32],
    pub y: &'a [i32],
    pub number: &'a [u32],
    pub height: &'a [i32],
}

impl List<'_> {
    /// x, y and height of a site.
    #[inline(always)]
    fn at(&self, i: usize) -> [i64; 3] {
        [self.x[i] as i64, self.y[i] as i64, self.height[i] as i64]
    }
}

/// The refusal of a list, 0 for none.
pub fn check(l: List) -> u32 {
    let n = l.x.len();
    if l.y.len() != n || l.number.len() != n || l.height.len() != n || n > 65_535 {
        return 1;
    }
    let limits = -1_000_000_000..=1_000_000_000;
    let heights = -10_000..=10_000;
    let within = |((x, y), h)| limits.contains(x) && limits.contains(y) && heights.contains(h);
    if !l.x.iter().zip(l.y).zip(l.height).all(within) {
        return 2;
    }
    let ascending = (1..n).all(|i| (l.x[i - 1], l.y[i - 1], l.number[i - 1]) < (l.x[i], l.y[i], l.number[i]));
    if ascending { 0 } else { 3 }
}

/// A list that is changed, as it is lent.
pub struct Lent<'a> {
    pub x: &'a mut [i32],
    pub y: &'a mut [i32],
    pub number: &'a mut [u32],
    pub height: &'a mut [i32],
}

impl Lent<'_> {
    /// The sites in use tested, and the place of a site among them: where it stands, or where it belongs.
    fn place(&self, used: usize, site: (i32, i32, u32)) -> Result<Result<usize, usize>, u32> {
        let n = self.x.len();
        if self.y.len() != n || self.number.len() != n || self.height.len() != n || used > n {
            return Err(1);
        }
        let (x, y, number) = (&self.x[..used], &self.y[..used], &self.number[..used]);
        match check(List { x, y, number, height: &self.height[..used] }) {
            0 => {}
            refusal => return Err(refusal),
        }
        let (mut low, mut high) = (0, used);
        while low < high {
            let middle = (low + high) / 2;
            match (x[middle], y[middle], number[middle]).cmp(&site) {
                Ordering::Less => low = middle + 1,
                Ordering::Equal => return Ok(Ok(middle)),
                Ordering::Greater => high = middle,
            }
        }
        Ok(Err(low))
    }

    /// Moves a run of rows to another place.
    fn shift(&mut self, from: std::ops::Range<usize>, to: usize) {
        self.x.copy_within(from.clone(), to);
        self.y.copy_within(from.clone(), to);
        self.number.copy_within(from.clone(), to);
        self.height.copy_within(from, to);
    }

    /// The place of a site that is added to the sites in use; there is room.
    pub fn add(&mut self, used: usize, site: (i32, i32, u32), height: i32) -> Result<usize, u32> {
        match self.place(used, site)? {
            Ok(_) => Err(11),
            Err(place) => {
                self.shift(place..used, place + 1);
                (self.x[place], self.y[place], self.number[place]) = site;
                self.height[place] = height;
                Ok(place)
            }
        }
    }

    /// The place of a site that is removed from the sites in use.
    pub fn remove(&mut self, used: usize, site: (i32, i32, u32)) -> Result<usize, u32> {
        match self.place(used, site)? {
            Ok(place) => {
                self.shift(place + 1..used, place);
                Ok(place)
            }
            Err(_) => Err(16),
        }
    }
}

/// Where one entry stands to another, number by number: 0 before, 1 same, 2 after. It is called as the library's is.
#[inline(never)]
pub extern "C" fn compare_entries(ad: u64, ai: u32, aj: u32, bd: u64, bi: u32, bj: u32) -> u32 {
    match (ad, ai, aj).cmp(&(bd, bi, bj)) {
        Ordering::Less => 0,
        Ordering::Equal => 1,
        Ordering::Greater => 2,
    }
}

#[derive(Clone, Copy, PartialEq, Eq, Debug, Default)]
pub struct Counters {
    pub looks: u64,
    pub distances: u64,
}

/// One scan of a reference against sites that `others` yields; the place where it stopped, or none.
#[inline(always)]
fn scan(
    reference: (List, usize),
    other: List,
    others: impl Iterator<Item = usize>,
    first_is_reference: bool,
    list: &mut impl KList,
    counters: &mut Counters,
) -> Option<usize> {
    let (l, i) = reference;
    let [x, y, h] = l.at(i);
    for j in others {
        counters.looks += 1;
        let dx = x - other.x[j] as i64;
        let dx2 = (dx * dx) as u64;
        let bound = list.bound();
        if dx2 > bound {
            return Some(j);
        }
        counters.distances += 1;
        let (dy, dh) = (y - other.y[j] as i64, h - other.height[j] as i64);
        let distance = dx2 + (dy * dy + dh * dh) as u64;
        if distance != 0 && distance <= bound {
            let (first, second) = if first_is_reference { (i, j) } else { (j, i) };
            list.offer(Entry { distance, first: first as u32, second: second as u32 });
        }
    }
    None
}

/// The classic sweep over two strips.
pub fn classic(a: List, b: List, p: (usize, usize), q: (usize, usize), list: &mut impl KList) -> Counters {
    let mut counters = Counters::default();
    let (mut i, mut j) = (p.0, q.0);
    while i < p.1 && j < q.1 {
        if a.x[i] <= b.x[j] {
            scan((a, i), b, j..q.1, true, list, &mut counters);
            i += 1;
        } else {
            scan((b, j), a, i..p.1, false, list, &mut counters);
            j += 1;
        }
    }
    counters
}

/// The Reverse Run sweep over two strips.
pub fn reverse_run(a: List, b: List, p: (usize, usize), q: (usize, usize), list: &mut impl KList) -> Counters {
    let mut counters = Counters::default();
    let (mut i, mut j) = (p.0, q.0);
    let (mut left_a, mut left_b) = (p.0, q.0);
    while i < p.1 || j < q.1 {
        if j == q.1 || (i < p.1 && a.x[i] <= b.x[j]) {
            if let Some(at) = scan((a, i), b, (left_b..j).rev(), true, list, &mut counters) {
                left_b = at + 1;
            }
            i += 1;
        } else {
            if let Some(at) = scan((b, j), a, (left_a..i).rev(), false, list, &mut counters) {
                left_a = at + 1;
            }
            j += 1;
        }
    }
    counters
}

/// A range of places of a list, not empty, with the box of its sites.
#[derive(Clone, Copy)]
struct Range {
    from: usize,
    to: usize,
    edges: [i32; 6],
}

impl Range {
    fn new(l: List, from: usize, to: usize) -> Range {
        Range { from, to, edges: box_of(l, (from, to)) }
    }

    #[inline]
    fn len(&self) -> usize {
        self.to - self.from
    }

    /// The lower half and the upper half.
    #[inline]
    fn halves(&self, l: List) -> (Range, Range) {
        let middle = self.from + self.len() / 2;
        (Range::new(l, self.from, middle), Range::new(l, middle, self.to))
    }
}

/// A join by halves under way.
struct Halves<'a, L> {
    a: List<'a>,
    b: List<'a>,
    list: &'a mut L,
    range_pairs: u64,
}

impl<L: KList> Halves<'_, L> {
    /// A visit of two ranges with this gap squared, which is the squared distance of two single sites.
    fn visit(&mut self, p: Range, q: Range, gap: u64) {
        self.range_pairs += 1;
        if gap > self.list.bound() {
            return;
        }
        if p.len() == 1 && q.len() == 1 {
            if gap != 0 {
                self.list.offer(Entry { distance: gap, first: p.from as u32, second: q.from as u32 });
            }
        } else if p.len() >= q.len() {
            let (lower, upper) = p.halves(self.a);
            let gaps = (squared_gap(lower.edges, q.edges), squared_gap(upper.edges, q.edges));
            if gaps.0 <= gaps.1 {
                self.visit(lower, q, gaps.0);
                self.visit(upper, q, gaps.1);
            } else {
                self.visit(upper, q, gaps.1);
                self.visit(lower, q, gaps.0);
            }
        } else {
            let (lower, upper) = q.halves(self.b);
            let gaps = (squared_gap(p.edges, lower.edges), squared_gap(p.edges, upper.edges));
            if gaps.0 <= gaps.1 {
                self.visit(p, lower, gaps.0);
                self.visit(p, upper, gaps.1);
            } else {
                self.visit(p, upper, gaps.1);
                self.visit(p, lower, gaps.0);
            }
        }
    }
}

/// The join by halves over two strips: its range pairs.
pub fn halves(a: List, b: List, p: (usize, usize), q: (usize, usize), list: &mut impl KList) -> u64 {
    if p.0 == p.1 || q.0 == q.1 {
        return 0;
    }
    let (p, q) = (Range::new(a, p.0, p.1), Range::new(b, q.0, q.1));
    let mut join = Halves { a, b, list, range_pairs: 0 };
    join.visit(p, q, squared_gap(p.edges, q.edges));
    join.range_pairs
}

/// The pairs of a distance list, by first place and then second.
pub fn distance_pairs(a: List, b: List, e: u32) -> Vec<(u32, u32)> {
    let (e, limit) = (e as i64, e as u64 * e as u64);
    let mut pairs = Vec::new();
    let mut from = 0;
    for i in 0..a.x.len() {
        let [x, y, h] = a.at(i);
        while from < b.x.len() && x - b.x[from] as i64 > e {
            from += 1;
        }
        for j in from..b.x.len() {
            let dx = b.x[j] as i64 - x;
            if dx > e {
                break;
            }
            let (dy, dh) = (b.y[j] as i64 - y, b.height[j] as i64 - h);
            let distance = (dx * dx + dy * dy + dh * dh) as u64;
            if distance != 0 && distance <= limit {
                pairs.push((i as u32, j as u32));
            }
        }
    }
    pairs
}

/// The distance list in two lent columns: the count, or none, with nothing written, where they are too short.
pub fn distance_list(a: List, b: List, e: u32, first: &mut [u32], second: &mut [u32]) -> Option<usize> {
    let pairs = distance_pairs(a, b, e);
    if pairs.len() > first.len().min(second.len()) {
        return None;
    }
    for (pair, (f, s)) in pairs.iter().zip(first.iter_mut().zip(second)) {
        (*f, *s) = *pair;
    }
    Some(pairs.len())
}

/// The partners of each place of the first list no further than `e` in x, in a lent column: the total, or none, with nothing
/// written, where it is too short.
pub fn forecast(a: List, b: List, e: u32, partners: &mut [u32]) -> Option<u64> {
    let e = e as i64;
    let (mut left, mut right, mut total) = (0, 0, 0);
    for (x, n) in a.x.iter().zip(partners.get_mut(..a.x.len())?) {
        let x = *x as i64;
        while left < b.x.len() && x - b.x[left] as i64 > e {
            left += 1;
        }
        while right < b.x.len() && b.x[right] as i64 - x <= e {
            right += 1;
        }
        *n = (right - left) as u32;
        total += (right - left) as u64;
    }
    Some(total)
}

/// The box of a range of places, least and greatest x, y and height. The list ascends by x.
fn box_of(l: List, (from, to): (usize, usize)) -> [i32; 6] {
    let edges = |c: &[i32]| c.iter().fold((c[0], c[0]), |(least, greatest), e| (least.min(*e), greatest.max(*e)));
    let (ys, hs) = (edges(&l.y[from..to]), edges(&l.height[from..to]));
    [l.x[from], l.x[to - 1], ys.0, ys.1, hs.0, hs.1]
}

/// The gap squared of two boxes.
fn squared_gap(p: [i32; 6], q: [i32; 6]) -> u64 {
    let along = |least: usize, greatest: usize| {
        let gap = (q[least] as i64 - p[greatest] as i64).max(p[least] as i64 - q[greatest] as i64).max(0);
        (gap * gap) as u64
    };
    along(0, 1) + along(2, 3) + along(4, 5)
}

/// A campaign: the ends of both lists' strips, which jobs are settled, and the entries.
pub struct Campaign {
    pub k: usize,
    pub ends: [Vec<usize>; 2],
    pub settled: Vec<bool>,
    pub entries: Vec<Entry>,
}

/// The strip of a list that a place is in.
fn strip_of(ends: &[usize], place: usize) -> usize {
    ends.partition_point(|end| *end <= place)
}

fn range(ends: &[usize], s: usize) -> (usize, usize) {
    (if s == 0 { 0 } else { ends[s - 1] }, ends[s])
}

/// How many pairs of one height each of two columns are equal: each against each where they are short, by a table where not.
fn equal_heights(a: &[i32], b: &[i32]) -> usize {
    if a.len() * b.len() < 1_024 {
        return a.iter().map(|h| b.iter().filter(|g| *g == h).count()).sum();
    }
    let mut counts = [0u16; 20_001];
    a.iter().for_each(|h| counts[(h + 10_000) as usize] += 1);
    b.iter().map(|h| counts[(h + 10_000) as usize] as usize).sum()
}

/// How many pairs two strips have: all but those at one position, which are counted by runs at one x and y.
fn pair_count(a: List, b: List, p: (usize, usize), q: (usize, usize)) -> usize {
    let at = |l: List, i: usize| (l.x[i], l.y[i]);
    let run_end = |l: List, i: usize, to: usize| (i..to).find(|j| at(l, *j) != at(l, i)).unwrap_or(to);
    let mut pairs = (p.1 - p.0) * (q.1 - q.0);
    let (mut i, mut j) = (p.0, q.0);
    while i < p.1 && j < q.1 {
        match at(a, i).cmp(&at(b, j)) {
            Ordering::Less => i += 1,
            Ordering::Greater => j += 1,
            Ordering::Equal => {
                let (m, n) = (run_end(a, i, p.1), run_end(b, j, q.1));
                pairs -= equal_heights(&a.height[i..m], &b.height[j..n]);
                (i, j) = (m, n);
            }
        }
    }
    pairs
}

impl Campaign {
    /// Cut ends of each list, none of them empty.
    pub fn new(k: usize, ends: [Vec<usize>; 2]) -> Campaign {
        Campaign { k, settled: vec![false; ends[0].len() * ends[1].len()], ends, entries: Vec::with_capacity(k) }
    }

    fn mark(&self, s: usize, t: usize) -> usize {
        s * self.ends[1].len() + t
    }

    /// Whether the entries are in rank order, of these lists, with the right distances, of settled jobs and as many as
    /// these jobs have, up to K.
    fn sound(&self, a: List, b: List) -> bool {
        let strips = |l: usize| (0..self.ends[l].len()).map(move |s| range(&self.ends[l], s));
        let settled = strips(0).enumerate().flat_map(|(s, p)| strips(1).enumerate().map(move |(t, q)| (s, p, t, q)));
        let total = || -> usize {
            settled
                .filter(|(s, _, t, _)| self.settled[self.mark(*s, *t)])
                .map(|(_, p, _, q)| pair_count(a, b, p, q))
                .sum()
        };
        let fits = |e: &Entry| {
            let (i, j) = (e.first as usize, e.second as usize);
            i < a.x.len() && j < b.x.len() && {
                let ([x, y, h], [u, v, g]) = (a.at(i), b.at(j));
                let (dx, dy, dh) = (x - u, y - v, h - g);
                e.distance != 0
                    && (dx * dx + dy * dy + dh * dh) as u64 == e.distance
                    && self.settled[self.mark(strip_of(&self.ends[0], i), strip_of(&self.ends[1], j))]
            }
        };
        self.entries.len() <= self.k
            && self.entries.windows(2).all(|e| e[0] < e[1])
            && self.entries.iter().all(fits)
            && (self.entries.len() == self.k || self.entries.len() == total())
    }

    /// A job by a join of two strips, on a list that `keep` makes of K and the entries: both lists and the campaign are
    /// tested first. What the join counts, or none where the job is skipped.
    pub fn job<L: KList>(
        &mut self,
        keep: impl Fn(usize, Vec<Entry>) -> L,
        join: impl Fn(List, List, (usize, usize), (usize, usize), &mut L) -> u64,
        a: List,
        b: List,
        s: usize,
        t: usize,
    ) -> Option<u64> {
        let job = self.mark(s, t);
        assert!(check(a) == 0 && check(b) == 0 && self.sound(a, b) && !self.settled[job]);
        self.settled[job] = true;
        let (p, q) = (range(&self.ends[0], s), range(&self.ends[1], t));
        if self.entries.len() == self.k && squared_gap(box_of(a, p), box_of(b, q)) > self.entries[self.k - 1].distance {
            return None;
        }
        let mut list = keep(self.k, std::mem::take(&mut self.entries));
        let count = join(a, b, p, q, &mut list);
        self.entries = list.entries();
        Some(count)
    }
}

/// Where the last band ends.
const LAST_TO: u32 = 2_828_427_125;

/// The refusal of a table of bands, 0 for none.
fn check_bands(bands: &[Band]) -> u32 {
    if bands.is_empty() || bands.len() > 64 || bands.iter().any(|b| b.price > 1_000_000) {
        return 14;
    }
    let mut before = 0;
    for b in bands {
        if b.from < before || b.to <= b.from || b.to > LAST_TO {
            return 13;
        }
        if b.from > before {
            return 12;
        }
        before = b.to;
    }
    if before < LAST_TO { 12 } else { 0 }
}

/// The price of each of the first `entries` squared distances by the bands, in a lent column: the total, or the refusal.
pub fn price(bands: &[Band], distance: &[u64], entries: usize, prices: &mut [u32]) -> Result<u64, u32> {
    match check_bands(bands) {
        0 => {}
        refusal => return Err(refusal),
    }
    if entries > 4_096 {
        return Err(6);
    }
    let (distance, prices) = (distance.get(..entries).ok_or(6u32)?, prices.get_mut(..entries).ok_or(6u32)?);
    let squared = |to: u32| to as u64 * to as u64;
    if distance.iter().any(|d| *d >= squared(LAST_TO)) {
        return Err(7);
    }
    let ends: Vec<u64> = bands.iter().map(|b| squared(b.to)).collect();
    let mut total = 0;
    for (d, price) in distance.iter().zip(prices) {
        *price = bands[ends.partition_point(|end| end <= d)].price;
        total += *price as u64;
    }
    Ok(total)
}
