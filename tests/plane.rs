//! The bench of the plane, without heights, by a brute force of its own: lists of three columns, squared distances of x and y
//! alone, boxes of four edges. Site files and the case listing are of the plane, and lists with every height 0 get its answers.
//! It shares with `model` only what has no coordinate in it: entries and their rank, and the limits of K.

use crate::model::{self, Counters, Entry, LIMIT, MOST_SITES, Status, Way, best, k_refusal};
use std::collections::BTreeSet;
use std::ops::Range;

/// A site of the plane; the derived order is that of a list.
#[derive(Clone, Copy, Debug, PartialEq, Eq, PartialOrd, Ord)]
pub struct Site {
    pub x: i32,
    pub y: i32,
    pub number: u32,
}

pub fn site(x: i32, y: i32, number: u32) -> Site {
    Site { x, y, number }
}

/// Sites without their heights.
pub fn flat(sites: &[model::Site]) -> Vec<Site> {
    sites.iter().map(|s| site(s.x, s.y, s.number)).collect()
}

/// Three lent columns, of whatever lengths.
#[derive(Clone, Debug, PartialEq, Eq, Default)]
pub struct Columns {
    pub x: Vec<i32>,
    pub y: Vec<i32>,
    pub number: Vec<u32>,
}

impl Columns {
    pub fn of(sites: &[Site]) -> Columns {
        Columns {
            x: sites.iter().map(|s| s.x).collect(),
            y: sites.iter().map(|s| s.y).collect(),
            number: sites.iter().map(|s| s.number).collect(),
        }
    }

    /// Columns without that of the heights.
    pub fn flat(c: &model::Columns) -> Columns {
        Columns { x: c.x.clone(), y: c.y.clone(), number: c.number.clone() }
    }
}

// Site lists.

/// 2 and 3, in that order; 0 for neither.
fn content_refusal(sites: &[Site]) -> u32 {
    let within = |c: i32| (c as i64).abs() <= LIMIT;
    if !sites.iter().all(|s| within(s.x) && within(s.y)) {
        return 2;
    }
    if sites.is_sorted_by(|s, t| s < t) { 0 } else { 3 }
}

/// The sites of lawful columns.
fn checked(c: &Columns) -> Result<Vec<Site>, u32> {
    let n = c.x.len();
    if c.y.len() != n || c.number.len() != n || n > MOST_SITES {
        return Err(1);
    }
    let sites: Vec<Site> = (0..n).map(|i| site(c.x[i], c.y[i], c.number[i])).collect();
    match content_refusal(&sites) {
        0 => Ok(sites),
        refusal => Err(refusal),
    }
}

// Pairs, sweeps and halves.

/// A range of places of each of two lists.
#[derive(Clone)]
struct Ranges<'a> {
    a: &'a [Site],
    b: &'a [Site],
    p: Range<usize>,
    q: Range<usize>,
}

impl<'a> Ranges<'a> {
    fn whole(a: &'a [Site], b: &'a [Site]) -> Ranges<'a> {
        Ranges { a, b, p: 0..a.len(), q: 0..b.len() }
    }

    fn entry(&self, i: usize, j: usize) -> Entry {
        let dx = self.a[i].x.abs_diff(self.b[j].x) as u64;
        let dy = self.a[i].y.abs_diff(self.b[j].y) as u64;
        Entry { distance: dx * dx + dy * dy, first: i as u32, second: j as u32 }
    }

    /// The pairs, by first place and then second: those at one x and y are none.
    fn pairs(&self) -> Vec<Entry> {
        let all = self.p.clone().flat_map(|i| self.q.clone().map(move |j| self.entry(i, j)));
        all.filter(|e| e.distance >= 1).collect()
    }

    /// The gap squared of the boxes of four edges: least x, greatest x, least y, greatest y.
    fn squared_gap(&self) -> u64 {
        let edges = |sites: &[Site]| {
            let (mut xs, mut ys): (Vec<i64>, Vec<i64>) = sites.iter().map(|s| (s.x as i64, s.y as i64)).unzip();
            xs.sort();
            ys.sort();
            [xs[0], xs[xs.len() - 1], ys[0], ys[ys.len() - 1]]
        };
        let (p, q) = (edges(&self.a[self.p.clone()]), edges(&self.b[self.q.clone()]));
        let between = |low: usize| (q[low] - p[low + 1]).max(p[low] - q[low + 1]).max(0) as u64;
        between(0) * between(0) + between(2) * between(2)
    }

    /// With either half of the longer range, the first list's at equal length: the lower half, the upper half.
    fn halved(&self) -> (Ranges<'a>, Ranges<'a>) {
        let (mut lower, mut upper) = (self.clone(), self.clone());
        if self.q.len() > self.p.len() {
            lower.q.end = (self.q.start + self.q.end) / 2;
            upper.q.start = lower.q.end;
        } else {
            lower.p.end = (self.p.start + self.p.end) / 2;
            upper.p.start = lower.p.end;
        }
        (lower, upper)
    }
}

/// A sweep or a join by halves under way.
struct Join<'a> {
    of: Ranges<'a>,
    k: usize,
    entries: Vec<Entry>,
    counters: Counters,
}

impl Join<'_> {
    /// Whether K entries are held and this is greater than the last squared distance.
    fn beyond(&self, squared: u64) -> bool {
        self.entries.len() == self.k && squared > self.entries[self.k - 1].distance
    }

    fn offer(&mut self, e: Entry) {
        if e.distance > 0 {
            self.entries.push(e);
            self.entries.sort();
            self.entries.truncate(self.k);
        }
    }

    /// One look at places i and j; false where it stops the scan.
    fn look(&mut self, i: usize, j: usize) -> bool {
        self.counters.looks += 1;
        let dx = self.of.a[i].x.abs_diff(self.of.b[j].x) as u64;
        if self.beyond(dx * dx) {
            return false;
        }
        self.counters.distances += 1;
        self.offer(self.of.entry(i, j));
        true
    }

    /// Whether the next reference is the first list's.
    fn first_next(&self, i: usize, j: usize) -> bool {
        let (p, q) = (self.of.p.end, self.of.q.end);
        j == q || (i < p && self.of.a[i].x <= self.of.b[j].x)
    }

    fn classic(&mut self) {
        let (mut p, mut q) = (self.of.p.clone(), self.of.q.clone());
        while !p.is_empty() && !q.is_empty() {
            let (i, j) = (p.start, q.start);
            if self.first_next(i, j) {
                let _ = q.clone().all(|other| self.look(i, other));
                p.start += 1;
            } else {
                let _ = p.clone().all(|other| self.look(other, j));
                q.start += 1;
            }
        }
    }

    fn reverse_run(&mut self) {
        // of each list, the places taken, from its left limit on
        let (mut p, mut q) = (self.of.p.start..self.of.p.start, self.of.q.start..self.of.q.start);
        while p.end < self.of.p.end || q.end < self.of.q.end {
            let (i, j) = (p.end, q.end);
            if self.first_next(i, j) {
                let stopped = q.clone().rev().find(|other| !self.look(i, *other));
                q.start = stopped.map_or(q.start, |at| at + 1);
                p.end += 1;
            } else {
                let stopped = p.clone().rev().find(|other| !self.look(*other, j));
                p.start = stopped.map_or(p.start, |at| at + 1);
                q.end += 1;
            }
        }
    }

    /// A visit of two ranges, neither of them empty.
    fn visit(&mut self, at: &Ranges) {
        self.counters.range_pairs += 1;
        if self.beyond(at.squared_gap()) {
            return;
        }
        if at.p.len() + at.q.len() == 2 {
            return self.offer(at.entry(at.p.start, at.q.start));
        }
        let (lower, upper) = at.halved();
        if lower.squared_gap() <= upper.squared_gap() {
            self.visit(&lower);
            self.visit(&upper);
        } else {
            self.visit(&upper);
            self.visit(&lower);
        }
    }
}

fn counters(way: Way, k: u32, of: &Ranges, entries: &[Entry]) -> Counters {
    let mut join = Join { of: of.clone(), k: k as usize, entries: entries.to_vec(), counters: Counters::default() };
    match way {
        Way::Classic => join.classic(),
        Way::ReverseRun => join.reverse_run(),
        Way::Halves if of.p.is_empty() || of.q.is_empty() => {}
        Way::Halves => join.visit(of),
    }
    join.counters
}

// Lists of pairs.

/// The entries of the K list of two lawful lists, and the counters of the way.
pub fn k_list(way: Way, a: &[Site], b: &[Site], k: u32) -> (Vec<Entry>, Counters) {
    let whole = Ranges::whole(a, b);
    (best(k, whole.pairs()), counters(way, k, &whole, &[]))
}

/// The places of the distance list of two lawful lists.
pub fn distance_list(a: &[Site], b: &[Site], e: u32) -> Vec<(u32, u32)> {
    let mut pairs = Ranges::whole(a, b).pairs();
    pairs.retain(|p| p.distance <= e as u64 * e as u64);
    pairs.iter().map(|p| (p.first, p.second)).collect()
}

/// The numbers of partners no further than `e` in x of the first list's places.
pub fn forecast(a: &[Site], b: &[Site], e: u32) -> Vec<u32> {
    let near = |s: &Site, t: &Site| (s.x as i64 - t.x as i64).abs() <= e as i64;
    a.iter().map(|s| b.iter().filter(|t| near(s, t)).count() as u32).collect()
}

/// A campaign on two lawful lists, kept from its calls.
pub struct Campaign<'a> {
    a: &'a [Site],
    b: &'a [Site],
    k: u32,
    first_ends: &'a [u32],
    second_ends: &'a [u32],
    settled: BTreeSet<(usize, usize)>,
    pub entries: Vec<Entry>,
}

impl<'a> Campaign<'a> {
    /// After an accepted opening.
    pub fn opened(
        a: &'a [Site],
        b: &'a [Site],
        k: u32,
        first_ends: &'a [u32],
        second_ends: &'a [u32],
    ) -> Campaign<'a> {
        Campaign { a, b, k, first_ends, second_ends, settled: BTreeSet::new(), entries: Vec::new() }
    }

    /// An open job: its counters, or none where it is skipped.
    pub fn job(&mut self, way: Way, s: usize, t: usize) -> Option<Counters> {
        let range = |ends: &[u32], s: usize| if s == 0 { 0 } else { ends[s - 1] as usize }..ends[s] as usize;
        let (p, q) = (range(self.first_ends, s), range(self.second_ends, t));
        let of = Ranges { a: self.a, b: self.b, p, q };
        let full = self.entries.len() == self.k as usize;
        let skipped = full && of.squared_gap() > self.entries.last().unwrap().distance;
        let told = if skipped { None } else { Some(counters(way, self.k, &of, &self.entries)) };
        self.entries.extend(of.pairs());
        self.entries = best(self.k, std::mem::take(&mut self.entries));
        self.settled.insert((s, t));
        told
    }

    /// A smaller K, from 1 to the present one.
    pub fn lower(&mut self, k: u32) {
        self.k = k;
        self.entries.truncate(k as usize);
    }

    pub fn status(&self) -> Status {
        Status {
            settled: self.settled.len() as u32,
            jobs: (self.first_ends.len() * self.second_ends.len()) as u32,
            entries: self.entries.len() as u32,
            k: self.k,
        }
    }
}

// Site files.

pub fn encode(a: &[Site], b: &[Site]) -> Vec<u8> {
    let second = 16 + 12 * a.len();
    let mut file = Vec::new();
    for number in [16, a.len(), second, b.len()] {
        file.extend((number as u32).to_le_bytes());
    }
    for s in a.iter().chain(b) {
        file.extend(s.x.to_le_bytes());
        file.extend(s.y.to_le_bytes());
        file.extend(s.number.to_le_bytes());
    }
    file
}

fn four(file: &[u8], at: usize) -> [u8; 4] {
    file[at..at + 4].try_into().unwrap()
}

/// A list's start and count in the contents.
fn contents(file: &[u8]) -> Result<[(usize, usize); 2], u32> {
    if file.len() < 16 {
        return Err(10);
    }
    let word = |at| u32::from_le_bytes(four(file, at)) as usize;
    let (n, m) = (word(4), word(12));
    if n > MOST_SITES || m > MOST_SITES {
        return Err(1);
    }
    if word(0) != 16 || word(8) != 16 + 12 * n || file.len() != 16 + 12 * n + 12 * m {
        return Err(10);
    }
    Ok([(16, n), (16 + 12 * n, m)])
}

fn site_in(file: &[u8], at: usize) -> Site {
    site(
        i32::from_le_bytes(four(file, at)),
        i32::from_le_bytes(four(file, at + 4)),
        u32::from_le_bytes(four(file, at + 8)),
    )
}

/// The two lists of a file.
pub fn read_file(file: &[u8]) -> Result<[Vec<Site>; 2], u32> {
    let lists = contents(file)?.map(|(start, n)| (0..n).map(|i| site_in(file, start + 12 * i)).collect::<Vec<_>>());
    for list in &lists {
        let refusal = content_refusal(list);
        if refusal != 0 {
            return Err(refusal);
        }
    }
    Ok(lists)
}

/// A site of the first list (0) or the second (1).
pub fn file_site(file: &[u8], list: usize, place: u32) -> Result<Site, u32> {
    let (start, n) = contents(file)?[list];
    if place as usize >= n {
        return Err(8);
    }
    Ok(site_in(file, start + 12 * place as usize))
}

pub fn write_file(a: &Columns, b: &Columns, room: usize) -> Result<Vec<u8>, u32> {
    let (a, b) = (checked(a)?, checked(b)?);
    let file = encode(&a, &b);
    if file.len() > room { Err(6) } else { Ok(file) }
}

// The case listing.

fn listing_refusal(input: &[u8]) -> Result<(u32, [Vec<Site>; 2]), u32> {
    if input.len() > 48_020 {
        return Err(6);
    }
    if input.len() < 4 {
        return Err(10);
    }
    let lists = read_file(&input[4..])?;
    let k = u32::from_le_bytes(four(input, 0));
    k_refusal(k)?;
    Ok((k, lists))
}

/// What `caselist` prints for an input.
pub fn listing(input: &[u8]) -> String {
    let (k, [a, b]) = match listing_refusal(input) {
        Ok(accepted) => accepted,
        Err(refusal) => return format!("refused {refusal}\n"),
    };
    let all = Ranges::whole(&a, &b).pairs();
    let total = all.len();
    let entries = best(k, all);
    let mut text = format!("pairs {} of {total}\n", entries.len());
    for (i, e) in entries.iter().enumerate() {
        let (s, t) = (a[e.first as usize], b[e.second as usize]);
        text += &format!("{} {} {} {}\n", i + 1, e.distance, s.number, t.number);
    }
    text
}
