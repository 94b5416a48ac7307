//! Documents 01 and 02 a, b, d, e, f, g, j, k, l and m in plain Rust, by brute force: what each call on lists with heights, and
//! each on price bands, must answer and leave behind. What is of the plane, the site file and the case listing, is in `plane`.

use crate::raw::Band;
use std::collections::HashMap;

pub const LIMIT: i64 = 1_000_000_000;
pub const HEIGHT_LIMIT: i64 = 10_000;
pub const MOST_SITES: usize = 65_535;
pub const MOST_K: u32 = 4_096;
pub const MOST_STRIPS: usize = 32;

#[derive(Clone, Copy, Debug, PartialEq, Eq)]
pub struct Site {
    pub x: i32,
    pub y: i32,
    pub number: u32,
    pub height: i32,
}

/// A site at height 0.
pub fn site(x: i32, y: i32, number: u32) -> Site {
    Site { x, y, number, height: 0 }
}

impl Site {
    /// The site at a height.
    pub fn up(self, height: i32) -> Site {
        Site { height, ..self }
    }

    /// What the order of a list looks at: not the height.
    pub fn key(&self) -> (i32, i32, u32) {
        (self.x, self.y, self.number)
    }
}

/// Four lent columns, of whatever lengths.
#[derive(Clone, Debug, PartialEq, Eq, Default)]
pub struct Columns {
    pub x: Vec<i32>,
    pub y: Vec<i32>,
    pub number: Vec<u32>,
    pub height: Vec<i32>,
}

impl Columns {
    pub fn of(sites: &[Site]) -> Columns {
        Columns {
            x: sites.iter().map(|s| s.x).collect(),
            y: sites.iter().map(|s| s.y).collect(),
            number: sites.iter().map(|s| s.number).collect(),
            height: sites.iter().map(|s| s.height).collect(),
        }
    }

    /// The lengths of the columns.
    pub fn lengths(&self) -> [usize; 4] {
        [self.x.len(), self.y.len(), self.number.len(), self.height.len()]
    }

    /// How many sites stand in every column.
    pub fn shortest(&self) -> usize {
        self.lengths().into_iter().min().unwrap()
    }

    pub fn equal(&self) -> bool {
        self.lengths().iter().all(|n| *n == self.x.len())
    }

    /// The first `n` sites; the columns have as many.
    pub fn sites(&self, n: usize) -> Vec<Site> {
        (0..n).map(|i| site(self.x[i], self.y[i], self.number[i]).up(self.height[i])).collect()
    }
}

// Site lists.

/// Whether a coordinate or the height is outside its limits.
fn outside(s: &Site) -> bool {
    let beyond = |c: i32, limit: i64| (c as i64) < -limit || (c as i64) > limit;
    beyond(s.x, LIMIT) || beyond(s.y, LIMIT) || beyond(s.height, HEIGHT_LIMIT)
}

/// 2 and 3, in that order; 0 for neither.
pub fn content_refusal(sites: &[Site]) -> u32 {
    if sites.iter().any(outside) {
        return 2;
    }
    if sites.windows(2).any(|w| w[0].key() >= w[1].key()) {
        return 3;
    }
    0
}

pub fn check(c: &Columns) -> Result<u32, u32> {
    if !c.equal() || c.x.len() > MOST_SITES {
        return Err(1);
    }
    match content_refusal(&c.sites(c.x.len())) {
        0 => Ok(c.x.len() as u32),
        refusal => Err(refusal),
    }
}

/// The first list's refusal, then the second's; the sites where there is none.
pub fn lists(a: &Columns, b: &Columns) -> Result<(Vec<Site>, Vec<Site>), u32> {
    let n = check(a)?;
    let m = check(b)?;
    Ok((a.sites(n as usize), b.sites(m as usize)))
}

/// The sites in use, or their refusal.
fn used_sites(c: &Columns, in_use: u32) -> Result<Vec<Site>, u32> {
    let used = in_use as usize;
    if !c.equal() || used > MOST_SITES || used > c.x.len() {
        return Err(1);
    }
    let sites = c.sites(used);
    match content_refusal(&sites) {
        0 => Ok(sites),
        refusal => Err(refusal),
    }
}

/// The place and the new count, and the columns afterwards.
pub fn add(c: &Columns, in_use: u32, s: Site) -> Result<(u32, u32, Columns), u32> {
    let sites = used_sites(c, in_use)?;
    let used = sites.len();
    if outside(&s) {
        return Err(2);
    }
    if used == c.x.len() || used == MOST_SITES {
        return Err(6);
    }
    if sites.iter().any(|t| t.key() == s.key()) {
        return Err(11);
    }
    let mut after = sites;
    after.push(s);
    after.sort_by_key(Site::key);
    let place = after.iter().position(|t| t.key() == s.key()).unwrap();
    let mut columns = c.clone();
    for (i, t) in after.iter().enumerate() {
        columns.x[i] = t.x;
        columns.y[i] = t.y;
        columns.number[i] = t.number;
        columns.height[i] = t.height;
    }
    Ok((place as u32, in_use + 1, columns))
}

/// The place that the site with this x, y and number had and the new count, and the columns afterwards.
pub fn remove(c: &Columns, in_use: u32, s: Site) -> Result<(u32, u32, Columns), u32> {
    let sites = used_sites(c, in_use)?;
    let place = sites.iter().position(|t| t.key() == s.key()).ok_or(16u32)?;
    let mut columns = c.clone();
    for (i, later) in sites.iter().enumerate().skip(place + 1) {
        columns.x[i - 1] = later.x;
        columns.y[i - 1] = later.y;
        columns.number[i - 1] = later.number;
        columns.height[i - 1] = later.height;
    }
    Ok((place as u32, in_use - 1, columns))
}

// Pairs.

/// An entry; the derived order is the rank.
#[derive(Clone, Copy, Debug, PartialEq, Eq, PartialOrd, Ord)]
pub struct Entry {
    pub distance: u64,
    pub first: u32,
    pub second: u32,
}

pub fn squared_distance(s: Site, t: Site) -> u64 {
    let dx = s.x as i128 - t.x as i128;
    let dy = s.y as i128 - t.y as i128;
    let dh = s.height as i128 - t.height as i128;
    u64::try_from(dx * dx + dy * dy + dh * dh).unwrap()
}

/// A range of places of a list.
#[derive(Clone, Copy)]
pub struct Strip<'a> {
    pub sites: &'a [Site],
    pub from: usize,
    pub to: usize,
}

impl<'a> Strip<'a> {
    pub fn whole(sites: &'a [Site]) -> Strip<'a> {
        Strip { sites, from: 0, to: sites.len() }
    }

    pub fn len(&self) -> usize {
        self.to - self.from
    }

    /// The lower half, of half the length rounded down, and the upper half.
    fn halves(self) -> [Strip<'a>; 2] {
        let middle = self.from + self.len() / 2;
        [Strip { to: middle, ..self }, Strip { from: middle, ..self }]
    }
}

fn entry(a: &[Site], i: usize, b: &[Site], j: usize) -> Entry {
    Entry { distance: squared_distance(a[i], b[j]), first: i as u32, second: j as u32 }
}

/// All pairs of two strips, by first place and then second: co-sited cells are none.
pub fn pairs(a: Strip, b: Strip) -> Vec<Entry> {
    let mut all = Vec::new();
    for i in a.from..a.to {
        for j in b.from..b.to {
            all.push(entry(a.sites, i, b.sites, j));
        }
    }
    all.retain(|e| e.distance > 0);
    all
}

/// How many pairs two strips have, for strips too long to go pair by pair: by how often each position, the
/// height included, stands in them.
pub fn pair_count(a: Strip, b: Strip) -> u64 {
    let mut standing: HashMap<(i32, i32, i32), u64> = HashMap::new();
    for s in &a.sites[a.from..a.to] {
        *standing.entry((s.x, s.y, s.height)).or_default() += 1;
    }
    let often = |t: &Site| standing.get(&(t.x, t.y, t.height)).copied().unwrap_or(0);
    let co_sited: u64 = b.sites[b.from..b.to].iter().map(often).sum();
    (a.to - a.from) as u64 * (b.to - b.from) as u64 - co_sited
}

/// The first `k` by rank.
pub fn best(k: u32, mut entries: Vec<Entry>) -> Vec<Entry> {
    let k = k as usize;
    if entries.len() > 4 * k && k > 0 {
        entries.select_nth_unstable(k - 1);
        entries.truncate(k);
    }
    entries.sort();
    entries.truncate(k);
    entries
}

// Ways: two sweeps, and the join by halves.

#[derive(Clone, Copy, Debug, PartialEq, Eq)]
pub enum Way {
    Classic,
    ReverseRun,
    Halves,
}

pub const WAYS: [Way; 3] = [Way::Classic, Way::ReverseRun, Way::Halves];

impl Way {
    /// This way's counters: the looks and distances of a sweep, or the range pairs.
    pub fn counters(self, looks: u64, distances: u64, range_pairs: u64) -> Counters {
        if self == Way::Halves { Counters::halved(range_pairs) } else { Counters::swept(looks, distances) }
    }
}

/// What a way counts: a sweep looks and distances, the halves range pairs. What it does not count is 0.
#[derive(Clone, Copy, Debug, PartialEq, Eq, Default)]
pub struct Counters {
    pub looks: u64,
    pub distances: u64,
    pub range_pairs: u64,
}

impl Counters {
    /// Of a sweep.
    pub fn swept(looks: u64, distances: u64) -> Counters {
        Counters { looks, distances, range_pairs: 0 }
    }

    /// Of a join by halves.
    pub fn halved(range_pairs: u64) -> Counters {
        Counters { looks: 0, distances: 0, range_pairs }
    }

    /// Each summed alone.
    pub fn plus(self, other: Counters) -> Counters {
        Counters {
            looks: self.looks + other.looks,
            distances: self.distances + other.distances,
            range_pairs: self.range_pairs + other.range_pairs,
        }
    }
}

struct Sweep<'a> {
    k: usize,
    a: &'a [Site],
    b: &'a [Site],
    entries: Vec<Entry>,
    counters: Counters,
}

impl Sweep<'_> {
    /// One look at the pair (i, j); false where it stops the scan.
    fn look(&mut self, i: usize, j: usize) -> bool {
        self.counters.looks += 1;
        let dx = self.a[i].x as i128 - self.b[j].x as i128;
        if self.entries.len() == self.k && dx * dx > self.entries[self.k - 1].distance as i128 {
            return false;
        }
        self.counters.distances += 1;
        let e = entry(self.a, i, self.b, j);
        if e.distance == 0 {
            return true;
        }
        let at = self.entries.partition_point(|f| *f < e);
        if at < self.k {
            self.entries.insert(at, e);
            self.entries.truncate(self.k);
        }
        true
    }

    fn classic(&mut self, a: Strip, b: Strip) {
        let (mut i, mut j) = (a.from, b.from);
        while i < a.to && j < b.to {
            if self.a[i].x <= self.b[j].x {
                let _ = (j..b.to).all(|other| self.look(i, other));
                i += 1;
            } else {
                let _ = (i..a.to).all(|other| self.look(other, j));
                j += 1;
            }
        }
    }

    fn reverse_run(&mut self, a: Strip, b: Strip) {
        // every site with its list, in the order in which references are taken
        let mut references: Vec<(i32, usize, usize)> = Vec::new();
        references.extend((a.from..a.to).map(|i| (self.a[i].x, 0, i)));
        references.extend((b.from..b.to).map(|j| (self.b[j].x, 1, j)));
        references.sort();
        // of each list: the sites taken, and the place from which on they are still looked at
        let mut taken: [Vec<usize>; 2] = [Vec::new(), Vec::new()];
        let mut from = [a.from, b.from];
        for (_, list, place) in references {
            let other = 1 - list;
            for &p in taken[other].iter().rev() {
                if p < from[other] {
                    break;
                }
                let on = if list == 0 { self.look(place, p) } else { self.look(p, place) };
                if !on {
                    from[other] = p + 1;
                    break;
                }
            }
            taken[list].push(place);
        }
    }
}

/// A join by halves under way.
struct Halves {
    k: usize,
    entries: Vec<Entry>,
    range_pairs: u64,
}

impl Halves {
    /// A visit of a range of either list, neither of them empty.
    fn visit(&mut self, p: Strip, q: Strip) {
        self.range_pairs += 1;
        if self.entries.len() == self.k && squared_gap(p, q) > self.entries[self.k - 1].distance as i128 {
            return;
        }
        if p.len() == 1 && q.len() == 1 {
            let e = entry(p.sites, p.from, q.sites, q.from);
            if e.distance > 0 {
                self.entries.push(e);
                self.entries.sort();
                self.entries.truncate(self.k);
            }
            return;
        }
        let mut halves =
            if p.len() >= q.len() { p.halves().map(|half| (half, q)) } else { q.halves().map(|half| (p, half)) };
        // this sort leaves the lower places first where the gaps are equal
        halves.sort_by_key(|(p, q)| squared_gap(*p, *q));
        for (p, q) in halves {
            self.visit(p, q);
        }
    }
}

fn by_halves(k: u32, a: Strip, b: Strip, entries: Vec<Entry>) -> (Vec<Entry>, Counters) {
    let mut h = Halves { k: k as usize, entries, range_pairs: 0 };
    if a.len() > 0 && b.len() > 0 {
        h.visit(a, b);
    }
    (h.entries, Counters::halved(h.range_pairs))
}

/// The entries and counters after two strips are gone through by a way, from a list that may hold entries already.
pub fn joined(way: Way, k: u32, a: Strip, b: Strip, entries: Vec<Entry>) -> (Vec<Entry>, Counters) {
    let mut s = Sweep { k: k as usize, a: a.sites, b: b.sites, entries, counters: Counters::default() };
    match way {
        Way::Classic => s.classic(a, b),
        Way::ReverseRun => s.reverse_run(a, b),
        Way::Halves => return by_halves(k, a, b, s.entries),
    }
    (s.entries, s.counters)
}

// Lists of pairs.

/// The three result columns.
#[derive(Clone, Debug, PartialEq, Eq, Default)]
pub struct Results {
    pub distance: Vec<u64>,
    pub first: Vec<u32>,
    pub second: Vec<u32>,
}

impl Results {
    pub fn shortest(&self) -> usize {
        self.distance.len().min(self.first.len()).min(self.second.len())
    }

    /// The columns with these entries from their start on.
    pub fn holding(&self, entries: &[Entry]) -> Results {
        let mut r = self.clone();
        for (i, e) in entries.iter().enumerate() {
            r.distance[i] = e.distance;
            r.first[i] = e.first;
            r.second[i] = e.second;
        }
        r
    }

    /// The first `n` entries; the columns have as many.
    pub fn entries(&self, n: usize) -> Vec<Entry> {
        (0..n)
            .map(|i| Entry { distance: self.distance[i], first: self.first[i], second: self.second[i] })
            .collect()
    }
}

pub fn k_refusal(k: u32) -> Result<(), u32> {
    if k == 0 || k > MOST_K { Err(4) } else { Ok(()) }
}

fn room_refusal(k: u32, r: &Results) -> Result<(), u32> {
    if r.shortest() < k as usize { Err(6) } else { Ok(()) }
}

/// The entries of a K list, by brute force, and the counters of the way.
pub fn k_list(way: Way, a: &Columns, b: &Columns, k: u32, r: &Results) -> Result<(Vec<Entry>, Counters), u32> {
    let (a, b) = lists(a, b)?;
    k_refusal(k)?;
    room_refusal(k, r)?;
    let (a, b) = (Strip::whole(&a), Strip::whole(&b));
    let (_, counters) = joined(way, k, a, b, Vec::new());
    Ok((best(k, pairs(a, b)), counters))
}

/// The pairs of a distance list, by first place and then second.
pub fn distance_list(a: &Columns, b: &Columns, e: u32, shorter: usize) -> Result<Vec<(u32, u32)>, u32> {
    let (a, b) = lists(a, b)?;
    let limit = e as u128 * e as u128;
    let mut found = Vec::new();
    for (i, s) in a.iter().enumerate() {
        for (j, t) in b.iter().enumerate() {
            let squared = squared_distance(*s, *t) as u128;
            if squared >= 1 && squared <= limit {
                found.push((i as u32, j as u32));
            }
        }
    }
    if found.len() > shorter { Err(6) } else { Ok(found) }
}

/// The partners of each place of the first list no further than `e` in x, co-sited ones too, and all pairs of partners.
pub fn forecast(a: &Columns, b: &Columns, e: u32, column: usize) -> Result<(Vec<u32>, u64), u32> {
    let (a, b) = lists(a, b)?;
    if column < a.len() {
        return Err(6);
    }
    let (mut partners, mut total) = (vec![0; a.len()], 0);
    for (i, s) in a.iter().enumerate() {
        for t in &b {
            if s.x.abs_diff(t.x) <= e {
                partners[i] += 1;
                total += 1;
            }
        }
    }
    Ok((partners, total))
}

// Grids.

/// What a customer has in a grid beside their bit of each mark.
#[derive(Clone, Copy, Debug, PartialEq, Eq, Default)]
pub struct Share {
    pub k: u32,
    pub entries: u32,
}

/// A grid: the ends, the marks of both customers, and customer 1's share before customer 2's.
#[derive(Clone, Debug, PartialEq, Eq)]
pub struct Grid {
    pub first_strips: u32,
    pub second_strips: u32,
    pub first_ends: [u32; 32],
    pub second_ends: [u32; 32],
    pub marks: [u8; 1024],
    pub shares: [Share; 2],
}

pub fn blank_grid() -> Grid {
    Grid {
        first_strips: 0,
        second_strips: 0,
        first_ends: [0; 32],
        second_ends: [0; 32],
        marks: [0; 1024],
        shares: [Share::default(); 2],
    }
}

pub const CUSTOMERS: [u32; 2] = [1, 2];

/// "15 for a customer number other than 1 or 2, before all else."
pub fn customer_refusal(customer: u32) -> Result<(), u32> {
    if CUSTOMERS.contains(&customer) { Ok(()) } else { Err(15) }
}

/// Whether a mark holds a customer's own number: "the first customer owns the 1 and the second the 2".
pub fn owns(customer: u32, mark: u8) -> bool {
    match customer {
        1 => mark == 1 || mark == 3,
        _ => mark == 2 || mark == 3,
    }
}

/// A mark from 0 to 3 with a customer's number in it, or without it.
pub fn marked(customer: u32, mark: u8, settled: bool) -> u8 {
    let mine = |c: u32| if c == customer { settled } else { owns(c, mark) };
    mine(1) as u8 + 2 * mine(2) as u8
}

/// "at most 32 per list, strictly ascending, each above 0, the last equal to the list's length; an empty list has none."
pub fn lawful_ends(sites: usize, ends: &[u32]) -> bool {
    if sites == 0 {
        return ends.is_empty();
    }
    !ends.is_empty()
        && ends.len() <= MOST_STRIPS
        && ends.iter().all(|e| *e > 0)
        && ends.windows(2).all(|w| w[0] < w[1])
        && ends[ends.len() - 1] as usize == sites
}

/// Preparing, whatever the grid held.
pub fn prepare(a: &Columns, b: &Columns, first_ends: &[u32], second_ends: &[u32]) -> Result<Grid, u32> {
    let (a, b) = lists(a, b)?;
    if !lawful_ends(a.len(), first_ends) || !lawful_ends(b.len(), second_ends) {
        return Err(5);
    }
    let mut g = blank_grid();
    g.first_strips = first_ends.len() as u32;
    g.second_strips = second_ends.len() as u32;
    g.first_ends[..first_ends.len()].copy_from_slice(first_ends);
    g.second_ends[..second_ends.len()].copy_from_slice(second_ends);
    Ok(g)
}

/// What an opening is lent beside the grid, the lists and the result columns.
#[derive(Clone, Copy, Debug)]
pub struct Opening<'a> {
    pub k: u32,
    pub first_ends: &'a [u32],
    pub second_ends: &'a [u32],
}

/// The grid after an opening as a customer.
pub fn open(g: &Grid, customer: u32, a: &Columns, b: &Columns, o: Opening, r: &Results) -> Result<Grid, u32> {
    customer_refusal(customer)?;
    let (a, b) = lists(a, b)?;
    k_refusal(o.k)?;
    if !lawful_ends(a.len(), o.first_ends) || !lawful_ends(b.len(), o.second_ends) || !g.has_ends(o) {
        return Err(5);
    }
    room_refusal(o.k, r)?;
    if g.mark_fault().is_some() {
        return Err(7);
    }
    let mut after = g.clone();
    *after.share_mut(customer) = Share { k: o.k, entries: 0 };
    after.marks = g.marks.map(|m| marked(customer, m, false));
    Ok(after)
}

/// The grid after a customer's K is lowered: "from 1 to the present K, keep the marks, cut the entries".
pub fn lower_k(g: &Grid, customer: u32, a: &Columns, b: &Columns, k: u32, r: &Results) -> Result<Grid, u32> {
    customer_refusal(customer)?;
    let (a, b) = lists(a, b)?;
    let Share { k: present, entries } = *g.share(customer);
    if k == 0 || k > present {
        return Err(4);
    }
    if g.fault(customer, &a, &b, r).is_some() {
        return Err(7);
    }
    let mut after = g.clone();
    *after.share_mut(customer) = Share { k, entries: entries.min(k) };
    Ok(after)
}

/// The places of a strip.
pub fn strip_range(ends: &[u32], s: usize) -> (usize, usize) {
    (if s == 0 { 0 } else { ends[s - 1] as usize }, ends[s] as usize)
}

/// The strip that holds a place.
fn strip_of(ends: &[u32], place: usize) -> usize {
    (0..ends.len()).find(|s| place < ends[*s] as usize).unwrap()
}

/// The squares of the x gap, the y gap and the height gap, each "being 0 where the ranges touch or overlap": the strips'
/// boxes are those of their own sites.
pub fn squared_gaps(a: Strip, b: Strip) -> [i128; 3] {
    [|s: &Site| s.x, |s: &Site| s.y, |s: &Site| s.height].map(|coordinate| {
        let edges = |s: Strip| {
            let all = s.sites[s.from..s.to].iter().map(|t| coordinate(t) as i128);
            (all.clone().min().unwrap(), all.max().unwrap())
        };
        let (p, q) = (edges(a), edges(b));
        let gap = (q.0 - p.1).max(p.0 - q.1).max(0);
        gap * gap
    })
}

fn squared_gap(a: Strip, b: Strip) -> i128 {
    squared_gaps(a, b).iter().sum()
}

impl Grid {
    fn first_cut(&self) -> &[u32] {
        &self.first_ends[..self.first_strips as usize]
    }

    fn second_cut(&self) -> &[u32] {
        &self.second_ends[..self.second_strips as usize]
    }

    pub fn share(&self, customer: u32) -> &Share {
        &self.shares[customer as usize - 1]
    }

    pub fn share_mut(&mut self, customer: u32) -> &mut Share {
        &mut self.shares[customer as usize - 1]
    }

    pub fn settled(&self, customer: u32, s: usize, t: usize) -> bool {
        owns(customer, self.marks[32 * s + t])
    }

    /// Whether the ends in use are those that an opening is lent; slots past them are not in use.
    fn has_ends(&self, o: Opening) -> bool {
        let same = |strips: u32, slots: &[u32], ends: &[u32]| {
            strips as usize == ends.len() && ends.iter().zip(slots).all(|(end, slot)| end == slot)
        };
        same(self.first_strips, &self.first_ends, o.first_ends) && same(self.second_strips, &self.second_ends, o.second_ends)
    }

    /// "whether all marks are within 0 to 3 and inside the jobs": the first fault, or none.
    pub fn mark_fault(&self) -> Option<&'static str> {
        for (i, m) in self.marks.iter().enumerate() {
            if *m > 3 {
                return Some("mark above 3");
            }
            if *m != 0 && (i / 32 >= self.first_strips as usize || i % 32 >= self.second_strips as usize) {
                return Some("mark outside the jobs");
            }
        }
        None
    }

    /// The fault that refusal 7 names first in the papers for a customer, or none.
    pub fn fault(&self, customer: u32, a: &[Site], b: &[Site], r: &Results) -> Option<&'static str> {
        let Share { k, entries } = *self.share(customer);
        if k == 0 || k > MOST_K {
            return Some("K");
        }
        if self.first_strips > 32 || self.second_strips > 32 {
            return Some("strip count");
        }
        if !lawful_ends(a.len(), self.first_cut()) || !lawful_ends(b.len(), self.second_cut()) {
            return Some("ends");
        }
        if let Some(fault) = self.mark_fault() {
            return Some(fault);
        }
        if r.shortest() < k as usize {
            return Some("column");
        }
        let mut total = 0u128;
        for s in 0..self.first_strips as usize {
            for t in 0..self.second_strips as usize {
                if self.settled(customer, s, t) {
                    let (p, q) = (strip_range(self.first_cut(), s), strip_range(self.second_cut(), t));
                    let p = Strip { sites: a, from: p.0, to: p.1 };
                    let q = Strip { sites: b, from: q.0, to: q.1 };
                    total += pair_count(p, q) as u128;
                }
            }
        }
        if entries as u128 != total.min(k as u128) {
            return Some("entry count");
        }
        let entries = r.entries(entries as usize);
        for e in &entries {
            if e.first as usize >= a.len() || e.second as usize >= b.len() {
                return Some("place");
            }
            if e.distance != squared_distance(a[e.first as usize], b[e.second as usize]) {
                return Some("squared distance");
            }
            if e.distance == 0 {
                return Some("co-sited");
            }
            let s = strip_of(self.first_cut(), e.first as usize);
            let t = strip_of(self.second_cut(), e.second as usize);
            if !self.settled(customer, s, t) {
                return Some("unsettled job");
            }
        }
        if entries.windows(2).any(|w| w[0] >= w[1]) {
            return Some("rank order");
        }
        None
    }
}

#[derive(Clone, Debug, PartialEq, Eq)]
pub struct JobDone {
    pub grid: Grid,
    pub results: Results,
    pub swept: bool,
    pub counters: Counters,
}

pub fn job(
    way: Way,
    g: &Grid,
    customer: u32,
    a: &Columns,
    b: &Columns,
    r: &Results,
    first_strip: u32,
    second_strip: u32,
) -> Result<JobDone, u32> {
    customer_refusal(customer)?;
    let (a, b) = lists(a, b)?;
    if g.fault(customer, &a, &b, r).is_some() {
        return Err(7);
    }
    if first_strip >= g.first_strips || second_strip >= g.second_strips {
        return Err(8);
    }
    let (s, t) = (first_strip as usize, second_strip as usize);
    if g.settled(customer, s, t) {
        return Err(9);
    }
    Ok(job_done(way, g, customer, &a, &b, r, s, t))
}

/// What a job that is not refused leaves and answers.
fn job_done(
    way: Way,
    g: &Grid,
    customer: u32,
    a: &[Site],
    b: &[Site],
    r: &Results,
    s: usize,
    t: usize,
) -> JobDone {
    let (p, q) = (strip_range(g.first_cut(), s), strip_range(g.second_cut(), t));
    let p = Strip { sites: a, from: p.0, to: p.1 };
    let q = Strip { sites: b, from: q.0, to: q.1 };
    let Share { k, entries } = *g.share(customer);
    let old = r.entries(entries as usize);
    let full = old.len() == k as usize;
    let skipped = full && squared_gap(p, q) > old[old.len() - 1].distance as i128;
    let counters = if skipped { Counters::default() } else { joined(way, k, p, q, old.clone()).1 };
    let mut all = old;
    all.extend(pairs(p, q));
    let entries = best(k, all);
    let mut after = g.clone();
    after.share_mut(customer).entries = entries.len() as u32;
    after.marks[32 * s + t] = marked(customer, g.marks[32 * s + t], true);
    JobDone { grid: after, results: r.holding(&entries), swept: !skipped, counters }
}

/// The jobs of one call: "two columns of strips and one of ways", of whatever lengths.
#[derive(Clone, Debug, PartialEq, Eq, Default)]
pub struct Jobs {
    pub first: Vec<u32>,
    pub second: Vec<u32>,
    pub way: Vec<u32>,
}

/// "ways (0 classic, 1 Reverse Run, 2 halves)"
pub fn way_number(way: Way) -> u32 {
    match way {
        Way::Classic => 0,
        Way::ReverseRun => 1,
        Way::Halves => 2,
    }
}

impl Jobs {
    pub fn of(rows: &[(u32, u32, u32)]) -> Jobs {
        Jobs {
            first: rows.iter().map(|row| row.0).collect(),
            second: rows.iter().map(|row| row.1).collect(),
            way: rows.iter().map(|row| row.2).collect(),
        }
    }

    /// The jobs with their ways, from the first on, where the columns are of one length; else 8.
    pub fn rows(&self) -> Result<Vec<(u32, u32, u32)>, u32> {
        let n = self.way.len();
        if self.first.len() != n || self.second.len() != n {
            return Err(8);
        }
        Ok((0..n).map(|i| (self.first[i], self.second[i], self.way[i])).collect())
    }
}

/// "then the first job at fault refuses the call": 8 for a strip number or a way, else 9 for a job settled before, or by a job
/// further up.
fn rows_refusal(rows: &[(u32, u32, u32)], strips: [u32; 2], settled: impl Fn(u32, u32) -> bool) -> Result<(), u32> {
    for (i, (s, t, way)) in rows.iter().enumerate() {
        if *s >= strips[0] || *t >= strips[1] || *way > 2 {
            return Err(8);
        }
        if settled(*s, *t) || rows[..i].iter().any(|row| (row.0, row.1) == (*s, *t)) {
            return Err(9);
        }
    }
    Ok(())
}

#[derive(Clone, Debug, PartialEq, Eq)]
pub struct JobsDone {
    pub grid: Grid,
    pub results: Results,
    pub skipped: u32,
    pub counters: Counters,
}

/// Several jobs in one call: "It ends .. as those jobs one after another would."
pub fn jobs(g: &Grid, customer: u32, a: &Columns, b: &Columns, r: &Results, l: &Jobs) -> Result<JobsDone, u32> {
    customer_refusal(customer)?;
    let (a, b) = lists(a, b)?;
    if g.fault(customer, &a, &b, r).is_some() {
        return Err(7);
    }
    let rows = l.rows()?;
    rows_refusal(&rows, [g.first_strips, g.second_strips], |s, t| g.settled(customer, s as usize, t as usize))?;
    let mut all = JobsDone { grid: g.clone(), results: r.clone(), skipped: 0, counters: Counters::default() };
    for (s, t, way) in rows {
        let way = WAYS.into_iter().find(|w| way_number(*w) == way).unwrap();
        let done = job_done(way, &all.grid, customer, &a, &b, &all.results, s as usize, t as usize);
        all.skipped += !done.swept as u32;
        all.counters = all.counters.plus(done.counters);
        (all.grid, all.results) = (done.grid, done.results);
    }
    Ok(all)
}

#[derive(Clone, Copy, Debug, PartialEq, Eq)]
pub struct Status {
    pub settled: u32,
    pub jobs: u32,
    pub entries: u32,
    pub k: u32,
}

pub fn status(g: &Grid, customer: u32, a: &Columns, b: &Columns, r: &Results) -> Result<Status, u32> {
    customer_refusal(customer)?;
    let (a, b) = lists(a, b)?;
    if g.fault(customer, &a, &b, r).is_some() {
        return Err(7);
    }
    let settled = g.marks.iter().filter(|m| owns(customer, **m)).count() as u32;
    let Share { k, entries } = *g.share(customer);
    Ok(Status { settled, jobs: g.first_strips * g.second_strips, entries, k })
}

/// A customer's book: kept from their calls alone.
pub struct Book {
    a: Vec<Site>,
    b: Vec<Site>,
    k: u32,
    first_ends: Vec<u32>,
    second_ends: Vec<u32>,
    settled: Vec<(u32, u32)>,
}

impl Book {
    /// After an accepted opening.
    pub fn opened(a: &Columns, b: &Columns, o: Opening) -> Book {
        Book {
            a: a.sites(a.x.len()),
            b: b.sites(b.x.len()),
            k: o.k,
            first_ends: o.first_ends.to_vec(),
            second_ends: o.second_ends.to_vec(),
            settled: Vec::new(),
        }
    }

    /// A job call of the customer with their lists and columns: 8, 9, or 0 and the job is settled.
    pub fn job(&mut self, s: u32, t: u32) -> u32 {
        if s as usize >= self.first_ends.len() || t as usize >= self.second_ends.len() {
            return 8;
        }
        if self.settled.contains(&(s, t)) {
            return 9;
        }
        self.settled.push((s, t));
        0
    }

    /// Several jobs in one call of the customer with their lists and columns: 8, 9, or 0 and all of them are settled.
    pub fn jobs(&mut self, l: &Jobs) -> u32 {
        let strips = [self.first_ends.len() as u32, self.second_ends.len() as u32];
        let told = l.rows().and_then(|rows| {
            rows_refusal(&rows, strips, |s, t| self.settled.contains(&(s, t)))?;
            Ok(rows)
        });
        match told {
            Ok(rows) => {
                self.settled.extend(rows.iter().map(|row| (row.0, row.1)));
                0
            }
            Err(refusal) => refusal,
        }
    }

    /// A lowering by the customer with their lists and columns: 4, or 0 and this K is in force.
    pub fn lower(&mut self, k: u32) -> u32 {
        if !(1..=self.k).contains(&k) {
            return 4;
        }
        self.k = k;
        0
    }

    pub fn entries(&self) -> Vec<Entry> {
        let mut all = Vec::new();
        for (s, t) in &self.settled {
            let (p, q) =
                (strip_range(&self.first_ends, *s as usize), strip_range(&self.second_ends, *t as usize));
            let p = Strip { sites: &self.a, from: p.0, to: p.1 };
            let q = Strip { sites: &self.b, from: q.0, to: q.1 };
            all.extend(pairs(p, q));
        }
        best(self.k, all)
    }

    pub fn status(&self) -> Status {
        Status {
            settled: self.settled.len() as u32,
            jobs: (self.first_ends.len() * self.second_ends.len()) as u32,
            entries: self.entries().len() as u32,
            k: self.k,
        }
    }

    pub fn no_open_job(&self) -> bool {
        self.settled.len() == self.first_ends.len() * self.second_ends.len()
    }
}

// Price bands.

pub const MOST_BANDS: usize = 64;
pub const MOST_PRICE: u32 = 1_000_000;
pub const LAST_TO: u32 = 2_828_427_125;

pub fn band(from: u32, to: u32, price: u32) -> Band {
    Band { from, to, price }
}

pub fn square(n: u32) -> u64 {
    n as u64 * n as u64
}

/// "A pair is in the band where from² is at most its squared distance and to² is greater."
fn in_band(b: &Band, distance: u64) -> bool {
    square(b.from) <= distance && square(b.to) > distance
}

/// "There are 1 to 64 bands, prices go up to 1,000,000, the first from is 0, each later from is the band before's to, and the
/// last to is 2,828,427,125"; and no band is empty.
pub fn lawful_table(bands: &[Band]) -> bool {
    let ends = |b: &[Band]| b.first().is_some_and(|b| b.from == 0) && b.last().is_some_and(|b| b.to == LAST_TO);
    bands.len() <= MOST_BANDS
        && ends(bands)
        && bands.windows(2).all(|w| w[1].from == w[0].to)
        && bands.iter().all(|b| b.from < b.to && b.price <= MOST_PRICE)
}

/// The faults of the band at a place, each with its number.
pub fn band_faults(bands: &[Band], place: usize) -> Vec<(u32, &'static str)> {
    let b = bands[place];
    let mut faults = Vec::new();
    if place == 0 {
        if b.from > 0 {
            faults.push((12, "a first from above 0"));
        }
    } else {
        let before = bands[place - 1].to;
        if b.from > before {
            faults.push((12, "a gap"));
        }
        if b.from < before {
            faults.push((13, "an overlap"));
        }
    }
    if place + 1 == bands.len() && b.to < LAST_TO {
        faults.push((12, "a last to that is too low"));
    }
    if b.to <= b.from {
        faults.push((13, "an empty band"));
    }
    if b.to > LAST_TO {
        faults.push((13, "past the end"));
    }
    faults
}

/// 14, then that of the first band with a fault: 13 where it has one of 13, else 12. 0 for none.
pub fn table_refusal(bands: &[Band]) -> u32 {
    let lawful_number = (1..=MOST_BANDS).contains(&bands.len());
    if !lawful_number || bands.iter().any(|b| b.price > MOST_PRICE) {
        return 14;
    }
    let faults = (0..bands.len()).map(|place| band_faults(bands, place)).find(|faults| !faults.is_empty());
    faults.map_or(0, |faults| faults.iter().map(|f| f.0).max().unwrap())
}

/// The place, and the table afterwards.
pub fn edit_band(bands: &[Band], place: u32, band: Band) -> Result<(u32, Vec<Band>), u32> {
    if place as u64 >= bands.len() as u64 {
        return Err(8);
    }
    let each = bands.iter().enumerate();
    Ok((place, each.map(|(i, b)| if i as u64 == place as u64 { band } else { *b }).collect()))
}

/// Each entry's price, and the total; the price column has `room` elements.
pub fn price(bands: &[Band], distance: &[u64], entries: u32, room: usize) -> Result<(Vec<u32>, u64), u32> {
    match table_refusal(bands) {
        0 => {}
        refusal => return Err(refusal),
    }
    let n = entries as usize;
    if room < n || distance.len() < n || entries > 4_096 {
        return Err(6);
    }
    if distance[..n].iter().any(|d| *d >= square(LAST_TO)) {
        return Err(7);
    }
    let price_of = |d: &u64| {
        let held: Vec<&Band> = bands.iter().filter(|b| in_band(b, *d)).collect();
        assert_eq!(held.len(), 1, "{d} is in {held:?}");
        held[0].price
    };
    let prices: Vec<u32> = distance[..n].iter().map(price_of).collect();
    let total = prices.iter().map(|p| *p as u64).sum();
    Ok((prices, total))
}
