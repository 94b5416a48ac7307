//! Site lists to test with: lawful ones of many kinds, and damaged ones.

use crate::model::{Columns, Site, site};
use crate::random::Random;

pub const MIN: i32 = -1_000_000_000;
pub const MAX: i32 = 1_000_000_000;
pub const LOWEST: i32 = -10_000;
pub const HIGHEST: i32 = 10_000;

/// A coordinate: the kinds give many ties, few ties, the corners, a few columns far apart, or four positions in all.
fn coordinate(r: &mut Random, kind: usize) -> i32 {
    match kind {
        0 => r.from_to(-3, 3) as i32,
        1 => r.from_to(0, 30) as i32,
        2 => r.from_to(MIN as i64, MAX as i64) as i32,
        3 => [MIN, MIN + 1, -1, 0, 1, MAX - 1, MAX][r.below(7)],
        4 => [-7, 5][r.below(2)],
        _ => (r.from_to(-4, 4) * 200_000_000 + r.from_to(-2, 2)).clamp(MIN as i64, MAX as i64) as i32,
    }
}

/// A height: the kinds give as many ties as their coordinates do, any height, the limits, or a few floors.
fn height(r: &mut Random, kind: usize) -> i32 {
    match kind {
        0 => r.from_to(-3, 3) as i32,
        1 => r.from_to(0, 30) as i32,
        2 | 6 => r.from_to(LOWEST as i64, HIGHEST as i64) as i32,
        3 => [LOWEST, LOWEST + 1, -1, 0, 1, HIGHEST - 1, HIGHEST][r.below(7)],
        4 => [0, 0, 3][r.below(3)],
        _ => r.from_to(-2, 2) as i32,
    }
}

/// A position along a road that is long in y: y follows x, a thousand times as far.
fn along_road(r: &mut Random) -> (i32, i32) {
    let x = r.from_to(-1_000_000, 1_000_000);
    let y = 1_000 * x + r.from_to(-20_000_000, 20_000_000);
    (x as i32, y.clamp(MIN as i64, MAX as i64) as i32)
}

/// A site up a hill: its height follows x, hundreds of times as far.
fn up_hill(r: &mut Random, number: u32) -> Site {
    let x = r.from_to(-25, 25);
    let height = 400 * x + r.from_to(-600, 600);
    site(x as i32, r.from_to(-25, 25) as i32, number).up(height.clamp(LOWEST as i64, HIGHEST as i64) as i32)
}

pub const KINDS: usize = 9;

/// A site of a kind: one of the kinds of coordinates and heights, along a road, up a hill, or among few positions at height 0.
fn site_of(r: &mut Random, kind: usize, number: u32) -> Site {
    match kind {
        6 => {
            let (x, y) = along_road(r);
            site(x, y, number).up(height(r, kind))
        }
        7 => up_hill(r, number),
        8 => site(coordinate(r, 0), coordinate(r, 0), number),
        _ => site(coordinate(r, kind), coordinate(r, kind), number).up(height(r, kind)),
    }
}

/// Puts sites in the order of a list, each x, y and number once.
fn in_order(mut sites: Vec<Site>) -> Vec<Site> {
    sites.sort_by_key(Site::key);
    sites.dedup_by_key(|s| s.key());
    sites
}

/// A lawful list of at most `most` sites of a kind.
pub fn lawful(r: &mut Random, kind: usize, most: usize) -> Vec<Site> {
    let sites = (0..most).map(|_| {
        let number = if r.once_in(2) { r.below(4) as u32 } else { r.next() as u32 };
        site_of(r, kind % KINDS, number)
    });
    in_order(sites.collect())
}

/// A lawful list of exactly `n` sites, spread over the whole range.
pub fn even(r: &mut Random, n: usize) -> Vec<Site> {
    loop {
        let sites = in_order((0..n).map(|i| site_of(r, 2, i as u32)).collect());
        if sites.len() == n {
            return sites;
        }
    }
}

/// `n` sites at one position and height 0.
pub fn stacked(x: i32, y: i32, n: u32) -> Vec<Site> {
    (0..n).map(|number| site(x, y, number)).collect()
}

/// `n` sites at one x and y, each at one of these heights.
pub fn tower(r: &mut Random, x: i32, y: i32, n: u32, heights: &[i32]) -> Vec<Site> {
    stacked(x, y, n).into_iter().map(|s| s.up(heights[r.below(heights.len())])).collect()
}

/// Damages one thing of columns that have `n` sites, or nothing.
fn damage(r: &mut Random, c: &mut Columns, n: usize) {
    match r.below(12) {
        0 => drop(c.x.pop()),
        1 => drop(c.y.pop()),
        2 => drop(c.number.pop()),
        3 => drop(c.height.pop()),
        4 => c.number.push(7),
        5 => c.height.push(7),
        _ if n == 0 => {}
        6 => c.x[r.below(n)] = [MIN - 1, MAX + 1, i32::MIN, i32::MAX][r.below(4)],
        7 => c.y[r.below(n)] = [MIN - 1, MAX + 1, i32::MIN, i32::MAX][r.below(4)],
        8 => c.height[r.below(n)] = [LOWEST - 1, HIGHEST + 1, i32::MIN, i32::MAX][r.below(4)],
        9 => {
            let (i, j) = (r.below(n), r.below(n));
            c.x.swap(i, j);
            c.y.swap(i, j);
            c.number.swap(i, j);
        }
        10 => {
            // lawful as before
            let (i, j) = (r.below(n), r.below(n));
            c.height.swap(i, j);
        }
        _ => {
            // a site that stands twice, now and then at another height
            let at = r.below(n);
            c.x.insert(at, c.x[at]);
            c.y.insert(at, c.y[at]);
            c.number.insert(at, c.number[at]);
            let height = if r.once_in(2) { c.height[at] } else { [LOWEST, HIGHEST][r.below(2)] };
            c.height.insert(at, height);
        }
    }
}

/// Columns with one fault, or with several, or with none.
pub fn damaged(r: &mut Random, c: &Columns) -> Columns {
    let mut c = c.clone();
    for _ in 0..1 + r.below(2) {
        let n = c.shortest();
        damage(r, &mut c, n);
    }
    c
}

/// Two lists of a kind, each of 0 to 40 sites, and each damaged now and then.
pub fn two_lists(r: &mut Random, kind: usize) -> (Columns, Columns) {
    let mut list = || {
        let sites = [0, 1, 2, 5, 12, 40][r.below(6)];
        let c = Columns::of(&lawful(r, kind, sites));
        if r.once_in(8) { damaged(r, &c) } else { c }
    };
    (list(), list())
}

/// The lists F of document 01, at height 0.
pub fn f() -> (Vec<Site>, Vec<Site>) {
    (
        vec![site(0, 0, 11), site(4, 3, 12), site(10, 0, 13)],
        vec![site(0, 5, 21), site(4, 0, 22), site(9, 2, 23)],
    )
}
