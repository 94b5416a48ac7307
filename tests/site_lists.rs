//! Checking a list and adding a site, beside the brute force.

use crate::calls;
use crate::harness::{Harness, progress};
use crate::lists::{HIGHEST, KINDS, LOWEST, MAX, MIN, damaged, even, lawful};
use crate::model::{self, Columns, Site, site};
use crate::random::Random;

pub fn same_check(c: &Columns) -> Result<u32, u32> {
    let answer = calls::check(c);
    assert_eq!(answer, model::check(c), "{c:?}");
    answer
}

pub fn same_add(c: &Columns, in_use: u32, s: Site) -> Result<(u32, u32), u32> {
    let mut after = c.clone();
    let answer = calls::add(&mut after, in_use, s);
    match model::add(c, in_use, s) {
        Ok((place, count, columns)) => {
            assert_eq!(answer, Ok((place, count)), "{c:?} {in_use} {s:?}");
            assert!(after == columns, "{c:?} {in_use} {s:?} {after:?}");
        }
        Err(refusal) => {
            assert_eq!(answer, Err(refusal), "{c:?} {in_use} {s:?}");
            assert!(after == *c, "a refused call changed a column: {c:?} {in_use} {s:?}");
        }
    }
    answer
}

/// The limits, one beyond either, and the farthest numbers: each with the refusal that it gets.
const COORDINATES: [(i32, u32); 7] =
    [(MAX, 0), (MIN, 0), (MAX + 1, 2), (MIN - 1, 2), (i32::MAX, 2), (i32::MIN, 2), (0, 0)];

fn limits_of_a_list() {
    for (c, number) in COORDINATES {
        for s in [site(c, 0, 1), site(0, c, 1), site(c, c, u32::MAX)] {
            assert_eq!(same_check(&Columns::of(&[s])).err().unwrap_or(0), number);
        }
    }
}

fn limits_of_a_new_site() {
    let room = Columns::of(&[site(7, 7, 7); 2]);
    for (c, number) in COORDINATES {
        for s in [site(c, 0, 1), site(0, c, 1), site(c, c, u32::MAX)] {
            assert_eq!(same_add(&room, 0, s).err().unwrap_or(0), number);
            assert_eq!(same_add(&room, 1, s).err().unwrap_or(0), number);
        }
    }
}

fn sizes(r: &mut Random) {
    let mut sites = even(r, 65_536);
    let mut c = Columns::of(&sites);
    assert_eq!(same_check(&c), Err(1));
    sites.pop();
    c = Columns::of(&sites);
    assert_eq!(same_check(&c), Ok(65_535));
    for column in 0..4 {
        let mut short = c.clone();
        match column {
            0 => drop(short.x.pop()),
            1 => drop(short.y.pop()),
            2 => drop(short.number.pop()),
            _ => drop(short.height.pop()),
        }
        assert_eq!(same_check(&short), Err(1));
    }
    // the very last site decides
    *c.y.last_mut().unwrap() = MAX + 1;
    assert_eq!(same_check(&c), Err(2));
    c = Columns::of(&sites);
    *c.height.last_mut().unwrap() = HIGHEST + 1;
    assert_eq!(same_check(&c), Err(2));
    c = Columns::of(&sites);
    c.x[65_534] = c.x[65_533];
    c.y[65_534] = c.y[65_533];
    c.number[65_534] = c.number[65_533];
    assert_eq!(same_check(&c), Err(3));
    assert_eq!(same_check(&Columns::default()), Ok(0));
}

fn adding_at_the_bounds(r: &mut Random) {
    let sites = even(r, 65_600);
    let c = Columns::of(&sites);
    let s = sites[300];
    // columns longer than a list may be, with few in use
    assert_eq!(same_add(&c, 300, s), Ok((300, 301)));
    assert_eq!(same_add(&c, 301, s), Err(11));
    assert_eq!(same_add(&c, 65_534, sites[65_590]), Ok((65_534, 65_535)));
    assert_eq!(same_add(&c, 65_534, site(MIN, MIN, 0)), Ok((0, 65_535)));
    assert_eq!(same_add(&c, 65_535, sites[65_590]), Err(6));
    assert_eq!(same_add(&c, 65_535, s), Err(6));
    for in_use in [65_536, 65_600, 65_601, u32::MAX] {
        assert_eq!(same_add(&c, in_use, s), Err(1));
    }
    // columns unequal past the count in use
    let mut c = Columns::of(&sites[..40]);
    c.number.pop();
    assert_eq!(same_add(&c, 3, sites[50]), Err(1));
    let mut c = Columns::of(&sites[..40]);
    c.height.pop();
    assert_eq!(same_add(&c, 3, sites[50]), Err(1));
    // columns that are full
    let c = Columns::of(&sites[..40]);
    assert_eq!(same_add(&c, 40, sites[50]), Err(6));
    assert_eq!(same_add(&c, 40, sites[20]), Err(6));
    assert_eq!(same_add(&c, 40, site(0, MAX + 1, 0)), Err(2));
    assert_eq!(same_add(&c, 41, sites[50]), Err(1));
    assert_eq!(same_add(&Columns::default(), 0, s), Err(6));
    assert_eq!(same_add(&Columns::default(), 1, s), Err(1));
    // faults past the count in use are not tested
    let mut c = Columns::of(&sites[..40]);
    c.x[30] = i32::MAX;
    assert_eq!(same_add(&c, 30, sites[33]), Ok((30, 31)));
    assert_eq!(same_add(&c, 31, sites[33]), Err(2));
    let mut c = Columns::of(&sites[..40]);
    c.height[30] = i32::MAX;
    assert_eq!(same_add(&c, 30, sites[33]), Ok((30, 31)));
    assert_eq!(same_add(&c, 31, sites[33]), Err(2));
}

fn random_lists(r: &mut Random) {
    let mut seen = [0u32; 12];
    let rounds = 40_000;
    for round in 0..rounds {
        progress(round, rounds);
        let most = [0, 1, 2, 3, 8, 40][r.below(6)];
        let mut c = Columns::of(&lawful(r, round, most));
        if r.once_in(2) {
            c = damaged(r, &c);
        }
        seen[same_check(&c).err().unwrap_or(0) as usize] += 1;
    }
    assert!(seen[..4].iter().all(|n| *n > 100), "{seen:?}");
}

fn random_additions(r: &mut Random) {
    let mut seen = [0u32; 12];
    let rounds = 60_000;
    for round in 0..rounds {
        progress(round, rounds);
        let most = [0, 1, 2, 3, 8, 30][r.below(6)];
        let sites = lawful(r, round, most);
        let mut in_use = sites.len() as u32;
        let mut s = lawful(r, round, 1)[0];
        if r.once_in(4) && !sites.is_empty() {
            s = sites[r.below(sites.len())];
            // the same x, y and number, now and then at another height
            if r.once_in(2) {
                s.height = r.from_to(LOWEST as i64, HIGHEST as i64) as i32;
            }
        }
        let mut c = Columns::of(&sites);
        // room past the sites in use, holding anything
        for _ in 0..r.below(4) {
            c.x.push(r.next() as i32);
            c.y.push(r.next() as i32);
            c.number.push(r.next() as u32);
            c.height.push(r.next() as i32);
        }
        match r.below(9) {
            0 => c = damaged(r, &c),
            1 => in_use = [in_use + 1, in_use.saturating_sub(1), c.x.len() as u32, r.next() as u32][r.below(4)],
            2 => s.x = [MIN - 1, MAX + 1][r.below(2)],
            3 => s.y = [i32::MIN, i32::MAX][r.below(2)],
            4 => s.height = [LOWEST - 1, HIGHEST + 1, i32::MIN, i32::MAX][r.below(4)],
            _ => {}
        }
        seen[same_add(&c, in_use, s).err().unwrap_or(0) as usize] += 1;
    }
    for number in [0, 1, 2, 3, 6, 11] {
        assert!(seen[number] > 100, "{seen:?}");
    }
}

/// A list made by adding alone stays lawful and holds every site.
fn growing(r: &mut Random) {
    for kind in 0..KINDS {
        let mut sites = lawful(r, kind, 200);
        let n = sites.len();
        let mut c = Columns { x: vec![9; n], y: vec![9; n], number: vec![9; n], height: vec![9; n] };
        for i in (1..n).rev() {
            sites.swap(i, r.below(i + 1));
        }
        for (i, s) in sites.iter().enumerate() {
            let (place, count, columns) = model::add(&c, i as u32, *s).unwrap();
            assert_eq!(calls::add(&mut c, i as u32, *s), Ok((place, count)));
            assert_eq!(c, columns);
        }
        assert_eq!(calls::check(&c), Ok(n as u32));
        sites.sort_by_key(Site::key);
        assert_eq!(c, Columns::of(&sites));
    }
}

pub fn run_check(h: &mut Harness) {
    h.test("check: limits of a coordinate", limits_of_a_list);
    h.test("check: 65,535 and 65,536 sites, columns one short", || sizes(&mut Random::new(31)));
    h.test("check: random lists, lawful and damaged", || random_lists(&mut Random::new(33)));
}

pub fn run_add(h: &mut Harness) {
    h.test("add: limits of a coordinate", limits_of_a_new_site);
    h.test("add: the bounds of the count in use", || adding_at_the_bounds(&mut Random::new(32)));
    h.test("add: random lists, lawful and damaged", || random_additions(&mut Random::new(34)));
    h.test("add: lists grown from nothing", || growing(&mut Random::new(35)));
}
