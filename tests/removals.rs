//! What document 02 f adds: removing a site, beside the brute force.

use crate::calls;
use crate::harness::{Harness, progress};
use crate::lists::{HIGHEST, KINDS, LOWEST, MAX, MIN, damaged, even, lawful};
use crate::model::{self, Columns, Site, site};
use crate::random::Random;

fn same_remove(c: &Columns, in_use: u32, s: Site) -> Result<(u32, u32), u32> {
    let mut after = c.clone();
    let answer = calls::remove(&mut after, in_use, s);
    match model::remove(c, in_use, s) {
        Ok((place, count, columns)) => {
            assert_eq!(answer, Ok((place, count)), "{c:?} {in_use} {s:?}");
            assert!(after == columns, "{c:?} {in_use} {s:?} {after:?}");
        }
        Err(refusal) => {
            assert_eq!(answer, Err(refusal), "{c:?} {in_use} {s:?}");
            assert!(after == *c, "a refused call changed a column: {c:?} {in_use} {s:?}");
        }
    }
    answer
}

/// Columns with some room past the sites, holding anything.
fn with_room(r: &mut Random, sites: &[Site], room: usize) -> Columns {
    let mut c = Columns::of(sites);
    for _ in 0..room {
        c.x.push(r.next() as i32);
        c.y.push(r.next() as i32);
        c.number.push(r.next() as u32);
        c.height.push(r.next() as i32);
    }
    c
}

/// The site with one of x, y and number changed by one, either way.
fn neighbours(s: Site) -> [Site; 6] {
    [
        Site { x: s.x - 1, ..s },
        Site { x: s.x + 1, ..s },
        Site { y: s.y - 1, ..s },
        Site { y: s.y + 1, ..s },
        Site { number: s.number.wrapping_sub(1), ..s },
        Site { number: s.number.wrapping_add(1), ..s },
    ]
}

/// Each site of short lists, at each length of the columns past it, and what stands beside it.
fn every_place(r: &mut Random) {
    for round in 0..60 * KINDS {
        let most = 1 + r.below(7);
        let sites = lawful(r, round, most);
        let n = sites.len() as u32;
        for room in 0..3 {
            let c = with_room(r, &sites, room);
            for (place, s) in sites.iter().enumerate() {
                assert_eq!(same_remove(&c, n, *s), Ok((place as u32, n - 1)));
                // fewer in use: it is there where its place is below the count
                for in_use in 0..n {
                    let found = if (place as u32) < in_use { Ok((place as u32, in_use - 1)) } else { Err(16) };
                    assert_eq!(same_remove(&c, in_use, *s), found);
                }
                for t in neighbours(*s) {
                    let there = sites.iter().any(|u| u.key() == t.key());
                    assert_eq!(same_remove(&c, n, t).is_ok(), there);
                }
            }
        }
    }
}

/// One site, and none.
fn shortest() {
    for room in 0..3 {
        let c = Columns::of(&[site(1, 2, 3).up(4); 3][..1 + room]);
        assert_eq!(same_remove(&c, 1, site(1, 2, 3)), Ok((0, 0)));
        assert_eq!(same_remove(&c, 0, site(1, 2, 3)), Err(16));
    }
    assert_eq!(same_remove(&Columns::default(), 0, site(0, 0, 0)), Err(16));
    assert_eq!(same_remove(&Columns::default(), 1, site(0, 0, 0)), Err(1));
}

fn most_in_use(r: &mut Random) {
    let sites = even(r, 65_600);
    let c = Columns::of(&sites);
    for place in [0, 1, 300, 65_533, 65_534] {
        assert_eq!(same_remove(&c, 65_535, sites[place]), Ok((place as u32, 65_534)));
    }
    assert_eq!(same_remove(&c, 65_535, sites[65_535]), Err(16));
    assert_eq!(same_remove(&c, 65_534, sites[65_534]), Err(16));
    assert_eq!(same_remove(&c, 301, sites[300]), Ok((300, 300)));
    for in_use in [65_536, 65_600, 65_601, u32::MAX] {
        assert_eq!(same_remove(&c, in_use, sites[300]), Err(1));
    }
    // columns that are full
    let full = Columns::of(&sites[..65_535]);
    for place in [0, 40_000, 65_534] {
        assert_eq!(same_remove(&full, 65_535, sites[place]), Ok((place as u32, 65_534)));
    }
    assert_eq!(same_remove(&full, 65_536, sites[0]), Err(1));
}

/// Each fault of the list, with the site in it, absent, and outside the limits: the fault's number, else 16.
fn faults_come_first(r: &mut Random) {
    let sites = even(r, 40);
    let good = Columns::of(&sites);
    let asked = [sites[7], site(1, 1, 1), site(MAX + 1, 0, 0), site(0, MIN - 1, 0), site(i32::MIN, i32::MAX, 0)];
    for s in asked {
        for column in 0..4 {
            let mut c = good.clone();
            match column {
                0 => drop(c.x.pop()),
                1 => drop(c.y.pop()),
                2 => drop(c.number.pop()),
                _ => drop(c.height.pop()),
            }
            assert_eq!(same_remove(&c, 20, s), Err(1));
        }
        assert_eq!(same_remove(&good, 41, s), Err(1));
        for damage in [
            |c: &mut Columns| c.x[30] = MAX + 1,
            |c: &mut Columns| c.y[30] = i32::MIN,
            |c: &mut Columns| c.height[30] = HIGHEST + 1,
            |c: &mut Columns| c.height[30] = LOWEST - 1,
        ] {
            let mut c = good.clone();
            damage(&mut c);
            assert_eq!(same_remove(&c, 31, s), Err(2));
            // what stands past the count in use is not tested
            assert_eq!(same_remove(&c, 30, s), if s == sites[7] { Ok((7, 29)) } else { Err(16) });
        }
        let mut c = good.clone();
        (c.x[30], c.y[30], c.number[30]) = (c.x[29], c.y[29], c.number[29]);
        assert_eq!(same_remove(&c, 31, s), Err(3));
        assert_eq!(same_remove(&c, 30, s), if s == sites[7] { Ok((7, 29)) } else { Err(16) });
        assert_eq!(same_remove(&good, 40, s), if s == sites[7] { Ok((7, 39)) } else { Err(16) });
    }
}

/// No height is asked for: it moves with its site, whatever stands there.
fn heights() {
    let sites = [site(0, 0, 1).up(10), site(0, 0, 2).up(-30), site(0, 1, 0).up(50), site(9, 9, 9).up(77)];
    for (s, place, after) in
        [(sites[0], 0, [-30, 50, 50, 77]), (sites[1], 1, [10, 50, 50, 77]), (sites[2], 2, [10, -30, 50, 77])]
    {
        for h in [0, LOWEST, HIGHEST + 1, i32::MIN] {
            let mut c = Columns::of(&sites);
            assert_eq!(calls::remove(&mut c, 3, s.up(h)), Ok((place, 2)));
            assert_eq!(c.height, after);
        }
    }
}

fn random_removals(r: &mut Random) {
    let mut seen = [0u32; 17];
    let rounds = 60_000;
    for round in 0..rounds {
        progress(round, rounds);
        let most = [0, 1, 2, 3, 8, 30][r.below(6)];
        let sites = lawful(r, round, most);
        let mut in_use = sites.len() as u32;
        let mut s = lawful(r, round, 1)[0];
        if !r.once_in(4) && !sites.is_empty() {
            s = sites[r.below(sites.len())];
        }
        let room = r.below(4);
        let mut c = with_room(r, &sites, room);
        match r.below(9) {
            0 | 1 => c = damaged(r, &c),
            2 => in_use = [in_use + 1, in_use.saturating_sub(1), c.x.len() as u32, r.next() as u32][r.below(4)],
            3 => s.x = [MIN - 1, MAX + 1][r.below(2)],
            4 => s.y = [i32::MIN, i32::MAX][r.below(2)],
            _ => {}
        }
        seen[same_remove(&c, in_use, s).err().unwrap_or(0) as usize] += 1;
    }
    for number in [0, 1, 2, 3, 16] {
        assert!(seen[number] > 100, "{seen:?}");
    }
}

/// Adding and at once removing one site, and the reverse: the same place, the old count and the used part.
fn undone(r: &mut Random) {
    let (mut added, mut removed) = (0, 0);
    for round in 0..4_000 {
        let most = [1, 2, 3, 8, 30][r.below(5)];
        let sites = lawful(r, round, most);
        let n = sites.len() as u32;
        let used = |c: &Columns| c.sites(n as usize);
        let s = lawful(r, round, 1)[0];
        let mut c = with_room(r, &sites, 2);
        if let Ok((place, count)) = calls::add(&mut c, n, s) {
            let height = r.next() as i32;
            assert_eq!(calls::remove(&mut c, count, s.up(height)), Ok((place, n)));
            assert_eq!(used(&c), sites);
            added += 1;
        }
        let room = r.below(2);
        let mut c = with_room(r, &sites, room);
        let s = sites[r.below(sites.len())];
        let (place, count) = calls::remove(&mut c, n, s).unwrap();
        assert_eq!(calls::add(&mut c, count, s), Ok((place, n)));
        assert_eq!(used(&c), sites);
        removed += 1;
    }
    assert!(added > 1_000 && removed > 1_000, "{added} {removed}");
}

/// Lists from which every site is removed, in any sequence, stay lawful all the way down.
fn shrinking(r: &mut Random) {
    for kind in 0..KINDS {
        let sites = lawful(r, kind, 200);
        let mut left = sites.clone();
        let mut c = with_room(r, &sites, kind % 3);
        while !left.is_empty() {
            let n = left.len() as u32;
            let s = left.remove(r.below(left.len()));
            let (place, count, columns) = model::remove(&c, n, s).unwrap();
            assert_eq!(calls::remove(&mut c, n, s), Ok((place, count)));
            assert_eq!(c, columns);
            assert_eq!(c.sites(count as usize), left);
            assert_eq!(calls::check(&Columns::of(&c.sites(count as usize))), Ok(count));
        }
        assert_eq!(same_remove(&c, 0, sites[0]), Err(16));
    }
}

pub fn run(h: &mut Harness) {
    h.test("remove: every place of short lists, and what stands beside it", || every_place(&mut Random::new(41)));
    h.test("remove: one site and none", shortest);
    h.test("remove: 65,535 sites in use", || most_in_use(&mut Random::new(42)));
    h.test("remove: the list's faults, then 16", || faults_come_first(&mut Random::new(43)));
    h.test("remove: the height moves and is not asked for", heights);
    h.test("remove: random lists, lawful and damaged", || random_removals(&mut Random::new(44)));
    h.test("remove: undoes adding, and is undone by it", || undone(&mut Random::new(45)));
    h.test("remove: lists shrunk to nothing", || shrinking(&mut Random::new(46)));
}
