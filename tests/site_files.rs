//! Site files beside an independent encoder and decoder.

use crate::calls;
use crate::harness::{Harness, progress};
use crate::lists::{KINDS, MAX, damaged, even, f, lawful};
use crate::model;
use crate::plane::{self, Columns, Site, flat, site};
use crate::random::Random;

/// The lists F.
fn plane_f() -> (Vec<Site>, Vec<Site>) {
    let (a, b) = f();
    (flat(&a), flat(&b))
}

fn same_write(r: &mut Random, a: &Columns, b: &Columns, room: usize) -> Result<u32, u32> {
    let before: Vec<u8> = (0..room).map(|_| r.next() as u8).collect();
    let mut buffer = before.clone();
    let answer = calls::write_file(a, b, &mut buffer);
    match plane::write_file(a, b, room) {
        Ok(file) => {
            assert_eq!(answer, Ok(file.len() as u32));
            assert!(buffer[..file.len()] == file[..], "the file differs");
            assert!(buffer[file.len()..] == before[file.len()..], "the buffer past the file was written");
        }
        Err(refusal) => {
            assert_eq!(answer, Err(refusal));
            assert!(buffer == before, "a refused call wrote the buffer");
        }
    }
    answer
}

/// The reader, and a site of either list at some places.
fn same_read(file: &[u8]) -> Result<(u32, u32), u32> {
    let answer = calls::read_file(file);
    let expected = plane::read_file(file);
    assert_eq!(answer, expected.as_ref().map(|l| (l[0].len() as u32, l[1].len() as u32)).map_err(|e| *e));
    for list in 0..2 {
        let n = expected.as_ref().map_or(3, |l| l[list].len() as u32);
        for place in [0, 1, n.saturating_sub(1), n, n + 1, 65_535, 65_536, u32::MAX] {
            assert_eq!(calls::file_site(file, list, place), plane::file_site(file, list, place), "place {place}");
        }
    }
    answer
}

/// A file gives back the very lists that were written.
fn consulted(file: &[u8], lists: [&[Site]; 2]) {
    for (list, sites) in lists.into_iter().enumerate() {
        for (place, s) in sites.iter().enumerate() {
            assert_eq!(calls::file_site(file, list, place as u32), Ok(*s));
        }
        assert_eq!(calls::file_site(file, list, sites.len() as u32), Err(8));
    }
}

fn written(a: &[Site], b: &[Site]) -> Vec<u8> {
    let mut file = vec![0; 16 + 12 * (a.len() + b.len())];
    let length = calls::write_file(&Columns::of(a), &Columns::of(b), &mut file).unwrap();
    assert_eq!(length as usize, file.len());
    file
}

fn every_prefix_and_byte() {
    let (a, b) = plane_f();
    let file = written(&a, &b);
    assert_eq!(file, plane::encode(&a, &b));
    assert_eq!(same_read(&file), Ok((3, 3)));
    consulted(&file, [&a, &b]);
    for n in 0..file.len() {
        assert_eq!(same_read(&file[..n]), Err(10), "a prefix of {n} bytes");
    }
    let mut longer = file.clone();
    longer.push(0);
    assert_eq!(same_read(&longer), Err(10));
    for at in 0..file.len() {
        for value in 0..=255 {
            let mut changed = file.clone();
            changed[at] = value;
            let answer = same_read(&changed);
            assert!(at >= 16 || value == file[at] || answer.is_err());
        }
    }
}

fn starts_and_counts() {
    let (a, b) = plane_f();
    let file = written(&a, &b);
    let with = |at: usize, number: u32| {
        let mut changed = file.clone();
        changed[at..at + 4].copy_from_slice(&number.to_le_bytes());
        same_read(&changed)
    };
    for start in [15, 17, 0, u32::MAX] {
        assert_eq!(with(0, start), Err(10));
        assert_eq!(with(8, start), Err(10));
    }
    for start in [51, 53] {
        assert_eq!(with(8, start), Err(10));
    }
    for (count, number) in [(2, 10), (4, 10), (65_535, 10), (65_536, 1), (u32::MAX, 1), (0, 10)] {
        assert_eq!(with(4, count), Err(number));
        assert_eq!(with(12, count), Err(number));
    }
    // the counts before the starts and the length
    let mut changed = file.clone();
    changed[0] = 0;
    changed[14] = 1;
    assert_eq!(same_read(&changed), Err(1));
    assert_eq!(same_read(&changed[..15]), Err(10));
}

/// 2 before 3 in a list, the first list before the second, and no such test for a site.
fn faults_inside() {
    let good = [site(0, 0, 0), site(1, 1, 1)];
    let high = [site(5, MAX + 1, 0), site(0, 0, 0)];
    let falling = [site(5, 0, 0), site(0, 0, 0)];
    let twice = [site(5, 0, 7), site(5, 0, 7)];
    for (a, b, number) in [
        (high, good, 2),
        (falling, good, 3),
        (twice, good, 3),
        (good, high, 2),
        (good, falling, 3),
        (falling, high, 3),
        (high, falling, 2),
    ] {
        let file = plane::encode(&a, &b);
        assert_eq!(same_read(&file), Err(number));
        consulted(&file, [&a, &b]);
        let (a, b) = (Columns::of(&a), Columns::of(&b));
        assert_eq!(same_write(&mut Random::new(60), &a, &b, 100), Err(number));
    }
}

fn writer(r: &mut Random) {
    let (a, b) = plane_f();
    let (a, b) = (Columns::of(&a), Columns::of(&b));
    assert_eq!(same_write(r, &a, &b, 88), Ok(88));
    assert_eq!(same_write(r, &a, &b, 89), Ok(88));
    assert_eq!(same_write(r, &a, &b, 87), Err(6));
    assert_eq!(same_write(r, &a, &b, 0), Err(6));
    let none = Columns::default();
    assert_eq!(same_write(r, &none, &none, 16), Ok(16));
    assert_eq!(same_write(r, &none, &none, 15), Err(6));
    let mut seen = [0u32; 12];
    let rounds = 8_000;
    for round in 0..rounds {
        progress(round, rounds);
        let (n, m) = ([0, 1, 3, 20][r.below(4)], [0, 1, 3, 20][r.below(4)]);
        let (p, q) = (lawful(r, round, n), lawful(r, round, m));
        let (mut a, mut b) = (model::Columns::of(&p), model::Columns::of(&q));
        if r.once_in(6) {
            a = damaged(r, &a);
        }
        if r.once_in(6) {
            b = damaged(r, &b);
        }
        let room = (16 + 12 * (p.len() + q.len()) + r.below(3)).saturating_sub(r.below(3));
        let (a, b) = (Columns::flat(&a), Columns::flat(&b));
        seen[same_write(r, &a, &b, room).err().unwrap_or(0) as usize] += 1;
    }
    for number in [0, 1, 2, 3, 6] {
        assert!(seen[number] > 50, "{seen:?}");
    }
}

fn there_and_back(r: &mut Random) {
    for round in 0..20 * KINDS {
        let (n, m) = (r.below(60), r.below(60));
        let (a, b) = (flat(&lawful(r, round, n)), flat(&lawful(r, round, m)));
        let file = written(&a, &b);
        assert_eq!(same_read(&file), Ok((a.len() as u32, b.len() as u32)));
        consulted(&file, [&a, &b]);
    }
}

fn long_lists(r: &mut Random) {
    let sites = flat(&even(r, 65_536));
    let (a, b) = (&sites[..65_535], flat(&lawful(r, 2, 30)));
    let file = written(a, &b);
    assert!(file == plane::encode(a, &b));
    assert_eq!(same_read(&file), Ok((65_535, b.len() as u32)));
    let file = written(&b, a);
    assert_eq!(same_read(&file), Ok((b.len() as u32, 65_535)));
    assert_eq!(same_read(&file[..file.len() - 1]), Err(10));
    let file = plane::encode(&sites, &b);
    assert_eq!(same_read(&file), Err(1));
    let file = plane::encode(&b, &sites);
    assert_eq!(same_read(&file), Err(1));
    let over = Columns::of(&sites);
    assert_eq!(same_write(r, &over, &Columns::of(&b), file.len()), Err(1));
}

fn noise(r: &mut Random) {
    for _ in 0..20_000 {
        let length = r.below(60);
        let mut file: Vec<u8> = (0..length).map(|_| r.next() as u8).collect();
        // now and then contents that are nearly right
        if length >= 16 && r.once_in(2) {
            let n = r.below(3);
            for (at, number) in [(0, 16), (4, n), (8, 16 + 12 * n), (12, r.below(3))] {
                file[at..at + 4].copy_from_slice(&(number as u32).to_le_bytes());
            }
        }
        let _ = same_read(&file);
    }
}

pub fn run(h: &mut Harness) {
    h.test("site file: every prefix, every byte changed", every_prefix_and_byte);
    h.test("site file: starts and counts", starts_and_counts);
    h.test("site file: faults inside the lists", faults_inside);
    h.test("site file: written there and read back", || there_and_back(&mut Random::new(61)));
    h.test("site file: writer, random lists and rooms", || writer(&mut Random::new(62)));
    h.test("site file: 65,535 and 65,536 sites", || long_lists(&mut Random::new(63)));
    h.test("site file: noise", || noise(&mut Random::new(64)));
}
