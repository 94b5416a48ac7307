//! The program `caselist`, run as a process, beside the brute force.

use crate::harness::{Harness, progress};
use crate::lists;
use crate::plane::{self, Site, flat, site};
use crate::random::Random;
use std::io::Write;
use std::process::{Command, Stdio};
use std::time::Duration;

/// The lists F.
fn f() -> (Vec<Site>, Vec<Site>) {
    let (a, b) = lists::f();
    (flat(&a), flat(&b))
}

fn lawful(r: &mut Random, kind: usize, most: usize) -> Vec<Site> {
    flat(&lists::lawful(r, kind, most))
}

fn stacked(x: i32, y: i32, n: u32) -> Vec<Site> {
    flat(&lists::stacked(x, y, n))
}

/// The program's path.
fn program() -> String {
    std::env::var("CASELIST").unwrap_or_else(|_| "crates/caselist/out/caselist".to_string())
}

/// What it prints for an input that arrives in pieces.
fn printed(pieces: &[&[u8]], wait: Duration) -> String {
    let mut child = Command::new(program())
        .stdin(Stdio::piped())
        .stdout(Stdio::piped())
        .spawn()
        .expect("caselist starts");
    let mut stdin = child.stdin.take().unwrap();
    for (i, piece) in pieces.iter().enumerate() {
        if i > 0 {
            std::thread::sleep(wait);
        }
        // it may stop reading once the input is too long
        if stdin.write_all(piece).is_err() {
            break;
        }
    }
    drop(stdin);
    let output = child.wait_with_output().unwrap();
    assert!(output.status.success(), "{:?}", output.status);
    String::from_utf8(output.stdout).unwrap()
}

fn same(input: &[u8]) -> String {
    let text = printed(&[input], Duration::ZERO);
    assert!(text == plane::listing(input), "{} bytes: {text}", input.len());
    text
}

fn input(k: u32, a: &[Site], b: &[Site]) -> Vec<u8> {
    let mut bytes = k.to_le_bytes().to_vec();
    bytes.extend(plane::encode(a, b));
    bytes
}

fn sample() {
    let (a, b) = f();
    assert_eq!(same(&input(3, &a, &b)), "pairs 3 of 9\n1 5 13 23\n2 9 12 22\n3 16 11 22\n");
    for k in [1, 9, 10, 4_096] {
        assert!(same(&input(k, &a, &b)).starts_with("pairs "));
    }
    for k in [0, 4_097, u32::MAX] {
        assert_eq!(same(&input(k, &a, &b)), "refused 4\n");
    }
    // the file before K
    assert_eq!(same(&input(0, &b[1..], &[a[1], a[0]])), "refused 3\n");
    assert_eq!(same(&input(5, &[], &b)), "pairs 0 of 0\n");
    assert_eq!(same(&input(5, &a, &[])), "pairs 0 of 0\n");
}

/// Files of 2,000 and 2,000 sites with one position, with two, and with many: the second figure counts no co-sited cells.
fn co_sited_inputs(r: &mut Random) {
    assert_eq!(same(&input(1, &[site(0, 0, 5)], &[site(0, 0, 6), site(3, 4, 7)])), "pairs 1 of 1\n1 25 5 7\n");
    let one = stacked(4, 4, 2_000);
    assert_eq!(same(&input(4_096, &one, &one)), "pairs 0 of 0\n");
    let mut two = stacked(4, 4, 1_990);
    two.extend(stacked(4, 5, 10));
    assert!(same(&input(4_096, &one, &two)).starts_with("pairs 4096 of 20000\n"));
    assert!(same(&input(4_096, &two, &two)).starts_with("pairs 4096 of 39800\n"));
    let mut many: Vec<Site> = (0..2_000).map(|n| site(r.below(6) as i32, r.below(6) as i32, n)).collect();
    many.sort();
    same(&input(100, &many, &two));
    same(&input(100, &one, &many));
    same(&input(100, &many, &many));
}

fn short_inputs() {
    let (a, b) = f();
    let whole = input(3, &a, &b);
    for n in 0..whole.len() {
        assert_eq!(same(&whole[..n]), "refused 10\n");
    }
}

fn damaged_inputs(r: &mut Random) {
    let (a, b) = f();
    let whole = input(3, &a, &b);
    for at in 0..whole.len() {
        for _ in 0..4 {
            let mut changed = whole.clone();
            changed[at] = r.next() as u8;
            same(&changed);
        }
    }
}

/// The largest input is 48,020 bytes: K, the contents, and 4,000 sites.
fn longest_input(r: &mut Random) {
    let sites: Vec<Site> = (0..4_001).map(|x| site(x * 200_000, r.below(2_000_000) as i32, r.next() as u32)).collect();
    let longest = input(4_096, &sites[..2_000], &sites[2_000..4_000]);
    assert_eq!(longest.len(), 48_020);
    assert!(same(&longest).starts_with("pairs 4096 of 4000000\n"));
    let one_list = input(4_096, &sites[..4_000], &[]);
    assert_eq!(same(&one_list), "pairs 0 of 0\n");
    let mut long = longest.clone();
    long.push(0);
    assert_eq!(same(&long), "refused 6\n");
    let long = input(4_096, &sites[..2_000], &sites[2_000..]);
    assert_eq!(same(&long), "refused 6\n");
    assert_eq!(same(&vec![0; 48_020]), "refused 10\n");
    assert_eq!(same(&vec![0; 48_021]), "refused 6\n");
    assert_eq!(same(&vec![0xff; 1_000_000]), "refused 6\n");
}

fn random_inputs(r: &mut Random) {
    let rounds = 300;
    for round in 0..rounds {
        progress(round, rounds);
        let (n, m) = (r.below(60), r.below(60));
        let (a, b) = (lawful(r, round, n), lawful(r, round, m));
        let k = [1, 2, 1 + r.below(100) as u32, 4_096][r.below(4)];
        same(&input(k, &a, &b));
    }
}

/// Pieces that arrive one after another count as one input.
fn slow_pipes(r: &mut Random) {
    let (a, b) = (lawful(r, 2, 40), lawful(r, 2, 40));
    let whole = input(20, &a, &b);
    let wait = Duration::from_millis(15);
    for size in [1, 3, 7, 64, 500] {
        let pieces: Vec<&[u8]> = whole[..].chunks(size).collect();
        // single bytes for the start, the rest at once
        let mut few: Vec<&[u8]> = pieces.iter().take(40).copied().collect();
        let sent: usize = few.iter().map(|p| p.len()).sum();
        few.push(&whole[sent..]);
        assert_eq!(printed(&few, wait), plane::listing(&whole));
    }
    let long = vec![0; 48_021];
    assert_eq!(printed(&[&long[..48_020], &long[48_020..]], wait), "refused 6\n");
    assert_eq!(printed(&[&long[..20], &long[20..48_020]], wait), "refused 10\n");
}

pub fn run(h: &mut Harness) {
    h.test("caselist: document 01's sample, K and empty lists", sample);
    h.test("caselist: co-sited cells", || co_sited_inputs(&mut Random::new(75)));
    h.test("caselist: every prefix", short_inputs);
    h.test("caselist: damaged inputs", || damaged_inputs(&mut Random::new(71)));
    h.test("caselist: at and above 48,020 bytes", || longest_input(&mut Random::new(72)));
    h.test("caselist: random lists", || random_inputs(&mut Random::new(73)));
    h.test("caselist: slow pipes", || slow_pipes(&mut Random::new(74)));
}
