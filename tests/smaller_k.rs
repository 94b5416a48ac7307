//! A smaller K in mid-campaign (document 02 j): each lowering beside the brute force and the book, and every call after it
//! beside another campaign, which was opened with the smaller K and settled the same jobs in another order and by other ways.

use crate::calls;
use crate::campaigns::{
    Bench, FAULTS, any_part, anything, cuts, either, lower_to, opened, other_customer, prepared, results, same_as_one_sweep,
    same_job, same_lower, same_open, same_status, some_jobs, strip_number, tamper,
};
use crate::customers::{
    Answer, Call, FIRST, NOBODY, SECOND, Table, ends_f, lists_f, on_f, opening, reading, refused_lists, same, told,
};
use crate::harness::{Harness, progress};
use crate::lists::{MAX, lawful};
use crate::model::{self, Book, CUSTOMERS, Columns, Grid, Results, Share, Status, WAYS, Way, site};
use crate::random::Random;
use std::collections::BTreeMap;

// Campaigns beside such as were opened with the smaller K.

/// A customer's campaign since their opening: the columns as they were then, the jobs settled since, the book, and, from the
/// first lowering on, the campaign that it is held beside.
struct Run {
    start: Results,
    settled: Vec<(Way, u32, u32)>,
    book: Book,
    beside: Option<Bench>,
}

/// Another way than this.
fn other_way(r: &mut Random, way: Way) -> Way {
    let others: Vec<Way> = WAYS.into_iter().filter(|w| *w != way).collect();
    others[r.below(others.len())]
}

/// A campaign on a grid of its own, with the same lists and cuts, opened with this K on columns as they were at the run's
/// opening; the same jobs are settled on it, each by another way, in another order.
fn opened_smaller(r: &mut Random, bench: &Bench, ends: &[Vec<u32>; 2], run: &Run, k: u32) -> Bench {
    let mut other = prepared(r, bench.customer, [&bench.a, &bench.b], [&ends[0], &ends[1]], [0; 3]);
    other.r = run.start.clone();
    assert_eq!(told(&Call::Open(k, ends.clone()), &mut other), Ok(Answer::Grid));
    let mut jobs = run.settled.clone();
    jobs.reverse();
    while !jobs.is_empty() {
        let (way, s, t) = jobs.swap_remove(r.below(jobs.len().min(5)));
        let job = Call::Job(other_way(r, way), s, t);
        assert!(told(&job, &mut other).is_ok(), "{job:?}");
    }
    other
}

/// A customer reads the same of both campaigns, and where they are sound both have the same entries.
fn alike(one: &Bench, two: &Bench, sound: bool) {
    assert_eq!(reading(&one.g, one.customer), reading(&two.g, two.customer), "customer {}", one.customer);
    if sound {
        let count = one.share().entries as usize;
        assert_eq!(one.r.entries(count), two.r.entries(count), "customer {}", one.customer);
    }
}

/// A call on a campaign, beside the brute force, and on the campaign beside it: the same answer, reading and entries.
fn both(call: &Call, bench: &mut Bench, beside: Option<&mut Bench>, seen: &mut Seen) -> Result<Answer, u32> {
    let mut checked = bench.clone();
    let number = same(call, &mut checked);
    let answer = told(call, bench);
    assert_eq!(answer.err().unwrap_or(0), number, "{call:?}");
    assert!(bench.g == checked.g && bench.r == checked.r, "{call:?} does otherwise once more");
    *seen.answers.entry((call.name(), beside.is_some(), number)).or_default() += 1;
    if let Some(other) = beside {
        assert_eq!(told(call, other), answer, "{call:?} as customer {}", bench.customer);
        if CUSTOMERS.contains(&bench.customer) {
            alike(bench, other, answer.is_ok());
        }
        if let (Call::Job(way, ..), Ok(Answer::Job(swept, _))) = (call, answer) {
            seen.jobs[WAYS.iter().position(|w| w == way).unwrap()][swept as usize] += 1;
        }
    }
    answer
}

/// The same with one thing changed: refused lists, a number that is nobody's, other columns, or one thing tampered with. The
/// same seed changes the same in two campaigns that are read alike.
fn astray(seed: u64, bench: &Bench) -> Bench {
    let r = &mut Random::new(seed);
    let mut lent = bench.clone();
    match r.below(6) {
        0 => refused_lists(r, &mut lent),
        1 => lent.customer = NOBODY[r.below(NOBODY.len())],
        2 => {
            refused_lists(r, &mut lent);
            lent.customer = NOBODY[r.below(NOBODY.len())];
        }
        3 => {
            let room = (lent.share().k as usize + r.below(3)).saturating_sub(1);
            lent.r = results(r, [room; 3]);
        }
        _ => tamper(r, &mut lent),
    }
    lent
}

/// What the histories showed: by call, whether it was held beside a campaign opened with the smaller K, and number the answers;
/// jobs held beside such a one, by way, skipped and swept; accepted lowerings with fewer entries than the new K, as many and
/// more; lowerings of a campaign whose K had been lowered; lowered campaigns that came to their end, by customer.
#[derive(Default)]
struct Seen {
    answers: BTreeMap<(&'static str, bool, u32), u32>,
    jobs: [[u32; 2]; 3],
    entries: [u32; 3],
    again: u32,
    complete: [u32; 2],
}

/// A customer's call. Before they have opened it is an opening now and then.
fn some_call(r: &mut Random, bench: &Bench, ends: &[Vec<u32>; 2], open: bool) -> Call {
    let room = bench.r.shortest();
    let lawful_k = 1 + r.below(room) as u32;
    let strips = ends.each_ref().map(Vec::len);
    match r.below(15) {
        _ if !open && r.once_in(2) => Call::Open(lawful_k, ends.clone()),
        0 if r.once_in(5) => Call::Open(lawful_k, ends.clone()),
        0 => Call::Open([0, 4_097, room as u32 + 1][r.below(3)], ends.clone()),
        1 => Call::Open(lawful_k, [vec![9, 8], ends[1].clone()]),
        2 | 3 => Call::Lower(lower_to(r, bench.share().k)),
        4 => Call::Status,
        5 => Call::Jobs(some_jobs(r, &bench.g, bench.customer, strips, 5)),
        _ => Call::Job(WAYS[r.below(3)], strip_number(r, strips[0]), strip_number(r, strips[1])),
    }
}

/// An accepted lowering: the campaign beside is now one that was opened with this K.
fn lowered(r: &mut Random, bench: &Bench, ends: &[Vec<u32>; 2], run: &mut Run, before: Share, seen: &mut Seen) {
    let k = bench.share().k;
    seen.entries[(before.entries.cmp(&k) as i8 + 1) as usize] += 1;
    seen.again += run.beside.is_some() as u32;
    let other = opened_smaller(r, bench, ends, run, k);
    alike(bench, &other, true);
    run.beside = Some(other);
}

/// A customer's call, with what is theirs or gone astray, held to the brute force, the book and the campaign beside.
fn step(r: &mut Random, bench: &mut Bench, ends: &[Vec<u32>; 2], run: &mut Option<Run>, call: &Call, seen: &mut Seen) {
    let beside = run.as_mut().and_then(|run| run.beside.as_mut());
    if r.once_in(5) {
        let seed = r.next();
        let mut other = beside.map(|other| astray(seed, other));
        let _ = both(call, &mut astray(seed, bench), other.as_mut(), seen);
        return;
    }
    let before = *bench.share();
    let answer = both(call, bench, beside, seen);
    let number = answer.err().unwrap_or(0);
    match (call, run.as_mut()) {
        (Call::Open(k, chosen), _) if number == 0 => {
            let book = Book::opened(&bench.a, &bench.b, opening(*k, chosen));
            *run = Some(Run { start: bench.r.clone(), settled: Vec::new(), book, beside: None });
        }
        (Call::Lower(k), Some(run)) => {
            assert_eq!(number, run.book.lower(*k), "the book answers otherwise: {call:?}");
            if number == 0 {
                lowered(r, bench, ends, run, before, seen);
            }
        }
        (Call::Job(way, s, t), Some(run)) => {
            assert_eq!(number, run.book.job(*s, *t), "the book answers otherwise: {call:?}");
            if number == 0 {
                run.settled.push((*way, *s, *t));
            }
        }
        (Call::Jobs(jobs), Some(run)) => {
            assert_eq!(number, run.book.jobs(jobs), "the book answers otherwise: {call:?}");
            if number == 0 {
                run.settled.extend(jobs.rows().unwrap().into_iter().map(|(s, t, way)| (WAYS[way as usize], s, t)));
            }
        }
        // before opening K is 0
        (Call::Lower(_), None) => assert_eq!(number, 4),
        (Call::Job(..) | Call::Jobs(_) | Call::Status, None) => assert_eq!(number, 7),
        _ => {}
    }
    if let Some(run) = run {
        as_in_book(bench, run);
    }
}

/// The status, the grid and the columns say what the book says, with the K in force.
fn as_in_book(bench: &Bench, run: &Run) {
    let status = run.book.status();
    assert_eq!(calls::status(&bench.g, bench.customer, &bench.a, &bench.b, &bench.r), Ok(status));
    assert_eq!(*bench.share(), Share { k: status.k, entries: status.entries });
    assert_eq!(bench.r.entries(status.entries as usize), run.book.entries(), "the book holds other entries");
}

/// The jobs left open, each on the campaign beside too: then the entries are those of one classic sweep, with the K in force.
fn finish(r: &mut Random, bench: &mut Bench, ends: &[Vec<u32>; 2], run: &mut Run, seen: &mut Seen) {
    for (s, t) in (0..ends[0].len()).flat_map(|s| (0..ends[1].len()).map(move |t| (s, t))) {
        if !bench.g.settled(bench.customer, s, t) {
            let job = Call::Job(WAYS[r.below(3)], s as u32, t as u32);
            both(&job, bench, run.beside.as_mut(), seen).unwrap();
            assert_eq!(run.book.job(s as u32, t as u32), 0);
        }
    }
    as_in_book(bench, run);
    assert!(run.book.no_open_job());
    seen.complete[bench.customer as usize - 1] += run.beside.is_some() as u32;
    same_as_one_sweep(r, bench);
}

/// A history of one customer, anything being the other's, or of both.
fn history(r: &mut Random, kind: usize, seen: &mut Seen) {
    let (n, m) = ([0, 1, 3, 8, 8, 16][r.below(6)], [1, 2, 3, 8, 8, 16][r.below(6)]);
    let (a, b) = (Columns::of(&lawful(r, kind, n)), Columns::of(&lawful(r, kind, m)));
    let ends = [cuts(r, a.x.len()), cuts(r, b.x.len())];
    let [columns, waiting] = [0; 2].map(|_| {
        let room = [1, 2, 6, 25, 100, 4_096][r.below(6)];
        let lengths = [0; 3].map(|_| room + r.below(3));
        results(r, lengths)
    });
    let alone = if r.once_in(2) { Some(either(r)) } else { None };
    let mut table = Table { bench: Bench { a, b, r: columns, g: anything(r), customer: 1 }, waiting };
    assert_eq!(same(&Call::Prepare(ends.clone()), &mut table.bench), 0);
    if let Some(customer) = alone {
        any_part(r, &mut table.bench.g, other_customer(customer));
    }
    let mut runs: [Option<Run>; 2] = [None, None];
    for _ in 0..10 + r.below(40) {
        let customer = alone.unwrap_or(either(r));
        table.turn(customer);
        let run = &mut runs[customer as usize - 1];
        let call = some_call(r, &table.bench, &ends, run.is_some());
        step(r, &mut table.bench, &ends, run, &call, seen);
    }
    for (customer, run) in CUSTOMERS.into_iter().zip(&mut runs) {
        if let Some(run) = run {
            table.turn(customer);
            finish(r, &mut table.bench, &ends, run, seen);
        }
    }
}

fn histories(r: &mut Random) {
    let mut seen = Seen::default();
    let rounds = 1_000;
    for round in 0..rounds {
        progress(round, rounds);
        history(r, round, &mut seen);
    }
    let jobs = [0, 1, 2, 3, 7, 8, 9, 15];
    let answered: [(&str, &[u32]); 7] = [
        ("open", &[0, 1, 2, 3, 4, 5, 6, 7, 15]),
        ("lower", &[0, 1, 2, 3, 4, 7, 15]),
        ("classic job", &jobs),
        ("Reverse Run job", &jobs),
        ("job by halves", &jobs),
        ("jobs", &jobs),
        ("status", &[0, 1, 2, 3, 7, 15]),
    ];
    for (name, number) in answered.into_iter().flat_map(|(name, numbers)| numbers.iter().map(move |n| (name, *n))) {
        // one at least that was held beside a campaign opened with the smaller K
        assert!(seen.answers.contains_key(&(name, true, number)), "{name} {number}: {:?}", seen.answers);
    }
    for before in [0, 1, 2, 3, 4, 15] {
        assert!(seen.answers.contains_key(&("lower", false, before)), "{before}: {:?}", seen.answers);
    }
    assert!(seen.jobs.iter().flatten().all(|n| *n > 200), "{:?}", seen.jobs);
    assert!(seen.entries.iter().all(|n| *n > 50) && seen.again > 200, "{:?} {}", seen.entries, seen.again);
    assert!(seen.complete.iter().all(|n| *n > 100), "{:?}", seen.complete);
}

/// All 1,024 jobs of a full grid, K being lowered twice on the way.
fn full_grid(r: &mut Random) {
    let lists = [0; 2].map(|_| Columns::of(&lawful(r, 2, 200)));
    let ends = lists.each_ref().map(|l| (1..=32).map(|s| (l.x.len() * s / 32) as u32).collect::<Vec<_>>());
    let customer = either(r);
    let [a, b] = &lists;
    let mut bench = opened(r, customer, [a, b], [&ends[0], &ends[1]], 4_096, [4_096; 3]);
    let book = Book::opened(a, b, opening(4_096, &ends));
    let mut run = Run { start: bench.r.clone(), settled: Vec::new(), book, beside: None };
    let seen = &mut Seen::default();
    let mut jobs: Vec<u32> = (0..1_024).collect();
    for done in 0..1_024 {
        if let Some(k) = [(200, 300), (600, 20)].into_iter().find_map(|(at, k)| (at == done).then_some(k)) {
            let before = *bench.share();
            both(&Call::Lower(k), &mut bench, run.beside.as_mut(), seen).unwrap();
            assert_eq!(run.book.lower(k), 0);
            lowered(r, &bench, &ends, &mut run, before, seen);
            as_in_book(&bench, &run);
        }
        let job = jobs.swap_remove(r.below(jobs.len()));
        let (way, s, t) = (WAYS[r.below(3)], job / 32, job % 32);
        both(&Call::Job(way, s, t), &mut bench, run.beside.as_mut(), seen).unwrap();
        assert_eq!(run.book.job(s, t), 0);
        run.settled.push((way, s, t));
    }
    assert!(seen.entries == [0, 0, 2] && seen.jobs.iter().flatten().all(|n| *n > 20), "{:?} {:?}", seen.entries, seen.jobs);
    finish(r, &mut bench, &ends, &mut run, seen);
}

// One lowering.

/// Document 01's fixed example M6 from a larger K on: lowered after the first job, the second is skipped as with K = 2 from the
/// start, and the list ends as (2,2) (1,1).
fn fixed_example(r: &mut Random) {
    for (customer, way) in CUSTOMERS.into_iter().flat_map(|c| WAYS.map(|way| (c, way))) {
        let [a, b] = lists_f();
        let mut bench = opened(r, customer, [&a, &b], [FIRST, SECOND], 9, [9; 3]);
        assert_eq!(same_job(way, &mut bench, 0, 0), Ok(true));
        assert_eq!(same_status(&bench), Ok(Status { settled: 1, jobs: 4, entries: 2, k: 9 }));
        // with K = 9 the second job is swept
        assert_eq!(same_job(way, &mut bench.clone(), 1, 0), Ok(true));
        for (k, answer) in [(0, Err(4)), (10, Err(4)), (9, Ok(())), (2, Ok(())), (3, Err(4))] {
            assert_eq!(same_lower(&mut bench, k), answer, "K {k}");
        }
        assert_eq!(same_status(&bench), Ok(Status { settled: 1, jobs: 4, entries: 2, k: 2 }));
        for (s, t, swept) in [(1, 0, false), (0, 1, true), (1, 1, true)] {
            assert_eq!(same_job(way, &mut bench, s, t), Ok(swept));
        }
        assert_eq!((&bench.r.first[..2], &bench.r.second[..2]), (&[2, 1][..], &[2, 1][..]));
        assert_eq!(same_lower(&mut bench, 1), Ok(()));
        assert_eq!(same_status(&bench), Ok(Status { settled: 4, jobs: 4, entries: 1, k: 1 }));
        assert_eq!(same_job(way, &mut bench, 0, 0), Err(9));
        assert_eq!((bench.r.distance[0], bench.r.first[0], bench.r.second[0]), (5, 2, 2));
        same_as_one_sweep(r, &bench);
    }
}

/// A campaign in mid-work: some jobs are settled, anything stands in the slots that are not in use, and the other customer has
/// anything. K is at most `most`.
pub fn under_way(r: &mut Random, kind: usize, sites: usize, most: usize) -> Bench {
    let [a, b] = [0; 2].map(|_| Columns::of(&lawful(r, kind, sites)));
    let (first, second) = (cuts(r, a.x.len()), cuts(r, b.x.len()));
    let k = 1 + r.below(most);
    let lengths = [0; 3].map(|_| k + r.below(3));
    let customer = either(r);
    let mut bench = opened(r, customer, [&a, &b], [&first, &second], k as u32, lengths);
    bench.g.first_ends[first.len()..].fill_with(|| r.next() as u32);
    bench.g.second_ends[second.len()..].fill_with(|| r.next() as u32);
    for _ in 0..r.below(first.len() * second.len() + 2) {
        let (s, t) = (r.below(first.len()) as u32, r.below(second.len()) as u32);
        let _ = same_job(WAYS[r.below(3)], &mut bench, s, t);
    }
    bench
}

/// Numbers far above every K here: such that their last bits are those of a small number, and the greatest.
const FAR: [u32; 8] = [4_095, 4_096, 4_097, 0x102, 0x1_0001, 0x8000_0001, u32::MAX - 1, u32::MAX];

/// The grid with another share of a customer, all else as it was.
fn with_share(g: &Grid, customer: u32, share: Share) -> Grid {
    let mut g = g.clone();
    *g.share_mut(customer) = share;
    g
}

/// One K on a campaign that is sound: what it does to the grid, told without the brute force. No column is written, as for
/// every lowering. True where it is allowed.
fn one_lowering(bench: &Bench, k: u32) -> bool {
    let Share { k: present, entries } = *bench.share();
    let mut after = bench.clone();
    let answer = same_lower(&mut after, k);
    if k == 0 || k > present {
        assert!(answer == Err(4) && after.g == bench.g, "K {k} from {present}: {answer:?}");
        return false;
    }
    assert_eq!(answer, Ok(()), "K {k} from {present}");
    let share = Share { k, entries: if entries < k { entries } else { k } };
    assert!(after.g == with_share(&bench.g, bench.customer, share), "K {k} from {present}: the grid differs");
    assert!(k < present || after.g == bench.g, "the present K changed something");
    assert_eq!(same_status(&after).map(|s| (s.k, s.entries)), Ok((k, share.entries)));
    assert_eq!(same_lower(&mut after.clone(), k.wrapping_add(1)), Err(4), "K raised again");
    // then columns as long as this K will do
    after.r.distance.truncate(k as usize);
    after.r.first.truncate(k as usize);
    after.r.second.truncate(k as usize);
    assert_eq!(same_status(&after).map(|s| s.k), Ok(k));
    true
}

/// Every K from 0 to above the present one, and numbers far above, on small campaigns: with fewer entries than it, as many and
/// more.
fn every_k(r: &mut Random) {
    let (rounds, mut seen) = (250, [[0; 3]; 2]);
    for round in 0..rounds {
        progress(round, rounds);
        let bench = under_way(r, round, 1 + round % 5, 9);
        let Share { k: present, entries } = *bench.share();
        for k in (0..=present + 2).chain(FAR) {
            let allowed = one_lowering(&bench, k);
            seen[allowed as usize][(entries.cmp(&k) as i8 + 1) as usize] += 1;
        }
    }
    assert!(seen.iter().flatten().all(|n| *n > 30), "{seen:?}");
}

/// Lowering twice is lowering once to the smaller.
fn twice(r: &mut Random) {
    for round in 0..60 {
        let bench = under_way(r, round, 4, 7);
        for k in 1..=bench.share().k {
            let mut first = bench.clone();
            same_lower(&mut first, k).unwrap();
            for smaller in 1..=k {
                let (mut twice, mut once) = (first.clone(), bench.clone());
                assert_eq!([same_lower(&mut twice, smaller), same_lower(&mut once, smaller)], [Ok(()); 2]);
                assert!(twice.g == once.g, "{smaller} by way of {k}");
            }
        }
    }
}

/// K = 4,096 lowered, with all entries that it can have, with one fewer, and with few.
fn greatest_k(r: &mut Random) {
    let row = |n: i32, y: i32| Columns::of(&(0..n).map(|x| site(x, y, 0)).collect::<Vec<_>>());
    for (n, m) in [(64, 64), (63, 65), (70, 70), (1, 3)] {
        let (a, b, customer) = (row(n, 0), row(m, 1), either(r));
        let mut bench = opened(r, customer, [&a, &b], [&[n as u32], &[m as u32]], 4_096, [4_096, 4_098, 4_097]);
        assert!(one_lowering(&bench, 4_096) && one_lowering(&bench, 1));
        assert_eq!(same_job(Way::Classic, &mut bench, 0, 0), Ok(true));
        assert_eq!(bench.share().entries, 4_096.min((n * m) as u32));
        for k in [1, 2, 3, 4, 255, 256, 257, 2_048, 4_094, 4_095, 4_096] {
            assert!(one_lowering(&bench, k));
        }
        for k in [0, 4_097, 8_192, 0x1_0001, u32::MAX] {
            assert!(!one_lowering(&bench, k));
        }
    }
}

// Refusals.

/// M6's campaign with K = 5 and two jobs settled.
fn on_f_with_5(r: &mut Random, customer: u32) -> Bench {
    let mut bench = on_f(r, customer, [5; 3]);
    same_open(&mut bench, 5, FIRST, SECOND).unwrap();
    same_job(Way::ReverseRun, &mut bench, 0, 0).unwrap();
    same_job(Way::Halves, &mut bench, 1, 1).unwrap();
    assert_eq!(*bench.share(), Share { k: 5, entries: 4 });
    bench
}

/// A list that is refused with this number, and with those above it up to 3 if it were put right.
pub fn refused_with(number: u32) -> Columns {
    let mut list = Columns::of(&[site(1, if number == 3 { 0 } else { MAX + 1 }, 0), site(0, 0, 0)]);
    if number == 1 {
        list.height.push(0);
    }
    list
}

/// 15, then the first list's 1, 2 and 3, then the second list's, then 4, then 7: each refusal hides those behind it.
fn refusals_in_order(r: &mut Random) {
    for (customer, nobody) in CUSTOMERS.into_iter().flat_map(|c| NOBODY.map(|n| (c, n))) {
        let good = on_f_with_5(r, customer);
        for (list, fault) in (1..=3).flat_map(|list| (0..=3).map(move |fault| (list, fault))) {
            for (k, mark) in [0, 3, 5, 6, u32::MAX].into_iter().flat_map(|k| [0, 1 + r.below(255) as u8].map(|m| (k, m))) {
                let mut bench = good.clone();
                bench.g.marks[2] = mark;
                bench.b = refused_with(list);
                if fault > 0 {
                    bench.a = refused_with(fault);
                }
                assert_eq!(same_lower(&mut bench, k), Err(if fault > 0 { fault } else { list }));
                let mut theirs = Bench { customer: nobody, ..bench.clone() };
                assert_eq!(same_lower(&mut theirs, k), Err(15));
                (bench.a, bench.b) = (good.a.clone(), good.b.clone());
                let theirs = &mut Bench { customer: nobody, ..bench.clone() };
                assert_eq!(same_lower(theirs, k), Err(15));
                let refusal = if k == 0 || k > 5 { 4 } else { 7 };
                let answer = if refusal == 7 && mark == 0 { Ok(()) } else { Err(refusal) };
                assert_eq!(same_lower(&mut bench, k), answer, "K {k}, mark {mark}");
            }
        }
    }
}

/// A K in the grid that is above 4,096 is a fault of the grid: a K up to it gets 7, one above it 4.
fn doctored_k(r: &mut Random) {
    for customer in CUSTOMERS {
        let mut good = on_f_with_5(r, customer);
        good.r = results(r, [4_200; 3]).holding(&good.r.entries(4));
        for (present, sound) in [(4, true), (6, true), (4_096, true), (4_097, false), (4_100, false), (u32::MAX, false)] {
            let mut bench = good.clone();
            bench.share_mut().k = present;
            let answer = if sound { Ok(()) } else { Err(7) };
            for k in [1, 3, 4, 4_096, 4_097, 4_100, present - 1, present] {
                let answer = if k > present { Err(4) } else { answer };
                assert_eq!(same_lower(&mut bench.clone(), k), answer, "K {k} from {present}");
            }
            assert_eq!(same_lower(&mut bench.clone(), 0), Err(4));
            let above = present.wrapping_add(1);
            assert_eq!(same_lower(&mut bench, above), Err(4), "K {above} from {present}");
        }
    }
}

/// Columns shorter than the present K get 7, though the smaller K would have room; so do entries at fault that would be cut.
fn present_k_is_tested(r: &mut Random) {
    for customer in CUSTOMERS {
        let good = on_f_with_5(r, customer);
        for (column, k) in (0..3).flat_map(|column| (1..=5).map(move |k| (column, k))) {
            let mut short = good.clone();
            match column {
                0 => short.r.distance.truncate(4),
                1 => short.r.first.truncate(4),
                _ => short.r.second.truncate(4),
            }
            assert_eq!(same_lower(&mut short, k), Err(7), "column {column}, K {k}");
            let mut wrong = good.clone();
            match column {
                0 => wrong.r.distance[3] += 1,
                1 => wrong.r.first[3] = 9,
                _ => wrong.r.second[3] = 9,
            }
            assert_eq!(same_lower(&mut wrong, k), Err(7), "column {column}, K {k}");
            // past the entries anything may stand
            let mut past = good.clone();
            (past.r.distance[4], past.r.first[4], past.r.second[4]) = (r.next(), r.next() as u32, r.next() as u32);
            assert_eq!(same_lower(&mut past, k), Ok(()));
        }
        for entries in [0, 1, 3, 5, u32::MAX] {
            let mut bench = good.clone();
            bench.share_mut().entries = entries;
            assert_eq!((1..=5).map(|k| same_lower(&mut bench, k)).collect::<Vec<_>>(), [Err(7); 5], "{entries} entries");
        }
    }
}

/// Before opening every K gets 4, after 15 and the lists' 1 to 3, whatever stands in the marks, the columns and the other's
/// part.
fn before_opening(r: &mut Random) {
    for (customer, nobody) in CUSTOMERS.into_iter().flat_map(|c| NOBODY.map(|n| (c, n))) {
        let mut bench = on_f(r, customer, [5; 3]);
        for k in (0..=6).chain(FAR) {
            let mut lent = bench.clone();
            if r.once_in(2) {
                lent.g.marks[r.below(1024)] = r.next() as u8;
            }
            if r.once_in(2) {
                lent.r = Results::default();
            }
            assert_eq!(same_lower(&mut lent, k), Err(4), "K {k}");
            refused_lists(r, &mut lent);
            assert!((1..=3).contains(&same_lower(&mut lent, k).unwrap_err()));
            lent.customer = nobody;
            assert_eq!(same_lower(&mut lent, k), Err(15));
        }
        // the other customer may
        assert_eq!(same(&Call::Open(5, ends_f()), &mut bench), 0);
        assert_eq!(same_lower(&mut bench, 4), Ok(()));
        *bench.g.share_mut(other_customer(customer)) = Share::default();
        bench.customer = other_customer(customer);
        assert_eq!(same_lower(&mut bench, 4), Err(4));
    }
}

/// Whatever was tampered with, an allowed K gets what status gets, and another gets 4 where the lists are not at fault.
fn tampered(r: &mut Random) {
    let rounds = 4_000;
    let (mut faults, mut numbers) = (BTreeMap::new(), BTreeMap::new());
    for round in 0..rounds {
        progress(round, rounds);
        let mut bench = under_way(r, round, [1, 3, 8][round % 3], 12);
        for _ in 0..1 + r.below(2) {
            tamper(r, &mut bench);
        }
        let status = same_status(&bench).map(|_| ());
        let present = bench.share().k;
        if let Ok((a, b)) = model::lists(&bench.a, &bench.b) {
            let fault = bench.g.fault(bench.customer, &a, &b, &bench.r).unwrap_or("none");
            *faults.entry((fault, present > 0)).or_insert(0) += 1;
        }
        if present > 0 {
            for k in [1, 1 + r.below(present as usize) as u32, present] {
                assert_eq!(same_lower(&mut bench.clone(), k), status, "K {k} from {present}");
            }
        }
        let refusal = status.err().filter(|n| *n <= 3).unwrap_or(4);
        for k in [0, present.wrapping_add(1)] {
            assert_eq!(same_lower(&mut bench.clone(), k), Err(refusal), "K {k} from {present}");
        }
        *numbers.entry(status.err().unwrap_or(0)).or_insert(0) += 1;
    }
    for fault in ["none"].into_iter().chain(FAULTS) {
        assert!(faults.get(&(fault, true)).is_some_and(|n| *n > 5), "{fault}: {faults:?}");
    }
    assert!(faults.get(&("K", false)).is_some_and(|n| *n > 5), "{faults:?}");
    assert!(numbers.keys().eq(&[0, 1, 2, 3, 7]) && numbers.values().all(|often| *often > 20), "{numbers:?}");
}

pub fn run(h: &mut Harness) {
    h.test("smaller K: the fixed campaign", || fixed_example(&mut Random::new(140)));
    h.test("smaller K: every K, and what it changes", || every_k(&mut Random::new(141)));
    h.test("smaller K: lowering twice", || twice(&mut Random::new(142)));
    h.test("smaller K: from 4,096", || greatest_k(&mut Random::new(143)));
    h.test("smaller K: refusals in their order", || refusals_in_order(&mut Random::new(144)));
    h.test("smaller K: a K above 4,096 in the grid", || doctored_k(&mut Random::new(145)));
    h.test("smaller K: 7 is told with the present K", || present_k_is_tested(&mut Random::new(146)));
    h.test("smaller K: before opening", || before_opening(&mut Random::new(147)));
    h.test("smaller K: tampering", || tampered(&mut Random::new(148)));
    h.test("smaller K: histories beside campaigns opened with it", || histories(&mut Random::new(149)));
    h.test("smaller K: all 1,024 jobs beside campaigns opened with it", || full_grid(&mut Random::new(150)));
}
