//! Two customers on one grid (document 02 e): histories of both, mixed, beside the brute force and beside each customer's own
//! book; histories that differ in the other customer's calls alone; and refusals in their order.

use crate::calls;
use crate::campaigns::{
    Bench, FAULTS, any_part, anything, cuts, either, lower_to, opened, other_customer, prepared, results, same_as_one_sweep,
    same_job, same_jobs, same_lower, same_open, same_prepare, same_status, some_jobs, strip_number, tamper,
};
use crate::harness::{Harness, progress};
use crate::lists::{MAX, damaged, f, lawful};
use crate::model::{self, Book, CUSTOMERS, Columns, Counters, Grid, Jobs, Opening, Results, Share, Status, WAYS, Way, site};
use crate::random::Random;
use std::collections::BTreeMap;

/// Numbers that are no customer's: beside 1 and 2, and such that their last bits are those of 1 and 2.
pub const NOBODY: [u32; 8] = [0, 3, 4, 5, 0x102, 0x1_0001, 0x8000_0001, u32::MAX];

/// A call, without the grid, the customer, the lists and the columns that it is lent.
#[derive(Clone, Debug)]
pub enum Call {
    Prepare([Vec<u32>; 2]),
    Open(u32, [Vec<u32>; 2]),
    Lower(u32),
    Job(Way, u32, u32),
    Jobs(Jobs),
    Status,
}

impl Call {
    pub fn name(&self) -> &'static str {
        match self {
            Call::Prepare(_) => "prepare",
            Call::Open(..) => "open",
            Call::Lower(_) => "lower",
            Call::Job(Way::Classic, ..) => "classic job",
            Call::Job(Way::ReverseRun, ..) => "Reverse Run job",
            Call::Job(Way::Halves, ..) => "job by halves",
            Call::Jobs(_) => "jobs",
            Call::Status => "status",
        }
    }
}

pub fn opening(k: u32, ends: &[Vec<u32>; 2]) -> Opening<'_> {
    Opening { k, first_ends: &ends[0], second_ends: &ends[1] }
}

/// What a call answers beside the grid.
#[derive(Clone, Copy, Debug, PartialEq, Eq)]
pub enum Answer {
    Grid,
    Job(u32, Counters),
    Jobs(u32, Counters),
    Status(Status),
}

/// A call as it is.
pub fn told(call: &Call, bench: &mut Bench) -> Result<Answer, u32> {
    let Bench { a, b, r, g, customer } = bench;
    match call {
        Call::Prepare(ends) => calls::prepare(a, b, &ends[0], &ends[1], g).map(|()| Answer::Grid),
        Call::Open(k, ends) => calls::open(g, *customer, a, b, opening(*k, ends), r).map(|()| Answer::Grid),
        Call::Lower(k) => calls::lower_k(g, *customer, a, b, *k, r).map(|()| Answer::Grid),
        Call::Job(way, s, t) => {
            calls::job(*way, g, *customer, a, b, r, *s, *t).map(|(swept, counters)| Answer::Job(swept, counters))
        }
        Call::Jobs(jobs) => calls::jobs(g, *customer, a, b, r, jobs).map(|(skipped, sums)| Answer::Jobs(skipped, sums)),
        Call::Status => calls::status(g, *customer, a, b, r).map(Answer::Status),
    }
}

/// What a customer reads of a grid: the ends, and their own K, entry count and bits.
#[derive(Clone, Debug, PartialEq, Eq)]
pub struct Reading {
    strips: [u32; 2],
    ends: [[u32; 32]; 2],
    share: Share,
    bits: Vec<bool>,
}

pub fn reading(g: &Grid, customer: u32) -> Reading {
    Reading {
        strips: [g.first_strips, g.second_strips],
        ends: [g.first_ends, g.second_ends],
        share: *g.share(customer),
        bits: g.marks.iter().map(|m| model::owns(customer, *m)).collect(),
    }
}

/// A call beside the brute force: its number, 0 for none. The other customer's reading stays, and so does whether all marks
/// are within 0 to 3 and inside the jobs.
pub fn same(call: &Call, bench: &mut Bench) -> u32 {
    let before = bench.g.clone();
    let answer = match call {
        Call::Prepare(ends) => same_prepare(bench, &ends[0], &ends[1]),
        Call::Open(k, ends) => same_open(bench, *k, &ends[0], &ends[1]),
        Call::Lower(k) => same_lower(bench, *k),
        Call::Job(way, s, t) => same_job(*way, bench, *s, *t).map(|_| ()),
        Call::Jobs(jobs) => same_jobs(bench, jobs).map(|_| ()),
        Call::Status => same_status(bench).map(|_| ()),
    };
    let after = &bench.g;
    match (call, answer) {
        (_, Err(_)) | (Call::Status, _) => assert!(*after == before, "{call:?} changed the grid"),
        (Call::Prepare(_), _) => {
            assert!(after.marks.iter().all(|m| *m == 0) && after.shares == [Share::default(); 2], "{call:?} left something");
        }
        _ => {
            let other = other_customer(bench.customer);
            assert!(reading(after, other) == reading(&before, other), "{call:?} changed what customer {other} reads");
            assert_eq!(after.mark_fault(), before.mark_fault(), "{call:?}");
        }
    }
    answer.err().unwrap_or(0)
}

/// One grid, both lists and both customers' columns: the bench has those of the customer whose turn it is.
pub struct Table {
    pub bench: Bench,
    pub waiting: Results,
}

impl Table {
    pub fn turn(&mut self, customer: u32) {
        if self.bench.customer != customer {
            std::mem::swap(&mut self.bench.r, &mut self.waiting);
            self.bench.customer = customer;
        }
    }
}

/// Lists that are refused, with 1, 2 or 3, whatever else is lent; one of the two stays as it is.
pub fn refused_lists(r: &mut Random, bench: &mut Bench) {
    let list = if r.once_in(2) { &mut bench.a } else { &mut bench.b };
    let mut sites = list.sites(list.x.len());
    match r.below(3) {
        0 => return [&mut list.y, &mut list.height][r.below(2)].push(0),
        1 => sites.push(site(MAX, MAX + 1, 0)),
        _ => sites.extend([sites.last().copied().unwrap_or(site(0, 0, 0)); 2]),
    }
    *list = Columns::of(&sites);
}

/// Cut ends that are refused for any list of fewer than 900 sites.
fn unlawful_ends(r: &mut Random) -> Vec<u32> {
    [vec![0], vec![900], vec![3, 2], vec![1, 1], (1..=33).collect(), vec![u32::MAX, 1]][r.below(6)].clone()
}

/// The ends, or others: lawful ones, which may be the same, or such as any list refuses.
fn some_ends(r: &mut Random, bench: &Bench, ends: &[Vec<u32>; 2], others: usize) -> [Vec<u32>; 2] {
    let mut some = ends.clone();
    if r.once_in(others) {
        let l = r.below(2);
        some[l] = match r.below(3) {
            0 => unlawful_ends(r),
            _ => cuts(r, [&bench.a, &bench.b][l].x.len()),
        };
    }
    some
}

/// A K: one for which there is room as a rule, now and then one for which there is none, or an unlawful one.
fn some_k(r: &mut Random, room: usize) -> u32 {
    match r.below(10) {
        0 => [0, 4_097, u32::MAX][r.below(3)],
        1 => (room as u32 + 1).min(4_096),
        2 => 1,
        3 => room.clamp(1, 4_096) as u32,
        _ => 1 + r.below(room.clamp(1, 4_096)) as u32,
    }
}

/// A customer's call.
fn own_call(r: &mut Random, bench: &Bench, ends: &[Vec<u32>; 2]) -> Call {
    let strips = ends.each_ref().map(|e| e.len().min(32));
    match r.below(17) {
        0 => Call::Status,
        1 if r.once_in(2) => Call::Lower(lower_to(r, bench.share().k)),
        1 => Call::Lower(some_k(r, bench.r.shortest())),
        2 | 3 => Call::Open(some_k(r, bench.r.shortest()), some_ends(r, bench, ends, 3)),
        4 | 5 => Call::Jobs(some_jobs(r, &bench.g, bench.customer, strips, 4)),
        _ => Call::Job(WAYS[r.below(3)], strip_number(r, ends[0].len()), strip_number(r, ends[1].len())),
    }
}

/// What histories showed: by call, customer (0 for nobody, and for preparings) and number the answers; by customer the faults
/// of refusal 7; openings with marks at fault, calls accepted beside an unused slot that is not 0, calls answered alike
/// whatever the other's K and entry count, jobs of one customer that the other had not settled and had, books ended by a
/// preparing, and books with no open job.
#[derive(Default)]
struct Seen {
    answers: BTreeMap<(&'static str, u32, u32), u32>,
    faults: BTreeMap<(&'static str, u32), u32>,
    opening_faults: BTreeMap<(&'static str, u32), u32>,
    slots: BTreeMap<&'static str, u32>,
    unread: BTreeMap<(&'static str, u32), u32>,
    jobs: [u32; 2],
    books_ended: u32,
    complete: [u32; 2],
}

impl Seen {
    /// A call beside the brute force, counted.
    fn same(&mut self, call: &Call, bench: &mut Bench) -> u32 {
        let before = bench.g.clone();
        let number = same(call, bench);
        let whose = if matches!(call, Call::Prepare(_)) || !CUSTOMERS.contains(&bench.customer) { 0 } else { bench.customer };
        *self.answers.entry((call.name(), whose, number)).or_default() += 1;
        let strips = [before.first_strips, before.second_strips].map(|n| n.min(32) as usize);
        let unused = before.first_ends[strips[0]..].iter().chain(&before.second_ends[strips[1]..]);
        if whose != 0 && number == 0 && unused.into_iter().any(|e| *e != 0) {
            *self.slots.entry(call.name()).or_default() += 1;
        }
        if let (Call::Job(_, s, t), 0) = (call, number) {
            let other = other_customer(bench.customer);
            self.jobs[before.settled(other, *s as usize, *t as usize) as usize] += 1;
        }
        if let (Call::Open(..), 7) = (call, number) {
            *self.opening_faults.entry((before.mark_fault().unwrap(), whose)).or_default() += 1;
        }
        number
    }

    /// Each call answers these numbers to either customer, often, and no other.
    fn all_answers(&self, least: u32) {
        let jobs = [0, 1, 2, 3, 7, 8, 9];
        let answered: [(&str, &[u32]); 7] = [
            ("open", &[0, 1, 2, 3, 4, 5, 6, 7]),
            ("lower", &[0, 1, 2, 3, 4, 7]),
            ("classic job", &jobs),
            ("Reverse Run job", &jobs),
            ("job by halves", &jobs),
            ("jobs", &jobs),
            ("status", &[0, 1, 2, 3, 7]),
        ];
        let mut expected: Vec<(&str, u32, u32)> = [0, 1, 2, 3, 5].map(|n| ("prepare", 0, n)).to_vec();
        for (name, numbers) in answered {
            expected.push((name, 0, 15));
            expected.extend(CUSTOMERS.iter().flat_map(|c| numbers.iter().map(move |n| (name, *c, *n))));
        }
        expected.sort();
        let seen: Vec<_> = self.answers.keys().copied().collect();
        assert_eq!(seen, expected, "other answers than these, or not all of them");
        let rare: Vec<_> = self.answers.iter().filter(|(_, often)| **often < least).collect();
        assert!(rare.is_empty(), "{rare:?}");
    }
}

/// Calls on a grid, with lists and columns, that somebody tampered with: each as the brute force says, whatever it is.
fn tampered_calls(r: &mut Random, bench: &Bench, ends: &[Vec<u32>; 2], seen: &mut Seen) {
    let mut other = bench.clone();
    for _ in 0..1 + r.below(2) {
        tamper(r, &mut other);
    }
    if let Ok((a, b)) = model::lists(&other.a, &other.b) {
        let fault = other.g.fault(other.customer, &a, &b, &other.r).unwrap_or("none");
        *seen.faults.entry((fault, other.customer)).or_default() += 1;
    }
    let mut calls = vec![Call::Status, Call::Prepare(ends.clone())];
    calls.extend([0; 2].map(|_| Call::Open(some_k(r, other.r.shortest()), some_ends(r, &other, ends, 4))));
    calls.push(Call::Lower(lower_to(r, other.share().k)));
    let strips = [other.g.first_strips, other.g.second_strips].map(|n| n.min(32) as usize);
    calls.push(Call::Jobs(some_jobs(r, &other.g, other.customer, strips, 4)));
    for way in WAYS {
        calls.push(Call::Job(way, r.below(strips[0] + 1) as u32, r.below(strips[1] + 1) as u32));
    }
    for call in &calls {
        // each on its own, and some for the other customer, with these columns
        let mut one = other.clone();
        if r.once_in(4) {
            one.customer = other_customer(one.customer);
        }
        seen.same(call, &mut one);
        if r.once_in(3) {
            seen.same(&Call::Status, &mut one);
        }
    }
}

/// A call by nobody gets 15, with lists, K, ends and columns at fault or not.
fn nobodys_call(r: &mut Random, bench: &Bench, ends: &[Vec<u32>; 2], seen: &mut Seen) {
    let mut other = bench.clone();
    if r.once_in(2) {
        refused_lists(r, &mut other);
    }
    if r.once_in(4) {
        tamper(r, &mut other);
    }
    other.customer = NOBODY[r.below(NOBODY.len())];
    let call = own_call(r, bench, ends);
    assert_eq!(seen.same(&call, &mut other), 15, "{call:?} by {}", other.customer);
}

/// Whatever the other customer's K and entry count are, a call of this one gets the same answer and leaves the same reading and
/// columns; and at an opening so it does whatever their own are.
fn shares_not_read(r: &mut Random, bench: &Bench, ends: &[Vec<u32>; 2], seen: &mut Seen) {
    let call = own_call(r, bench, ends);
    let whose = if matches!(call, Call::Open(..)) { either(r) } else { other_customer(bench.customer) };
    let mut one = bench.clone();
    if r.once_in(4) {
        one.g.marks[r.below(1024)] = 4;
    }
    let mut two = one.clone();
    let number = |r: &mut Random| [0, 1, 4_096, 4_097, u32::MAX, r.below(50) as u32, r.next() as u32][r.below(7)];
    let share = Share { k: number(r), entries: number(r) };
    *two.g.share_mut(whose) = share;
    let answer = told(&call, &mut one);
    assert_eq!(told(&call, &mut two), answer, "{call:?}, customer {whose}'s part being {share:?}");
    if whose != bench.customer || answer.is_err() {
        assert_eq!(*two.g.share(whose), share, "{call:?}");
        *two.g.share_mut(whose) = *one.g.share(whose);
    }
    assert!(one.g == two.g && one.r == two.r, "{call:?}: customer {whose}'s {share:?} was read");
    *seen.unread.entry((call.name(), answer.err().unwrap_or(0))).or_default() += 1;
}

/// The call of a customer, with their lists and columns, in their book, which answers the same. Before opening K is 0.
fn into_book(call: &Call, number: u32, book: &mut Option<Book>, bench: &Bench) {
    let expected = match (call, book.as_mut()) {
        (Call::Job(_, s, t), book) => book.map_or(7, |book| book.job(*s, *t)),
        (Call::Jobs(jobs), book) => book.map_or(7, |book| book.jobs(jobs)),
        (Call::Lower(k), book) => book.map_or(4, |book| book.lower(*k)),
        _ => number,
    };
    assert_eq!(number, expected, "the book answers otherwise: {call:?}");
    if let (Call::Open(k, chosen), 0) = (call, number) {
        *book = Some(Book::opened(&bench.a, &bench.b, opening(*k, chosen)));
    }
}

/// One history of both customers: a preparing, then calls of every kind, each held to the brute force and to the book of the
/// customer who calls.
fn history(r: &mut Random, kind: usize, seen: &mut Seen) {
    let (n, m) = ([0, 1, 3, 8, 8, 30][r.below(6)], [1, 2, 3, 8, 8, 30][r.below(6)]);
    let (a, b) = (Columns::of(&lawful(r, kind, n)), Columns::of(&lawful(r, kind, m)));
    let columns = |r: &mut Random| {
        let room = [1, 2, 6, 25, 4_096][r.below(5)];
        let lengths = [0; 3].map(|_| room + r.below(3));
        results(r, lengths)
    };
    let mut ends = [cuts(r, a.x.len()), cuts(r, b.x.len())];
    let bench = Bench { a, b, r: columns(r), g: anything(r), customer: 1 };
    let mut table = Table { bench, waiting: columns(r) };
    assert_eq!(seen.same(&Call::Prepare(ends.clone()), &mut table.bench), 0);
    let mut books: [Option<Book>; 2] = [None, None];
    for _ in 0..20 + r.below(60) {
        table.turn(either(r));
        let bench = &mut table.bench;
        let book = &mut books[bench.customer as usize - 1];
        match r.below(24) {
            0..=2 => tampered_calls(r, bench, &ends, seen),
            3 => nobodys_call(r, bench, &ends, seen),
            4 | 5 => shares_not_read(r, bench, &ends, seen),
            6 => {
                // refused for the lists, whatever the call
                let mut other = bench.clone();
                refused_lists(r, &mut other);
                let call = if r.once_in(6) { Call::Prepare(ends.clone()) } else { own_call(r, bench, &ends) };
                assert!((1..=3).contains(&seen.same(&call, &mut other)), "{call:?}");
            }
            7 if r.once_in(3) => {
                let call = Call::Prepare(some_ends(r, bench, &ends, 1));
                let number = seen.same(&call, bench);
                if let (Call::Prepare(chosen), 0) = (call, number) {
                    seen.books_ended += books.iter().flatten().count() as u32;
                    books = [None, None];
                    ends = chosen;
                }
            }
            _ => {
                let early = book.is_none() && r.once_in(3);
                let call =
                    if early { Call::Open(some_k(r, bench.r.shortest()), ends.clone()) } else { own_call(r, bench, &ends) };
                let number = seen.same(&call, bench);
                into_book(&call, number, book, bench);
            }
        }
        // both customers' books, after each call
        for customer in CUSTOMERS {
            table.turn(customer);
            let bench = &table.bench;
            let status = calls::status(&bench.g, customer, &bench.a, &bench.b, &bench.r);
            match &books[customer as usize - 1] {
                None => assert_eq!(status, Err(7)),
                Some(book) => {
                    let expected = book.status();
                    assert_eq!(status, Ok(expected), "customer {customer}'s book");
                    assert_eq!(bench.r.entries(expected.entries as usize), book.entries(), "customer {customer}'s book");
                    assert_eq!(*bench.share(), Share { k: expected.k, entries: expected.entries });
                }
            }
        }
    }
    for customer in CUSTOMERS {
        if books[customer as usize - 1].as_ref().is_some_and(Book::no_open_job) {
            seen.complete[customer as usize - 1] += 1;
            table.turn(customer);
            same_as_one_sweep(r, &table.bench);
        }
    }
}

fn histories(r: &mut Random) {
    let mut seen = Seen::default();
    let rounds = 2_000;
    for round in 0..rounds {
        progress(round, rounds);
        history(r, round, &mut seen);
    }
    seen.all_answers(20);
    for customer in CUSTOMERS {
        for fault in ["none"].into_iter().chain(FAULTS) {
            assert!(seen.faults.get(&(fault, customer)).is_some_and(|n| *n > 5), "{fault}: {:?}", seen.faults);
        }
        for fault in ["mark above 3", "mark outside the jobs"] {
            assert!(seen.opening_faults.get(&(fault, customer)).is_some_and(|n| *n > 20), "{:?}", seen.opening_faults);
        }
    }
    for name in ["open", "lower", "classic job", "Reverse Run job", "job by halves", "jobs", "status"] {
        assert!(seen.slots.get(name).is_some_and(|n| *n > 20), "{:?}", seen.slots);
    }
    let jobs = ["classic job", "Reverse Run job", "job by halves", "jobs"];
    let mut unread: Vec<_> = jobs.iter().flat_map(|name| [0, 7, 8, 9].map(|number| (*name, number))).collect();
    unread.extend([0, 4, 5, 6, 7].map(|number| ("open", number)));
    unread.extend([0, 4, 7].map(|number| ("lower", number)));
    unread.extend([0, 7].map(|number| ("status", number)));
    for answer in unread {
        assert!(seen.unread.get(&answer).is_some_and(|n| *n > 20), "{answer:?}: {:?}", seen.unread);
    }
    assert!(seen.jobs.iter().all(|n| *n > 1_000), "{:?}", seen.jobs);
    assert!(seen.complete.iter().all(|n| *n > 50) && seen.books_ended > 200, "{:?} {}", seen.complete, seen.books_ended);
}

/// A call of the one customer, or a preparing, with the lists that it is lent.
struct Step {
    call: Call,
    customer: u32,
    lists: [Columns; 2],
}

/// Preparings and one customer's calls, in a sequence: a preparing that is accepted comes first.
fn script(r: &mut Random, customer: u32, lists: &[Columns; 2], room: usize) -> Vec<Step> {
    let [a, b] = lists.clone();
    let mut ends = [cuts(r, a.x.len()), cuts(r, b.x.len())];
    let bench = Bench { a, b, r: results(r, [room; 3]), g: model::blank_grid(), customer };
    let mut steps = vec![Step { call: Call::Prepare(ends.clone()), customer, lists: lists.clone() }];
    for _ in 0..10 + r.below(30) {
        let mut lent = bench.clone();
        if r.once_in(12) {
            lent.a = damaged(r, &lent.a);
        }
        let call = if r.once_in(20) {
            let chosen = some_ends(r, &bench, &ends, 2);
            // the later calls are mostly made for these ends, whether or not they are accepted
            ends = chosen.clone();
            Call::Prepare(chosen)
        } else if r.once_in(4) && steps.len() < 4 {
            Call::Open(some_k(r, room), ends.clone())
        } else {
            own_call(r, &bench, &ends)
        };
        let customer = if r.once_in(25) { NOBODY[r.below(NOBODY.len())] } else { customer };
        steps.push(Step { call, customer, lists: [lent.a, lent.b] });
    }
    steps
}

/// The other customer's call: with the lists and their own columns as a rule, now and then with any. True where it is accepted.
fn others_call(r: &mut Random, g: &mut Grid, customer: u32, lists: &[Columns; 2], columns: &mut Results) -> bool {
    let [a, b] = lists.clone();
    if r.once_in(20) {
        let room = r.below(30);
        *columns = results(r, [room; 3]);
    }
    let mut bench = Bench { a, b, r: columns.clone(), g: g.clone(), customer };
    match r.below(16) {
        0 => bench.a = damaged(r, &bench.a),
        1 => bench.b = Columns::of(&lawful(r, 1, 9)),
        // as many sites, so that the grid's ends are lawful for them
        2 => bench.b.height.iter_mut().for_each(|h| *h = -*h),
        _ => {}
    }
    let strips = [g.first_strips, g.second_strips].map(|n| n as usize);
    let ends = [g.first_ends[..strips[0]].to_vec(), g.second_ends[..strips[1]].to_vec()];
    let call = own_call(r, &bench, &ends);
    let accepted = told(&call, &mut bench).is_ok();
    (*g, *columns) = (bench.g, bench.r);
    accepted
}

/// What a customer was told by each of their calls, with what they read of the grid afterwards, and their columns.
type Record = Vec<(Result<Answer, u32>, Reading, Results)>;

/// A script gone through, with calls of the other customer between its steps, on average `calls` for each step: the record,
/// and how many of these calls were accepted.
fn run_through(r: &mut Random, steps: &[Step], customer: u32, columns: &Results, calls: usize) -> (Record, u32) {
    let lists = &steps[0].lists;
    let (mut g, mut own, mut others) = (anything(r), columns.clone(), results(r, [30; 3]));
    let (mut record, mut accepted) = (Vec::new(), 0);
    for (i, step) in steps.iter().enumerate() {
        for _ in 0..if i == 0 { 0 } else { r.below(2 * calls + 1) } {
            let before = reading(&g, customer);
            accepted += others_call(r, &mut g, other_customer(customer), lists, &mut others) as u32;
            assert!(reading(&g, customer) == before, "customer {customer} reads what the other one did");
        }
        let [a, b] = step.lists.clone();
        let mut bench = Bench { a, b, r: own, g, customer: step.customer };
        let answer = told(&step.call, &mut bench);
        (g, own) = (bench.g, bench.r);
        record.push((answer, reading(&g, customer), own.clone()));
    }
    (record, accepted)
}

/// Two histories that agree on the lists, one customer's starting columns, the preparings and that customer's calls: that
/// customer is told the same, however the other's calls differ.
fn nothing_is_told(r: &mut Random) {
    let rounds = 1_500;
    let (mut answers, mut differing) = (BTreeMap::new(), 0);
    for round in 0..rounds {
        progress(round, rounds);
        let customer = CUSTOMERS[round % 2];
        let (n, m) = ([1, 3, 8, 8, 30][r.below(5)], [1, 3, 8, 8, 30][r.below(5)]);
        let lists = [Columns::of(&lawful(r, round, n)), Columns::of(&lawful(r, round, m))];
        let room = [1, 3, 10, 200][r.below(4)];
        let steps = script(r, customer, &lists, room);
        let columns = results(r, [room; 3]);
        let few = [0, 2][r.below(2)];
        let (one, some) = run_through(r, &steps, customer, &columns, few);
        let (two, others) = run_through(r, &steps, customer, &columns, 3);
        differing += (some.abs_diff(others) > 3) as u32;
        for ((first, second), step) in one.iter().zip(&two).zip(&steps) {
            assert_eq!(first.0, second.0, "customer {customer} is told otherwise: {:?}", step.call);
            assert!(first.1 == second.1, "customer {customer} reads otherwise: {:?}", step.call);
            assert!(first.2 == second.2, "customer {customer} has other columns: {:?}", step.call);
            let number = first.0.err().unwrap_or(0);
            *answers.entry((step.call.name(), customer, number)).or_insert(0u32) += 1;
        }
    }
    assert!(differing as usize > rounds / 3, "{differing}");
    for customer in CUSTOMERS {
        for (name, numbers) in [
            ("prepare", &[0, 5][..]),
            ("open", &[0, 4, 5, 6, 15]),
            ("lower", &[0, 4, 15]),
            ("classic job", &[0, 7, 8, 9, 15]),
            ("Reverse Run job", &[0, 7, 8, 9, 15]),
            ("job by halves", &[0, 7, 8, 9, 15]),
            ("jobs", &[0, 7, 8, 9, 15]),
            ("status", &[0, 7, 15]),
        ] {
            for number in numbers {
                let often = answers.get(&(name, customer, *number)).copied().unwrap_or(0);
                assert!(often > 20, "{name} {number}: {often} of {answers:?}");
            }
        }
    }
}

pub const FIRST: &[u32] = &[2, 3];
pub const SECOND: &[u32] = &[1, 3];

pub fn lists_f() -> [Columns; 2] {
    let (a, b) = f();
    [Columns::of(&a), Columns::of(&b)]
}

/// A grid for F, with anything in the other customer's part.
pub fn on_f(r: &mut Random, customer: u32, lengths: [usize; 3]) -> Bench {
    let [a, b] = lists_f();
    prepared(r, customer, [&a, &b], [FIRST, SECOND], lengths)
}

/// The ends of M6.
pub fn ends_f() -> [Vec<u32>; 2] {
    [FIRST.to_vec(), SECOND.to_vec()]
}

/// M6's jobs by both customers in turn, with a K of their own each: what stands in the grid after each call.
fn fixed_example(r: &mut Random) {
    for (one, way) in CUSTOMERS.into_iter().flat_map(|one| WAYS.map(|way| (one, way))) {
        let two = other_customer(one);
        let [a, b] = lists_f();
        let bench = Bench { a, b, r: results(r, [2; 3]), g: anything(r), customer: one };
        let mut table = Table { bench, waiting: results(r, [9; 3]) };
        assert_eq!(same(&Call::Prepare(ends_f()), &mut table.bench), 0);
        // who calls; the call; then both shares, one's first, and the marks of the jobs (0,0), (0,1), (1,0) and (1,1)
        let open = |k| Call::Open(k, ends_f());
        let job = |s, t| Call::Job(way, s, t);
        let [p, q] = [one as u8, two as u8];
        let steps = [
            (one, Call::Status, 7, [(0, 0), (0, 0)], [0, 0, 0, 0]),
            (one, job(0, 0), 7, [(0, 0), (0, 0)], [0, 0, 0, 0]),
            (one, open(2), 0, [(2, 0), (0, 0)], [0, 0, 0, 0]),
            (two, job(0, 0), 7, [(2, 0), (0, 0)], [0, 0, 0, 0]),
            (one, job(0, 0), 0, [(2, 2), (0, 0)], [p, 0, 0, 0]),
            (two, open(9), 0, [(2, 2), (9, 0)], [p, 0, 0, 0]),
            (two, job(1, 0), 0, [(2, 2), (9, 1)], [p, 0, q, 0]),
            (one, job(1, 0), 0, [(2, 2), (9, 1)], [p, 0, 3, 0]),
            (one, job(1, 0), 9, [(2, 2), (9, 1)], [p, 0, 3, 0]),
            (two, job(0, 0), 0, [(2, 2), (9, 3)], [3, 0, 3, 0]),
            (two, job(0, 2), 8, [(2, 2), (9, 3)], [3, 0, 3, 0]),
            (one, job(1, 1), 0, [(2, 2), (9, 3)], [3, 0, 3, p]),
            (two, Call::Status, 0, [(2, 2), (9, 3)], [3, 0, 3, p]),
            (one, open(1), 0, [(1, 0), (9, 3)], [q, 0, q, 0]),
            (two, job(0, 0), 9, [(1, 0), (9, 3)], [q, 0, q, 0]),
            (one, job(0, 0), 0, [(1, 1), (9, 3)], [3, 0, q, 0]),
            (two, job(0, 1), 0, [(1, 1), (9, 7)], [3, q, q, 0]),
            (two, job(1, 1), 0, [(1, 1), (9, 9)], [3, q, q, q]),
            (two, Call::Prepare([vec![3], vec![3]]), 0, [(0, 0), (0, 0)], [0, 0, 0, 0]),
            (two, Call::Status, 7, [(0, 0), (0, 0)], [0, 0, 0, 0]),
            (one, open(1), 5, [(0, 0), (0, 0)], [0, 0, 0, 0]),
        ];
        for (i, (customer, call, number, shares, marks)) in steps.into_iter().enumerate() {
            table.turn(customer);
            assert_eq!(same(&call, &mut table.bench), number, "step {i}: {call:?}");
            let g = &table.bench.g;
            let held = [one, two].map(|c| (g.share(c).k, g.share(c).entries));
            assert_eq!((held, [0, 1, 32, 33].map(|m| g.marks[m])), (shares, marks), "step {i}: {call:?}");
        }
    }
}

/// An opening with everything at fault, put right one by one: each refusal hides those behind it.
fn openings_in_order(r: &mut Random) {
    for (customer, nobody) in CUSTOMERS.into_iter().flat_map(|c| NOBODY.map(|n| (c, n))) {
        let good = on_f(r, customer, [5; 3]);
        let mut bench = Bench { customer: nobody, r: results(r, [5, 4, 5]), ..good.clone() };
        bench.g.marks[2] = 1 + r.below(255) as u8;
        bench.a = Columns::of(&[site(1, 0, 0), site(0, 0, 0)]);
        bench.b = Columns::of(&[site(0, MAX + 1, 0)]);
        let bad: &[u32] = &[1];
        assert_eq!(same_open(&mut bench, 0, bad, SECOND), Err(15));
        bench.customer = customer;
        assert_eq!(same_open(&mut bench, 0, bad, SECOND), Err(3));
        bench.a = good.a.clone();
        assert_eq!(same_open(&mut bench, 0, bad, SECOND), Err(2));
        bench.b.y.push(0);
        assert_eq!(same_open(&mut bench, 0, bad, SECOND), Err(1));
        bench.b = good.b.clone();
        assert_eq!(same_open(&mut bench, 0, bad, SECOND), Err(4));
        assert_eq!(same_open(&mut bench, 4_097, FIRST, &[2, 3]), Err(4));
        assert_eq!(same_open(&mut bench, 5, bad, SECOND), Err(5));
        // other ends than the grid's: fewer, more, and as many
        for ends in [&[3][..], &[1, 2, 3], &[1, 3]] {
            assert_eq!(same_open(&mut bench, 5, ends, SECOND), Err(5));
        }
        for ends in [&[3][..], &[1, 2, 3], &[2, 3]] {
            assert_eq!(same_open(&mut bench, 5, FIRST, ends), Err(5));
        }
        assert_eq!(same_open(&mut bench, 5, SECOND, FIRST), Err(5));
        assert_eq!(same_open(&mut bench, 5, FIRST, SECOND), Err(6));
        bench.r = good.r.clone();
        assert_eq!(same_open(&mut bench, 5, FIRST, SECOND), Err(7));
        bench.g.marks[2] = 0;
        assert_eq!(same_open(&mut bench, 5, FIRST, SECOND), Ok(()));
    }
}

/// Ends, strip counts and slots of the grid itself, each made another: 5 where an end in use or a count is, nothing where a
/// slot past them is.
fn other_ends(r: &mut Random) {
    for customer in CUSTOMERS {
        let good = on_f(r, customer, [5; 3]);
        for (list, slot) in [0, 1].into_iter().flat_map(|l| (0..32).map(move |slot| (l, slot))) {
            for value in [1, 2, 3, 4, u32::MAX] {
                let mut bench = good.clone();
                let ends = if list == 0 { &mut bench.g.first_ends } else { &mut bench.g.second_ends };
                let same_end = ends[slot] == value;
                ends[slot] = value;
                let expected = if slot < 2 && !same_end { Err(5) } else { Ok(()) };
                assert_eq!(same_open(&mut bench, 5, FIRST, SECOND), expected, "list {list} slot {slot}: {value}");
                // not opened where the opening is refused
                let number = if expected.is_ok() { 0 } else { 7 };
                assert_eq!(same(&Call::Job(WAYS[slot % 3], 1, 1), &mut bench), number);
                assert_eq!(same(&Call::Status, &mut bench), number);
            }
        }
        for strips in [0, 1, 3, 31, 32, 33, 64, 256 + 2, u32::MAX] {
            for list in 0..2 {
                let mut bench = good.clone();
                *(if list == 0 { &mut bench.g.first_strips } else { &mut bench.g.second_strips }) = strips;
                assert_eq!(same_open(&mut bench, 5, FIRST, SECOND), Err(5), "{strips} strips");
                *bench.share_mut() = Share { k: 5, entries: 0 };
                assert_eq!(same_status(&bench), Err(7));
                assert_eq!(same_job(Way::Classic, &mut bench, 0, 0), Err(7));
            }
        }
    }
}

/// Every number in a mark, inside the jobs and outside: 7 at opening, status and job for either customer where it is above 3,
/// or not 0 outside. Inside, the customer's own number needs its entries, and the other's does not.
fn every_mark(r: &mut Random) {
    let inside = [0, 1, 32, 33];
    for customer in CUSTOMERS {
        let [a, b] = lists_f();
        let good = opened(r, customer, [&a, &b], [FIRST, SECOND], 5, [5; 3]);
        for (place, value) in [0, 33, 2, 34, 64, 65, 31, 992, 1023].into_iter().flat_map(|p| (0..=255).map(move |v| (p, v))) {
            let mut bench = good.clone();
            bench.g.marks[place] = value;
            let lawful = value == 0 || (value <= 3 && inside.contains(&place));
            let own = value & customer as u8 != 0;
            let told = [same(&Call::Open(3, ends_f()), &mut bench.clone()), same(&Call::Status, &mut bench.clone())];
            assert_eq!(told, [if lawful { 0 } else { 7 }, if lawful && !own { 0 } else { 7 }], "mark {place}: {value}");
            let job = Call::Job(WAYS[value as usize % 3], 0, 1);
            assert_eq!(same(&job, &mut bench.clone()), told[1], "mark {place}: {value}");
            // the entries of the customer's own number
            if lawful && own {
                bench.g.marks[place] = value & !(customer as u8);
                let (s, t) = (place as u32 / 32, place as u32 % 32);
                assert_eq!(same(&Call::Job(Way::Halves, s, t), &mut bench), 0);
                assert_eq!(bench.g.marks[place], value);
                assert_eq!([same(&Call::Status, &mut bench), same(&job, &mut bench)], [0, 0]);
                assert_eq!(same(&Call::Job(Way::Classic, s, t), &mut bench), 9);
            }
        }
    }
}

/// Before a customer has opened they get 7, after 15 and the lists' 1 to 3, whatever the other has done; a preparing ends both.
fn before_opening(r: &mut Random) {
    let far = || Call::Jobs(Jobs::of(&[(9, 0, 0)]));
    let calls = || WAYS.map(|way| Call::Job(way, 9, 0)).into_iter().chain([far(), Call::Jobs(Jobs::default()), Call::Status]);
    for customer in CUSTOMERS {
        let mut bench = on_f(r, other_customer(customer), [5; 3]);
        assert_eq!(same(&Call::Open(5, ends_f()), &mut bench), 0);
        assert_eq!(same(&Call::Job(Way::Classic, 0, 0), &mut bench), 0);
        *bench.g.share_mut(customer) = Share::default();
        bench.g.marks = bench.g.marks.map(|m| model::marked(customer, m, false));
        for call in calls() {
            for nobody in NOBODY {
                let mut lent = Bench { customer: nobody, ..bench.clone() };
                assert_eq!(same(&call, &mut lent), 15);
                for _ in 0..4 {
                    let mut lent = lent.clone();
                    refused_lists(r, &mut lent);
                    assert_eq!(same(&call, &mut lent), 15);
                    lent.customer = customer;
                    assert!((1..=3).contains(&same(&call, &mut lent)));
                }
            }
            let mut lent = Bench { customer, ..bench.clone() };
            assert_eq!(same(&call, &mut lent), 7);
            assert_eq!(same(&Call::Open(5, ends_f()), &mut lent), 0);
            let allowed = matches!(&call, Call::Status) || matches!(&call, Call::Jobs(jobs) if jobs.way.is_empty());
            assert_eq!(same(&call, &mut lent), if allowed { 0 } else { 8 });
            assert_eq!(same(&Call::Prepare(ends_f()), &mut lent), 0);
            for customer in CUSTOMERS {
                lent.customer = customer;
                assert_eq!(same(&call, &mut lent), 7);
            }
        }
    }
}

/// Preparings of grids that hold anything, and of such as customers have worked on: neither 7 nor 15, and nothing is left.
fn preparings(r: &mut Random) {
    let rounds = 2_000;
    let mut numbers = BTreeMap::new();
    for round in 0..rounds {
        let (n, m) = ([0, 1, 5, 40][r.below(4)], [0, 1, 5, 40][r.below(4)]);
        let (a, b) = (Columns::of(&lawful(r, round, n)), Columns::of(&lawful(r, round, m)));
        let ends = [cuts(r, a.x.len()), cuts(r, b.x.len())];
        let mut bench = Bench { a, b, r: results(r, [3; 3]), g: anything(r), customer: NOBODY[round % NOBODY.len()] };
        if r.once_in(2) {
            assert_eq!(same(&Call::Prepare(ends.clone()), &mut bench), 0);
            CUSTOMERS.iter().for_each(|customer| any_part(r, &mut bench.g, *customer));
        }
        if r.once_in(4) {
            bench.b = damaged(r, &bench.b);
        }
        if r.once_in(4) {
            bench.a = damaged(r, &bench.a);
        }
        let chosen = some_ends(r, &bench, &ends, 3);
        *numbers.entry(same(&Call::Prepare(chosen), &mut bench)).or_insert(0) += 1;
    }
    assert!(numbers.keys().eq(&[0, 1, 2, 3, 5]) && numbers.values().all(|often| *often > 20), "{numbers:?}");
}

pub fn run(h: &mut Harness) {
    h.test("customers: the fixed campaign by both", || fixed_example(&mut Random::new(130)));
    h.test("customers: refused openings in their order", || openings_in_order(&mut Random::new(131)));
    h.test("customers: ends, strip counts and unused slots of the grid", || other_ends(&mut Random::new(132)));
    h.test("customers: every number in a mark", || every_mark(&mut Random::new(133)));
    h.test("customers: before opening, and numbers that are nobody's", || before_opening(&mut Random::new(134)));
    h.test("customers: preparings", || preparings(&mut Random::new(135)));
    h.test("customers: histories of both beside their books, with tampering", || histories(&mut Random::new(136)));
    h.test("customers: the other's calls tell nothing", || nothing_is_told(&mut Random::new(137)));
}
