//! A list of at most K entries in ordinary optimised Rust, kept in three ways.

use std::collections::BinaryHeap;

#[derive(Clone, Copy, PartialEq, Eq, PartialOrd, Ord, Debug)]
pub struct Entry {
    pub distance: u64,
    pub first: u32,
    pub second: u32,
}

/// A list of at most K entries.
pub trait KList {
    /// The last squared distance where there are K entries, else the greatest number.
    fn bound(&self) -> u64;
    fn offer(&mut self, e: Entry);
    /// The entries in rank order.
    fn entries(self) -> Vec<Entry>;
}

/// Entries in rank order, each put in by binary search and a shift.
pub struct Sorted {
    k: usize,
    entries: Vec<Entry>,
}

impl Sorted {
    /// A list of entries that are in rank order.
    pub fn new(k: usize, mut entries: Vec<Entry>) -> Sorted {
        entries.reserve(k - entries.len());
        Sorted { k, entries }
    }
}

impl KList for Sorted {
    #[inline]
    fn bound(&self) -> u64 {
        if self.entries.len() == self.k { self.entries[self.k - 1].distance } else { u64::MAX }
    }

    #[inline]
    fn offer(&mut self, e: Entry) {
        if self.entries.len() == self.k {
            if e >= self.entries[self.k - 1] {
                return;
            }
            self.entries.pop();
        }
        let at = self.entries.partition_point(|f| *f < e);
        self.entries.insert(at, e);
    }

    fn entries(self) -> Vec<Entry> {
        self.entries
    }
}

/// Entries in a heap with the last on top, sorted at the end.
pub struct Heap {
    k: usize,
    heap: BinaryHeap<Entry>,
}

impl Heap {
    pub fn new(k: usize, mut entries: Vec<Entry>) -> Heap {
        entries.reserve(k - entries.len());
        Heap { k, heap: BinaryHeap::from(entries) }
    }
}

impl KList for Heap {
    #[inline]
    fn bound(&self) -> u64 {
        if self.heap.len() == self.k { self.heap.peek().unwrap().distance } else { u64::MAX }
    }

    #[inline]
    fn offer(&mut self, e: Entry) {
        if self.heap.len() < self.k {
            self.heap.push(e);
            return;
        }
        let mut last = self.heap.peek_mut().unwrap();
        if e < *last {
            *last = e;
        }
    }

    fn entries(self) -> Vec<Entry> {
        let mut entries = self.heap.into_vec();
        entries.sort_unstable();
        entries
    }
}

/// Entries in rank order, beside a small buffer in rank order of those that came in, merged when it is full.
pub struct Buffered {
    k: usize,
    entries: Vec<Entry>,
    buffer: Vec<Entry>,
}

impl Buffered {
    const SIZE: usize = 128;

    /// A list of entries that are in rank order.
    pub fn new(k: usize, mut entries: Vec<Entry>) -> Buffered {
        entries.reserve(k - entries.len());
        Buffered { k, entries, buffer: Vec::with_capacity(Buffered::SIZE) }
    }

    fn is_full(&self) -> bool {
        self.entries.len() + self.buffer.len() == self.k
    }

    /// The buffer into the entries, from the end.
    #[inline(never)]
    fn merge(&mut self) {
        let (mut i, mut j) = (self.entries.len(), self.buffer.len());
        self.entries.resize(i + j, Entry { distance: 0, first: 0, second: 0 });
        while j > 0 {
            if i > 0 && self.entries[i - 1] > self.buffer[j - 1] {
                i -= 1;
                self.entries[i + j] = self.entries[i];
            } else {
                j -= 1;
                self.entries[i + j] = self.buffer[j];
            }
        }
        self.buffer.clear();
    }
}

impl KList for Buffered {
    #[inline]
    fn bound(&self) -> u64 {
        let last = |l: &[Entry]| l.last().map_or(0, |e| e.distance);
        if self.is_full() { last(&self.entries).max(last(&self.buffer)) } else { u64::MAX }
    }

    #[inline]
    fn offer(&mut self, e: Entry) {
        if self.is_full() {
            let (last, kept) = (self.buffer.last().copied(), self.entries.last().copied());
            if Some(e) >= last.max(kept) {
                return;
            }
            if kept > last { self.entries.pop() } else { self.buffer.pop() };
        }
        let at = self.buffer.partition_point(|f| *f < e);
        self.buffer.insert(at, e);
        if self.buffer.len() == Buffered::SIZE {
            self.merge();
        }
    }

    fn entries(mut self) -> Vec<Entry> {
        self.merge();
        self.entries
    }
}
