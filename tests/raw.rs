//! The exported calls as the static libraries have them: a slice is a pointer and a length, a reference a pointer.

type X = *const i32;
type N = *const u32;

/// A price band, as a lent table holds it.
#[repr(C)]
#[derive(Clone, Copy, Debug, PartialEq, Eq)]
pub struct Band {
    pub from: u32,
    pub to: u32,
    pub price: u32,
}

unsafe extern "C" {
    pub fn vumlintel_check(x: X, xs: usize, y: X, ys: usize, n: N, ns: usize, h: X, hs: usize, count: *mut u32) -> u32;

    pub fn vumlintel_add(
        x: *mut i32, xs: usize, y: *mut i32, ys: usize, n: *mut u32, ns: usize, h: *mut i32, hs: usize,
        in_use: u32, site_x: i32, site_y: i32, site_number: u32, site_height: i32,
        place: *mut u32, count: *mut u32,
    ) -> u32;

    pub fn vumlintel_remove(
        x: *mut i32, xs: usize, y: *mut i32, ys: usize, n: *mut u32, ns: usize, h: *mut i32, hs: usize,
        in_use: u32, site_x: i32, site_y: i32, site_number: u32,
        place: *mut u32, count: *mut u32,
    ) -> u32;

    pub fn vumlintel_k_list_classic(
        ax: X, axs: usize, ay: X, ays: usize, an: N, ans: usize, ah: X, ahs: usize,
        bx: X, bxs: usize, by: X, bys: usize, bn: N, bns: usize, bh: X, bhs: usize,
        k: u32,
        distance: *mut u64, distances_len: usize, first: *mut u32, firsts: usize, second: *mut u32, seconds: usize,
        entries: *mut u32, looks: *mut u64, distances: *mut u64,
    ) -> u32;

    pub fn vumlintel_k_list_reverse_run(
        ax: X, axs: usize, ay: X, ays: usize, an: N, ans: usize, ah: X, ahs: usize,
        bx: X, bxs: usize, by: X, bys: usize, bn: N, bns: usize, bh: X, bhs: usize,
        k: u32,
        distance: *mut u64, distances_len: usize, first: *mut u32, firsts: usize, second: *mut u32, seconds: usize,
        entries: *mut u32, looks: *mut u64, distances: *mut u64,
    ) -> u32;

    pub fn vumlintel_k_list_halves(
        ax: X, axs: usize, ay: X, ays: usize, an: N, ans: usize, ah: X, ahs: usize,
        bx: X, bxs: usize, by: X, bys: usize, bn: N, bns: usize, bh: X, bhs: usize,
        k: u32,
        distance: *mut u64, distances_len: usize, first: *mut u32, firsts: usize, second: *mut u32, seconds: usize,
        entries: *mut u32, range_pairs: *mut u64,
    ) -> u32;

    pub fn vumlintel_distance_list(
        ax: X, axs: usize, ay: X, ays: usize, an: N, ans: usize, ah: X, ahs: usize,
        bx: X, bxs: usize, by: X, bys: usize, bn: N, bns: usize, bh: X, bhs: usize,
        e: u32,
        first: *mut u32, firsts: usize, second: *mut u32, seconds: usize,
        count: *mut u64,
    ) -> u32;

    pub fn vumlintel_forecast(
        ax: X, axs: usize, ay: X, ays: usize, an: N, ans: usize, ah: X, ahs: usize,
        bx: X, bxs: usize, by: X, bys: usize, bn: N, bns: usize, bh: X, bhs: usize,
        e: u32,
        partners: *mut u32, partners_len: usize,
        total: *mut u64,
    ) -> u32;

    pub fn vumlintel_prepare(
        ax: X, axs: usize, ay: X, ays: usize, an: N, ans: usize, ah: X, ahs: usize,
        bx: X, bxs: usize, by: X, bys: usize, bn: N, bns: usize, bh: X, bhs: usize,
        first_cut: N, first_cuts: usize, second_cut: N, second_cuts: usize,
        first_strips: *mut u32, second_strips: *mut u32,
        first_ends: *mut [u32; 32], second_ends: *mut [u32; 32], marks: *mut [u8; 1024],
        k1: *mut u32, entries1: *mut u32, k2: *mut u32, entries2: *mut u32,
    ) -> u32;

    pub fn vumlintel_open(
        first_strips: *mut u32, second_strips: *mut u32,
        first_ends: *mut [u32; 32], second_ends: *mut [u32; 32], marks: *mut [u8; 1024],
        k1: *mut u32, entries1: *mut u32, k2: *mut u32, entries2: *mut u32,
        customer: u32,
        ax: X, axs: usize, ay: X, ays: usize, an: N, ans: usize, ah: X, ahs: usize,
        bx: X, bxs: usize, by: X, bys: usize, bn: N, bns: usize, bh: X, bhs: usize,
        k: u32,
        first_cut: N, first_cuts: usize, second_cut: N, second_cuts: usize,
        distance: *const u64, distances_len: usize, first: N, firsts: usize, second: N, seconds: usize,
    ) -> u32;

    pub fn vumlintel_lower_k(
        first_strips: *mut u32, second_strips: *mut u32,
        first_ends: *mut [u32; 32], second_ends: *mut [u32; 32], marks: *mut [u8; 1024],
        k1: *mut u32, entries1: *mut u32, k2: *mut u32, entries2: *mut u32,
        customer: u32,
        ax: X, axs: usize, ay: X, ays: usize, an: N, ans: usize, ah: X, ahs: usize,
        bx: X, bxs: usize, by: X, bys: usize, bn: N, bns: usize, bh: X, bhs: usize,
        k: u32,
        distance: *const u64, distances_len: usize, first: N, firsts: usize, second: N, seconds: usize,
    ) -> u32;

    pub fn vumlintel_job_classic(
        first_strips: *mut u32, second_strips: *mut u32,
        first_ends: *mut [u32; 32], second_ends: *mut [u32; 32], marks: *mut [u8; 1024],
        k1: *mut u32, entries1: *mut u32, k2: *mut u32, entries2: *mut u32,
        customer: u32,
        ax: X, axs: usize, ay: X, ays: usize, an: N, ans: usize, ah: X, ahs: usize,
        bx: X, bxs: usize, by: X, bys: usize, bn: N, bns: usize, bh: X, bhs: usize,
        distance: *mut u64, distances_len: usize, first: *mut u32, firsts: usize, second: *mut u32, seconds: usize,
        first_strip: u32, second_strip: u32,
        swept: *mut u32, looks: *mut u64, distances: *mut u64,
    ) -> u32;

    pub fn vumlintel_job_reverse_run(
        first_strips: *mut u32, second_strips: *mut u32,
        first_ends: *mut [u32; 32], second_ends: *mut [u32; 32], marks: *mut [u8; 1024],
        k1: *mut u32, entries1: *mut u32, k2: *mut u32, entries2: *mut u32,
        customer: u32,
        ax: X, axs: usize, ay: X, ays: usize, an: N, ans: usize, ah: X, ahs: usize,
        bx: X, bxs: usize, by: X, bys: usize, bn: N, bns: usize, bh: X, bhs: usize,
        distance: *mut u64, distances_len: usize, first: *mut u32, firsts: usize, second: *mut u32, seconds: usize,
        first_strip: u32, second_strip: u32,
        swept: *mut u32, looks: *mut u64, distances: *mut u64,
    ) -> u32;

    pub fn vumlintel_job_halves(
        first_strips: *mut u32, second_strips: *mut u32,
        first_ends: *mut [u32; 32], second_ends: *mut [u32; 32], marks: *mut [u8; 1024],
        k1: *mut u32, entries1: *mut u32, k2: *mut u32, entries2: *mut u32,
        customer: u32,
        ax: X, axs: usize, ay: X, ays: usize, an: N, ans: usize, ah: X, ahs: usize,
        bx: X, bxs: usize, by: X, bys: usize, bn: N, bns: usize, bh: X, bhs: usize,
        distance: *mut u64, distances_len: usize, first: *mut u32, firsts: usize, second: *mut u32, seconds: usize,
        first_strip: u32, second_strip: u32,
        swept: *mut u32, range_pairs: *mut u64,
    ) -> u32;

    pub fn vumlintel_jobs(
        first_strips: *mut u32, second_strips: *mut u32,
        first_ends: *mut [u32; 32], second_ends: *mut [u32; 32], marks: *mut [u8; 1024],
        k1: *mut u32, entries1: *mut u32, k2: *mut u32, entries2: *mut u32,
        customer: u32,
        ax: X, axs: usize, ay: X, ays: usize, an: N, ans: usize, ah: X, ahs: usize,
        bx: X, bxs: usize, by: X, bys: usize, bn: N, bns: usize, bh: X, bhs: usize,
        distance: *mut u64, distances_len: usize, first: *mut u32, firsts: usize, second: *mut u32, seconds: usize,
        job_first: N, job_firsts: usize, job_second: N, job_seconds: usize, job_way: N, job_ways: usize,
        skipped: *mut u32, looks: *mut u64, distances: *mut u64, range_pairs: *mut u64,
    ) -> u32;

    pub fn vumlintel_status(
        first_strips: *const u32, second_strips: *const u32,
        first_ends: *const [u32; 32], second_ends: *const [u32; 32], marks: *const [u8; 1024],
        k1: *const u32, entries1: *const u32, k2: *const u32, entries2: *const u32,
        customer: u32,
        ax: X, axs: usize, ay: X, ays: usize, an: N, ans: usize, ah: X, ahs: usize,
        bx: X, bxs: usize, by: X, bys: usize, bn: N, bns: usize, bh: X, bhs: usize,
        distance: *const u64, distances_len: usize, first: N, firsts: usize, second: N, seconds: usize,
        settled: *mut u32, jobs: *mut u32, entries: *mut u32, k: *mut u32,
    ) -> u32;

    pub fn vumlintel_write_file(
        ax: X, axs: usize, ay: X, ays: usize, an: N, ans: usize,
        bx: X, bxs: usize, by: X, bys: usize, bn: N, bns: usize,
        buffer: *mut u8, room: usize,
        length: *mut u32,
    ) -> u32;

    pub fn vumlintel_read_file(file: *const u8, length: usize, first: *mut u32, second: *mut u32) -> u32;

    pub fn vumlintel_file_site_first(
        file: *const u8, length: usize, place: u32,
        x: *mut i32, y: *mut i32, number: *mut u32,
    ) -> u32;

    pub fn vumlintel_file_site_second(
        file: *const u8, length: usize, place: u32,
        x: *mut i32, y: *mut i32, number: *mut u32,
    ) -> u32;

    pub fn vumlintel_edit_band(
        bands: *mut Band, bands_len: usize,
        place: u32, from: u32, to: u32, price: u32,
        edited: *mut u32,
    ) -> u32;

    pub fn vumlintel_price(
        bands: *const Band, bands_len: usize,
        distance: *const u64, distances_len: usize, entries: u32,
        prices: *mut u32, prices_len: usize,
        total: *mut u64,
    ) -> u32;

    /// Of the static library of crate `comparison`: entries by their numbers; 0 for before, 1 for same, 2 for after.
    pub fn compare_entries(ad: u64, ai: u32, aj: u32, bd: u64, bi: u32, bj: u32) -> u32;
}
