//! What document 02 b adds: a table of price bands edited, and a case list priced from it, beside the brute force.

use crate::calls;
use crate::harness::{Harness, progress};
use crate::lists::{HIGHEST, LOWEST, MAX, MIN, f, lawful};
use crate::model::{self, Columns, LAST_TO, MOST_PRICE, Results, WAYS, band, site, square};
use crate::pair_lists::numbers;
use crate::random::Random;
use crate::raw::Band;
use std::collections::{BTreeMap, BTreeSet};

/// The least squared distance that is refused: 2,828,427,125 squared.
const END: u64 = 8_000_000_001_435_765_625;

fn same_price(bands: &[Band], distance: &[u64], entries: u32, before: &[u32]) -> Result<u64, u32> {
    let mut column = before.to_vec();
    let answer = calls::price(bands, distance, entries, &mut column);
    match model::price(bands, distance, entries, before.len()) {
        Ok((prices, total)) => {
            assert_eq!(answer, Ok(total), "{bands:?}");
            let (written, past) = column.split_at(prices.len());
            assert!(written == prices, "{bands:?}: {written:?} for {prices:?}");
            assert!(past == &before[prices.len()..], "{bands:?}: the column past the entries was written");
        }
        Err(refusal) => {
            assert_eq!(answer, Err(refusal), "{bands:?}");
            assert!(column == before, "{bands:?}: a refused call changed the column");
        }
    }
    answer
}

fn same_edit(bands: &[Band], place: u32, new: Band) -> Result<u32, u32> {
    let mut after = bands.to_vec();
    let answer = calls::edit_band(&mut after, place, new);
    match model::edit_band(bands, place, new) {
        Ok((edited, table)) => {
            assert_eq!(answer, Ok(edited), "{} bands", bands.len());
            assert!(after == table, "{bands:?} {place} {new:?}: {after:?}");
        }
        Err(refusal) => {
            assert_eq!(answer, Err(refusal), "{} bands, place {place}", bands.len());
            assert!(after == bands, "a refused call changed the table: {bands:?} {place}");
        }
    }
    answer
}

/// The square of each of these, with one less and one more, where it is below the end.
fn around_squares(ends: impl IntoIterator<Item = u32>) -> Vec<u64> {
    let near = |end: u32| [square(end).wrapping_sub(1), square(end), square(end) + 1];
    ends.into_iter().flat_map(near).filter(|d| *d < END).collect()
}

fn fixed_examples() {
    assert_eq!((square(LAST_TO), size_of::<Band>(), align_of::<Band>()), (END, 12, 4));
    let table = [band(0, 10, 5), band(10, LAST_TO, 7)];
    let mut column = vec![77; 5];
    assert_eq!(calls::price(&table, &[0, 99, 100, END - 1], 4, &mut column), Ok(24));
    assert_eq!(column, [5, 5, 7, 7, 77]);
    for (bands, refusal) in [
        (&[band(0, 4, 1), band(5, 5, 1)][..], 13),
        (&[band(0, 4, 1), band(5, 9, 1), band(8, LAST_TO, 1)], 12),
        (&[band(1, 1, 1)], 13),
        (&[band(1, LAST_TO, 1)], 12),
        (&[band(0, LAST_TO, 1), band(LAST_TO, LAST_TO, 1)], 13),
    ] {
        assert_eq!(calls::price(bands, &[0], 1, &mut vec![77]), Err(refusal), "{bands:?}");
        assert_eq!(same_price(bands, &[0], 1, &[77]), Err(refusal));
    }
}

/// One fault of one kind each, and pairs of faults at one band and at two.
fn one_fault_each() {
    let good = [band(0, 10, 1), band(10, 20, 2), band(20, LAST_TO, 3)];
    let with = |changes: &[(usize, Band)]| {
        let mut bands = good.to_vec();
        changes.iter().for_each(|(place, b)| bands[*place] = *b);
        same_price(&bands, &[0, 100, 400], 3, &[9; 4])
    };
    assert_eq!(with(&[]), Ok(6));
    for (place, b, refusal) in [
        (0, band(1, 10, 1), 12),
        (0, band(10, 10, 1), 13),
        (0, band(11, 10, 1), 13),
        (0, band(0, 0, 1), 13),
        (0, band(0, 9, 1), 12),
        (0, band(0, 11, 1), 13),
        (0, band(0, LAST_TO, 1), 13),
        (0, band(0, LAST_TO + 1, 1), 13),
        (0, band(1, LAST_TO + 1, 1), 13),
        (1, band(11, 20, 2), 12),
        (1, band(9, 20, 2), 13),
        (1, band(0, 20, 2), 13),
        (1, band(10, 10, 2), 13),
        (1, band(10, 5, 2), 13),
        (1, band(11, 11, 2), 13),
        (1, band(11, u32::MAX, 2), 13),
        (1, band(10, u32::MAX, 2), 13),
        (1, band(10, 19, 2), 12),
        (1, band(10, 21, 2), 13),
        (2, band(21, LAST_TO, 3), 12),
        (2, band(19, LAST_TO, 3), 13),
        (2, band(20, LAST_TO - 1, 3), 12),
        (2, band(20, LAST_TO + 1, 3), 13),
        (2, band(20, u32::MAX, 3), 13),
        (2, band(20, 20, 3), 13),
        (2, band(20, 0, 3), 13),
        (2, band(21, LAST_TO - 1, 3), 12),
        (2, band(19, LAST_TO - 1, 3), 13),
        (2, band(21, LAST_TO + 1, 3), 13),
        (2, band(LAST_TO, LAST_TO, 3), 13),
    ] {
        assert_eq!(with(&[(place, b)]), Err(refusal), "{place} {b:?}");
        for at in 0..3 {
            let mut both = good;
            both[place] = b;
            for (price, refusal) in [(MOST_PRICE, refusal), (MOST_PRICE + 1, 14), (u32::MAX, 14)] {
                both[at].price = price;
                assert_eq!(same_price(&both, &[0], 1, &[9]), Err(refusal), "{both:?}");
            }
        }
    }
    // a fault of an earlier band before one of a later band, whichever numbers they have
    let (gap, overlap) = (band(11, 20, 2), band(9, 20, 2));
    assert_eq!(with(&[(1, gap), (2, band(19, LAST_TO, 3))]), Err(12));
    assert_eq!(with(&[(1, overlap), (2, band(21, LAST_TO, 3))]), Err(13));
    assert_eq!(with(&[(0, band(1, 10, 1)), (1, overlap)]), Err(12));
    assert_eq!(with(&[(0, band(0, 11, 1)), (2, band(21, LAST_TO, 3))]), Err(13));
    assert_eq!(with(&[(0, band(1, 10, 1)), (2, band(20, 20, 3))]), Err(12));
    assert_eq!(with(&[(1, band(10, 10, 2)), (2, band(20, LAST_TO - 1, 3))]), Err(13));
    // a band after one that ends low is judged against that low end, and one after an empty band against its end
    assert_eq!(with(&[(1, band(10, 15, 2)), (2, band(15, LAST_TO, 3))]), Ok(1 + 2 + 3));
    assert_eq!(with(&[(1, band(10, 15, 2)), (2, band(20, LAST_TO, 3))]), Err(12));
}

/// Every table of up to three bands whose ends are among seven, with lawful prices and with one that is too high.
fn every_short_table() {
    let ends = [0, 1, 2, LAST_TO - 1, LAST_TO, LAST_TO + 1, u32::MAX];
    let records: Vec<(u32, u32)> = ends.iter().flat_map(|&from| ends.map(|to| (from, to))).collect();
    assert_eq!(records.len(), 49);
    let telling = around_squares([0, 1, 2, LAST_TO - 1, LAST_TO]);
    assert!(telling.contains(&0) && telling.contains(&3) && telling.contains(&4) && telling.contains(&(END - 1)));
    let n = telling.len() as u32;
    let (mut at_end, mut greatest) = (telling.clone(), telling.clone());
    at_end[5] = END;
    greatest.push(u64::MAX);
    let before: Vec<u32> = (0..n + 3).map(|i| 900 + i).collect();
    let (mut seen, mut tables) = ([0u32; 15], 0);
    for length in 0..4 {
        for which in 0..49usize.pow(length) {
            tables += 1;
            progress(tables, 120_100);
            // lawful prices, no two alike in one table
            let price = |i: usize| [0, MOST_PRICE, 7][(tables + i) % 3];
            let mut bands = Vec::new();
            for i in 0..length as usize {
                let (from, to) = records[which / 49usize.pow(i as u32) % 49];
                bands.push(band(from, to, price(i)));
            }
            let told = same_price(&bands, &telling, n, &before);
            assert_eq!(told.is_ok(), model::lawful_table(&bands), "{bands:?}");
            seen[told.err().unwrap_or(0) as usize] += 1;
            let unlawful = told.err();
            // with 7, with 6 and 7 both, and by the entries before the fault
            assert_eq!(same_price(&bands, &at_end, n, &before), Err(unlawful.unwrap_or(7)));
            assert_eq!(same_price(&bands, &greatest, n + 1, &before), Err(unlawful.unwrap_or(7)));
            assert_eq!(same_price(&bands, &greatest, n + 1, &before[..n as usize]), Err(unlawful.unwrap_or(6)));
            assert_eq!(same_price(&bands, &greatest, n, &before), told);
            // with too high a price at one band, which goes before all of them
            if let Some(b) = bands.get_mut(tables % length.max(1) as usize) {
                b.price = MOST_PRICE + 1;
                assert_eq!(same_price(&bands, &at_end, n, &before), Err(14));
            }
        }
    }
    assert_eq!(tables, 120_100);
    // one band; two, with one of three ends between; three, with two of them
    assert_eq!((seen[0], seen[14]), (1 + 3 + 3, 1));
    assert!(seen[12] > 10_000 && seen[13] > 10_000, "{seen:?}");
}

/// Ends of so many bands, strictly ascending, the last where it must be: close together, spread over all, or near the end.
fn ends(r: &mut Random, bands: usize) -> Vec<u32> {
    let kind = r.below(4);
    let mut inner = BTreeSet::new();
    while inner.len() + 1 < bands {
        let end = match kind {
            0 => 1 + r.below(400) as u32,
            1 => LAST_TO - 1 - r.below(400) as u32,
            2 => [1, 2, LAST_TO - 2, LAST_TO - 1, 65_535, 65_536, 1 << 31, 3 + r.below(400) as u32][r.below(8)],
            _ => 1 + r.below(LAST_TO as usize - 1) as u32,
        };
        inner.insert(end);
    }
    inner.into_iter().chain([LAST_TO]).collect()
}

/// A lawful table of so many bands.
fn lawful_bands(r: &mut Random, bands: usize) -> Vec<Band> {
    let mut from = 0;
    let price = |r: &mut Random| match r.below(3) {
        0 => [0, 1, MOST_PRICE - 1, MOST_PRICE][r.below(4)],
        _ => r.below(MOST_PRICE as usize + 1) as u32,
    };
    let each = ends(r, bands).into_iter().map(|to| {
        let b = band(from, to, price(r));
        from = to;
        b
    });
    each.collect()
}

/// Spoils one band: a gap, an overlap, an empty band, one past the end, a last to that is too low, or too high a price.
fn spoil(r: &mut Random, bands: &mut [Band]) {
    if bands.is_empty() {
        return;
    }
    let place = r.below(bands.len());
    let by = if r.once_in(2) { 1 } else { 1 + r.below(1_000) as u32 };
    let last = bands.len() - 1;
    match r.below(8) {
        0 => bands[place].from = bands[place].from.saturating_add(by),
        1 => bands[place].from = bands[place].from.saturating_sub(by),
        2 => bands[place].to = bands[place].from,
        3 => bands[place].to = bands[place].from.saturating_sub(by),
        4 => bands[place].to = [LAST_TO + 1, LAST_TO + by, u32::MAX][r.below(3)],
        5 => bands[last].to = bands[last].to.saturating_sub(by),
        6 => bands[place].price = [MOST_PRICE + 1, MOST_PRICE + by, u32::MAX][r.below(3)],
        _ => {
            let other = r.below(bands.len());
            bands.swap(place, other);
        }
    }
}

/// A squared distance: any, a small one, or one at or beside the square of one of the ends.
fn distance(r: &mut Random, bands: &[Band]) -> u64 {
    match r.below(4) {
        0 => r.next() % END,
        1 => r.below(12_000) as u64,
        _ if bands.is_empty() => 0,
        _ => {
            let end = square(bands[r.below(bands.len())].to);
            [end.saturating_sub(1), end, end + 1][r.below(3)].min(END - 1)
        }
    }
}

/// Lawful tables and spoiled ones, with columns long enough and not, and distances below the end and not.
fn random_tables(r: &mut Random) {
    let mut seen = [0u32; 15];
    let mut faults: BTreeMap<(u32, &str), u32> = BTreeMap::new();
    let mut faulty = [0u32; 3];
    let rounds = 60_000;
    for round in 0..rounds {
        progress(round, rounds);
        let length = [1, 2, 3, 5, 63, 64, 1 + r.below(64)][r.below(7)];
        let mut bands = lawful_bands(r, length);
        assert!(model::lawful_table(&bands));
        for _ in 0..[0, 1, 1, 2][r.below(4)] {
            spoil(r, &mut bands);
        }
        match r.below(40) {
            0 => bands.clear(),
            1 => bands = lawful_bands(r, 65),
            2 => bands = lawful_bands(r, 66 + bands.len()),
            _ => {}
        }
        let entries = [0, 1, 2, 7, 30][r.below(5)];
        let mut column: Vec<u64> = (0..entries + r.below(3)).map(|_| distance(r, &bands)).collect();
        let mut room = entries + r.below(3);
        if r.once_in(8) && !column.is_empty() {
            let at = r.below(column.len());
            column[at] = [END, END + 1, u64::MAX][r.below(3)];
        }
        if r.once_in(10) {
            match r.below(2) {
                0 => room = entries.saturating_sub(1),
                _ => column.truncate(entries.saturating_sub(1)),
            }
        }
        let told = same_price(&bands, &column, entries as u32, &numbers(r, room)).err().unwrap_or(0);
        assert_eq!(model::lawful_table(&bands), [0, 6, 7].contains(&told), "{bands:?}");
        seen[told as usize] += 1;
        if [12, 13].contains(&told) {
            let place = (0..bands.len()).find(|i| !model::band_faults(&bands, *i).is_empty()).unwrap();
            model::band_faults(&bands, place).iter().for_each(|f| *faults.entry(*f).or_default() += 1);
            faulty[if place == 0 { 0 } else if place + 1 < bands.len() { 1 } else { 2 }] += 1;
        }
    }
    for number in [0, 6, 7, 12, 13, 14] {
        assert!(seen[number] > 500, "{seen:?}");
    }
    // each kind of fault decided, at a first band, at one between and at a last one
    assert!(faults.len() == 6 && faults.values().all(|n| *n > 50), "{faults:?}");
    assert!(faulty.iter().all(|n| *n > 500), "{faulty:?}");
}

/// 1 and 64 bands are accepted, 0 and 65 are not, nor any more.
fn number_of_bands(r: &mut Random) {
    for length in 0..200 {
        let bands = if length == 0 { Vec::new() } else { lawful_bands(r, length) };
        let told = same_price(&bands, &[0, END - 1], 2, &[8, 9, 10]);
        assert_eq!(told.err(), if (1..=64).contains(&length) { None } else { Some(14) }, "{length} bands");
        // where the number is wrong, no other fault is told
        let mut spoiled = bands.clone();
        spoil(r, &mut spoiled);
        let told = same_price(&spoiled, &[END], 2, &[]);
        assert!((1..=64).contains(&length) || told == Err(14), "{length} bands");
    }
    // the highest price at any band, and one more
    for length in [1, 2, 64] {
        let good = lawful_bands(r, length);
        for place in 0..length {
            let mut bands = good.clone();
            bands[place].price = MOST_PRICE;
            let d = square(bands[place].from);
            let mut column = vec![5];
            assert_eq!(calls::price(&bands, &[d], 1, &mut column), Ok(MOST_PRICE as u64));
            assert_eq!(column, [MOST_PRICE]);
            bands[place].price = MOST_PRICE + 1;
            assert_eq!(same_price(&bands, &[d], 1, &[5]), Err(14));
        }
    }
}

fn any_band(r: &mut Random) -> Band {
    band(r.next() as u32, r.next() as u32, r.next() as u32)
}

/// Each place of tables of 0 to 70 bands, those past the table, and places that are below it in their low bits alone.
fn edits(r: &mut Random) {
    for length in 0..=70u32 {
        let bands: Vec<Band> = (0..length).map(|_| any_band(r)).collect();
        for place in 0..length {
            // any record at all, one with a fault of its own, and the one that stands there
            for new in [any_band(r), band(u32::MAX, 0, u32::MAX), band(7, 7, 0), bands[place as usize]] {
                assert_eq!(same_edit(&bands, place, new), Ok(place));
                let mut after = bands.clone();
                assert_eq!(calls::edit_band(&mut after, place, new), Ok(place));
                assert_eq!(after[place as usize], new);
                after[place as usize] = bands[place as usize];
                assert_eq!(after, bands);
            }
        }
        for place in [length, length + 1, 255, 256, 65_535, 65_536, 1 << 31, u32::MAX - 1, u32::MAX] {
            assert_eq!(same_edit(&bands, place, any_band(r)), Err(8));
        }
    }
    // a table that is far too long for pricing
    let long: Vec<Band> = (0..70_000).map(|_| any_band(r)).collect();
    for place in [0, 1, 255, 256, 32_768, 65_535, 65_536, 69_999] {
        assert_eq!(same_edit(&long, place, any_band(r)), Ok(place));
    }
    for place in [70_000, 70_001, u32::MAX] {
        assert_eq!(same_edit(&long, place, any_band(r)), Err(8));
    }
}

/// A lawful table is edited into another one, band by band, in any order; pricing judges each table between.
fn edited_into_another(r: &mut Random) {
    let mut unlawful = 0;
    for _ in 0..400 {
        let length = 1 + r.below(64);
        let (mut bands, new) = (lawful_bands(r, length), lawful_bands(r, length));
        let mut places: Vec<usize> = (0..length).collect();
        shuffle(r, &mut places);
        let column: Vec<u64> = (0..9).map(|_| distance(r, &new)).collect();
        for place in places {
            assert_eq!(calls::edit_band(&mut bands, place as u32, new[place]), Ok(place as u32));
            unlawful += same_price(&bands, &column, 9, &numbers(r, 9)).is_err() as u32;
        }
        assert_eq!(bands, new);
        assert!(same_price(&bands, &column, 9, &numbers(r, 9)).is_ok());
    }
    assert!(unlawful > 1_000, "{unlawful}");
}

fn shuffle<T>(r: &mut Random, all: &mut [T]) {
    for i in (1..all.len()).rev() {
        all.swap(i, r.below(i + 1));
    }
}

/// 4,096 entries and 64 bands, ascending and in other orders, each end's square among them.
fn most_entries(r: &mut Random) {
    let bands = spread_bands(r, |i| 15_625 * (i + 1) as u32);
    let at_ends = bands[..63].iter().map(|b| square(b.to));
    let mut distances = around_squares(bands.iter().map(|b| b.to));
    assert_eq!(distances.len(), 63 * 3 + 1);
    while distances.len() < 4_096 {
        let root = 1 + r.below(LAST_TO as usize) as u64;
        distances.push(root * root - 1);
    }
    distances.sort();
    let ascending = distances.clone();
    let descending: Vec<u64> = ascending.iter().rev().copied().collect();
    let mut shuffled = ascending.clone();
    shuffle(r, &mut shuffled);
    let expected = model::price(&bands, &ascending, 4_096, 4_096).unwrap().1;
    for column in [&ascending, &descending, &shuffled] {
        assert_eq!(same_price(&bands, column, 4_096, &numbers(r, 4_096)), Ok(expected));
        assert_eq!(same_price(&bands, column, 4_096, &numbers(r, 4_099)), Ok(expected));
        for entries in [0, 1, 63, 64, 65, 4_095] {
            same_price(&bands, column, entries, &numbers(r, 4_096)).unwrap();
        }
        // a distance too great at any place of the entries
        for place in [0, 1, 2_047, 4_094, 4_095] {
            let mut spoiled = column.to_vec();
            spoiled[place] = END;
            assert_eq!(same_price(&bands, &spoiled, 4_096, &numbers(r, 4_096)), Err(7));
            assert_eq!(same_price(&bands, &spoiled, place as u32, &numbers(r, 4_096)).err(), None);
        }
    }
    // an end's square is priced in the band above it, one less in the band below, whatever was priced before
    for (i, d) in at_ends.enumerate() {
        let (below, above) = (15_625 * (i + 1) as u32, 15_625 * (i + 2) as u32);
        for column in [[d - 1, d, d + 1, d, d - 1], [d, d - 1, d, d - 1, d + 1]] {
            let mut prices = vec![3; 6];
            let total = calls::price(&bands, &column, 5, &mut prices).unwrap();
            let expected = column.map(|e| if e < d { below } else { above });
            assert_eq!((&prices[..5], prices[5]), (&expected[..], 3));
            assert_eq!(total, expected.iter().map(|p| *p as u64).sum::<u64>());
        }
    }
    // every price the highest: as great as a total can be
    let dear = spread_bands(r, |_| MOST_PRICE);
    assert_eq!(same_price(&dear, &shuffled, 4_096, &numbers(r, 4_096)), Ok(4_096_000_000));
    assert_eq!(same_price(&[band(0, LAST_TO, 1)], &shuffled, 4_096, &numbers(r, 4_096)), Ok(4_096));
    assert_eq!(same_price(&[band(0, LAST_TO, 0)], &shuffled, 4_096, &numbers(r, 4_096)), Ok(0));
}

/// 64 bands spread over all distances, no two ends nearer than 1,000.
fn spread_bands(r: &mut Random, price: impl Fn(usize) -> u32) -> Vec<Band> {
    let width = LAST_TO / 64;
    let mut from = 0;
    let each = (0..64).map(|i| {
        let to = if i == 63 { LAST_TO } else { width * (i as u32 + 1) - r.below(width as usize - 1_000) as u32 };
        let b = band(from, to, price(i));
        from = to;
        b
    });
    each.collect()
}

/// Columns as long as the entries, one short and longer; 4,096 entries, one more, and none at all.
fn room(r: &mut Random) {
    let bands = [band(0, 10, 5), band(10, LAST_TO, 7)];
    for entries in [0, 1, 2, 5, 40, 4_095, 4_096, 4_097, 4_100] {
        let around = [entries as usize, entries as usize + 1, (entries as usize).saturating_sub(1)];
        for distances in around {
            for prices in around {
                let column: Vec<u64> = (0..distances).map(|_| distance(r, &bands)).collect();
                let told = same_price(&bands, &column, entries, &numbers(r, prices));
                let short = distances < entries as usize || prices < entries as usize;
                assert_eq!(told.err(), if short || entries > 4_096 { Some(6) } else { None });
            }
        }
    }
    assert_eq!(same_price(&bands, &[], 0, &[]), Ok(0));
    for entries in [1, 4_096, 4_097, 65_536, 1 << 31, u32::MAX] {
        assert_eq!(same_price(&bands, &[], entries, &[]), Err(6));
    }
    let long = vec![0; 70_000];
    for entries in [4_097, 65_535, 65_536, 65_537, 70_000, u32::MAX] {
        assert_eq!(same_price(&bands, &long, entries, &vec![4; 70_000]), Err(6));
    }
}

/// 14, then 12 or 13, then 6, then 7, wherever several faults stand together.
fn refusals_in_order() {
    let good = [band(0, 10, 5), band(10, LAST_TO, 7)];
    let tables = [
        (0, good.to_vec()),
        (12, vec![band(0, 10, 5), band(11, LAST_TO, 7)]),
        (12, vec![band(1, 10, 5), band(9, LAST_TO, 7)]),
        (12, vec![band(0, 10, 5), band(10, LAST_TO - 1, 7)]),
        (13, vec![band(0, 10, 5), band(9, LAST_TO, 7)]),
        (13, vec![band(1, 1, 5), band(10, LAST_TO, 7)]),
        (13, vec![band(0, 10, 5), band(11, LAST_TO + 1, 7)]),
        (14, vec![]),
        (14, vec![band(0, LAST_TO, 1); 65]),
        (14, vec![band(1, 10, 5), band(9, LAST_TO, MOST_PRICE + 1)]),
        (14, vec![band(1, 1, MOST_PRICE + 1), band(9, 9, 7)]),
    ];
    let columns = [vec![0, 100, 99], vec![0, END, 99], vec![u64::MAX, 0, 99], vec![0, 100, END]];
    let mut seen = [0; 15];
    for (fault, bands) in &tables {
        for column in &columns {
            for lent in [column.len(), column.len() - 1] {
                for room in [2, 3, 4] {
                    for entries in [0, 2, 3, 4, 4_097] {
                        let n = entries as usize;
                        let short = lent < n || room < n || n > 4_096;
                        let far = !short && column[..n].iter().any(|d| *d >= END);
                        let later = if short { 6 } else if far { 7 } else { 0 };
                        let number = if *fault == 0 { later } else { *fault };
                        let told = same_price(bands, &column[..lent], entries, &vec![8; room]);
                        assert_eq!(told.err().unwrap_or(0), number, "{bands:?} {column:?} {lent} {room} {entries}");
                        seen[number as usize] += 1;
                    }
                }
            }
        }
    }
    for number in [0, 6, 7, 12, 13, 14] {
        assert!(seen[number] > 10, "{seen:?}");
    }
}

/// The entries of K lists priced, in the columns that hold them: none is ever too far.
fn k_lists_priced(r: &mut Random) {
    let mut priced = 0;
    for round in 0..3_000 {
        let (n, m) = ([0, 1, 5, 12, 40][r.below(5)], [1, 5, 12, 40][r.below(4)]);
        let (a, b) = (Columns::of(&lawful(r, round, n)), Columns::of(&lawful(r, round, m)));
        let k = 1 + r.below(60);
        let room = k + r.below(3);
        let mut list = Results {
            distance: (0..room).map(|_| u64::MAX - r.below(9) as u64).collect(),
            first: numbers(r, room),
            second: numbers(r, room),
        };
        let way = WAYS[r.below(3)];
        let (entries, _) = calls::k_list(way, &a, &b, k as u32, &mut list).unwrap();
        let length = 1 + r.below(64);
        let bands = lawful_bands(r, length);
        let mut prices = numbers(r, room);
        let past = prices[entries as usize..].to_vec();
        let total = same_price(&bands, &list.distance, entries, &prices);
        assert_eq!(calls::price(&bands, &list.distance, entries, &mut prices), total);
        assert_eq!(prices[entries as usize..], past);
        // entry by entry from the sites, not from the columns
        let (p, q) = (a.sites(a.x.len()), b.sites(b.x.len()));
        let mut sum = 0;
        for i in 0..entries as usize {
            let d = model::squared_distance(p[list.first[i] as usize], q[list.second[i] as usize]);
            let held = bands.iter().find(|b| square(b.from) <= d && d < square(b.to)).unwrap();
            assert_eq!(prices[i], held.price);
            sum += held.price as u64;
        }
        assert_eq!(total, Ok(sum));
        priced += (entries > 5) as u32;
    }
    assert!(priced > 500, "{priced}");
    // the greatest squared distance there is
    let (a, b) = (Columns::of(&[site(MIN, MIN, 0).up(LOWEST)]), Columns::of(&[site(MAX, MAX, 0).up(HIGHEST)]));
    let mut list = Results { distance: vec![0], first: vec![0], second: vec![0] };
    calls::k_list(WAYS[0], &a, &b, 1, &mut list).unwrap();
    assert_eq!(list.distance, [8_000_000_000_400_000_000]);
    let bands = [band(0, LAST_TO - 1, 3), band(LAST_TO - 1, LAST_TO, 4)];
    assert_eq!(same_price(&bands, &list.distance, 1, &[9]), Ok(4));
    // lists F, at 5, 9 and 16, by bands that end at 3
    let (a, b) = f();
    let mut list = Results { distance: vec![0; 3], first: vec![0; 3], second: vec![0; 3] };
    calls::k_list(WAYS[0], &Columns::of(&a), &Columns::of(&b), 3, &mut list).unwrap();
    let bands = [band(0, 3, 100), band(3, LAST_TO, 30)];
    let mut prices = vec![0; 3];
    assert_eq!(calls::price(&bands, &list.distance, 3, &mut prices), Ok(160));
    assert_eq!(prices, [100, 30, 30]);
}

pub fn run(h: &mut Harness) {
    h.test("bands: worked examples", fixed_examples);
    h.test("bands: each fault of a band, alone and beside another", one_fault_each);
    h.test("bands: every table of up to three bands with seven ends", every_short_table);
    h.test("bands: random tables, lawful and spoiled", || random_tables(&mut Random::new(131)));
    h.test("bands: 1 to 64 of them, and too high a price at any", || number_of_bands(&mut Random::new(132)));
    h.test("bands: edits at every place and past the table", || edits(&mut Random::new(133)));
    h.test("bands: one table edited into another", || edited_into_another(&mut Random::new(134)));
    h.test("price: 4,096 entries and 64 bands, in any order", || most_entries(&mut Random::new(135)));
    h.test("price: columns as long as the entries, and one short", || room(&mut Random::new(136)));
    h.test("price: refusals in their order", refusals_in_order);
    h.test("price: the entries of K lists", || k_lists_priced(&mut Random::new(137)));
}
