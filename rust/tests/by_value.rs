//! The book passed by value gives the plain book's answers and images.

use contribution_book::samples::{self, entries};
use contribution_book::{by_value, plain, plain::*};
use std::collections::BTreeSet;

/// Both books after the same postings, whose answers are compared.
fn posted(entries: &[Raw]) -> (plain::Book, by_value::Book) {
    let mut plain = plain::Book::fresh();
    let mut by_value = by_value::Book::fresh();
    for raw in entries {
        let (next, reply) = by_value.post(raw);
        assert_eq!(reply, plain.post(raw));
        by_value = next;
    }
    (plain, by_value)
}

/// Saves both books and compares their images.
fn saved(plain: &plain::Book, by_value: by_value::Book) -> Vec<u8> {
    let mut image = [0xEE; LONGEST_IMAGE];
    let mut same = [0xEE; LONGEST_IMAGE];
    let (refusal, length) = plain.save(&mut image);
    let (_, same_refusal, same_length) = by_value.save(&mut same);
    assert_eq!((refusal, length), (same_refusal, same_length));
    assert_eq!(image, same);
    image[..length].to_vec()
}

#[test]
fn postings_and_images() {
    for seed in 1..=10 {
        let (plain, by_value) = posted(&entries(seed));
        let image = saved(&plain, by_value.clone());
        let (loaded, refusal, record) = by_value::Book::load(&image);
        assert_eq!((refusal, record), (0, 0));
        assert!(loaded == by_value);
    }
}

/// The kind and the refusal number, or 0, of each entry of a list.
fn answers(seed: u64) -> Vec<(u8, u8)> {
    let mut book = plain::Book::fresh();
    let answer = |raw: Raw| (raw.kind, book.post(&raw).refusal);
    entries(seed).into_iter().map(answer).collect()
}

#[test]
fn the_lists_have_accepted_and_refused_entries() {
    let mut accepted = BTreeSet::new();
    let mut refusals = BTreeSet::new();
    for (kind, refusal) in (1..=10).flat_map(answers) {
        match refusal {
            0 => accepted.insert(kind),
            _ => refusals.insert(refusal),
        };
    }
    assert!(accepted.into_iter().eq(CONTRIBUTION..=LAST_POSTED_KIND));
    assert!(refusals
        .into_iter()
        .eq([8, 9, 10, 11, 12, 13, 16, 24, 25, 26]));
}

#[test]
fn damaged_images() {
    let (plain, by_value) = posted(&entries(1));
    let image = saved(&plain, by_value);
    // A step of 7 meets every field of records of 24 bytes.
    for at in (0..image.len()).step_by(7) {
        let mut bytes = image.clone();
        bytes[at] ^= 1;
        let (plain, refusal, record) = plain::Book::load(&bytes);
        let (by_value, same_refusal, same_record) = by_value::Book::load(&bytes);
        assert_eq!((refusal, record), (same_refusal, same_record));
        saved(&plain, by_value);
    }
}

#[test]
fn a_bill_of_zero_days_served_is_refused_when_posted_and_loads() {
    let bill = samples::entry(BILL, 1, 1, 0);
    let (plain, by_value) = posted(&[Raw { b: 0, ..bill }, bill]);
    let mut image = saved(&plain, by_value);
    // The days served of the record.
    let served = RECORD + 22;
    assert_eq!((image.len(), image[served]), (2 * RECORD, bill.b));
    image[served] = 0;
    let (plain, refusal, record) = plain::Book::load(&image);
    assert_eq!((refusal, record), (0, 0));
    let (by_value, refusal, record) = by_value::Book::load(&image);
    assert_eq!((refusal, record), (0, 0));
    assert_eq!(saved(&plain, by_value), image);
}

#[test]
fn carry_overs() {
    for seed in 1..=10 {
        let entries = entries(seed);
        let mut plain = plain::Book::fresh();
        let mut results = [9; 301];
        let mut same = [9; 301];
        assert_eq!(plain.carry_over(&entries, &mut results), 0);
        let (by_value, refusal) = by_value::Book::fresh().carry_over(&entries, &mut same);
        assert_eq!(refusal, 0);
        assert_eq!(results, same);
        saved(&plain, by_value.clone());

        let (unchanged, refusal) = by_value.clone().carry_over(&entries, &mut same[..299]);
        assert_eq!(refusal, 22);
        assert_eq!(results, same);
        assert!(unchanged == by_value);
    }
}

/// Makes a call of the book where it is.
fn call<T>(
    book: &mut by_value::Book,
    call: impl FnOnce(by_value::Book) -> (by_value::Book, T),
) -> T {
    let (next, answer) = call(book.clone());
    *book = next;
    answer
}

/// Both books with bills of three accounts and a run open on them.
fn opened() -> (plain::Book, by_value::Book) {
    let bill = |account| samples::entry(BILL, account, account.into(), 0);
    let (mut plain, mut by_value) = posted(&[bill(1), bill(2), bill(3)]);
    assert_eq!(plain.open_run(2, 9, 1_000), 0);
    assert_eq!(call(&mut by_value, |book| book.open_run(2, 9, 1_000)), 0);
    (plain, by_value)
}

#[test]
fn late_charges_and_images() {
    let (mut plain, mut by_value) = opened();
    for refusal in [0, 0, 0, 28] {
        let reply = call(&mut by_value, by_value::Book::step);
        assert_eq!(reply, plain.step());
        assert_eq!(reply.refusal, refusal);
    }
    let image = saved(&plain, by_value.clone());
    let (loaded, refusal, record) = by_value::Book::load(&image);
    assert_eq!((refusal, record), (0, 0));
    assert!(loaded == by_value);
}

#[test]
fn openings_saves_and_closes_during_a_run() {
    let (mut plain, mut by_value) = opened();
    assert_eq!(plain.open_run(2, 9, 1_000), 28);
    assert_eq!(call(&mut by_value, |book| book.open_run(2, 9, 1_000)), 28);
    assert_eq!(plain.save(&mut []), (29, 0));
    let (_, refusal, length) = by_value.clone().save(&mut []);
    assert_eq!((refusal, length), (29, 0));
    for refusal in [0, 28] {
        assert_eq!(plain.close_run(), refusal);
        assert_eq!(call(&mut by_value, by_value::Book::close_run), refusal);
    }
    saved(&plain, by_value);
}

#[test]
fn statements() {
    let (plain, mut by_value) = posted(&entries(1));
    for account in 0..4 {
        let (next, reply) = by_value.statement(account, 20);
        assert_eq!(reply, plain.statement(account, 20));
        by_value = next;
    }
    saved(&plain, by_value);
}

#[test]
fn contribution_queries() {
    let (plain, mut by_value) = posted(&entries(1));
    for serial in 0..=300 {
        let (next, reply) = by_value.contribution_query(1, 1, serial);
        assert_eq!(reply, plain.contribution_query(1, 1, serial));
        by_value = next;
    }
    saved(&plain, by_value);
}

#[test]
fn years() {
    let (plain, mut by_value) = posted(&entries(1));
    for year in (1_999..=2_014).chain([0, 2_099, 2_100, u16::MAX]) {
        let (next, totals) = by_value.year_totals(year);
        assert_eq!(totals, plain.year_totals(year));
        by_value = next;
    }
    saved(&plain, by_value);
}

#[test]
fn pages() {
    let (plain, mut by_value) = posted(&entries(1));
    for account in 0..4 {
        for length in [PAGE - 1, PAGE, PAGE + 1] {
            let mut page = vec![0xEE; length];
            let mut same = page.clone();
            let reply = plain.page(account, &mut page);
            let (next, refusal, bytes) = by_value.page(account, &mut same);
            assert_eq!(reply, (refusal, bytes));
            assert_eq!(page, same);
            by_value = next;
        }
    }
    saved(&plain, by_value);
}
