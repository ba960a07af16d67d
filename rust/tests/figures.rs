//! The figures and refusals of document 01 and its change requests against the
//! plain book. Expected values are worked out from these documents.

use contribution_book::plain::*;
use contribution_book::printer::write_account;
use contribution_book::samples;
use contribution_book::summed::{corrects, year_totals, Taken};
use std::collections::BTreeSet;

/// An entry of node 1 and account 5 on day 0; a test sets the other fields.
fn entry(kind: u8, serial: u32) -> Raw {
    Raw {
        kind,
        node: 1,
        account: 5,
        serial,
        ..Raw::default()
    }
}

fn contribution(serial: u32, amount: u32, metres: u16, phases: u8) -> Raw {
    Raw {
        amount,
        a: metres,
        b: phases,
        ..entry(CONTRIBUTION, serial)
    }
}

fn added(serial: u32, named_serial: u32, metres: u16) -> Raw {
    Raw {
        named_node: 1,
        named_serial,
        a: metres,
        b: 1,
        ..entry(ADDED_CUSTOMER, serial)
    }
}

fn bill(serial: u32, charge: u32, period: u16, served: u8) -> Raw {
    Raw {
        amount: charge,
        a: period,
        b: served,
        ..entry(BILL, serial)
    }
}

fn payment(serial: u32, amount: u32) -> Raw {
    Raw {
        amount,
        ..entry(PAYMENT, serial)
    }
}

fn deposit(serial: u32, amount: u32, rate: u16) -> Raw {
    Raw {
        amount,
        a: rate,
        ..entry(DEPOSIT, serial)
    }
}

fn deposit_return(serial: u32) -> Raw {
    entry(DEPOSIT_RETURN, serial)
}

fn expiry(serial: u32, named_serial: u32) -> Raw {
    Raw {
        named_node: 1,
        named_serial,
        ..entry(EXPIRY, serial)
    }
}

fn correction(serial: u32, named_serial: u32, amount: u32) -> Raw {
    Raw {
        named_node: 1,
        named_serial,
        amount,
        ..entry(CORRECTION, serial)
    }
}

fn guarantee(serial: u32, amount: u32) -> Raw {
    Raw {
        amount,
        ..entry(GUARANTEE, serial)
    }
}

fn reduction(serial: u32, named_serial: u32) -> Raw {
    Raw {
        named_node: 1,
        named_serial,
        ..entry(REDUCTION, serial)
    }
}

fn retention(serial: u32, named_serial: u32) -> Raw {
    Raw {
        named_node: 1,
        named_serial,
        ..entry(RETENTION, serial)
    }
}

fn late_charge(serial: u32, amount: u32) -> Raw {
    Raw {
        amount,
        ..entry(LATE_CHARGE, serial)
    }
}

fn on(day: u16, raw: Raw) -> Raw {
    Raw { day, ..raw }
}

fn at(account: u16, raw: Raw) -> Raw {
    Raw { account, ..raw }
}

fn book(entries: &[Raw]) -> Book {
    let mut book = Book::fresh();
    for raw in entries {
        assert_eq!(book.post(raw).refusal, 0, "{raw:?}");
    }
    book
}

/// Posts an entry that is accepted; gives settled, paid out, retained and
/// interest.
fn accepted(book: &mut Book, raw: Raw) -> [u64; 4] {
    let number = book.count() as u16 + 1;
    let reply = book.post(&raw);
    assert_eq!((reply.refusal, reply.number), (0, number), "{raw:?}");
    [
        reply.settled,
        reply.paid_out,
        reply.retained,
        reply.interest,
    ]
}

/// Posts an entry that is refused: zeros beside the number, the book
/// unchanged.
fn refused(book: &mut Book, raw: Raw, refusal: u8) {
    let before = book.clone();
    let expected = PostingReply {
        refusal,
        ..PostingReply::default()
    };
    assert_eq!(book.post(&raw), expected, "{raw:?}");
    assert!(*book == before, "{raw:?}");
}

/// Arrears and credit of account 5.
fn balance(book: &Book) -> (u64, u64) {
    let statement = book.statement(5, 0);
    (statement.arrears, statement.credit)
}

/// A book of `count` payments of 1 cent to account 5.
fn payments(count: u32) -> Book {
    let list: Vec<Raw> = (1..=count).map(|serial| payment(serial, 1)).collect();
    book(&list)
}

fn image(book: &Book) -> Vec<u8> {
    let mut bytes = vec![0; 24 * (book.count() + 1)];
    assert_eq!(book.save(&mut bytes), (0, bytes.len()));
    bytes
}

/// The image that has these entries as its records.
fn image_of(entries: &[Raw]) -> Vec<u8> {
    let mut bytes = image(&Book::fresh());
    bytes[4..6].copy_from_slice(&(entries.len() as u16).to_le_bytes());
    for (place, raw) in entries.iter().enumerate() {
        let mut before = entries[..place].iter();
        let previous = before.rposition(|other| other.account == raw.account);
        let next = previous.map_or(0, |previous| previous as u16 + 1);
        let mut record = [0; 24];
        write_record(&mut record, raw, next);
        bytes.extend(record);
    }
    bytes
}

/// Loads an image that is refused: the number, the record and a fresh book.
fn load_refused(bytes: &[u8], refusal: u8, record: u16) {
    let (book, number, place) = Book::load(bytes);
    assert_eq!((number, place), (refusal, record));
    assert!(book == Book::fresh());
}

#[test]
fn p1_to_p5_refunds() {
    let mut book = book(&[contribution(1, 300_000, 200, 1), bill(2, 80_000, 1, 1)]);
    assert_eq!(accepted(&mut book, added(3, 1, 100)), [75_000, 0, 0, 0]);
    assert_eq!(accepted(&mut book, added(4, 1, 200)), [5_000, 95_000, 0, 0]);
    assert_eq!(accepted(&mut book, added(5, 1, 200)), [0, 75_000, 0, 0]);
    assert_eq!(accepted(&mut book, added(6, 1, 200)), [0, 50_000, 0, 0]);
    assert_eq!(accepted(&mut book, added(7, 1, 200)), [0, 0, 0, 0]);
    assert_eq!(balance(&book), (0, 0));
    let expected = ContributionReply {
        amount: 300_000,
        to_arrears: 80_000,
        paid_out: 220_000,
        added: 5,
        ..ContributionReply::default()
    };
    assert_eq!(book.contribution_query(5, 1, 1), expected);
}

#[test]
fn a_refused_customer_does_not_raise_k() {
    let mut book = book(&[contribution(1, 300_000, 200, 1)]);
    refused(&mut book, added(2, 1, 201), 15);
    assert_eq!(accepted(&mut book, added(2, 1, 200)), [0, 150_000, 0, 0]);
}

#[test]
fn the_largest_refund_needs_more_than_32_bits() {
    let mut book = book(&[contribution(1, 100_000_000, 65_535, 1)]);
    let customer = added(2, 1, 65_535);
    assert_eq!(accepted(&mut book, customer), [0, 50_000_000, 0, 0]);
}

#[test]
fn p6_added_customer_and_expiry_days() {
    let start = book(&[on(100, contribution(1, 300_000, 200, 1))]);

    let mut early = start.clone();
    refused(&mut early, on(1_925, expiry(2, 1)), 13);
    let customer = on(1_925, added(2, 1, 100));
    assert_eq!(accepted(&mut early, customer), [0, 75_000, 0, 0]);

    let mut late = start.clone();
    refused(&mut late, on(1_926, added(2, 1, 100)), 12);
    let end = on(1_926, expiry(2, 1));
    assert_eq!(accepted(&mut late, end), [0, 0, 300_000, 0]);
    let expected = ContributionReply {
        amount: 300_000,
        retained: 300_000,
        closed: true,
        ..ContributionReply::default()
    };
    assert_eq!(late.contribution_query(5, 1, 1), expected);
    refused(&mut late, on(100, added(3, 1, 100)), 11);
    refused(&mut late, on(1_926, expiry(3, 1)), 11);
}

/// The first day of five years, and the day on which they end.
const FIVE_YEARS: [(u16, u16); 13] = [
    // 1 January 2000 and 2005.
    (0, 1_827),
    // 28 and 29 February and 1 March 2000; 28 February and 1 March 2005.
    (58, 1_885),
    (59, 1_886),
    (60, 1_886),
    // 10 April 2000 and 2005, the days of P6.
    (100, 1_926),
    // 31 December 2000 and 2005; 1 January 2001 and 2006.
    (365, 2_191),
    (366, 2_192),
    // 28 February 2003 and 2008; 1 March 2003 and 2008.
    (1_154, 2_980),
    (1_155, 2_982),
    // 29 February and 1 March 2004; 1 March 2009.
    (1_520, 3_347),
    (1_521, 3_347),
    // 29 February 2092; 1 March 2097.
    (33_662, 35_489),
    // 31 December 2094 and 2099.
    (34_698, 36_524),
];

/// Days from which five years end after 2099-12-31: 1 January 2095, 29 February
/// 2096, 31 December 2099.
const WITHOUT_END: [u16; 3] = [34_699, 35_123, 36_524];

#[test]
fn a_refund_period_ends_on_the_same_date_five_years_on() {
    for (first, end) in FIVE_YEARS {
        let start = book(&[on(first, contribution(1, 300_000, 200, 1))]);

        let mut last_day = start.clone();
        refused(&mut last_day, on(end - 1, expiry(2, 1)), 13);
        let customer = on(end - 1, added(2, 1, 100));
        assert_eq!(accepted(&mut last_day, customer), [0, 75_000, 0, 0]);

        let mut ended = start;
        refused(&mut ended, on(end, added(2, 1, 100)), 12);
        let raw = on(end, expiry(2, 1));
        assert_eq!(accepted(&mut ended, raw), [0, 0, 300_000, 0]);
    }
}

#[test]
fn a_refund_period_that_does_not_end() {
    for first in WITHOUT_END {
        let mut book = book(&[on(first, contribution(1, 300_000, 200, 1))]);
        refused(&mut book, on(first, expiry(2, 1)), 13);
        refused(&mut book, on(36_524, expiry(2, 1)), 13);
        let customer = on(36_524, added(2, 1, 100));
        assert_eq!(accepted(&mut book, customer), [0, 75_000, 0, 0]);
    }
}

/// Posts bills to fresh books: charge, period, days served and billed.
fn bills_are(figures: &[(u32, u16, u8, u64)]) {
    for &(charge, period, served, billed) in figures {
        let mut book = Book::fresh();
        let raw = bill(1, charge, period, served);
        assert_eq!(accepted(&mut book, raw), [0; 4]);
        assert_eq!(balance(&book), (billed, 0), "{raw:?}");
        assert_eq!(book.statement(5, 1).bills, billed);
    }
}

#[test]
fn p7_p8_billed_amounts() {
    bills_are(&[
        (10_000, 30, 7, 2_333),
        (5, 2, 1, 2),
        (100_000_000, 62, 62, 100_000_000),
    ]);
}

#[test]
fn a_bill_at_a_half_goes_to_the_even_cent() {
    bills_are(&[
        // 1/2, 3/2, 5/2 and 7/2.
        (1, 2, 1, 0),
        (3, 2, 1, 2),
        (5, 2, 1, 2),
        (7, 2, 1, 4),
        // The same of other periods.
        (1, 62, 31, 0),
        (6, 4, 1, 2),
        (3, 30, 25, 2),
        (5, 10, 7, 4),
        // 49,999,998.5 and 49,999,999.5.
        (99_999_997, 2, 1, 49_999_998),
        (99_999_999, 62, 31, 50_000_000),
    ]);
}

#[test]
fn a_bill_beside_a_half_goes_to_the_nearest_cent() {
    bills_are(&[
        // 30, 31 and 32 of 62 parts, after 0, 1 and 2 cents.
        (30, 62, 1, 0),
        (31, 62, 1, 0),
        (32, 62, 1, 1),
        (92, 62, 1, 1),
        (93, 62, 1, 2),
        (94, 62, 1, 2),
        (154, 62, 1, 2),
        (155, 62, 1, 2),
        (156, 62, 1, 3),
    ]);
}

#[test]
fn an_odd_period_has_no_half() {
    bills_are(&[
        (7, 1, 1, 7),
        (1, 3, 1, 0),
        (2, 3, 1, 1),
        (4, 3, 1, 1),
        (5, 3, 1, 2),
        // 30 and 31 of 61 parts, after 0 and 1 cents.
        (30, 61, 1, 0),
        (31, 61, 1, 1),
        (91, 61, 1, 1),
        (92, 61, 1, 2),
    ]);
}

/// Returns deposits of day 0: amount, rate, days and interest.
fn interests_are(figures: &[(u32, u16, u16, u64)]) {
    for &(amount, rate, days, interest) in figures {
        let mut book = book(&[deposit(1, amount, rate)]);
        assert_eq!(book.statement(5, 0).deposit, u64::from(amount));
        let paid_out = u64::from(amount) + interest;
        let raw = on(days, deposit_return(2));
        let expected = [0, paid_out, 0, interest];
        assert_eq!(accepted(&mut book, raw), expected, "{amount} at {rate}");
        assert_eq!(book.statement(5, 0).deposit, 0);
    }
}

#[test]
fn p9_p10_interest() {
    interests_are(&[
        (30_000, 520, 365, 1_560),
        (1_000, 100, 18, 0),
        (1_000, 100, 19, 1),
        // 100,000,000 x 0.2 x 36,524 / 365 = 2,001,315,068.49...
        (100_000_000, 2_000, 36_524, 2_001_315_068),
    ]);
}

#[test]
fn interest_at_a_half_goes_to_the_even_cent() {
    interests_are(&[
        // 1, 3, 5 and 7 times 1,825,000 out of 3,650,000.
        (250, 100, 73, 0),
        (750, 100, 73, 2),
        (250, 100, 365, 2),
        (250, 700, 73, 4),
        // A hundred years of 365 days at 12.5 percent: 12.5 times the deposit,
        // which is 1,249,999,962.5 and 1,249,999,987.5.
        (99_999_997, 1_250, 36_500, 1_249_999_962),
        (99_999_999, 1_250, 36_500, 1_249_999_988),
    ]);
}

#[test]
fn interest_beside_a_half_goes_to_the_nearest_cent() {
    // One day at a hundredth of a percent, out of 3,650,000.
    interests_are(&[
        (1_824_999, 1, 1, 0),
        (1_825_000, 1, 1, 0),
        (1_825_001, 1, 1, 1),
        (5_474_999, 1, 1, 1),
        (5_475_000, 1, 1, 2),
        (5_475_001, 1, 1, 2),
        (9_124_999, 1, 1, 2),
        (9_125_000, 1, 1, 2),
        (9_125_001, 1, 1, 3),
    ]);
}

#[test]
fn refunds_and_reductions_at_a_half_are_rounded_down() {
    // 1/2, 3/2, 5/2 and 7/2.
    for (halves, cents) in [(1, 0), (3, 1), (5, 2), (7, 3)] {
        let mut refunds = book(&[contribution(1, halves, 9, 1)]);
        assert_eq!(accepted(&mut refunds, added(2, 1, 9)), [0, cents, 0, 0]);

        let mut reductions = book(&[guarantee(1, 100), on(365, payment(2, 5 * halves))]);
        let raw = on(365, reduction(3, 1));
        assert_eq!(accepted(&mut reductions, raw), [0, cents, 0, 0]);
    }
}

#[test]
fn a_returned_deposit_settles_arrears_first() {
    let mut book = book(&[deposit(1, 30_000, 520), bill(2, 31_000, 1, 1)]);
    let raw = on(365, deposit_return(3));
    assert_eq!(accepted(&mut book, raw), [31_000, 560, 0, 1_560]);
    assert_eq!(balance(&book), (0, 0));
}

#[test]
fn p11_corrected_bill() {
    let mut book = book(&[on(20, bill(1, 12_000, 1, 1))]);
    assert_eq!(balance(&book), (12_000, 0));
    let first = correction(2, 1, 10_000);
    refused(&mut book, on(19, first), 10);
    assert_eq!(accepted(&mut book, on(20, first)), [2_000, 0, 0, 0]);
    assert_eq!(balance(&book), (10_000, 0));
    refused(&mut book, on(20, correction(3, 1, 9_000)), 16);
}

#[test]
fn p12_corrected_payment() {
    let mut book = book(&[payment(1, 10_000), bill(2, 6_000, 1, 1)]);
    assert_eq!(balance(&book), (0, 4_000));
    assert_eq!(accepted(&mut book, correction(3, 1, 1_000)), [0; 4]);
    assert_eq!(balance(&book), (5_000, 0));
    assert_eq!(book.statement(5, 3).payments, 1_000);
}

#[test]
fn corrections_in_the_other_directions() {
    // The billed 2,333 stands, not the charge of 10,000.
    let mut same = book(&[bill(1, 10_000, 30, 7)]);
    assert_eq!(accepted(&mut same, correction(2, 1, 2_333)), [0; 4]);
    assert_eq!(balance(&same), (2_333, 0));
    refused(&mut same, correction(3, 1, 0), 16);

    let mut grown_bill = book(&[bill(1, 100, 1, 1), payment(2, 150)]);
    assert_eq!(accepted(&mut grown_bill, correction(3, 1, 180)), [0; 4]);
    assert_eq!(balance(&grown_bill), (30, 0));

    let mut grown_payment = book(&[bill(1, 100, 1, 1), payment(2, 40)]);
    let raw = correction(3, 2, 140);
    assert_eq!(accepted(&mut grown_payment, raw), [60, 0, 0, 0]);
    assert_eq!(balance(&grown_payment), (0, 40));
}

#[test]
fn corrections_of_a_bill_at_a_half() {
    // Charge for two days, billed for one, new amount, what the correction
    // settles; arrears and credit after it where the bill was paid.
    let figures = [
        (5, 2, 3, 0, (1, 0)),
        (5, 2, 2, 0, (0, 0)),
        (5, 2, 1, 1, (0, 1)),
        (7, 4, 5, 0, (1, 0)),
        (7, 4, 4, 0, (0, 0)),
        (7, 4, 3, 1, (0, 1)),
    ];
    for (charge, billed, amount, settled, expected) in figures {
        let mut unpaid = book(&[bill(1, charge, 2, 1)]);
        let raw = correction(2, 1, amount);
        assert_eq!(accepted(&mut unpaid, raw), [settled, 0, 0, 0], "{raw:?}");
        assert_eq!(balance(&unpaid), (amount.into(), 0));

        let mut paid = book(&[bill(1, charge, 2, 1), payment(2, billed)]);
        let raw = correction(3, 1, amount);
        assert_eq!(accepted(&mut paid, raw), [0; 4], "{raw:?}");
        assert_eq!(balance(&paid), expected);
    }
}

#[test]
fn byte_figure_in_both_directions() {
    let mut bytes = [0; 48];
    bytes[..6].copy_from_slice(&[0x43, 0x48, 0x42, 0x31, 0x01, 0x00]);
    bytes[24..40].copy_from_slice(&[
        0x04, 0x01, 0x05, 0x00, 0x0A, 0x00, 0x00, 0x00, //
        0x01, 0x00, 0x00, 0x00, 0xC4, 0x09, 0x00, 0x00,
    ]);
    let posted = book(&[on(10, payment(1, 2_500))]);
    assert_eq!(image(&posted), bytes);

    let (loaded, refusal, record) = Book::load(&bytes);
    assert_eq!((refusal, record), (0, 0));
    assert!(loaded == posted);
    let expected = StatementReply {
        credit: 2_500,
        links_read: 1,
        payments: 2_500,
        complete: true,
        ..StatementReply::default()
    };
    assert_eq!(loaded.statement(5, 1), expected);
}

#[test]
fn an_older_image_of_a_bill_at_a_half() {
    // Charge 5, 1 of 2 days.
    let mut bytes = [0; 48];
    bytes[..6].copy_from_slice(&[0x43, 0x48, 0x42, 0x31, 0x01, 0x00]);
    bytes[24..].copy_from_slice(&[
        0x03, 0x01, 0x05, 0x00, 0x0A, 0x00, 0x00, 0x00, //
        0x01, 0x00, 0x00, 0x00, 0x05, 0x00, 0x00, 0x00, //
        0x00, 0x00, 0x00, 0x00, 0x02, 0x00, 0x01, 0x00,
    ]);
    let (loaded, refusal, record) = Book::load(&bytes);
    assert_eq!((refusal, record), (0, 0));
    let expected = StatementReply {
        arrears: 2,
        links_read: 1,
        bills: 2,
        complete: true,
        ..StatementReply::default()
    };
    assert_eq!(loaded.statement(5, 1), expected);
    let mut line = Vec::new();
    write_account(&mut line, 5, &loaded.statement(5, 0)).unwrap();
    assert_eq!(line, b"5 2 0 0 0\n");
    assert!(page(&loaded, 5)[7].ends_with(" 0.02"));
    assert_eq!(image(&loaded), bytes);
}

#[test]
fn older_images_with_entries_after_a_half() {
    // A record has no rounded amount, so the bytes are those saved before. A
    // bill of 2 and a payment of 3 leave a credit of 1. A deposit of 250 without
    // interest settles all but 50 of a bill of 300.
    let paid = [bill(1, 5, 2, 1), payment(2, 3)];
    let returned = [
        deposit(1, 250, 100),
        bill(2, 300, 1, 1),
        on(73, deposit_return(3)),
    ];
    for (entries, expected) in [(&paid[..], (0, 1)), (&returned[..], (50, 0))] {
        let bytes = image(&book(entries));
        let (loaded, refusal, record) = Book::load(&bytes);
        assert_eq!((refusal, record), (0, 0));
        assert_eq!(balance(&loaded), expected);
        assert_eq!(image(&loaded), bytes);
    }
}

#[test]
fn an_older_image_with_an_expiry_1826_days_on() {
    // A contribution of day 0 and its expiry on 1,826, which is 0x0722.
    let mut bytes = [0; 72];
    bytes[..6].copy_from_slice(&[0x43, 0x48, 0x42, 0x31, 0x02, 0x00]);
    bytes[24..48].copy_from_slice(&[
        0x01, 0x01, 0x05, 0x00, 0x00, 0x00, 0x00, 0x00, //
        0x01, 0x00, 0x00, 0x00, 0xC4, 0x09, 0x00, 0x00, //
        0x00, 0x00, 0x00, 0x00, 0xC8, 0x00, 0x01, 0x00,
    ]);
    bytes[48..].copy_from_slice(&[
        0x07, 0x01, 0x05, 0x00, 0x22, 0x07, 0x01, 0x00, //
        0x02, 0x00, 0x00, 0x00, 0x00, 0x00, 0x00, 0x00, //
        0x01, 0x00, 0x00, 0x00, 0x00, 0x00, 0x00, 0x01,
    ]);
    load_refused(&bytes, 13, 2);

    // On 1,827.
    bytes[52] = 0x23;
    let (loaded, refusal, record) = Book::load(&bytes);
    assert_eq!((refusal, record), (0, 0));
    let expected = ContributionReply {
        amount: 2_500,
        retained: 2_500,
        closed: true,
        ..ContributionReply::default()
    };
    assert_eq!(loaded.contribution_query(5, 1, 1), expected);
    assert_eq!(image(&loaded), bytes);
}

#[test]
fn refusals_12_13_and_26_at_load() {
    // From 29 February 2000 to 1 March 2005, day 1,886. 1,885 is 0x075D.
    let contribution = on(59, contribution(1, 300_000, 200, 1));
    let guarantee = on(59, guarantee(1, 50_000));
    // Two entries that load, and the low byte of the second's day on which 12,
    // 13 or 26 refuses it.
    let figures = [
        ([contribution, on(1_885, added(2, 1, 100))], 0x5E, 12),
        ([contribution, on(1_886, expiry(2, 1))], 0x5D, 13),
        ([guarantee, on(1_886, retention(2, 1))], 0x5D, 26),
    ];
    for (entries, byte, refusal) in figures {
        let posted = book(&entries);
        let mut bytes = image(&posted);
        assert!(Book::load(&bytes) == (posted, 0, 0));
        bytes[52] = byte;
        load_refused(&bytes, refusal, 2);
    }
}

#[test]
fn an_image_of_every_kind_loads_as_saved() {
    let mut saved = book(&[
        contribution(1, 300_000, 200, 3),
        bill(2, 80_000, 62, 31),
        Raw {
            b: 3,
            ..added(3, 1, 100)
        },
        payment(4, 7_000),
        deposit(5, 30_000, 520),
        on(365, deposit_return(6)),
        on(1_827, expiry(7, 1)),
        correction(8, 2, 41_000),
        guarantee(9, 50_000),
        on(365, reduction(10, 9)),
        on(1_827, retention(11, 9)),
        Raw {
            node: 2,
            account: 128,
            ..payment(1, 9)
        },
        at(128, bill(12, 1_009, 1, 1)),
    ]);
    opened(&mut saved, (2, 2_000, 150));
    stepped(&mut saved);
    let (loaded, refusal, record) = Book::load(&image(&saved));
    assert_eq!((refusal, record), (0, 0));
    assert!(loaded == saved);
}

/// Posts entries to a fresh book, which refuses each by this number.
fn all_refused(entries: &[Raw], refusal: u8) {
    for &raw in entries {
        refused(&mut Book::fresh(), raw, refusal);
    }
}

#[test]
fn refusals_1_to_4_common_fields() {
    let good = payment(1, 1);
    all_refused(&[0, 12, 13, 255].map(|kind| Raw { kind, ..good }), 1);
    all_refused(&[0, 3].map(|node| Raw { node, ..good }), 2);
    all_refused(&[0, 129].map(|account| Raw { account, ..good }), 3);
    all_refused(&[on(36_525, good)], 4);
    accepted(&mut Book::fresh(), on(36_524, good));
}

#[test]
fn refusal_5_zero_where_the_kind_lists_no_field() {
    let good = payment(1, 1);
    let broken = [
        Raw { a: 1, ..good },
        Raw { b: 1, ..good },
        Raw {
            named_node: 1,
            ..good
        },
        Raw {
            named_serial: 1,
            ..good
        },
        Raw {
            amount: 1,
            ..added(1, 1, 1)
        },
        Raw {
            amount: 1,
            ..deposit_return(1)
        },
        Raw {
            b: 1,
            ..expiry(1, 1)
        },
    ];
    all_refused(&broken, 5);
}

#[test]
fn refusal_5_ranges() {
    let broken = [
        payment(1, 0),
        payment(1, 100_000_001),
        contribution(1, 1, 0, 1),
        contribution(1, 1, 1, 0),
        contribution(1, 1, 1, 2),
        contribution(1, 1, 1, 4),
        added(1, 0, 1),
        added(1, 1, 0),
        Raw {
            named_node: 0,
            ..added(1, 1, 1)
        },
        Raw {
            named_node: 3,
            ..added(1, 1, 1)
        },
        bill(1, 1, 0, 0),
        bill(1, 1, 63, 0),
        bill(1, 1, 30, 31),
        deposit(1, 1, 2_001),
        correction(1, 0, 1),
        correction(1, 1, 100_000_001),
    ];
    all_refused(&broken, 5);
    accepted(&mut Book::fresh(), payment(1, 100_000_000));
}

#[test]
fn refusals_6_and_7_serials_and_a_full_book() {
    let mut book = payments(1_023);
    refused(&mut book, payment(1_023, 1), 6);
    refused(&mut book, payment(0, 1), 6);
    let other = Raw {
        node: 2,
        ..payment(0, 1)
    };
    refused(&mut book, other, 6);
    accepted(&mut book, Raw { serial: 1, ..other });
    refused(&mut book, payment(1_024, 1), 7);
    refused(&mut book, payment(1_023, 1), 6);
}

/// A contribution of three phases on day 100, and a payment.
fn three_phases() -> Book {
    book(&[on(100, contribution(1, 300_000, 200, 3)), payment(2, 1)])
}

/// An added customer on day 100 for that contribution.
fn three_phase_customer() -> Raw {
    Raw {
        day: 100,
        b: 3,
        ..added(3, 1, 200)
    }
}

#[test]
fn refusal_8_named_entries() {
    let mut book = three_phases();
    let customer = three_phase_customer();
    for raw in [
        added(3, 2, 1),
        added(3, 3, 1),
        expiry(3, 2),
        correction(3, 1, 1),
        Raw {
            named_node: 2,
            ..customer
        },
        Raw {
            account: 6,
            ..customer
        },
    ] {
        refused(&mut book, raw, 8);
    }
}

#[test]
fn refusals_10_14_and_15() {
    let mut book = three_phases();
    let customer = three_phase_customer();
    refused(&mut book, on(99, customer), 10);
    refused(&mut book, on(99, expiry(3, 1)), 10);
    refused(&mut book, Raw { b: 1, ..customer }, 14);
    refused(&mut book, Raw { a: 201, ..customer }, 15);
    accepted(&mut book, customer);
}

#[test]
fn refusals_9_and_10_of_deposits() {
    let mut book = Book::fresh();
    refused(&mut book, deposit_return(1), 9);
    accepted(&mut book, on(50, deposit(1, 1, 0)));
    refused(&mut book, deposit(2, 1, 0), 9);
    refused(&mut book, on(49, deposit_return(2)), 10);
    accepted(&mut book, on(50, deposit_return(2)));
    accepted(&mut book, on(50, deposit(3, 1, 0)));
}

#[test]
fn refusal_17_image_length() {
    load_refused(&[], 17, 0);
    let full = image(&payments(1_024));
    assert_eq!(full.len(), 24_600);
    load_refused(&full[..23], 17, 0);
    load_refused(&full[..25], 17, 0);
    load_refused(&full[..LONGEST_IMAGE - 1], 17, 0);
    let mut longer = full.clone();
    longer.resize(LONGEST_IMAGE + 24, 0);
    load_refused(&longer[..LONGEST_IMAGE + 1], 17, 0);
    load_refused(&longer, 17, 0);

    let (loaded, refusal, record) = Book::load(&full);
    assert_eq!((loaded.count(), refusal, record), (1_024, 0, 0));
    let (loaded, refusal, record) = Book::load(&image(&Book::fresh()));
    assert_eq!((refusal, record), (0, 0));
    assert!(loaded == Book::fresh());
}

#[test]
fn refusal_18_mark_and_zeros() {
    let good = image(&payments(1));
    for at in (0..4).chain(6..24) {
        let mut bytes = good.clone();
        bytes[at] ^= 1;
        // 18 comes before 19.
        bytes[4] = 2;
        load_refused(&bytes, 18, 0);
    }
}

#[test]
fn refusal_19_count() {
    let good = image(&payments(1));
    for (low, high) in [(0, 0), (2, 0), (1, 1)] {
        let mut bytes = good.clone();
        bytes[4] = low;
        bytes[5] = high;
        // 19 comes before the records.
        bytes[24] = LAST_KIND + 1;
        load_refused(&bytes, 19, 0);
    }
}

#[test]
fn refusal_20_next_index() {
    let posted = book(&[
        payment(1, 1),
        Raw {
            account: 6,
            ..payment(2, 1)
        },
        payment(3, 1),
    ]);
    let good = image(&posted);
    assert_eq!([good[30], good[54], good[78]], [0, 0, 1]);
    for (record, next) in [(1, 1), (2, 1), (3, 0), (3, 2), (3, 3)] {
        let mut bytes = good.clone();
        bytes[24 * record + 6] = next;
        load_refused(&bytes, 20, record as u16);
        // What a posting is refused by comes before 20 in the same record.
        bytes[24 * record] = LAST_KIND + 1;
        load_refused(&bytes, 1, record as u16);
    }
    let mut high = good.clone();
    high[79] = 1;
    load_refused(&high, 20, 3);
    // The first refusal ends the load.
    high[31] = 1;
    load_refused(&high, 20, 1);
}

#[test]
fn refusal_21_save_buffer() {
    for count in [0, 1, 1_024] {
        let book = payments(count);
        let length = 24 * (count as usize + 1);
        let mut short = vec![0xEE; length - 1];
        assert_eq!(book.save(&mut short), (21, 0));
        assert!(short.iter().all(|&byte| byte == 0xEE));

        let mut longer = vec![0xEE; length + 5];
        assert_eq!(book.save(&mut longer), (0, length));
        assert_eq!(longer[length..], [0xEE; 5]);
        assert_eq!(longer[..length], image(&book));
    }
}

#[test]
fn refusal_22_result_list() {
    let entries = [payment(1, 5), payment(1, 6), payment(2, 7)];
    let mut book = Book::fresh();
    let mut short = [9; 2];
    assert_eq!(book.carry_over(&entries, &mut short), 22);
    assert_eq!(short, [9; 2]);
    assert!(book == Book::fresh());

    let mut longer = [9; 4];
    assert_eq!(book.carry_over(&entries, &mut longer), 0);
    assert_eq!(longer, [0, 6, 0, 9]);
    assert_eq!((book.count(), balance(&book)), (2, (0, 12)));

    assert_eq!(book.carry_over(&[], &mut []), 0);
    let mut exact = [9];
    assert_eq!(book.carry_over(&[payment(3, 1)], &mut exact), 0);
    assert_eq!(exact, [0]);
}

#[test]
fn statement_allowance() {
    let book = book(&[
        contribution(1, 300_000, 200, 1),
        bill(2, 100, 1, 1),
        payment(3, 30),
        Raw {
            account: 6,
            ..bill(4, 9, 1, 1)
        },
    ]);
    // Allowance, links read, bills, payments, complete.
    let figures = [
        (0, 0, 0, 0, false),
        (1, 1, 0, 30, false),
        (2, 2, 100, 30, false),
        (3, 3, 100, 30, true),
        (u64::MAX, 3, 100, 30, true),
    ];
    for (allowance, links_read, bills, payments, complete) in figures {
        let expected = StatementReply {
            refusal: 0,
            arrears: 70,
            credit: 0,
            deposit: 0,
            held: 300_000,
            links_read,
            bills,
            payments,
            complete,
        };
        assert_eq!(book.statement(5, allowance), expected);
    }
}

#[test]
fn statement_of_an_account_without_entries_and_of_none() {
    let book = payments(1);
    let empty = StatementReply {
        complete: true,
        ..StatementReply::default()
    };
    assert_eq!(book.statement(128, 0), empty);
    let refusal = StatementReply {
        refusal: 3,
        ..StatementReply::default()
    };
    assert_eq!(book.statement(0, 9), refusal);
    assert_eq!(book.statement(129, 9), refusal);
}

#[test]
fn contribution_query_refusals() {
    let book = book(&[contribution(1, 300_000, 200, 1), payment(2, 1)]);
    let refusals = [
        (0, 0, 1, 2),
        (5, 3, 1, 2),
        (0, 1, 1, 3),
        (129, 1, 1, 3),
        (5, 1, 0, 8),
        (5, 1, 2, 8),
        (5, 1, 3, 8),
        (5, 2, 1, 8),
        (6, 1, 1, 8),
    ];
    for (account, node, serial, refusal) in refusals {
        let expected = ContributionReply {
            refusal,
            ..ContributionReply::default()
        };
        assert_eq!(book.contribution_query(account, node, serial), expected);
    }
}

#[test]
fn a_reduction_counts_the_payments_of_365_days() {
    let mut book = book(&[
        on(1_000, guarantee(1, 100_000)),
        on(1_635, payment(2, 10_000)),
        on(1_636, payment(3, 2_000)),
        on(2_000, payment(4, 300)),
        on(2_001, payment(5, 40)),
        Raw {
            node: 2,
            ..on(1_800, payment(1, 5_000))
        },
        Raw {
            account: 6,
            ..on(1_800, payment(6, 600_000))
        },
    ]);
    // 2,000 + 300 + 5,000 count. What is paid out is no credit.
    let raw = on(2_000, reduction(7, 1));
    assert_eq!(accepted(&mut book, raw), [0, 730, 0, 0]);
    assert_eq!(balance(&book), (0, 17_340));
    let rest = on(2_826, retention(8, 1));
    assert_eq!(accepted(&mut book, rest), [0, 0, 99_270, 0]);
}

#[test]
fn a_reduction_counts_payments_as_they_stand_at_its_posting() {
    let mut book = book(&[
        guarantee(1, 100_000),
        on(10, payment(2, 700)),
        on(100, payment(3, 5_000)),
        on(380, payment(4, 1_000)),
        // The days of the payments count: 10 is outside, 100 inside.
        on(200, correction(5, 2, 900)),
        on(900, correction(6, 3, 3_000)),
    ]);
    let raw = on(400, reduction(7, 1));
    assert_eq!(accepted(&mut book, raw), [0, 400, 0, 0]);
    accepted(&mut book, on(400, correction(8, 4, 9_000)));
    accepted(&mut book, on(390, payment(9, 70)));
    let rest = on(1_827, retention(10, 1));
    assert_eq!(accepted(&mut book, rest), [0, 0, 99_600, 0]);
}

#[test]
fn the_next_reduction_counts_the_next_365_days() {
    let mut book = book(&[guarantee(1, 100_000), on(365, payment(2, 1_000))]);
    let first = on(365, reduction(3, 1));
    assert_eq!(accepted(&mut book, first), [0, 100, 0, 0]);
    accepted(&mut book, on(366, payment(4, 2_000)));
    accepted(&mut book, on(366, correction(5, 4, 50)));
    // The window of the second begins on day 366.
    let second = on(730, reduction(6, 1));
    assert_eq!(accepted(&mut book, second), [0, 5, 0, 0]);
}

#[test]
fn a_reduction_is_a_tenth_of_the_sum_rounded_down() {
    let figures: [(&[u32], u64); 7] = [
        (&[], 0),
        (&[9], 0),
        (&[10], 1),
        (&[19], 1),
        (&[5, 5], 1),
        (&[9, 9, 9], 2),
        (&[100_000_000, 99_999_999], 19_999_999),
    ];
    for (amounts, tenth) in figures {
        let mut book = book(&[guarantee(1, 50_000_000)]);
        for (&amount, serial) in amounts.iter().zip(2..) {
            accepted(&mut book, on(300, payment(serial, amount)));
        }
        let raw = on(365, reduction(9, 1));
        assert_eq!(accepted(&mut book, raw), [0, tenth, 0, 0], "{amounts:?}");
    }
}

#[test]
fn a_reduction_gives_back_what_is_held_at_most() {
    let mut book = book(&[
        guarantee(1, 700),
        on(100, payment(2, 5_000)),
        on(600, payment(3, 5_000)),
        on(900, payment(4, 5_000)),
    ]);
    let reductions = [(365, 500), (730, 200), (1_095, 0)];
    for ((day, amount), serial) in reductions.into_iter().zip(5..) {
        let raw = on(day, reduction(serial, 1));
        assert_eq!(accepted(&mut book, raw), [0, amount, 0, 0]);
    }
    let rest = on(1_827, retention(8, 1));
    assert_eq!(accepted(&mut book, rest), [0; 4]);
}

#[test]
fn payments_of_a_year_need_more_than_32_bits() {
    let mut book = book(&[guarantee(1, 100_000_000)]);
    for serial in 2..=44 {
        accepted(&mut book, on(1, payment(serial, 100_000_000)));
    }
    // A tenth of 4,300,000,000 is more than is held.
    let raw = on(365, reduction(45, 1));
    assert_eq!(accepted(&mut book, raw), [0, 100_000_000, 0, 0]);
}

#[test]
fn a_reduction_settles_arrears_first() {
    let paid = [guarantee(1, 50_000), on(200, payment(2, 8_000))];
    // Bill, settled, paid out, arrears, credit.
    let figures = [
        (8_000, 0, 800, 0, 0),
        (7_000, 0, 800, 0, 1_000),
        (8_600, 600, 200, 0, 0),
        (8_800, 800, 0, 0, 0),
        (8_900, 800, 0, 100, 0),
    ];
    for (charge, settled, paid_out, arrears, credit) in figures {
        let mut book = book(&paid);
        accepted(&mut book, bill(3, charge, 1, 1));
        let raw = on(365, reduction(4, 1));
        assert_eq!(accepted(&mut book, raw), [settled, paid_out, 0, 0]);
        assert_eq!(balance(&book), (arrears, credit));
        let rest = on(1_827, retention(5, 1));
        assert_eq!(accepted(&mut book, rest), [0, 0, 49_200, 0]);
        assert_eq!(balance(&book), (arrears, credit));
    }
}

#[test]
fn refusal_5_of_guarantees() {
    let mut broken = vec![
        guarantee(1, 0),
        guarantee(1, 100_000_001),
        Raw {
            named_node: 1,
            ..guarantee(1, 1)
        },
        Raw {
            named_serial: 1,
            ..guarantee(1, 1)
        },
    ];
    for good in [reduction(1, 1), retention(1, 1)] {
        broken.push(Raw { amount: 1, ..good });
        broken.extend([0, 3].map(|named_node| Raw { named_node, ..good }));
        broken.push(Raw {
            named_serial: 0,
            ..good
        });
    }
    for good in [guarantee(1, 1), reduction(1, 1), retention(1, 1)] {
        broken.extend([Raw { a: 1, ..good }, Raw { b: 1, ..good }]);
    }
    all_refused(&broken, 5);
    accepted(&mut Book::fresh(), guarantee(1, 1));
    accepted(&mut Book::fresh(), guarantee(1, 100_000_000));
}

#[test]
fn refusal_8_of_guarantees() {
    let mut book = book(&[
        contribution(1, 300_000, 200, 1),
        guarantee(2, 50_000),
        payment(3, 1),
        on(365, reduction(4, 2)),
        Raw {
            account: 6,
            ..guarantee(5, 1)
        },
    ]);
    for named_serial in [1, 3, 4, 5, 6] {
        refused(&mut book, on(5_000, reduction(6, named_serial)), 8);
        refused(&mut book, on(5_000, retention(6, named_serial)), 8);
    }
    for raw in [reduction(6, 2), retention(6, 2)] {
        let named_node = 2;
        refused(&mut book, Raw { named_node, ..raw }, 8);
        refused(&mut book, Raw { account: 6, ..raw }, 8);
    }
    for raw in [added(6, 2, 1), expiry(6, 2), correction(6, 2, 1)] {
        refused(&mut book, on(1_827, raw), 8);
    }
    assert_eq!(book.contribution_query(5, 1, 2).refusal, 8);
}

#[test]
fn refusals_10_and_11_of_guarantees() {
    let mut book = book(&[on(100, guarantee(1, 50_000))]);
    refused(&mut book, on(99, reduction(2, 1)), 10);
    refused(&mut book, on(99, retention(2, 1)), 10);
    accepted(&mut book, on(1_926, retention(2, 1)));
    // 11 comes after 10 and before 25 and 26.
    for raw in [reduction(3, 1), retention(3, 1)] {
        refused(&mut book, on(99, raw), 10);
        for day in [100, 464, 465, 1_925, 1_926, 36_524] {
            refused(&mut book, on(day, raw), 11);
        }
    }
}

#[test]
fn refusal_24_while_a_guarantee_is_open() {
    let mut book = book(&[guarantee(1, 500), on(300, payment(2, 5_000))]);
    refused(&mut book, guarantee(3, 1), 24);
    refused(&mut book, on(36_524, guarantee(3, 1)), 24);
    // 5 and 6 come before it.
    refused(&mut book, guarantee(3, 0), 5);
    refused(&mut book, guarantee(2, 1), 6);
    let other = Raw {
        account: 6,
        ..guarantee(3, 1)
    };
    accepted(&mut book, other);
    // All is given back, and it is still open.
    let raw = on(365, reduction(4, 1));
    assert_eq!(accepted(&mut book, raw), [0, 500, 0, 0]);
    refused(&mut book, on(2_000, guarantee(5, 1)), 24);
    assert_eq!(accepted(&mut book, on(1_827, retention(5, 1))), [0; 4]);
    accepted(&mut book, guarantee(6, 1));
    refused(&mut book, guarantee(7, 1), 24);
    refused(&mut book, on(36_524, reduction(7, 1)), 11);
    accepted(&mut book, on(365, reduction(7, 6)));
}

#[test]
fn a_deposit_and_a_guarantee_are_held_together() {
    let mut book = book(&[guarantee(1, 500), deposit(2, 700, 0)]);
    refused(&mut book, guarantee(3, 1), 24);
    refused(&mut book, deposit(3, 1, 0), 9);
    let raw = on(1_827, deposit_return(3));
    assert_eq!(accepted(&mut book, raw), [0, 700, 0, 0]);
    let rest = on(1_827, retention(4, 1));
    assert_eq!(accepted(&mut book, rest), [0, 0, 500, 0]);
}

#[test]
fn refusal_25_days_of_reductions() {
    let mut book = book(&[on(100, guarantee(1, 50_000))]);
    refused(&mut book, on(100, reduction(2, 1)), 25);
    refused(&mut book, on(464, reduction(2, 1)), 25);
    // One that gives back nothing counts as the last one too.
    assert_eq!(accepted(&mut book, on(465, reduction(2, 1))), [0; 4]);
    refused(&mut book, on(829, reduction(3, 1)), 25);
    accepted(&mut book, on(830, reduction(3, 1)));
    accepted(&mut book, on(1_500, reduction(4, 1)));
    // Before the last one.
    refused(&mut book, on(1_195, reduction(5, 1)), 25);
    refused(&mut book, on(1_864, reduction(5, 1)), 25);
    // After five years, too.
    accepted(&mut book, on(3_000, reduction(5, 1)));
    accepted(&mut book, on(36_524, reduction(6, 1)));
    refused(&mut book, on(36_524, reduction(7, 1)), 25);
}

#[test]
fn refusal_26_days_of_retentions() {
    let mut book = book(&[on(100, guarantee(1, 50_000)), on(300, payment(2, 9_990))]);
    refused(&mut book, on(100, retention(3, 1)), 26);
    accepted(&mut book, on(465, reduction(3, 1)));
    refused(&mut book, on(1_925, retention(4, 1)), 26);
    accepted(&mut book, on(1_800, reduction(4, 1)));
    // The last reduction doesn't count for it.
    let rest = on(1_926, retention(5, 1));
    assert_eq!(accepted(&mut book, rest), [0, 0, 49_001, 0]);
}

#[test]
fn a_guarantee_s_period_ends_on_the_same_date_five_years_on() {
    for (first, end) in FIVE_YEARS {
        let mut book = book(&[on(first, guarantee(1, 50_000))]);
        refused(&mut book, on(end - 1, retention(2, 1)), 26);
        let raw = on(end, retention(2, 1));
        assert_eq!(accepted(&mut book, raw), [0, 0, 50_000, 0]);
    }
}

#[test]
fn a_guarantee_s_period_that_does_not_end() {
    for first in WITHOUT_END {
        let mut book = book(&[on(first, guarantee(1, 50_000))]);
        refused(&mut book, on(first, retention(2, 1)), 26);
        refused(&mut book, on(36_524, retention(2, 1)), 26);
        refused(&mut book, on(36_524, guarantee(2, 1)), 24);
    }
}

#[test]
fn reductions_go_by_365_days_in_a_leap_year_too() {
    let mut book = book(&[
        guarantee(1, 50_000),
        payment(2, 3_000),
        on(1, payment(3, 200)),
    ]);
    refused(&mut book, on(364, reduction(4, 1)), 25);
    // 31 December 2000: the payment of 1 January doesn't count.
    let raw = on(365, reduction(4, 1));
    assert_eq!(accepted(&mut book, raw), [0, 20, 0, 0]);
    refused(&mut book, on(729, reduction(5, 1)), 25);
    assert_eq!(accepted(&mut book, on(730, reduction(5, 1))), [0; 4]);
}

#[test]
fn refusals_24_to_26_at_load() {
    let posted = book(&[
        payment(1, 1),
        guarantee(2, 50_000),
        payment(3, 9),
        on(365, reduction(4, 2)),
        on(1_827, retention(5, 2)),
    ]);
    let good = image(&posted);
    let (loaded, refusal, record) = Book::load(&good);
    assert_eq!((refusal, record), (0, 0));
    assert!(loaded == posted);

    // A place in the record, its byte there, and what refuses it. 364 is
    // 0x016C and 1,826 is 0x0722.
    for (record, at, byte, refusal) in [(3, 0, GUARANTEE, 24), (4, 4, 0x6C, 25), (5, 4, 0x22, 26)] {
        let mut bytes = good.clone();
        bytes[24 * record + at] = byte;
        load_refused(&bytes, refusal, record as u16);
        // Each comes before 20.
        bytes[24 * record + 6] ^= 1;
        load_refused(&bytes, refusal, record as u16);
    }
}

#[test]
fn records_of_guarantees() {
    let posted = book(&[
        on(10, guarantee(1, 2_500)),
        on(375, reduction(2, 1)),
        on(1_837, retention(3, 1)),
    ]);
    let mut bytes = [0; 72];
    bytes[..16].copy_from_slice(&[
        0x09, 0x01, 0x05, 0x00, 0x0A, 0x00, 0x00, 0x00, //
        0x01, 0x00, 0x00, 0x00, 0xC4, 0x09, 0x00, 0x00,
    ]);
    bytes[24..36].copy_from_slice(&[
        0x0A, 0x01, 0x05, 0x00, 0x77, 0x01, 0x01, 0x00, //
        0x02, 0x00, 0x00, 0x00,
    ]);
    bytes[48..60].copy_from_slice(&[
        0x0B, 0x01, 0x05, 0x00, 0x2D, 0x07, 0x02, 0x00, //
        0x03, 0x00, 0x00, 0x00,
    ]);
    for record in [24, 48] {
        bytes[record + 16] = 1;
        bytes[record + 23] = 1;
    }
    assert_eq!(image(&posted)[24..], bytes);
}

#[test]
fn a_statement_and_the_printer_leave_guarantees_out() {
    let book = book(&[
        contribution(1, 300_000, 200, 1),
        guarantee(2, 50_000),
        on(100, payment(3, 2_500)),
        bill(4, 1_000, 1, 1),
        on(365, reduction(5, 2)),
    ]);
    let expected = StatementReply {
        credit: 1_500,
        held: 300_000,
        links_read: 5,
        bills: 1_000,
        payments: 2_500,
        complete: true,
        ..StatementReply::default()
    };
    assert_eq!(book.statement(5, 5), expected);
    let mut line = Vec::new();
    write_account(&mut line, 5, &book.statement(5, 0)).unwrap();
    assert_eq!(line, b"5 0 1500 0 300000\n");
}

/// Entries of all kinds that can be posted but a retention.
fn of_all_kinds() -> [Raw; 13] {
    [
        contribution(1, 60_000, 100, 1),
        guarantee(2, 20_000),
        deposit(3, 30_000, 520),
        on(100, payment(4, 10_000)),
        // Credit is 9,000 then, and after the bill arrears are 3,000.
        on(101, correction(5, 4, 9_000)),
        on(200, bill(6, 12_000, 1, 1)),
        // 15,000: 3,000 to arrears, 12,000 paid out.
        on(300, added(7, 1, 50)),
        on(301, bill(8, 700, 1, 1)),
        // 900: 700 to arrears, 200 paid out.
        on(365, reduction(9, 2)),
        // 31,560 paid out, of it 1,560 interest.
        on(365, deposit_return(10)),
        on(400, deposit(11, 5_000, 0)),
        on(400, bill(12, 50, 1, 1)),
        on(1_827, expiry(13, 1)),
    ]
}

#[test]
fn the_sum_of_an_account() {
    let mut book = Book::fresh();
    let mut totals = [0; 4];
    for raw in of_all_kinds() {
        let amounts = accepted(&mut book, raw);
        totals = [0, 1, 2, 3].map(|at| totals[at] + amounts[at]);
    }
    assert_eq!(totals, [3_700, 43_760, 45_000, 1_560]);
    // A late charge of 5 on arrears of 50.
    opened(&mut book, (1, 500, 1_000));
    stepped(&mut book);
    let expected = StatementReply {
        arrears: 55,
        deposit: 5_000,
        links_read: 14,
        bills: 12_755,
        payments: 9_000,
        complete: true,
        ..StatementReply::default()
    };
    assert_eq!(book.statement(5, 14), expected);
    // Contributions, payments, deposits, guarantees, interest and arrears.
    let came = 60_000 + 9_000 + 35_000 + 20_000 + 1_560 + 55;
    // Bills with late charges, paid out, retained, deposit held: the guarantee
    // holds the rest.
    let rest = came - (12_755 + 43_760 + 45_000 + 5_000);
    assert_eq!(rest, 19_100);
    let raw = on(1_827, retention(15, 2));
    assert_eq!(accepted(&mut book, raw), [0, 0, rest, 0]);
}

/// 80 spaces.
const BLANK: &str =
    "                                                                                ";

/// The account's page as its 66 lines of 80 columns.
fn page(book: &Book, account: u16) -> Vec<String> {
    let mut bytes = vec![0xEE; 5_346];
    assert_eq!(book.page(account, &mut bytes), (0, 5_346));
    let text = String::from_utf8(bytes).expect("the page is text");
    let lines: Vec<String> = text.split_terminator('\n').map(String::from).collect();
    assert_eq!(lines.len(), 66);
    assert!(text.ends_with('\n') && lines.iter().all(|line| line.len() == 80));
    lines
}

/// The page's first lines are these, the others blank.
fn shows(book: &Book, account: u16, expected: &[&str]) {
    let lines = page(book, account);
    let (first, others) = lines.split_at(expected.len());
    assert_eq!(first, expected);
    assert!(others.iter().all(|line| line == BLANK));
}

#[test]
fn pages_without_entries() {
    let book = payments(1);
    let accounts = [
        "  1                                                                             ",
        "128                                                                             ",
    ];
    for (account, first) in [1, 128].into_iter().zip(accounts) {
        let zero =
            "                                                                            0.00";
        shows(&book, account, &[first, BLANK, zero, zero, zero, zero]);
    }
}

#[test]
fn pages_of_the_first_and_last_account() {
    let book = book(&[
        Raw {
            account: 1,
            ..deposit(1, 30_000, 520)
        },
        Raw {
            account: 128,
            ..on(36_524, contribution(2, 300_000, 200, 1))
        },
    ]);
    let first = [
        "  1                                                                             ",
        "                                                                                ",
        "                                                                            0.00",
        "                                                                            0.00",
        "                                                                          300.00",
        "                                                                            0.00",
        "                                                                                ",
        "   1     0  5                                                             300.00",
    ];
    let last = [
        "128                                                                             ",
        "                                                                                ",
        "                                                                            0.00",
        "                                                                            0.00",
        "                                                                            0.00",
        "                                                                         3000.00",
        "                                                                                ",
        "   2 36524  1                                                            3000.00",
    ];
    shows(&book, 1, &first);
    shows(&book, 128, &last);
}

#[test]
fn a_page_has_the_newest_58_entries() {
    let lines = page(&payments(58), 5);
    let newest = "  58     0  4                                                               0.01";
    let last = "   1     0  4                                                               0.01";
    assert_eq!([&lines[7], &lines[64], &lines[65]], [newest, last, BLANK]);

    let lines = page(&payments(59), 5);
    let newest = "  59     0  4                                                               0.01";
    let last = "   2     0  4                                                               0.01";
    assert_eq!([&lines[7], &lines[64], &lines[65]], [newest, last, BLANK]);
    // The figures are of all entries.
    let credit = "                                                                            0.59";
    assert_eq!(lines[3], credit);

    let lines = page(&payments(1_024), 5);
    let newest = "1024     0  4                                                               0.01";
    let last = " 967     0  4                                                               0.01";
    assert_eq!([&lines[7], &lines[64], &lines[65]], [newest, last, BLANK]);
    let numbers = lines[7..65].iter().map(|line| line[..4].trim().parse());
    assert!(numbers.eq((967..=1_024).rev().map(Ok)));
}

#[test]
fn a_page_has_the_entries_of_its_account_alone() {
    let mut book = book(&[on(9, payment(1, 1))]);
    for serial in 2..=101 {
        let raw = on(10, bill(serial, 700, 1, 1));
        accepted(&mut book, Raw { account: 6, ..raw });
    }
    accepted(&mut book, on(12_345, bill(102, 31, 1, 1)));
    let expected = [
        "  5                                                                             ",
        "                                                                                ",
        "                                                                            0.30",
        "                                                                            0.00",
        "                                                                            0.00",
        "                                                                            0.00",
        "                                                                                ",
        " 102 12345  3                                                               0.31",
        "   1     9  4                                                               0.01",
    ];
    shows(&book, 5, &expected);
}

#[test]
fn amounts_on_a_page() {
    let book = book(&[
        bill(1, 1, 62, 1),
        payment(2, 5),
        payment(3, 99),
        payment(4, 100),
        payment(5, 101),
        payment(6, 123_456),
        payment(7, 100_000_000),
    ]);
    let expected = [
        "  5                                                                             ",
        "                                                                                ",
        "                                                                            0.00",
        "                                                                      1001237.61",
        "                                                                            0.00",
        "                                                                            0.00",
        "                                                                                ",
        "   7     0  4                                                         1000000.00",
        "   6     0  4                                                            1234.56",
        "   5     0  4                                                               1.01",
        "   4     0  4                                                               1.00",
        "   3     0  4                                                               0.99",
        "   2     0  4                                                               0.05",
        "   1     0  3                                                               0.00",
    ];
    shows(&book, 5, &expected);
}

#[test]
fn figures_of_a_page_above_32_bits() {
    let mut book = book(&[deposit(1, 7, 0)]);
    for serial in 2..=44 {
        accepted(&mut book, bill(serial, 100_000_000, 1, 1));
    }
    for serial in 45..=88 {
        accepted(&mut book, contribution(serial, 99_999_999, 1, 1));
    }
    let figures = [
        "                                                                     43000000.00",
        "                                                                            0.00",
        "                                                                            0.07",
        "                                                                     43999999.56",
    ];
    assert_eq!(page(&book, 5)[2..6], figures);

    for serial in 89..=131 {
        accepted(&mut book, payment(serial, 100_000_000));
    }
    for serial in 132..=174 {
        accepted(&mut book, payment(serial, 99_999_998));
    }
    let figures = [
        "                                                                            0.00",
        "                                                                     42999999.14",
        "                                                                            0.07",
        "                                                                     43999999.56",
    ];
    assert_eq!(page(&book, 5)[2..6], figures);
}

#[test]
fn standing_amounts_on_a_page() {
    let book = book(&[
        on(10, bill(1, 10_000, 30, 7)),
        on(11, payment(2, 500)),
        on(12, bill(3, 10_000, 30, 7)),
        on(13, payment(4, 200)),
        on(14, correction(5, 1, 2_000)),
        on(15, correction(6, 2, 0)),
    ]);
    // The bill billed 2,333 and stands at 2,000; the payment stands at 0.
    let expected = [
        "  5                                                                             ",
        "                                                                                ",
        "                                                                           41.33",
        "                                                                            0.00",
        "                                                                            0.00",
        "                                                                            0.00",
        "                                                                                ",
        "   6    15  8                                                               0.00",
        "   5    14  8                                                              20.00",
        "   4    13  4                                                               2.00",
        "   3    12  3                                                              23.33",
        "   2    11  4                                                               0.00",
        "   1    10  3                                                              20.00",
    ];
    shows(&book, 5, &expected);
}

#[test]
fn a_page_of_every_kind() {
    let mut book = book(&of_all_kinds());
    accepted(&mut book, on(1_827, retention(14, 2)));
    opened(&mut book, (1, 1_900, 1_000));
    stepped(&mut book);
    let expected = [
        "  5                                                                             ",
        "                                                                                ",
        "                                                                            0.55",
        "                                                                            0.00",
        "                                                                           50.00",
        "                                                                            0.00",
        "                                                                                ",
        "  15  1900 12                                                               0.05",
        "  14  1827 11                                                               0.00",
        "  13  1827  7                                                               0.00",
        "  12   400  3                                                               0.50",
        "  11   400  5                                                              50.00",
        "  10   365  6                                                               0.00",
        "   9   365 10                                                               0.00",
        "   8   301  3                                                               7.00",
        "   7   300  2                                                               0.00",
        "   6   200  3                                                             120.00",
        "   5   101  8                                                              90.00",
        "   4   100  4                                                              90.00",
        "   3     0  5                                                             300.00",
        "   2     0  9                                                             200.00",
        "   1     0  1                                                             600.00",
    ];
    shows(&book, 5, &expected);
}

#[test]
fn held_on_a_page_is_that_of_contributions() {
    let book = book(&[
        contribution(1, 300_000, 200, 1),
        contribution(2, 50, 1, 1),
        guarantee(3, 70_000),
        on(5, added(4, 1, 100)),
    ]);
    let expected = [
        "  5                                                                             ",
        "                                                                                ",
        "                                                                            0.00",
        "                                                                            0.00",
        "                                                                            0.00",
        "                                                                         2250.50",
        "                                                                                ",
        "   4     5  2                                                               0.00",
        "   3     0  9                                                             700.00",
        "   2     0  1                                                               0.50",
        "   1     0  1                                                            3000.00",
    ];
    shows(&book, 5, &expected);
}

#[test]
fn refusals_3_and_23_of_pages() {
    let book = payments(1);
    let refusals = [
        (0, 5_346, 3),
        (129, 5_346, 3),
        (u16::MAX, 5_346, 3),
        // 3 comes before 23.
        (0, 5_345, 3),
        (129, 0, 3),
        (1, 0, 23),
        (5, 5_345, 23),
        (128, 5_345, 23),
    ];
    for (account, length, refusal) in refusals {
        let mut bytes = vec![0xEE; length];
        assert_eq!(book.page(account, &mut bytes), (refusal, 0));
        assert!(bytes.iter().all(|&byte| byte == 0xEE));
    }
}

#[test]
fn a_longer_buffer_keeps_its_further_bytes() {
    let book = payments(60);
    let mut exact = [0xEE; 5_346];
    assert_eq!(book.page(5, &mut exact), (0, 5_346));
    let mut longer = [0xEE; 5_351];
    assert_eq!(book.page(5, &mut longer), (0, 5_346));
    assert_eq!(longer[..5_346], exact);
    assert_eq!(longer[5_346..], [0xEE; 5]);
}

/// A book of bills, each with its account and amount.
fn owing(bills: &[(u16, u32)]) -> Book {
    let bill_of = |(&(account, amount), serial)| at(account, bill(serial, amount, 1, 1));
    let list: Vec<Raw> = bills.iter().zip(1..).map(bill_of).collect();
    book(&list)
}

/// Opens a run of this node, day and rate, which is accepted.
fn opened(book: &mut Book, (node, day, rate): (u8, u16, u16)) {
    assert_eq!(book.open_run(node, day, rate), 0);
}

/// Makes a step that is accepted, four zeros beside the number; gives its late
/// charge as an image has it.
fn stepped(book: &mut Book) -> Raw {
    let number = book.count() as u16 + 1;
    let expected = PostingReply {
        number,
        ..PostingReply::default()
    };
    assert_eq!(book.step(), expected);
    let mut closed = book.clone();
    closed.close_run();
    parse_record(&image(&closed)[24 * usize::from(number)..]).0
}

/// Makes a step that is refused: zeros beside the number, the book and its run
/// unchanged.
fn step_refused(book: &mut Book, refusal: u8) {
    let before = book.clone();
    let expected = PostingReply {
        refusal,
        ..PostingReply::default()
    };
    assert_eq!(book.step(), expected);
    assert!(*book == before);
}

/// The book has no run: a step and a close are refused.
fn has_no_run(book: &mut Book) {
    step_refused(book, 28);
    let before = book.clone();
    assert_eq!(book.close_run(), 28);
    assert!(*book == before);
}

#[test]
fn a_run_without_arrears_is_over_at_its_opening() {
    let paid = book(&[bill(1, 500, 1, 1), payment(2, 500), at(6, payment(3, 7))]);
    for mut book in [Book::fresh(), paid] {
        let before = book.clone();
        for _ in 0..2 {
            opened(&mut book, (1, 10, 1_000));
            assert!(book == before);
            has_no_run(&mut book);
        }
    }
}

#[test]
fn refusal_28_of_openings() {
    let broken = [
        (0, 10, 100),
        (3, 10, 100),
        (255, 10, 100),
        (1, 36_525, 100),
        (1, u16::MAX, 100),
        (1, 10, 1_001),
        (1, 10, u16::MAX),
    ];
    for mut book in [Book::fresh(), owing(&[(5, 500)])] {
        for (node, day, rate) in broken {
            assert_eq!(book.open_run(node, day, rate), 28);
            has_no_run(&mut book);
        }
    }
}

#[test]
fn refusal_28_of_an_opening_during_a_run() {
    for (node, day, rate, amount) in [(1, 0, 0, 0), (2, 36_524, 1_000, 50)] {
        let mut book = owing(&[(5, 500)]);
        opened(&mut book, (node, day, rate));
        accepted(&mut book, payment(2, 1));
        // The run keeps its node, day, rate and note.
        for (node, day, rate) in [(1, 10, 100), (2, 20, 200), (3, 36_525, 1_001)] {
            assert_eq!(book.open_run(node, day, rate), 28);
        }
        let serial = if node == 1 { 3 } else { 1 };
        let expected = Raw {
            node,
            ..on(day, late_charge(serial, amount))
        };
        assert_eq!(stepped(&mut book), expected);
        has_no_run(&mut book);
    }
}

#[test]
fn the_record_of_a_late_charge() {
    // 2,500 at 2 percent; at 0, zero is posted too.
    for (rate, amount) in [(200, 50), (0, 0)] {
        let mut book = owing(&[(5, 2_500)]);
        opened(&mut book, (1, 10, rate));
        stepped(&mut book);
        has_no_run(&mut book);
        let mut record = [0; 24];
        record[..16].copy_from_slice(&[
            0x0C, 0x01, 0x05, 0x00, 0x0A, 0x00, 0x01, 0x00, //
            0x02, 0x00, 0x00, 0x00, amount, 0x00, 0x00, 0x00,
        ]);
        assert_eq!(image(&book)[48..], record);
        assert_eq!(balance(&book), (2_500 + u64::from(amount), 0));
    }
}

/// Charges an account with one bill: arrears, rate and late charge.
fn late_charges_are(figures: &[(u32, u16, u32)]) {
    for &(arrears, rate, amount) in figures {
        let mut book = owing(&[(5, arrears)]);
        opened(&mut book, (1, 10, rate));
        let expected = on(10, late_charge(2, amount));
        assert_eq!(stepped(&mut book), expected, "{arrears} at {rate}");
        let after = u64::from(arrears) + u64::from(amount);
        assert_eq!(balance(&book), (after, 0));
        assert_eq!(book.statement(5, 2).bills, after);
        has_no_run(&mut book);
    }
}

#[test]
fn a_late_charge_is_a_part_of_the_arrears() {
    late_charges_are(&[
        (10_000, 150, 150),
        (10_000, 1, 1),
        (100_000_000, 1_000, 10_000_000),
        // 185.175.
        (12_345, 150, 185),
        // 0.1, 0.4999 and 0.9999.
        (1, 1_000, 0),
        (4_999, 1, 0),
        (9_999, 1, 1),
    ]);
}

#[test]
fn a_late_charge_at_a_half_goes_to_the_even_cent() {
    late_charges_are(&[
        // 1/2, 3/2, 5/2 and 7/2, each between its neighbours.
        (4, 1_000, 0),
        (5, 1_000, 0),
        (6, 1_000, 1),
        (14, 1_000, 1),
        (15, 1_000, 2),
        (16, 1_000, 2),
        (24, 1_000, 2),
        (25, 1_000, 2),
        (26, 1_000, 3),
        (34, 1_000, 3),
        (35, 1_000, 4),
        (36, 1_000, 4),
        // The same at other rates.
        (5_000, 1, 0),
        (5_001, 1, 1),
        (15_000, 1, 2),
        (50, 100, 0),
        (125, 200, 2),
        // 9,999,998.5 and 9,999,999.5.
        (99_999_985, 1_000, 9_999_998),
        (99_999_995, 1_000, 10_000_000),
    ]);
}

#[test]
fn a_late_charge_is_100_000_000_at_most() {
    // So many bills of 100,000,000, one more of this amount, the rate, and the
    // late charge.
    let figures = [
        // 99,999,999.4 and 99,999,999.5.
        (9, 99_999_994, 1_000, 99_999_999),
        (9, 99_999_995, 1_000, 100_000_000),
        (9, 100_000_000, 1_000, 100_000_000),
        // 100,000,001, 110,000,000 and 430,000,000.
        (10, 10, 1_000, 100_000_000),
        (10, 100_000_000, 1_000, 100_000_000),
        (42, 100_000_000, 1_000, 100_000_000),
        // Arrears of 4,300,000,000; at 233 it would be 100,190,000.
        (42, 100_000_000, 1, 430_000),
        (42, 100_000_000, 232, 99_760_000),
        (42, 100_000_000, 233, 100_000_000),
    ];
    for (count, last, rate, amount) in figures {
        let mut book = owing(&vec![(5, 100_000_000); count]);
        let serial = count as u32 + 1;
        accepted(&mut book, bill(serial, last, 1, 1));
        let (arrears, _) = balance(&book);
        opened(&mut book, (1, 10, rate));
        let expected = on(10, late_charge(serial + 1, amount));
        assert_eq!(stepped(&mut book), expected, "{arrears} at {rate}");
        assert_eq!(balance(&book), (arrears + u64::from(amount), 0));
    }
}

#[test]
fn a_run_charges_the_accounts_with_arrears_ascending() {
    let mut book = owing(&[(128, 400), (64, 300), (1, 100), (127, 7), (5, 200)]);
    accepted(&mut book, at(127, payment(6, 7)));
    opened(&mut book, (2, 10, 1_000));
    for ((account, amount), serial) in [(1, 10), (5, 20), (64, 30), (128, 40)].into_iter().zip(1..)
    {
        let expected = Raw {
            node: 2,
            ..on(10, at(account, late_charge(serial, amount)))
        };
        assert_eq!(stepped(&mut book), expected);
    }
    has_no_run(&mut book);
}

#[test]
fn a_payment_during_a_run_counts_in_full_and_does_not_lower_the_charge() {
    // Paid to account 6 between the steps, of it settled; arrears and credit
    // after its late charge of 200.
    let figures = [
        (500, 500, 1_700, 0),
        (2_000, 2_000, 200, 0),
        (2_150, 2_000, 50, 0),
        (2_500, 2_000, 0, 300),
    ];
    for (amount, settled, arrears, credit) in figures {
        let mut book = owing(&[(5, 1_000), (6, 2_000)]);
        opened(&mut book, (1, 10, 1_000));
        assert_eq!(stepped(&mut book), on(10, late_charge(3, 100)));
        let raw = at(6, payment(4, amount));
        assert_eq!(accepted(&mut book, raw), [settled, 0, 0, 0]);
        assert_eq!(stepped(&mut book), on(10, at(6, late_charge(5, 200))));
        let expected = StatementReply {
            arrears,
            credit,
            links_read: 3,
            bills: 2_200,
            payments: amount.into(),
            complete: true,
            ..StatementReply::default()
        };
        assert_eq!(book.statement(6, 3), expected);
    }
}

#[test]
fn a_run_goes_by_the_arrears_at_its_opening() {
    let mut book = owing(&[(5, 1_000), (6, 2_000)]);
    opened(&mut book, (1, 10, 1_000));
    accepted(&mut book, at(6, bill(3, 5_000, 1, 1)));
    // Account 7 has no noted arrears.
    accepted(&mut book, at(7, bill(4, 900, 1, 1)));
    // The charge of account 5 takes the serial after the node's last.
    assert_eq!(accepted(&mut book, payment(10, 1_000)), [1_000, 0, 0, 0]);
    assert_eq!(stepped(&mut book), on(10, late_charge(11, 100)));
    assert_eq!(stepped(&mut book), on(10, at(6, late_charge(12, 200))));
    has_no_run(&mut book);
    let arrears = [5, 6, 7].map(|account| book.statement(account, 0).arrears);
    assert_eq!(arrears, [100, 7_200, 900]);
}

#[test]
fn the_next_run_notes_the_arrears_anew() {
    let mut book = owing(&[(5, 10_000)]);
    // 10 percent of 10,000, of 11,000 and, after a payment of 2,100, of 10,000.
    opened(&mut book, (1, 10, 1_000));
    assert_eq!(stepped(&mut book), on(10, late_charge(2, 1_000)));
    opened(&mut book, (1, 40, 1_000));
    assert_eq!(stepped(&mut book), on(40, late_charge(3, 1_100)));
    accepted(&mut book, payment(4, 2_100));
    // Days may fall.
    opened(&mut book, (1, 30, 1_000));
    assert_eq!(stepped(&mut book), on(30, late_charge(5, 1_000)));
    assert_eq!(balance(&book), (11_000, 0));
}

#[test]
fn a_run_closed_early() {
    let mut book = owing(&[(5, 1_000), (6, 2_000), (7, 3_000)]);
    opened(&mut book, (1, 10, 1_000));
    assert_eq!(stepped(&mut book), on(10, late_charge(4, 100)));
    assert_eq!(book.close_run(), 0);
    has_no_run(&mut book);
    let arrears = [5, 6, 7].map(|account| book.statement(account, 0).arrears);
    assert_eq!(arrears, [1_100, 2_000, 3_000]);
    // Nothing of the run is left in the book.
    assert!(Book::load(&image(&book)) == (book.clone(), 0, 0));
    opened(&mut book, (1, 11, 1_000));
    assert_eq!(stepped(&mut book), on(11, late_charge(5, 110)));
    assert_eq!(stepped(&mut book), on(11, at(6, late_charge(6, 200))));
}

#[test]
fn a_load_gives_a_book_without_a_run() {
    let mut book = owing(&[(5, 500)]);
    let bytes = image(&book);
    opened(&mut book, (1, 10, 1_000));
    book = Book::load(&bytes).0;
    assert!(book == owing(&[(5, 500)]));
    has_no_run(&mut book);
    opened(&mut book, (1, 10, 1_000));
    stepped(&mut book);
}

#[test]
fn refusal_27_a_correction_during_a_run() {
    let mut book = owing(&[(5, 500), (6, 700)]);
    accepted(&mut book, payment(3, 100));
    opened(&mut book, (2, 10, 100));
    for named_serial in [1, 3] {
        refused(&mut book, correction(4, named_serial, 400), 27);
    }
    // 5 and 6 come before it, 8 after it.
    refused(&mut book, correction(4, 1, 100_000_001), 5);
    refused(&mut book, correction(3, 1, 400), 6);
    refused(&mut book, correction(4, 2, 400), 27);

    let entries = [
        correction(4, 1, 400),
        payment(4, 1),
        correction(4, 1, 400),
        correction(5, 1, 400),
    ];
    let mut results = [9; 5];
    assert_eq!(book.carry_over(&entries, &mut results), 0);
    assert_eq!(results, [27, 0, 6, 27, 9]);

    stepped(&mut book);
    refused(&mut book, correction(5, 1, 400), 27);
    stepped(&mut book);
    let raw = correction(5, 1, 400);
    assert_eq!(accepted(&mut book, raw), [100, 0, 0, 0]);
    // After an early close, too.
    opened(&mut book, (2, 10, 100));
    refused(&mut book, correction(6, 3, 90), 27);
    assert_eq!(book.close_run(), 0);
    assert_eq!(accepted(&mut book, correction(6, 3, 90)), [0; 4]);
}

#[test]
fn refusal_27_comes_before_7() {
    let mut book = owing(&[(5, 1); 1_024]);
    opened(&mut book, (1, 10, 1_000));
    refused(&mut book, correction(1_024, 1, 0), 6);
    refused(&mut book, correction(1_025, 1, 0), 27);
    refused(&mut book, payment(1_025, 1), 7);
    assert_eq!(book.close_run(), 0);
    refused(&mut book, correction(1_025, 1, 0), 7);
}

#[test]
fn refusal_7_leaves_the_run_at_its_account() {
    let mut book = owing(&[(5, 10); 1_022]);
    accepted(&mut book, at(6, bill(1_023, 10, 1, 1)));
    opened(&mut book, (1, 10, 1_000));
    // 10 percent of 10,220.
    assert_eq!(stepped(&mut book), on(10, late_charge(1_024, 1_022)));
    for _ in 0..2 {
        step_refused(&mut book, 7);
    }
    assert_eq!(book.close_run(), 0);
    has_no_run(&mut book);
}

#[test]
fn refusal_6_leaves_the_run_at_its_account() {
    let last = 4_294_967_295;
    let mut book = book(&[bill(1, 10, 1, 1), at(6, bill(last - 1, 20, 1, 1))]);
    opened(&mut book, (1, 10, 1_000));
    assert_eq!(stepped(&mut book), on(10, late_charge(last, 1)));
    for _ in 0..2 {
        step_refused(&mut book, 6);
    }
    assert_eq!(book.close_run(), 0);
    // The other node has serials.
    opened(&mut book, (2, 10, 1_000));
    let expected = Raw {
        node: 2,
        ..on(10, late_charge(1, 1))
    };
    assert_eq!(stepped(&mut book), expected);
}

#[test]
fn refusal_6_of_a_step_comes_before_7() {
    let mut book = owing(&[(5, 1); 1_023]);
    accepted(&mut book, bill(4_294_967_295, 1, 1, 1));
    opened(&mut book, (1, 10, 1_000));
    step_refused(&mut book, 6);
    assert_eq!(book.close_run(), 0);
    opened(&mut book, (2, 10, 1_000));
    step_refused(&mut book, 7);
}

#[test]
fn refusal_29_a_save_during_a_run() {
    let mut book = owing(&[(5, 500)]);
    opened(&mut book, (1, 10, 100));
    for length in [0, 47, 48, 72] {
        let mut bytes = vec![0xEE; length];
        assert_eq!(book.save(&mut bytes), (29, 0));
        assert!(bytes.iter().all(|&byte| byte == 0xEE));
    }
    assert_eq!(book.close_run(), 0);
    assert_eq!(book.save(&mut [0; 47]), (21, 0));
    assert_eq!(book.save(&mut [0; 48]), (0, 48));
}

#[test]
fn refusal_1_of_late_charges() {
    let mut book = owing(&[(5, 500)]);
    let good = late_charge(2, 5);
    // 1 comes before 2 to 6.
    for raw in [
        good,
        late_charge(2, 0),
        late_charge(2, 100_000_001),
        late_charge(1, 5),
        Raw { node: 0, ..good },
        at(0, good),
        on(36_525, good),
    ] {
        refused(&mut book, raw, 1);
    }
    let mut results = [9; 3];
    let entries = [payment(2, 1), late_charge(3, 5), payment(3, 1)];
    assert_eq!(book.carry_over(&entries, &mut results), 0);
    assert_eq!(results, [0, 1, 0]);
    // During a run, too.
    opened(&mut book, (1, 10, 100));
    refused(&mut book, late_charge(4, 5), 1);
}

#[test]
fn a_late_charge_loads_as_the_charge_that_it_carries() {
    // Its amount, arrears and credit after it, where credit was 300.
    let figures = [
        (0, 0, 300),
        (299, 0, 1),
        (300, 0, 0),
        (301, 1, 0),
        (100_000_000, 99_999_700, 0),
    ];
    for (amount, arrears, credit) in figures {
        let bytes = image_of(&[payment(1, 300), on(10, late_charge(2, amount))]);
        let (loaded, refusal, record) = Book::load(&bytes);
        assert_eq!((refusal, record), (0, 0));
        let expected = StatementReply {
            arrears,
            credit,
            links_read: 2,
            bills: amount.into(),
            payments: 300,
            complete: true,
            ..StatementReply::default()
        };
        assert_eq!(loaded.statement(5, 2), expected);
        assert_eq!(image(&loaded), bytes);
    }
}

#[test]
fn refusals_of_a_late_charge_at_load() {
    let good = on(10, late_charge(2, 5));
    let broken = [
        (Raw { node: 0, ..good }, 2),
        (Raw { node: 3, ..good }, 2),
        (at(0, good), 3),
        (at(129, good), 3),
        (on(36_525, good), 4),
        (late_charge(2, 100_000_001), 5),
        (Raw { a: 1, ..good }, 5),
        (Raw { b: 1, ..good }, 5),
        (
            Raw {
                named_node: 1,
                ..good
            },
            5,
        ),
        (
            Raw {
                named_serial: 1,
                ..good
            },
            5,
        ),
        (late_charge(1, 5), 6),
    ];
    for (raw, refusal) in broken {
        load_refused(&image_of(&[bill(1, 500, 1, 1), raw]), refusal, 2);
    }
    let mut bytes = image_of(&[bill(1, 500, 1, 1), good]);
    bytes[54] = 0;
    load_refused(&bytes, 20, 2);
}

#[test]
fn refusal_8_of_entries_that_name_a_late_charge() {
    let mut book = owing(&[(5, 500)]);
    opened(&mut book, (1, 0, 1_000));
    let charge = stepped(&mut book);
    for raw in [
        correction(3, 2, 40),
        added(3, 2, 1),
        expiry(3, 2),
        reduction(3, 2),
        retention(3, 2),
    ] {
        let raw = on(1_827, raw);
        refused(&mut book, raw, 8);
        load_refused(&image_of(&[bill(1, 500, 1, 1), charge, raw]), 8, 3);
    }
    assert_eq!(book.contribution_query(5, 1, 2).refusal, 8);
}

#[test]
fn late_charges_count_with_bills_among_the_entries_read() {
    let mut book = owing(&[(5, 500)]);
    opened(&mut book, (1, 10, 1_000));
    stepped(&mut book);
    accepted(&mut book, payment(3, 30));
    for (allowance, bills) in [(0, 0), (1, 0), (2, 50), (3, 550)] {
        assert_eq!(book.statement(5, allowance).bills, bills);
    }
    let mut line = Vec::new();
    write_account(&mut line, 5, &book.statement(5, 0)).unwrap();
    assert_eq!(line, b"5 520 0 0 0\n");
}

/// A bill of zero days served: 0 of 30 days of a charge of 10,000.
fn no_day(serial: u32) -> Raw {
    bill(serial, 10_000, 30, 0)
}

/// The book of an image that has these entries, which saves as the same bytes.
fn recorded(entries: &[Raw]) -> Book {
    let bytes = image_of(entries);
    let (book, refusal, record) = Book::load(&bytes);
    assert_eq!((refusal, record), (0, 0));
    assert_eq!(image(&book), bytes);
    book
}

/// Bills of zero days served with serial 2, each with a field out of range and
/// its refusal number.
fn no_day_out_of_range() -> [(Raw, u8); 9] {
    let good = no_day(2);
    let [mut named_node, mut named_serial] = [good; 2];
    named_node.named_node = 1;
    named_serial.named_serial = 1;
    [
        (Raw { node: 3, ..good }, 2),
        (at(129, good), 3),
        (on(36_525, good), 4),
        (bill(2, 0, 30, 0), 5),
        (bill(2, 100_000_001, 30, 0), 5),
        (bill(2, 10_000, 0, 0), 5),
        (bill(2, 10_000, 63, 0), 5),
        (named_node, 5),
        (named_serial, 5),
    ]
}

#[test]
fn refusal_30_a_bill_of_zero_days_served() {
    // The least and the greatest charge and period, and P7's.
    for (charge, period) in [(1, 1), (10_000, 30), (100_000_000, 62)] {
        let raw = bill(1, charge, period, 0);
        all_refused(&[raw, Raw { node: 2, ..raw }, on(36_524, at(128, raw))], 30);
    }
    // One day served: all of 1, and the 62nd part of 6,200.
    bills_are(&[(1, 1, 1, 1), (6_200, 62, 1, 100)]);
}

#[test]
fn refusal_30_comes_after_2_to_5() {
    let mut book = owing(&[(5, 500)]);
    for (raw, refusal) in no_day_out_of_range() {
        refused(&mut book, raw, refusal);
    }
    refused(&mut book, no_day(2), 30);
}

#[test]
fn refusal_30_comes_before_6_and_7() {
    let mut book = payments(1_024);
    for serial in [0, 1, 1_024, 1_025] {
        refused(&mut book, no_day(serial), 30);
    }
    refused(&mut book, bill(1_024, 10_000, 30, 1), 6);
    refused(&mut book, bill(1_025, 10_000, 30, 1), 7);
}

#[test]
fn refusal_30_during_a_run() {
    let mut book = owing(&[(5, 500)]);
    opened(&mut book, (1, 10, 1_000));
    refused(&mut book, no_day(2), 30);
    refused(&mut book, correction(2, 1, 400), 27);
    // The run goes on: the charge takes the serial that was refused.
    assert_eq!(stepped(&mut book), on(10, late_charge(2, 50)));
}

#[test]
fn a_serial_refused_by_30_is_free_for_the_next_entry() {
    let mut book = Book::fresh();
    refused(&mut book, no_day(1), 30);
    assert_eq!(accepted(&mut book, bill(1, 10_000, 30, 7)), [0; 4]);
    assert_eq!(balance(&book), (2_333, 0));
}

#[test]
fn refusal_30_in_a_carry_over() {
    let mut book = owing(&[(5, 500)]);
    let entries = [
        no_day(2),
        payment(2, 200),
        // An old serial, a field out of range.
        no_day(2),
        bill(3, 10_000, 63, 0),
        bill(3, 6_200, 62, 1),
        no_day(4),
        // Of the bill that has just been refused.
        correction(5, 4, 700),
    ];
    let mut results = [9; 8];
    assert_eq!(book.carry_over(&entries, &mut results), 0);
    assert_eq!(results, [30, 0, 30, 5, 0, 30, 8, 9]);
    // 500 - 200 + 100.
    assert_eq!((book.count(), balance(&book)), (3, (400, 0)));
}

#[test]
fn kinds_without_days_served_are_not_refused_by_30() {
    let entries = [
        payment(1, 300),
        deposit(2, 1_000, 0),
        guarantee(3, 2_000),
        deposit_return(4),
        correction(5, 1, 400),
        on(365, reduction(6, 3)),
        on(1_827, retention(7, 3)),
    ];
    let mut results = [9; 7];
    let mut carried = Book::fresh();
    assert_eq!(carried.carry_over(&entries, &mut results), 0);
    assert_eq!(results, [0; 7]);
    assert!(carried == book(&entries));
}

#[test]
fn the_record_of_a_bill_of_zero_days_served() {
    let mut bytes = [0; 48];
    bytes[..6].copy_from_slice(&[0x43, 0x48, 0x42, 0x31, 0x01, 0x00]);
    bytes[24..].copy_from_slice(&[
        0x03, 0x01, 0x05, 0x00, 0x0A, 0x00, 0x00, 0x00, //
        0x01, 0x00, 0x00, 0x00, 0x10, 0x27, 0x00, 0x00, //
        0x00, 0x00, 0x00, 0x00, 0x1E, 0x00, 0x00, 0x00,
    ]);
    let book = recorded(&[on(10, no_day(1))]);
    assert_eq!(image(&book), bytes);
}

#[test]
fn bills_of_zero_days_served_in_an_image_stand_at_zero() {
    let book = recorded(&[
        on(10, bill(1, 100_000_000, 62, 0)),
        on(11, payment(2, 500)),
        on(12, bill(3, 1, 1, 0)),
        on(13, bill(4, 800, 1, 1)),
    ]);
    let expected = StatementReply {
        arrears: 300,
        links_read: 4,
        bills: 800,
        payments: 500,
        complete: true,
        ..StatementReply::default()
    };
    assert_eq!(book.statement(5, 4), expected);
    let mut line = Vec::new();
    write_account(&mut line, 5, &book.statement(5, 0)).unwrap();
    assert_eq!(line, b"5 300 0 0 0\n");
    let lines = [
        "   4    13  3                                                               8.00",
        "   3    12  3                                                               0.00",
        "   2    11  4                                                               5.00",
        "   1    10  3                                                               0.00",
    ];
    assert_eq!(page(&book, 5)[7..11], lines);
}

#[test]
fn a_run_charges_nothing_on_a_bill_of_zero_days_served() {
    let mut book = recorded(&[no_day(1), at(6, bill(2, 500, 1, 1))]);
    opened(&mut book, (1, 10, 1_000));
    assert_eq!(stepped(&mut book), on(10, at(6, late_charge(3, 50))));
    has_no_run(&mut book);
}

#[test]
fn a_bill_of_zero_days_served_in_an_image_is_corrected_once() {
    // The new amount; arrears and credit after it, where credit was 500.
    let figures = [
        (0, 0, 500),
        (499, 0, 1),
        (700, 200, 0),
        (10_000, 9_500, 0),
        (100_000_000, 99_999_500, 0),
    ];
    for (amount, arrears, credit) in figures {
        let start = [no_day(1), payment(2, 500)];
        let raw = correction(3, 1, amount);
        let mut book = recorded(&start);
        assert_eq!(accepted(&mut book, raw), [0; 4]);
        assert_eq!(balance(&book), (arrears, credit));
        assert_eq!(book.statement(5, 3).bills, amount.into());
        refused(&mut book, correction(4, 1, 600), 16);

        let mut carried = recorded(&start);
        let mut results = [9; 2];
        let entries = [raw, correction(4, 1, 600)];
        assert_eq!(carried.carry_over(&entries, &mut results), 0);
        assert_eq!(results, [0, 16]);
        assert!(carried == book);

        assert!(recorded(&[start[0], start[1], raw]) == book);
        load_refused(&image_of(&[start[0], raw, correction(4, 1, 600)]), 16, 3);
    }
}

#[test]
fn a_corrected_bill_of_zero_days_served_on_a_page() {
    let book = recorded(&[no_day(1), on(20, correction(2, 1, 700))]);
    let lines = [
        "   2    20  8                                                               7.00",
        "   1     0  3                                                               7.00",
    ];
    assert_eq!(page(&book, 5)[7..9], lines);
}

#[test]
fn a_full_image_of_bills_of_zero_days_served() {
    let entries: Vec<Raw> = (1..=1_024).map(no_day).collect();
    let mut book = recorded(&entries);
    assert_eq!(balance(&book), (0, 0));
    refused(&mut book, no_day(1_025), 30);
    refused(&mut book, correction(1_025, 1, 700), 7);
}

#[test]
fn refusals_of_a_bill_of_zero_days_served_at_load() {
    let first = bill(1, 500, 1, 1);
    for (raw, refusal) in no_day_out_of_range() {
        load_refused(&image_of(&[first, raw]), refusal, 2);
    }
    for serial in [0, 1] {
        load_refused(&image_of(&[first, no_day(serial)]), 6, 2);
    }
    // More days served than the period has.
    load_refused(&image_of(&[first, bill(2, 10_000, 30, 31)]), 5, 2);
    let mut bytes = image_of(&[first, no_day(2)]);
    assert_eq!(bytes[54], 1);
    bytes[54] = 0;
    load_refused(&bytes, 20, 2);
}

/// A year's bills, payments, paid out and number of entries.
type Totals = [u64; 4];
type YearTotals = (u16, Totals);

fn figures(year: Year) -> Totals {
    let entries = year.entries.into();
    [year.bills, year.payments, year.paid_out, entries]
}

/// Those of these years that don't read zero.
fn not_zero(years: impl Iterator<Item = (u16, Year)>) -> Vec<YearTotals> {
    let figures = years.map(|(number, year)| (number, figures(year)));
    figures.filter(|(_, totals)| *totals != [0; 4]).collect()
}

/// Every year that doesn't read zero, of all that can be asked for.
fn years(book: &Book) -> Vec<YearTotals> {
    not_zero((0..=u16::MAX).map(|year| (year, book.year_totals(year))))
}

/// These years don't read zero, in the book and in the one that its image loads
/// as.
fn years_are(book: &Book, expected: &[YearTotals]) {
    assert_eq!(years(book), expected);
    let (loaded, refusal, record) = Book::load(&image(book));
    assert_eq!((refusal, record), (0, 0));
    assert_eq!(years(&loaded), expected);
}

#[test]
fn every_year_of_a_fresh_book_reads_zero() {
    years_are(&Book::fresh(), &[]);
}

#[test]
fn the_first_and_the_last_days_of_years() {
    let amounts = [
        // 1 January and 31 December 2000.
        (0, 1),
        (365, 2),
        // 1 January and 31 December 2001, 1 January 2002.
        (366, 4),
        (730, 8),
        (731, 16),
        // 31 December 2098, 1 January and 31 December 2099.
        (36_159, 32),
        (36_160, 64),
        (36_524, 128),
    ];
    let paid = |(serial, (day, amount))| on(day, payment(serial, amount));
    let list: Vec<Raw> = (1..).zip(amounts).map(paid).collect();
    let expected = [
        (2000, [0, 3, 0, 2]),
        (2001, [0, 12, 0, 2]),
        (2002, [0, 16, 0, 1]),
        (2098, [0, 32, 0, 1]),
        (2099, [0, 192, 0, 2]),
    ];
    years_are(&book(&list), &expected);
}

#[test]
fn each_of_the_hundred_years_has_its_own_figures() {
    // A bill of so many cents on 1 January; of 4 years before it, 1 is a leap
    // year.
    let billed = |years: u16| {
        let first_day = 365 * years + years.div_ceil(4);
        let serial = u32::from(years) + 1;
        on(first_day, bill(serial, serial, 1, 1))
    };
    let list: Vec<Raw> = (0..100).map(billed).collect();
    let totals = |years: u16| (2000 + years, [u64::from(years) + 1, 0, 0, 1]);
    let expected: Vec<YearTotals> = (0..100).map(totals).collect();
    years_are(&book(&list), &expected);
}

#[test]
fn years_before_2000_and_after_2099_read_zero() {
    let book = book(&[payment(1, 500), on(36_524, payment(2, 700))]);
    years_are(&book, &[(2000, [0, 500, 0, 1]), (2099, [0, 700, 0, 1])]);
    for year in [0, 99, 1_900, 1_999, 2_100, 2_256, 65_535] {
        assert_eq!(book.year_totals(year), Year::default(), "{year}");
    }
}

#[test]
fn a_year_is_of_all_accounts_and_nodes() {
    let of_node_2 = |account, raw| Raw {
        node: 2,
        account,
        ..raw
    };
    let book = book(&[
        on(400, at(1, bill(1, 1_000, 1, 1))),
        // Days may fall. P7: 2,333.
        on(10, of_node_2(128, bill(1, 10_000, 30, 7))),
        on(10, payment(2, 300)),
        on(365, of_node_2(6, payment(2, 200))),
        on(400, of_node_2(1, payment(3, 50))),
        on(0, at(7, guarantee(3, 70))),
    ]);
    let expected = [(2000, [2_333, 500, 0, 4]), (2001, [1_000, 50, 0, 2])];
    years_are(&book, &expected);
}

/// Posts, after these entries, corrections of the first: day, new amount and the
/// years then.
fn years_after_corrections(start: &[Raw], figures: &[(u16, u32, &[YearTotals])]) {
    for &(day, amount, expected) in figures {
        let mut book = book(start);
        let serial = start.len() as u32 + 1;
        accepted(&mut book, on(day, correction(serial, 1, amount)));
        years_are(&book, expected);
        refused(&mut book, on(day, correction(serial + 1, 1, 1)), 16);
        years_are(&book, expected);
    }
}

#[test]
fn a_corrected_bill_counts_in_its_own_year() {
    // 2,333, as in P7.
    let start = [
        on(100, bill(1, 10_000, 30, 7)),
        on(365, bill(2, 500, 1, 1)),
        on(366, bill(3, 40, 1, 1)),
    ];
    let before = [(2000, [2_833, 0, 0, 2]), (2001, [40, 0, 0, 1])];
    years_are(&book(&start), &before);
    let figures: [(u16, u32, &[YearTotals]); 7] = [
        // In 2000 too.
        (200, 5_000, &[(2000, [5_500, 0, 0, 3]), before[1]]),
        (365, 0, &[(2000, [500, 0, 0, 3]), before[1]]),
        // In 2001: more, less, nothing, as much.
        (
            366,
            5_000,
            &[(2000, [5_500, 0, 0, 2]), (2001, [40, 0, 0, 2])],
        ),
        (
            366,
            2_300,
            &[(2000, [2_800, 0, 0, 2]), (2001, [40, 0, 0, 2])],
        ),
        (730, 0, &[(2000, [500, 0, 0, 2]), (2001, [40, 0, 0, 2])]),
        (730, 2_333, &[before[0], (2001, [40, 0, 0, 2])]),
        // In 2099.
        (
            36_524,
            100_000_000,
            &[
                (2000, [100_000_500, 0, 0, 2]),
                before[1],
                (2099, [0, 0, 0, 1]),
            ],
        ),
    ];
    years_after_corrections(&start, &figures);
}

#[test]
fn a_corrected_payment_counts_in_its_own_year() {
    let start = [
        on(365, payment(1, 2_500)),
        on(366, payment(2, 300)),
        on(366, bill(3, 40, 1, 1)),
    ];
    let before = [(2000, [0, 2_500, 0, 1]), (2001, [40, 300, 0, 2])];
    years_are(&book(&start), &before);
    let figures: [(u16, u32, &[YearTotals]); 5] = [
        (365, 1_000, &[(2000, [0, 1_000, 0, 2]), before[1]]),
        (
            366,
            1_000,
            &[(2000, [0, 1_000, 0, 1]), (2001, [40, 300, 0, 3])],
        ),
        // The year has an entry, and so doesn't read zero.
        (366, 0, &[(2000, [0, 0, 0, 1]), (2001, [40, 300, 0, 3])]),
        (366, 2_500, &[before[0], (2001, [40, 300, 0, 3])]),
        (
            731,
            9_000,
            &[(2000, [0, 9_000, 0, 1]), before[1], (2002, [0, 0, 0, 1])],
        ),
    ];
    years_after_corrections(&start, &figures);
}

#[test]
fn refunds_paid_out_count_in_the_year_of_the_added_customer() {
    // P1 to P4: 75,000 to arrears, 5,000 to arrears and 95,000 paid out; then
    // 75,000 and 50,000 paid out.
    let book = book(&[
        on(300, contribution(1, 300_000, 200, 1)),
        on(300, bill(2, 80_000, 1, 1)),
        on(365, added(3, 1, 100)),
        on(366, added(4, 1, 200)),
        on(730, added(5, 1, 200)),
        on(731, added(6, 1, 200)),
    ]);
    let expected = [
        (2000, [80_000, 0, 0, 3]),
        (2001, [0, 0, 170_000, 2]),
        (2002, [0, 0, 50_000, 1]),
    ];
    years_are(&book, &expected);
}

#[test]
fn deposit_returns_paid_out_count_in_the_year_of_the_return() {
    // P9: 31,560 after 365 days, of which 1,000 settle the bill.
    let book = book(&[
        on(1, deposit(1, 30_000, 520)),
        on(1, bill(2, 1_000, 1, 1)),
        on(366, deposit_return(3)),
        on(730, deposit(4, 700, 0)),
        on(731, deposit_return(5)),
    ]);
    let expected = [
        (2000, [1_000, 0, 0, 2]),
        (2001, [0, 0, 30_560, 2]),
        (2002, [0, 0, 700, 1]),
    ];
    years_are(&book, &expected);
}

#[test]
fn reductions_paid_out_count_in_the_year_of_the_reduction() {
    let book = book(&[
        guarantee(1, 50_000),
        on(200, payment(2, 100_000)),
        // 10,000 paid out.
        on(365, reduction(3, 1)),
        on(700, payment(4, 3_000)),
        // Credit is 103,000 before it, and arrears are 100 after it.
        on(701, bill(5, 103_100, 1, 1)),
        // 300: 100 to arrears, 200 paid out.
        on(730, reduction(6, 1)),
        // 39,700 retained.
        on(1_827, retention(7, 1)),
    ]);
    let expected = [
        (2000, [0, 100_000, 10_000, 3]),
        (2001, [103_100, 3_000, 200, 3]),
        (2005, [0, 0, 0, 1]),
    ];
    years_are(&book, &expected);
}

#[test]
fn years_of_entries_of_all_kinds() {
    // Paid out: 12,000 of a refund, 200 of a reduction, 31,560 of a return.
    let expected = [
        (2000, [12_700, 9_000, 43_760, 10]),
        (2001, [50, 0, 0, 2]),
        (2005, [0, 0, 0, 1]),
    ];
    years_are(&book(&of_all_kinds()), &expected);
}

#[test]
fn refused_entries_count_nowhere() {
    let start = [on(366, payment(1, 500)), on(10, at(6, payment(2, 40)))];
    let expected = [(2000, [0, 40, 0, 1]), (2001, [0, 500, 0, 1])];
    let offered = [
        (on(366, late_charge(3, 70)), 1),
        (on(36_525, payment(3, 70)), 4),
        (on(366, payment(3, 0)), 5),
        (on(366, no_day(3)), 30),
        (on(366, payment(2, 70)), 6),
        (on(366, correction(3, 2, 70)), 8),
        (on(366, deposit_return(3)), 9),
        (on(365, correction(3, 1, 70)), 10),
    ];
    let mut posted = book(&start);
    for (raw, refusal) in offered {
        refused(&mut posted, raw, refusal);
    }
    years_are(&posted, &expected);

    let entries = offered.map(|(raw, _)| raw);
    let mut carried = book(&start);
    let mut results = [0; 8];
    assert_eq!(carried.carry_over(&entries, &mut results[..7]), 22);
    years_are(&carried, &expected);
    assert_eq!(carried.carry_over(&entries, &mut results), 0);
    assert_eq!(results, offered.map(|(_, refusal)| refusal));
    years_are(&carried, &expected);

    // The first two records count nowhere either.
    let (loaded, refusal, record) = Book::load(&image_of(&[start[0], start[1], entries[6]]));
    assert_eq!((refusal, record), (9, 3));
    years_are(&loaded, &[]);
}

#[test]
fn a_run_s_late_charges_count_with_the_bills_of_its_year() {
    let mut book = owing(&[(5, 5_000), (7, 10_000)]);
    let bills = (2000, [15_000, 0, 0, 2]);
    opened(&mut book, (1, 366, 150));
    assert_eq!(years(&book), [bills]);
    stepped(&mut book);
    assert_eq!(years(&book), [bills, (2001, [75, 0, 0, 1])]);
    accepted(&mut book, on(366, payment(4, 5_000)));
    refused(&mut book, on(366, correction(5, 1, 0)), 27);
    assert_eq!(years(&book), [bills, (2001, [75, 5_000, 0, 2])]);
    stepped(&mut book);
    step_refused(&mut book, 28);
    years_are(&book, &[bills, (2001, [225, 5_000, 0, 3])]);
}

#[test]
fn late_charges_of_an_image_count_with_the_bills_of_their_year() {
    let book = recorded(&[
        on(365, late_charge(1, 100_000_000)),
        on(366, late_charge(2, 0)),
        on(366, bill(3, 40, 1, 1)),
        on(730, late_charge(4, 7)),
    ]);
    years_are(
        &book,
        &[(2000, [100_000_000, 0, 0, 1]), (2001, [47, 0, 0, 3])],
    );
}

#[test]
fn bills_of_zero_days_served_in_an_image_count_as_entries_of_their_year() {
    let start = [on(365, no_day(1)), on(366, no_day(2))];
    let of_2001 = (2001, [0, 0, 0, 1]);
    years_are(&recorded(&start), &[(2000, [0, 0, 0, 1]), of_2001]);
    let corrected = [start[0], start[1], on(731, correction(3, 1, 700))];
    let of_2002 = (2002, [0, 0, 0, 1]);
    let expected = [(2000, [700, 0, 0, 1]), of_2001, of_2002];
    years_are(&recorded(&corrected), &expected);
}

#[test]
fn a_full_book_in_one_year() {
    let entry_of = |serial| match serial % 2 {
        0 => on(36_524, payment(serial, 100_000_000)),
        _ => on(36_160, bill(serial, 100_000_000, 62, 62)),
    };
    let list: Vec<Raw> = (1..=1_024).map(entry_of).collect();
    let mut book = book(&list);
    let expected = [(2099, [51_200_000_000, 51_200_000_000, 0, 1_024])];
    years_are(&book, &expected);
    refused(&mut book, on(36_524, payment(1_025, 1)), 7);
    years_are(&book, &expected);
}

/// Every year that has entries, summed over these.
fn years_of(taken: &[Taken]) -> Vec<YearTotals> {
    let years = 2000..=2099;
    not_zero(years.map(|year| (year, year_totals(year, taken))))
}

/// A list of samples over so many times their days, with amounts of all sizes and
/// payments corrected too.
fn varied(seed: u64, times: u16) -> Vec<Raw> {
    let mut list = samples::entries(seed);
    for raw in &mut list {
        raw.day *= times;
        raw.amount = raw.amount * (raw.serial % 97 + 1) / 11;
        if raw.kind == CORRECTION && raw.serial % 2 == 0 {
            // In the lists a payment comes after each bill.
            raw.named_serial += 1;
        }
    }
    list
}

/// A book after a list with a run after every 50th entry, and what it accepted.
fn taken_from(list: &[Raw]) -> (Book, Vec<Taken>) {
    let mut book = Book::fresh();
    let mut taken = Vec::new();
    for raw in list {
        let reply = book.post(raw);
        if reply.refusal == 0 {
            taken.push((*raw, reply.paid_out));
        }
        if raw.serial % 50 == 0 {
            opened(&mut book, (2, raw.day, 150));
            while book.clone().step().refusal == 0 {
                taken.push((stepped(&mut book), 0));
            }
        }
    }
    (book, taken)
}

/// Whether one of these corrects the entry in another year than its own.
fn corrected_in_another_year(named: &Raw, taken: &[Taken]) -> bool {
    let mut corrections = taken.iter().filter(|(raw, _)| corrects(raw, named));
    corrections.any(|(raw, _)| year_of(raw.day) != year_of(named.day))
}

#[test]
fn kept_years_are_those_summed_over_the_entries() {
    let mut met = BTreeSet::new();
    for (seed, times) in (1..=10).flat_map(|seed| [(seed, 1), (seed, 7)]) {
        let (book, taken) = taken_from(&varied(seed, times));
        years_are(&book, &years_of(&taken));
        met.extend(taken.iter().map(|(raw, _)| {
            let in_another = corrected_in_another_year(raw, &taken);
            (raw.kind, in_another)
        }));
    }
    let mut expected: BTreeSet<(u8, bool)> = (CONTRIBUTION..=LAST_KIND)
        .map(|kind| (kind, false))
        .collect();
    expected.extend([(BILL, true), (PAYMENT, true)]);
    assert_eq!(met, expected);
}
