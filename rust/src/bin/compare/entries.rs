//! Random entries: in and out of range, and with every relation to the entry
//! that they name.

use crate::history::History;
use crate::periods;
use crate::random::Random;
use contribution_book::plain::*;

/// Deposit x rate x days that earn half a cent, and rates that divide it.
const HALF_CENT: u32 = 1_825_000;
const HALF_RATES: [u16; 5] = [1, 8, 100, 1_000, 1_825];
/// How many entries are drawn for one of a given refusal number.
const DRAWS: usize = 128;
/// 2020-01-01.
const TWENTY_YEARS: u16 = 7_305;
/// 2095-01-01, the first day from which five years don't end within the book.
const FIRST_WITHOUT_END: u16 = 34_699;
/// 2000-02-29, the days from one 29 February to the next, and how many the book
/// has.
const LEAP_DAY: u16 = 59;
const LEAP_DAYS_APART: u16 = 1_461;
const LEAP_DAYS: u16 = 25;

/// What an entry can be refused by where no run is open.
pub const REFUSALS: [u8; 20] = [
    1, 2, 3, 4, 5, 6, 7, 8, 9, 10, 11, 12, 13, 14, 15, 16, 24, 25, 26, 30,
];

/// What the entries of a list are drawn from.
pub struct Pool {
    pub accounts: Vec<u16>,
    /// The kinds, the more frequent ones more than once.
    kinds: Vec<u8>,
    least_amount: u32,
    /// Every bill is of zero days served.
    no_day: bool,
}

impl Pool {
    /// A few accounts; contributions, bills or payments, which need no earlier
    /// entry, and any other kinds, with the guarantees that they need; amounts
    /// of all sizes or, for sums above 32 bits, large ones.
    pub fn new(random: &mut Random) -> Pool {
        let count = 1 + random.below(4);
        let accounts = (0..count).map(|_| any_account(random)).collect();
        let mut kinds = vec![CONTRIBUTION, random.pick(&[BILL, PAYMENT])];
        kinds.extend((0..10).map(|_| random.within(CONTRIBUTION..=LAST_KIND)));
        if kinds.contains(&REDUCTION) || kinds.contains(&RETENTION) {
            kinds.push(GUARANTEE);
        }
        Pool {
            accounts,
            kinds,
            least_amount: random.pick(&[1, 1, 1, AMOUNT_MOST / 10 * 9]),
            no_day: false,
        }
    }

    /// The same with entries of one kind alone; bills are of zero days served.
    pub fn recorded(&self, kind: u8) -> Pool {
        Pool {
            accounts: self.accounts.clone(),
            kinds: vec![kind],
            least_amount: self.least_amount,
            no_day: true,
        }
    }

    fn amount(&self, random: &mut Random) -> u32 {
        random.sized(AMOUNT_MOST).max(self.least_amount)
    }
}

fn any_account(random: &mut Random) -> u16 {
    match random.below(4) {
        0 => random.pick(&[1, 128]),
        _ => random.within(1..=128),
    }
}

/// An entry that the book accepts, or refuses by any number, half the time
/// each.
pub fn offered(random: &mut Random, pool: &Pool, history: &History) -> Raw {
    let refusal = match random.below(2) {
        0 => 0,
        _ => random.pick(&REFUSALS),
    };
    aimed(random, pool, history, Incoming::Posted, refusal)
}

/// An entry that the book refuses by this number, or accepts where it is 0;
/// some other where none is among the first draws.
pub fn aimed(
    random: &mut Random,
    pool: &Pool,
    history: &History,
    incoming: Incoming,
    refusal: u8,
) -> Raw {
    let mut raw = entry(random, pool, history);
    for _ in 0..DRAWS {
        if history.refusal(&raw, incoming) == refusal {
            break;
        }
        raw = entry(random, pool, history);
    }
    raw
}

/// An entry for one of the accounts, where no fault gives it another.
pub fn entry(random: &mut Random, pool: &Pool, history: &History) -> Raw {
    let kind = random.pick(&pool.kinds);
    let node = random.pick(&[1, 2]);
    let account = random.pick(&pool.accounts);
    let earlier = earlier(random, history, kind, account);
    let day = match earlier {
        Some(earlier) => day_from(random, kind, counted_from(history, kind, earlier)),
        None => first_day(random, kind),
    };
    let mut raw = Raw {
        kind,
        node,
        account,
        day,
        serial: serial(random, history.last_serial(node)),
        ..fields(random, pool, kind, earlier)
    };
    if needs_name(kind) {
        name(random, &mut raw, earlier);
    }
    break_common_field(random, &mut raw);
    break_other_field(random, &mut raw);
    raw
}

fn needs_name(kind: u8) -> bool {
    matches!(
        kind,
        ADDED_CUSTOMER | EXPIRY | CORRECTION | REDUCTION | RETENTION
    )
}

/// The entry that the entry names, among these.
pub fn named<'a>(raw: &Raw, before: &'a [Raw]) -> Option<&'a Raw> {
    let pair = (raw.named_node, raw.named_serial);
    before
        .iter()
        .find(|named| (named.node, named.serial) == pair)
}

pub fn is_late_charge(raw: &Raw) -> bool {
    raw.kind == LATE_CHARGE
}

/// Whether it is a bill of zero days served.
pub fn is_for_no_day(raw: &Raw) -> bool {
    raw.kind == BILL && raw.b == 0
}

/// Whether the entry's kind names one, and it names such an entry of its account
/// among these.
pub fn names_one(raw: &Raw, before: &[Raw], is_one: impl Fn(&Raw) -> bool) -> bool {
    let named = named(raw, before).filter(|_| needs_name(raw.kind));
    named.is_some_and(|named| is_one(named) && named.account == raw.account)
}

/// The entry that a new one of this kind is about: mostly one that it may
/// name or return, or near which a payment counts, sometimes a late charge,
/// which none may name, or any of the book.
fn earlier(random: &mut Random, history: &History, kind: u8, account: u16) -> Option<Raw> {
    let kinds: &[u8] = match kind {
        ADDED_CUSTOMER | EXPIRY => &[CONTRIBUTION],
        CORRECTION => &[BILL, PAYMENT],
        DEPOSIT_RETURN => &[DEPOSIT],
        REDUCTION | RETENTION => &[GUARANTEE],
        PAYMENT => &[GUARANTEE, REDUCTION],
        _ => return None,
    };
    let any = random.one_in(16);
    let late = needs_name(kind) && random.one_in(8);
    let fits_kind = |kind| kinds.contains(&kind) || late && kind == LATE_CHARGE;
    let fits = |raw: &&Raw| any || raw.account == account && fits_kind(raw.kind);
    let fitting: Vec<&Raw> = history.entries().iter().filter(fits).collect();
    let newest = fitting.len().checked_sub(1)?;
    let place = match kind {
        DEPOSIT_RETURN => newest,
        // The others are closed.
        REDUCTION | RETENTION if !random.one_in(8) => newest,
        // Often the same, so that one contribution gets many customers.
        _ if random.one_in(2) => 0,
        _ => random.below(fitting.len()),
    };
    Some(*fitting[place])
}

/// The day from which a new entry of this kind is dated: that of the earlier
/// entry or, in a reduction, of the guarantee's last one.
fn counted_from(history: &History, kind: u8, earlier: Raw) -> u16 {
    let reduces = |raw: &&Raw| {
        let named = (raw.named_node, raw.named_serial);
        raw.kind == REDUCTION && named == (earlier.node, earlier.serial)
    };
    let mut newest_first = history.entries().iter().rev();
    match kind {
        REDUCTION => newest_first.find(reduces).unwrap_or(&earlier).day,
        _ => earlier.day,
    }
}

/// The day of an entry that is about no earlier one.
fn first_day(random: &mut Random, kind: u8) -> u16 {
    match kind {
        CONTRIBUTION | GUARANTEE if !random.one_in(3) => period_start(random),
        _ => any_day(random),
    }
}

fn any_day(random: &mut Random) -> u16 {
    match random.below(4) {
        0 => random.pick(&[0, 1, LAST_DAY - 1, LAST_DAY]),
        1 => random.within(0..=LAST_DAY),
        _ => random.within(0..=TWENTY_YEARS),
    }
}

/// A 29 February, or a day from which a period has 1,827 days or doesn't end, or
/// one beside these.
fn period_start(random: &mut Random) -> u16 {
    let leap_day = LEAP_DAY + LEAP_DAYS_APART * random.within(0..=LEAP_DAYS - 1);
    match random.below(16) {
        0 => random.pick(&[FIRST_WITHOUT_END - 1, FIRST_WITHOUT_END]),
        1 => random.within(FIRST_WITHOUT_END..=LAST_DAY),
        2 => leap_day + 1,
        // From 1 March of the year before to 29 February they have 1,827 days.
        3 | 4 => leap_day.saturating_sub(random.pick(&[1, 365, 366])),
        5..=8 => leap_day.saturating_sub(random.within(1..=365)),
        _ => leap_day,
    }
}

/// A day before or after that of the earlier entry.
fn day_from(random: &mut Random, kind: u8, earlier: u16) -> u16 {
    let day = match random.below(8) {
        0 => return random.within(0..=earlier),
        1 => random.within(earlier..=LAST_DAY),
        _ => match kind {
            PAYMENT | REDUCTION => day_of_two_years(random, earlier),
            _ => day_of_period(random, kind, earlier),
        },
    };
    day.min(LAST_DAY)
}

/// A day of the two years that begin on this one, sometimes where the first ends.
fn day_of_two_years(random: &mut Random, first: u16) -> u16 {
    let year = REDUCTION_INTERVAL;
    let days = match random.below(3) {
        0 => random.pick(&[0, 1, year - 1, year, year + 1]),
        _ => random.within(0..=2 * year),
    };
    first + days
}

/// A day of the period that begins on this one, often its last, or its end; for
/// an expiry or a retention mostly one from the end on. Where it doesn't end, its
/// last day is the book's.
fn day_of_period(random: &mut Random, kind: u8, first: u16) -> u16 {
    let end = periods::end(kind, first).unwrap_or(LAST_DAY + 1);
    match random.below(6) {
        0 => random.pick(&[first, first + 1, end + 1]),
        1..=3 => random.pick(&[end - 1, end]),
        _ => match kind {
            EXPIRY | RETENTION => end + random.within(0..=end - first),
            _ => random.within(first..=end - 1),
        },
    }
}

/// A serial above the node's last, where there is one.
fn serial(random: &mut Random, last: u32) -> u32 {
    match u32::MAX - last {
        0 => last,
        room => match random.below(512) {
            0 => u32::MAX,
            1..=4 => last + random.within(1..=room / 2 + 1),
            _ => last + random.within(1..=room.min(3)),
        },
    }
}

/// The amount, a and b of an entry of this kind.
fn fields(random: &mut Random, pool: &Pool, kind: u8, earlier: Option<Raw>) -> Raw {
    let amount = pool.amount(random);
    let (amount, a, b) = match kind {
        CONTRIBUTION => (amount, random.sized(u16::MAX), phases(random)),
        ADDED_CUSTOMER => (0, metres_shared(random, earlier), phases(random)),
        BILL if pool.no_day || random.one_in(8) => (amount, random.within(1..=MAX_PERIOD), 0),
        BILL if random.one_in(4) => half_bill(random, amount),
        BILL => {
            let period = random.within(1..=MAX_PERIOD);
            (amount, period, days_served(random, period))
        }
        LATE_CHARGE if random.one_in(4) => (0, 0, 0),
        PAYMENT | GUARANTEE | LATE_CHARGE => (amount, 0, 0),
        DEPOSIT if random.one_in(2) => half_deposit(random, amount),
        DEPOSIT => (amount, random.sized(MAX_RATE + 1) - 1, 0),
        CORRECTION => (corrected_amount(random, amount, earlier), 0, 0),
        _ => (0, 0, 0),
    };
    Raw {
        amount,
        a,
        b,
        ..Raw::default()
    }
}

/// The greatest odd number of times this divisor up to the amount; the divisor
/// where there is none.
fn odd_times(divisor: u32, amount: u32) -> u32 {
    let times = amount / divisor;
    divisor * (times.saturating_sub(1) | 1)
}

/// The amount, a and b of a deposit whose interest ends in one half after an odd
/// number of days.
fn half_deposit(random: &mut Random, amount: u32) -> (u32, u16, u8) {
    let rate = random.pick(&HALF_RATES);
    (odd_times(HALF_CENT / u32::from(rate), amount), rate, 0)
}

/// The amount, a and b of a bill that ends in one half. Half the period is the
/// product of two factors: the charge is an odd number of times the one, days
/// served are an odd number of times the other.
fn half_bill(random: &mut Random, amount: u32) -> (u32, u16, u8) {
    let of_served = random.within(1..=MAX_PERIOD / 2);
    let of_charge = random.within(1..=MAX_PERIOD / 2 / of_served);
    let period = 2 * of_served * of_charge;
    let charge = odd_times(of_charge.into(), amount);
    let served = of_served * (2 * random.within(1..=of_charge) - 1);
    (charge, period, served as u8)
}

fn phases(random: &mut Random) -> u8 {
    random.pick(&[1, 3])
}

fn days_served(random: &mut Random, period: u16) -> u8 {
    match random.below(4) {
        0 => period as u8,
        _ => random.within(0..=period as u8),
    }
}

/// Metres at, below or above those built, where a contribution is named.
fn metres_shared(random: &mut Random, earlier: Option<Raw>) -> u16 {
    let built = earlier.map_or(u16::MAX, |raw| raw.a.max(1));
    match random.below(8) {
        0 => built.saturating_add(1),
        1 => random.within(built..=u16::MAX),
        2 | 3 => built,
        _ => random.within(1..=built),
    }
}

/// This amount, none, the one that the named entry was given, or whole cents
/// next to what a named bill comes to.
fn corrected_amount(random: &mut Random, amount: u32, earlier: Option<Raw>) -> u32 {
    match (random.below(4), earlier) {
        (0, Some(earlier)) => earlier.amount,
        (1, _) => 0,
        (2, Some(bill)) if bill.kind == BILL => {
            let part = u64::from(bill.amount) * u64::from(bill.b) / u64::from(bill.a);
            part as u32 + random.within(0..=1)
        }
        _ => amount,
    }
}

/// Mostly names the earlier entry.
fn name(random: &mut Random, raw: &mut Raw, earlier: Option<Raw>) {
    let earlier = earlier.filter(|_| !random.one_in(16));
    (raw.named_node, raw.named_serial) = match earlier {
        Some(earlier) => (earlier.node, earlier.serial),
        None => (random.pick(&[1, 2]), random.sized(u32::MAX)),
    };
}

/// Now and then breaks a common field, by 1 to 4 or 6.
fn break_common_field(random: &mut Random, raw: &mut Raw) {
    let any = random.next();
    if random.one_in(64) {
        raw.kind = random.pick(&[0, LAST_KIND + 1, 255, any as u8]);
    }
    if random.one_in(64) {
        raw.node = random.pick(&[0, 3, 255, any as u8]);
    }
    if random.one_in(64) {
        raw.account = random.pick(&[0, 129, 130, 257, any as u16]);
    }
    if random.one_in(64) {
        raw.day = random.pick(&[LAST_DAY + 1, LAST_DAY + 2, u16::MAX, any as u16]);
    }
    if random.one_in(32) {
        let lower = raw.serial.saturating_sub(random.within(1..=4));
        raw.serial = random.pick(&[lower, lower / 2, 0]);
    }
}

/// Now and then gives another field a value that is at or past the edge of
/// some kind's range.
fn break_other_field(random: &mut Random, raw: &mut Raw) {
    if !random.one_in(32) {
        return;
    }
    let any = random.next();
    let past_period = (raw.a as u8).wrapping_add(1);
    match random.below(5) {
        0 => raw.amount = random.pick(&[0, 1, AMOUNT_MOST, AMOUNT_MOST + 1, any as u32]),
        1 => raw.named_serial = random.pick(&[0, 1, any as u32]),
        2 => raw.a = random.pick(&[0, 1, MAX_PERIOD + 1, MAX_RATE, MAX_RATE + 1, any as u16]),
        3 => raw.b = random.pick(&[0, 1, 2, 3, 4, past_period, any as u8]),
        _ => raw.named_node = random.pick(&[0, 1, 2, 3, any as u8]),
    }
}
