//! Bills and interest that end in exactly half a cent.

use crate::entries::named;
use contribution_book::plain::*;

/// The kinds of entry that can be at a half.
pub const KINDS: [u8; 3] = [BILL, DEPOSIT_RETURN, CORRECTION];

/// The whole cents before the half of an accepted entry that comes after these:
/// a bill, a correction of a bill at a half, or a return by its interest.
pub fn of_entry(raw: &Raw, before: &[Raw]) -> Option<u64> {
    let mut newest_first = before.iter().rev();
    let returns = |deposit: &&Raw| deposit.kind == DEPOSIT && deposit.account == raw.account;
    match raw.kind {
        BILL => of_bill(raw),
        CORRECTION => named(raw, before).and_then(of_bill),
        DEPOSIT_RETURN => {
            let deposit = newest_first.find(returns)?;
            let days = u64::from(raw.day - deposit.day);
            let yearly = u64::from(deposit.amount) * u64::from(deposit.a);
            of_quotient(yearly * days, 3_650_000)
        }
        _ => None,
    }
}

/// The whole cents before the half of an accepted bill.
pub fn of_bill(raw: &Raw) -> Option<u64> {
    match raw.kind {
        BILL => of_quotient(u64::from(raw.amount) * u64::from(raw.b), raw.a.into()),
        _ => None,
    }
}

fn of_quotient(dividend: u64, divisor: u64) -> Option<u64> {
    let half = 2 * (dividend % divisor) == divisor;
    half.then_some(dividend / divisor)
}
