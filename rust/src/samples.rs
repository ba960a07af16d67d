//! Entries for tests and the benchmark.

use crate::plain::*;

/// An entry of node 1 in its kind's range, of a kind that can be posted. The
/// kinds that name no entry leave out the named serial.
pub fn entry(kind: u8, account: u16, serial: u32, named_serial: u32) -> Raw {
    let (day, amount, named_serial, a, b) = match kind {
        CONTRIBUTION => (0, 300_000, 0, 200, 1),
        ADDED_CUSTOMER => (100, 0, named_serial, 100, 1),
        BILL => (0, 10_000, 0, 30, 7),
        PAYMENT => (1, 2_500, 0, 0, 0),
        DEPOSIT => (0, 30_000, 0, 520, 0),
        DEPOSIT_RETURN => (365, 0, 0, 0, 0),
        CORRECTION => (1, 2_000, named_serial, 0, 0),
        GUARANTEE => (0, 50_000, 0, 0, 0),
        REDUCTION => (365, 0, named_serial, 0, 0),
        // An expiry or a retention, five years after day 0.
        _ => (1_827, 0, named_serial, 0, 0),
    };
    Raw {
        kind,
        node: 1,
        account,
        day,
        serial,
        amount,
        named_serial,
        a,
        b,
        named_node: u8::from(named_serial != 0),
    }
}

/// A kind that entries of this kind may name.
pub fn named_kind(kind: u8) -> u8 {
    match kind {
        CORRECTION => BILL,
        REDUCTION | RETENTION => GUARANTEE,
        _ => CONTRIBUTION,
    }
}

/// A sequence of numbers that look random, the same for each seed.
struct Numbers(u64);

impl Numbers {
    fn below(&mut self, limit: u32) -> u32 {
        self.0 = self.0.wrapping_mul(6_364_136_223_846_793_005);
        self.0 = self.0.wrapping_add(1_442_695_040_888_963_407);
        (self.0 >> 33) as u32 % limit
    }
}

/// 300 entries of every kind that can be posted by turns, on two accounts. Some
/// are refused.
pub fn entries(seed: u64) -> Vec<Raw> {
    let kinds = u32::from(LAST_POSTED_KIND);
    let mut numbers = Numbers(seed);
    let mut entry_at = |serial: u32| {
        let kind = ((serial - 1) % kinds) as u8 + 1;
        let turn = numbers.below((serial - 1) / kinds + 1);
        let named_serial = kinds * turn + u32::from(named_kind(kind));
        let account = numbers.below(2) as u16 + 1;
        Raw {
            day: numbers.below(5_000) as u16,
            ..entry(kind, account, serial, named_serial)
        }
    };
    (1..=300).map(&mut entry_at).collect()
}
