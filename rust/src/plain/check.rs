//! Refusals 1 to 16, 24 to 27 and 30, in checking order.

use super::*;

/// How an entry comes in.
#[derive(Clone, Copy, Debug, PartialEq, Eq)]
pub enum Incoming {
    /// Posted or carried over.
    Posted,
    /// A record of an image, or a run's late charge.
    Recorded,
}

/// An entry that no refusal stops: its kind, with the place of the entry
/// that it names.
pub(super) enum Accepted {
    Contribution,
    AddedCustomer(usize),
    Bill,
    Payment,
    Deposit,
    DepositReturn,
    Expiry(usize),
    Correction(usize),
    Guarantee,
    Reduction(usize),
    Retention(usize),
    LateCharge,
}

type Checked = Result<Accepted, u8>;

/// Stops with the refusal where it holds.
fn refuse(holds: bool, refusal: u8) -> Result<(), u8> {
    if holds {
        Err(refusal)
    } else {
        Ok(())
    }
}

/// Whether an account is 1 to 128: else refusal 3.
pub(super) fn is_account(account: u16) -> bool {
    (1..=ACCOUNTS).contains(&usize::from(account))
}

/// Whether a node is 1 or 2: else refusal 2.
pub(super) fn is_node(node: u8) -> bool {
    node == 1 || node == 2
}

/// Refusals 1 to 5 and 30: what the entry's own fields and how it comes in
/// decide.
fn check_fields(raw: &Raw, incoming: Incoming) -> Result<(), u8> {
    let last_kind = match incoming {
        Incoming::Posted => LAST_POSTED_KIND,
        Incoming::Recorded => LAST_KIND,
    };
    refuse(!(CONTRIBUTION..=last_kind).contains(&raw.kind), 1)?;
    refuse(!is_node(raw.node), 2)?;
    refuse(!is_account(raw.account), 3)?;
    refuse(raw.day > LAST_DAY, 4)?;
    refuse(!in_range(raw), 5)?;
    let no_day = raw.kind == BILL && raw.b == 0;
    refuse(no_day && incoming == Incoming::Posted, 30)
}

/// Whether every field but the serial is in the range of the entry's kind.
fn in_range(raw: &Raw) -> bool {
    let amount = (1..=AMOUNT_MOST).contains(&raw.amount);
    let named = is_node(raw.named_node) && raw.named_serial >= 1;
    let phases = raw.b == 1 || raw.b == 3;

    let no_amount = raw.amount == 0;
    let not_named = raw.named_node == 0 && raw.named_serial == 0;
    let no_a = raw.a == 0;
    let no_b = raw.b == 0;

    match raw.kind {
        CONTRIBUTION => amount && not_named && raw.a >= 1 && phases,
        ADDED_CUSTOMER => no_amount && named && raw.a >= 1 && phases,
        BILL => {
            let period = (1..=MAX_PERIOD).contains(&raw.a);
            amount && not_named && period && u16::from(raw.b) <= raw.a
        }
        PAYMENT | GUARANTEE => amount && not_named && no_a && no_b,
        DEPOSIT => amount && not_named && raw.a <= MAX_RATE && no_b,
        DEPOSIT_RETURN => no_amount && not_named && no_a && no_b,
        EXPIRY | REDUCTION | RETENTION => no_amount && named && no_a && no_b,
        CORRECTION => raw.amount <= AMOUNT_MOST && named && no_a && no_b,
        LATE_CHARGE => raw.amount <= AMOUNT_MOST && not_named && no_a && no_b,
        _ => false,
    }
}

/// Whether the entry's period of so many years has ended on this day.
fn has_ended(entry: &Entry, years: u16, day: u16) -> bool {
    years_on(entry.raw.day, years).is_some_and(|end| day >= end)
}

impl Book {
    /// What the entry is refused by, or 0.
    pub fn refusal(&self, raw: &Raw, incoming: Incoming) -> u8 {
        self.check(raw, incoming).err().unwrap_or(0)
    }

    /// The refusals of an entry.
    pub(super) fn check(&self, raw: &Raw, incoming: Incoming) -> Checked {
        check_fields(raw, incoming)?;
        refuse(raw.serial <= self.last_serial(raw.node), 6)?;
        refuse(raw.kind == CORRECTION && self.run.is_some(), 27)?;
        refuse(self.count == ENTRIES, 7)?;
        match raw.kind {
            CONTRIBUTION => Ok(Accepted::Contribution),
            ADDED_CUSTOMER => self.check_added_customer(raw),
            BILL => Ok(Accepted::Bill),
            PAYMENT => Ok(Accepted::Payment),
            DEPOSIT => self.check_deposit(raw),
            DEPOSIT_RETURN => self.check_deposit_return(raw),
            EXPIRY => self.check_expiry(raw),
            CORRECTION => self.check_correction(raw),
            GUARANTEE => self.check_guarantee(raw),
            REDUCTION => self.check_reduction(raw),
            RETENTION => self.check_retention(raw),
            _ => Ok(Accepted::LateCharge),
        }
    }

    fn check_added_customer(&self, raw: &Raw) -> Checked {
        let place = self.named(raw, &[CONTRIBUTION])?;
        let contribution = &self.entries[place];
        refuse(raw.day < contribution.raw.day, 10)?;
        refuse(contribution.closed, 11)?;
        refuse(has_ended(contribution, REFUND_YEARS, raw.day), 12)?;
        refuse(raw.b == 1 && contribution.raw.b == 3, 14)?;
        refuse(raw.a > contribution.raw.a, 15)?;
        Ok(Accepted::AddedCustomer(place))
    }

    fn check_deposit(&self, raw: &Raw) -> Checked {
        refuse(self.account(raw.account).deposit != 0, 9)?;
        Ok(Accepted::Deposit)
    }

    fn check_deposit_return(&self, raw: &Raw) -> Checked {
        let account = self.account(raw.account);
        refuse(account.deposit == 0, 9)?;
        refuse(raw.day < account.deposited, 10)?;
        Ok(Accepted::DepositReturn)
    }

    fn check_expiry(&self, raw: &Raw) -> Checked {
        let place = self.named(raw, &[CONTRIBUTION])?;
        let contribution = &self.entries[place];
        refuse(raw.day < contribution.raw.day, 10)?;
        refuse(contribution.closed, 11)?;
        refuse(!has_ended(contribution, REFUND_YEARS, raw.day), 13)?;
        Ok(Accepted::Expiry(place))
    }

    fn check_correction(&self, raw: &Raw) -> Checked {
        let place = self.named(raw, &[BILL, PAYMENT])?;
        let named = &self.entries[place];
        refuse(raw.day < named.raw.day, 10)?;
        refuse(named.corrected, 16)?;
        Ok(Accepted::Correction(place))
    }

    fn check_guarantee(&self, raw: &Raw) -> Checked {
        refuse(self.account(raw.account).guarantee_open, 24)?;
        Ok(Accepted::Guarantee)
    }

    fn check_reduction(&self, raw: &Raw) -> Checked {
        let place = self.named(raw, &[GUARANTEE])?;
        let guarantee = &self.entries[place];
        refuse(raw.day < guarantee.raw.day, 10)?;
        refuse(guarantee.closed, 11)?;
        refuse(raw.day < guarantee.reduced + REDUCTION_INTERVAL, 25)?;
        Ok(Accepted::Reduction(place))
    }

    fn check_retention(&self, raw: &Raw) -> Checked {
        let place = self.named(raw, &[GUARANTEE])?;
        let guarantee = &self.entries[place];
        refuse(raw.day < guarantee.raw.day, 10)?;
        refuse(guarantee.closed, 11)?;
        refuse(!has_ended(guarantee, GUARANTEE_YEARS, raw.day), 26)?;
        Ok(Accepted::Retention(place))
    }

    /// The place of the named entry, sought along the account's chain;
    /// refusal 8 where it is not there or of none of these kinds.
    fn named(&self, raw: &Raw, kinds: &[u8]) -> Result<usize, u8> {
        self.find(raw.account, raw.named_node, raw.named_serial)
            .filter(|&place| kinds.contains(&self.entries[place].raw.kind))
            .ok_or(8)
    }
}
