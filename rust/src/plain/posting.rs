//! Posting: the moves of each kind.

use super::check::Accepted;
use super::*;
use std::cmp::Ordering;

/// The quotient to the nearest whole number, an exact half to the even one. The
/// divisor is not 0.
pub(super) fn rounded(dividend: u64, divisor: u64) -> u64 {
    let below = dividend / divisor;
    let rest = dividend % divisor;
    match (2 * rest).cmp(&divisor) {
        Ordering::Less => below,
        Ordering::Equal if below.is_multiple_of(2) => below,
        Ordering::Equal | Ordering::Greater => below + 1,
    }
}

/// The part of a bill's charge for the days served. A period has 1 day or more.
fn billed(charge: u64, period: u64, served: u64) -> u64 {
    rounded(charge * served, period)
}

/// Interest for `days` at a yearly rate in hundredths of a percent.
fn interest(deposit: u64, rate: u64, days: u64) -> u64 {
    rounded(deposit * rate * days, 3_650_000)
}

impl Book {
    /// Posts one entry. A refused entry leaves the book unchanged.
    pub fn post(&mut self, raw: &Raw) -> PostingReply {
        self.take(raw, Incoming::Posted)
    }

    /// Takes in a record of an image, or a run's late charge, as a posting does.
    pub fn record(&mut self, raw: &Raw) -> PostingReply {
        self.take(raw, Incoming::Recorded)
    }

    fn take(&mut self, raw: &Raw, incoming: Incoming) -> PostingReply {
        match self.check(raw, incoming) {
            Err(refusal) => PostingReply::refused(refusal),
            Ok(accepted) => {
                let number = self.append(raw);
                let reply = self.apply(raw, accepted);
                let entry = *self.appended();
                self.year_mut(raw.day).post(&entry, reply.paid_out);
                PostingReply { number, ..reply }
            }
        }
    }

    /// Adds the entry to the book and its account's chain; gives its number.
    fn append(&mut self, raw: &Raw) -> u16 {
        let next = self.account(raw.account).newest;
        self.entries[self.count] = Entry::new(*raw, next);
        self.count += 1;
        let number = self.count as u16;
        self.account_mut(raw.account).newest = number;
        self.last_serials[usize::from(raw.node) - 1] = raw.serial;
        number
    }

    /// Makes the moves of the entry appended last.
    fn apply(&mut self, raw: &Raw, accepted: Accepted) -> PostingReply {
        match accepted {
            Accepted::Contribution => self.contribution(raw),
            Accepted::AddedCustomer(place) => self.added_customer(raw, place),
            Accepted::Bill => self.bill(raw),
            Accepted::Payment => self.payment(raw),
            Accepted::Deposit => self.deposit(raw),
            Accepted::DepositReturn => self.deposit_return(raw),
            Accepted::Expiry(place) => self.retain(place),
            Accepted::Correction(place) => self.correction(raw, place),
            Accepted::Guarantee => self.guarantee(raw),
            Accepted::Reduction(place) => self.reduction(raw, place),
            Accepted::Retention(place) => self.retention(raw, place),
            Accepted::LateCharge => self.late_charge(raw),
        }
    }

    fn contribution(&mut self, raw: &Raw) -> PostingReply {
        self.appended().held = u64::from(raw.amount);
        PostingReply::default()
    }

    fn added_customer(&mut self, raw: &Raw, place: usize) -> PostingReply {
        let contribution = &mut self.entries[place];
        let k = 2 + u64::from(contribution.added);
        let share = u64::from(contribution.raw.amount) * u64::from(raw.a)
            / (u64::from(contribution.raw.a) * k);
        contribution.added += 1;
        self.give_back(place, share)
    }

    fn bill(&mut self, raw: &Raw) -> PostingReply {
        let billed = billed(raw.amount.into(), raw.a.into(), raw.b.into());
        self.charge_standing(raw.account, billed)
    }

    fn payment(&mut self, raw: &Raw) -> PostingReply {
        let amount = u64::from(raw.amount);
        self.appended().standing = amount;
        self.credit_keeping_rest(raw.account, amount)
    }

    fn deposit(&mut self, raw: &Raw) -> PostingReply {
        let account = self.account_mut(raw.account);
        account.deposit = u64::from(raw.amount);
        account.rate = raw.a.into();
        account.deposited = raw.day;
        PostingReply::default()
    }

    /// Deposit and interest are credited together; what is left over is paid
    /// out.
    fn deposit_return(&mut self, raw: &Raw) -> PostingReply {
        let account = self.account_mut(raw.account);
        let days = raw.day - account.deposited;
        let interest = interest(account.deposit, account.rate, days.into());
        let (settled, paid_out) = account.credit(account.deposit + interest);
        account.deposit = 0;
        account.rate = 0;
        account.deposited = 0;
        PostingReply {
            settled,
            paid_out,
            interest,
            ..PostingReply::default()
        }
    }

    /// The named entry's standing amount becomes the new one. A bill that
    /// grows, or a payment that shrinks, charges the difference; the others
    /// credit it.
    fn correction(&mut self, raw: &Raw, place: usize) -> PostingReply {
        let before = self.entries[place];
        let after = Entry {
            standing: raw.amount.into(),
            corrected: true,
            ..before
        };
        self.entries[place] = after;
        self.year_mut(before.raw.day).restate(&before, &after);
        let (old, new) = (before.standing, after.standing);
        let charges = if before.raw.kind == BILL {
            new > old
        } else {
            new < old
        };
        if charges {
            self.account_mut(raw.account).charge(new.abs_diff(old));
            PostingReply::default()
        } else {
            self.credit_keeping_rest(raw.account, new.abs_diff(old))
        }
    }

    fn guarantee(&mut self, raw: &Raw) -> PostingReply {
        let entry = self.appended();
        entry.held = u64::from(raw.amount);
        entry.reduced = raw.day;
        self.account_mut(raw.account).guarantee_open = true;
        PostingReply::default()
    }

    fn reduction(&mut self, raw: &Raw, place: usize) -> PostingReply {
        let tenth = self.paid_within(raw.account, raw.day) / 10;
        self.entries[place].reduced = raw.day;
        self.give_back(place, tenth)
    }

    /// The account's standing payments of the days that end with this one.
    fn paid_within(&self, account: u16, last: u16) -> u64 {
        let in_window = |entry: &&Entry| {
            let days_before = last.checked_sub(entry.raw.day);
            days_before.is_some_and(|days| days < WINDOW_DAYS)
        };
        self.chain(account)
            .map(|place| &self.entries[place])
            .filter(|entry| entry.raw.kind == PAYMENT)
            .filter(in_window)
            .map(|entry| entry.standing)
            .sum()
    }

    fn retention(&mut self, raw: &Raw, place: usize) -> PostingReply {
        self.account_mut(raw.account).guarantee_open = false;
        self.retain(place)
    }

    fn late_charge(&mut self, raw: &Raw) -> PostingReply {
        self.charge_standing(raw.account, raw.amount.into())
    }

    /// Charges the amount, which stands for the entry appended last.
    fn charge_standing(&mut self, account: u16, amount: u64) -> PostingReply {
        self.appended().standing = amount;
        self.account_mut(account).charge(amount);
        PostingReply::default()
    }

    /// Gives back up to `amount` of what the entry holds: it is credited, and
    /// what is left over is paid out.
    fn give_back(&mut self, place: usize, amount: u64) -> PostingReply {
        let entry = &mut self.entries[place];
        let amount = amount.min(entry.held);
        let account = &mut self.accounts[usize::from(entry.raw.account) - 1];
        let (settled, paid_out) = account.credit(amount);
        entry.held -= amount;
        entry.to_arrears += settled;
        entry.paid_out += paid_out;
        PostingReply {
            settled,
            paid_out,
            ..PostingReply::default()
        }
    }

    /// What the entry still holds is retained, and it is closed.
    fn retain(&mut self, place: usize) -> PostingReply {
        let entry = &mut self.entries[place];
        entry.retained = entry.held;
        entry.held = 0;
        entry.closed = true;
        PostingReply {
            retained: entry.retained,
            ..PostingReply::default()
        }
    }

    /// Credits the amount; what is left over is added to credit.
    fn credit_keeping_rest(&mut self, account: u16, amount: u64) -> PostingReply {
        let account = self.account_mut(account);
        let (settled, rest) = account.credit(amount);
        account.credit += rest;
        PostingReply {
            settled,
            ..PostingReply::default()
        }
    }

    /// The entry appended last.
    fn appended(&mut self) -> &mut Entry {
        &mut self.entries[self.count - 1]
    }
}
