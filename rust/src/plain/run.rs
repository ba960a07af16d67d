//! The late-charge run of document 02's request 5.

use super::check::is_node;
use super::posting::rounded;
use super::*;

/// A run that is open.
#[derive(Clone, Debug, PartialEq, Eq)]
pub(super) struct Run {
    node: u8,
    day: u16,
    /// In hundredths of a percent.
    rate: u16,
    /// Every account's arrears at the opening.
    noted: [u64; ACCOUNTS],
    /// The account that the next step charges; its noted arrears are above 0.
    account: u16,
}

impl Run {
    /// The run at its next account, sought from this one on; none where no
    /// account is left and it is over.
    fn at_next(mut self, first: u16) -> Option<Run> {
        let mut accounts = first..=ACCOUNTS as u16;
        self.account = accounts.find(|&account| self.noted_arrears(account) > 0)?;
        Some(self)
    }

    fn noted_arrears(&self, account: u16) -> u64 {
        self.noted[usize::from(account) - 1]
    }

    /// The amount of the next step's late charge.
    fn charge(&self) -> u32 {
        let product = self.noted_arrears(self.account) * u64::from(self.rate);
        rounded(product, 10_000).min(AMOUNT_MOST.into()) as u32
    }
}

impl Book {
    /// Opens a run and notes every account's arrears; gives 0. Refused by 28
    /// during a run, and where the node, the day or the rate is out of range.
    pub fn open_run(&mut self, node: u8, day: u16, rate: u16) -> u8 {
        let in_range = is_node(node) && day <= LAST_DAY && rate <= MAX_LATE_RATE;
        if self.run.is_some() || !in_range {
            return 28;
        }
        let first = 1;
        let run = Run {
            node,
            day,
            rate,
            noted: self.accounts.map(|account| account.arrears),
            account: first,
        };
        self.run = run.at_next(first);
        0
    }

    /// Charges the run's next account. Refused by 28 without a run, then by 6
    /// where the node has no serial left and by 7; the run then stays at its
    /// account.
    pub fn step(&mut self) -> PostingReply {
        let raw = match self.next_charge() {
            Ok(raw) => raw,
            Err(refusal) => return PostingReply::refused(refusal),
        };
        let reply = self.record(&raw);
        if reply.refusal == 0 {
            let run = self.run.take();
            self.run = run.and_then(|run| run.at_next(raw.account + 1));
        }
        reply
    }

    /// The late charge of the next step, or its refusal.
    fn next_charge(&self) -> Result<Raw, u8> {
        let run = self.run.as_ref().ok_or(28)?;
        let serial = self.last_serial(run.node).checked_add(1).ok_or(6)?;
        Ok(Raw {
            kind: LATE_CHARGE,
            node: run.node,
            account: run.account,
            day: run.day,
            serial,
            amount: run.charge(),
            ..Raw::default()
        })
    }

    /// Closes the run early; gives 0. Refused by 28 without a run.
    pub fn close_run(&mut self) -> u8 {
        match self.run.take() {
            Some(_) => 0,
            None => 28,
        }
    }
}
