//! The calls that only read the book.

use super::check::{is_account, is_node};
use super::*;

/// The answer to a statement. A refused one has zeros beside its refusal.
#[derive(Clone, Copy, Debug, Default, PartialEq, Eq)]
pub struct StatementReply {
    pub refusal: u8,
    pub arrears: u64,
    pub credit: u64,
    pub deposit: u64,
    /// Held, summed over the account's contributions.
    pub held: u64,
    /// The smaller of the allowance and the chain's length.
    pub links_read: u64,
    /// Sum of standing bills and late charges among the entries read.
    pub bills: u64,
    /// Sum of standing payments among the entries read.
    pub payments: u64,
    /// The chain's length is at most the allowance.
    pub complete: bool,
}

/// The answer to a contribution query. A refused one has zeros beside its
/// refusal.
#[derive(Clone, Copy, Debug, Default, PartialEq, Eq)]
pub struct ContributionReply {
    pub refusal: u8,
    pub amount: u64,
    /// Refunds to arrears.
    pub to_arrears: u64,
    /// Refunds paid out.
    pub paid_out: u64,
    pub held: u64,
    pub retained: u64,
    /// Customers added.
    pub added: u16,
    pub closed: bool,
}

impl ContributionReply {
    fn refused(refusal: u8) -> ContributionReply {
        ContributionReply {
            refusal,
            ..ContributionReply::default()
        }
    }
}

impl Book {
    /// The account's amounts, and its chain newest first as far as the
    /// allowance goes. Refuses only by 3.
    pub fn statement(&self, account: u16, allowance: u64) -> StatementReply {
        if !is_account(account) {
            return StatementReply {
                refusal: 3,
                ..StatementReply::default()
            };
        }
        let amounts = self.account(account);
        let mut reply = StatementReply {
            arrears: amounts.arrears,
            credit: amounts.credit,
            deposit: amounts.deposit,
            complete: true,
            ..StatementReply::default()
        };
        for place in self.chain(account) {
            let entry = &self.entries[place];
            if entry.raw.kind == CONTRIBUTION {
                reply.held += entry.held;
            }
            if reply.links_read == allowance {
                reply.complete = false;
                continue;
            }
            reply.links_read += 1;
            match entry.raw.kind {
                BILL | LATE_CHARGE => reply.bills += entry.standing,
                PAYMENT => reply.payments += entry.standing,
                _ => {}
            }
        }
        reply
    }

    /// One contribution of the account. Refuses by 2, 3 or 8 in that order.
    pub fn contribution_query(&self, account: u16, node: u8, serial: u32) -> ContributionReply {
        if !is_node(node) {
            return ContributionReply::refused(2);
        }
        if !is_account(account) {
            return ContributionReply::refused(3);
        }
        let Some(place) = self.find(account, node, serial) else {
            return ContributionReply::refused(8);
        };
        let entry = &self.entries[place];
        if entry.raw.kind != CONTRIBUTION {
            return ContributionReply::refused(8);
        }
        ContributionReply {
            refusal: 0,
            amount: entry.raw.amount.into(),
            to_arrears: entry.to_arrears,
            paid_out: entry.paid_out,
            held: entry.held,
            retained: entry.retained,
            added: entry.added,
            closed: entry.closed,
        }
    }
}
