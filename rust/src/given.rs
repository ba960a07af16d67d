//! The plain book's answers as the proved library gives them.

use crate::plain::{ContributionReply, PostingReply, StatementReply, Year};
use crate::proved::{ContributionGiven, PostingGiven, StatementGiven, YearGiven};

impl PostingGiven {
    /// The answer to a posting after which the image has so many bytes.
    pub fn new(reply: PostingReply, bytes: usize) -> PostingGiven {
        PostingGiven {
            refusal: reply.refusal,
            record: 0,
            number: reply.number,
            bytes,
            settled: reply.settled,
            paid_out: reply.paid_out,
            retained: reply.retained,
            interest: reply.interest,
        }
    }
}

impl From<StatementReply> for StatementGiven {
    fn from(reply: StatementReply) -> StatementGiven {
        StatementGiven {
            refusal: reply.refusal,
            record: 0,
            links_read: reply.links_read as u16,
            complete: reply.complete,
            arrears: reply.arrears,
            credit: reply.credit,
            deposit: reply.deposit,
            held: reply.held,
            bills: reply.bills,
            payments: reply.payments,
        }
    }
}

impl From<ContributionReply> for ContributionGiven {
    fn from(reply: ContributionReply) -> ContributionGiven {
        ContributionGiven {
            refusal: reply.refusal,
            record: 0,
            added: reply.added,
            closed: reply.closed,
            amount: reply.amount,
            to_arrears: reply.to_arrears,
            paid_out: reply.paid_out,
            held: reply.held,
            retained: reply.retained,
        }
    }
}

impl From<Year> for YearGiven {
    fn from(totals: Year) -> YearGiven {
        YearGiven {
            refusal: 0,
            record: 0,
            entries: totals.entries,
            bills: totals.bills,
            payments: totals.payments,
            paid_out: totals.paid_out,
        }
    }
}
