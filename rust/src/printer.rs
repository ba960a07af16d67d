//! What the statement printers over the plain book share.

use crate::plain::{StatementReply, LONGEST_IMAGE};
use std::io::{self, Read, Write};

/// The image on standard input. One byte more than the longest image has is
/// read, so that a longer one is noticed.
pub fn read_image() -> io::Result<Vec<u8>> {
    let most = LONGEST_IMAGE + 1;
    let mut image = Vec::with_capacity(most);
    io::stdin().take(most as u64).read_to_end(&mut image)?;
    Ok(image)
}

/// Writes the line of an account where it has entries. Its statement has an
/// allowance of 0, and so is complete only where the account has none.
pub fn write_account(out: &mut impl Write, account: u16, reply: &StatementReply) -> io::Result<()> {
    if reply.complete {
        return Ok(());
    }
    let StatementReply {
        arrears,
        credit,
        deposit,
        held,
        ..
    } = reply;
    writeln!(out, "{account} {arrears} {credit} {deposit} {held}")
}
