//! A program's input with its table written anew.

use crate::{renew, renew_older, NotRenewed, Renewed};
use reading::{join_input, whole_input};

/// An input (the table's length in 2 bytes, the table, the question) with the table anew.
#[derive(Debug, Clone, PartialEq, Eq)]
pub struct RenewedInput {
    pub input: Vec<u8>,
    /// Its table.
    pub table: Renewed,
}

/// The input with its table anew and its question as it is.
pub fn renew_input(input: &[u8]) -> Result<RenewedInput, NotRenewed> {
    with_table(input, renew)
}

/// The same, where a table that both forms accept is an older one.
pub fn renew_older_input(input: &[u8]) -> Result<RenewedInput, NotRenewed> {
    with_table(input, |table| renew_older(table).map_err(NotRenewed::NotOlder))
}

fn with_table(input: &[u8], anew: impl Fn(&[u8]) -> Result<Renewed, NotRenewed>) -> Result<RenewedInput, NotRenewed> {
    let (table, question) = whole_input(input).ok_or(NotRenewed::Cut)?;
    let table = anew(table)?;
    let input = join_input(&table.table, question).ok_or(NotRenewed::Length(table.table.len()))?;
    Ok(RenewedInput { input, table })
}
