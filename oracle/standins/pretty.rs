//! In place of syntax/pretty.rs.

pub fn pretty_print() {}
