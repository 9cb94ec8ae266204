//! A token's addresses beside the server's.

use std::net::SocketAddr;

use oracle::tables as rust;
use ours::tables;

use super::{answered, yes, Diff, Report, Verdict};
use crate::tables::{address_list, socket, Address, Hosts};

pub fn check(case: &Hosts) -> Report {
    let mut diff = Diff::default();
    let theirs = rust::is_in_host_list(&sockets(&case.list), &sockets(&case.ours));
    let number = tables::any_ours(&address_list(&case.list), &address_list(&case.ours));
    diff.number("one of ours", theirs.into(), number.into());
    let verdict = diff.verdict(Verdict::Equal);
    Report::new(yes(theirs), answered(number), verdict)
}

fn sockets(addresses: &[Address]) -> Vec<SocketAddr> {
    let sockets = addresses.iter().map(socket);
    sockets.collect::<Option<_>>().expect("well-formed")
}
