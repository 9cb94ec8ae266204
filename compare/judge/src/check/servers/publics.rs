//! The query of public addresses, and what any query leaves.

use ours::servers::{addresses, Reply, ADDRESSES, UNREPLIED};
use ours::tables::ADDRESS_WORDS;

use super::queries::{DURING, NONE_USED, SOME_USED};
use super::{record, replied, report, starts, Class, Did, Diff, Report};
use crate::servers::{lent, Public};
use crate::tables::{address_list, Time};

/// A reply, and what stands in the list or the user data after it.
#[derive(Debug, Clone, PartialEq, Eq)]
pub struct Left {
    pub reply: Reply,
    pub list: Vec<u64>,
    pub user: [u8; 256],
}

impl Left {
    /// A list of so many words, and nothing written yet.
    pub fn new(room: usize) -> Self {
        Self {
            reply: UNREPLIED,
            list: (0..room as u64).map(|at| 0xA5A5_0000 + at).collect(),
            user: [0xA5; 256],
        }
    }

    pub fn listed(&mut self, count: usize, values: &[u64]) {
        self.reply = [3, 0, count as u64, 0, 0];
        self.list[..values.len()].copy_from_slice(values);
    }

    pub fn compare(&self, ours: &Self, diff: &mut Diff) {
        diff.words("reply", &self.reply, &ours.reply);
        diff.words("the list after it", &self.list, &ours.list);
        diff.bytes("the user data after it", &self.user, &ours.user);
    }
}

pub fn check(case: &Public) -> Report {
    let mut diff = Diff::default();
    let found = case.fit.found(case.public.len());
    let mut record = record(Time::ZERO, case.stage);
    record[ADDRESSES] = found as u64;
    let before = lent(address_list(&case.public), case.fit);
    let fits = (before.len() / ADDRESS_WORDS, before.len() % ADDRESS_WORDS) == (found, 0);
    let mut expected = Left::new(case.room);
    let (rust, class) = match (fits, case.room < before.len()) {
        (false, _) => {
            expected.reply = [0, 23, 0, 0, 0];
            (Did::Absent, Some(Class::OtherLength))
        }
        (true, true) => {
            expected.reply = [0, 14, 0, 0, 0];
            (Did::Absent, Some(Class::ShortList))
        }
        (true, false) => {
            let listed = starts::public_addresses(&case.public);
            expected.listed(listed.len(), &address_list(&listed));
            (Did::Done, None)
        }
    };
    let (list, mut ours) = (before.clone(), Left::new(case.room));
    ours.reply = addresses(&record, &list, &mut ours.list);
    expected.compare(&ours, &mut diff);
    diff.table("the public addresses after it", &before, &list);
    let did = replied(&ours.reply);
    let mut report = report(rust, did, diff, class, false);
    report.kind = (did == Did::Done).then_some(match case.public.len() {
        _ if case.stage > 0 => DURING,
        0 => NONE_USED,
        _ => SOME_USED,
    });
    report
}
