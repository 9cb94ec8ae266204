//! Puts one case after the other to both sides and keeps the books.

use crate::case::Case;
use crate::check::{check, Report};
use crate::sample::Sample;
use crate::table::Table;

/// The first case in the domain in which the two sides differ.
pub struct Found(pub Box<Case>);

pub struct Judge {
    pub table: Table,
    pub sample: Option<Sample>,
    tried: u64,
}

impl Judge {
    pub fn new(sample: Option<Sample>) -> Self {
        Self {
            table: Table::default(),
            sample,
            tried: 0,
        }
    }

    /// What came of it, for a run of cases to go on with.
    pub fn put(&mut self, case: Case) -> Result<Report, Found> {
        let report = check(&case);
        if report.differs() {
            return Err(Found(Box::new(case)));
        }
        self.book(&case, &report);
        Ok(report)
    }

    fn book(&mut self, case: &Case, report: &Report) {
        self.table.count(case, report);
        if let (Some(sample), true) = (&mut self.sample, case.call().is_sampled()) {
            sample.offer(case, report);
        }
        self.tried += 1;
        if self.tried.is_multiple_of(100_000) {
            eprintln!("{} cases", self.tried);
        }
    }
}
