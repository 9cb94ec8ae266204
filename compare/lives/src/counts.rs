//! How often each branch was reached.

use std::collections::BTreeMap;

use crate::wanted::WANTED;

#[derive(Default)]
pub struct Counts {
    reached: BTreeMap<String, u64>,
    beyond: BTreeMap<String, u64>,
    pub calls: u64,
    pub answers: u64,
}

impl Counts {
    pub fn reach(&mut self, branch: &str) {
        match self.reached.get_mut(branch) {
            Some(count) => *count += 1,
            None => {
                self.reached.insert(branch.to_string(), 1);
            }
        }
    }

    pub fn go_beyond(&mut self, sort: String) {
        *self.beyond.entry(sort).or_default() += 1;
    }

    pub fn has(&self, branch: &str) -> bool {
        self.reached.contains_key(branch)
    }

    /// What the other reached and this one has under so many times.
    pub fn lacking(&self, other: &Self, times: u64) -> Vec<String> {
        let count = |branch: &str| self.reached.get(branch).copied().unwrap_or(0);
        let reached = other.reached.keys();
        reached
            .filter(|branch| count(branch) < times)
            .cloned()
            .collect()
    }

    pub fn add(&mut self, other: &Self) {
        for (branch, count) in &other.reached {
            *self.reached.entry(branch.clone()).or_default() += count;
        }
    }

    /// The branches of the list that were never reached.
    pub fn missing(&self) -> Vec<&'static str> {
        WANTED
            .iter()
            .copied()
            .filter(|branch| !self.has(branch))
            .collect()
    }

    pub fn print(&self) {
        println!("branch of document 01: times reached");
        for branch in WANTED {
            println!("  {:>8}  {branch}", self.reached.get(*branch).unwrap_or(&0));
        }
        for (branch, count) in &self.reached {
            if !WANTED.contains(&branch.as_str()) {
                println!("  {count:>8}  {branch} (not on the list)");
            }
        }
        println!("outside the domain, ours as document 01 says, the Rust:");
        for (sort, count) in &self.beyond {
            println!("  {count:>8}  {sort}");
        }
    }
}
