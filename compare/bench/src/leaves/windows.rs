//! The window: test and advance, in place and by value; one window, and many in random order.

use std::hint::black_box;

use oracle::raw::ReplayProtection;
use ours::calls;

use crate::rounds::{compare, Row};

const CALLS: usize = 200_000;

/// Which of `many` windows each call goes to, and the sequence it has there: rising in each window.
fn arrivals(many: usize) -> Vec<(usize, u64)> {
    let mut next = vec![0u64; many];
    let mut state = 1u64;
    (0..CALLS)
        .map(|_| {
            state = state
                .wrapping_mul(6364136223846793005)
                .wrapping_add(1442695040888963407);
            let which = (state >> 33) as usize % many;
            next[which] += 1;
            (which, next[which])
        })
        .collect()
}

fn rust(arrivals: &[(usize, u64)], windows: &mut [ReplayProtection]) {
    windows.fill(ReplayProtection::new());
    for &(which, sequence) in arrivals {
        let window = &mut windows[which];
        if !window.already_received(black_box(sequence)) {
            window.advance_sequence(sequence);
        }
    }
    black_box(windows);
}

fn in_place(arrivals: &[(usize, u64)], windows: &mut [ours::Window]) {
    windows.fill(calls::new_window());
    for &(which, sequence) in arrivals {
        let window = &mut windows[which];
        if calls::refusal_at(window, black_box(sequence)) == 0 {
            calls::advance_at(window, sequence);
        }
    }
    black_box(windows);
}

fn by_value(arrivals: &[(usize, u64)], windows: &mut [ours::Window]) {
    windows.fill(calls::new_window());
    for &(which, sequence) in arrivals {
        let window = &mut windows[which];
        if calls::refusal(window, black_box(sequence)) == 0 {
            calls::advance_sequence(window, sequence);
        }
    }
    black_box(windows);
}

type Ours = fn(&[(usize, u64)], &mut [ours::Window]);

pub fn rows() -> Vec<Row> {
    let forms: [(&str, Ours); 2] = [("in place", in_place), ("by value", by_value)];
    let mut rows = Vec::new();
    for many in [1, 1024] {
        let arrivals = arrivals(many);
        for (form, ours) in forms {
            let mut theirs = vec![ReplayProtection::new(); many];
            let mut mine = vec![calls::new_window(); many];
            let name = format!("window, {form}, test and advance, {many}");
            rows.push(compare(
                &name,
                CALLS,
                || rust(&arrivals, &mut theirs),
                || ours(&arrivals, &mut mine),
            ));
        }
    }
    rows
}
