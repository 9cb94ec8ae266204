//! The window.

use oracle::calls as rust;
use ours::calls;

use crate::common::{checked, is, mine, panicked, sealed, theirs, Came};

const LAST: u64 = u64::MAX;

#[test]
fn rows_7_and_8_tests_past_the_range() {
    let fresh = rust::new_window();
    for (sequence, received) in [(LAST - 255, true), (LAST, false)] {
        if checked() {
            assert!(panicked(rust::already_received(&fresh, sequence)));
        } else {
            assert_eq!(is(rust::already_received(&fresh, sequence)), received);
        }
        assert_eq!(calls::refusal(&fresh, sequence), 5);
        assert_eq!(calls::refusal_at(&fresh, sequence), 5);
    }
}

#[test]
fn row_9_an_advance_past_the_range() {
    let fresh = rust::new_window();
    for sequence in [LAST - 255, LAST] {
        let moved = is(rust::advance(&fresh, sequence));
        assert_eq!(moved[0], sequence);
        assert!(is(rust::already_received(&moved, 0)));
        let mut ours = fresh;
        calls::advance_sequence(&mut ours, sequence);
        calls::advance_at(&mut ours, sequence);
        assert_eq!(ours, fresh);
        assert_eq!(calls::refusal(&ours, 0), 0);
    }
}

#[test]
fn row_10_an_advance_by_what_is_behind() {
    let back = is(rust::advance(
        &is(rust::advance(&rust::new_window(), 256)),
        0,
    ));
    assert!(!is(rust::already_received(&back, 256)));
    let mut ours = rust::new_window();
    calls::advance_sequence(&mut ours, 256);
    calls::advance_sequence(&mut ours, 0);
    assert_eq!(calls::already_received(&ours, 256), 1);
    // By a packet neither gets there: the window is asked before it moves.
    let window = is(rust::advance(&rust::new_window(), 256));
    let late = sealed(5, 1, 0, &[]);
    let refused = (Came::Refused(6), Some(window));
    assert_eq!(theirs(&late, Some(&window)), refused);
    assert_eq!(mine(&late, Some(&window)), refused);
}

#[test]
fn row_11_exactly_256_behind() {
    let window = is(rust::advance(&rust::new_window(), 300));
    assert!(is(rust::already_received(&window, 44)));
    assert!(!is(rust::already_received(&window, 45)));
    assert_eq!(calls::refusal(&window, 44), 6);
    assert_eq!(calls::refusal(&window, 45), 0);
}
