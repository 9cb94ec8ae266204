//! Connections that begin or end wrongly.

use std::time::Duration;

use line::book::{Cause, Change};
use line::fault::Fault;

use crate::story::{good, Story, DISCONNECT, REQUEST, RESPONSE, TIMEOUT};

fn connection(what: &'static str) -> Vec<Fault> {
    vec![Fault::Connection { pump: 1, what }]
}

#[test]
fn a_beginning_is_the_pumps_own() {
    let mut story = good(1);
    story.account.events[0].client_id = 2;
    assert_eq!(
        story.faults(),
        connection("connected or ended as another pump")
    );

    let mut story = good(1);
    let user_data = vec![2; 256];
    story.account.events[0].change = Change::Connected { user_data };
    assert_eq!(
        story.faults(),
        connection("connected with other user data than its token's")
    );
}

#[test]
fn a_beginning_needs_a_response() {
    let mut story = Story::new(1);
    story.send(REQUEST, 0);
    story.connected();
    assert_eq!(
        story.faults(),
        connection("connected without a response from it")
    );

    let mut story = Story::new(1);
    story.arrives(vec![0x23, 9, 9]);
    story.connected();
    assert_eq!(
        story.faults(),
        connection("connected without a response from it")
    );

    let mut story = Story::with_readings(1, 0);
    story.event(Change::Ended(Cause::Server));
    story.send(RESPONSE, 1);
    story.connected();
    assert_eq!(
        story.faults(),
        connection("connected again under one token")
    );
}

#[test]
fn a_goodbye_ends_it() {
    let mut story = Story::with_readings(1, 0);
    story.send(DISCONNECT, 2);
    story.event(Change::Ended(Cause::Pump));
    story.send(DISCONNECT, 2);
    assert_eq!(story.faults(), []);

    let mut story = Story::with_readings(1, 0);
    story.event(Change::Ended(Cause::Pump));
    assert_eq!(
        story.faults(),
        connection("ended, and had not said goodbye")
    );

    let mut story = Story::with_readings(1, 0);
    story.send(DISCONNECT, 2);
    assert_eq!(story.faults(), connection("its goodbye was not taken"));

    let mut story = Story::with_readings(1, 0);
    story.send(DISCONNECT, 2);
    story.send(DISCONNECT, 2);
    assert_eq!(story.faults(), connection("its goodbye was not taken"));
}

#[test]
fn silence_has_to_last() {
    let end = |after: Duration| {
        let mut story = Story::with_readings(1, 1);
        story.now = Duration::from_secs(2);
        story.deliver(&[1]);
        story.count(&[1]);
        story.now += after;
        story.deliver(&[1]);
        story.event(Change::Ended(Cause::Silence));
        story.faults()
    };
    assert_eq!(end(TIMEOUT), connection("given up before its time"));
    assert_eq!(end(TIMEOUT + Duration::from_nanos(1)), []);
}

#[test]
fn ends_and_beginnings_have_their_place() {
    let mut story = good(1);
    story.event(Change::Ended(Cause::Server));
    story.event(Change::Ended(Cause::Server));
    assert_eq!(story.faults(), connection("ended, and was not connected"));

    let mut story = good(1);
    story.account.arrived -= 1;
    let what = "the server's socket did not get just what the proxy delivered";
    assert_eq!(story.faults(), connection(what));

    let mut story = good(1);
    story.event(Change::Ended(Cause::Server));
    story.account.events[1].after += 1;
    let what = "connected or ended by a datagram that the proxy never delivered";
    assert_eq!(story.faults(), connection(what));
}
