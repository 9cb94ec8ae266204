//! Where ours and the Rust, through whole servers, do the same and the standard something else.

use std::net::{Ipv6Addr, SocketAddr};

use crate::came::Came;
use crate::pair::Pair;
use crate::pumps::{opened, packet, request, request_of, request_under, response, token};
use crate::pumps::{HERE, PUBLIC, THERE};

/// Where in a private token, in clear: the count of addresses, and the first one's kind.
const COUNT: usize = 12;
const KIND: usize = 16;

fn is_challenged(pair: &mut Pair, private: [u8; 1024]) -> bool {
    match pair.agreed(HERE, &request_of(private, 100)) {
        Came::ToSend(..) => true,
        Came::Refused(13) => false,
        other => panic!("neither a challenge nor 13 but {other:?}"),
    }
}

#[test]
fn row_75_the_bytes_of_an_ipv6_address_in_a_token() {
    let loopback = SocketAddr::from((Ipv6Addr::LOCALHOST, 40000));
    let mut named = token(1);
    named.addresses = vec![loopback];
    let mut private = named.clear();
    assert_eq!(private[KIND], 2);
    assert_eq!(private[KIND + 15..KIND + 17], [0, 1], "network order");
    let mut pair = Pair::with(1, 4096, loopback);
    assert!(is_challenged(&mut pair, private));
    private.swap(KIND + 15, KIND + 16);
    assert!(!is_challenged(&mut pair, private), "the standard's order");
}

#[test]
fn row_76_a_count_of_addresses_outside_1_to_32() {
    let mut none = token(1);
    none.addresses.clear();
    let mut pair = Pair::new(1);
    assert!(!is_challenged(&mut pair, none.clear()), "read, and 13");
    let open = request_under(none.clear(), 100, &[0; 32]);
    let came = Pair::unsecure(1).agreed(HERE, &open);
    assert!(matches!(came, Came::ToSend(..)), "challenged: {came:?}");
    let mut pair = Pair::new(1);
    let mut many = token(1);
    many.addresses = vec![HERE; 32];
    many.addresses[31] = PUBLIC;
    let mut private = many.clear();
    private[COUNT] = 33;
    assert!(is_challenged(&mut pair, private), "the first 32 are read");
}

#[test]
fn row_77_an_address_of_type_0_is_skipped() {
    let mut pair = Pair::new(1);
    let private = token(1).clear();
    let mut skipped = [0; 1024];
    skipped[..KIND].copy_from_slice(&private[..KIND]);
    skipped[COUNT] = 2;
    skipped[KIND + 1..].copy_from_slice(&private[KIND..1023]);
    assert!(is_challenged(&mut pair, skipped));
}

#[test]
fn row_78_the_sequence_of_the_first_challenge_token() {
    let challenge = Pair::new(1).challenge(1, HERE);
    assert_eq!(opened(&challenge).1.a, 1);
}

#[test]
fn row_79_two_packets_under_one_key_and_sequence() {
    let mut pair = Pair::new(1);
    let challenge = pair.challenge(1, HERE);
    let Came::Connected(1, HERE, keep_alive) = pair.agreed(HERE, &response(&challenge)) else {
        panic!("not connected")
    };
    let [one, other] = [challenge, keep_alive].map(|packet| opened(&packet));
    assert_eq!((one.0, one.1.kind), (0, 2));
    assert_eq!((other.0, other.1.kind), (0, 4));
}

#[test]
fn row_80_a_challenge_that_was_made_for_another() {
    let mut pair = Pair::new(2);
    let other = pair.challenge(2, THERE);
    pair.challenge(1, HERE);
    let came = pair.agreed(HERE, &response(&other));
    assert!(matches!(came, Came::Connected(1, HERE, _)), "{came:?}");
    assert_eq!(pair.theirs.user_data(1), Some([2; 256]));
}

#[test]
fn row_81_one_disconnect_packet() {
    let mut pair = Pair::new(1);
    pair.connect(1, HERE);
    let (rust, ours) = pair.disconnect(1);
    assert!(matches!(rust, Came::Disconnected(1, HERE, Some(_))));
    assert_eq!(rust, ours);
    assert_eq!(pair.disconnect(1), (Came::Nothing, Came::Nothing));
    assert_eq!(pair.update_client(1), (Came::Nothing, Came::Nothing));
}

#[test]
fn row_82_a_request_in_clear_keeps_a_pump_connected() {
    let mut pair = Pair::new(1);
    pair.connect(1, HERE);
    pair.update(1, 0);
    assert_eq!(pair.agreed(HERE, &[0; 1078]), Came::Nothing);
    pair.update(1, 0);
    let (rust, ours) = pair.update_client(1);
    assert!(matches!(rust, Came::ToSend(..)), "kept alive: {rust:?}");
    assert_eq!(rust, ours);
    pair.update(0, 1);
    let (rust, ours) = pair.update_client(1);
    assert!(matches!(rust, Came::Disconnected(..)), "overdue: {rust:?}");
    assert_eq!(rust, ours);
}

#[test]
fn row_83_what_a_pending_pump_sends_is_accepted_and_lost() {
    let mut pair = Pair::new(1);
    let challenge = pair.challenge(1, HERE);
    assert_eq!(pair.agreed(HERE, &packet(5, 1, &[8])), Came::Nothing);
    pair.agreed(HERE, &response(&challenge));
    assert_eq!(pair.agreed(HERE, &packet(5, 1, &[8])), Came::Refused(6));
}

#[test]
fn row_85_a_whole_connection_again() {
    let mut pair = Pair::new(1);
    let asking = request(&token(1), 100);
    let challenge = pair.challenge(1, HERE);
    let sent = [asking, response(&challenge), packet(5, 1, &[8])];
    pair.agreed(HERE, &sent[1]);
    let reading = Came::Payload(1, vec![8]);
    assert_eq!(pair.agreed(HERE, &sent[2]), reading);
    assert_eq!(pair.agreed(HERE, &sent[2]), Came::Refused(6));
    pair.disconnect(1);
    // The very same datagrams, in the same order.
    assert!(matches!(pair.agreed(HERE, &sent[0]), Came::ToSend(..)));
    assert!(matches!(pair.agreed(HERE, &sent[1]), Came::Connected(..)));
    assert_eq!(pair.agreed(HERE, &sent[2]), reading);
}

/// No row: they are the same.
#[test]
fn addresses_that_look_alike() {
    let mapped = Ipv6Addr::new(0, 0, 0, 0, 0, 0xFFFF, 0x7F00, 1);
    let mut pair = Pair::new(1);
    pair.challenge(1, HERE);
    pair.challenge(2, (mapped, 1).into());
    pair.challenge(3, ([0, 0, 0, 0], 0).into());
    pair.challenge(4, ([0; 16], 0).into());
    assert_eq!(pair.waiting(), [4, 4]);
    let request = request(&token(4), 100);
    assert_eq!(pair.agreed(HERE, &request), Came::Nothing, "used elsewhere");
}
