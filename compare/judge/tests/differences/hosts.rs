//! What is the host's part in ours and the Rust's own, through whole servers.

use std::net::{SocketAddr, SocketAddrV6};

use chacha20poly1305::watch;
use ours::servers::user_data;

use crate::came::{address, Came};
use crate::pair::{Both, Pair};
use crate::pumps::{request, request_of, response, token, HERE, PUBLIC, THERE, TO_CLIENT};

#[test]
fn row_61_refusals_have_numbers() {
    let mut pair = Pair::new(1);
    let mut newer = request(&token(1), 100);
    newer[12] = b'3';
    let mut other = request(&token(1), 100);
    other[14] ^= 1;
    let mut abroad = token(1);
    abroad.addresses = vec![HERE];
    let cases = [
        (vec![], 1),
        (vec![7; 18], 2),
        (vec![5; 18], 3),
        (vec![0; 18], 9),
        (newer, 10),
        (other, 11),
        (request(&token(1), 0), 12),
        (request(&abroad, 100), 13),
    ];
    for (datagram, number) in cases {
        let came = pair.datagram(HERE, &datagram);
        assert_eq!(came, (Came::Nothing, Came::Refused(number)));
        pair.agree();
    }
    let came = pair.payload(1, &[0; 1301]);
    assert_eq!(came, (Came::Failed, Came::Refused(21)));
    assert_eq!(pair.payload(1, &[]), (Came::Failed, Came::Refused(22)));
}

/// With a cipher that refuses its ask of this number, from 0 on, on both sides.
fn unsealed(pair: &mut Pair, datagram: &[u8], ask: usize) -> Both {
    watch::refuse_at(Some(ask));
    watch::start();
    let theirs = pair.theirs_alone(HERE, datagram);
    let asked = watch::take();
    assert!(asked.len() == ask + 1 && asked[ask].seal, "no such seal");
    watch::start();
    let ours = pair.ours_alone(HERE, datagram);
    assert!(watch::take().len() == ask + 1, "ours asks otherwise");
    watch::refuse_at(None);
    pair.agree();
    (theirs, ours)
}

#[test]
fn row_66_the_host_says_no_to_a_seal_for_a_datagram() {
    let refused = (Came::Nothing, Came::Refused(24));
    let asking = request(&token(1), 100);
    // A challenge's token, then the packet around it: the challenge counter stays raised, the token is used,
    // nobody waits.
    let mut pair = Pair::new(1);
    for (ask, raised) in [(1, 1), (2, 2)] {
        assert_eq!(unsealed(&mut pair, &asking, ask), refused);
        assert_eq!((pair.counters(), pair.waiting()), ([0, raised], [0, 0]));
        assert_eq!(pair.entries(), [1, 1]);
    }
    // The keep-alive that connects: who waited waits no more, and is not connected.
    let challenge = pair.challenge(1, HERE);
    assert_eq!(unsealed(&mut pair, &response(&challenge), 2), refused);
    assert_eq!((pair.counters(), pair.waiting()), ([1, 3], [0, 0]));
    // A denial: who waited waits no more, and the counter is not raised.
    pair.challenge(1, HERE);
    pair.theirs.set_max_clients(0);
    pair.ours.set_max_clients(0);
    assert_eq!(unsealed(&mut pair, &asking, 1), refused);
    assert_eq!((pair.counters(), pair.waiting()), ([2, 4], [0, 0]));
}

#[test]
fn row_67_what_stands_in_the_datagram_afterwards() {
    let mut pair = Pair::new(1);
    let sent = request(&token(1), 100);
    let (mut theirs, mut ours) = (sent.clone(), sent.clone());
    let challenge = match pair.theirs.process_packet(HERE, &mut theirs) {
        oracle::ServerResult::PacketToSend { payload, .. } => payload.to_vec(),
        other => panic!("no challenge but {other:?}"),
    };
    pair.ours.process_packet(&address(HERE), &mut ours);
    assert_eq!(theirs, sent, "the Rust opens a copy");
    assert_eq!(ours[..54], sent[..54]);
    assert_eq!(ours[54..1062], token(1).clear()[..1008], "in clear");
    let sent = response(&challenge);
    let (mut theirs, mut ours) = (sent.clone(), sent.clone());
    pair.theirs.process_packet(HERE, &mut theirs);
    pair.ours.process_packet(&address(HERE), &mut ours);
    assert_eq!(theirs[..9], ours[..9], "both have opened the packet");
    assert_ne!(theirs[9..17], 1u64.to_le_bytes());
    assert_eq!(ours[9..17], 1u64.to_le_bytes(), "the challenge's id");
    pair.agree();
}

#[test]
fn row_68_the_user_data_of_one_who_has_just_connected() {
    let mut pair = Pair::new(3);
    let own = pair.challenge(1, HERE);
    // Another pump with the same id waits too, and gets the challenge of a third.
    pair.agreed(THERE, &request(&other_token(1), 100));
    let third = pair.challenge(2, ([127, 0, 0, 1], 3).into());
    pair.agreed(HERE, &response(&own));
    let mut datagram = response(&third);
    match pair.theirs.process_packet(THERE, &mut datagram) {
        oracle::ServerResult::ClientConnected {
            client_id: 1,
            user_data,
            ..
        } => assert_eq!(*user_data, [2; 256], "the Rust hands it out"),
        other => panic!("not connected but {other:?}"),
    }
    let mut datagram = response(&third);
    let answer = pair.ours.process_packet(&address(THERE), &mut datagram);
    assert_eq!(answer[..4], [5, 0, 1, 1], "ours tells the slot");
    pair.agree();
    // The query is by id on both sides, and the lower slot answers.
    let (lent, mut user) = (&pair.ours.lent, [0; 256]);
    assert_eq!(user_data(&lent.record, &lent.slots, 1, &mut user)[0], 6);
    assert_eq!(user, [1; 256]);
    assert_eq!(pair.theirs.user_data(1), Some([1; 256]));
}

/// A token for the same id that is not the same token.
fn other_token(id: u64) -> oracle::lives::Private {
    oracle::lives::Private {
        timeout_seconds: 2,
        ..token(id)
    }
}

const LINK_LOCAL: [u8; 16] = [0xFE, 0x80, 0, 0, 0, 0, 0, 0, 0, 0, 0, 0, 0, 0, 0, 1];

fn scoped(flow: u32, scope: u32) -> SocketAddr {
    SocketAddrV6::new(LINK_LOCAL.into(), 1, flow, scope).into()
}

#[test]
fn row_69_where_an_answer_goes_that_came_with_a_scope() {
    for (flow, scope) in [(1, 0), (0, 1)] {
        let mut pair = Pair::new(2);
        let (theirs, ours) = pair.datagram(scoped(flow, scope), &request(&token(1), 100));
        let (Came::ToSend(to, one), Came::ToSend(mine, other)) = (theirs, ours) else {
            panic!("no challenge")
        };
        assert_eq!((to, mine), (scoped(flow, scope), scoped(0, 0)));
        assert_eq!(one, other);
    }
    // Two pumps that only their scopes tell apart are two to the Rust and one to ours.
    let mut pair = Pair::new(2);
    for (id, scope) in [(1, 1), (2, 2)] {
        pair.datagram(scoped(0, scope), &request(&token(id), 100));
    }
    assert_eq!(pair.waiting(), [2, 1]);
}

#[test]
fn row_70_a_public_address_with_a_scope() {
    let mut named = token(1);
    named.addresses = vec![scoped(0, 0)];
    let mut pair = Pair::with(1, 1, scoped(0, 1));
    let (theirs, ours) = pair.datagram(HERE, &request(&named, 100));
    assert_eq!(theirs, Came::Nothing, "a token has no place for a scope");
    assert!(matches!(ours, Came::ToSend(..)));
}

#[test]
fn row_71_fewer_pending_places() {
    let mut pair = Pair::with(1, 1, PUBLIC);
    pair.challenge(1, HERE);
    let (theirs, ours) = pair.datagram(THERE, &request(&token(2), 100));
    assert!(matches!(theirs, Came::ToSend(..)));
    assert_eq!(ours, Came::Nothing);
    assert_eq!((pair.waiting(), pair.entries()), ([2, 1], [2, 1]));
}

#[test]
fn row_72_private_bytes_that_no_token_has() {
    // The count of addresses stands after id and timeout, the first one's kind after it.
    const COUNT: usize = 12;
    const KIND: usize = 16;
    let mut unknown = token(1).clear();
    unknown[KIND] = 3;
    let mut pair = Pair::new(1);
    let came = pair.datagram(HERE, &request_of(unknown, 100));
    assert_eq!(came, (Came::Nothing, Came::Refused(8)));
    pair.agree();
    // With 32 addresses, a count of 33 is read as 32, and no address of the list is lost or made.
    let mut many = token(1);
    many.addresses = vec![PUBLIC; 32];
    let mut counted = many.clear();
    counted[COUNT] = 33;
    assert!(matches!(
        pair.agreed(HERE, &request_of(counted, 100)),
        Came::ToSend(..)
    ));
    // A host that hands on 33 is told 18: row 53.
}

#[test]
fn row_84_what_is_left_of_a_connection_that_is_over() {
    let mut pair = Pair::new(1);
    pair.connect(1, HERE);
    pair.disconnect(1);
    assert_eq!(pair.theirs.user_data(1), None);
    // Of both places the mark alone is gone, and what was kept of the token is kept on.
    let key = [u64::from_le_bytes([TO_CLIENT[0]; 8]); 4];
    let lent = &pair.ours.lent;
    assert_eq!((lent.slots[0], lent.pending[0]), (0, 0));
    assert_eq!(lent.slots[5 + 1..5 + 5], key);
    assert_eq!(lent.pending[5 * 4096 + 1..5 * 4096 + 5], key);
    assert_eq!(lent.held[20..52], TO_CLIENT);
}
