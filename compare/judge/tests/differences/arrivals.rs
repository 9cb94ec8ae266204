//! Datagrams and the host's answers, through whole servers.

use ours::datagrams::{Lent, Token};
use ours::servers::{connected_clients, Answer, STAGE};
use ours::tables::Address;
use ours::whole::ASK;

use crate::came::{address, Came};
use crate::common::checked;
use crate::pair::Pair;
use crate::pumps::{packet, request, response, token, HERE, THERE};

/// 18 bytes with this prefix, zeros after it.
fn short(prefix: u8) -> [u8; 18] {
    let mut datagram = [0; 18];
    datagram[0] = prefix;
    datagram
}

/// One pump connected, and another that waits.
fn two_known() -> Pair {
    let mut pair = Pair::new(2);
    pair.connect(1, HERE);
    pair.challenge(2, THERE);
    pair
}

/// Ours refuses it so and changes nothing; the Rust panics, and its tables too are as they were.
fn panics(pair: &mut Pair, datagram: &[u8], number: u64) {
    for from in [HERE, THERE] {
        let before = pair.ours.clone();
        let came = pair.datagram(from, datagram);
        assert_eq!(came, (Came::Panicked, Came::Refused(number)));
        assert_eq!(pair.ours, before);
        pair.agree();
    }
}

#[test]
fn row_51_under_16_bytes_after_the_sequence() {
    let mut pair = two_known();
    panics(&mut pair, &short(0x21), 7);
    // One byte more, and the cipher is asked.
    let came = pair.agreed(HERE, &[&short(0x21)[..], &[0]].concat());
    assert_eq!(came, Came::Refused(8));
}

/// Rows 12, 14 and 15 through a server.
#[test]
fn rows_12_14_15_from_a_known_sender() {
    let mut pair = two_known();
    panics(&mut pair, &short(0x91), 4);
    let high = u64::MAX - 255;
    for sequence in [high, u64::MAX] {
        let before = pair.ours.clone();
        let came = pair.datagram(HERE, &packet(5, sequence, &[8]));
        let rust = match sequence {
            _ if checked() => Came::Panicked,
            u64::MAX => Came::Payload(1, vec![8]),
            _ => Came::Nothing,
        };
        assert_eq!(came, (rust, Came::Refused(5)));
        assert_eq!(pair.ours, before);
    }
    // Without overflow checks that one packet has shut the Rust's connection.
    let (rust, ours) = pair.datagram(HERE, &packet(5, 1, &[9]));
    assert_eq!(ours, Came::Payload(1, vec![9]));
    assert_eq!(rust == Came::Nothing, !checked());
}

fn refused(number: u64) -> Answer {
    let mut answer = [0; 14];
    answer[1] = number;
    answer
}

/// A server of ours that is asked to open a request's private token.
fn asked(datagram: &[u8]) -> Lent {
    let mut lent = Pair::new(1).ours.lent;
    let (answer, _) = lent.process_packet(&address(HERE), datagram);
    assert_eq!((answer[0], lent.record[STAGE]), (ASK, 2));
    lent
}

#[test]
fn row_52_what_only_a_host_can_do() {
    let datagram = request(&token(1), 100);
    let mut lent = Pair::new(1).ours.lent;
    lent.out.pop();
    let before = lent.clone();
    let (answer, told) = lent.process_packet(&address(HERE), &datagram);
    assert_eq!((answer, told), (refused(14), [0; 85]), "1,399 bytes");
    let nowhere = Address {
        kind: 5,
        ..address(HERE)
    };
    let (answer, _) = lent.process_packet(&nowhere, &datagram);
    assert_eq!(answer, refused(14), "14 before 19");
    assert_eq!(lent.answer_open(true, &datagram).0, refused(17));
    assert_eq!(lent.answer_seal(true).0, refused(17));
    assert_eq!(lent, before);
    let mut lent = asked(&datagram);
    let before = lent.clone();
    let (answer, _) = lent.process_packet(&address(HERE), &datagram);
    assert_eq!(answer, refused(16));
    assert_eq!(lent.update_client(1).0, refused(16));
    assert_eq!(lent.disconnect(1).0, refused(16));
    assert_eq!(lent.generate_payload_packet(1, &[]).0, refused(16));
    assert_eq!(lent.answer_open(true, &datagram).0, refused(18));
    assert_eq!(lent.answer_seal(true).0, refused(18));
    let shorter = &datagram[1..];
    assert_eq!(lent.answer_token(true, &given(&[]), shorter).0, refused(18));
    assert_eq!(lent, before);
    lent.out.push(0);
    assert_eq!(
        lent.answer_token(true, &given(&[]), &datagram).0,
        refused(18)
    );
}

/// Rows 35 and 46 in the calls about datagrams and clients.
#[test]
fn rows_35_and_46_in_a_servers_other_calls() {
    let datagram = request(&token(1), 100);
    let mut lent = Pair::new(1).ours.lent;
    let nowhere = Address {
        kind: 5,
        ..address(HERE)
    };
    let (answer, _) = lent.process_packet(&nowhere, &datagram);
    assert_eq!(answer, refused(19));
    let mut other = lent.clone();
    other.pending.pop();
    let before = other.clone();
    let (answer, _) = other.process_packet(&nowhere, &[]);
    assert_eq!(answer, refused(23), "23 before 14 and 19");
    assert_eq!(other.answer_seal(true).0, refused(17), "17 before 23");
    assert_eq!(other, before);
    lent.slots.push(0);
    let before = lent.clone();
    assert_eq!(lent.generate_payload_packet(1, &[0; 1301]).0, refused(23));
    assert_eq!(lent.update_client(1).0, refused(23));
    assert_eq!(lent.disconnect(1).0, refused(23));
    assert_eq!(lent, before);
}

/// A yes with these addresses.
fn given(addresses: &[u64]) -> Token {
    Token {
        client_id: 1,
        timeout_seconds: 1,
        server_to_client_key: [0; 32],
        client_to_server_key: [0; 32],
        user_data: [0; 256],
        server_addresses: addresses.to_vec(),
    }
}

#[test]
fn row_53_addresses_that_no_token_has() {
    let datagram = request(&token(1), 100);
    let mut lent = asked(&datagram);
    let before = lent.clone();
    let four = [4 << 16, 0, 0];
    for addresses in [&four.repeat(33)[..], &[5 << 16, 0, 0], &four[..2]] {
        let (answer, _) = lent.answer_token(true, &given(addresses), &datagram);
        assert_eq!((answer, &lent), (refused(18), &before));
    }
    // 32 are a list, though here none of them is ours; a no brings no fields.
    let mut other = lent.clone();
    let (answer, _) = other.answer_token(true, &given(&four.repeat(32)), &datagram);
    assert_eq!(answer, refused(13));
    let (answer, _) = lent.answer_token(false, &given(&four.repeat(33)), &datagram);
    assert_eq!(answer, refused(8));
}

#[test]
fn row_54_neither_pending_nor_connected() {
    let mut pair = Pair::new(1);
    let challenge = pair.challenge(1, HERE);
    let mut datagram = response(&challenge);
    let ours = &mut pair.ours;
    let mut said = ours.lent.process_packet(&address(HERE), &datagram);
    for stage in [1, 3] {
        assert_eq!((said.0[0], ours.lent.record[STAGE]), (ASK, stage));
        assert_eq!(ours.lent.pending[0], 1);
        said = ours.answer(&said, &mut datagram);
    }
    assert_eq!((said.0[0], ours.lent.record[STAGE]), (ASK, 7));
    assert_eq!((ours.lent.pending[0], ours.lent.slots[0]), (0, 0));
    let count = connected_clients(&ours.lent.record, &ours.lent.slots);
    assert_eq!(count, [3, 0, 0, 0, 0]);
    assert_eq!(ours.settle(said, &mut datagram)[0], 5);
    assert_eq!((ours.lent.pending[0], ours.lent.slots[0]), (0, 1));
    // The Rust gets there in one call.
    pair.theirs.process_packet(HERE, &mut response(&challenge));
    pair.agree();
}

#[test]
fn row_74_a_datagram_that_was_altered_before_the_answer() {
    let mut pair = Pair::new(1);
    pair.connect(1, HERE);
    let mut datagram = packet(5, 1, &[8]);
    let said = pair.ours.lent.process_packet(&address(HERE), &datagram);
    assert_eq!(said.0[0], ASK);
    // Opened, and with the head of another packet by then.
    datagram[..3].copy_from_slice(&[0x16, 2, 8]);
    let (answer, _) = pair.ours.lent.answer_open(true, &datagram);
    let mut payload = [0; 14];
    (payload[0], payload[2], payload[7], payload[8]) = (4, 1, 2, 3);
    assert_eq!(answer, payload, "a payload still, not a disconnect");
    assert_eq!(pair.ours.lent.slots[5 + 48], 1, "under its own sequence");
}
