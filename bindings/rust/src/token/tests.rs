use super::*;

/// An opened private token with these bytes for its addresses, count first; zeros to 1,008.
fn opened(addresses: &[u8]) -> Vec<u8> {
    let mut bytes = Vec::new();
    bytes.extend(0x0807060504030201_u64.to_le_bytes());
    bytes.extend((-2_i32).to_le_bytes());
    bytes.extend(addresses);
    bytes.extend([0xC5; 32]);
    bytes.extend([0x5C; 32]);
    bytes.extend((0..=255).collect::<Vec<u8>>());
    bytes.resize(1008, 0);
    bytes
}

const FOUR: [u8; 7] = [1, 10, 0, 0, 1, 0x88, 0x13];
const FOUR_WORDS: [u64; 3] = [4 << 16 | 5000, 0x0100000A, 0];

fn words(addresses: &[u8]) -> Option<Vec<u64>> {
    let token = PrivateConnectToken::read(&opened(addresses))?;
    Some(token.server_addresses().to_vec())
}

#[test]
fn every_field() {
    let bytes = opened(&[&[1, 0, 0, 0][..], &FOUR].concat());
    let token = PrivateConnectToken::read(&bytes).expect("a token");
    assert_eq!(token.client_id, 0x0807060504030201);
    assert_eq!(token.timeout_seconds, -2);
    assert_eq!(token.client_to_server_key, [0xC5; 32]);
    assert_eq!(token.server_to_client_key, [0x5C; 32]);
    assert_eq!(token.user_data, std::array::from_fn(|i| i as u8));
    assert_eq!(token.server_addresses(), FOUR_WORDS);
}

#[test]
fn both_kinds_and_none() {
    let six = [&[2][..], &[0x11; 16], &[1, 0]].concat();
    let all = [&[4, 0, 0, 0][..], &six, &[0, 0], &FOUR].concat();
    let six_words = [6 << 16 | 1, 0x1111111111111111, 0x1111111111111111];
    assert_eq!(words(&all), Some([six_words, FOUR_WORDS].concat()));
    assert_eq!(words(&[0; 4]), Some(vec![]));
}

#[test]
fn a_count_over_32_is_32() {
    let many = |count: u32| [&count.to_le_bytes()[..], &FOUR.repeat(32)].concat();
    let thirty_two = Some(FOUR_WORDS.repeat(32));
    for count in [32, 33, u32::MAX] {
        assert_eq!(words(&many(count)), thirty_two);
    }
    let token = PrivateConnectToken::read(&opened(&many(33))).expect("a token");
    assert_eq!(token.server_to_client_key, [0x5C; 32]);
}

#[test]
fn an_unknown_kind_is_no_token() {
    for kind in 3..=255 {
        assert_eq!(words(&[1, 0, 0, 0, kind]), None);
    }
    assert_eq!(words(&[2, 0, 0, 0, 0, 3]), None);
    assert_eq!(words(&[1, 0, 0, 0, 0, 3]), Some(vec![]));
}

#[test]
fn bytes_that_end_early_are_no_token() {
    let whole = opened(&[&[1, 0, 0, 0][..], &FOUR].concat());
    let least = 8 + 4 + 4 + 7 + 32 + 32 + 256;
    for len in 0..least {
        assert_eq!(PrivateConnectToken::read(&whole[..len]), None);
    }
    assert!(PrivateConnectToken::read(&whole[..least]).is_some());
}
