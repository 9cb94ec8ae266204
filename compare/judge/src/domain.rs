//! Where document 01 leaves the Rust: the refusals 4, 5 and 7 of a datagram, in their order.

use oracle::calls::{already_received, Answer};

use crate::case::{Decode, HIGH};
use crate::check::Class;

/// The number by which ours must refuse a datagram outside the domain; nothing inside it.
pub fn outside(case: &Decode) -> Option<(u8, Class)> {
    let (kind, count) = case.prefix()?;
    let sealed = (1..=6).contains(&kind);
    if case.datagram.len() < 18 || !sealed || case.key.is_none() {
        return None;
    }
    if count > 8 {
        return Some((4, Class::LongCount));
    }
    let start = 1 + count;
    let sequence = number(&case.datagram[1..start]);
    if kind >= 4 {
        match &case.window {
            Some(_) if sequence >= HIGH => return Some((5, Class::HighGuarded)),
            None if sequence >= HIGH => return Some((5, Class::HighUnguarded)),
            Some(window) if already_received(window, sequence) == Answer::Is(true) => return None,
            _ => {}
        }
    }
    (case.datagram.len() < start + 16).then_some((7, Class::ShortPart))
}

fn number(bytes: &[u8]) -> u64 {
    bytes
        .iter()
        .rev()
        .fold(0, |number, byte| number << 8 | u64::from(*byte))
}

#[cfg(test)]
mod tests {
    use super::*;
    use crate::make::{reached, FRESH};

    fn number_of(head: &[u8], len: usize, window: Option<u64>) -> Option<u8> {
        let mut datagram = head.to_vec();
        datagram.resize(len, 0);
        let case = Decode {
            datagram,
            protocol: 0,
            key: Some([0; 32]),
            window: window.map(|highest| reached(highest, 1)),
        };
        outside(&case).map(|(number, _)| number)
    }

    #[test]
    fn document_01_goes_by_its_order() {
        let high = [0x85, 0, 255, 255, 255, 255, 255, 255, 255];
        assert_eq!(number_of(&[0x91], 17, None), None, "1 comes first");
        assert_eq!(number_of(&[0x97], 18, None), None, "so does 2");
        assert_eq!(number_of(&[0x90], 18, None), None, "a request has no count");
        assert_eq!(number_of(&[0x91], 18, None), Some(4));
        assert_eq!(number_of(&high, 18, None), Some(5));
        assert_eq!(number_of(&high, 18, Some(300)), Some(5));
        assert_eq!(number_of(&[0x25, 44, 0], 18, Some(300)), None, "6 before 7");
        assert_eq!(number_of(&[0x25, 45, 1], 18, Some(300)), Some(7));
        assert_eq!(number_of(&[0x25, 45, 1], 19, Some(300)), None);
    }

    #[test]
    fn without_a_key_nothing_is_outside() {
        let case = Decode {
            datagram: vec![0x91; 18],
            protocol: 0,
            key: None,
            window: Some(Box::new(FRESH)),
        };
        assert_eq!(outside(&case), None);
    }
}
