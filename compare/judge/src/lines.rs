//! One case and the Rust's answer to it as a line of the sample. None for what is outside the domain.

use chacha20poly1305::watch::{refuse_seals, Asked};
use oracle::calls as rust;
use oracle::calls::{Answer, Fields};

use crate::case::{Call, Case, Challenge, Decode, Encode, Key, Proof, Window, HIGH};
use crate::check::number;
use crate::text::{hex, window_text};

pub fn line(case: &Case) -> Option<String> {
    let line = match case {
        Case::Prefix { value, sequence } => prefix(*value, *sequence),
        Case::Unprefix { byte } => {
            let (kind, count) = rust::decode_prefix(*byte);
            Some(format!("unprefix {byte:x} = {kind:x} {count:x}"))
        }
        Case::Sequence { source, at, len } => sequence(&source[*at..], *len),
        Case::Additional { prefix, protocol } => {
            let data = hex(&rust::additional_data(*prefix, *protocol));
            Some(format!("additional {prefix:x} {protocol:x} = {data}"))
        }
        Case::Private { protocol, expiry } => {
            let data = hex(&rust::token_additional_data(*protocol, *expiry));
            Some(format!("private {protocol:x} {expiry:x} = {data}"))
        }
        Case::Window { window, sequence } => window_line(window, *sequence),
        Case::Encode(case) => encode(case),
        Case::Decode(case) => decode(case),
        Case::Challenge(case) => challenge(case),
        Case::Proof(case) => proof(case),
        Case::Entries(_) | Case::Slots(_) | Case::Hosts(_) | Case::Moment(_) => None,
        Case::Server(_) => None,
    }?;
    (line.len() <= 16_000).then_some(line)
}

fn is<T>(answer: Answer<T>) -> Option<T> {
    match answer {
        Answer::Is(value) => Some(value),
        Answer::Panicked { .. } => None,
    }
}

fn key_text(key: &Option<Key>) -> String {
    hex(key.as_ref().map_or(&[], |key| key))
}

fn prefix(value: u8, sequence: u64) -> Option<String> {
    if value > 15 {
        return None;
    }
    let byte = rust::encode_prefix(value, sequence);
    let count = rust::sequence_bytes_required(sequence);
    let mut bytes = [0; 8];
    let written = is(rust::write_sequence(&mut bytes, sequence))?.ok()?;
    let bytes = hex(&bytes[..written]);
    Some(format!(
        "prefix {value:x} {sequence:x} = {byte:x} {count:x} {bytes}"
    ))
}

fn sequence(source: &[u8], len: usize) -> Option<String> {
    let (number, value) = match is(rust::read_sequence(source, len))? {
        Ok(value) => (0, value),
        Err(fault) => (number(Call::Sequence, fault), 0),
    };
    let source = hex(source);
    Some(format!("sequence {source} {len:x} = {number:x} {value:x}"))
}

fn window_line(window: &Window, sequence: u64) -> Option<String> {
    if sequence >= HIGH {
        return None;
    }
    let received = is(rust::already_received(window, sequence))?;
    let after = if received {
        *window
    } else {
        is(rust::advance(window, sequence))?
    };
    let (before, after) = (window_text(Some(window)), window_text(Some(&after)));
    let received = u8::from(received);
    Some(format!("window {before} {sequence:x} = {received} {after}"))
}

/// Nonce, additional data and text of an ask, dashes without one.
fn ask_text(asked: Option<&Asked>) -> [String; 3] {
    let asked = asked.map(|asked| [&asked.nonce, &asked.additional, &asked.text]);
    asked.map_or(["-"; 3].map(String::from), |ask| {
        ask.map(|bytes| hex(bytes))
    })
}

fn encode(case: &Encode) -> Option<String> {
    refuse_seals(case.refused);
    let Encode {
        packet,
        protocol,
        key,
        sequence,
        out,
        ..
    } = case;
    let answer = rust::encode(out.clone(), packet, *protocol, key.as_ref(), *sequence);
    refuse_seals(false);
    let encoded = is(answer)?;
    let (number, length) = match encoded.result {
        Ok(length) => (0, length),
        Err(fault) => (number(Call::Encode, fault), 0),
    };
    let asked = encoded.asked.first();
    let sealed = asked.map_or(&[][..], |asked| {
        let start = asked.place - encoded.out.as_ptr() as usize;
        &encoded.out[start..start + asked.text.len() + 16]
    });
    let granted = u8::from(asked.is_some_and(|asked| asked.granted));
    let Fields { kind, a, b, bytes } = packet;
    let [nonce, additional, text] = ask_text(asked);
    let after = if number == 14 { &[][..] } else { &encoded.out };
    Some(format!(
        "encode {kind:x} {a:x} {b:x} {} {protocol:x} {} {sequence:x} {} {} {granted} \
         = {number:x} {length:x} {nonce} {additional} {text} {}",
        hex(bytes),
        key_text(key),
        hex(out),
        hex(sealed),
        hex(after)
    ))
}

fn decode(case: &Decode) -> Option<String> {
    let Decode {
        datagram,
        protocol,
        key,
        window,
    } = case;
    let answer = rust::decode(datagram.clone(), *protocol, key.as_ref(), window.as_deref());
    let decoded = is(answer)?;
    let asked = decoded.asked.first();
    let start = asked.map_or(0, |asked| asked.place - decoded.datagram.as_ptr() as usize);
    let opened = asked.map_or(&[][..], |asked| {
        &decoded.datagram[start..start + asked.text.len()]
    });
    let granted = u8::from(asked.is_some_and(|asked| asked.granted));
    let [nonce, additional, _] = ask_text(asked);
    let read = match &decoded.result {
        Ok((sequence, Fields { kind, a, b, bytes })) => {
            format!("{sequence:x} {kind:x} {a:x} {b:x} {}", hex(bytes))
        }
        Err(_) => "0 0 0 0 -".into(),
    };
    let number = decoded
        .result
        .map_or_else(|fault| number(Call::Decode, fault), |_| 0);
    Some(format!(
        "decode {} {protocol:x} {} {} {granted} {} \
         = {number:x} {nonce} {additional} {start:x} {read} {}",
        hex(datagram),
        key_text(key),
        window_text(window.as_deref()),
        hex(opened),
        window_text(decoded.window.as_ref())
    ))
}

fn challenge(case: &Challenge) -> Option<String> {
    let Challenge {
        client,
        user,
        sequence,
        key,
        ..
    } = case;
    if case.refused {
        return None;
    }
    let (result, asked) = is(rust::generate_challenge(*client, user, *sequence, key))?;
    let (user, key, sealed) = (hex(user), hex(key), hex(&result.ok()?));
    let [nonce, _, text] = ask_text(asked.first());
    Some(format!(
        "challenge {client:x} {user} {sequence:x} {key} {sealed} = {nonce} {text}"
    ))
}

/// The Rust opens a copy of its own, so the text is opened here once more.
fn proof(case: &Proof) -> Option<String> {
    let token: &[u8; 300] = case.token[case.at..case.at + 300].try_into().ok()?;
    let (result, asked) = is(rust::decode_challenge(token, case.sequence, &case.key))?;
    let asked = asked.first()?;
    let [nonce, _, _] = ask_text(Some(asked));
    let granted = u8::from(asked.granted);
    let opened = crate::make::opened_token(token, case.sequence, &case.key);
    let (number, client, user) = match result {
        Ok((client, user)) => (0, client, hex(&user)),
        Err(fault) => (number(Call::Proof, fault), 0, "-".into()),
    };
    Some(format!(
        "proof {} {:x} {} {granted} {} = {number:x} {nonce} {client:x} {user}",
        hex(token),
        case.sequence,
        hex(&case.key),
        opened.map_or("-".into(), |text| hex(&text))
    ))
}
