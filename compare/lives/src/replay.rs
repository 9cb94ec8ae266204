//! A sample held to our library alone, with no Rust: each line's call or answer, and what must come out of it.

use std::str::FromStr;

use oracle::lives::Private;

use crate::addresses::Wire;
use crate::ours::{Ours, SetUp};
use crate::sample::{come_out, digests};

mod altered;
mod asked;

/// The fields of a line that are still to be read.
struct Fields<'a>(std::str::Split<'a, char>);

impl<'a> Fields<'a> {
    fn text(&mut self) -> Result<&'a str, String> {
        self.0.next().ok_or("a field is missing".into())
    }

    fn number<T: FromStr>(&mut self) -> Result<T, String> {
        let text = self.text()?;
        text.parse().map_err(|_| format!("{text} is no number"))
    }

    fn yes(&mut self) -> Result<bool, String> {
        Ok(self.number::<u8>()? != 0)
    }

    fn bytes(&mut self) -> Result<Vec<u8>, String> {
        let text = self.text()?;
        if text == "-" {
            return Ok(Vec::new());
        }
        let byte = |at: usize| {
            text.get(at..at + 2)
                .and_then(|two| u8::from_str_radix(two, 16).ok())
        };
        let bytes: Option<Vec<u8>> = (0..text.len()).step_by(2).map(byte).collect();
        bytes.ok_or(format!("{text} are no bytes"))
    }

    fn array<const N: usize>(&mut self) -> Result<[u8; N], String> {
        let bytes = self.bytes()?;
        bytes.try_into().map_err(|_| format!("no {N} bytes"))
    }

    fn words(&mut self) -> Result<Vec<u64>, String> {
        let bytes = self.bytes()?;
        let word = |eight: &[u8]| u64::from_le_bytes(eight.try_into().expect("eight bytes"));
        Ok(bytes.chunks_exact(8).map(word).collect())
    }
}

/// How many places of a list are lent.
const LIST: usize = 8;

/// Which line is not as it says, and what came out instead.
pub fn replay(text: &str) -> Result<usize, String> {
    let mut ours = Ours::new(1, 1, &[], 1400);
    let mut room = LIST;
    for (number, line) in text.lines().enumerate() {
        let at = |what: String| format!("line {}: {what}", number + 1);
        let (given, wanted) = line.split_once(" =").ok_or(at("no = in it".into()))?;
        let came = come(&mut ours, &mut room, given).map_err(at)?;
        if came != wanted.trim_start() {
            return Err(at(format!(
                "{given}\n  is to come to{wanted}\n  and comes to {came}"
            )));
        }
    }
    Ok(text.lines().count())
}

fn come(ours: &mut Ours, room: &mut usize, given: &str) -> Result<String, String> {
    let mut fields = Fields(given.split(' '));
    match fields.text()? {
        "S" => return set_up(ours, fields),
        "Q" => return Ok(asked::asked(ours, fields.number()?, *room)),
        "L" => return altered::lend(ours, room, fields),
        "K" => return altered::words(ours, fields),
        "Y" => return altered::entry(ours, fields),
        "F" => return altered::entries(ours, fields),
        "U" => ours.update(fields.number()?, fields.number()?),
        "M" => ours.set_max_clients(fields.number()?),
        "P" => {
            let (kind, port, ip) = (fields.number()?, fields.number()?, fields.array()?);
            ours.receive(&fields.bytes()?);
            ours.process_packet(&Wire { kind, port, ip });
        }
        "O" => {
            let (yes, datagram) = (fields.yes()?, fields.bytes()?);
            if !datagram.is_empty() {
                ours.receive(&datagram);
            }
            ours.answer_open(yes);
        }
        "T" => token(ours, fields)?,
        "E" => {
            let (yes, packet) = (fields.yes()?, fields.bytes()?);
            ours.out[..packet.len()].copy_from_slice(&packet);
            ours.answer_seal(yes);
        }
        "G" => ours.generate_payload_packet(fields.number()?, &fields.bytes()?),
        "C" => ours.update_client(fields.number()?),
        "D" => ours.disconnect(fields.number()?),
        other => return Err(format!("no call is {other}")),
    }
    Ok(come_out(
        &ours.answer,
        &ours.told,
        packet_of(ours),
        &tables_of(ours),
    ))
}

fn tables_of(ours: &Ours) -> String {
    digests(&ours.slots, &ours.pending, &ours.entries)
}

/// What stands at the output's start: in clear and without its tag, or to be sent.
fn packet_of(ours: &Ours) -> &[u8] {
    let [case, end, work, part_end] = [0, 8, 9, 13].map(|word| ours.answer[word] as usize);
    match (case, work) {
        (2, 1) => &ours.out[..part_end - 16],
        (3 | 5 | 6, _) => &ours.out[..end],
        _ => &[],
    }
}

fn set_up(ours: &mut Ours, mut fields: Fields) -> Result<String, String> {
    let set = SetUp {
        secs: fields.number()?,
        nanos: fields.number()?,
        max_clients: fields.number()?,
        protocol: fields.number()?,
        secure: fields.yes()?,
        connect_key: fields.array()?,
        challenge_key: fields.array()?,
    };
    let [slots, pending, entries] = [fields.number()?, fields.number()?, fields.number()?];
    if entries != crate::ours::ENTRIES {
        return Err(format!("{entries} token entries"));
    }
    *ours = Ours::new(slots, pending, &[], 1400);
    ours.slots.fill(0);
    ours.pending.fill(0);
    ours.entries.fill(0);
    ours.public = fields.words()?;
    ours.lent.public = ours.public.len();
    Ok(format!("{} {}", ours.set_up(&set), tables_of(ours)))
}

fn token(ours: &mut Ours, mut fields: Fields) -> Result<(), String> {
    let yes = fields.yes()?;
    let private = Private {
        client_id: fields.number()?,
        timeout_seconds: fields.number::<u32>()? as i32,
        addresses: Vec::new(),
        server_to_client_key: fields.array()?,
        client_to_server_key: fields.array()?,
        user_data: fields.array()?,
    };
    ours.answer_token(yes, &private, &fields.words()?);
    Ok(())
}
