//! Lines that make no call: the record and the tables altered, and how much of each buffer is lent from now on.

use super::Fields;
use crate::ours::{Ours, ENTRIES, ENTRY_BYTES};

/// No line says what comes of it.
type Nothing = Result<String, String>;

pub fn lend(ours: &mut Ours, room: &mut usize, mut fields: Fields) -> Nothing {
    let what = fields.text()?;
    let length: usize = fields.number()?;
    let (lent, whole) = match what {
        "s" => (&mut ours.lent.slots, ours.slots.len()),
        "p" => (&mut ours.lent.pending, ours.pending.len()),
        "e" => (&mut ours.lent.entries, ours.entries.len()),
        "a" => (&mut ours.lent.public, ours.public.len()),
        "o" => (&mut ours.lent.out, ours.out.len()),
        "d" => (&mut ours.lent.datagram, ours.datagram.len()),
        "l" => (room, super::LIST),
        other => return Err(format!("nothing that is lent is {other}")),
    };
    if length > whole {
        return Err(format!("{length} of {whole}"));
    }
    *lent = length;
    Ok(String::new())
}

pub fn words(ours: &mut Ours, mut fields: Fields) -> Nothing {
    let table = match fields.text()? {
        "r" => &mut ours.record[..],
        "s" => &mut ours.slots,
        "p" => &mut ours.pending,
        other => return Err(format!("no table of words is {other}")),
    };
    let [at, times] = [fields.number::<usize>()?, fields.number()?];
    let run = table.get_mut(at..).and_then(|rest| rest.get_mut(..times));
    run.ok_or(format!("no {times} words from {at} on"))?
        .fill(fields.number()?);
    Ok(String::new())
}

fn put_entry(ours: &mut Ours, place: usize, body: &[u8]) -> Nothing {
    if place >= ENTRIES || body.len() != ENTRY_BYTES - 1 {
        return Err(format!("no entry {place} of {} bytes", body.len()));
    }
    let at = ENTRIES + (ENTRY_BYTES - 1) * place;
    ours.entries[place] = 1;
    ours.entries[at..at + ENTRY_BYTES - 1].copy_from_slice(body);
    Ok(String::new())
}

pub fn entry(ours: &mut Ours, mut fields: Fields) -> Nothing {
    let place = fields.number()?;
    put_entry(ours, place, &fields.bytes()?)
}

/// Every entry used: at one to three seconds and 7 ns, two of them at none, each from an address and with bytes of its own.
pub fn entries(ours: &mut Ours, mut fields: Fields) -> Nothing {
    let early: [usize; 2] = [fields.number()?, fields.number()?];
    for place in 0..ENTRIES {
        let [low, high, ..] = place.to_le_bytes();
        let mut body = [0; ENTRY_BYTES - 1];
        body[0] = if early.contains(&place) {
            0
        } else {
            1 + (place % 3) as u8
        };
        body[8] = 7;
        body[12..17].copy_from_slice(&[4, 10, 99, high, low]);
        body[29] = 9;
        body[31..33].copy_from_slice(&[low, high]);
        body[39..].fill(0xEE);
        put_entry(ours, place, &body)?;
    }
    Ok(String::new())
}
