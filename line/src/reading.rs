//! What a pump reports, as the payload of one packet.

const BYTES: usize = 20;

#[derive(Debug, Clone, Copy, PartialEq, Eq)]
pub struct Reading {
    pub pump: u64,
    /// Each pump counts its readings from 1.
    pub number: u64,
    pub micrograms: u32,
}

impl Reading {
    pub fn write(&self) -> Vec<u8> {
        let mut payload = Vec::with_capacity(BYTES);
        payload.extend(self.pump.to_le_bytes());
        payload.extend(self.number.to_le_bytes());
        payload.extend(self.micrograms.to_le_bytes());
        payload
    }

    /// None where the payload is not as long as a reading.
    pub fn read(payload: &[u8]) -> Option<Self> {
        let payload: &[u8; BYTES] = payload.try_into().ok()?;
        let (pump, rest) = payload.split_first_chunk()?;
        let (number, rest) = rest.split_first_chunk()?;
        let micrograms = rest.first_chunk()?;
        Some(Self {
            pump: u64::from_le_bytes(*pump),
            number: u64::from_le_bytes(*number),
            micrograms: u32::from_le_bytes(*micrograms),
        })
    }
}

#[cfg(test)]
mod tests {
    use super::Reading;

    #[test]
    fn what_is_written_is_read() {
        let reading = Reading {
            pump: 3,
            number: 1 << 40,
            micrograms: 25_000,
        };
        let mut payload = reading.write();
        assert_eq!(Reading::read(&payload), Some(reading));
        payload.push(0);
        assert_eq!(Reading::read(&payload), None);
        assert_eq!(Reading::read(&payload[..19]), None);
    }
}
