use std::{error, fmt};

/// Why the server says no: the numbers of `netcode.h`, which also says what each leaves changed.
#[derive(Debug, Clone, Copy, PartialEq, Eq, Hash)]
#[repr(u8)]
pub enum Refusal {
    /// The datagram has under 18 bytes.
    PacketTooSmall = 1,
    /// The packet's type is over 6.
    InvalidPacketType = 2,
    /// The address is neither connected nor pending, and the packet is no request.
    UnknownAddress = 3,
    /// The prefix claims over 8 sequence bytes.
    SequenceTooLong = 4,
    /// The sequence is 2^64-256 or more.
    SequenceTooHigh = 5,
    /// The sequence was accepted before, or is 256 or more behind the highest.
    DuplicatedSequence = 6,
    /// Under 16 bytes follow the sequence.
    CiphertextTooShort = 7,
    /// The cipher says no to an open, or what was opened is no private token.
    NotOpened = 8,
    /// The body, or a request, is too short.
    BodyTooShort = 9,
    /// The request is of another version.
    InvalidVersion = 10,
    /// The request is for another protocol.
    InvalidProtocolId = 11,
    /// The request's token has expired.
    Expired = 12,
    /// The token names none of this server's addresses.
    NotInHostList = 13,
    /// The output, or the list, is shorter than needed.
    BufferTooSmall = 14,
    /// The counter that would be used next is spent.
    CounterSpent = 15,
    /// An ask is open.
    AskOpen = 16,
    /// An answer, and no ask is open.
    NoAsk = 17,
    /// The answer does not fit its ask.
    UnfitAnswer = 18,
    /// The address is malformed.
    MalformedAddress = 19,
    /// The clock would pass its range.
    ClockRange = 20,
    /// The payload has over 1,300 bytes.
    PayloadAboveLimit = 21,
    /// No such client is connected.
    ClientNotFound = 22,
    /// A table has a length, or a limit a value, that set-up does not allow.
    Tables = 23,
    /// The cipher says no to a seal.
    NotSealed = 24,
}

impl Refusal {
    /// Every refusal, in the order of the numbers.
    pub const ALL: [Self; 24] = [
        Self::PacketTooSmall,
        Self::InvalidPacketType,
        Self::UnknownAddress,
        Self::SequenceTooLong,
        Self::SequenceTooHigh,
        Self::DuplicatedSequence,
        Self::CiphertextTooShort,
        Self::NotOpened,
        Self::BodyTooShort,
        Self::InvalidVersion,
        Self::InvalidProtocolId,
        Self::Expired,
        Self::NotInHostList,
        Self::BufferTooSmall,
        Self::CounterSpent,
        Self::AskOpen,
        Self::NoAsk,
        Self::UnfitAnswer,
        Self::MalformedAddress,
        Self::ClockRange,
        Self::PayloadAboveLimit,
        Self::ClientNotFound,
        Self::Tables,
        Self::NotSealed,
    ];

    /// The number, 1 to 24.
    pub fn number(self) -> u8 {
        self as u8
    }

    /// The refusal of a number; 0 and numbers over 24 have none.
    pub fn from_number(number: u64) -> Option<Self> {
        let place = usize::try_from(number.checked_sub(1)?).ok()?;
        Self::ALL.get(place).copied()
    }

    /// The refusal in a sentence.
    fn sentence(self) -> &'static str {
        match self {
            Self::PacketTooSmall => "the datagram has under 18 bytes",
            Self::InvalidPacketType => "the packet's type is over 6",
            Self::UnknownAddress => "the address is neither connected nor pending",
            Self::SequenceTooLong => "the prefix claims over 8 sequence bytes",
            Self::SequenceTooHigh => "the sequence is 2^64-256 or more",
            Self::DuplicatedSequence => "the sequence was accepted before, or is too old",
            Self::CiphertextTooShort => "under 16 bytes follow the sequence",
            Self::NotOpened => "the packet or its token could not be opened",
            Self::BodyTooShort => "the body, or the request, is too short",
            Self::InvalidVersion => "the request is of another version",
            Self::InvalidProtocolId => "the request is for another protocol",
            Self::Expired => "the request's token has expired",
            Self::NotInHostList => "the token names none of this server's addresses",
            Self::BufferTooSmall => "the output, or the list, is too short",
            Self::CounterSpent => "the counter that would be used next is spent",
            Self::AskOpen => "an ask is open",
            Self::NoAsk => "an answer came, and no ask is open",
            Self::UnfitAnswer => "the answer does not fit its ask",
            Self::MalformedAddress => "the address is malformed",
            Self::ClockRange => "the clock would pass its range",
            Self::PayloadAboveLimit => "the payload has over 1,300 bytes",
            Self::ClientNotFound => "no such client is connected",
            Self::Tables => "a table's length, or the client limit, is not allowed",
            Self::NotSealed => "the packet could not be sealed",
        }
    }
}

impl fmt::Display for Refusal {
    fn fmt(&self, f: &mut fmt::Formatter<'_>) -> fmt::Result {
        f.write_str(self.sentence())
    }
}

impl error::Error for Refusal {}
