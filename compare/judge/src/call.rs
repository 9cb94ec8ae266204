//! The calls that are compared, and their names.

#[derive(Debug, Clone, Copy, PartialEq, Eq, PartialOrd, Ord)]
pub enum Call {
    Prefix,
    Unprefix,
    Sequence,
    Additional,
    Private,
    Window,
    Encode,
    Decode,
    Challenge,
    Proof,
    Entry,
    ByAddress,
    ById,
    Free,
    Count,
    Hosts,
    Add,
    Before,
    Past,
    Due,
    Since,
    Update,
    Limit,
    SetUp,
    Connected,
    ClientsId,
    ClientsSlot,
    IsConnected,
    ClientAddr,
    UserData,
    Heard,
    Addresses,
}

impl Call {
    /// Whether the sample has lines of it.
    pub fn is_sampled(self) -> bool {
        self <= Call::Proof
    }

    pub fn name(self) -> &'static str {
        match self {
            Call::Prefix => "prefix",
            Call::Unprefix => "unprefix",
            Call::Sequence => "sequence",
            Call::Additional => "additional",
            Call::Private => "private",
            Call::Window => "window",
            Call::Encode => "encode",
            Call::Decode => "decode",
            Call::Challenge => "challenge",
            Call::Proof => "proof",
            Call::Entry => "entry",
            Call::ByAddress => "by address",
            Call::ById => "by id",
            Call::Free => "free",
            Call::Count => "count",
            Call::Hosts => "hosts",
            Call::Add => "add",
            Call::Before => "before",
            Call::Past => "past",
            Call::Due => "due",
            Call::Since => "since",
            Call::Update => "update",
            Call::Limit => "limit",
            Call::SetUp => "set-up",
            Call::Connected => "connected",
            Call::ClientsId => "ids",
            Call::ClientsSlot => "slots",
            Call::IsConnected => "is client",
            Call::ClientAddr => "client at",
            Call::UserData => "user data",
            Call::Heard => "heard",
            Call::Addresses => "addresses",
        }
    }
}
