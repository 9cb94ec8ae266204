//! The calls of `netcode.h` that a reading needs; what stands where is said there.

pub type Record = [u64; 34];
pub type Answer = [u64; 14];
pub type Ask = [u8; 85];
pub type Held = [u8; 340];

extern "C" {
    pub fn netcode_set_up(
        server: *mut Record,
        secs: u64,
        nanos: u64,
        max_clients: usize,
        protocol_id: u64,
        secure: u8,
        connect_key: *const [u8; 32],
        challenge_key: *const [u8; 32],
        slots: *mut u64,
        slots_len: usize,
        pending: *mut u64,
        pending_len: usize,
        entries: *mut u8,
        entries_len: usize,
        public_addresses: *const u64,
        public_len: usize,
    ) -> u8;
    pub fn netcode_process_packet(
        server: *mut Record,
        kind: u8,
        port: u16,
        ip: *const [u8; 16],
        slots: *mut u64,
        slots_len: usize,
        pending: *mut u64,
        pending_len: usize,
        out: *const u8,
        out_len: usize,
        datagram: *const u8,
        datagram_len: usize,
        answer: *mut Answer,
        ask: *mut Ask,
    );
    pub fn netcode_answer_open(
        server: *mut Record,
        granted: u8,
        slots: *mut u64,
        slots_len: usize,
        pending: *mut u64,
        pending_len: usize,
        held: *mut Held,
        out: *mut u8,
        out_len: usize,
        datagram: *const u8,
        datagram_len: usize,
        answer: *mut Answer,
        ask: *mut Ask,
    );
}
