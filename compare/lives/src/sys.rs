//! The calls of `include/netcode.h`, as they are.

pub const SERVER_WORDS: usize = 34;
pub const ANSWER_WORDS: usize = 14;
pub const ASK_BYTES: usize = 85;
pub const HELD_BYTES: usize = 340;

pub type Record = [u64; SERVER_WORDS];
pub type Words = [u64; ANSWER_WORDS];
pub type Told = [u8; ASK_BYTES];
pub type Held = [u8; HELD_BYTES];
pub type Reply = [u64; 5];

extern "C" {
    pub fn netcode_set_up(
        server: *mut Record,
        secs: u64,
        nanos: u64,
        max_clients: usize,
        protocol_id: u64,
        secure: u8,
        connect_key: *const [u8; 32],
        challenge_key: *const [u8; 32],
        slots: *mut u64,
        slots_len: usize,
        pending: *mut u64,
        pending_len: usize,
        entries: *mut u8,
        entries_len: usize,
        public_addresses: *const u64,
        public_len: usize,
    ) -> u8;
    pub fn netcode_update(
        server: *mut Record,
        pending: *mut u64,
        pending_len: usize,
        secs: u64,
        nanos: u64,
        answer: *mut Words,
    );
    pub fn netcode_set_max_clients(server: *mut Record, max_clients: usize, answer: *mut Words);
    pub fn netcode_process_packet(
        server: *mut Record,
        kind: u8,
        port: u16,
        ip: *const [u8; 16],
        slots: *mut u64,
        slots_len: usize,
        pending: *mut u64,
        pending_len: usize,
        out: *const u8,
        out_len: usize,
        datagram: *const u8,
        datagram_len: usize,
        answer: *mut Words,
        ask: *mut Told,
    );
    pub fn netcode_answer_open(
        server: *mut Record,
        granted: u8,
        slots: *mut u64,
        slots_len: usize,
        pending: *mut u64,
        pending_len: usize,
        held: *mut Held,
        out: *mut u8,
        out_len: usize,
        datagram: *const u8,
        datagram_len: usize,
        answer: *mut Words,
        ask: *mut Told,
    );
    pub fn netcode_answer_token(
        server: *mut Record,
        granted: u8,
        client_id: u64,
        timeout_seconds: u32,
        server_to_client_key: *const [u8; 32],
        client_to_server_key: *const [u8; 32],
        user_data: *const [u8; 256],
        server_addresses: *const u64,
        addresses_len: usize,
        slots: *const u64,
        slots_len: usize,
        pending: *mut u64,
        pending_len: usize,
        entries: *mut u8,
        entries_len: usize,
        public_addresses: *const u64,
        public_len: usize,
        held: *mut Held,
        out: *mut u8,
        out_len: usize,
        datagram: *const u8,
        datagram_len: usize,
        answer: *mut Words,
        ask: *mut Told,
    );
    pub fn netcode_answer_seal(
        server: *mut Record,
        granted: u8,
        slots: *mut u64,
        slots_len: usize,
        pending: *mut u64,
        pending_len: usize,
        held: *const Held,
        out: *const u8,
        out_len: usize,
        answer: *mut Words,
        ask: *mut Told,
    );
    pub fn netcode_generate_payload_packet(
        server: *mut Record,
        client_id: u64,
        payload: *const u8,
        payload_len: usize,
        slots: *const u64,
        slots_len: usize,
        out: *mut u8,
        out_len: usize,
        answer: *mut Words,
        ask: *mut Told,
    );
    pub fn netcode_update_client(
        server: *mut Record,
        client_id: u64,
        slots: *mut u64,
        slots_len: usize,
        out: *mut u8,
        out_len: usize,
        answer: *mut Words,
        ask: *mut Told,
    );
    pub fn netcode_disconnect(
        server: *mut Record,
        client_id: u64,
        slots: *mut u64,
        slots_len: usize,
        out: *mut u8,
        out_len: usize,
        answer: *mut Words,
        ask: *mut Told,
    );

    pub fn netcode_server_itself(server: *const Record, itself: *mut [u64; 3]);
    pub fn netcode_connected_clients(
        server: *const Record,
        slots: *const u64,
        slots_len: usize,
        reply: *mut Reply,
    );
    pub fn netcode_is_client_connected(
        server: *const Record,
        slots: *const u64,
        slots_len: usize,
        client_id: u64,
        reply: *mut Reply,
    );
    pub fn netcode_client_addr(
        server: *const Record,
        slots: *const u64,
        slots_len: usize,
        client_id: u64,
        reply: *mut Reply,
    );
    pub fn netcode_time_since_last_received_packet(
        server: *const Record,
        slots: *const u64,
        slots_len: usize,
        client_id: u64,
        reply: *mut Reply,
    );
    pub fn netcode_user_data(
        server: *const Record,
        slots: *const u64,
        slots_len: usize,
        client_id: u64,
        user_data: *mut [u8; 256],
        reply: *mut Reply,
    );
    pub fn netcode_clients_id(
        server: *const Record,
        slots: *const u64,
        slots_len: usize,
        list: *mut u64,
        list_len: usize,
        reply: *mut Reply,
    );
    pub fn netcode_clients_slot(
        server: *const Record,
        slots: *const u64,
        slots_len: usize,
        list: *mut u64,
        list_len: usize,
        reply: *mut Reply,
    );
    pub fn netcode_addresses(
        server: *const Record,
        public_addresses: *const u64,
        public_len: usize,
        list: *mut u64,
        list_len: usize,
        reply: *mut Reply,
    );
}
