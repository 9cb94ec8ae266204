//! The library's calls as C sees them: a slice is a pointer and a length, an array a pointer.

pub mod servers;

extern "C" {
    pub fn pump_sequence_bytes_required(sequence: u64) -> usize;
    pub fn pump_encode_prefix(value: u8, sequence: u64) -> u8;
    pub fn pump_decode_prefix(value: u8, words: *mut [u64; 2]);
    pub fn pump_write_sequence(out: *mut [u8; 8], sequence: u64) -> usize;
    pub fn pump_read_sequence(
        source: *const u8,
        source_len: usize,
        at: usize,
        len: usize,
        words: *mut [u64; 2],
    );
    pub fn pump_get_additional_data(out: *mut [u8; 22], prefix_byte: u8, protocol_id: u64);
    pub fn pump_get_token_additional_data(
        out: *mut [u8; 29],
        protocol_id: u64,
        expire_timestamp: u64,
    );

    pub fn pump_new_window(window: *mut [u64; 257]);
    /// C's bool, taken as a byte, so that a faulty library cannot give a value outside its type.
    pub fn pump_already_received(window: *const [u64; 257], sequence: u64) -> u8;
    pub fn pump_refusal(window: *const [u64; 257], sequence: u64) -> u8;
    pub fn pump_advance_sequence(window: *mut [u64; 257], sequence: u64);
    pub fn pump_refusal_at(window: *const [u64; 257], sequence: u64) -> u8;
    pub fn pump_advance_at(window: *mut [u64; 257], sequence: u64);

    pub fn pump_encode(
        out: *mut u8,
        out_len: usize,
        kind: u8,
        a: u64,
        b: u64,
        bytes: *const u8,
        bytes_len: usize,
        protocol_id: u64,
        keyed: bool,
        key: *const [u8; 32],
        sequence: u64,
        words: *mut [u64; 16],
        told: *mut [u8; 66],
    );
    pub fn pump_answer_seal(out: *const u8, out_len: usize, granted: bool, words: *mut [u64; 16]);
    pub fn pump_decode(
        datagram: *const u8,
        datagram_len: usize,
        protocol_id: u64,
        keyed: bool,
        key: *const [u8; 32],
        guarded: bool,
        window: *mut [u64; 257],
        words: *mut [u64; 16],
        told: *mut [u8; 66],
    );
    pub fn pump_answer_open(
        datagram: *const u8,
        datagram_len: usize,
        guarded: bool,
        window: *mut [u64; 257],
        granted: bool,
        words: *mut [u64; 16],
    );
    pub fn pump_field(
        which: u8,
        src: *const u8,
        src_len: usize,
        at: usize,
        end: usize,
        out: *mut u8,
        out_len: usize,
    ) -> usize;

    pub fn pump_generate_challenge(
        out: *mut u8,
        out_len: usize,
        at: usize,
        client_id: u64,
        user_data: *const [u8; 256],
        challenge_sequence: u64,
        challenge_key: *const [u8; 32],
        words: *mut [u64; 16],
        told: *mut [u8; 66],
    );
    pub fn pump_decode_challenge(
        token_data: *const u8,
        token_data_len: usize,
        at: usize,
        token_sequence: u64,
        challenge_key: *const [u8; 32],
        words: *mut [u64; 16],
        told: *mut [u8; 66],
    );
    pub fn pump_answer_challenge(
        token_data: *const u8,
        token_data_len: usize,
        granted: bool,
        words: *mut [u64; 16],
        user_data: *mut [u8; 256],
    );

    pub fn pump_time_add(
        secs: u64,
        nanos: u64,
        step_secs: u64,
        step_nanos: u64,
        out: *mut [u64; 2],
    ) -> u8;
    pub fn pump_time_before(a_secs: u64, a_nanos: u64, b_secs: u64, b_nanos: u64) -> u8;
    pub fn pump_time_past(secs: u64, nanos: u64, timeout: u32, now_secs: u64, now_nanos: u64)
        -> u8;
    pub fn pump_time_due(secs: u64, nanos: u64, now_secs: u64, now_nanos: u64) -> u8;
    pub fn pump_time_since(
        now_secs: u64,
        now_nanos: u64,
        secs: u64,
        nanos: u64,
        out: *mut [u64; 2],
    );

    pub fn pump_find_by_address(
        t: *const u64,
        t_len: usize,
        kind: u8,
        bytes: *const [u8; 16],
        port: u16,
        place: *mut [u64; 1],
    ) -> u8;
    pub fn pump_find_by_id(t: *const u64, t_len: usize, client_id: u64, place: *mut [u64; 1])
        -> u8;
    pub fn pump_find_free(t: *const u64, t_len: usize, place: *mut [u64; 1]) -> u8;
    pub fn pump_count_used(t: *const u64, t_len: usize, count: *mut [u64; 1]) -> u8;
    pub fn pump_address(kind: u8, bytes: *const [u8; 16], port: u16, out: *mut [u64; 3]) -> u8;
    pub fn pump_any_ours(
        list: *const u64,
        list_len: usize,
        ours: *const u64,
        ours_len: usize,
    ) -> u8;
    pub fn pump_find_or_add_entry(
        table: *mut u8,
        table_len: usize,
        secs: u64,
        nanos: u64,
        kind: u8,
        bytes: *const [u8; 16],
        port: u16,
        mac: *const [u8; 16],
    ) -> u8;
}
