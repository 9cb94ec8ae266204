use super::ReplayProtection;

/// The most recent sequence first, then the received ones.
pub fn words(window: &ReplayProtection) -> [u64; 257] {
    let mut words = [window.most_recent_sequence; 257];
    words[1..].copy_from_slice(&window.received_packet);
    words
}

pub fn from_words(words: &[u64; 257]) -> ReplayProtection {
    let mut window = ReplayProtection::new();
    window.most_recent_sequence = words[0];
    window.received_packet.copy_from_slice(&words[1..]);
    window
}
