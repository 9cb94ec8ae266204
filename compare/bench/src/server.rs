//! Whole servers: the Rust's, and ours through the drop-in crate that a plant uses or straight through C. Both
//! are filled by real handshakes of renetcode's own client (the C one is laid directly) and are handed the same
//! datagrams; each answer is checked while it is timed, on both sides alike.

mod ciphers;
mod line;
mod pumps;
mod queries;
mod received;
mod requests;
mod sent;
mod sides;
mod straight;
mod turns;

pub use queries::rows as queries;
pub use received::rows as received;
pub use requests::rows as requests;
pub use sent::rows as sent;
pub use turns::rows as turns;

/// How many are connected.
const SIZES: [usize; 3] = [8, 128, 1024];

/// A pump's reading, or what is sent to it.
const READING: [u8; 9] = *b"31.5 mg/k";

/// A number as it is read: 1,024.
fn thousands(number: usize) -> String {
    if number < 1000 {
        number.to_string()
    } else {
        format!("{},{:03}", number / 1000, number % 1000)
    }
}
