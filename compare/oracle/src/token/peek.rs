pub mod private;

pub fn get_additional_data(protocol: u64, expiry: u64) -> [u8; 29] {
    super::get_additional_data(protocol, expiry)
}
