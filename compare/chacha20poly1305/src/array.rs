use std::ops::Deref;

/// Stands for the real crate's `GenericArray`, of which only these few uses are needed.
#[derive(Debug, Clone, Copy, PartialEq, Eq)]
#[repr(transparent)]
pub struct Bytes<const N: usize>([u8; N]);

impl<const N: usize> Bytes<N> {
    /// Panics when the length differs, as the real one does.
    pub fn from_slice(slice: &[u8]) -> &Self {
        let array: &[u8; N] = slice.try_into().expect("a slice of the right length");
        // SAFETY: the type is a transparent wrapper of this very array.
        unsafe { &*(array as *const [u8; N]).cast::<Self>() }
    }

    pub(crate) fn as_array(&self) -> &[u8; N] {
        &self.0
    }
}

impl<const N: usize> From<[u8; N]> for Bytes<N> {
    fn from(array: [u8; N]) -> Self {
        Self(array)
    }
}

impl<const N: usize> Deref for Bytes<N> {
    type Target = [u8];

    fn deref(&self) -> &[u8] {
        &self.0
    }
}
