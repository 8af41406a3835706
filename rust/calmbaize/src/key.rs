//! Key and nonce.

use crate::{Ground, Refusal, KEY_LEN, NONCE_LEN};
use core::fmt;
use core::ptr;
use core::sync::atomic::{compiler_fence, Ordering};

/// A secret key.
///
/// `Debug` does not show its bytes, and they are zeroed when it is dropped. Copies that the
/// compiler made where the key was moved, and the bytes that it was made from, are not.
#[derive(Clone)]
#[repr(transparent)]
pub struct Key([u8; KEY_LEN]);

impl Key {
    /// The key with these bytes.
    pub const fn new(bytes: [u8; KEY_LEN]) -> Self {
        Self(bytes)
    }

    pub(crate) const fn bytes(&self) -> &[u8; KEY_LEN] {
        &self.0
    }
}

impl TryFrom<&[u8]> for Key {
    type Error = Refusal;

    /// Any other length is refused with [`Ground::KeyLength`].
    fn try_from(bytes: &[u8]) -> Result<Self, Refusal> {
        bytes
            .try_into()
            .map(Self)
            .map_err(|_| Ground::KeyLength.into())
    }
}

impl fmt::Debug for Key {
    fn fmt(&self, f: &mut fmt::Formatter<'_>) -> fmt::Result {
        f.write_str("Key(..)")
    }
}

impl Drop for Key {
    fn drop(&mut self) {
        // SAFETY: the pointer comes from a mutable borrow. The write is volatile since the compiler
        // may leave out any other write to what is not read again.
        unsafe { ptr::write_volatile(&mut self.0, [0; KEY_LEN]) };
        compiler_fence(Ordering::SeqCst);
    }
}

/// A nonce, which is no secret.
#[derive(Clone, Copy, Debug, PartialEq, Eq, Hash)]
pub struct Nonce([u8; NONCE_LEN]);

impl Nonce {
    /// The nonce with these bytes.
    pub const fn new(bytes: [u8; NONCE_LEN]) -> Self {
        Self(bytes)
    }

    pub(crate) const fn bytes(&self) -> &[u8; NONCE_LEN] {
        &self.0
    }
}

impl TryFrom<&[u8]> for Nonce {
    type Error = Refusal;

    /// Any other length is refused with [`Ground::NonceLength`].
    fn try_from(bytes: &[u8]) -> Result<Self, Refusal> {
        bytes
            .try_into()
            .map(Self)
            .map_err(|_| Ground::NonceLength.into())
    }
}
