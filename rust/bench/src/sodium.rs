//! libsodium, loaded when the program runs, so that it builds without it.

use crate::calls::{Call, DIFFERS, OPEN, OPEN_REFUSED, SEAL};
use crate::cases::{Implementation, Key, Size, KEY, NONCE};
use crate::measure::Case;
use std::ffi::{c_char, c_int, c_uchar, c_ulonglong, c_void, CStr};
use std::ptr::{null, null_mut};

const NAMES: [&CStr; 3] = [c"libsodium.so", c"libsodium.so.26", c"libsodium.so.23"];
const VERSION: &CStr = c"sodium_version_string";
const RTLD_NOW: c_int = 2;
const TAG_LEN: usize = 16;

extern "C" {
    fn dlopen(name: *const c_char, flags: c_int) -> *mut c_void;
    fn dlsym(library: *mut c_void, name: *const c_char) -> *mut c_void;
}

type Encrypt = unsafe extern "C" fn(
    *mut c_uchar,
    *mut c_ulonglong,
    *const c_uchar,
    c_ulonglong,
    *const c_uchar,
    c_ulonglong,
    *const c_uchar,
    *const c_uchar,
    *const c_uchar,
) -> c_int;

type Decrypt = unsafe extern "C" fn(
    *mut c_uchar,
    *mut c_ulonglong,
    *mut c_uchar,
    *const c_uchar,
    c_ulonglong,
    *const c_uchar,
    c_ulonglong,
    *const c_uchar,
    *const c_uchar,
) -> c_int;

/// An AEAD of libsodium.
#[derive(Clone, Copy)]
struct Aead {
    implementation: Implementation,
    encrypt: Encrypt,
    decrypt: Decrypt,
}

/// The AEADs that the machine's libsodium has.
pub struct Sodium {
    aeads: Vec<Aead>,
    version: String,
}

impl Sodium {
    /// Loads libsodium, if there is one.
    pub fn load() -> Option<Self> {
        // SAFETY: the names end in a zero byte; libsodium's start-up code is sound to run.
        let mut libraries = NAMES
            .iter()
            .map(|name| unsafe { dlopen(name.as_ptr(), RTLD_NOW) });
        let library = libraries.find(|library| !library.is_null())?;
        // SAFETY: these functions of libsodium take nothing and return an int.
        let call = |name| unsafe {
            let function = symbol::<unsafe extern "C" fn() -> c_int>(library, name)?;
            Some(function())
        };
        if call(c"sodium_init")? < 0 {
            return None;
        }
        let mut aeads = vec![aead(
            library,
            Implementation::XChaCha,
            c"crypto_aead_xchacha20poly1305_ietf_encrypt",
            c"crypto_aead_xchacha20poly1305_ietf_decrypt",
        )?];
        if call(c"crypto_aead_aes256gcm_is_available")? == 1 {
            aeads.push(aead(
                library,
                Implementation::AesGcm,
                c"crypto_aead_aes256gcm_encrypt",
                c"crypto_aead_aes256gcm_decrypt",
            )?);
        }
        // SAFETY: the function takes nothing and returns a text that ends in a zero byte and stays.
        let version = unsafe {
            let version = symbol::<unsafe extern "C" fn() -> *const c_char>(library, VERSION)?;
            CStr::from_ptr(version())
        };
        let version = version.to_string_lossy().into_owned();
        Some(Self { aeads, version })
    }

    /// libsodium's version.
    pub fn version(&self) -> &str {
        &self.version
    }

    /// The cases of libsodium's ciphers that are wanted, where they have such a call.
    pub fn cases(&self, call: &Call, len: usize, wanted: &dyn Fn(Key) -> bool) -> Vec<Case> {
        let aeads = self.aeads.iter();
        let cases = aeads.filter_map(|aead| aead.case(call, len, wanted));
        cases.collect()
    }
}

/// # Safety
///
/// `F` must be the type of a pointer to the function of that name.
unsafe fn symbol<F>(library: *mut c_void, name: &CStr) -> Option<F> {
    // SAFETY: the library is open, and the name ends in a zero byte.
    let address = unsafe { dlsym(library, name.as_ptr()) };
    // SAFETY: the caller vouches for the type.
    (!address.is_null()).then(|| unsafe { std::mem::transmute_copy(&address) })
}

fn aead(
    library: *mut c_void,
    implementation: Implementation,
    encrypt: &CStr,
    decrypt: &CStr,
) -> Option<Aead> {
    // SAFETY: both types are those of libsodium's header.
    unsafe {
        Some(Aead {
            implementation,
            encrypt: symbol(library, encrypt)?,
            decrypt: symbol(library, decrypt)?,
        })
    }
}

impl Aead {
    fn case(self, call: &Call, len: usize, wanted: &dyn Fn(Key) -> bool) -> Option<Case> {
        let make = match call.name {
            SEAL => Self::encrypt,
            OPEN | OPEN_REFUSED => Self::decrypt,
            _ => return None,
        };
        let key = Key::new(self.implementation, None, call.name, Size::Bytes(len));
        let seal = |_, message: &[u8], parcel: &mut [u8]| {
            self.encrypt(message, parcel);
        };
        wanted(key).then(|| {
            call.case(key, TAG_LEN, seal, move |input, output| {
                make(&self, input, output)
            })
        })
    }

    fn encrypt(&self, message: &[u8], sealed: &mut [u8]) -> u64 {
        assert_eq!(sealed.len(), message.len() + TAG_LEN);
        let (out, key, nonce) = (sealed.as_mut_ptr(), KEY.as_ptr(), NONCE.as_ptr());
        let (text, len) = (message.as_ptr(), message.len() as u64);
        // SAFETY: the output has room for the text and the tag; key and nonce are long enough.
        let result =
            unsafe { (self.encrypt)(out, null_mut(), text, len, null(), 0, null(), nonce, key) };
        answer(result, sealed.len())
    }

    fn decrypt(&self, sealed: &[u8], message: &mut [u8]) -> u64 {
        assert_eq!(sealed.len(), message.len() + TAG_LEN);
        let (out, key, nonce) = (message.as_mut_ptr(), KEY.as_ptr(), NONCE.as_ptr());
        let (text, len) = (sealed.as_ptr(), sealed.len() as u64);
        // SAFETY: the output has room for the text; key and nonce are long enough.
        let result = unsafe {
            (self.decrypt)(
                out,
                null_mut(),
                null_mut(),
                text,
                len,
                null(),
                0,
                nonce,
                key,
            )
        };
        answer(result, message.len())
    }
}

/// libsodium's result, 0 for success, as this construction's calls answer.
fn answer(result: c_int, written: usize) -> u64 {
    match result {
        0 => written as u64,
        _ => DIFFERS << 32,
    }
}
