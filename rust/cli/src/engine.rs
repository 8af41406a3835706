//! The two engines that seal and open.

use crate::options::Options;
use crate::Failure;
use calmbaize::{run_words, Header};
use std::ptr;
use std::sync::atomic::{compiler_fence, Ordering};

/// How the masks are made. Answers and bytes are the same.
pub enum Engine {
    /// Each from the one before.
    Step,
    /// All from one run, in words that are lent.
    Run,
}

impl Engine {
    pub fn new(options: &Options) -> Result<Self, Failure> {
        match options.text("--engine")? {
            None | Some("step") => Ok(Self::Step),
            // No call of the library opens parcels of the old start from a run.
            Some("run") if options.has("--old-start") => Err(Failure::Usage(
                "--engine run and --old-start exclude each other".into(),
            )),
            Some("run") => Ok(Self::Run),
            Some(_) => Err(Failure::Usage("--engine is step or run".into())),
        }
    }
}

/// Words to lend for a run. They come to hold the masks, which are as secret as the key, so they are
/// zeroed when dropped.
pub struct Words(pub Vec<u64>);

impl Words {
    /// As many as the run has.
    pub fn new(header: Header<'_>, message_len: usize) -> Self {
        Self(vec![0; run_words(header.0.len(), message_len)])
    }
}

impl Drop for Words {
    fn drop(&mut self) {
        overwrite(&mut self.0);
    }
}

/// Zeros, for words that are not read again.
fn overwrite(words: &mut [u64]) {
    for word in words {
        // SAFETY: the pointer comes from a mutable borrow. The write is volatile since the
        // compiler may leave out any other write to what is not read again.
        unsafe { ptr::write_volatile(word, 0) };
    }
    compiler_fence(Ordering::SeqCst);
}

#[cfg(test)]
mod tests {
    use super::overwrite;

    #[test]
    fn all_words_are_overwritten() {
        let mut words = vec![u64::MAX; 533];
        overwrite(&mut words);
        assert!(words.iter().all(|&word| word == 0));
    }
}
