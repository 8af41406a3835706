//! How the calls that seal, open and convert are made.

use crate::cases::{KEY, NONCE};
use baseline::{RunSealing, Sealing};
use reference::{Refusal, Start};
use std::ptr::null;

/// How a call is made.
#[derive(Clone, Copy)]
pub enum How {
    /// A foreign call.
    Step(Sealing),
    /// One with a lent buffer of words.
    Run(RunSealing),
    /// A call of the second implementation, under a start.
    Second(SecondCall, Start),
}

/// The type of the second implementation's calls.
type SecondCall = fn(Start, u32, u32, [&[u8]; 4], &mut [u8]) -> Result<usize, Refusal>;

impl How {
    /// Makes the call, with an empty header.
    pub fn make(
        self,
        (mode, rounds): (u32, u32),
        input: &[u8],
        output: &mut [u8],
        words: &mut [u64],
    ) -> u64 {
        match self {
            Self::Step(call) => foreign(call, (mode, rounds), input, output),
            Self::Run(call) => foreign_run(call, (mode, rounds), input, output, words),
            Self::Second(call, start) => {
                let inputs = [&KEY, &NONCE[..reference::NONCE_LEN], &[], input];
                match call(start, mode, rounds, inputs, output) {
                    Ok(written) => written as u64,
                    Err((number, _)) => u64::from(number) << 32,
                }
            }
        }
    }
}

/// Seals under a start, as the scalar C does, so that all open the same parcels.
pub fn sealed(start: Start, settings: (u32, u32), message: &[u8], parcel: &mut [u8]) {
    let seal = match start {
        Start::New => baseline::baseline_seal,
        Start::Old => baseline::baseline_seal_old,
    };
    let written = foreign(seal, settings, message, parcel);
    assert_eq!(written, parcel.len() as u64, "a parcel to open");
}

fn foreign(call: Sealing, (mode, rounds): (u32, u32), input: &[u8], output: &mut [u8]) -> u64 {
    // SAFETY: each pointer is valid for its length, and the output overlaps nothing; what needs AVX2
    // is a case only where the processor has it.
    unsafe {
        call(
            mode,
            rounds,
            KEY.as_ptr(),
            KEY.len(),
            NONCE.as_ptr(),
            reference::NONCE_LEN,
            null(),
            0,
            input.as_ptr(),
            input.len(),
            output.as_mut_ptr(),
            output.len(),
        )
    }
}

fn foreign_run(
    call: RunSealing,
    (mode, rounds): (u32, u32),
    input: &[u8],
    output: &mut [u8],
    words: &mut [u64],
) -> u64 {
    // SAFETY: as in `foreign`, and the words overlap nothing either.
    unsafe {
        call(
            mode,
            rounds,
            KEY.as_ptr(),
            KEY.len(),
            NONCE.as_ptr(),
            reference::NONCE_LEN,
            null(),
            0,
            input.as_ptr(),
            input.len(),
            output.as_mut_ptr(),
            output.len(),
            words.as_mut_ptr(),
            words.len(),
        )
    }
}

#[cfg(all(test, target_arch = "x86_64"))]
mod tests {
    use super::*;
    use crate::calls;
    use crate::cases::Implementation::{self, Avx2C, Avx2Clang};
    use crate::wide;
    use baseline::{baseline_open_run, baseline_seal_run};
    use reference::{run_len, MRO, OPP, ROUNDS};

    /// By AVX2, as each compiler makes it: what seals and what opens. Nothing where the processor has
    /// no AVX2.
    fn by_avx2() -> Vec<(Implementation, RunSealing, RunSealing)> {
        let calls = |each| match each {
            (by @ (Avx2C | Avx2Clang), How::Run(seal), How::Run(open)) => Some((by, seal, open)),
            _ => None,
        };
        let all = calls::seal_and_open().into_iter().filter(|_| wide::runs());
        all.filter_map(calls).collect()
    }

    #[test]
    fn avx2_is_measured_by_each_compiler() {
        let compilers = 1 + usize::from(baseline::avx2_by_clang().is_some());
        assert_eq!(by_avx2().len(), if wide::runs() { compilers } else { 0 });
    }

    /// So many words and bytes stand behind those that are lent: as many as the longest run has, so
    /// that a call that goes too far is seen and does no harm.
    const BEHIND: usize = 533;

    /// The answer, and all bytes and words after the call, those behind too.
    type Made = (u64, Vec<u8>, Vec<u64>);

    /// What a call is given.
    #[derive(Clone, Copy)]
    struct Given<'a> {
        settings: (u32, u32),
        header: &'a [u8],
        input: &'a [u8],
        /// The output's bytes.
        room: usize,
        /// How many words are lent.
        lent: usize,
    }

    impl Given<'_> {
        /// What the call made.
        fn made(self, call: RunSealing) -> Made {
            let (mut output, mut words) = self.before();
            // SAFETY: each pointer is valid for its length, and neither the output nor the words
            // overlap anything; without AVX2 in the processor there is no such call.
            let answer = unsafe {
                call(
                    self.settings.0,
                    self.settings.1,
                    KEY.as_ptr(),
                    KEY.len(),
                    NONCE.as_ptr(),
                    reference::NONCE_LEN,
                    self.header.as_ptr(),
                    self.header.len(),
                    self.input.as_ptr(),
                    self.input.len(),
                    output.as_mut_ptr(),
                    self.room,
                    words.as_mut_ptr(),
                    self.lent,
                )
            };
            (answer, output, words)
        }

        /// What the call made, which is what the scalar C makes: every byte and word.
        fn same(self, by: Implementation, call: RunSealing, scalar: RunSealing) -> Made {
            let made = self.made(call);
            let (header, input) = (self.header.len(), self.input.len());
            let case = (self.settings, header, input, self.room, self.lent);
            assert!(made == self.made(scalar), "{by}, {case:?}");
            made
        }

        /// The bytes and the words before a call: dirty, so that what is left as it was shows.
        fn before(self) -> (Vec<u8>, Vec<u64>) {
            let words = (1..).map(|i: u64| i.wrapping_mul(0x9e37_79b9_7f4a_7c15));
            let output = vec![0xee; self.room + BEHIND];
            (output, words.take(self.lent + BEHIND).collect())
        }
    }

    /// Bytes of which no block is like another.
    fn bytes(len: usize) -> Vec<u8> {
        let bytes = (0..len as u64).map(|i| (i.wrapping_mul(0x9e37_79b9_7f4a_7c15) >> 56) as u8);
        bytes.collect()
    }

    /// Seals and opens, and opens a parcel whose tag or whose last block differs. The words behind the
    /// run stay as they were.
    fn seal_and_open(settings: (u32, u32), header: &[u8], len: usize, lent: usize) {
        let (message, room) = (bytes(len), len + 32);
        let sealing = Given {
            settings,
            header,
            input: &message,
            room,
            lent,
        };
        let run = run_len(header.len(), len);
        let (_, before) = sealing.before();
        for (by, seal, open) in by_avx2() {
            let (_, mut parcel, words) = sealing.same(by, seal, baseline_seal_run);
            assert!(words[run..] == before[run..], "{by}, {len} bytes sealed");
            for fault in [None, Some(room - 1), len.checked_sub(1)] {
                if let Some(at) = fault {
                    parcel[at] ^= 1;
                }
                let opening = Given {
                    input: &parcel[..room],
                    room: len,
                    ..sealing
                };
                let (_, _, words) = opening.same(by, open, baseline_open_run);
                assert!(words[run..] == before[run..], "{by}, {len} bytes opened");
            }
        }
    }

    #[test]
    fn avx2_seals_and_opens_as_the_scalar_c_does() {
        let header = bytes(4096);
        let lengths = (0..21).flat_map(|blocks| [0, 1, 127].map(|left| 128 * blocks + left));
        for len in lengths.chain([65_279, 65_280, 65_407, 65_408, 65_535, 65_536]) {
            for header in <[_; 2]>::from(header.split_at(len % 4097)) {
                let run = run_len(header.len(), len);
                for &rounds in ROUNDS {
                    for lent in [run, run + 3] {
                        seal_and_open((OPP, rounds), header, len, lent);
                    }
                }
            }
        }
    }

    #[test]
    fn avx2_refuses_what_the_scalar_c_refuses() {
        let (header, input) = (bytes(4097), bytes(65_569));
        for (settings, header_len, len, room) in [
            ((0, 4), 0, 40, 72),
            ((OPP, 5), 0, 40, 72),
            ((OPP, 4), 4097, 40, 72),
            ((OPP, 4), 0, 65_569, 65_601),
            ((OPP, 4), 0, 40, 7),
            ((OPP, 4), 0, 31, 63),
            // Refused for nothing but the words, where they are too few.
            ((OPP, 4), 0, 40, 72),
            ((OPP, 4), 4096, 40, 72),
            ((OPP, 4), 0, 1024, 1056),
        ] {
            for lent in [0, 20, 21, 27, 28, 29, 52, 53, 533] {
                let given = Given {
                    settings,
                    header: &header[..header_len],
                    input: &input[..len],
                    room,
                    lent,
                };
                for (by, seal, open) in by_avx2() {
                    given.same(by, seal, baseline_seal_run);
                    given.same(by, open, baseline_open_run);
                }
            }
        }
    }

    #[test]
    fn avx2_refuses_mro_as_no_mode() {
        let given = Given {
            settings: (MRO, 4),
            header: &[],
            input: &bytes(40),
            room: 72,
            lent: 21,
        };
        let (output, words) = given.before();
        let refused = (1 << 32, output, words);
        for (by, seal, open) in by_avx2() {
            assert!(given.made(seal) == refused, "{by}: seal");
            assert!(given.made(open) == refused, "{by}: open");
        }
    }
}
