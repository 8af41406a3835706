//! Seal, open, convert and diagnose under one key.

use crate::{slices, Key, Mode, Nonce, Reason, Refusal, Rounds, Start, BLOCK_LEN};

/// Authenticated encryption under one mode, round count and key.
///
/// It keeps nothing between calls. No two of the arguments of a call have the same type, so that
/// none can stand in another's place:
///
/// ```compile_fail,E0308
/// # use calmbaize::{Aead, Header, Key, Mode, Nonce, Rounds};
/// let aead = Aead::new(Mode::Mro, Rounds::Six, Key::new([7; 32]));
/// let (nonce, header, message) = (Nonce::new([1; 16]), Header(b"machine 11"), b"150 cents");
/// aead.seal(&nonce, message, header, &mut [0; 64]);
/// ```
///
/// ```compile_fail,E0308
/// # use calmbaize::{Aead, Key, Mode, Nonce, Rounds};
/// let aead = Aead::new(Mode::Mro, Rounds::Six, Nonce::new([1; 16]));
/// ```
#[derive(Clone, Debug)]
pub struct Aead {
    mode: Mode,
    rounds: Rounds,
    key: Key,
}

/// What is authenticated with a message and is no part of the parcel. [`Header::default()`] is
/// empty.
#[derive(Clone, Copy, Debug, Default, PartialEq, Eq, Hash)]
pub struct Header<'a>(pub &'a [u8]);

impl Aead {
    /// The value that seals, opens, converts and diagnoses with these settings.
    pub const fn new(mode: Mode, rounds: Rounds, key: Key) -> Self {
        Self { mode, rounds, key }
    }

    /// Encrypts and authenticates `message`, authenticates `header`, and writes the parcel to the
    /// first `message.len() + TAG_LEN` bytes of `output`.
    ///
    /// Returns the length of the parcel. The rest of `output` is unchanged.
    ///
    /// # Errors
    ///
    /// The first of [`Ground::HeaderTooLong`], [`Ground::InputTooLong`] and
    /// [`Ground::OutputTooShort`] that holds. No byte of `output` changes then.
    ///
    /// # Examples
    ///
    /// ```
    /// use calmbaize::{Aead, Ground, Header, Key, Mode, Nonce, Rounds};
    ///
    /// let aead = Aead::new(Mode::Mro, Rounds::Four, Key::new([7; 32]));
    /// let (nonce, header) = (Nonce::new([1; 16]), Header::default());
    /// let mut parcel = [0; 64];
    /// assert_eq!(aead.seal(&nonce, header, b"tea", &mut parcel), Ok(35));
    /// let short = aead.seal(&nonce, header, b"tea", &mut parcel[..34]);
    /// assert_eq!(short, Err(Ground::OutputTooShort.into()));
    /// ```
    ///
    /// [`Ground::HeaderTooLong`]: crate::Ground::HeaderTooLong
    /// [`Ground::InputTooLong`]: crate::Ground::InputTooLong
    /// [`Ground::OutputTooShort`]: crate::Ground::OutputTooShort
    pub fn seal(
        &self,
        nonce: &Nonce,
        header: Header<'_>,
        message: &[u8],
        output: &mut [u8],
    ) -> Result<usize, Refusal> {
        let (mode, rounds) = (self.mode as u32, self.rounds.count());
        let (key, nonce) = (self.key.bytes(), nonce.bytes());
        slices::seal(mode, rounds, key, nonce, header.0, message, output)
    }

    /// Verifies and decrypts `parcel` and writes its message to the first
    /// `parcel.len() - TAG_LEN` bytes of `output`.
    ///
    /// Returns the length of the message. The rest of `output` is unchanged. It succeeds exactly
    /// where `parcel` is what [`seal`](Self::seal) writes for that message with the same nonce and
    /// header.
    ///
    /// # Errors
    ///
    /// The first of [`Ground::HeaderTooLong`], [`Ground::InputTooShort`],
    /// [`Ground::InputTooLong`], [`Ground::OutputTooShort`] and [`Ground::Tag`] that holds. On
    /// [`Ground::Tag`] the bytes that the message would have filled are zero and the rest is
    /// unchanged; on every other one no byte of `output` changes.
    ///
    /// # Examples
    ///
    /// ```
    /// use calmbaize::{Aead, Ground, Header, Key, Mode, Nonce, Rounds};
    ///
    /// let aead = Aead::new(Mode::Opp, Rounds::Four, Key::new([7; 32]));
    /// let mut message = [0xaa; 8];
    /// let answer = aead.open(&Nonce::new([1; 16]), Header::default(), &[1; 36], &mut message);
    /// assert_eq!(answer, Err(Ground::Tag.into()));
    /// assert_eq!(message, [0, 0, 0, 0, 0xaa, 0xaa, 0xaa, 0xaa]);
    /// ```
    ///
    /// [`Ground::HeaderTooLong`]: crate::Ground::HeaderTooLong
    /// [`Ground::InputTooShort`]: crate::Ground::InputTooShort
    /// [`Ground::InputTooLong`]: crate::Ground::InputTooLong
    /// [`Ground::OutputTooShort`]: crate::Ground::OutputTooShort
    /// [`Ground::Tag`]: crate::Ground::Tag
    pub fn open(
        &self,
        nonce: &Nonce,
        header: Header<'_>,
        parcel: &[u8],
        output: &mut [u8],
    ) -> Result<usize, Refusal> {
        let (mode, rounds) = (self.mode as u32, self.rounds.count());
        let (key, nonce) = (self.key.bytes(), nonce.bytes());
        slices::open(mode, rounds, key, nonce, header.0, parcel, output)
    }

    /// Verifies and decrypts `parcel` as [`open`](Self::open) does, but under the old start, that of
    /// versions before 0.4.0. Nothing seals under it: new parcels are [`seal`](Self::seal)'s.
    ///
    /// # Errors
    ///
    /// Those of [`open`](Self::open), with the same effects. A parcel of [`seal`](Self::seal) is
    /// refused with [`Ground::Tag`], as one of the old start is by [`open`](Self::open).
    ///
    /// # Examples
    ///
    /// ```
    /// use calmbaize::{Aead, Ground, Header, Key, Mode, Nonce, Rounds};
    ///
    /// let aead = Aead::new(Mode::Opp, Rounds::Four, Key::new([0; 32]));
    /// // What version 0.3.0 sealed: 128 zero bytes.
    /// let (old, mut message) = ([0; 160], [0xaa; 128]);
    /// let (nonce, header) = (Nonce::new([0; 16]), Header::default());
    /// assert_eq!(aead.open_old(&nonce, header, &old, &mut message), Ok(128));
    /// assert_eq!(message, [0; 128]);
    /// let answer = aead.open(&nonce, header, &old, &mut message);
    /// assert_eq!(answer, Err(Ground::Tag.into()));
    /// ```
    ///
    /// [`Ground::Tag`]: crate::Ground::Tag
    pub fn open_old(
        &self,
        nonce: &Nonce,
        header: Header<'_>,
        parcel: &[u8],
        output: &mut [u8],
    ) -> Result<usize, Refusal> {
        let (mode, rounds) = (self.mode as u32, self.rounds.count());
        let (key, nonce) = (self.key.bytes(), nonce.bytes());
        slices::open_old(mode, rounds, key, nonce, header.0, parcel, output)
    }

    /// Seals the message of `parcel`, one of a version before 0.4.0, again as [`seal`](Self::seal)
    /// does with the same nonce and header, and writes the new parcel to the first `parcel.len()`
    /// bytes of `output`.
    ///
    /// Returns that length. The rest of `output` is unchanged. Given room, it succeeds exactly where
    /// [`open_old`](Self::open_old) opens `parcel`.
    ///
    /// # Errors
    ///
    /// The first of [`Ground::HeaderTooLong`], [`Ground::InputTooShort`],
    /// [`Ground::InputTooLong`] and [`Ground::OutputTooShort`] that holds; then, of a parcel that
    /// [`open_old`](Self::open_old) refuses, [`Ground::DoneAlready`] where [`open`](Self::open)
    /// opens it and [`Ground::Tag`] where it does not. No byte of `output` changes then: unlike
    /// with those two, [`Ground::Tag`] clears nothing.
    ///
    /// # Examples
    ///
    /// ```
    /// use calmbaize::{Aead, Ground, Header, Key, Mode, Nonce, Rounds};
    ///
    /// let aead = Aead::new(Mode::Opp, Rounds::Four, Key::new([0; 32]));
    /// // What version 0.3.0 sealed: 128 zero bytes.
    /// let (old, mut new, mut message) = ([0; 160], [0; 160], [0xaa; 128]);
    /// let (nonce, header) = (Nonce::new([0; 16]), Header::default());
    /// assert_eq!(aead.convert(&nonce, header, &old, &mut new), Ok(160));
    /// assert_eq!(aead.open(&nonce, header, &new, &mut message), Ok(128));
    /// assert_eq!(message, [0; 128]);
    /// let again = aead.convert(&nonce, header, &new, &mut [0; 160]);
    /// assert_eq!(again, Err(Ground::DoneAlready.into()));
    /// ```
    ///
    /// [`Ground::HeaderTooLong`]: crate::Ground::HeaderTooLong
    /// [`Ground::InputTooShort`]: crate::Ground::InputTooShort
    /// [`Ground::InputTooLong`]: crate::Ground::InputTooLong
    /// [`Ground::OutputTooShort`]: crate::Ground::OutputTooShort
    /// [`Ground::DoneAlready`]: crate::Ground::DoneAlready
    /// [`Ground::Tag`]: crate::Ground::Tag
    pub fn convert(
        &self,
        nonce: &Nonce,
        header: Header<'_>,
        parcel: &[u8],
        output: &mut [u8],
    ) -> Result<usize, Refusal> {
        let (mode, rounds) = (self.mode as u32, self.rounds.count());
        let (key, nonce) = (self.key.bytes(), nonce.bytes());
        slices::convert(mode, rounds, key, nonce, header.0, parcel, output)
    }

    /// Tells why `parcel` won't open with this nonce and header: tries it under `start` and these
    /// settings, then under the others of the sixteen in the order of
    /// [`Setting::from_number`](crate::Setting::from_number), and names the first that opens it.
    ///
    /// # Errors
    ///
    /// The first of [`Ground::HeaderTooLong`], [`Ground::InputTooShort`] and
    /// [`Ground::InputTooLong`] that holds.
    ///
    /// # Examples
    ///
    /// ```
    /// use calmbaize::{Aead, Header, Key, Mode, Nonce, Reason, Refusal, Rounds, Start};
    ///
    /// let (key, nonce, header) = (Key::new([7; 32]), Nonce::new([1; 16]), Header::default());
    /// let mut parcel = [0; 35];
    /// Aead::new(Mode::Mro, Rounds::Four, key.clone()).seal(&nonce, header, b"tea", &mut parcel)?;
    /// let aead = Aead::new(Mode::Mro, Rounds::Six, key);
    /// let reason = aead.diagnose(Start::New, &nonce, header, &parcel)?;
    /// assert_eq!(reason.to_string(), "opens with new start, MRO, 4 rounds: rounds differ");
    /// let Reason::Other { setting, .. } = reason else { panic!("{reason}") };
    /// assert_eq!(setting.rounds, Rounds::Four);
    /// parcel[0] ^= 1;
    /// let none = aead.diagnose(Start::New, &nonce, header, &parcel);
    /// assert_eq!(none, Ok(Reason::NoneOfSixteen));
    /// # Ok::<(), Refusal>(())
    /// ```
    ///
    /// [`Ground::HeaderTooLong`]: crate::Ground::HeaderTooLong
    /// [`Ground::InputTooShort`]: crate::Ground::InputTooShort
    /// [`Ground::InputTooLong`]: crate::Ground::InputTooLong
    pub fn diagnose(
        &self,
        start: Start,
        nonce: &Nonce,
        header: Header<'_>,
        parcel: &[u8],
    ) -> Result<Reason, Refusal> {
        let (old_start, mode, rounds) =
            (start == Start::Old, self.mode as u32, self.rounds.count());
        let (key, nonce) = (self.key.bytes(), nonce.bytes());
        slices::diagnose(old_start, mode, rounds, key, nonce, header.0, parcel)
    }

    /// Seals as [`seal`](Self::seal) does, the same parcel, with all masks from one run of words, which
    /// it makes in `words`. It works on four blocks in a turn, which the archive for x86-64-v3 gains
    /// from.
    ///
    /// The first [`run_words`]`(header.0.len(), message.len())` of `words` hold the run then, and the
    /// rest is unchanged. What `words` held before does not matter. The masks are as secret as the key:
    /// keep `words` private, and overwrite it when done.
    ///
    /// # Errors
    ///
    /// Those of [`seal`](Self::seal), and [`Ground::OutputTooShort`] too where `words` is shorter than
    /// the run. No byte of `output` and no word changes then.
    ///
    /// # Examples
    ///
    /// ```
    /// use calmbaize::{run_words, Aead, Ground, Header, Key, Mode, Nonce, Refusal, Rounds};
    ///
    /// let aead = Aead::new(Mode::Mro, Rounds::Four, Key::new([7; 32]));
    /// let (nonce, header, message) = (Nonce::new([1; 16]), Header::default(), [5; 1000]);
    /// let (mut parcel, mut same) = ([0; 1032], [0; 1032]);
    /// let mut words = [0; run_words(0, 1000)];
    /// aead.seal_run(&nonce, header, &message, &mut parcel, &mut words)?;
    /// aead.seal(&nonce, header, &message, &mut same)?;
    /// assert_eq!(parcel, same);
    /// let few = aead.seal_run(&nonce, header, &message, &mut parcel, &mut words[1..]);
    /// assert_eq!(few, Err(Ground::OutputTooShort.into()));
    /// # Ok::<(), Refusal>(())
    /// ```
    ///
    /// [`Ground::OutputTooShort`]: crate::Ground::OutputTooShort
    pub fn seal_run(
        &self,
        nonce: &Nonce,
        header: Header<'_>,
        message: &[u8],
        output: &mut [u8],
        words: &mut [u64],
    ) -> Result<usize, Refusal> {
        let (mode, rounds) = (self.mode as u32, self.rounds.count());
        let (key, nonce) = (self.key.bytes(), nonce.bytes());
        slices::seal_run(mode, rounds, key, nonce, header.0, message, output, words)
    }

    /// Opens as [`open`](Self::open) does, with all masks from one run of words, as
    /// [`seal_run`](Self::seal_run) does. It opens the parcels that [`open`](Self::open) opens.
    ///
    /// The first [`run_words`]`(header.0.len(), parcel.len() - TAG_LEN)` of `words` hold the run then,
    /// and the rest is unchanged. What `words` held before does not matter. The masks are as secret as
    /// the key: keep `words` private, and overwrite it when done.
    ///
    /// # Errors
    ///
    /// Those of [`open`](Self::open), and [`Ground::OutputTooShort`] too where `words` is shorter than
    /// the run. On [`Ground::Tag`] `output` is cleared as [`open`](Self::open) clears it, and `words`
    /// hold the run; on every other one no byte of `output` and no word changes.
    ///
    /// # Examples
    ///
    /// ```
    /// use calmbaize::{run_words, Aead, Ground, Header, Key, Mode, Nonce, Refusal, Rounds};
    ///
    /// let aead = Aead::new(Mode::Opp, Rounds::Four, Key::new([7; 32]));
    /// let (nonce, header) = (Nonce::new([1; 16]), Header(b"machine 11"));
    /// let (mut parcel, mut message, mut words) = ([0; 35], [0; 3], [0; run_words(10, 3)]);
    /// aead.seal(&nonce, header, b"tea", &mut parcel)?;
    /// let answer = aead.open_run(&nonce, header, &parcel, &mut message, &mut words);
    /// assert_eq!((answer, &message), (Ok(3), b"tea"));
    /// parcel[0] ^= 1;
    /// let answer = aead.open_run(&nonce, header, &parcel, &mut message, &mut words);
    /// assert_eq!((answer, message), (Err(Ground::Tag.into()), [0; 3]));
    /// # Ok::<(), Refusal>(())
    /// ```
    ///
    /// [`Ground::OutputTooShort`]: crate::Ground::OutputTooShort
    /// [`Ground::Tag`]: crate::Ground::Tag
    pub fn open_run(
        &self,
        nonce: &Nonce,
        header: Header<'_>,
        parcel: &[u8],
        output: &mut [u8],
        words: &mut [u64],
    ) -> Result<usize, Refusal> {
        let (mode, rounds) = (self.mode as u32, self.rounds.count());
        let (key, nonce) = (self.key.bytes(), nonce.bytes());
        slices::open_run(mode, rounds, key, nonce, header.0, parcel, output, words)
    }
}

/// The words that [`Aead::seal_run`] and [`Aead::open_run`] need for a header and a message of these
/// lengths: one for each whole block of the longer of them, and 21.
///
/// For lengths that these calls take it is at most [`MAX_RUN_WORDS`](crate::MAX_RUN_WORDS). Keep the
/// words private, and overwrite them when done.
///
/// ```
/// use calmbaize::{run_words, MAX_HEADER_LEN, MAX_MESSAGE_LEN, MAX_RUN_WORDS};
///
/// assert_eq!((run_words(0, 0), run_words(255, 128)), (21, 22));
/// assert_eq!(run_words(MAX_HEADER_LEN, MAX_MESSAGE_LEN), MAX_RUN_WORDS);
/// ```
pub const fn run_words(header_len: usize, message_len: usize) -> usize {
    let longer = if header_len > message_len {
        header_len
    } else {
        message_len
    };
    longer / BLOCK_LEN + 21
}
