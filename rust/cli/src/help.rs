//! The texts of `--help`.

pub mod store;

use crate::commands::DEFAULT_ROUNDS;
use calmbaize::Rounds;

pub const GENERAL: &str = "\
Seals and opens messages, brings over parcels of earlier versions, says why one
won't open, walks the masks behind them, and keeps sealed sales.

usage: calmbaize COMMAND [OPTIONS]

commands:
  seal    encrypt and authenticate a message
  open    verify and decrypt a parcel
  convert bring over parcels of versions before 0.4.0, one or a folder of them
  why     say why a parcel won't open, or each of a folder of them
  walk    take a list of steps from a start block
  jump    take net counts of steps from a start block
  store   keep sealed sales in a file, by commands of its own

'calmbaize COMMAND --help' has the options of each. A FILE of '-' is standard
input or standard output.

exit status: 0 done, 1 refused by the library or, for why, no setting opens the
parcel, 2 wrong usage or a file that can't be read or written.

Where a command is refused, misused or can't read, nothing is written. Where it
can't write, a file stays as it was; standard output, a pipe or a device may
have got a part. Of a folder this holds for each parcel by itself.
";

/// Behind an option that puts a secret on the command line.
const SEEN: &str = "other users can
                           see it in the list of processes";

const HEX_AND_HELP: &str = "  -x, --hex                write hexadecimal and a line feed
  -h, --help               this text
";

/// What seal and open share beside the settings.
const ENGINE: &str =
    "      --engine step|run    step makes a mask from the one before; run makes all
                           first, in memory that is overwritten afterwards, and
                           takes four blocks in a turn where it can. The bytes
                           written are the same [step]
";

const OWNER: &str = "\
What is written is secret: a file of it can be read by its owner alone, whatever
permissions it had before. Standard output, a pipe or a device is left as it is.
";

/// What is a parcel of a folder, from within a line on.
const PARCELS: &str = "Every regular
file is a parcel unless its name begins with '.' or ends in .lock, .nonce or
.header. Links and folders within are passed over, and so are files with these
endings that stand beside no parcel.

NAME.nonce and NAME.header are the own nonce and header of the parcel NAME, raw
bytes. For parcels without them those of the options hold; each needs a nonce.

The counts are printed at the end, such as
";

/// What is said of a folder's other parcels, up to what else ends with 1.
const OTHERS: &str = "\
', passed over 1'. What is refused, has failed or is passed over gets a line on
standard error, and the run goes on. The exit status is 2 where one has failed,
or else 1 where one is refused";

pub fn seal() -> String {
    let settings = settings();
    format!(
        "\
Encrypts and authenticates a message of up to 65,536 bytes. The parcel is the
ciphertext and then a tag of 32 bytes.

usage: calmbaize seal OPTIONS

options:
{settings}{ENGINE}  -i, --input FILE         message [standard input]
  -o, --output FILE        parcel [standard output]
{HEX_AND_HELP}"
    )
}

pub fn open() -> String {
    let settings = settings();
    format!(
        "\
Verifies and decrypts a parcel. Settings must be those it was sealed with, the
start too: nothing seals under the old one any more. Of a parcel that is refused
with 9, 'calmbaize why' says whether it opens with others.

usage: calmbaize open OPTIONS

options:
{settings}{ENGINE}      --old-start          the parcel was sealed by a version before 0.4.0; step
                           alone opens such a one
  -i, --input FILE         parcel [standard input]
  -o, --output FILE        message [standard output]
{HEX_AND_HELP}
{OWNER}"
    )
}

pub fn convert() -> String {
    let settings = settings();
    format!(
        "\
Seals the message of a parcel of a version before 0.4.0 again, with the same
settings. The new parcel is as long as the old one. A parcel that is of a later
version already is refused with 17.

usage: calmbaize convert OPTIONS

options:
{settings}  -i, --input FILE         parcel, or a folder [standard input]
  -o, --output FILE        new parcel [standard output]
{HEX_AND_HELP}
Where the input is a folder, its parcels are replaced by the new ones, in the
order of their names; output and hexadecimal are not for a folder. {PARCELS}\
converted 97, done already 2, refused 1
and then ', failed 1' where a file can't be read or written or has no nonce, and
{OTHERS}. Only those that are converted are touched.

A file is replaced whole or not at all. It keeps its permissions and, where the
system allows that, its owner and group. Meanwhile there is a NAME.lock, which
keeps other runs from changing NAME. A run that was killed may leave it behind:
see that none is running, and remove it.
"
    )
}

pub fn why() -> String {
    let settings = settings();
    format!(
        "\
Says why a parcel won't open. With the key, nonce and header given it is tried
under the settings asked, the defaults for those not given, and then under the
others: new start before old, then OPP before MRO, then fewer rounds before
more. The first that opens it is named, and in what it differs from those asked.
No message is written.

usage: calmbaize why OPTIONS

options:
{settings}      --old-start          ask for the start of versions before 0.4.0
  -i, --input FILE         parcel, or a folder [standard input]
  -h, --help               this text

One of these lines is printed, the second with what opens it and what differs:
opens as asked
opens with old start, MRO, 4 rounds: start, rounds differ
none of the sixteen
For open, old start is '--old-start', MRO is '--mode mro', 4 rounds is
'--rounds 4'. After the last line, key, nonce or header are not those it was
sealed with, or it is damaged.

The exit status is 0 where it opens, as asked or otherwise. It is 1 with 'none
of the sixteen' on standard output, and with a refusal on standard error.

Where the input is a folder, each of its parcels gets a line, in the order of
their names, unless it is refused or has failed:
0417: opens with old start, MRO, 6 rounds: start differs
Nothing in the folder is changed, and none of it is locked. {PARCELS}\
opens as asked 97, opens otherwise 2, none of the sixteen 1, refused 0
and then ', failed 1' where a file can't be read or has no nonce, and
{OTHERS} or opens with none of the sixteen.
"
    )
}

pub fn walk() -> String {
    let start = start();
    format!(
        "\
Takes the steps of a list, one after the other, from a start block of 128 bytes
and writes the 128 bytes of the block reached.

usage: calmbaize walk OPTIONS

options:
  -s, --steps LETTERS      a, b, g for alpha, beta, gamma; A, B, G for the steps
                           back; up to 4,096 of them [none]
{start}"
    )
}

pub fn jump() -> String {
    let start = start();
    format!(
        "\
Takes net counts of steps from a start block of 128 bytes, back steps where a
count is negative, and writes the 128 bytes of the block reached.

usage: calmbaize jump OPTIONS

options:
  -a, --alpha COUNT        alpha steps, -65536 to 65536 [0]
  -b, --beta COUNT         beta steps [0]
  -g, --gamma COUNT        gamma steps [0]
{start}"
    )
}

/// What seal, open, convert and why share.
fn settings() -> String {
    let (allowed, default) = (Rounds::LIST, DEFAULT_ROUNDS.count());
    let key = key();
    format!(
        "{key}  -n, --nonce HEX          nonce, 16 bytes in hexadecimal
      --nonce-file FILE    nonce, 16 raw bytes
      --header HEX         header, authenticated but not sent [none]
      --header-file FILE   header, up to 4,096 raw bytes
  -m, --mode opp|mro       opp needs a fresh nonce for every message [mro]
  -r, --rounds COUNT       rounds of the permutation: {allowed} [{default}]
"
    )
}

/// What all commands with a key share.
fn key() -> String {
    format!(
        "      --key HEX            key, 32 bytes in hexadecimal; {SEEN}
      --key-file FILE      key, 32 raw bytes
"
    )
}

/// What walk and jump share.
fn start() -> String {
    format!(
        "      --start HEX          start, in hexadecimal; {SEEN}
  -i, --input FILE         start, raw bytes [standard input]
  -o, --output FILE        block reached [standard output]
{HEX_AND_HELP}
From a start, and from every block reached, there is a way back to the key.
{OWNER}"
    )
}
