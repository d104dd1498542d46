//! A USS slave and master for drives: safe functions over the archive `libuss_c.a`, in which every call is proved to meet its contract
//! for any input (docs/PROMISES.md of the repository). No heap, no state, no dependency.
//!
//! The calls are those of `include/uss.h`; what C returns as a number is an enum here, and what C writes to a buffer comes back as the
//! part of the buffer that was written. Slices carry their count, and a slice that is lent for writing overlaps nothing else: a caller in
//! Rust owes nothing more.
//!
//! Where the archive is looked for: in the folder that the environment variable `USS_LIB_DIR` names, when the crate is built; else
//! where `lib/prove archive` (x86-64) or `ports/build` (other chips) of the repository writes the one of the target.
//!
//! # A master and a drive
//!
//! ```
//! use uss::{Content, Request, Setup, Task, Words};
//!
//! let setup = Setup { node: 3, pkw: 4, pzd: 2 };
//! // the master asks for parameter 1082; bit 10 of the first process word says that the drive takes them
//! let request = Request {
//!     task: Task::Read,
//!     parameter: 1082,
//!     process: Words { w1: 0x047F, w2: 0x2000, ..Words::default() },
//!     ..Request::default()
//! };
//! let mut out = [0; uss::BUFFER];
//! let telegram = uss::build_task(setup, request, &mut out).unwrap();
//!
//! // the drive has one parameter: 1082, a word, writable, 0 to 65000
//! let table = [0x08, 0x74, 0x40, 0x00, 0, 0, 0, 0, 0, 0, 0xFD, 0xE8];
//! let mut values = [5000];
//! let status = Words { w1: 0x0331, w2: 0x2000, ..Words::default() };
//! let mut buffer = [0; uss::BUFFER];
//! let served = uss::serve(setup, &table, &mut values, Words::default(), status, telegram, &mut buffer);
//! assert_eq!(served.control.w1, 0x047F);
//!
//! // and the master reads what it says
//! let reply = served.answer.reply().unwrap();
//! let read = uss::read_reply(setup, request, reply).unwrap();
//! assert_eq!(read.content, Content::Word(5000));
//! assert_eq!(read.process, status);
//! ```
//!
//! # From the line to the drive
//!
//! ```
//! use uss::{Answer, Receiver, Setup, Words};
//!
//! // what came: a pause, noise, a pause, a mirror telegram to node 3, a pause
//! let line = [256, 0x17, 0x02, 256, 0x02, 0x03, 0x43, 0x55, 0x17, 256];
//! let (mut receiver, mut page) = (Receiver::default(), [0; uss::BUFFER]);
//! let (setup, mut control, mut buffer) = (Setup { node: 3, pkw: 4, pzd: 2 }, Words::default(), [0; uss::BUFFER]);
//! let (mut rest, mut answered) = (&line[..], 0);
//! while !rest.is_empty() {
//!     let received = uss::receive(receiver, rest, &mut page);
//!     receiver = received.receiver;
//!     rest = &rest[received.taken..];
//!     if let Some(telegram) = received.telegram {
//!         let served = uss::serve(setup, &[], &mut [], control, Words::default(), telegram, &mut buffer);
//!         control = served.control;
//!         assert_eq!(served.answer, Answer::Mirrored(&[0x02, 0x03, 0x43, 0x55, 0x17]));
//!         answered += 1;
//!     }
//! }
//! assert_eq!(answered, 1);
//! ```
#![no_std]
#![deny(missing_docs)]

mod numbers;
mod raw;

pub use numbers::{Content, ParameterError, Refusal, Rule, Task};

/// A buffer for a reply or a built telegram has at least this many bytes, however short the telegram is. A receiver's page of so many
/// takes every telegram.
pub const BUFFER: usize = 256;
/// An item of [`receive`]: a number under this is a byte, this and any above it a pause.
pub const PAUSE: u16 = 256;
/// A buffer of this many bytes takes every listing.
pub const LISTING: usize = 64;
/// A record of the parameter table has this many bytes.
pub const RECORD: usize = 12;

/// A node and the words of its two areas.
#[repr(C)]
#[derive(Clone, Copy, Debug, PartialEq, Eq, Hash)]
pub struct Setup {
    /// The node, 0 to 31.
    pub node: u8,
    /// Words of the parameter area: 0, 3 or 4.
    pub pkw: u8,
    /// Words of the process area: 0 to 4; not both 0.
    pub pzd: u8,
}

/// Control, status or process words.
#[repr(C)]
#[derive(Clone, Copy, Debug, Default, PartialEq, Eq, Hash)]
pub struct Words {
    /// The first word.
    pub w1: u16,
    /// The second word.
    pub w2: u16,
    /// The third word.
    pub w3: u16,
    /// The fourth word.
    pub w4: u16,
}

/// What a receiver keeps from call to call. The default is its start, disarmed.
#[repr(C)]
#[derive(Clone, Copy, Debug, Default, PartialEq, Eq, Hash)]
pub struct Receiver {
    /// 0 is disarmed, 1 armed, 1 + k inside a telegram of which k bytes (1 to 255) stand at the start of the page; any other number is
    /// disarmed.
    pub state: u32,
}

/// A receiver's answer.
#[derive(Clone, Copy, Debug, PartialEq, Eq)]
#[must_use]
pub struct Received<'a> {
    /// How many items or bytes were taken: all, where no telegram is handed out. Feed it the others next.
    pub taken: usize,
    /// The telegram that is handed out, at the start of the page.
    pub telegram: Option<&'a [u8]>,
    /// What to keep for the next call.
    pub receiver: Receiver,
}

/// A slave call's answer.
#[derive(Clone, Copy, Debug, PartialEq, Eq)]
#[must_use]
pub enum Answer<'a> {
    /// A reply was written: send these bytes. It may carry a parameter error.
    Replied(&'a [u8]),
    /// The telegram itself is the reply: send these bytes.
    Mirrored(&'a [u8]),
    /// A broadcast was taken: send nothing, act on the control words.
    Taken,
    /// Nothing was done: send nothing.
    Refused(Refusal),
}

impl<'a> Answer<'a> {
    /// The bytes to send, where there are any.
    pub fn reply(self) -> Option<&'a [u8]> {
        match self {
            Answer::Replied(bytes) | Answer::Mirrored(bytes) => Some(bytes),
            Answer::Taken | Answer::Refused(_) => None,
        }
    }
}

/// What a slave call leaves: its answer, and the control words from now on, whatever the answer is.
#[derive(Clone, Copy, Debug, PartialEq, Eq)]
#[must_use]
pub struct Served<'a> {
    /// The answer.
    pub answer: Answer<'a>,
    /// The control words to keep.
    pub control: Words,
}

/// The first thing at fault in a table or its values.
#[derive(Clone, Copy, Debug, PartialEq, Eq, Hash)]
pub struct TableFault {
    /// [`Refusal::BadTable`] or [`Refusal::BadValues`], as a slave call would say.
    pub refusal: Refusal,
    /// The rule that is broken first.
    pub rule: Rule,
    /// The record at fault, from 0. With rule 1 how many whole records there are, at most 512; with rule 2 512; with rule 10 how many
    /// records there are.
    pub record: u32,
    /// With rule 11 the place of the value, from 0; with rule 10 how many places the table has; else 0.
    pub place: u32,
}

/// A record of a table.
#[derive(Clone, Copy, Debug, PartialEq, Eq, Hash)]
pub struct Record {
    /// The parameter's number.
    pub parameter: u32,
    /// A double and not a word.
    pub double: bool,
    /// Its limits and values have a sign.
    pub signed: bool,
    /// A master may change it.
    pub writable: bool,
    /// How many elements the array has; 0 where there is no array.
    pub elements: u32,
    /// The least value, as bits: a signed word's -100 is 0xFF9C.
    pub minimum: u32,
    /// The greatest value, as bits.
    pub maximum: u32,
}

/// The records of a table, one after the other: what [`view`] gives.
#[derive(Clone, Debug)]
#[must_use]
pub struct View<'a> {
    table: &'a [u8],
    at: raw::View,
}

/// A task of a master, as it is built and as its reply is read. The default is task 0 with process words 0.
#[derive(Clone, Copy, Debug, Default, PartialEq, Eq, Hash)]
pub struct Request {
    /// What is asked.
    pub task: Task,
    /// The parameter's number, at most 31999.
    pub parameter: u16,
    /// The element of an array, counted from 0, at most 254: in every read and change. Without array 0 and 1 both name the one value;
    /// `CountElements` ignores it.
    pub index: u8,
    /// The new value of a change, as bits; else 0.
    pub value: u32,
    /// The process words; those past PZD are 0.
    pub process: Words,
}

/// A reply that was read.
#[derive(Clone, Copy, Debug, PartialEq, Eq, Hash)]
pub struct Reply {
    /// What it says of the parameter.
    pub content: Content,
    /// Its process words, 0 past PZD.
    pub process: Words,
}

/// The first bytes of a buffer, as many as a call says that it has written. No call says more than the buffer has; of an archive that
/// did, nothing would be taken.
fn written(buffer: &[u8], length: u32) -> &[u8] {
    buffer.get(..length as usize).unwrap_or(&[])
}

/// What a receiver's call gives back of `count` items and a page. No call says that it took more items than there are; of an archive
/// that did, all would be taken.
fn received(r: raw::Received, count: usize, page: &[u8]) -> Received<'_> {
    let taken = usize::try_from(r.taken).map_or(count, |taken| taken.min(count));
    let telegram = match r.length {
        0 => None,
        length => Some(written(page, length)),
    };
    Received { taken, telegram, receiver: r.receiver }
}

/// What a slave call gives back, with the reply at the start of its buffer.
fn served(a: raw::Answer, reply: &[u8]) -> Served<'_> {
    let answer = match a.number {
        0 => Answer::Replied(written(reply, a.length)),
        1 => Answer::Mirrored(written(reply, a.length)),
        2 => Answer::Taken,
        number => Answer::Refused(Refusal::from(number)),
    };
    Served { answer, control: a.control }
}

/// The telegram that a build has written, or why there is none.
fn telegram(built: raw::Built, out: &[u8]) -> Result<&[u8], Refusal> {
    match built.number {
        0 => Ok(written(out, built.length)),
        number => Err(Refusal::from(number)),
    }
}

/// Takes bytes and pauses as the UART delivers them, until a telegram is whole or none is left: under [`PAUSE`] an item is a byte, else a
/// pause.
///
/// A pause arms the receiver, from any state. Only 02 directly after a pause opens a telegram; any other first byte, or an LGE outside 3
/// to 254, disarms it. At LGE + 2 bytes the telegram is handed out, once, and the receiver is disarmed. A pause inside a telegram drops
/// it and arms again. Disarmed, bytes are taken and ignored. How the items are cut into calls does not show. BCC and address of what is
/// handed out are for [`serve`] or [`read_reply`] to test.
///
/// `receiver` is what the last call gave back. While a telegram is begun (a state over 1) `page` has the same bytes at each call, which
/// nobody else writes; else any page will do. [`BUFFER`] bytes take every telegram, a shorter page those that fit. Only the bytes of a
/// telegram are written, each to its place.
///
/// A byte between a telegram and the next pause says that what was handed out may not be what was sent; docs/SERIAL.md, Pauses, has why a
/// host waits for that pause before it acts.
///
/// ```
/// use uss::{Receiver, PAUSE};
///
/// let mut page = [0; uss::BUFFER];
/// // a telegram of 5 bytes behind noise, in one call: the next byte is not taken
/// let line = [0x17, PAUSE, 0x02, 0x03, 0x43, 0x55, 0x17, 0x99];
/// let received = uss::receive(Receiver::default(), &line, &mut page);
/// assert_eq!(received.telegram, Some(&[0x02, 0x03, 0x43, 0x55, 0x17][..]));
/// assert_eq!(received.taken, 7);
/// // cut anywhere, it is the same
/// let first = uss::receive(Receiver::default(), &line[..4], &mut page);
/// assert_eq!((first.taken, first.telegram, first.receiver.state), (4, None, 3));
/// let second = uss::receive(first.receiver, &line[4..], &mut page);
/// assert_eq!((second.taken, second.telegram.unwrap().len(), second.receiver), (3, 5, Receiver::default()));
/// ```
pub fn receive<'a>(receiver: Receiver, items: &[u16], page: &'a mut [u8]) -> Received<'a> {
    // SAFETY: pointers and counts are those of two slices, and the one lent for writing does not overlap the other; the call takes any
    // state, items, bytes and counts, and reads and writes only inside what is lent (docs/PROMISES.md, demand 1).
    let r = unsafe { raw::uss_receive(receiver, items.as_ptr(), items.len(), page.as_mut_ptr(), page.len()) };
    received(r, items.len(), page)
}

/// Takes bytes that came with no pause between them: [`receive`] of the same bytes as items, for an interrupt, or a driver that hands
/// over bytes alone.
///
/// ```
/// use uss::Receiver;
///
/// let (mut receiver, mut page) = (uss::pause(Receiver::default()), [0; uss::BUFFER]);
/// for byte in [0x02, 0x03, 0x43, 0x55] {
///     let received = uss::receive_bytes(receiver, &[byte], &mut page);
///     assert_eq!(received.telegram, None);
///     receiver = received.receiver;
/// }
/// let received = uss::receive_bytes(receiver, &[0x17], &mut page);
/// assert_eq!(received.telegram, Some(&[0x02, 0x03, 0x43, 0x55, 0x17][..]));
/// // without a pause the next one is not heard
/// let received = uss::receive_bytes(received.receiver, &[0x02, 0x03, 0x43, 0x55, 0x17], &mut page);
/// assert_eq!((received.taken, received.telegram), (5, None));
/// ```
pub fn receive_bytes<'a>(receiver: Receiver, bytes: &[u8], page: &'a mut [u8]) -> Received<'a> {
    // SAFETY: pointers and counts are those of two slices, and the one lent for writing does not overlap the other; the call takes any
    // state, bytes and counts, and reads and writes only inside what is lent (docs/PROMISES.md, demand 1).
    let r = unsafe { raw::uss_receive_bytes(receiver, bytes.as_ptr(), bytes.len(), page.as_mut_ptr(), page.len()) };
    received(r, bytes.len(), page)
}

/// Takes one pause: [`receive`] of one pause, for a timer. It arms, whatever `receiver` is.
///
/// ```
/// use uss::Receiver;
///
/// assert_eq!(uss::pause(Receiver::default()), Receiver { state: 1 });
/// assert_eq!(uss::pause(Receiver { state: 17 }), Receiver { state: 1 });
/// ```
pub fn pause(receiver: Receiver) -> Receiver {
    // SAFETY: the call takes any number, and neither reads nor writes memory (docs/PROMISES.md, demand 1).
    unsafe { raw::uss_pause(receiver) }
}

/// Serves one received page: checks it, runs its task on the values, takes its process words and writes the reply.
///
/// `table` has records of 12 bytes, as `include/uss.h` says; `values` one number for each element, in record order; `control` are the
/// control words as they stand, `status` what the reply carries as process words; `reply` has at least [`BUFFER`] bytes.
///
/// A refusal writes nothing and gives back the control words it was given. A reply writes only its own bytes, and a change one place
/// of `values`.
///
/// ```
/// use uss::{Answer, Refusal, Setup, Words};
///
/// let (setup, control) = (Setup { node: 3, pkw: 4, pzd: 2 }, Words { w1: 0x047E, ..Words::default() });
/// let mut reply = [0xAA; uss::BUFFER];
/// // no bytes: this tests set-up, table, values and buffer, and `Short` means that all is well
/// let served = uss::serve(setup, &[], &mut [], control, Words::default(), &[], &mut reply);
/// assert_eq!(served.answer, Answer::Refused(Refusal::Short));
/// assert_eq!(served.control, control);
/// let served = uss::serve(setup, &[1], &mut [], control, Words::default(), &[], &mut reply);
/// assert_eq!(served.answer, Answer::Refused(Refusal::BadTable));
/// assert_eq!(reply, [0xAA; uss::BUFFER]);
/// ```
pub fn serve<'a>(
    setup: Setup, table: &[u8], values: &mut [u32], control: Words, status: Words, received: &[u8], reply: &'a mut [u8],
) -> Served<'a> {
    // SAFETY: pointers and counts are those of four slices, of which those lent for writing overlap no other; the call takes any bytes,
    // numbers and counts, and reads and writes only inside what is lent (docs/PROMISES.md, demand 1).
    let a = unsafe {
        raw::uss_slave(
            setup, table.as_ptr(), table.len(), values.as_mut_ptr(), values.len(), control, status, received.as_ptr(),
            received.len(), reply.as_mut_ptr(), reply.len(),
        )
    };
    served(a, reply)
}

/// Serves one received page as [`serve`] does, with the list of first places of the table, which [`fill_places`] writes: a parameter's
/// place is looked up and not added up. With a right list it leaves exactly what [`serve`] leaves.
///
/// The list stands with its table: fill it once, and lend it at each call. It is tested at each call, after the values and before the
/// buffer: `BadPlaces` where it has not one place for each record, or not the sums. An empty list goes with an empty table alone.
///
/// ```
/// use uss::{Answer, Refusal, Setup, Words};
///
/// let (setup, zero) = (Setup { node: 3, pkw: 4, pzd: 2 }, Words::default());
/// // 1082, a word, writable, two elements, 0 to 65000
/// let table = [0x08, 0x74, 0x40, 0x80, 0, 0, 0, 0, 0, 0, 0xFD, 0xE8];
/// let (mut values, mut places, mut reply) = ([5000, 6000], [0; 1], [0; uss::BUFFER]);
/// uss::fill_places(&table, &mut places).unwrap();
/// // read element 1 of 1082
/// let telegram = [2, 14, 3, 0x64, 0x3A, 0, 1, 0, 0, 0, 0, 0x04, 0x7F, 0x20, 0, 0x0B];
/// let listed = uss::serve_listed(setup, &table, &mut values, &places, zero, zero, &telegram, &mut reply);
/// assert!(matches!(listed.answer, Answer::Replied(_)));
/// assert_eq!(reply[9..11], [0x17, 0x70]);
/// let refused = uss::serve_listed(setup, &table, &mut values, &[1], zero, zero, &telegram, &mut reply);
/// assert_eq!(refused.answer, Answer::Refused(Refusal::BadPlaces));
/// ```
#[allow(clippy::too_many_arguments)]
pub fn serve_listed<'a>(
    setup: Setup, table: &[u8], values: &mut [u32], places: &[u16], control: Words, status: Words, received: &[u8],
    reply: &'a mut [u8],
) -> Served<'a> {
    // SAFETY: pointers and counts are those of five slices, of which those lent for writing overlap no other; the call takes any bytes,
    // numbers and counts, and reads and writes only inside what is lent (docs/PROMISES.md, demand 1).
    let a = unsafe {
        raw::uss_slave_listed(
            setup, table.as_ptr(), table.len(), values.as_mut_ptr(), values.len(), places.as_ptr(), places.len(), control, status,
            received.as_ptr(), received.len(), reply.as_mut_ptr(), reply.len(),
        )
    };
    served(a, reply)
}

/// Builds the telegram of a task at the start of `out`, which has at least [`BUFFER`] bytes, and returns it.
///
/// `NotAskable` where no telegram says this request: docs/CALLS.md has the cases. A refusal writes nothing.
///
/// ```
/// use uss::{Refusal, Request, Setup, Task};
///
/// let setup = Setup { node: 3, pkw: 4, pzd: 0 };
/// let mut out = [0; uss::BUFFER];
/// let save = Request { task: Task::SaveWord, parameter: 700, value: -100i16 as u16 as u32, ..Request::default() };
/// assert_eq!(uss::build_task(setup, save, &mut out).unwrap(), [2, 10, 3, 0xE2, 0xBC, 0, 0, 0, 0, 0xFF, 0x9C, 0x36]);
/// // a word has 16 bits
/// let wide = Request { value: -100i32 as u32, ..save };
/// assert_eq!(uss::build_task(setup, wide, &mut out), Err(Refusal::NotAskable));
/// ```
pub fn build_task(setup: Setup, request: Request, out: &mut [u8]) -> Result<&[u8], Refusal> {
    let Request { task, parameter, index, value, process } = request;
    // SAFETY: pointer and count are those of one slice, lent for writing; the call takes any numbers and any count, and writes only
    // inside what is lent (docs/PROMISES.md, demand 1).
    let built = unsafe { raw::uss_build_task(setup, task as u8, parameter, index, value, process, out.as_mut_ptr(), out.len()) };
    telegram(built, out)
}

/// Looks at a table and its values, one rule after the other: for power-up and for tests.
///
/// ```
/// use uss::{Refusal, Rule, TableFault};
///
/// // 1082, a signed word, writable, -100 to 100
/// let mut table = [0x08, 0x74, 0xC0, 0x00, 0, 0, 0xFF, 0x9C, 0, 0, 0, 100];
/// assert_eq!(uss::check_table(&table, &[5]), Ok(()));
/// let fault = TableFault { refusal: Refusal::BadValues, rule: Rule::OutsideLimits, record: 0, place: 0 };
/// assert_eq!(uss::check_table(&table, &[101]), Err(fault));
/// table[2] = 0x40; // without the sign the minimum is 65436
/// assert_eq!(uss::check_table(&table, &[5]).unwrap_err().rule, Rule::LimitOrder);
/// ```
pub fn check_table(table: &[u8], values: &[u32]) -> Result<(), TableFault> {
    // SAFETY: pointers and counts are those of two slices; the call takes any bytes, numbers and counts, reads only inside what is lent
    // and writes nothing (docs/PROMISES.md, demand 1).
    let r = unsafe { raw::uss_check_table(table.as_ptr(), table.len(), values.as_ptr(), values.len()) };
    match r.number {
        0 => Ok(()),
        number => Err(TableFault { refusal: Refusal::from(number), rule: Rule::from(r.rule), record: r.record, place: r.place }),
    }
}

/// Fills the list of first places that [`serve_listed`] takes: one number for each record of the table.
///
/// `BadTable` where the table breaks a rule, then `BadPlaces` where `places` has another length than the table has records; what stands
/// in it before does not matter. A refusal writes nothing.
///
/// ```
/// use uss::Refusal;
///
/// // 1000, a word of two elements; 1082, a word
/// let table = [
///     0x07, 0xD0, 0x40, 0x80, 0, 0, 0, 0, 0, 0, 0, 10, //
///     0x08, 0x74, 0x40, 0x00, 0, 0, 0, 0, 0, 0, 0, 10,
/// ];
/// let mut places = [0xEEEE; 2];
/// assert_eq!(uss::fill_places(&table, &mut places[..1]), Err(Refusal::BadPlaces));
/// assert_eq!(uss::fill_places(&table, &mut places), Ok(()));
/// assert_eq!(places, [0, 2]);
/// ```
pub fn fill_places(table: &[u8], places: &mut [u16]) -> Result<(), Refusal> {
    // SAFETY: pointers and counts are those of two slices, and the one lent for writing does not overlap the other; the call takes any
    // bytes and counts, and reads and writes only inside what is lent (docs/PROMISES.md, demand 1).
    match unsafe { raw::uss_fill_places(table.as_ptr(), table.len(), places.as_mut_ptr(), places.len()) } {
        0 => Ok(()),
        number => Err(Refusal::from(number)),
    }
}

/// Opens a view of a table, for a screen that goes from record to record: an iterator over its records. `BadTable` where the table
/// breaks a rule; it is tested once, here.
///
/// ```
/// use uss::Refusal;
///
/// // 1082, a signed word, writable, two elements, -100 to 100
/// let table = [0x08, 0x74, 0xC0, 0x80, 0, 0, 0xFF, 0x9C, 0, 0, 0, 100];
/// let mut view = uss::view(&table).unwrap();
/// let record = view.next().unwrap();
/// assert_eq!((record.parameter, record.double, record.signed, record.elements), (1082, false, true, 2));
/// assert_eq!((record.minimum as u16 as i16, record.maximum), (-100, 100));
/// assert_eq!(view.next(), None);
/// assert_eq!(uss::view(&table[1..]).unwrap_err(), Refusal::BadTable);
/// ```
pub fn view(table: &[u8]) -> Result<View<'_>, Refusal> {
    // SAFETY: pointer and count are those of one slice; the call takes any bytes and any count, reads only inside what is lent and
    // writes nothing (docs/PROMISES.md, demand 1).
    let at = unsafe { raw::uss_view_open(table.as_ptr(), table.len()) };
    match at.number {
        0 => Ok(View { table, at }),
        number => Err(Refusal::from(number)),
    }
}

impl Iterator for View<'_> {
    type Item = Record;

    fn next(&mut self) -> Option<Record> {
        let (table, at) = (self.table, self.at);
        // SAFETY: pointer and count are those of one slice; the call takes any bytes, any count and any view, reads only inside what is
        // lent and writes nothing (docs/PROMISES.md, demand 1).
        let r = unsafe { raw::uss_view_show(table.as_ptr(), table.len(), at) };
        // SAFETY: as above.
        self.at = unsafe { raw::uss_view_step(table.as_ptr(), table.len(), at) };
        let record = Record {
            parameter: r.parameter,
            double: r.is_double != 0,
            signed: r.is_signed != 0,
            writable: r.writable != 0,
            elements: r.elements,
            minimum: r.minimum,
            maximum: r.maximum,
        };
        (r.there != 0).then_some(record)
    }
}

impl core::iter::FusedIterator for View<'_> {}

/// Builds a mirror telegram of 1 to 252 net bytes at the start of `out`, which has at least [`BUFFER`] bytes, and returns it.
///
/// The node answers with the same bytes: compare them. `NotAskable` for another count of net bytes. A refusal writes nothing.
///
/// ```
/// use uss::{Answer, Setup, Words};
///
/// let setup = Setup { node: 3, pkw: 4, pzd: 2 };
/// let (mut out, mut buffer) = ([0; uss::BUFFER], [0; uss::BUFFER]);
/// let sent = uss::build_mirror(setup, b"here", &mut out).unwrap();
/// let served = uss::serve(setup, &[], &mut [], Words::default(), Words::default(), sent, &mut buffer);
/// assert_eq!(served.answer, Answer::Mirrored(sent));
/// ```
pub fn build_mirror<'a>(setup: Setup, net: &[u8], out: &'a mut [u8]) -> Result<&'a [u8], Refusal> {
    // SAFETY: pointers and counts are those of two slices, and the one lent for writing does not overlap the other; the call takes any
    // bytes and counts, and reads and writes only inside what is lent (docs/PROMISES.md, demand 1).
    let built = unsafe { raw::uss_build_mirror(setup, net.as_ptr(), net.len(), out.as_mut_ptr(), out.len()) };
    telegram(built, out)
}

/// Builds a broadcast to all nodes at the start of `out`, which has at least [`BUFFER`] bytes, and returns it. No drive answers.
///
/// Bit 1 of `selector` selects the first process word, bit 2 the second; the masks say which of their bits are taken. `NotAskable`
/// where the broadcast is void: docs/CALLS.md has the cases. A refusal writes nothing.
///
/// ```
/// use uss::{Answer, Setup, Words};
///
/// let setup = Setup { node: 3, pkw: 4, pzd: 2 };
/// let process = Words { w1: 0x0401, w2: 0x2000, ..Words::default() };
/// let (mut out, mut buffer) = ([0; uss::BUFFER], [0; uss::BUFFER]);
/// let telegram = uss::build_broadcast(setup, 0x0006, 0x0401, 0x0000, process, &mut out).unwrap();
/// // a drive takes the bits of the masks and keeps the others
/// let control = Words { w1: 0x047E, w2: 0x1111, ..Words::default() };
/// let served = uss::serve(setup, &[], &mut [], control, Words::default(), telegram, &mut buffer);
/// assert_eq!(served.answer, Answer::Taken);
/// assert_eq!(served.control, Words { w1: 0x047F, ..control });
/// ```
pub fn build_broadcast(
    setup: Setup, selector: u16, mask1: u16, mask2: u16, process: Words, out: &mut [u8],
) -> Result<&[u8], Refusal> {
    // SAFETY: pointer and count are those of one slice, lent for writing; the call takes any numbers and any count, and writes only
    // inside what is lent (docs/PROMISES.md, demand 1).
    let built = unsafe { raw::uss_build_broadcast(setup, selector, mask1, mask2, process, out.as_mut_ptr(), out.len()) };
    telegram(built, out)
}

/// Reads the reply to a task; give the request as it was built.
///
/// ```
/// use uss::{Content, ParameterError, Refusal, Request, Setup, Task};
///
/// let setup = Setup { node: 3, pkw: 4, pzd: 2 };
/// let request = Request { task: Task::Read, parameter: 1082, ..Request::default() };
/// let mut reply = [2, 14, 3, 0x74, 0x3A, 0, 0, 0, 0, 0, 0, 0x03, 0x31, 0x20, 0x00, 0x53];
/// let read = uss::read_reply(setup, request, &reply).unwrap();
/// assert_eq!(read.content, Content::Error(ParameterError::NoParameter));
/// assert_eq!(read.process.w1, 0x0331);
/// // it is not taken for another parameter's, and damage is seen
/// assert_eq!(uss::read_reply(setup, Request { parameter: 1083, ..request }, &reply), Err(Refusal::NotTheReply));
/// reply[11] ^= 0x40;
/// assert_eq!(uss::read_reply(setup, request, &reply), Err(Refusal::Check));
/// ```
pub fn read_reply(setup: Setup, request: Request, received: &[u8]) -> Result<Reply, Refusal> {
    let Request { task, parameter, index, value, process } = request;
    // SAFETY: pointer and count are those of one slice; the call takes any bytes, numbers and counts, reads only inside what is lent
    // and writes nothing (docs/PROMISES.md, demand 1).
    let r = unsafe { raw::uss_read_reply(setup, task as u8, parameter, index, value, process, received.as_ptr(), received.len()) };
    match r.number {
        0 => Ok(Reply { content: Content::of(r.id, r.value), process: r.process }),
        number => Err(Refusal::from(number)),
    }
}

/// Shows a process word as hertz: the word, signed, times the reference over 16384, exactly. The reference is what 4000 hexadecimal
/// stands for, 1 to 650 whole hertz; `BadReference` for any other. Word 0 is positive zero.
///
/// On a chip that computes no doubles this and [`show_percent`] take two functions of the compiler's soft-float library: docs/CHIPS.md,
/// Doubles.
///
/// ```
/// use uss::Refusal;
///
/// assert_eq!(uss::show_hertz(0x4000, 50), Ok(50.0));
/// assert_eq!(uss::show_hertz(0xE000, 60), Ok(-30.0));
/// assert_eq!(uss::show_hertz(0x4000, 651), Err(Refusal::BadReference));
/// ```
pub fn show_hertz(word: u16, reference: u32) -> Result<f64, Refusal> {
    // SAFETY: the call takes any numbers; nothing is lent to it (docs/PROMISES.md, demand 1).
    let r = unsafe { raw::uss_show_hertz(word, reference) };
    match r.number {
        0 => Ok(r.value),
        number => Err(Refusal::from(number)),
    }
}

/// Shows a process word as percent of the reference: the word, signed, times 100 over 16384, exactly. Word 0 is positive zero.
///
/// ```
/// assert_eq!(uss::show_percent(0x4000), 100.0);
/// assert_eq!(uss::show_percent(0xFFFF), -0.006103515625);
/// ```
pub fn show_percent(word: u16) -> f64 {
    // SAFETY: the call takes any number; nothing is lent to it (docs/PROMISES.md, demand 1).
    unsafe { raw::uss_show_percent(word) }.value
}

/// Shows a process word as it came, without a sign.
///
/// ```
/// assert_eq!(uss::show_raw(0xFFFF), 65535);
/// ```
pub fn show_raw(word: u16) -> u32 {
    // SAFETY: the call takes any number; nothing is lent to it (docs/PROMISES.md, demand 1).
    unsafe { raw::uss_show_raw(word) }.raw
}

/// Writes a text that describes the first 300 received bytes to the start of `out`, and returns it; none, and nothing written, where
/// `out` is too short. [`LISTING`] bytes are always enough.
///
/// ```
/// let bytes = [0x02, 0x07, 0x00, 0x04, 0x00, 0x21, 0x00, 0x1C, 0x3C];
/// let mut out = [0; uss::LISTING];
/// assert_eq!(uss::list(&bytes, &mut out), Some("telegram listing 1\nbytes 9 lge 7 node 0 normal\nbcc 60\n"));
/// assert_eq!(uss::list(&bytes, &mut [0; 20]), None);
/// ```
pub fn list<'a>(received: &[u8], out: &'a mut [u8]) -> Option<&'a str> {
    // SAFETY: pointers and counts are those of two slices, and the one lent for writing does not overlap the other; the call takes any
    // bytes and counts, and reads and writes only inside what is lent (docs/PROMISES.md, demand 1).
    let length = unsafe { raw::uss_list(received.as_ptr(), received.len(), out.as_mut_ptr(), out.len()) };
    match length {
        0 => None,
        length => core::str::from_utf8(written(out, length)).ok(),
    }
}

/// The XOR of all bytes; 0 of none. BCC is that of all bytes before it, the 02 included.
///
/// ```
/// assert_eq!(uss::bcc(&[0x02, 0x07, 0x00, 0x04, 0x00, 0x21, 0x00, 0x1C]), 0x3C);
/// ```
pub fn bcc(bytes: &[u8]) -> u8 {
    // SAFETY: pointer and count are those of one slice; the call takes any bytes and any count, reads only inside what is lent and
    // writes nothing (docs/PROMISES.md, demand 1).
    unsafe { raw::uss_bcc(bytes.as_ptr(), bytes.len()) }
}

#[cfg(test)]
mod tests {
    use super::*;

    #[test]
    fn no_more_is_taken_than_the_buffer_has() {
        assert_eq!(written(&[1, 2, 3], 2), [1, 2]);
        assert_eq!(written(&[1, 2, 3], 3), [1, 2, 3]);
        assert_eq!(written(&[1, 2, 3], 4), []);
        assert_eq!(written(&[], u32::MAX), []);
    }

    #[test]
    fn no_more_is_taken_than_there_is() {
        let of = |taken, length| received(raw::Received { taken, length, receiver: Receiver { state: 7 } }, 2, &[1, 2, 3]);
        assert_eq!(of(1, 0), Received { taken: 1, telegram: None, receiver: Receiver { state: 7 } });
        assert_eq!(of(2, 3), Received { taken: 2, telegram: Some(&[1, 2, 3]), receiver: Receiver { state: 7 } });
        assert_eq!(of(3, 4), Received { taken: 2, telegram: Some(&[]), receiver: Receiver { state: 7 } });
        assert_eq!(of(u64::MAX, 0).taken, 2);
    }
}
