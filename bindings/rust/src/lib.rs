//! A safe wrapper of `libnet119.a`, the proved call keeper for NET119 text emergency calls.
//!
//! The caller lends every buffer: the library keeps no state and takes nothing from the heap. Any bytes, any time and any table image may
//! be handed over. On a refusal the table and the output are what they were. `include/net119.h` says what each number means.
//!
//! A message's tag, names and values under a rule are judged by the texts that they spell, escapes decoded, and a table holds decoded texts:
//! a call is found however a message spells its Call-ID. What is written or shown of a message is its bytes as they stand; [`text`] decodes
//! a part of it. The other texts that are handed over (a tick's Call-ID, a Date, our own path) are bytes as they are.
//!
//! ```
//! use net119::{blank, message, table_length, tick, State, Word};
//!
//! let mut table = [0; table_length(2)];
//! blank(&mut table, 2).unwrap();
//!
//! let invite = br#"["request",{"CSeq":"1 INVITE","To":"net119:fire@kita.callee","From":"net119:u1@nishi.caller",
//!     "Call-ID":"A1.nx","Date":"2024-02-29T23:59:59+0900",
//!     "Via":[{"host":"h1.nx","destination":"kita.callee","organization":"nx"}],
//!     "Session-ID":"S1.nx","Call-Mode":"emergency","Call-Test":0,"Secure-Call":true,"Rescuee":"caller",
//!     "Request-Service":"ambulance","Language":"ja","Locations":[],"User-Agent":"","Caller":{
//!     "region":"nishi","uid":"u1","email":"u1@mail.nx","last-modified":"2024-02-29T09:00:00+0900",
//!     "personal-information":{"name":"A","address":"B","sex":"male","birthday":"1982-01-19",
//!     "location":{"latitude":35.66,"longitude":139.75}},
//!     "region-information":{"name":"Nishi","tel":"119"}}}]"#;
//! let answer = message(&mut table, 1000, invite).unwrap();
//! assert_eq!((answer.word, answer.state), (Word::Pass, Some(State::Calling)));
//!
//! // Nobody takes it for 15 seconds.
//! let answer = tick(&mut table, 16000, b"A1.nx").unwrap();
//! assert_eq!((answer.word, answer.state), (Word::Timeout, Some(State::Ended)));
//!
//! // There is no such call.
//! assert_eq!(tick(&mut table, 16000, b"B2.nx").unwrap_err().number, 20);
//! ```

mod ffi;

/// The longest message, read or written.
pub const LONGEST: usize = 32_768;

/// The ceiling of JSON values at which every function reads that is not handed one: no JSON text of `LONGEST` bytes passes it.
pub const CEILING: u32 = 16_384;

/// The length of a table of so many records, 1 to 255.
pub const fn table_length(count: usize) -> usize {
    16 + 160 * count
}

/// The word of an accepted event.
#[derive(Debug, Clone, Copy, PartialEq, Eq, Hash)]
pub enum Word {
    Pass,
    Repeat,
    Bye,
    Timeout,
    Idle,
    Freed,
    None,
}

/// The state of a call.
#[derive(Debug, Clone, Copy, PartialEq, Eq, Hash)]
pub enum State {
    Calling,
    Ringing,
    Answered,
    Talking,
    Ended,
    Cancelling,
}

/// An accepted event: its word, and the call's state after it, none once freed.
#[derive(Debug, Clone, Copy, PartialEq, Eq, Hash)]
pub struct Accepted {
    pub word: Word,
    pub state: Option<State>,
}

/// A message that is not accepted: a number from 2 to 11, and its place: a byte of the message, as the README says for each number, or for 8 a
/// field's number. Of 9 it is the bad letter, or the closing quote of a text that stops short, where the value is a string in CSeq, To, From, Date
/// or Call-ID.
#[derive(Debug, Clone, Copy, PartialEq, Eq, Hash)]
pub struct Unread {
    pub number: u8,
    pub place: usize,
}

/// What was read under a ceiling: whether it is accepted, and how many JSON values it has, 0 where refused by 2 to 5 or 11.
#[derive(Debug, Clone, Copy, PartialEq, Eq, Hash)]
pub struct Counted {
    pub read: Result<(), Unread>,
    pub count: usize,
}

/// Where a position comes from.
#[derive(Debug, Clone, Copy, PartialEq, Eq, Hash)]
pub enum Provider {
    Gps,
    Network,
    Preset,
    Map,
}

/// Coordinates in whole millionths of a degree.
#[derive(Debug, Clone, Copy, PartialEq, Eq, Hash)]
pub struct Coordinates {
    pub latitude: i32,
    pub longitude: i32,
}

/// A position: its provider, its coordinates, and its accuracy in whole metres, if the message has one; `u64::MAX` stands for any that is larger.
#[derive(Debug, Clone, Copy, PartialEq, Eq, Hash)]
pub struct Position {
    pub provider: Provider,
    pub coordinates: Coordinates,
    pub accuracy: Option<u64>,
}

/// A refused event: a number from 1 to 11 or 20 to 28, its place, and the status code that the sender is due.
#[derive(Debug, Clone, Copy, PartialEq, Eq, Hash)]
pub struct Refused {
    pub number: u8,
    pub place: usize,
    pub reply: Option<u16>,
}

/// A refused writing: a number from 30 to 39; for [`text`] 9, 33 or 39.
#[derive(Debug, Clone, Copy, PartialEq, Eq, Hash)]
pub struct Unwritten {
    pub number: u8,
}

/// A count that is not 1 to 255, or a buffer that is not `table_length(count)` bytes long.
#[derive(Debug, Clone, Copy, PartialEq, Eq, Hash)]
pub struct WrongSize;

/// Our own entry in a Via.
#[derive(Debug, Clone, Copy)]
pub struct Path<'p> {
    pub host: &'p [u8],
    pub destination: &'p [u8],
    pub organization: &'p [u8],
}

/// A response less our entry: its length in the output, and the host that it goes to next, a part of the message itself as it stands there. It
/// may be spelled with escapes: [`text`] decodes it.
#[derive(Debug, Clone, Copy, PartialEq, Eq)]
pub struct Removed<'m> {
    pub length: usize,
    pub next_host: &'m [u8],
}

// Each call below hands over slices, which are valid for their lengths, and exclusive ones for what is written: all that the header asks.

/// Reads a message, at `CEILING`: whether it is accepted.
pub fn read(message: &[u8]) -> Result<(), Unread> {
    let answer = unsafe { ffi::net119_read(message.as_ptr(), message.len()) };
    unread(answer.number, answer.place)
}

/// Reads a message under a ceiling of JSON values, and counts them: the outermost, every element and every member's value, names not. The count
/// is at most the ceiling.
pub fn read_within(message: &[u8], ceiling: u32) -> Counted {
    let answer = unsafe { ffi::net119_read_within(message.as_ptr(), message.len(), ceiling) };
    Counted {
        read: unread(answer.number, answer.place),
        count: answer.count,
    }
}

/// The positions that a message tells, in order: of each element of an INVITE's Locations, or of a NOTIFY's location; every other message that is
/// accepted has none. The message is read at `CEILING`, once, and again for each of them.
pub fn positions(message: &[u8]) -> Result<impl Iterator<Item = Position> + '_, Unread> {
    let answer = unsafe { ffi::net119_positions(message.as_ptr(), message.len()) };
    unread(answer.number, answer.place)?;
    Ok((0..answer.count).map_while(|index| position(message, index).ok().flatten()))
}

/// One of them, counted from 0; `None` behind the last.
pub fn position(message: &[u8], index: usize) -> Result<Option<Position>, Unread> {
    let answer = unsafe { ffi::net119_position(message.as_ptr(), message.len(), index) };
    unread(answer.number, answer.place)?;
    Ok(provider(answer.provider).map(|provider| Position {
        provider,
        coordinates: Coordinates {
            latitude: answer.latitude,
            longitude: answer.longitude,
        },
        accuracy: answer.has_accuracy.then_some(answer.accuracy),
    }))
}

/// The home that an INVITE tells, where `location` of Caller's `personal-information` is an object.
pub fn home(message: &[u8]) -> Result<Option<Coordinates>, Unread> {
    let answer = unsafe { ffi::net119_home(message.as_ptr(), message.len()) };
    unread(answer.number, answer.place)?;
    Ok(answer.found.then_some(Coordinates {
        latitude: answer.latitude,
        longitude: answer.longitude,
    }))
}

/// Makes a blank table of `count` records of the whole buffer.
pub fn blank(table: &mut [u8], count: usize) -> Result<(), WrongSize> {
    match unsafe { ffi::net119_blank(table.as_mut_ptr(), table.len(), count) } {
        0 => Ok(()),
        _ => Err(WrongSize),
    }
}

/// Whether a table is well-formed.
pub fn well_formed(table: &[u8]) -> bool {
    unsafe { ffi::net119_well_formed(table.as_ptr(), table.len()) }
}

/// A message that came at a time, in milliseconds; it is read at `CEILING`.
pub fn message(table: &mut [u8], time: u64, message: &[u8]) -> Result<Accepted, Refused> {
    event(unsafe {
        ffi::net119_message(
            table.as_mut_ptr(),
            table.len(),
            time,
            message.as_ptr(),
            message.len(),
        )
    })
}

/// The same under a ceiling of JSON values. Give every message on one table the same: only then is it proved that the order of two events of
/// different calls does not matter.
pub fn message_within(
    table: &mut [u8],
    time: u64,
    message: &[u8],
    ceiling: u32,
) -> Result<Accepted, Refused> {
    event(unsafe {
        ffi::net119_message_within(
            table.as_mut_ptr(),
            table.len(),
            time,
            message.as_ptr(),
            message.len(),
            ceiling,
        )
    })
}

/// A tick for a Call-ID at a time: whether a limit has run out. The Call-ID is bytes as they are: one that was taken from a message may be
/// spelled with escapes, and [`text`] decodes it.
pub fn tick(table: &mut [u8], time: u64, call_id: &[u8]) -> Result<Accepted, Refused> {
    event(unsafe {
        ffi::net119_tick(
            table.as_mut_ptr(),
            table.len(),
            time,
            call_id.as_ptr(),
            call_id.len(),
        )
    })
}

/// Writes the reply to a request to the front of the output, and answers its length. What it has of the request is the request's own bytes,
/// escapes as they stand.
pub fn reply(
    output: &mut [u8],
    message: &[u8],
    code: u16,
    date: &[u8],
) -> Result<usize, Unwritten> {
    written(unsafe {
        ffi::net119_reply(
            output.as_mut_ptr(),
            output.len(),
            message.as_ptr(),
            message.len(),
            code,
            date.as_ptr(),
            date.len(),
        )
    })
}

/// Writes a request with our Via entry added, and answers its length.
pub fn add(output: &mut [u8], message: &[u8], path: Path) -> Result<usize, Unwritten> {
    written(unsafe {
        ffi::net119_add(
            output.as_mut_ptr(),
            output.len(),
            message.as_ptr(),
            message.len(),
            path.host.as_ptr(),
            path.host.len(),
            path.destination.as_ptr(),
            path.destination.len(),
            path.organization.as_ptr(),
            path.organization.len(),
        )
    })
}

/// Writes a response with our Via entry taken off, and answers its length and the next host as it stands in the message.
pub fn remove<'m>(
    output: &mut [u8],
    message: &'m [u8],
    path: Path,
) -> Result<Removed<'m>, Unwritten> {
    let answer = unsafe {
        ffi::net119_remove(
            output.as_mut_ptr(),
            output.len(),
            message.as_ptr(),
            message.len(),
            path.host.as_ptr(),
            path.host.len(),
            path.destination.as_ptr(),
            path.destination.len(),
            path.organization.as_ptr(),
            path.organization.len(),
        )
    };
    match answer.number {
        0 => Ok(Removed {
            length: answer.length,
            next_host: &message[answer.host_start..answer.host_end],
        }),
        number => Err(Unwritten { number }),
    }
}

/// Writes the text that a part of a message spells, such as the next host, and answers its length. `spelled` is the bytes between a string's
/// quotes; the text has its escapes decoded, in UTF-8. As much room as `spelled` has bytes is always enough. Refused, the first that holds:
/// 9, an escape is a lone surrogate; 39, the text is over `LONGEST` bytes; 33, the output is shorter than the text.
pub fn text(output: &mut [u8], spelled: &[u8]) -> Result<usize, Unwritten> {
    written(unsafe {
        ffi::net119_text(
            output.as_mut_ptr(),
            output.len(),
            spelled.as_ptr(),
            spelled.len(),
        )
    })
}

fn unread(number: u8, place: usize) -> Result<(), Unread> {
    match number {
        0 => Ok(()),
        number => Err(Unread { number, place }),
    }
}

fn event(answer: ffi::EventAnswer) -> Result<Accepted, Refused> {
    match word(answer.word) {
        Some(word) => Ok(Accepted {
            word,
            state: state(answer.state),
        }),
        None => Err(Refused {
            number: answer.number,
            place: answer.place,
            reply: (answer.reply != 0).then_some(answer.reply),
        }),
    }
}

fn written(answer: ffi::WriteAnswer) -> Result<usize, Unwritten> {
    match answer.number {
        0 => Ok(answer.length),
        number => Err(Unwritten { number }),
    }
}

/// A word by its number; 0 is none, which a refusal has.
fn word(number: u8) -> Option<Word> {
    Some(match number {
        1 => Word::Pass,
        2 => Word::Repeat,
        3 => Word::Bye,
        4 => Word::Timeout,
        5 => Word::Idle,
        6 => Word::Freed,
        7 => Word::None,
        _ => return None,
    })
}

/// A provider by its number; 0 is none, which stands behind the last position.
fn provider(number: u8) -> Option<Provider> {
    Some(match number {
        1 => Provider::Gps,
        2 => Provider::Network,
        3 => Provider::Preset,
        4 => Provider::Map,
        _ => return None,
    })
}

/// A state by its number; 0 is none.
fn state(number: u8) -> Option<State> {
    Some(match number {
        1 => State::Calling,
        2 => State::Ringing,
        3 => State::Answered,
        4 => State::Talking,
        5 => State::Ended,
        6 => State::Cancelling,
        _ => return None,
    })
}
