//! A host in Rust: the calls behind safe functions, then a master and a drive that talk.
//!
//! Slices carry their length, and `&mut` rules out that what is written overlaps anything: a caller in Rust owes nothing more.

#[repr(C)]
#[derive(Clone, Copy)]
pub struct Setup {
    pub node: u8,
    pub pkw: u8,
    pub pzd: u8,
}

#[repr(C)]
#[derive(Clone, Copy, Default)]
pub struct Words {
    pub w1: u16,
    pub w2: u16,
    pub w3: u16,
    pub w4: u16,
}

/// What a receiver keeps from call to call; 0, disarmed, at the start.
#[repr(C)]
#[derive(Clone, Copy, Default)]
pub struct Receiver {
    pub state: u32,
}

#[repr(C)]
pub struct Received {
    pub taken: u64,
    pub length: u32,
    pub receiver: Receiver,
}

#[repr(C)]
pub struct Answer {
    pub number: u32,
    pub length: u32,
    pub control: Words,
}

#[repr(C)]
pub struct Built {
    pub number: u32,
    pub length: u32,
}

#[repr(C)]
pub struct Reply {
    pub number: u32,
    pub id: u32,
    pub value: u32,
    pub process: Words,
}

mod raw {
    use super::*;

    #[link(name = "uss_c", kind = "static")]
    extern "C" {
        pub fn uss_receive_bytes(
            receiver: Receiver, bytes: *const u8, byte_count: usize, page: *mut u8, page_len: usize,
        ) -> Received;
        pub fn uss_pause(receiver: Receiver) -> Receiver;
        pub fn uss_slave(
            setup: Setup, table: *const u8, table_len: usize, values: *mut u32, value_count: usize, control: Words,
            status: Words, received: *const u8, received_len: usize, reply: *mut u8, reply_len: usize,
        ) -> Answer;
        pub fn uss_build_task(
            setup: Setup, task: u8, parameter: u16, index: u8, value: u32, process: Words, out: *mut u8, out_len: usize,
        ) -> Built;
        pub fn uss_read_reply(
            setup: Setup, task: u8, parameter: u16, index: u8, value: u32, process: Words, received: *const u8,
            received_len: usize,
        ) -> Reply;
    }
}

pub fn receive_bytes(receiver: Receiver, bytes: &[u8], page: &mut [u8]) -> Received {
    unsafe { raw::uss_receive_bytes(receiver, bytes.as_ptr(), bytes.len(), page.as_mut_ptr(), page.len()) }
}

pub fn pause(receiver: Receiver) -> Receiver {
    unsafe { raw::uss_pause(receiver) }
}

pub fn slave(
    setup: Setup, table: &[u8], values: &mut [u32], control: Words, status: Words, received: &[u8], reply: &mut [u8],
) -> Answer {
    unsafe {
        raw::uss_slave(
            setup, table.as_ptr(), table.len(), values.as_mut_ptr(), values.len(), control, status, received.as_ptr(),
            received.len(), reply.as_mut_ptr(), reply.len(),
        )
    }
}

/// A parameter task, as it is built and as its reply is read.
#[derive(Clone, Copy)]
pub struct Task {
    pub task: u8,
    pub parameter: u16,
    pub index: u8,
    pub value: u32,
    pub process: Words,
}

pub fn build_task(setup: Setup, t: Task, out: &mut [u8]) -> Built {
    unsafe { raw::uss_build_task(setup, t.task, t.parameter, t.index, t.value, t.process, out.as_mut_ptr(), out.len()) }
}

pub fn read_reply(setup: Setup, t: Task, received: &[u8]) -> Reply {
    unsafe {
        raw::uss_read_reply(setup, t.task, t.parameter, t.index, t.value, t.process, received.as_ptr(), received.len())
    }
}

/// The line: bytes in lots, a pause behind them. Returns the telegram that the pause follows; none where that is no telegram's end.
fn carry<'a>(receiver: &mut Receiver, bytes: &[u8], page: &'a mut [u8]) -> &'a [u8] {
    let mut length = 0;
    for lot in bytes.chunks(5) {
        let mut rest = lot;
        while !rest.is_empty() {
            let received = receive_bytes(*receiver, rest, page);
            *receiver = received.receiver;
            length = received.length as usize;
            rest = &rest[received.taken as usize..];
        }
    }
    *receiver = pause(*receiver);
    &page[..length]
}

fn main() {
    let setup = Setup { node: 3, pkw: 4, pzd: 2 };
    // parameter 700: a signed word, writable, -100 to 100
    let table = [0x05, 0x78, 0xC0, 0x00, 0, 0, 0xFF, 0x9C, 0, 0, 0, 100];
    let mut values = [0u32];
    let mut control = Words::default();
    let status = Words { w1: 0x0331, w2: 0x2000, ..Words::default() };
    let process = Words { w1: 0x047F, w2: 0x2000, ..Words::default() };
    // both have heard a pause
    let (mut drive, mut master) = (pause(Receiver::default()), pause(Receiver::default()));

    for value in [0xFF9C, 0xFF9B] {
        let task = Task { task: 2, parameter: 700, index: 0, value, process };
        let mut telegram = [0u8; 256];
        let built = build_task(setup, task, &mut telegram);
        let mut page = [0u8; 256];
        let heard = carry(&mut drive, &telegram[..built.length as usize], &mut page);
        let mut reply = [0u8; 256];
        let answer = slave(setup, &table, &mut values, control, status, heard, &mut reply);
        control = answer.control;
        let mut page = [0u8; 256];
        let heard = carry(&mut master, &reply[..answer.length as usize], &mut page);
        let read = read_reply(setup, task, heard);
        println!(
            "change to {}: answer {}, reply {} with ID {} and {}; the drive holds {}",
            value as u16 as i16, answer.number, read.number, read.id, read.value, values[0] as u16 as i16
        );
    }
    println!("control word {:04X}, set point {:04X}", control.w1, control.w2);
}
