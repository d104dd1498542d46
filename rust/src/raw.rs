//! The calls of `include/uss.h`, and the structs that they return, as C has them.

use crate::{Receiver, Setup, Words};

#[repr(C)]
pub struct Received {
    pub taken: u64,
    pub length: u32,
    pub receiver: Receiver,
}

#[repr(C)]
pub struct Answer {
    pub number: u32,
    pub length: u32,
    pub control: Words,
}

#[repr(C)]
pub struct Built {
    pub number: u32,
    pub length: u32,
}

#[repr(C)]
pub struct Reply {
    pub number: u32,
    pub id: u32,
    pub value: u32,
    pub process: Words,
}

#[repr(C)]
pub struct TableCheck {
    pub number: u32,
    pub rule: u32,
    pub record: u32,
    pub place: u32,
}

#[repr(C)]
#[derive(Clone, Copy, Debug)]
pub struct View {
    pub number: u32,
    pub at: u32,
}

#[repr(C)]
pub struct Record {
    pub there: u32,
    pub parameter: u32,
    pub is_double: u32,
    pub is_signed: u32,
    pub writable: u32,
    pub elements: u32,
    pub minimum: u32,
    pub maximum: u32,
}

#[repr(C)]
pub struct Figure {
    pub number: u32,
    pub raw: u32,
    pub value: f64,
}

extern "C" {
    pub fn uss_receive(receiver: Receiver, items: *const u16, item_count: usize, page: *mut u8, page_len: usize) -> Received;
    pub fn uss_receive_bytes(receiver: Receiver, bytes: *const u8, byte_count: usize, page: *mut u8, page_len: usize) -> Received;
    pub fn uss_pause(receiver: Receiver) -> Receiver;
    pub fn uss_slave(
        setup: Setup, table: *const u8, table_len: usize, values: *mut u32, value_count: usize, control: Words, status: Words,
        received: *const u8, received_len: usize, reply: *mut u8, reply_len: usize,
    ) -> Answer;
    pub fn uss_slave_listed(
        setup: Setup, table: *const u8, table_len: usize, values: *mut u32, value_count: usize, places: *const u16, place_count: usize,
        control: Words, status: Words, received: *const u8, received_len: usize, reply: *mut u8, reply_len: usize,
    ) -> Answer;
    pub fn uss_check_table(table: *const u8, table_len: usize, values: *const u32, value_count: usize) -> TableCheck;
    pub fn uss_fill_places(table: *const u8, table_len: usize, places: *mut u16, place_count: usize) -> u32;
    pub fn uss_view_open(table: *const u8, table_len: usize) -> View;
    pub fn uss_view_show(table: *const u8, table_len: usize, view: View) -> Record;
    pub fn uss_view_step(table: *const u8, table_len: usize, view: View) -> View;
    pub fn uss_build_task(
        setup: Setup, task: u8, parameter: u16, index: u8, value: u32, process: Words, out: *mut u8, out_len: usize,
    ) -> Built;
    pub fn uss_build_mirror(setup: Setup, net: *const u8, net_len: usize, out: *mut u8, out_len: usize) -> Built;
    pub fn uss_build_broadcast(
        setup: Setup, selector: u16, mask1: u16, mask2: u16, process: Words, out: *mut u8, out_len: usize,
    ) -> Built;
    pub fn uss_read_reply(
        setup: Setup, task: u8, parameter: u16, index: u8, value: u32, process: Words, received: *const u8, received_len: usize,
    ) -> Reply;
    pub fn uss_show_hertz(word: u16, reference: u32) -> Figure;
    pub fn uss_show_percent(word: u16) -> Figure;
    pub fn uss_show_raw(word: u16) -> Figure;
    pub fn uss_list(received: *const u8, received_len: usize, out: *mut u8, out_len: usize) -> u32;
    pub fn uss_bcc(bytes: *const u8, len: usize) -> u8;
}

// The sizes that uss.h names; tests/header.rs compares calls and fields with it.
const _: () = assert!(core::mem::size_of::<Setup>() == 3);
const _: () = assert!(core::mem::size_of::<Words>() == 8);
const _: () = assert!(core::mem::size_of::<Receiver>() == 4);
const _: () = assert!(core::mem::size_of::<Received>() == 16);
const _: () = assert!(core::mem::size_of::<Answer>() == 16);
const _: () = assert!(core::mem::size_of::<Built>() == 8);
const _: () = assert!(core::mem::size_of::<Reply>() == 20);
const _: () = assert!(core::mem::size_of::<TableCheck>() == 16);
const _: () = assert!(core::mem::size_of::<View>() == 8);
const _: () = assert!(core::mem::size_of::<Record>() == 32);
const _: () = assert!(core::mem::size_of::<Figure>() == 16);
