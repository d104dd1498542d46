//! Compares the library, through its C interface, with the implementation in model.rs on many inputs: valid, damaged and
//! random. Each slice that is lent ends (or starts) at a page that may not be touched, and all that a call must leave
//! untouched is compared. Prints how often each answer was met; fails where one is missing or rare.
//!
//!     host [SEED [ROUNDS]]
mod model;
use model::{Setup, Task, Unit, Words};
use std::collections::BTreeMap;
use std::process::exit;

#[repr(C)]
#[derive(Clone, Copy)]
struct Answer {
    number: u32,
    length: u32,
    control: Words,
}

#[repr(C)]
#[derive(Clone, Copy)]
struct Built {
    number: u32,
    length: u32,
}

#[repr(C)]
#[derive(Clone, Copy)]
struct Reply {
    number: u32,
    id: u32,
    value: u32,
    process: Words,
}

#[repr(C)]
#[derive(Clone, Copy)]
struct TableCheck {
    number: u32,
    rule: u32,
    record: u32,
    place: u32,
}

#[repr(C)]
#[derive(Clone, Copy)]
struct View {
    number: u32,
    at: u32,
}

#[repr(C)]
#[derive(Clone, Copy)]
struct Record {
    there: u32,
    parameter: u32,
    is_double: u32,
    is_signed: u32,
    writable: u32,
    elements: u32,
    minimum: u32,
    maximum: u32,
}

#[repr(C)]
#[derive(Clone, Copy)]
struct Receiver {
    state: u32,
}

#[repr(C)]
#[derive(Clone, Copy)]
struct Received {
    taken: u64,
    length: u32,
    receiver: Receiver,
}

#[repr(C)]
#[derive(Clone, Copy)]
struct Figure {
    number: u32,
    raw: u32,
    value: f64,
}

#[link(name = "uss_c", kind = "static")]
extern "C" {
    fn uss_receive(receiver: Receiver, items: *const u16, item_count: usize, page: *mut u8, page_len: usize) -> Received;
    fn uss_receive_bytes(receiver: Receiver, bytes: *const u8, byte_count: usize, page: *mut u8, page_len: usize) -> Received;
    fn uss_pause(receiver: Receiver) -> Receiver;
    fn uss_slave(
        setup: Setup, table: *const u8, table_len: usize, values: *mut u32, value_count: usize, control: Words,
        status: Words, received: *const u8, received_len: usize, reply: *mut u8, reply_len: usize,
    ) -> Answer;
    fn uss_slave_listed(
        setup: Setup, table: *const u8, table_len: usize, values: *mut u32, value_count: usize, places: *const u16,
        place_count: usize, control: Words, status: Words, received: *const u8, received_len: usize, reply: *mut u8,
        reply_len: usize,
    ) -> Answer;
    fn uss_build_task(
        setup: Setup, task: u8, parameter: u16, index: u8, value: u32, process: Words, out: *mut u8, out_len: usize,
    ) -> Built;
    fn uss_build_mirror(setup: Setup, net: *const u8, net_len: usize, out: *mut u8, out_len: usize) -> Built;
    fn uss_build_broadcast(
        setup: Setup, selector: u16, mask1: u16, mask2: u16, process: Words, out: *mut u8, out_len: usize,
    ) -> Built;
    fn uss_read_reply(
        setup: Setup, task: u8, parameter: u16, index: u8, value: u32, process: Words, received: *const u8,
        received_len: usize,
    ) -> Reply;
    fn uss_list(received: *const u8, received_len: usize, out: *mut u8, out_len: usize) -> u32;
    fn uss_bcc(bytes: *const u8, len: usize) -> u8;
    fn uss_check_table(table: *const u8, table_len: usize, values: *const u32, value_count: usize) -> TableCheck;
    fn uss_fill_places(table: *const u8, table_len: usize, places: *mut u16, place_count: usize) -> u32;
    fn uss_view_open(table: *const u8, table_len: usize) -> View;
    fn uss_view_show(table: *const u8, table_len: usize, view: View) -> Record;
    fn uss_view_step(table: *const u8, table_len: usize, view: View) -> View;
    fn uss_show_hertz(word: u16, reference: u32) -> Figure;
    fn uss_show_percent(word: u16) -> Figure;
    fn uss_show_raw(word: u16) -> Figure;
}

// ---- memory between two pages that may not be touched

extern "C" {
    fn mmap(addr: *mut u8, len: usize, prot: i32, flags: i32, fd: i32, offset: i64) -> *mut u8;
    fn mprotect(addr: *mut u8, len: usize, prot: i32) -> i32;
}

const PAGE: usize = 4096;
/// Bytes around a lent slice that are compared too.
const MARGIN: usize = 32;
const MARK: u8 = 0xA5;

struct Arena {
    start: *mut u8,
    size: usize,
}

/// A slice that is lent to one call.
struct Lent {
    at: *mut u8,
    len: usize,
    margin: *mut u8,
    given: Vec<u8>,
}

impl Arena {
    fn new(pages: usize) -> Arena {
        unsafe {
            // read and write; private and anonymous
            let whole = mmap(std::ptr::null_mut(), (pages + 2) * PAGE, 3, 0x22, -1, 0);
            assert!(whole as isize != -1);
            assert_eq!(mprotect(whole, PAGE, 0), 0);
            assert_eq!(mprotect(whole.add((pages + 1) * PAGE), PAGE, 0), 0);
            Arena { start: whole.add(PAGE), size: pages * PAGE }
        }
    }

    /// The bytes at the end of the arena, or at its start.
    fn lend(&self, bytes: &[u8], at_start: bool) -> Lent {
        assert!(bytes.len() + MARGIN <= self.size);
        unsafe {
            let at = if at_start { self.start } else { self.start.add(self.size - bytes.len()) };
            let margin = if at_start { at.add(bytes.len()) } else { at.sub(MARGIN) };
            std::ptr::copy_nonoverlapping(bytes.as_ptr(), at, bytes.len());
            std::ptr::write_bytes(margin, MARK, MARGIN);
            Lent { at, len: bytes.len(), margin, given: bytes.to_vec() }
        }
    }
}

impl Lent {
    fn now(&self) -> &[u8] {
        unsafe { std::slice::from_raw_parts(self.at, self.len) }
    }

    fn margin_kept(&self) -> bool {
        unsafe { std::slice::from_raw_parts(self.margin, MARGIN) }.iter().all(|b| *b == MARK)
    }

    fn untouched(&self) -> bool {
        self.margin_kept() && self.now() == &self.given[..]
    }

    /// The bytes at the start are these, the rest as given.
    fn starts_with(&self, bytes: &[u8]) -> bool {
        self.margin_kept()
            && self.len >= bytes.len()
            && self.now()[..bytes.len()] == *bytes
            && self.now()[bytes.len()..] == self.given[bytes.len()..]
    }
}

fn numbers_to_bytes(values: &[u32]) -> Vec<u8> {
    values.iter().flat_map(|v| v.to_ne_bytes()).collect()
}

fn places_to_bytes(places: &[u16]) -> Vec<u8> {
    places.iter().flat_map(|p| p.to_ne_bytes()).collect()
}

// ---- numbers by chance

struct Dice(u64);

impl Dice {
    fn next(&mut self) -> u64 {
        self.0 = self.0.wrapping_add(0x9E37_79B9_7F4A_7C15);
        let mut z = self.0;
        z = (z ^ z >> 30).wrapping_mul(0xBF58_476D_1CE4_E5B9);
        z = (z ^ z >> 27).wrapping_mul(0x94D0_49BB_1331_11EB);
        z ^ z >> 31
    }

    fn below(&mut self, n: u64) -> u64 {
        self.next() % n
    }

    /// One time in n.
    fn one_in(&mut self, n: u64) -> bool {
        self.below(n) == 0
    }

    fn word(&mut self) -> u16 {
        match self.below(4) {
            0 => 0,
            1 => self.pick(&[1, 0xFFFF, 0x8000, 0x7FFF, 0x0400, 0x047F, 0x0800, 0xFBFF]),
            _ => self.next() as u16,
        }
    }

    fn words(&mut self) -> Words {
        Words { w: [self.word(), self.word(), self.word(), self.word()] }
    }

    fn bytes(&mut self, n: usize) -> Vec<u8> {
        (0..n).map(|_| self.next() as u8).collect()
    }

    fn pick<T: Copy>(&mut self, from: &[T]) -> T {
        from[self.below(from.len() as u64) as usize]
    }
}

fn any_setup(d: &mut Dice) -> Setup {
    if d.one_in(25) {
        // each field at and past its end
        return Setup {
            node: d.pick(&[0, 3, 31, 32, 33, 64, 255]),
            pkw: d.pick(&[0, 1, 2, 3, 4, 5, 255]),
            pzd: d.pick(&[0, 1, 4, 5, 255]),
        };
    }
    good_setup(d)
}

fn good_setup(d: &mut Dice) -> Setup {
    let pkw = d.pick(&[0, 3, 3, 4, 4, 4, 4]);
    let pzd = d.below(5) as u8;
    Setup { node: d.below(32) as u8, pkw, pzd: if pkw == 0 && pzd == 0 { 2 } else { pzd } }
}

// ---- tables and values

fn any_limit(d: &mut Dice, double: bool) -> u32 {
    let v = match d.below(4) {
        0 => d.below(300) as u32,
        1 => (d.below(300) as u32).wrapping_neg(),
        2 => d.pick(&[0, 0x7FFF, 0x8000, 0xFFFF, 0x7FFF_FFFF, 0x8000_0000, 0xFFFF_FFFF]),
        _ => d.next() as u32,
    };
    if double { v } else { v & 0xFFFF }
}

fn signed(raw: u32, double: bool) -> i64 {
    if double { raw as i32 as i64 } else { raw as u16 as i16 as i64 }
}

/// 4064 places, and `more` in a last record.
fn full_records(more: u32) -> Vec<model::Record> {
    let elements = |k: u32| if k < 16 { 254 } else { more };
    (0..17).map(|k| model::Record { number: k * 1999, double: false, signed: false, writable: true, elements: elements(k), min: 0, max: 9 }).collect()
}

fn good_records(d: &mut Dice) -> Vec<model::Record> {
    if d.one_in(200) {
        return full_records(32);
    }
    let count = match d.below(40) {
        0 => d.pick(&[511, 512]),
        1 => d.below(100),
        _ => d.below(8),
    };
    records_of(d, count)
}

/// So many records of a good table.
fn records_of(d: &mut Dice, count: u64) -> Vec<model::Record> {
    let mut room = 4096u64;
    let mut number = 0u64;
    let mut found = vec![];
    for left in (1..=count).rev() {
        let widest = (31999 - number).saturating_sub(left) / left;
        number += if d.one_in(3) { 0 } else { d.below(widest.min(3000) + 1) };
        // a number that a base of 2000 to 2047 would name too
        let next_page = (number / 2000 + 1) * 2000 + d.below(48);
        if d.one_in(3) && next_page + left <= 31999 {
            number = next_page;
        }
        let double = d.one_in(2);
        let is_signed = d.one_in(2);
        let elements = if d.one_in(2) { 0 } else { d.pick(&[1, 2, 3, 4, 5, 17, 254]).min((room - left).max(1)) };
        room -= elements.max(1);
        let (a, b) = (any_limit(d, double), any_limit(d, double));
        let above = if is_signed { signed(a, double) > signed(b, double) } else { a > b };
        let (min, max) = if above { (b, a) } else { (a, b) };
        let writable = !d.one_in(4);
        found.push(model::Record { number: number as u32, double, signed: is_signed, writable, elements: elements as u32, min, max });
        number += 1;
    }
    found
}

/// A value at, near, inside or far from the limits of a record.
fn any_value(d: &mut Dice, r: &model::Record) -> u32 {
    match d.below(8) {
        0 => r.min,
        1 => r.max,
        2 => r.min.wrapping_sub(1),
        3 => r.max.wrapping_add(1),
        4 => d.next() as u32,
        5 => d.next() as u32 & 0xFFFF,
        _ => inside(d, r),
    }
}

fn inside(d: &mut Dice, r: &model::Record) -> u32 {
    let (low, high) = if r.signed {
        (signed(r.min, r.double), signed(r.max, r.double))
    } else {
        (r.min as i64, r.max as i64)
    };
    let v = low + d.below((high - low + 1) as u64) as i64;
    if r.double { v as u32 } else { v as u16 as u32 }
}

struct Drive {
    setup: Setup,
    records: Vec<model::Record>,
    table: Vec<u8>,
    values: Vec<u32>,
    control: Words,
}

fn any_drive(d: &mut Dice) -> Drive {
    let setup = any_setup(d);
    let records = good_records(d);
    let mut table: Vec<u8> = records.iter().flat_map(|r| r.bytes(0)).collect();
    let mut values: Vec<u32> = vec![];
    for r in &records {
        for _ in 0..r.places() {
            values.push(inside(d, r));
        }
    }
    if d.one_in(12) {
        damage_table(d, &records, &mut table, &mut values);
    }
    if d.one_in(12) {
        damage_values(d, &records, &mut values);
    }
    Drive { setup, records, table, values, control: d.words() }
}

fn damage_table(d: &mut Dice, records: &[model::Record], table: &mut Vec<u8>, values: &mut Vec<u32>) {
    if d.one_in(6) {
        // too many places, or too many records
        let found = if d.one_in(2) {
            full_records(33)
        } else {
            (0..513)
                .map(|number| model::Record { number, double: false, signed: false, writable: true, elements: 0, min: 0, max: 9 })
                .collect()
        };
        *table = found.iter().flat_map(|r| r.bytes(0)).collect();
        *values = vec![0; found.iter().map(model::Record::places).sum()];
        return;
    }
    if records.is_empty() || d.one_in(6) {
        let more = 1 + d.below(11) as usize;
        table.extend(d.bytes(more));
        return;
    }
    let k = d.below(records.len() as u64) as usize;
    let at = 12 * k;
    match d.below(7) {
        0 => table[at + 3] |= 1 << d.below(6),
        1 => table[at..at + 2].copy_from_slice(&(32000u16 * 2).to_be_bytes()),
        2 => {
            table[at + 2] |= 0x3F;
            table[at + 3] |= 0xC0;
        }
        3 => table.copy_within(at..at + 12, 0),
        4 => table[at + 4 + d.below(2) as usize * 4 + d.below(2) as usize] ^= 1 << d.below(8),
        5 => {
            let min: [u8; 4] = table[at + 4..at + 8].try_into().unwrap();
            table.copy_within(at + 8..at + 12, at + 4);
            table[at + 8..at + 12].copy_from_slice(&min);
        }
        _ => {
            let which = d.below(table.len() as u64) as usize;
            table[which] ^= 1 << d.below(8);
        }
    }
}

fn damage_values(d: &mut Dice, records: &[model::Record], values: &mut Vec<u32>) {
    if values.is_empty() || d.one_in(4) {
        values.push(d.next() as u32);
    } else if d.one_in(3) {
        values.pop();
    } else {
        let place = d.below(values.len() as u64) as usize;
        values[place] = match d.below(3) {
            0 => values[place] | 0xFFFF_0000,
            1 => values[place] ^ 1 << d.below(32),
            _ => records.first().map_or(0, |r| any_value(d, r)),
        };
    }
}

// ---- lists of first places

/// How a list is wrong.
const FIRST: u32 = 1;
const MIDDLE: u32 = 2;
const LAST: u32 = 3;
const SHORT: u32 = 4;
const LONG: u32 = 5;
const EMPTY: u32 = 6;
const OTHER: u32 = 7;

/// A list that is wrong in one way, beside the right one; where it cannot be, it is the right one.
fn wrong_list(d: &mut Dice, right: &[u16]) -> (u32, Vec<u16>) {
    let how = FIRST + d.below(OTHER as u64) as u32;
    let mut list = right.to_vec();
    let off = |d: &mut Dice, place: u16| if d.one_in(2) { place.wrapping_add(1) } else { place.wrapping_sub(1) };
    match (how, list.len()) {
        (EMPTY, _) => list.clear(),
        (SHORT, _) => drop(list.pop()),
        (LONG, _) => list.push(d.pick(&[0, right.last().map_or(0, |p| p + 1), d.0 as u16])),
        (OTHER, n) => match d.below(4) {
            // any numbers; one bit; each record's last place and not its first; one place for each record, array or not
            0 => list = (0..n).map(|_| d.next() as u16).collect(),
            1 if n > 0 => list[d.below(n as u64) as usize] ^= 1 << d.below(16),
            2 if n > 0 => list.rotate_left(1),
            _ => list = (0..n as u16).collect(),
        },
        (_, 0) => {}
        (FIRST, _) => list[0] = off(d, 0),
        (LAST, n) => list[n - 1] = off(d, list[n - 1]),
        (MIDDLE, n) => {
            let k = if n > 2 { 1 + d.below(n as u64 - 2) as usize } else { n / 2 };
            list[k] = off(d, list[k]);
        }
        _ => unreachable!(),
    }
    (how, list)
}

// ---- telegrams

fn any_task(d: &mut Dice, drive: &Drive) -> Task {
    let records = &drive.records;
    let named = if records.is_empty() || d.one_in(12) { None } else { Some(&records[d.below(records.len() as u64) as usize]) };
    let fits = named.map_or(false, |r| r.double);
    let task = match d.below(10) {
        0 => d.below(16) as u8,
        1 => 9,
        2 | 3 => d.pick(&[1, 6]),
        _ if fits => d.pick(&[3, 8, 11, 13]),
        _ => d.pick(&[2, 7, 12, 14]),
    };
    let index = match named {
        Some(r) if !d.one_in(8) => d.below(r.elements.max(1) as u64) as u8,
        Some(r) => r.elements as u8,
        None => d.next() as u8,
    };
    let index = if d.one_in(6) { d.pick(&[0, 1, 2, 3, 253, 254, 255]) } else { index };
    Task {
        task,
        parameter: named.map_or(d.below(33000) as u16, |r| r.number as u16),
        index,
        value: named.map_or(d.next() as u32, |r| any_value(d, r)),
        process: d.words(),
    }
}

/// The task's words as they travel, with ignored bits set by chance.
fn travelling(d: &mut Dice, s: Setup, t: &Task) -> Vec<u16> {
    let (mut page, mut base) = (t.parameter as u32 / 2000, t.parameter % 2000);
    if page > 0 && base < 48 && d.one_in(8) {
        page -= 1;
        base += 2000;
    } else if d.one_in(40) {
        base = 2000 + d.below(48) as u16;
    }
    let mut area = vec![
        (t.task as u16) << 12 | base | (d.one_in(4) as u16) << 11,
        model::nibble_of(page.min(15)) << 12 | (if d.one_in(4) { d.below(16) as u16 } else { 0 }) << 8 | t.index as u16,
    ];
    if s.pkw == 4 {
        area.push(if d.one_in(4) { d.word() } else { (t.value >> 16) as u16 });
    }
    area.push(t.value as u16);
    area
}

fn any_telegram(d: &mut Dice, drive: &Drive) -> Vec<u8> {
    let s = drive.setup;
    let node = if d.one_in(16) { d.below(32) as u8 } else { s.node & 31 };
    let process = d.words();
    let pzd = (s.pzd as usize).min(4);
    let mut t = match d.below(12) {
        0 => {
            let n = match d.below(4) {
                0 => d.pick(&[1, 2, 251, 252]),
                _ => 1 + d.below(252),
            };
            let net = d.bytes(n as usize);
            model::seal(node | 0x40, &net)
        }
        1 | 2 => {
            let selector = if d.one_in(4) { d.word() } else { d.pick(&[2, 6, 6, 0, 4, 3, 7, 10, 14, 22]) };
            let mut net = vec![selector, d.word() | 0x400, d.word()];
            if d.one_in(8) {
                net[1] &= !0x400;
            }
            if s.pkw == 4 {
                net.push(if d.one_in(8) { d.word() } else { 0 });
            }
            if s.pkw == 0 {
                net.clear();
            }
            net.extend_from_slice(&process.w[..pzd]);
            if let Some(first) = net.get_mut((s.pkw as usize).min(4)) {
                if !d.one_in(8) {
                    *first |= 0x400;
                }
            }
            model::seal(0x20 | d.below(32) as u8, &model::bytes_of(&net))
        }
        _ => {
            let task = any_task(d, drive);
            let mut net = if s.pkw == 0 { vec![] } else { travelling(d, s, &task) };
            net.extend_from_slice(&process.w[..pzd]);
            if net.is_empty() {
                net.push(d.word());
            }
            model::seal(node, &model::bytes_of(&net))
        }
    };
    if d.one_in(5) {
        t = damage_telegram(d, t);
    }
    t
}

fn damage_telegram(d: &mut Dice, mut t: Vec<u8>) -> Vec<u8> {
    let n = t.len() as u64;
    match d.below(10) {
        0 => t[d.below(n) as usize] ^= 1 << d.below(8),
        1 => t.truncate(d.below(n) as usize),
        2 => {
            let more = 1 + d.below(5) as usize;
            t.extend(d.bytes(more));
        }
        3 => t[1] = d.pick(&[0, 1, 2, 3, 253, 254, 255]),
        4 => t[0] = d.next() as u8,
        5 => {
            // another address, with its check character
            let adr = d.next() as u8;
            t = model::seal(adr, &t[3..t.len() - 1]);
        }
        6 => {
            // another length, with its check character
            let mut net = t[3..t.len() - 1].to_vec();
            if d.one_in(2) && net.len() > 1 {
                net.pop();
            } else if net.len() < 252 {
                net.push(d.next() as u8);
            }
            t = model::seal(t[2], &net);
        }
        7 => {
            let len = d.pick(&[0, 1, 4, 5, 6, 16, 255, 256, 257, 300, 301, 600]);
            t = d.bytes(len);
            if len > 1 && d.one_in(2) {
                t[0] = 2;
                t[1] = (len - 2).min(255) as u8;
            }
        }
        8 => {
            let last = t.len() - 1;
            t[last] = t[last].wrapping_add(1 + d.below(255) as u8);
        }
        _ => {
            // the XOR without the 02
            let last = t.len() - 1;
            t[last] ^= 2;
        }
    }
    t
}

// ---- items of a line

/// Lengths of a receiver's page that are drawn most.
const ROOMS: [usize; 8] = [0, 1, 2, 4, 5, 255, 256, 300];

fn any_pause(d: &mut Dice) -> u16 {
    match d.below(4) {
        0 => d.pick(&[257, 258, 511, 512, 0x0202, 0xFF02, 65535]),
        1 => 256 + d.below(65536 - 256) as u16,
        _ => 256,
    }
}

/// An LGE about the ends of its range, about what just fits the page, or any.
fn any_lge(d: &mut Dice, room: usize) -> u8 {
    match d.below(8) {
        0 => d.pick(&[3, 4, 253, 254]),
        1 => (room as u8).wrapping_sub(1 + d.below(3) as u8),
        2 => d.next() as u8,
        _ => 3 + d.below(24) as u8,
    }
}

/// Bytes as they come after a pause: a telegram, whole or cut, alone or with more behind it; its start; or noise.
fn any_run(d: &mut Dice, room: usize) -> Vec<u8> {
    let noise = { let n = d.pick(&[0, 1, 2, 5, 20, 60]); d.bytes(n) };
    let lge = any_lge(d, room);
    let mut run = match d.below(16) {
        0 => return noise,
        1 => return [&[2], &noise[..]].concat(),
        2 => return [&[2, d.pick(&[0, 1, 2, 3, 254, 255])], &noise[..]].concat(),
        3 => return [&[2, 2], &noise[..]].concat(),
        _ if !(3..=254).contains(&lge) => return [&[2, lge], &noise[..]].concat(),
        _ => { let net = d.bytes(lge as usize - 2); model::seal(d.next() as u8, &net) }
    };
    match d.below(12) {
        0 | 1 => run.truncate(d.below(run.len() as u64 + 1) as usize),
        2 => run.extend_from_slice(&noise),
        3 => run.extend_from_within(..),
        4 => run.insert(0, d.next() as u8),
        5 => { let k = d.below(run.len() as u64) as usize; run[k] ^= 1 << d.below(8) }
        _ => {}
    }
    run
}

/// Runs with pauses between them, mostly one, and now and then one inside. Where bytes are held, the first run mostly goes on with them.
fn any_items(d: &mut Dice, room: usize, held: bool) -> Vec<u16> {
    let mut items = vec![];
    for k in 0..d.below(6) {
        let goes_on = held && k == 0 && !d.one_in(4);
        for _ in 0..if goes_on { 0 } else { d.pick(&[0, 1, 1, 1, 1, 1, 1, 2]) } {
            items.push(any_pause(d));
        }
        let start = items.len();
        items.extend(any_run(d, room).iter().map(|byte| *byte as u16));
        if d.one_in(8) {
            let at = start + d.below((items.len() - start) as u64 + 1) as usize;
            items.insert(at, any_pause(d));
        }
    }
    items
}

/// A state and a page as a call may find them: those of the start, or any at all.
fn any_start(d: &mut Dice, room: usize) -> (u32, Vec<u8>) {
    let mut page = d.bytes(room);
    if room >= 2 && !d.one_in(4) {
        page[0] = 2;
        page[1] = if d.one_in(4) { d.pick(&[0, 1, 2, 3, 254, 255]) } else { any_lge(d, room) };
    }
    let end = room as u32;
    let state = match d.below(10) {
        0 => 1,
        1 => d.pick(&[2, 3, 4, 255, 256, 257, 258, 1 << 16, 1 << 31, u32::MAX - 1, u32::MAX, end, end + 1, end + 2]),
        2 => 2 + d.below(room as u64 + 1) as u32,
        3 => (end.min(256) + 1).saturating_sub(d.below(30) as u32),
        4 => d.next() as u32,
        _ => 0,
    };
    (state, page)
}

// ---- counts

#[derive(Default)]
struct Counts(BTreeMap<&'static str, BTreeMap<u32, u64>>);

impl Counts {
    fn met(&mut self, what: &'static str, which: u32) {
        *self.0.entry(what).or_default().entry(which).or_default() += 1;
    }

    fn total(&self, what: &str) -> u64 {
        self.0.get(what).map_or(0, |m| m.values().sum())
    }

    fn count(&self, what: &str, which: u32) -> u64 {
        self.0.get(what).and_then(|m| m.get(&which)).copied().unwrap_or(0)
    }

    /// Prints a line and returns whether each of `wanted` was met `floor` times, and nothing else was.
    fn report(&self, what: &'static str, wanted: &[u32], floor: u64) -> bool {
        let none = BTreeMap::new();
        let met = self.0.get(what).unwrap_or(&none);
        let shown: Vec<String> = met.iter().map(|(k, n)| format!("{k}: {n}")).collect();
        println!("{what:18} {}", shown.join("  "));
        let rare: Vec<&u32> = wanted.iter().filter(|k| met.get(k).map_or(0, |n| *n) < floor).collect();
        let strange: Vec<&u32> = met.keys().filter(|k| !wanted.contains(k)).collect();
        if !rare.is_empty() {
            println!("    RARE (under {floor}): {rare:?}");
        }
        if !strange.is_empty() {
            println!("    NOT EXPECTED: {strange:?}");
        }
        rare.is_empty() && strange.is_empty()
    }
}

struct Bench {
    table: Arena,
    values: Arena,
    places: Arena,
    received: Arena,
    out: Arena,
    counts: Counts,
    /// For lists alone, so that what else is drawn does not depend on them.
    lists: Dice,
    /// Items that the receiver took.
    items: u64,
}

/// The receiver's call that is made.
#[derive(Clone, Copy)]
enum By {
    Items,
    Bytes,
    Pause,
}

impl By {
    fn call(self) -> &'static str {
        match self {
            By::Items => "receive",
            By::Bytes => "receive bytes",
            By::Pause => "pause",
        }
    }
}

fn differ(what: &str, shown: String) -> ! {
    println!("DIFFERENT: {what}");
    println!("{shown}");
    exit(1)
}

fn hex(bytes: &[u8]) -> String {
    bytes.iter().map(|b| format!("{b:02X} ")).collect()
}

impl Bench {
    /// One slave call on both sides, with a list or without. Returns what it has to leave, and the values.
    fn serve(
        &mut self, start: bool, drive: &Drive, list: Option<&[u16]>, status: Words, received: &[u8], buffer: &[u8],
    ) -> (model::Served, Vec<u32>) {
        let table = self.table.lend(&drive.table, start);
        let values = self.values.lend(&numbers_to_bytes(&drive.values), start);
        let places = self.places.lend(&places_to_bytes(list.unwrap_or(&[])), start);
        let got = self.received.lend(received, start);
        let reply = self.out.lend(buffer, start);
        let (numbers, count) = (values.at as *mut u32, drive.values.len());
        let a = unsafe {
            match list {
                None => uss_slave(
                    drive.setup, table.at, table.len, numbers, count, drive.control, status, got.at, got.len, reply.at, reply.len,
                ),
                Some(list) => uss_slave_listed(
                    drive.setup, table.at, table.len, numbers, count, places.at as *const u16, list.len(), drive.control, status,
                    got.at, got.len, reply.at, reply.len,
                ),
            }
        };
        let mut after = drive.values.clone();
        let want = model::slave(drive.setup, &drive.table, &mut after, list, drive.control, status, received, buffer.len());
        let good = a.number == want.number
            && a.length as usize == want.reply.len()
            && a.control == want.control
            && values.margin_kept()
            && values.now() == &numbers_to_bytes(&after)[..]
            && reply.starts_with(&want.reply)
            && table.untouched()
            && places.untouched()
            && got.untouched();
        if !good {
            differ(if list.is_some() { "uss_slave_listed" } else { "uss_slave" }, format!(
                "set-up {:?}\ntable {}\nvalues {:X?}\nlist {:?}\ncontrol {:X?} status {:X?}\nreceived {}\nroom {}\nanswer {} {} {:X?}, expected {} {} {:X?}\nreply {}\nexpected {}\nvalues after {}\nexpected {:X?}",
                drive.setup, hex(&drive.table), drive.values, list, drive.control, status, hex(received), buffer.len(), a.number,
                a.length, a.control, want.number, want.reply.len(), want.control, hex(&reply.now()[..reply.len.min(40)]),
                hex(&want.reply), hex(values.now()), after
            ));
        }
        (want, after)
    }

    /// The same call with a right list, which must leave the same, and with a wrong one.
    fn serve_listed(
        &mut self, start: bool, drive: &Drive, status: Words, received: &[u8], buffer: &[u8], unlisted: &(model::Served, Vec<u32>),
    ) {
        let right = model::records(&drive.table).map_or(vec![], |found| model::first_places(&found));
        let listed = self.serve(start, drive, Some(&right), status, received, buffer);
        if listed != *unlisted {
            differ("uss_slave_listed and uss_slave", format!("table {}\nreceived {}\n{listed:?}, and {unlisted:?}", hex(&drive.table), hex(received)));
        }
        self.counts.met("listed answer", listed.0.number);
        let (how, wrong) = wrong_list(&mut self.lists, &right);
        if wrong == right {
            return;
        }
        let (refused, values) = self.serve(start, drive, Some(&wrong), status, received, buffer);
        if !matches!(refused.number, 20 | 21 | 22 | 25) || !refused.reply.is_empty() || values != drive.values {
            differ("uss_slave_listed with a wrong list", format!("table {}\nlist {wrong:?}\n{refused:?}", hex(&drive.table)));
        }
        self.counts.met("listed answer", refused.number);
        if refused.number == 25 {
            self.counts.met("wrong list", how);
        }
    }

    /// One slave call on both sides; the drive takes the new state. Returns the reply.
    fn slave(&mut self, d: &mut Dice, drive: &mut Drive, received: &[u8], room: usize) -> Vec<u8> {
        let start = d.one_in(4);
        let status = d.words();
        let buffer = d.bytes(room);
        let unlisted = self.serve(start, drive, None, status, received, &buffer);
        self.serve_listed(start, drive, status, received, &buffer, &unlisted);
        let (want, after) = unlisted;
        let before = std::mem::replace(&mut drive.values, after);
        drive.control = want.control;
        self.counts.met("slave answer", want.number);
        if want.number == 0 && drive.setup.pkw != 0 {
            let (task, index) = ((received[3] >> 4) as u32, received[6]);
            self.counts.met("task in a reply", task);
            self.counts.met("reply ID", (want.reply[3] >> 4) as u32);
            if let Some(error) = want.error {
                self.counts.met("parameter error", error);
            }
            match want.error {
                Some(3) => self.counts.met("error 3 by task", task),
                Some(4) => self.counts.met("error 4 by task", task),
                None if index > 1 => self.counts.met("index by task", task),
                _ => {}
            }
            if before != drive.values {
                self.counts.met("values changed", 1);
            }
        }
        want.reply
    }

    fn built(&mut self, what: &'static str, given: String, b: Built, out: &Lent, want: model::Built) -> Option<Vec<u8>> {
        let (number, telegram) = match want {
            Ok(t) => (0, t),
            Err(number) => (number, vec![]),
        };
        if b.number != number || b.length as usize != telegram.len() || !out.starts_with(&telegram) {
            differ(what, format!(
                "{given}\nanswer {} {}, expected {} {}\nbuffer {}\nexpected {}",
                b.number, b.length, number, telegram.len(), hex(&out.now()[..out.len.min(40)]), hex(&telegram)
            ));
        }
        self.counts.met(what, number);
        if number == 0 { Some(telegram) } else { None }
    }

    fn build_task(&mut self, d: &mut Dice, s: Setup, t: &Task, room: usize) -> Option<Vec<u8>> {
        let out = self.out.lend(&d.bytes(room), d.one_in(4));
        let b = unsafe { uss_build_task(s, t.task, t.parameter, t.index, t.value, t.process, out.at, out.len) };
        self.built("build task", format!("{s:?} {t:?} {room}"), b, &out, model::build_task(s, t, room))
    }

    fn build_mirror(&mut self, d: &mut Dice, s: Setup, net: &[u8], room: usize) -> Option<Vec<u8>> {
        let lent = self.received.lend(net, d.one_in(4));
        let out = self.out.lend(&d.bytes(room), d.one_in(4));
        let b = unsafe { uss_build_mirror(s, lent.at, lent.len, out.at, out.len) };
        if !lent.untouched() {
            differ("build mirror", "the net bytes were written to".into());
        }
        self.built("build mirror", format!("{s:?} {} {room}", hex(net)), b, &out, model::build_mirror(s, net, room))
    }

    fn build_broadcast(&mut self, d: &mut Dice, s: Setup, area: [u16; 3], process: Words, room: usize) -> Option<Vec<u8>> {
        let out = self.out.lend(&d.bytes(room), d.one_in(4));
        let b = unsafe { uss_build_broadcast(s, area[0], area[1], area[2], process, out.at, out.len) };
        let want = model::build_broadcast(s, area[0], area[1], area[2], process, room);
        self.built("build broadcast", format!("{s:?} {area:X?} {process:X?} {room}"), b, &out, want)
    }

    fn read_reply(&mut self, d: &mut Dice, s: Setup, t: &Task, received: &[u8]) -> u32 {
        let got = self.received.lend(received, d.one_in(4));
        let r = unsafe { uss_read_reply(s, t.task, t.parameter, t.index, t.value, t.process, got.at, got.len) };
        let found = model::Read { number: r.number, id: r.id, value: r.value, process: r.process };
        let want = model::read_reply(s, t, received);
        if found != want || !got.untouched() {
            differ("uss_read_reply", format!("{s:?} {t:?}\nreceived {}\n{found:?}, expected {want:?}", hex(received)));
        }
        self.counts.met("read", want.number);
        if want.number == 0 {
            self.counts.met("read ID", want.id);
        }
        want.number
    }

    fn list(&mut self, d: &mut Dice, received: &[u8]) {
        let text = model::listing(received);
        let full = text.len();
        let room = match d.below(6) {
            0 => d.below(full as u64) as usize,
            1 => full - 1,
            2 => full,
            3 => full + 1,
            _ => 64 + d.below(300) as usize,
        };
        let got = self.received.lend(received, d.one_in(4));
        let out = self.out.lend(&d.bytes(room), d.one_in(4));
        let n = unsafe { uss_list(got.at, got.len, out.at, out.len) };
        let want = if room < full { "" } else { &text[..] };
        if n as usize != want.len() || !out.starts_with(want.as_bytes()) || !got.untouched() {
            differ("uss_list", format!("received {}\nroom {room}, returned {n}, expected\n{want}", hex(received)));
        }
        let kind = if room < full {
            99
        } else if let Some(at) = text.find("refused ") {
            text[at + 8..].trim().parse().unwrap()
        } else if text.contains(" normal") {
            0
        } else if text.contains(" mirror") {
            1
        } else {
            2
        };
        self.counts.met("list", kind);
    }

    fn bcc(&mut self, d: &mut Dice) {
        let n = d.pick(&[0, 1, 2, 8, 15, 255, 256, 700]) as u64;
        let bytes = { let k = d.below(n + 1) as usize; d.bytes(k) };
        let lent = self.received.lend(&bytes, d.one_in(4));
        if unsafe { uss_bcc(lent.at, lent.len) } != model::bcc(&bytes) || !lent.untouched() {
            differ("uss_bcc", hex(&bytes));
        }
        self.counts.met("bcc", 0);
    }

    /// One call of the receiver on both sides; the page takes what it leaves.
    fn receive(&mut self, d: &mut Dice, by: By, state: u32, page: &mut Vec<u8>, items: &[u16]) -> Received {
        let start = d.one_in(4);
        let bytes: Vec<u8> = match by {
            By::Bytes => items.iter().map(|item| *item as u8).collect(),
            _ => items.iter().flat_map(|item| item.to_ne_bytes()).collect(),
        };
        let got = self.received.lend(&bytes, start);
        let left = self.out.lend(page, start);
        let given = Receiver { state };
        let r = unsafe {
            match by {
                By::Items => uss_receive(given, got.at as *const u16, items.len(), left.at, left.len),
                By::Bytes => uss_receive_bytes(given, got.at, got.len, left.at, left.len),
                By::Pause => Received { taken: 1, length: 0, receiver: uss_pause(given) },
            }
        };
        let mut want = model::receive(state, page, items);
        let (taken, length) = want.telegrams.first().map_or((items.len(), 0), |(taken, telegram)| (*taken, telegram.len()));
        if taken < items.len() {
            want = model::receive(state, page, &items[..taken]);
        }
        let good = r.taken == taken as u64
            && r.length as usize == length
            && r.receiver.state == want.state
            && left.margin_kept()
            && left.now() == &want.page[..]
            && got.untouched();
        if !good {
            differ(by.call(), format!(
                "state {state}, items {items:X?}\npage of {} {}\ntaken {} length {} state {}, expected {taken} {length} {}\npage {}\nexpected {}",
                page.len(), hex(page), r.taken, r.length, r.receiver.state, want.state, hex(left.now()), hex(&want.page)
            ));
        }
        page.clone_from(&want.page);
        let kind = if length > 0 { 3 } else { r.receiver.state.min(2) };
        self.counts.met(by.call(), kind);
        self.items += taken as u64;
        r
    }

    fn check_table(&mut self, d: &mut Dice, bytes: &[u8], numbers: &[u32]) {
        let start = d.one_in(4);
        let table = self.table.lend(bytes, start);
        let values = self.values.lend(&numbers_to_bytes(numbers), start);
        let c = unsafe { uss_check_table(table.at, table.len, values.at as *const u32, numbers.len()) };
        let found = [c.number, c.rule, c.record, c.place];
        let want = model::check_table(bytes, numbers);
        if found != want || !table.untouched() || !values.untouched() {
            differ("uss_check_table", format!("table {}\nvalues {numbers:X?}\n{found:?}, expected {want:?}", hex(bytes)));
        }
        self.counts.met("rule", want[1]);
    }

    /// Fills a list of `count` places with any contents before.
    fn fill(&mut self, d: &mut Dice, bytes: &[u8], count: usize) {
        let start = d.one_in(4);
        let table = self.table.lend(bytes, start);
        let places = self.places.lend(&d.bytes(2 * count), start);
        let number = unsafe { uss_fill_places(table.at, table.len, places.at as *mut u16, count) };
        let want = model::fill_places(bytes, count);
        let good = match &want {
            Ok(list) => number == 0 && places.margin_kept() && places.now() == &places_to_bytes(list)[..],
            Err(refusal) => number == *refusal && places.untouched(),
        };
        if !good || !table.untouched() {
            differ("uss_fill_places", format!("table {}\nlist of {count}: {number} {}, expected {want:?}", hex(bytes), hex(places.now())));
        }
        self.counts.met("fill", number);
    }

    /// A view from its opening to its end, and views that no call gave.
    fn view(&mut self, d: &mut Dice, bytes: &[u8]) {
        let table = self.table.lend(bytes, d.one_in(4));
        let opened = unsafe { uss_view_open(table.at, table.len) };
        let mut view = [opened.number, opened.at];
        if view != model::view_open(bytes) {
            differ("uss_view_open", format!("table {}\n{view:?}", hex(bytes)));
        }
        self.counts.met("view open", view[0]);
        let mut shown = 0;
        while self.look(&table, &mut view) {
            shown += 1;
        }
        let records = (bytes.len() / 12) as u32;
        if shown != if opened.number == 0 { records } else { 0 } {
            differ("the records of a view", format!("table {}\n{shown}", hex(bytes)));
        }
        if opened.number == 0 && [0, 1, 512].contains(&shown) {
            self.counts.met("records viewed", shown);
        }
        for _ in 0..8 {
            let number = d.pick(&[0, 0, 0, 0, 1, 21, 22, u32::MAX, d.0 as u32]);
            let at = match d.below(4) {
                0 => d.next() as u32,
                1 => d.below(600) as u32,
                2 => (records + d.below(3) as u32).wrapping_sub(1),
                _ => d.pick(&[0, 511, 512, 513, 0x1555_5555, 0x1555_5556, 1 << 31, u32::MAX - 1, u32::MAX]),
            };
            self.look(&table, &mut [number, at]);
        }
        if !table.untouched() {
            differ("a view", format!("table {} was written to", hex(bytes)));
        }
    }

    /// Shows and steps on both sides; whether there was a record.
    fn look(&mut self, table: &Lent, view: &mut model::View) -> bool {
        let given = View { number: view[0], at: view[1] };
        let r = unsafe { uss_view_show(table.at, table.len, given) };
        let next = unsafe { uss_view_step(table.at, table.len, given) };
        let shown = [r.there, r.parameter, r.is_double, r.is_signed, r.writable, r.elements, r.minimum, r.maximum];
        let want = (model::view_show(&table.given, *view), model::view_step(&table.given, *view));
        if (shown, [next.number, next.at]) != want {
            differ("uss_view_show, uss_view_step", format!(
                "table {}\nview {view:?}: {shown:X?} {} {}, expected {want:X?}", hex(&table.given), next.number, next.at
            ));
        }
        *view = want.1;
        self.counts.met("view show", r.there);
        self.counts.met("view step", (next.at != given.at) as u32);
        r.there == 1
    }
}

fn figure(b: &mut Bench, what: &'static str, word: u16, reference: u32, f: Figure, want: (u32, u32, u64)) {
    let got = (f.number, f.raw, f.value.to_bits());
    if got != want {
        differ(what, format!("word {word:04X}, reference {reference}: {got:X?}, not {want:X?}"));
    }
    b.counts.met(what, f.number);
}

fn hertz(b: &mut Bench, word: u16, reference: u32) {
    figure(b, "show hertz", word, reference, unsafe { uss_show_hertz(word, reference) }, model::figure(Unit::Hertz, word, reference));
}

/// Every word as each unit; as hertz at the ends of the reference, beside them, and within.
fn figures(b: &mut Bench) {
    for word in 0..=u16::MAX {
        for reference in [0, 1, 50, 60, 400, 649, 650, 651, u32::MAX] {
            hertz(b, word, reference);
        }
        figure(b, "show percent", word, 0, unsafe { uss_show_percent(word) }, model::figure(Unit::Percent, word, 0));
        figure(b, "show raw", word, 0, unsafe { uss_show_raw(word) }, model::figure(Unit::Raw, word, 0));
    }
}

fn any_room(d: &mut Dice) -> usize {
    match d.below(16) {
        0 => d.pick(&[0, 1, 16, 64, 128, 254, 255]),
        1 => 257 + d.below(300) as usize,
        _ => 256,
    }
}

// ---- rounds

/// A drive and a run of telegrams to it, each on what the one before left.
fn sequence(b: &mut Bench, d: &mut Dice) {
    let mut drive = any_drive(d);
    let rounds = if drive.records.len() > 50 { 3 } else { 1 + d.below(30) };
    for _ in 0..rounds {
        let telegram = any_telegram(d, &drive);
        let room = any_room(d);
        b.slave(d, &mut drive, &telegram, room);
        if d.one_in(3) {
            b.list(d, &telegram);
        }
    }
}

/// A master that asks, the drive, and the master that reads, each the library's.
fn conversation(b: &mut Bench, d: &mut Dice) {
    let mut drive = any_drive(d);
    for _ in 0..1 + d.below(20) {
        let s = drive.setup;
        let mut task = any_task(d, &drive);
        polish(d, s, &mut task);
        let room = any_room(d);
        let Some(telegram) = b.build_task(d, s, &task, room) else { continue };
        let room = any_room(d);
        let reply = b.slave(d, &mut drive, &telegram, room);
        b.read_reply(d, s, &task, &reply);
        let other = damage_reply(d, s, &reply);
        b.read_reply(d, s, &task, &other);
        if d.one_in(8) {
            let another = any_task(d, &drive);
            b.read_reply(d, s, &another, &reply);
        }
        b.list(d, &reply);
    }
}

/// Mostly makes a task expressible.
fn polish(d: &mut Dice, s: Setup, t: &mut Task) {
    for k in s.pzd as usize..4 {
        if !d.one_in(20) {
            t.process.w[k] = 0;
        }
    }
    if !d.one_in(20) {
        match t.task {
            1 | 6 | 9 => t.value = 0,
            2 | 7 | 12 | 14 => t.value &= 0xFFFF,
            0 => {
                t.parameter = 0;
                t.index = 0;
                t.value = 0;
            }
            _ => {}
        }
        if s.pkw == 0 {
            *t = Task { task: 0, parameter: 0, index: 0, value: 0, ..*t };
        }
    }
}

/// A reply with one thing about it changed and its check character right, or damaged.
fn damage_reply(d: &mut Dice, s: Setup, reply: &[u8]) -> Vec<u8> {
    if reply.len() < 5 || d.one_in(6) {
        return if reply.is_empty() { vec![] } else { damage_telegram(d, reply.to_vec()) };
    }
    let mut net = reply[3..reply.len() - 1].to_vec();
    let mut adr = reply[2];
    if s.pkw == 0 {
        let k = d.below(net.len() as u64) as usize;
        net[k] ^= 1 << d.below(8);
        return model::seal(adr, &net);
    }
    match d.below(9) {
        0 => net[0] = net[0] & 15 | (d.below(16) as u8) << 4,
        1 => net[0] ^= 8,
        2 => net[2] ^= 1 << d.below(4),
        3 => net[d.below(4) as usize] ^= 1 << d.below(8),
        4 => {
            // no right, with and without a value behind it
            net[0] = net[0] & 15 | 0x80;
            if !d.one_in(3) {
                let end = 2 * s.pkw.min(4) as usize;
                net[4..end].fill(0);
            }
        }
        5 => net[4] ^= 1 << d.below(8),
        6 => adr ^= 1 << d.below(8),
        _ => {
            let k = d.below(net.len() as u64) as usize;
            net[k] = d.next() as u8;
        }
    }
    model::seal(adr, &net)
}

/// Requests of every kind, and what the slave makes of them.
fn orders(b: &mut Bench, d: &mut Dice) {
    let mut drive = any_drive(d);
    let s = drive.setup;
    for _ in 0..4 {
        let n = match d.below(6) {
            0 => d.pick(&[0, 1, 252, 253, 256, 500]),
            _ => d.below(253),
        };
        let net = d.bytes(n as usize);
        let room = any_room(d);
        if let Some(t) = b.build_mirror(d, s, &net, room) {
            b.slave(d, &mut drive, &t, 256);
            b.list(d, &t);
        }
        let selector = if d.one_in(4) { d.word() } else { d.pick(&[2, 6, 6, 6, 0, 4, 3, 7, 10, 14, 22]) };
        let area = [selector, d.word() | if d.one_in(6) { 0 } else { 0x400 }, d.word()];
        let mut process = d.words();
        process.w[0] |= if d.one_in(6) { 0 } else { 0x400 };
        for k in s.pzd as usize..4 {
            if !d.one_in(10) {
                process.w[k] = 0;
            }
        }
        let room = any_room(d);
        if let Some(t) = b.build_broadcast(d, s, area, process, room) {
            b.slave(d, &mut drive, &t, 256);
            b.list(d, &t);
        }
        let task = Task {
            task: if d.one_in(10) { d.next() as u8 } else { d.below(16) as u8 },
            parameter: d.pick(&[0, 1, 1999, 2000, 31999, 32000, 65535, d.0 as u16]),
            index: d.pick(&[0, 1, 2, 254, 255]),
            value: d.pick(&[0, 0, 1, 65535, 65536, u32::MAX]),
            process,
        };
        let room = any_room(d);
        b.build_task(d, s, &task, room);
        let telegram = any_telegram(d, &drive);
        b.read_reply(d, s, &task, &telegram);
    }
}

/// A table and its values, mostly with a slip or two.
fn slips(b: &mut Bench, d: &mut Dice) {
    let Drive { records, mut table, mut values, .. } = any_drive(d);
    for _ in 0..d.below(3) {
        if d.one_in(3) {
            damage_values(d, &records, &mut values);
        } else if table.len() == 12 * records.len() {
            damage_table(d, &records, &mut table, &mut values);
        }
    }
    b.check_table(d, &table, &values);
}

/// A table, good or with a slip: lists of right and wrong lengths filled from it, and views of it.
fn tables(b: &mut Bench, d: &mut Dice) {
    let Drive { mut records, mut table, mut values, .. } = any_drive(d);
    if d.one_in(30) {
        let count = d.pick(&[0, 1, 512]);
        records = records_of(d, count);
        table = records.iter().flat_map(|r| r.bytes(0)).collect();
    } else if table.len() == 12 * records.len() && d.one_in(8) {
        damage_table(d, &records, &mut table, &mut values);
    }
    let whole = table.len() / 12;
    b.fill(d, &table, whole);
    let count = match d.below(4) {
        0 => whole + 1,
        1 => whole.saturating_sub(1),
        2 => 0,
        _ => d.below(520) as usize,
    };
    b.fill(d, &table, count);
    b.view(d, &table);
}

/// A line of items from any state and page, cut into calls in any way, with what was not taken fed again: what is handed out, the end
/// state and the page are those of the whole list.
fn line(b: &mut Bench, d: &mut Dice) {
    let room = match d.below(8) {
        0 => d.below(300) as usize,
        1..=3 => 256,
        _ => d.pick(&ROOMS),
    };
    let (given, first_page) = any_start(d, room);
    let items = any_items(d, room, given > 1);
    let want = model::receive(given, &first_page, &items);
    let (mut state, mut page) = (given, first_page.clone());
    let (mut at, mut telegrams, way) = (0, vec![], d.below(4));
    loop {
        let rest = &items[at..];
        let run = rest.iter().take_while(|item| **item < 256).count();
        let most = d.pick(&[1, 2, 4, 16, 300]);
        let n = match way {
            0 => rest.len(),
            1 => 1,
            2 => d.below(most + 1) as usize,
            _ => run.max(1),
        };
        let part = &rest[..n.min(rest.len())];
        let by = match part {
            _ if way != 3 && d.one_in(2) => By::Items,
            [item] if *item > 255 => By::Pause,
            _ if part.len() <= run => By::Bytes,
            _ => By::Items,
        };
        let r = b.receive(d, by, state, &mut page, part);
        state = r.receiver.state;
        at += r.taken as usize;
        if r.length > 0 {
            telegrams.push((at, page[..r.length as usize].to_vec()));
        } else if rest.is_empty() {
            break;
        }
    }
    if telegrams != want.telegrams || state != want.state || page != want.page {
        differ("the receiver over a whole line", format!(
            "state {given}, page of {room} {}\nitems {items:X?}\nhanded out {telegrams:X?}\nexpected {:X?}\nstate {state}, expected {}\npage {}\nexpected {}",
            hex(&first_page), want.telegrams, want.state, hex(&page), hex(&want.page)
        ));
    }
    for (_, telegram) in &telegrams {
        // a receiver that starts disarmed or armed hands out nothing that is refused with 10 to 13
        if given <= 1 && matches!(model::frame(telegram), Err(10..=13)) {
            differ("what the receiver hands out", hex(telegram));
        }
        if [3, 4, 253, 254].contains(&telegram[1]) {
            b.counts.met("LGE handed out", telegram[1] as u32);
        }
    }
    if ROOMS.contains(&room) {
        b.counts.met("receiver's page", room as u32);
    }
}

fn main() {
    let args: Vec<u64> = std::env::args().skip(1).map(|a| a.parse().expect("a number")).collect();
    let seed = args.first().copied().unwrap_or(20240601);
    let rounds = args.get(1).copied().unwrap_or(100_000);
    println!("seed {seed}, rounds {rounds}");
    let mut d = Dice(seed);
    let mut b = Bench {
        table: Arena::new(3),
        values: Arena::new(6),
        places: Arena::new(2),
        received: Arena::new(2),
        out: Arena::new(2),
        counts: Counts::default(),
        lists: Dice(seed.rotate_left(32)),
        items: 0,
    };
    figures(&mut b);
    let mut lines = Dice(!seed);
    for _ in 0..rounds {
        line(&mut b, &mut lines);
        let reference = if lines.one_in(9) { lines.next() as u32 } else { lines.below(655) as u32 };
        hertz(&mut b, lines.word(), reference);
        sequence(&mut b, &mut d);
        conversation(&mut b, &mut d);
        orders(&mut b, &mut d);
        slips(&mut b, &mut d);
        tables(&mut b, &mut lines);
        for _ in 0..4 {
            let n = d.below(320) as usize;
            let bytes = d.bytes(n);
            b.list(&mut d, &bytes);
            b.bcc(&mut d);
        }
    }
    let c = &b.counts;
    let receiving: u64 = ["receive", "receive bytes", "pause"].iter().map(|w| c.total(w)).sum();
    let showing: u64 = ["show hertz", "show percent", "show raw"].iter().map(|w| c.total(w)).sum();
    let viewing: u64 = ["view open", "view show", "view step"].iter().map(|w| c.total(w)).sum();
    let others = ["slave answer", "listed answer", "build task", "build mirror", "build broadcast", "read", "list", "bcc", "rule", "fill"];
    let calls: u64 = receiving + showing + viewing + others.iter().map(|w| c.total(w)).sum::<u64>();
    println!("calls {calls}, of them {} of the slave", c.total("slave answer"));
    println!(
        "lists: calls of the slave with a list {}, of them {} with a wrong one after 22; lists filled {}; views: calls {viewing}",
        c.total("listed answer"), c.total("wrong list"), c.count("fill", 0)
    );
    println!("figures: calls {showing}, each of 65536 words at 9 references, as percent and raw, and random pairs");
    let handed_out = c.count("receive", 3) + c.count("receive bytes", 3);
    println!("receiver: items {}, calls {receiving}, telegrams handed out {handed_out}", b.items);
    // floors hold for the default number of rounds and scale with it
    let floor = 1000 * rounds / 100_000;
    let mut good = true;
    good &= c.report("slave answer", &[0, 1, 2, 10, 11, 12, 13, 14, 15, 16, 17, 18, 20, 21, 22, 23], floor);
    good &= c.report("listed answer", &[0, 1, 2, 10, 11, 12, 13, 14, 15, 16, 17, 18, 20, 21, 22, 23, 25], floor);
    // an entry off by one: the first, one in the middle, the last; one place short, one too many, none; any other
    good &= c.report("wrong list", &(FIRST..=OTHER).collect::<Vec<u32>>(), floor);
    good &= c.report("task in a reply", &(0..16).collect::<Vec<u32>>(), floor);
    good &= c.report("reply ID", &[0, 1, 2, 4, 5, 6, 7], floor);
    good &= c.report("parameter error", &[0, 1, 2, 3, 4, 5, 102, 106], floor);
    // the index counts in every read and change, and in these alone: no error 3 or 4 in task 9, which runs at any index, as task 0 does
    let indexed = [1, 2, 3, 6, 7, 8, 11, 12, 13, 14];
    good &= c.report("error 3 by task", &indexed, floor);
    good &= c.report("error 4 by task", &indexed, floor);
    good &= c.report("index by task", &[&indexed[..], &[0, 9]].concat(), floor);
    good &= c.report("values changed", &[1], floor);
    good &= c.report("build task", &[0, 30, 31, 32], floor);
    good &= c.report("build mirror", &[0, 30, 31, 32], floor);
    good &= c.report("build broadcast", &[0, 30, 31, 32], floor);
    good &= c.report("read", &[0, 10, 11, 12, 13, 14, 15, 16, 17, 30, 31, 33], floor);
    good &= c.report("read ID", &[0, 1, 2, 4, 5, 6, 7, 8], floor);
    good &= c.report("list", &[0, 1, 2, 10, 11, 12, 13, 14, 15, 99], floor);
    good &= c.report("bcc", &[0], floor);
    good &= c.report("rule", &(0..12).collect::<Vec<u32>>(), floor);
    good &= c.report("fill", &[0, 21, 25], floor);
    good &= c.report("view open", &[0, 21], floor);
    good &= c.report("records viewed", &[0, 1, 512], floor);
    // 1: there was a record; the view went on
    good &= c.report("view show", &[0, 1], floor);
    good &= c.report("view step", &[0, 1], floor);
    // the state left: 0 disarmed, 1 armed, 2 inside a telegram; 3: a telegram was handed out
    good &= c.report("receive", &[0, 1, 2, 3], floor);
    good &= c.report("receive bytes", &[0, 1, 2, 3], floor);
    good &= c.report("pause", &[1], floor);
    good &= c.report("LGE handed out", &[3, 4, 253, 254], floor);
    good &= c.report("receiver's page", &ROOMS.map(|room| room as u32), floor);
    good &= c.report("show hertz", &[0, 50], 3 * 65536);
    good &= c.report("show percent", &[0], 65536);
    good &= c.report("show raw", &[0], 65536);
    if b.items < 1_000_000 && rounds >= 100_000 {
        println!("fewer than a million items");
        good = false;
    }
    if calls < 1_000_000 && rounds >= 100_000 {
        println!("fewer than a million calls");
        good = false;
    }
    if !good {
        exit(1);
    }
    println!("no difference");
}
