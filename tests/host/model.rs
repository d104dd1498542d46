//! Document 01, and the requests of document 02 that have landed, a second time, written from their text alone, to compare the library
//! with. Everything is plain and slow.

#[repr(C)]
#[derive(Clone, Copy, PartialEq, Eq, Debug)]
pub struct Setup {
    pub node: u8,
    pub pkw: u8,
    pub pzd: u8,
}

#[repr(C)]
#[derive(Clone, Copy, PartialEq, Eq, Debug, Default)]
pub struct Words {
    pub w: [u16; 4],
}

/// What a slave call has to leave.
#[derive(PartialEq, Eq, Debug)]
pub struct Served {
    pub number: u32,
    pub reply: Vec<u8>,
    pub control: Words,
    /// The parameter error in the reply, where it has one.
    pub error: Option<u32>,
}

/// What a reading has to give.
#[derive(PartialEq, Eq, Debug)]
pub struct Read {
    pub number: u32,
    pub id: u32,
    pub value: u32,
    pub process: Words,
}

#[derive(Clone, Copy, Debug)]
pub struct Task {
    pub task: u8,
    pub parameter: u16,
    pub index: u8,
    pub value: u32,
    pub process: Words,
}

// ---- frame

pub fn bcc(bytes: &[u8]) -> u8 {
    bytes.iter().fold(0, |sum, byte| sum ^ byte)
}

/// 10 to 14; the net bytes where none applies.
pub fn frame(t: &[u8]) -> Result<&[u8], u32> {
    if t.len() < 5 {
        return Err(10);
    }
    if t[0] != 0x02 {
        return Err(11);
    }
    if !(3..=254).contains(&t[1]) {
        return Err(12);
    }
    if t.len() != t[1] as usize + 2 {
        return Err(13);
    }
    let (body, last) = t.split_at(t.len() - 1);
    if bcc(body) != last[0] {
        return Err(14);
    }
    Ok(&body[3..])
}

pub fn seal(adr: u8, net: &[u8]) -> Vec<u8> {
    let mut t = vec![0x02, net.len() as u8 + 2, adr];
    t.extend_from_slice(net);
    t.push(bcc(&t));
    t
}

pub fn words_of(net: &[u8]) -> Vec<u16> {
    net.chunks(2).map(|c| u16::from_be_bytes([c[0], c[1]])).collect()
}

pub fn bytes_of(words: &[u16]) -> Vec<u8> {
    words.iter().flat_map(|w| w.to_be_bytes()).collect()
}

pub fn setup_good(s: Setup) -> bool {
    s.node <= 31 && [0, 3, 4].contains(&s.pkw) && s.pzd <= 4 && s.pkw + s.pzd > 0
}

// ---- table

pub struct Record {
    pub number: u32,
    pub double: bool,
    pub signed: bool,
    pub writable: bool,
    pub elements: u32,
    pub min: u32,
    pub max: u32,
}

impl Record {
    fn amount(&self, raw: u32) -> i64 {
        match (self.double, self.signed) {
            (true, true) => raw as i32 as i64,
            (true, false) => raw as i64,
            (false, true) => raw as u16 as i16 as i64,
            (false, false) => raw as u16 as i64,
        }
    }

    pub fn places(&self) -> usize {
        self.elements.max(1) as usize
    }

    pub fn takes(&self, raw: u32) -> bool {
        let amount = self.amount(raw);
        (self.double || raw <= 0xFFFF) && self.amount(self.min) <= amount && amount <= self.amount(self.max)
    }

    pub fn bytes(&self, spare: u32) -> Vec<u8> {
        let head = self.number << 17
            | (self.double as u32) << 16
            | (self.signed as u32) << 15
            | (self.writable as u32) << 14
            | self.elements << 6
            | spare;
        [head.to_be_bytes(), self.min.to_be_bytes(), self.max.to_be_bytes()].concat()
    }
}

/// A record's 12 bytes taken apart, and its spare bits.
fn take_apart(c: &[u8]) -> (Record, u32) {
    let long = |at: usize| u32::from_be_bytes([c[at], c[at + 1], c[at + 2], c[at + 3]]);
    let head = long(0);
    let r = Record {
        number: head >> 17,
        double: head >> 16 & 1 == 1,
        signed: head >> 15 & 1 == 1,
        writable: head >> 14 & 1 == 1,
        elements: head >> 6 & 255,
        min: long(4),
        max: long(8),
    };
    (r, head & 63)
}

/// The records of a table, or none where it breaks a rule.
pub fn records(table: &[u8]) -> Option<Vec<Record>> {
    if table.len() % 12 != 0 || table.len() / 12 > 512 {
        return None;
    }
    let mut found: Vec<Record> = Vec::with_capacity(table.len() / 12);
    for c in table.chunks(12) {
        let (r, spare) = take_apart(c);
        let rising = found.last().map_or(true, |before| before.number < r.number);
        let upper = !r.double && (r.min > 0xFFFF || r.max > 0xFFFF);
        if spare != 0 || !rising || r.number > 31999 || r.elements > 254 || upper || r.amount(r.min) > r.amount(r.max) {
            return None;
        }
        found.push(r);
    }
    if found.iter().map(Record::places).sum::<usize>() > 4096 {
        return None;
    }
    Some(found)
}

fn values_good(records: &[Record], values: &[u32]) -> bool {
    let limits: Vec<&Record> = records.iter().flat_map(|r| std::iter::repeat(r).take(r.places())).collect();
    limits.len() == values.len() && limits.iter().zip(values).all(|(r, v)| r.takes(*v))
}

/// The first rule that a table and its values break, in the order of docs/TABLES.md: the answer's number, the rule, the record and the
/// value's place; all 0 where none is broken.
pub fn check_table(table: &[u8], values: &[u32]) -> [u32; 4] {
    let whole = table.len() / 12;
    if table.len() % 12 != 0 {
        return [21, 1, whole.min(512) as u32, 0];
    }
    if whole > 512 {
        return [21, 2, 512, 0];
    }
    let found: Vec<(Record, u32)> = table.chunks(12).map(take_apart).collect();
    let mut owners: Vec<usize> = vec![];
    for (k, (r, spare)) in found.iter().enumerate() {
        owners.resize(owners.len() + r.places(), k);
        let rules = [
            (3, k > 0 && r.number <= found[k - 1].0.number),
            (4, r.number > 31999),
            (5, r.elements > 254),
            (6, *spare != 0),
            (7, !r.double && r.min.max(r.max) > 0xFFFF),
            (8, r.amount(r.min) > r.amount(r.max)),
            (9, owners.len() > 4096),
        ];
        if let Some((rule, _)) = rules.iter().find(|(_, broken)| *broken) {
            return [21, *rule, k as u32, 0];
        }
    }
    if owners.len() != values.len() {
        return [22, 10, whole as u32, owners.len() as u32];
    }
    match (0..values.len()).find(|place| !found[owners[*place]].0.takes(values[*place])) {
        Some(place) => [22, 11, owners[place] as u32, place as u32],
        None => [0; 4],
    }
}

// ---- first places, and views of a table (document 02, W-205)

/// One place for each record: how many places the records before it have in all.
pub fn first_places(records: &[Record]) -> Vec<u16> {
    let (mut before, mut found) = (0, vec![]);
    for r in records {
        found.push(before as u16);
        before += r.places();
    }
    found
}

/// The list that filling writes, for a lent list of `count` places; or 21, or 25.
pub fn fill_places(table: &[u8], count: usize) -> Result<Vec<u16>, u32> {
    let found = records(table).ok_or(21u32)?;
    if found.len() == count { Ok(first_places(&found)) } else { Err(25) }
}

/// A view's number and the record that it stands at.
pub type View = [u32; 2];

pub fn view_open(table: &[u8]) -> View {
    [if records(table).is_some() { 0 } else { 21 }, 0]
}

/// The record that a view stands at, by its place among the whole records of the table, of which there are at most 512.
fn viewed(table: &[u8], view: View) -> Option<Record> {
    let mut whole = table.chunks_exact(12).take(512);
    if view[0] != 0 { None } else { whole.nth(view[1] as usize).map(|c| take_apart(c).0) }
}

/// There, number, double, signed, writable, elements, minimum, maximum; all 0 where there is none.
pub fn view_show(table: &[u8], view: View) -> [u32; 8] {
    viewed(table, view).map_or([0; 8], |r| {
        [1, r.number, r.double as u32, r.signed as u32, r.writable as u32, r.elements, r.min, r.max]
    })
}

pub fn view_step(table: &[u8], view: View) -> View {
    if viewed(table, view).is_some() { [0, view[1] + 1] } else { view }
}

// ---- tasks

#[derive(Clone, Copy, PartialEq, Eq)]
enum Act {
    Read,
    Word,
    Double,
    Count,
    None,
}

/// Act, and whether the reply has an element's ID, 4 or 5.
fn act(task: u16) -> (Act, bool) {
    match task {
        1 => (Act::Read, false),
        6 => (Act::Read, true),
        2 | 14 => (Act::Word, false),
        7 | 12 => (Act::Word, true),
        3 | 13 => (Act::Double, false),
        8 | 11 => (Act::Double, true),
        9 => (Act::Count, false),
        _ => (Act::None, false),
    }
}

pub fn page_of(ind: u16) -> u32 {
    [(15, 1), (14, 8), (13, 4), (12, 2)].iter().map(|(bit, weight)| (ind >> bit & 1) as u32 * weight).sum()
}

/// IND's page bits for a page.
pub fn nibble_of(page: u32) -> u16 {
    (0..16).find(|n| page_of(n << 12) == page).unwrap()
}

/// A value in its words, behind PKE and IND.
fn with_value(pkw: u8, pke: u16, ind: u16, double: bool, value: u32) -> Vec<u16> {
    let low = value as u16;
    match (pkw, double) {
        (3, _) => vec![pke, ind, low],
        (_, false) => vec![pke, ind, 0, low],
        (_, true) => vec![pke, ind, (value >> 16) as u16, low],
    }
}

/// The reply's area, and the error in it; a change is made in `values`.
fn perform(area: &[u16], records: &[Record], values: &mut [u32]) -> (Vec<u16>, Option<u32>) {
    let pkw = area.len() as u8;
    let task = area[0] >> 12;
    if task == 0 {
        return (vec![0; area.len()], None);
    }
    let base = area[0] & 0x7FF;
    let index = (area[1] & 0xFF) as u32;
    let reply = |id: u16, double: bool, value: u32| with_value(pkw, id << 12 | base, area[1] & 0xF0FF, double, value);
    let fail = |error: u32| (reply(7, false, error), Some(error));

    let number = 2000 * page_of(area[1]) + base as u32;
    let mut first = 0;
    let mut named = None;
    for r in records {
        if base < 2000 && r.number == number {
            named = Some(r);
            break;
        }
        first += r.places();
    }
    let Some(r) = named else { return fail(0) };
    let (act, element_id) = act(task);
    let by_index = act != Act::Count; // in plain tasks too: document 02, W-203
    let change = act == Act::Word || act == Act::Double;
    if act == Act::None {
        return fail(106);
    }
    if by_index && r.elements == 0 && index > 1 {
        return fail(4);
    }
    if by_index && r.elements != 0 && index >= r.elements {
        return fail(3);
    }
    if change && r.double != (act == Act::Double) {
        return fail(5);
    }
    if r.double && pkw == 3 && act != Act::Count {
        return fail(102);
    }
    let value = match (pkw, act) {
        (3, _) => area[2] as u32,
        (_, Act::Double) => (area[2] as u32) << 16 | area[3] as u32,
        _ => area[3] as u32,
    };
    if change && !r.writable {
        return fail(1);
    }
    if change && !r.takes(value) {
        return fail(2);
    }
    let place = first + if by_index && r.elements != 0 { index as usize } else { 0 };
    if act == Act::Count {
        return (reply(6, false, r.places() as u32), None);
    }
    if change {
        values[place] = value;
    }
    let id = if element_id { 4 } else { 1 } + r.double as u16;
    (reply(id, r.double, values[place]), None)
}

// ---- slave

/// Whether a broadcast with these words is void.
fn void(s: Setup, net: &[u16]) -> bool {
    let (pkw, pzd) = (s.pkw as usize, s.pzd as usize);
    if pkw == 0 || pzd == 0 {
        return true;
    }
    let selector = net[0];
    selector & 2 == 0
        || net[1] & 0x400 == 0
        || net[pkw] & 0x400 == 0
        || selector & !6 != 0
        || selector & 4 != 0 && pzd < 2
        || pkw == 4 && net[3] != 0
}

/// With a list, where one is lent.
pub fn slave(
    s: Setup,
    table: &[u8],
    values: &mut [u32],
    list: Option<&[u16]>,
    control: Words,
    status: Words,
    received: &[u8],
    room: usize,
) -> Served {
    let refuse = |number: u32| Served { number, reply: vec![], control, error: None };
    if !setup_good(s) {
        return refuse(20);
    }
    let Some(records) = records(table) else { return refuse(21) };
    if !values_good(&records, values) {
        return refuse(22);
    }
    if list.map_or(false, |places| places != first_places(&records)) {
        return refuse(25);
    }
    if room < 256 {
        return refuse(23);
    }
    let net = match frame(received) {
        Ok(net) => net,
        Err(number) => return refuse(number),
    };
    let adr = received[2];
    let (mirror, broadcast) = (adr & 0x40 != 0, adr & 0x20 != 0);
    if adr & 0x80 != 0 || mirror && broadcast {
        return refuse(15);
    }
    if !broadcast && adr & 0x1F != s.node {
        return refuse(16);
    }
    if mirror {
        return Served { number: 1, reply: received.to_vec(), control, error: None };
    }
    let (pkw, pzd) = (s.pkw as usize, s.pzd as usize);
    if net.len() != 2 * (pkw + pzd) {
        return refuse(17);
    }
    let net = words_of(net);
    let mut next = control;
    if broadcast {
        if void(s, &net) {
            return refuse(18);
        }
        for k in 0..2 {
            if net[0] >> (k + 1) & 1 == 1 {
                let mask = net[1 + k];
                next.w[k] = control.w[k] & !mask | net[pkw + k] & mask;
            }
        }
        return Served { number: 2, reply: vec![], control: next, error: None };
    }
    let (area, error) = if pkw == 0 { (vec![], None) } else { perform(&net[..pkw], &records, values) };
    if pzd > 0 && net[pkw] >> 10 & 1 == 1 {
        next.w[..pzd].copy_from_slice(&net[pkw..]);
    }
    let reply = seal(s.node, &bytes_of(&[&area[..], &status.w[..pzd]].concat()));
    Served { number: 0, reply, control: next, error }
}

// ---- master

fn askable(s: Setup, t: &Task) -> bool {
    let unused = t.process.w[s.pzd as usize..].iter().all(|w| *w == 0);
    let (act, _) = act(t.task as u16);
    let good = if t.task == 0 {
        t.parameter == 0 && t.index == 0 && t.value == 0
    } else {
        let carries = match act {
            Act::Read | Act::Count => t.value == 0,
            Act::Word => t.value <= 65535,
            Act::Double => s.pkw != 3,
            Act::None => false,
        };
        s.pkw != 0 && t.parameter <= 31999 && t.index <= 254 && carries
    };
    good && unused
}

pub type Built = Result<Vec<u8>, u32>;

fn build(s: Setup, expressible: impl Fn() -> bool, room: usize, telegram: impl Fn() -> Vec<u8>) -> Built {
    if !setup_good(s) {
        Err(30)
    } else if !expressible() {
        Err(31)
    } else if room < 256 {
        Err(32)
    } else {
        Ok(telegram())
    }
}

fn task_head(t: &Task) -> (u16, u16) {
    let (page, base) = (t.parameter as u32 / 2000, t.parameter % 2000);
    ((t.task as u16) << 12 | base, nibble_of(page) << 12 | t.index as u16)
}

pub fn build_task(s: Setup, t: &Task, room: usize) -> Built {
    build(s, || askable(s, t), room, || {
        let (pke, ind) = task_head(t);
        let double = act(t.task as u16).0 == Act::Double;
        let area = if s.pkw == 0 { vec![] } else { with_value(s.pkw, pke, ind, double, t.value) };
        seal(s.node, &bytes_of(&[&area[..], &t.process.w[..s.pzd as usize]].concat()))
    })
}

pub fn build_mirror(s: Setup, net: &[u8], room: usize) -> Built {
    build(s, || (1..=252).contains(&net.len()), room, || seal(s.node | 0x40, net))
}

pub fn build_broadcast(s: Setup, selector: u16, mask1: u16, mask2: u16, process: Words, room: usize) -> Built {
    let net = || {
        let area = [selector, mask1, mask2, 0];
        [&area[..s.pkw as usize], &process.w[..s.pzd as usize]].concat()
    };
    let expressible = || s.pkw != 0 && !void(s, &net()) && process.w[s.pzd as usize..].iter().all(|w| *w == 0);
    build(s, expressible, room, || seal(0x20, &bytes_of(&net())))
}

pub fn read_reply(s: Setup, t: &Task, received: &[u8]) -> Read {
    let refuse = |number: u32| Read { number, id: 0, value: 0, process: Words::default() };
    if !setup_good(s) {
        return refuse(30);
    }
    if !askable(s, t) {
        return refuse(31);
    }
    let net = match frame(received) {
        Ok(net) => net,
        Err(number) => return refuse(number),
    };
    if received[2] & 0xE0 != 0 {
        return refuse(15);
    }
    if received[2] != s.node {
        return refuse(16);
    }
    let (pkw, pzd) = (s.pkw as usize, s.pzd as usize);
    if net.len() != 2 * (pkw + pzd) {
        return refuse(17);
    }
    let net = words_of(net);
    let mut process = Words::default();
    process.w[..pzd].copy_from_slice(&net[pkw..]);
    let area = &net[..pkw];
    let empty = Read { number: 0, id: 0, value: 0, process };
    if pkw == 0 {
        return empty;
    }
    if t.task == 0 {
        return if area.iter().all(|w| *w == 0) { empty } else { refuse(33) };
    }
    let id = area[0] >> 12;
    let row: &[u16] = match t.task {
        1 => &[1, 2],
        2 | 14 => &[1],
        3 | 13 => &[2],
        6 => &[4, 5],
        7 | 12 => &[4],
        8 | 11 => &[5],
        _ => &[6],
    };
    let double = id == 2 || id == 5;
    let (pke, ind) = task_head(t);
    let high = if pkw == 4 { area[2] } else { 0 };
    let low = area[pkw - 1];
    if !row.contains(&id) && id != 7 && id != 8
        || double && pkw == 3
        || area[0] & 0xFFF != pke & 0xFFF
        || area[1] != ind
        || !double && high != 0
        || id == 8 && low != 0
    {
        return refuse(33);
    }
    Read { number: 0, id: id as u32, value: (high as u32) << 16 | low as u32, process }
}

// ---- receiver: by the list of all items, and not item by item

/// What a list of items has to leave.
pub struct Heard {
    /// The telegrams handed out, each with the count of items up to its last byte.
    pub telegrams: Vec<(usize, Vec<u8>)>,
    pub state: u32,
    pub page: Vec<u8>,
}

/// What a run of bytes between two pauses comes to: how many of its first bytes are left on the page, whether these are a whole
/// telegram, and the state at its end.
struct Run {
    kept: usize,
    whole: bool,
    state: u32,
}

fn lost(kept: usize) -> Run {
    Run { kept, whole: false, state: 0 }
}

/// The telegram has `length` bytes: the run starts with all of them, or may still get them.
fn so_far(bytes: &[u8], length: usize) -> Run {
    if bytes.len() >= length {
        Run { kept: length, whole: true, state: 0 }
    } else {
        Run { kept: bytes.len(), whole: false, state: 1 + bytes.len() as u32 }
    }
}

/// A run directly after a pause, for a page of `room` bytes.
fn fresh_run(bytes: &[u8], room: usize) -> Run {
    match bytes {
        // the shortest telegram has 5 bytes
        [] | [2] if bytes.len() <= room => so_far(bytes, 5),
        [2, lge, ..] if (3..=254).contains(lge) && *lge as usize + 2 <= room => so_far(bytes, *lge as usize + 2),
        [2, ..] => lost(room.min(1)),
        _ => lost(0),
    }
}

/// A run that goes on with what the page has, `held` bytes, which somebody else may have put there: no byte held is tested again, and
/// an LGE among them that ends no telegram on this page lets the bytes run to the page's end, or to 256.
fn held_run(bytes: &[u8], held: usize, room: usize) -> Run {
    if held == 1 {
        return fresh_run(&[&[2], &bytes[1..]].concat(), room);
    }
    let (length, most) = (bytes[1] as usize + 2, room.min(256));
    if held < length && length <= most {
        so_far(bytes, length)
    } else if bytes.len() > most || bytes.len() == 256 {
        lost(most)
    } else {
        so_far(bytes, usize::MAX)
    }
}

pub fn receive(state: u32, page: &[u8], items: &[u16]) -> Heard {
    let mut heard = Heard { telegrams: vec![], state, page: page.to_vec() };
    let mut first = 0;
    for (k, run) in items.split(|item| *item > 255).enumerate() {
        let held = match state {
            2..=256 if k == 0 => state as usize - 1,
            _ => 0,
        };
        let disarmed = k == 0 && (state == 0 || state > 256 || held > page.len());
        let mut bytes = if disarmed { vec![] } else { heard.page[..held].to_vec() };
        bytes.extend(run.iter().map(|item| *item as u8));
        let found = match held {
            _ if disarmed => lost(0),
            0 => fresh_run(&bytes, page.len()),
            _ => held_run(&bytes, held, page.len()),
        };
        heard.page[..found.kept].copy_from_slice(&bytes[..found.kept]);
        if found.whole {
            heard.telegrams.push((first + found.kept - held, bytes[..found.kept].to_vec()));
        }
        heard.state = found.state;
        first += run.len() + 1;
    }
    heard
}

// ---- figures (document 02, W-204)

pub enum Unit {
    Hertz,
    Percent,
    Raw,
}

/// What a panel shows of a word: the answer's number, the raw word, and the bits of the double.
pub fn figure(unit: Unit, word: u16, reference: u32) -> (u32, u32, u64) {
    let signed = if word < 0x8000 { word as i64 } else { word as i64 - 0x1_0000 };
    match unit {
        Unit::Hertz if reference == 0 || reference > 650 => (50, 0, 0),
        Unit::Hertz => (0, 0, bits_over_16384(signed * reference as i64)),
        Unit::Percent => (0, 0, bits_over_16384(signed * 100)),
        Unit::Raw => (0, word as u32, 0),
    }
}

/// The bits of the double z / 16384, by whole numbers alone: the sign, the power of two of the leading digit, the digits below it.
fn bits_over_16384(z: i64) -> u64 {
    let size = z.unsigned_abs();
    if size == 0 {
        return 0;
    }
    let leading = 63 - size.leading_zeros() as u64;
    let below = size - (1 << leading);
    (z < 0) as u64 * (1 << 63) + (1023 + leading - 14) * (1 << 52) + below * (1 << (52 - leading))
}

// ---- listing

pub fn listing(received: &[u8]) -> String {
    let t = &received[..received.len().min(300)];
    let refused = |number: u32| format!("telegram listing 1\nbytes {} refused {}\n", t.len(), number);
    if let Err(number) = frame(t) {
        return refused(number);
    }
    let kind = match t[2] >> 5 {
        0 => "normal",
        1 => "broadcast",
        2 => "mirror",
        _ => return refused(15),
    };
    let node = t[2] & 31;
    format!("telegram listing 1\nbytes {} lge {} node {node} {kind}\nbcc {}\n", t.len(), t[1], t[t.len() - 1])
}
