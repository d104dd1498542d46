//! Every call through the archive: what goes in comes out where it belongs, and a refusal leaves everything as it was.

use uss::{Answer, Content, ParameterError, Receiver, Record, Refusal, Request, Setup, Task, Words};

const SETUP: Setup = Setup { node: 3, pkw: 4, pzd: 4 };
/// 700: a signed word, writable, -100 to 100. 701: a double, writable, two elements, any value.
const TABLE: [u8; 2 * uss::RECORD] = [
    0x05, 0x78, 0xC0, 0x00, 0, 0, 0xFF, 0x9C, 0, 0, 0, 100, //
    0x05, 0x7B, 0x40, 0x80, 0, 0, 0, 0, 0xFF, 0xFF, 0xFF, 0xFF,
];
const STATUS: Words = Words { w1: 0x0331, w2: 0x0102, w3: 0x0304, w4: 0x0506 };
/// Bit 10 of the first word is set.
const PROCESS: Words = Words { w1: 0x047F, w2: 0x1112, w3: 0x1314, w4: 0x1516 };

/// A whole round: built, served, read.
fn round(task: Task, parameter: u16, index: u8, value: u32, values: &mut [u32]) -> Content {
    let request = Request { task, parameter, index, value, process: PROCESS };
    let (mut out, mut buffer) = ([0; uss::BUFFER], [0; uss::BUFFER]);
    let telegram = uss::build_task(SETUP, request, &mut out).unwrap();
    let (last, before) = telegram.split_last().unwrap();
    assert_eq!(uss::bcc(before), *last);
    let served = uss::serve(SETUP, &TABLE, values, Words::default(), STATUS, telegram, &mut buffer);
    assert_eq!(served.control, PROCESS);
    let read = uss::read_reply(SETUP, request, served.answer.reply().unwrap()).unwrap();
    assert_eq!(read.process, STATUS);
    read.content
}

#[test]
fn each_task_comes_back_as_its_content() {
    let mut values = [5, 6, 7];
    assert_eq!(round(Task::None, 0, 0, 0, &mut values), Content::None);
    assert_eq!(round(Task::Read, 700, 0, 0, &mut values), Content::Word(5));
    assert_eq!(round(Task::Read, 701, 0, 0, &mut values), Content::Double(6));
    assert_eq!(round(Task::ReadElement, 700, 1, 0, &mut values), Content::ElementWord(5));
    assert_eq!(round(Task::ReadElement, 701, 1, 0, &mut values), Content::ElementDouble(7));
    assert_eq!(round(Task::Read, 701, 1, 0, &mut values), Content::Double(7));
    assert_eq!(round(Task::CountElements, 701, 254, 0, &mut values), Content::Elements(2));
    assert_eq!(values, [5, 6, 7]);
    let word = -100i16 as u16;
    assert_eq!(round(Task::ChangeWord, 700, 0, word.into(), &mut values), Content::Word(word));
    assert_eq!(round(Task::SaveElementDouble, 701, 1, u32::MAX, &mut values), Content::ElementDouble(u32::MAX));
    assert_eq!(values, [word.into(), 6, u32::MAX]);
    assert_eq!(round(Task::SaveDouble, 701, 1, 8, &mut values), Content::Double(8));
    assert_eq!(values, [word.into(), 6, 8]);
}

#[test]
fn each_error_comes_back_as_its_case() {
    let mut values = [5, 6, 7];
    let errors = [
        (Task::Read, 699, 0, 0, ParameterError::NoParameter),
        (Task::ReadElement, 701, 2, 0, ParameterError::NoElement),
        (Task::ReadElement, 700, 2, 0, ParameterError::NoArray),
        (Task::ChangeDouble, 701, 2, 0, ParameterError::NoElement),
        (Task::Read, 700, 2, 0, ParameterError::NoArray),
        (Task::ChangeWord, 701, 0, 0, ParameterError::OtherWidth),
        (Task::ChangeWord, 700, 0, 101, ParameterError::OutsideLimits),
    ];
    for (task, parameter, index, value, error) in errors {
        assert_eq!(round(task, parameter, index, value, &mut values), Content::Error(error));
    }
    assert_eq!(values, [5, 6, 7]);
}

#[test]
fn a_reply_without_the_right_to_change_is_read() {
    let request = Request { task: Task::ChangeWord, parameter: 700, ..Request::default() };
    let setup = Setup { pzd: 0, ..SETUP };
    let mut reply = [2, 10, 3, 0x82, 0xBC, 0, 0, 0, 0, 0, 0, 0];
    reply[11] = uss::bcc(&reply[..11]);
    assert_eq!(uss::read_reply(setup, request, &reply).unwrap().content, Content::NoRight);
}

#[test]
fn a_refused_slave_call_leaves_everything() {
    let mut out = [0; uss::BUFFER];
    let change = Request { task: Task::ChangeWord, parameter: 700, value: 9, process: PROCESS, ..Request::default() };
    let good = uss::build_task(SETUP, change, &mut out).unwrap();
    let mut flipped = good.to_vec();
    flipped[9] ^= 1;
    let unfit = Setup { node: 32, ..SETUP };
    let other = Setup { node: 4, ..SETUP };
    let cases = [
        (unfit, &TABLE[..], 3, good, 256, Refusal::BadSetup),
        (SETUP, &TABLE[1..], 3, good, 256, Refusal::BadTable),
        (SETUP, &TABLE[..], 2, good, 256, Refusal::BadValues),
        (SETUP, &TABLE[..], 3, good, 255, Refusal::ShortReply),
        (SETUP, &TABLE[..], 3, &good[..4], 256, Refusal::Short),
        (SETUP, &TABLE[..], 3, &good[1..], 256, Refusal::Start),
        (SETUP, &TABLE[..], 3, &good[..good.len() - 1], 256, Refusal::Count),
        (SETUP, &TABLE[..], 3, &flipped[..], 256, Refusal::Check),
        (other, &TABLE[..], 3, good, 256, Refusal::OtherNode),
    ];
    for (setup, table, places, received, room, refusal) in cases {
        let (mut values, mut reply) = ([5, 6, 7], [0xAA; 256]);
        let served = uss::serve(setup, table, &mut values[..places], PROCESS, STATUS, received, &mut reply[..room]);
        assert_eq!(served.answer, Answer::Refused(refusal));
        assert_eq!(served.answer.reply(), None);
        assert_eq!((served.control, values, reply), (PROCESS, [5, 6, 7], [0xAA; 256]));
    }
}

#[test]
fn a_right_list_leaves_what_no_list_leaves() {
    let mut places = [0xEEEE; 2];
    assert_eq!(uss::fill_places(&TABLE, &mut places), Ok(()));
    assert_eq!(places, [0, 1]);
    for task in [Task::Read, Task::ChangeWord, Task::ChangeDouble, Task::ReadElement, Task::SaveElementDouble, Task::CountElements] {
        for parameter in 699..703 {
            for index in 0..3 {
                let change = !matches!(task, Task::Read | Task::ReadElement | Task::CountElements);
                let request = Request { task, parameter, index, value: if change { 9 } else { 0 }, process: PROCESS };
                let (mut out, mut one, mut other) = ([0; uss::BUFFER], [0xAA; uss::BUFFER], [0xAA; uss::BUFFER]);
                let (mut values, mut others) = ([5, 6, 7], [5, 6, 7]);
                let telegram = uss::build_task(SETUP, request, &mut out).unwrap();
                let listed = uss::serve_listed(SETUP, &TABLE, &mut values, &places, Words::default(), STATUS, telegram, &mut one);
                let served = uss::serve(SETUP, &TABLE, &mut others, Words::default(), STATUS, telegram, &mut other);
                assert!(matches!(listed.answer, Answer::Replied(_)));
                assert_eq!(listed, served);
                assert_eq!((values, one), (others, other));
            }
        }
    }
}

#[test]
fn a_wrong_list_is_refused() {
    let mut out = [0; uss::BUFFER];
    let change = Request { task: Task::ChangeWord, parameter: 700, value: 9, process: PROCESS, ..Request::default() };
    let telegram = uss::build_task(SETUP, change, &mut out).unwrap();
    let wrong: [&[u16]; 6] = [&[], &[0], &[0, 1, 3], &[1, 1], &[0, 0], &[0, 2]];
    for places in wrong {
        let (mut values, mut reply) = ([5, 6, 7], [0xAA; 256]);
        for (count, room, refusal) in [(2, 255, Refusal::BadValues), (3, 255, Refusal::BadPlaces), (3, 256, Refusal::BadPlaces)] {
            let served = uss::serve_listed(SETUP, &TABLE, &mut values[..count], places, PROCESS, STATUS, telegram, &mut reply[..room]);
            assert_eq!((served.answer, served.control), (Answer::Refused(refusal), PROCESS));
        }
        assert_eq!((values, reply), ([5, 6, 7], [0xAA; 256]));
    }
    let mut places = [0xEEEE; 3];
    for count in [0, 1, 3] {
        assert_eq!(uss::fill_places(&TABLE, &mut places[..count]), Err(Refusal::BadPlaces));
        assert_eq!(uss::fill_places(&TABLE[1..], &mut places[..count]), Err(Refusal::BadTable));
    }
    assert_eq!(places, [0xEEEE; 3]);
    assert_eq!(uss::fill_places(&[], &mut []), Ok(()));
}

#[test]
fn a_view_goes_from_record_to_record() {
    let mut view = uss::view(&TABLE).unwrap();
    let first = Record { parameter: 700, double: false, signed: true, writable: true, elements: 0, minimum: 0xFF9C, maximum: 100 };
    let second = Record { parameter: 701, double: true, signed: false, writable: true, elements: 2, minimum: 0, maximum: u32::MAX };
    assert_eq!(view.next(), Some(first));
    assert_eq!(view.clone().count(), 1);
    assert_eq!(view.next(), Some(second));
    assert_eq!((view.next(), view.next()), (None, None));
    assert_eq!(uss::view(&[]).unwrap().next(), None);
    for bytes in [&TABLE[..23], &TABLE[1..], &[0xFF; 12], &[0; 1]] {
        assert_eq!(uss::view(bytes).unwrap_err(), Refusal::BadTable);
    }
}

#[test]
fn a_refused_build_leaves_the_buffer() {
    let mut out = [0xAA; uss::BUFFER];
    let unfit = Setup { pkw: 2, ..SETUP };
    assert_eq!(uss::build_task(unfit, Request::default(), &mut out), Err(Refusal::UnfitSetup));
    assert_eq!(uss::build_task(SETUP, Request { parameter: 1, ..Request::default() }, &mut out), Err(Refusal::NotAskable));
    assert_eq!(uss::build_task(SETUP, Request::default(), &mut out[..255]), Err(Refusal::ShortOut));
    assert_eq!(uss::build_mirror(SETUP, &[], &mut out), Err(Refusal::NotAskable));
    assert_eq!(uss::build_mirror(SETUP, &[0; 253], &mut out), Err(Refusal::NotAskable));
    assert_eq!(uss::build_broadcast(SETUP, 2, 0, 0, PROCESS, &mut out), Err(Refusal::NotAskable));
    assert_eq!(uss::build_broadcast(SETUP, 2, 0x0400, 0, PROCESS, &mut []), Err(Refusal::ShortOut));
    assert_eq!(out, [0xAA; uss::BUFFER]);
}

#[test]
fn the_longest_mirror_telegram_fills_the_buffer() {
    let (mut out, mut buffer) = ([0; uss::BUFFER], [0; uss::BUFFER]);
    let sent = uss::build_mirror(SETUP, &[0x55; 252], &mut out).unwrap();
    assert_eq!((sent.len(), sent[1], sent[2]), (256, 254, 0x43));
    let served = uss::serve(SETUP, &[], &mut [], PROCESS, STATUS, sent, &mut buffer);
    assert_eq!(served.answer, Answer::Mirrored(sent));
    assert_eq!(uss::read_reply(SETUP, Request::default(), sent), Err(Refusal::Address));
}

#[test]
fn a_broadcast_takes_its_masked_bits() {
    let mut out = [0; uss::BUFFER];
    let telegram = uss::build_broadcast(SETUP, 6, 0x0401, 0x00FF, PROCESS, &mut out).unwrap();
    let (control, mut reply) = (Words { w1: 0x8000, w2: 0x2200, w3: 3, w4: 4 }, [0xAA; uss::BUFFER]);
    let served = uss::serve(SETUP, &[], &mut [], control, STATUS, telegram, &mut reply);
    assert_eq!(served.answer, Answer::Taken);
    assert_eq!(served.control, Words { w1: 0x8401, w2: 0x2212, w3: 3, w4: 4 });
    assert_eq!(reply, [0xAA; uss::BUFFER]);
}

#[test]
fn no_listing_is_longer_than_its_buffer() {
    let mut longest = vec![0u8; 255];
    (longest[0], longest[1], longest[2]) = (2, 254, 0x20);
    longest.push(uss::bcc(&longest));
    for bytes in [&[][..], &longest, &[0xFF; 400]] {
        let (mut out, mut short) = ([0; uss::LISTING], [0xAA; uss::LISTING]);
        let text = uss::list(bytes, &mut out).unwrap();
        assert!(text.starts_with(&format!("telegram listing 1\nbytes {} ", bytes.len().min(300))));
        assert_eq!(uss::list(bytes, &mut short[..text.len() - 1]), None);
        assert_eq!(short, [0xAA; uss::LISTING]);
    }
}

/// A pause and the telegram of a read of 700.
fn line() -> Vec<u16> {
    let (mut out, request) = ([0; uss::BUFFER], Request { task: Task::Read, parameter: 700, process: PROCESS, ..Request::default() });
    let telegram = uss::build_task(SETUP, request, &mut out).unwrap();
    [uss::PAUSE].into_iter().chain(telegram.iter().map(|byte| *byte as u16)).collect()
}

#[test]
fn a_received_telegram_is_served() {
    let line = line();
    let (mut page, mut buffer, mut values) = ([0xAA; uss::BUFFER], [0; uss::BUFFER], [5, 6, 7]);
    let received = uss::receive(Receiver::default(), &line, &mut page);
    assert_eq!((received.taken, received.receiver), (line.len(), Receiver::default()));
    let telegram = received.telegram.unwrap();
    assert_eq!(telegram.len(), line.len() - 1);
    let served = uss::serve(SETUP, &TABLE, &mut values, Words::default(), STATUS, telegram, &mut buffer);
    assert!(matches!(served.answer, Answer::Replied(_)));
    assert_eq!(page[line.len() - 1..], [0xAA; uss::BUFFER][line.len() - 1..]);
}

#[test]
fn a_cut_does_not_show() {
    let line = line();
    let bytes: Vec<u8> = line[1..].iter().map(|item| *item as u8).collect();
    for cut in 0..=line.len() {
        let mut page = [0xAA; uss::BUFFER];
        let first = uss::receive(Receiver::default(), &line[..cut], &mut page);
        assert_eq!((first.taken, first.telegram.is_some()), (cut, cut == line.len()));
        let second = uss::receive(first.receiver, &line[cut..], &mut page);
        assert_eq!((second.taken, second.telegram.is_some(), second.receiver), (line.len() - cut, cut < line.len(), Receiver::default()));
        assert_eq!(page[..bytes.len()], bytes[..]);
    }
    for cut in 0..bytes.len() {
        let mut page = [0xAA; uss::BUFFER];
        let first = uss::receive_bytes(uss::pause(Receiver::default()), &bytes[..cut], &mut page);
        assert_eq!((first.taken, first.telegram, first.receiver.state), (cut, None, 1 + cut as u32));
        let second = uss::receive_bytes(first.receiver, &bytes[cut..], &mut page);
        assert_eq!(second.telegram, Some(&bytes[..]));
    }
}

#[test]
fn what_is_no_telegram_is_taken_and_ignored() {
    let line = line();
    let mut page = [0xAA; uss::BUFFER];
    // without a pause, with another first byte, with an LGE that is none
    for wrong in [&line[1..], &[256, 0x55], &[256, 2, 2], &[256, 2, 255], &[65535, 2, 256, 3]] {
        let received = uss::receive(Receiver::default(), wrong, &mut page);
        assert_eq!((received.taken, received.telegram, received.receiver), (wrong.len(), None, Receiver::default()));
    }
    assert_eq!(page[1..], [0xAA; uss::BUFFER][1..]);
    // a page that is one byte too short, and none at all
    let mut short = vec![0xAA; line.len() - 2];
    let received = uss::receive(Receiver::default(), &line, &mut short);
    assert_eq!((received.taken, received.telegram), (line.len(), None));
    assert_eq!(uss::receive(Receiver { state: 1 }, &[2], &mut []).receiver, Receiver::default());
    // numbers that no call gave
    for state in [257, 1 << 31, u32::MAX] {
        assert_eq!(uss::receive(Receiver { state }, &[], &mut page).receiver, Receiver::default());
        assert_eq!(uss::receive_bytes(Receiver { state }, &[2], &mut page).receiver, Receiver::default());
        assert_eq!(uss::pause(Receiver { state }), Receiver { state: 1 });
    }
}

#[test]
fn figures_are_exact() {
    for word in 0..=u16::MAX {
        let signed = word as i16;
        for reference in [1, 50, 60, 650] {
            let shown = uss::show_hertz(word, reference).unwrap();
            assert_eq!(shown * 16384.0, f64::from(signed as i32 * reference as i32));
            assert_eq!(shown.is_sign_negative(), signed < 0, "word {word}");
        }
        assert_eq!(uss::show_percent(word) * 16384.0, f64::from(signed as i32 * 100));
        assert_eq!(uss::show_percent(word).is_sign_negative(), signed < 0, "word {word}");
        assert_eq!(uss::show_raw(word), word.into());
    }
    for reference in [0, 651, 65536 + 50, u32::MAX] {
        assert_eq!(uss::show_hertz(0x4000, reference), Err(Refusal::BadReference));
    }
}
