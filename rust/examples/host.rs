//! A master and a drive that talk: two changes of a signed word, of which the second is outside its limits. The same talk as
//! `examples/host.rs` of the repository, by this crate.

use uss::{Answer, Content, Request, Setup, Task, Words};

fn main() {
    let setup = Setup { node: 3, pkw: 4, pzd: 2 };
    // parameter 700: a signed word, writable, -100 to 100
    let table = [0x05, 0x78, 0xC0, 0x00, 0, 0, 0xFF, 0x9C, 0, 0, 0, 100];
    let mut values = [0u32];
    let mut control = Words::default();
    let status = Words { w1: 0x0331, w2: 0x2000, ..Words::default() };
    let process = Words { w1: 0x047F, w2: 0x2000, ..Words::default() };

    for value in [-100i16, -101] {
        let request = Request { task: Task::ChangeWord, parameter: 700, index: 0, value: value as u16 as u32, process };
        let mut out = [0u8; uss::BUFFER];
        let telegram = uss::build_task(setup, request, &mut out).expect("it can be asked");
        let mut buffer = [0u8; uss::BUFFER];
        let served = uss::serve(setup, &table, &mut values, control, status, telegram, &mut buffer);
        control = served.control;
        let answer = match served.answer {
            Answer::Replied(_) => 0,
            Answer::Mirrored(_) => 1,
            Answer::Taken => 2,
            Answer::Refused(refusal) => refusal.number(),
        };
        let (number, id, said) = match uss::read_reply(setup, request, served.answer.reply().unwrap_or(&[])) {
            Ok(reply) => match reply.content {
                Content::Word(word) => (0, 1, word as u32),
                Content::Error(error) => (0, 7, error.number()),
                other => panic!("no reply to a change of a word: {other:?}"),
            },
            Err(refusal) => (refusal.number(), 0, 0),
        };
        println!(
            "change to {value}: answer {answer}, reply {number} with ID {id} and {said}; the drive holds {}",
            values[0] as u16 as i16
        );
    }
    println!("control word {:04X}, set point {:04X}", control.w1, control.w2);
}
