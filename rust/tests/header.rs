//! The crate says what `include/uss.h` says: calls, structs, numbers, version.

use std::collections::BTreeMap;

use uss::{ParameterError, Refusal, Rule, Task};

const HEADER: &str = include_str!("../../include/uss.h");
const RAW: &str = include_str!("../src/raw.rs");
const LIB: &str = include_str!("../src/lib.rs");

/// The header without its comments and macros, with single blanks.
fn code() -> String {
    let mut text = String::new();
    for (i, part) in HEADER.split("/*").enumerate() {
        text.push_str(if i == 0 { part } else { part.split_once("*/").expect("a comment ends").1 });
    }
    let whole = text.replace("\\\n", " ");
    whole.lines().filter(|line| !line.starts_with('#')).flat_map(str::split_whitespace).collect::<Vec<_>>().join(" ")
}

/// The value of a macro.
fn macro_value(name: &str) -> &'static str {
    let start = format!("#define {name} ");
    HEADER.lines().find_map(|line| line.strip_prefix(start.as_str())).expect(name).trim_matches('"')
}

/// `OtherNode` of `USS_OTHER_NODE`.
fn camel(name: &str) -> String {
    let word = |word: &str| word[..1].to_string() + &word[1..].to_lowercase();
    name.split('_').skip(1).map(word).collect()
}

/// The numbers of an enum with their names in Rust.
fn numbers(name: &str) -> BTreeMap<u32, String> {
    let (code, start) = (code(), format!("enum {name} {{"));
    let body = code.split_once(&start).expect(name).1.split_once('}').expect(name).0;
    body.split(',').map(|row| row.split_once('=').expect(row)).map(|(name, n)| (n.trim().parse().unwrap(), camel(name.trim()))).collect()
}

/// A type of C in Rust.
fn rust_type(c: &str) -> String {
    match c {
        "size_t" => "usize".to_string(),
        "double" => "f64".to_string(),
        c if c.starts_with("uint") => format!("u{}", c.trim_start_matches("uint").trim_end_matches("_t")),
        c => camel(&c.to_uppercase()),
    }
}

/// A parameter of C in Rust.
fn rust_parameter(c: &str) -> String {
    let words: Vec<&str> = c.split(' ').collect();
    match words[..] {
        ["const", of, name] => format!("{}: *const {}", name.trim_start_matches('*'), rust_type(of)),
        [of, name] if name.starts_with('*') => format!("{}: *mut {}", &name[1..], rust_type(of)),
        [of, name] => format!("{name}: {}", rust_type(of)),
        _ => panic!("not understood: {c}"),
    }
}

#[test]
fn calls_are_the_headers() {
    let code = code();
    let declared: Vec<String> = code
        .split(';')
        .filter_map(|part| part.strip_suffix(')').and_then(|part| part.split_once('(')))
        .map(|(head, parameters)| {
            let mut head = head.rsplit(' ');
            let (name, returns) = (head.next().unwrap(), head.next().unwrap());
            let parameters: Vec<String> = parameters.split(", ").map(rust_parameter).collect();
            format!("pub fn {name}({}) -> {}", parameters.join(", "), rust_type(returns))
        })
        .collect();
    let squeezed = RAW.split_whitespace().collect::<Vec<_>>().join(" ").replace("( ", "(").replace(", )", ")");
    let inside = squeezed.split_once("extern \"C\" { ").unwrap().1.split_once(" }").unwrap().0;
    let bound: Vec<&str> = inside.split_terminator(';').map(str::trim).collect();
    assert!(!bound.is_empty());
    assert_eq!(bound, declared);
}

#[test]
fn structs_are_the_headers() {
    let (code, mut found) = (code(), 0);
    for part in code.split("typedef struct {").skip(1) {
        let (body, rest) = part.split_once('}').unwrap();
        let name = camel(&rest.split_once(';').unwrap().0.trim().to_uppercase());
        let mut fields = vec![];
        for line in body.split_terminator(';').map(str::trim).filter(|line| !line.is_empty()) {
            let (of, names) = line.split_once(' ').unwrap();
            fields.extend(names.split(", ").map(|name| format!("pub {name}: {},", rust_type(of))));
        }
        let source = if ["Setup", "Words", "Receiver"].contains(&name.as_str()) { LIB } else { RAW };
        let (before, after) = source.split_once(&format!("pub struct {name} {{")).expect(&name);
        assert!(before.rsplit("\n\n").next().unwrap().contains("#[repr(C)]\n"), "{name}");
        let own: Vec<&str> = after.split_once("\n}").unwrap().0.lines().map(str::trim).filter(|line| line.starts_with("pub ")).collect();
        assert_eq!(own, fields, "{name}");
        found += 1;
    }
    assert!(found > 0);
}

#[test]
fn refusals_are_the_headers() {
    let mut known = numbers("uss_number");
    assert_eq!(known.keys().copied().take_while(|number| *number < 10).collect::<Vec<_>>(), [0, 1, 2], "answers of a slave call");
    known.retain(|number, _| *number >= 10);
    for number in 0..0x1_0000 {
        let name = known.get(&number).cloned().unwrap_or(format!("Other({number})"));
        assert_eq!(format!("{:?}", Refusal::from(number)), name);
        assert_eq!(Refusal::from(number).number(), number);
    }
}

#[test]
fn parameter_errors_are_the_headers() {
    let known = numbers("uss_error");
    for number in 0..0x1_0000 {
        let name = known.get(&number).cloned().unwrap_or(format!("Other({number})"));
        assert_eq!(format!("{:?}", ParameterError::from(number)), name);
        assert_eq!(ParameterError::from(number).number(), number);
    }
}

#[test]
fn rules_are_the_headers() {
    let mut known = numbers("uss_rule");
    assert_eq!(known.remove(&0).unwrap(), "RuleKept");
    for number in 0..0x1_0000 {
        let name = known.get(&number).map_or(format!("Other({number})"), |name| name.trim_start_matches("Rule").to_string());
        assert_eq!(format!("{:?}", Rule::from(number)), name);
        assert_eq!(Rule::from(number).number(), number);
    }
}

#[test]
fn tasks_are_the_headers() {
    let known = numbers("uss_task");
    for number in 0..=u8::MAX {
        let task = Task::try_from(number);
        match (known.get(&number.into()), number) {
            (Some(name), _) => assert_eq!(format!("{:?}", task.unwrap()), name.trim_start_matches("Task")),
            (None, 11..=14) => assert!(format!("{:?}", task.unwrap()).starts_with("Save")),
            _ => assert_eq!(task, Err(Refusal::NotAskable)),
        }
        assert!(task.map_or(true, |task| task as u8 == number));
    }
}

#[test]
fn sizes_and_version_are_the_headers() {
    assert_eq!(uss::BUFFER.to_string(), macro_value("USS_BUFFER"));
    assert_eq!(uss::PAUSE.to_string(), macro_value("USS_PAUSE"));
    assert_eq!(uss::LISTING.to_string(), macro_value("USS_LISTING"));
    assert_eq!(uss::RECORD.to_string(), macro_value("USS_RECORD"));
    assert_eq!(env!("CARGO_PKG_VERSION"), macro_value("USS_VERSION"));
}
