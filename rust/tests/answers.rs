//! Makes the calls of the file that ANSWERS names, which answers.py wrote, and compares what they return.
use capcheck::*;
use std::{env, fs};

fn cap(it: Capability) -> String {
    format!("{} {:032x}", u8::from(it.tag()), it.word())
}

fn tried(found: Result<Capability, Refusal>) -> String {
    found.map_or_else(|refusal| format!("refused {}", refusal as u8), cap)
}

fn accessed(found: Result<u64, Refusal>) -> String {
    found.map_or_else(|refusal| format!("refused {}", refusal as u8), |address| format!("{address:x}"))
}

/// The words of a call, one after another.
struct Words<'a>(std::str::Split<'a, char>);

impl Words<'_> {
    fn hex(&mut self) -> u64 {
        u64::from_str_radix(self.0.next().unwrap(), 16).unwrap()
    }

    fn decimal(&mut self) -> i64 {
        self.0.next().unwrap().parse().unwrap()
    }

    fn cap(&mut self) -> Capability {
        format!("{} {}", self.0.next().unwrap(), self.0.next().unwrap()).parse().unwrap()
    }
}

fn read(it: Capability) -> String {
    let ((base, top), reach, f) = (it.bounds(), it.representable(), it.fields());
    let memory: String = it.memory().iter().map(|byte| format!("{byte:02x}")).collect();
    assert_eq!(Capability::from_memory(&it.memory(), it.tag()), it);
    assert_eq!(Capability::from_fields(f, it.tag()), Some(it));
    format!(
        "{base:x} {top:x} {:x} {} {} {:x} {:x} {:x} {:x} {memory} {:x} {:x} {:x} {:x} {:x} {:x} {:x} {:x} {:x}",
        it.length(),
        u8::from(it.is_sound()),
        u8::from(it.is_sealed()),
        it.permissions(),
        it.mantissa(),
        reach.start,
        reach.size,
        f.address,
        f.otype,
        f.perms,
        f.b,
        f.t,
        f.e,
        u8::from(f.ie),
        u8::from(f.flag),
        f.reserved
    )
}

fn place(found: Option<Place>) -> String {
    match found {
        Some(Place::Register(number)) => format!("c{number}"),
        Some(Place::Granule(address)) => format!("@{address:016x}"),
        None => "None".to_string(),
    }
}

/// The three ways in which a judge gets a log: many lines, a line at a time, and by numbers.
fn judges(whole: &[u8]) -> [Judge; 3] {
    let mut all = [(); 3].map(|()| Judge::new().unwrap());
    let (taken, state) = all[0].lines_taken(whole);
    assert!(state.is_err() || taken == whole.len());
    for line in whole.split_inclusive(|&byte| byte == b'\n') {
        let by_line = all[1].line(line);
        let by_numbers = match Line::read(line) {
            Some((read, length)) => {
                assert_eq!((length, &*read.write().unwrap()), (line.len(), line));
                all[2].pass(&read)
            }
            None => all[2].line(line),
        };
        assert_eq!(by_line, by_numbers);
    }
    all
}

fn judged(digits: &str) -> String {
    let digits = if digits == "-" { "" } else { digits };
    let log: Vec<u8> = (0..digits.len()).step_by(2).map(|at| u8::from_str_radix(&digits[at..at + 2], 16).unwrap()).collect();
    let whole = &log[..log.iter().rposition(|&byte| byte == b'\n').map_or(0, |at| at + 1)];
    let all = judges(whole).map(|judge| {
        let mut parts = vec![judge.end().to_string()];
        parts.extend((0..4).map(|number| cap(judge.register(number).unwrap())));
        parts.push(cap(judge.granule(0x1000)));
        parts.extend([Place::Register(1), Place::Register(3), Place::Granule(0x1008)].map(|it| place(judge.origin(it))));
        parts.push(match judge.expected() {
            Some(Expected::Capability(it)) => cap(it),
            Some(Expected::Number { number, .. }) => format!("{number:x}"),
            None => "none".to_string(),
        });
        parts.push(judge.diagnosis().replace('\n', "|"));
        parts.join(" / ")
    });
    assert!(all.iter().all(|it| *it == all[0]), "{all:?}");
    format!("{} / {}", judge_bytes(&log).unwrap(), all[0])
}

fn answer(call: &str) -> String {
    let mut words = Words(call.split(' '));
    let name = words.0.next().unwrap();
    if name == "judge" {
        return judged(words.0.next().unwrap());
    }
    if name == "round" {
        let it = round_bounds(words.hex(), words.hex());
        return format!("{:x} {:x} {} {} {:x} {:x} {:x}", it.base, it.top, u8::from(it.exact), u8::from(it.ie), it.e, it.b, it.t);
    }
    if name == "length" {
        let length = words.hex();
        return format!("{:x} {:x}", representable_length(length), alignment_mask(length));
    }
    let it = words.cap();
    let both = |strict, clear| format!("{} / {}", tried(strict), cap(clear));
    match name {
        "read" => read(it),
        "explain" => it.explain().replace('\n', "|"),
        "display" => it.to_string(),
        "keeps" => {
            let address = words.hex();
            assert_eq!(it.keeps_bounds(address), it.representable().contains(address));
            u8::from(it.keeps_bounds(address)).to_string()
        }
        "contains" => u8::from(it.contains(words.hex(), words.hex())).to_string(),
        "with_bounds" => cap(it.with_bounds(words.hex(), words.hex())),
        "set_bounds" => {
            let length = words.hex();
            both(it.set_bounds(length), it.set_bounds_clear(length))
        }
        "set_bounds_exact" => {
            let length = words.hex();
            both(it.set_bounds_exact(length), it.set_bounds_exact_clear(length))
        }
        "set_address" => {
            let address = words.hex();
            both(it.set_address(address), it.set_address_clear(address))
        }
        "and_permissions" => {
            let mask = words.hex();
            both(it.and_permissions(mask), it.and_permissions_clear(mask))
        }
        "seal" => {
            let authority = words.cap();
            both(it.seal(authority), it.seal_clear(authority))
        }
        "unseal" => {
            let authority = words.cap();
            both(it.unseal(authority), it.unseal_clear(authority))
        }
        "derive" => {
            let made = words.cap();
            let fault = it.derive_fault(made, words.decimal() != 0);
            fault.map_or(0, |it| it as u8).to_string()
        }
        "may_load" => accessed(it.may_load(words.decimal(), words.decimal() as u64)),
        "may_store" => accessed(it.may_store(words.decimal(), words.decimal() as u64)),
        "may_load_capability" => accessed(it.may_load_capability(words.decimal())),
        "may_store_capability" => {
            let offset = words.decimal();
            accessed(it.may_store_capability(offset, words.cap()))
        }
        "loaded" => cap(it.loaded(words.cap())),
        _ => panic!("no call {name}"),
    }
}

#[test]
fn answers_are_those_of_python() {
    let Ok(path) = env::var("ANSWERS") else {
        return eprintln!("left out: ANSWERS names no file of rust/answers.py");
    };
    let text = fs::read_to_string(path).unwrap();
    for row in text.lines() {
        let (call, wanted) = row.split_once(" = ").unwrap();
        assert_eq!(answer(call), wanted, "{call}");
    }
    println!("{} calls answered", text.lines().count());
}

#[test]
fn what_is_out_of_range_is_an_error() {
    assert_eq!(Capability::root(1, 1 << 64, 0), None);
    assert_eq!(Capability::from_fields(Fields { e: 64, ..Capability::NULL.fields() }, false), None);
    assert_eq!("12".parse::<Capability>(), Err(NoWord));
    assert_eq!("1 FFFF1FFFFC0180040000000000000000".parse::<Capability>(), Err(NoWord));
    assert_eq!("1 é".parse::<Capability>(), Err(NoWord));
    assert_eq!(Capability::NULL.may_load(2048, 1), Err(Refusal::BadArgument));
    assert!(Line::Version(3).write().is_err() && Line::End { steps: 1 << 32 }.write().is_err());
    let mut judge = Judge::new().unwrap();
    assert_eq!(judge.pass(&Line::Store { authority: 1, offset: 0, size: 3, value: 0 }), Err(Fault::NoLine));
    assert_eq!(judge.pass(&Line::RootAt { address: 8, word: 0 }), Err(Fault::NoLine));
    assert_eq!((judge.line(b"x"), judge.line(b""), judge.register(32)), (Err(Fault::NoLine), Err(Fault::NoLine), None));
    assert_eq!(judge.line(b"x\n"), Err(Fault::Refused { line: 1, refusal: Refusal::BadHeader }));
    assert_eq!(judge.diagnosis().lines().next(), Some("no 1 1 BadHeader"));
    assert_eq!(judge.end().to_string(), "no 1 1 BadHeader");
    let moved = std::thread::spawn(move || judge.goes_on()).join().unwrap();
    assert_eq!(moved.unwrap_err().to_string(), "line 1 is refused: BadHeader");
    assert_eq!(
        (read_lines(b"end 0\nx\n").count(), judge_bytes(b"")),
        (1, Ok(Verdict::No { line: 1, refusal: Refusal::Truncated }))
    );
}

#[test]
fn names_are_those_of_verdicts() {
    let all: Vec<Refusal> = (0..=255).filter_map(Refusal::of).collect();
    assert_eq!(all.len(), 42);
    assert!(all.iter().all(|it| it.name() == format!("{it:?}") && it.sentence().is_empty() == (*it == Refusal::BadArgument)));
}
