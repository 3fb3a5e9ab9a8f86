//! Judges the run logs of the corpus that CORPUS names, in each way and with each choice of what is asked.
use capcheck::*;
use std::{env, fs};

/// What the options of a row ask, and whether owners are printed.
fn asked(options: &str) -> (Asks, bool) {
    let held = !options.contains("--freed used");
    let used = options.contains("--freed used") || options.contains("--freed both");
    (Asks { held, used, owned: options.split(' ').any(|it| it == "--owned") }, options.contains("--owners"))
}

/// The ways in which a judge gets a log: many lines, a line at a time, and by numbers.
fn judges(log: &[u8], asks: Asks) -> [RunJudge; 3] {
    let mut all = [(); 3].map(|()| RunJudge::new(asks).unwrap());
    let (taken, state) = all[0].lines_taken(log);
    assert!(state.is_err() || taken == log.len());
    for line in log.split_inclusive(|&byte| byte == b'\n') {
        let by_line = all[1].line(line);
        let by_numbers = match RunLine::read(line) {
            Some((read, length)) => {
                assert_eq!((length, &*read.write().unwrap()), (line.len(), line));
                all[2].pass(read)
            }
            None => all[2].line(line),
        };
        assert_eq!(by_line, by_numbers);
    }
    all
}

/// The objects that a judge has, and the registers of each hart that have an owner.
fn owners(judge: &RunJudge) -> Vec<String> {
    let mut told: Vec<String> = judge.objects().map(|it| it.to_string()).collect();
    for hart in judge.harts() {
        let before = if hart == 0 { String::new() } else { format!("{hart}.") };
        for place in (1..32).map(RunPlace::Register).chain((0..32).map(RunPlace::Special)) {
            let owner = judge.owner_in(hart, place);
            assert!(hart != judge.hart() || owner == judge.owner(place));
            told.extend(owner.map(|owner| format!("owner {before}{place} {owner}")));
        }
    }
    told
}

#[test]
fn the_corpus_has_its_answers() {
    let Ok(corpus) = env::var("CORPUS") else {
        return eprintln!("left out: CORPUS names no folder like conformance");
    };
    let rows = fs::read_to_string(format!("{corpus}/RUNS.tsv")).unwrap();
    for row in rows.lines().skip(1) {
        let mut words = row.split('\t');
        let (name, options, answer) = (words.next().unwrap(), words.next().unwrap(), words.next().unwrap());
        let log = fs::read(format!("{corpus}/runs/{name}")).unwrap();
        let (asks, with_owners) = asked(options);
        let verdict = answer.split(" / ").next().unwrap();
        assert_eq!(judge_run_bytes(&log, asks).unwrap().to_string(), verdict, "{row}");
        if log.last() != Some(&b'\n') {
            continue;
        }
        for judge in judges(&log, asks) {
            assert_eq!(judge.end().to_string(), verdict, "{row}");
            assert_eq!(judge.diagnosis().lines().next(), Some(verdict), "{row}");
            if with_owners && verdict.starts_with("yes") {
                let told: Vec<&str> = answer.split(" / ").skip(1).filter(|it| !it.contains(" @")).collect();
                assert_eq!(owners(&judge), told, "{row}");
            }
        }
    }
    println!("{} rows judged", rows.lines().count() - 1);
}

#[test]
fn an_object_is_told_until_no_place_holds_it() -> Result<(), Box<dyn std::error::Error>> {
    let root = Capability::root(0, 1 << 64, permissions::ALL_PERMISSIONS).unwrap();
    let object = root.set_address(0x1000)?.set_bounds(0x40)?;
    let (register, special) = (RunPlace::Register(2), RunPlace::Special(3));
    let mut judge = RunJudge::new(Asks::default())?;
    judge.pass(RunLine::Version)?;
    judge.pass(Line::Mode { clear: false })?;
    judge.pass(Line::Root { target: 1, word: root.word() })?;
    judge.pass(RunLine::Derive { target: register, source: RunPlace::Register(1), recorded: object })?;
    judge.pass(RunLine::Object { source: 2, object: 0 })?;
    judge.pass(RunLine::Derive { target: special, source: register, recorded: object })?;
    judge.pass(RunLine::Free { source: 2, object: 0 })?;
    judge.pass(RunLine::Drop(register))?;
    assert_eq!(owners(&judge), ["object 1 5 0000000000001000 00000000000001040 freed 1", "owner scr3 1"]);
    assert_eq!((judge.holder(1), judge.held(special), judge.object(2)), (Some(special), Some(object), None));
    judge.pass(RunLine::Derive { target: register, source: RunPlace::Register(1), recorded: object })?;
    let refused = judge.pass(RunLine::Object { source: 2, object: 0 });
    assert_eq!(refused, Err(Fault::Refused { line: 10, refusal: Refusal::StillHeld }));
    assert!(judge.diagnosis().starts_with("no 10 36 StillHeld\n"));
    assert_eq!(judge.pass(RunLine::Drop(RunPlace::Granule(8))), Err(Fault::NoLine));
    assert!(RunLine::Free { source: 1, object: 1 }.write().is_err());
    Ok(())
}

#[test]
fn each_hart_has_registers_of_its_own() -> Result<(), Box<dyn std::error::Error>> {
    let root = Capability::root(0, 1 << 64, permissions::ALL_PERMISSIONS).unwrap();
    let (one, two) = (RunPlace::Register(1), RunPlace::Register(2));
    let mut judge = RunJudge::new(Asks::default())?;
    judge.pass(RunLine::Version)?;
    judge.pass(Line::Mode { clear: false })?;
    judge.pass(Line::Root { target: 1, word: root.word() })?;
    judge.pass(RunLine::Hart(9))?;
    judge.pass(Line::Root { target: 2, word: root.word() })?;
    judge.pass(RunLine::Object { source: 2, object: 0 })?;
    assert_eq!((judge.hart(), judge.harts().collect::<Vec<_>>()), (9, vec![0, 9]));
    assert_eq!((judge.held(one), judge.held_in(0, one), judge.held_in(65536, one)), (Some(Capability::NULL), Some(root), None));
    assert_eq!((judge.holder(1), judge.holder_hart(1), judge.owner_in(9, two), judge.owner_in(0, two)), (Some(two), 9, Some(1), None));
    judge.pass(RunLine::Hart(0))?;
    assert_eq!((judge.hart(), judge.owner(two), judge.holder_hart(1)), (0, None, 9));
    assert_eq!(judge.pass(RunLine::Hart(65536)), Err(Fault::NoLine));
    assert_eq!(RunLine::read(b"hart 65535\n"), Some((RunLine::Hart(65535), 11)));
    Ok(())
}

#[test]
fn a_number_that_no_line_has_is_no_line() -> Result<(), Box<dyn std::error::Error>> {
    let (null, mut judge) = (Capability::NULL, RunJudge::new(Asks::default())?);
    for number in [32, 256 + 1, (1 << 32) + 1, u64::MAX] {
        let wrong: [RunLine; 5] = [
            Line::Move { target: number, source: 1, recorded: null }.into(),
            Line::Load { authority: 1, offset: 0, size: number, value: 0 }.into(),
            Line::StoreCapability { source: 1, authority: number, offset: 0 }.into(),
            RunLine::Object { source: number, object: 0 },
            RunLine::Exchange { target: 1, source: 1, special: number, recorded: null, special_recorded: null },
        ];
        for line in wrong {
            assert_eq!((judge.pass(line), line.write().is_err()), (Err(Fault::NoLine), true), "{line:?}");
        }
    }
    let offset = Line::Load { authority: 1, offset: 65536, size: 1, value: 0 };
    assert_eq!((judge.pass(offset), Judge::new()?.pass(&offset)), (Err(Fault::NoLine), Err(Fault::NoLine)));
    Ok(())
}

#[test]
fn a_wrong_result_is_told_with_what_the_rules_give() -> Result<(), Box<dyn std::error::Error>> {
    let root = Capability::root(0, 1 << 64, permissions::ALL_PERMISSIONS).unwrap();
    for (step, expected) in [
        (Line::Load { authority: 1, offset: 0, size: 2, value: 7 }, Expected::Number { number: 0, size: 2 }),
        (Line::ClearTag { target: 2, source: 1, recorded: root }, Expected::Capability(root.clear_tag())),
    ] {
        let mut judge = RunJudge::new(Asks::default())?;
        judge.pass(RunLine::Version)?;
        judge.pass(Line::Mode { clear: true })?;
        judge.pass(Line::Root { target: 1, word: root.word() })?;
        assert_eq!(judge.expected(), None);
        assert_eq!(judge.pass(step), Err(Fault::Refused { line: 4, refusal: Refusal::WrongResult }));
        assert_eq!(judge.expected(), Some(expected));
    }
    Ok(())
}
