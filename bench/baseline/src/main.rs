//! A judge of capability logs that proves nothing and is written for speed. bench/ratio.py compares `capcheck` with it.
//!
//!     baseline judge [--origins] [FILE]
//!     baseline run [--freed held|used|both] [--owned] [--owners] [FILE]
//!
//! It prints what `capcheck`, or `capdiag`, prints, and has its exit statuses.

mod judge;
mod lines;
mod memory;
mod objects;
mod refusals;
mod runs;
mod words;

use judge::{Machine, Verdict};
use runs::{RunMachine, RunVerdict};
use std::fmt::Write as _;
use std::fs::File;
use std::io::{self, Read, Write};
use std::process::ExitCode;

/// A place as a log spells it: a register below 32, or a granule's number plus 32.
fn place(code: u64) -> String {
    if code < 32 {
        format!("c{code}")
    } else {
        format!("@{:016x}", (code - 32) << 4)
    }
}

/// The text and the exit status for the log of an input.
fn answer<const ORIGINS: bool>(input: impl Read) -> io::Result<(String, u8)> {
    let mut machine = Machine::<ORIGINS>::new();
    let mut text = String::new();
    let status = match judge::judge(input, &mut machine)? {
        Verdict::Yes { steps, roots } => {
            let _ = writeln!(text, "yes {steps} {roots}");
            if ORIGINS {
                for (at, root) in machine.origins() {
                    let _ = writeln!(text, "origin {} {}", place(at), place(root));
                }
            }
            0
        }
        Verdict::No { line, refusal } => {
            let _ = writeln!(text, "no {line} {} {refusal:?}", refusal as u8);
            1
        }
    };
    Ok((text, status))
}

/// A place of a run log as a log spells it.
fn run_place(code: u64) -> String {
    match code {
        0..=31 => format!("c{code}"),
        32..=63 => format!("scr{}", code - 32),
        _ => format!("@{:016x}", (code - 64) << 4),
    }
}

/// The same for a run log.
fn run_answer(input: impl Read, machine: &mut RunMachine, tells_owners: bool) -> io::Result<(String, u8)> {
    let mut text = String::new();
    let status = match runs::judge(input, machine)? {
        RunVerdict::Yes { steps, roots, objects } => {
            let _ = writeln!(text, "yes {steps} {roots} {objects}");
            if tells_owners {
                for it in machine.objects.present() {
                    let state = if it.is_live { "live" } else { "freed" };
                    let _ = writeln!(text, "object {} {} {:016x} {:017x} {state} {}", it.number, it.line, it.base, it.top, it.held);
                }
                for (at, number) in machine.owned() {
                    let _ = writeln!(text, "owner {} {number}", run_place(at));
                }
            }
            0
        }
        RunVerdict::No { line, refusal } => {
            let _ = writeln!(text, "no {line} {} {refusal:?}", refusal as u8);
            1
        }
    };
    Ok((text, status))
}

/// Judges a run log by the options and the file that words give.
fn run_log(words: &[&str]) -> Option<io::Result<(String, u8)>> {
    let (mut freed, mut asks_owned, mut tells_owners, mut rest) = ("held", false, false, words);
    loop {
        (freed, rest) = match rest {
            ["--freed", choice @ ("held" | "used" | "both"), rest @ ..] => (*choice, rest),
            ["--owned", rest @ ..] => {
                asks_owned = true;
                (freed, rest)
            }
            ["--owners", rest @ ..] => {
                tells_owners = true;
                (freed, rest)
            }
            _ => break,
        };
    }
    let mut machine = RunMachine::new(freed != "used", freed != "held", asks_owned);
    match rest {
        [] => Some(run_answer(io::stdin().lock(), &mut machine, tells_owners)),
        [file] if !file.starts_with('-') => Some(File::open(file).and_then(|it| run_answer(it, &mut machine, tells_owners))),
        _ => None,
    }
}

fn run(words: &[&str]) -> Option<io::Result<(String, u8)>> {
    Some(match words {
        ["run", rest @ ..] => return run_log(rest),
        ["judge"] => answer::<false>(io::stdin().lock()),
        ["judge", "--origins"] => answer::<true>(io::stdin().lock()),
        ["judge", file] if !file.starts_with('-') => File::open(file).and_then(answer::<false>),
        ["judge", "--origins", file] if !file.starts_with('-') => File::open(file).and_then(answer::<true>),
        _ => return None,
    })
}

fn main() -> ExitCode {
    let words: Vec<String> = std::env::args_os().skip(1).map(|it| it.to_string_lossy().into_owned()).collect();
    let words: Vec<&str> = words.iter().map(String::as_str).collect();
    let (status, complaint) = match run(&words) {
        Some(Ok((text, status))) => match io::stdout().write_all(text.as_bytes()) {
            Ok(()) => (status, ""),
            Err(_) => (3, "baseline: write fault\n"),
        },
        Some(Err(_)) => (3, "baseline: read fault\n"),
        None => (2, "baseline: bad words\n"),
    };
    let _ = io::stderr().write_all(complaint.as_bytes());
    status.into()
}
