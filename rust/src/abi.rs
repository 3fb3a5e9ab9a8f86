//! The structs and calls of the C headers. rust/abi_check.py compares them with the headers.
use std::ffi::c_void;

/// The text of a C string in an array.
pub fn text(bytes: &[u8]) -> String {
    let end = bytes.iter().position(|&it| it == 0).unwrap_or(bytes.len());
    String::from_utf8_lossy(&bytes[..end]).into_owned()
}

#[repr(C)]
#[derive(Clone, Copy)]
pub struct Word {
    pub high: u64,
    pub low: u64,
}

#[repr(C)]
#[derive(Clone, Copy)]
pub struct Wide {
    pub high: u64,
    pub low: u64,
}

#[repr(C)]
#[derive(Clone, Copy)]
pub struct Cap {
    pub word: Word,
    pub tag: u8,
}

#[repr(C)]
#[derive(Clone, Copy)]
pub struct Name {
    pub text: [u8; 24],
}

#[repr(C)]
#[derive(Clone, Copy)]
pub struct Sentence {
    pub text: [u8; 96],
}

#[repr(C)]
#[derive(Clone, Copy)]
pub struct Fields {
    pub address: u64,
    pub otype: u32,
    pub perms: u16,
    pub b: u16,
    pub t: u16,
    pub e: u8,
    pub ie: u8,
    pub flag: u8,
    pub reserved: u8,
}

#[repr(C)]
#[derive(Clone, Copy)]
pub struct OptionalWord {
    pub word: Word,
    pub present: u8,
}

#[repr(C)]
#[derive(Clone, Copy)]
pub struct Bounds {
    pub base: u64,
    pub top: Wide,
}

#[repr(C)]
#[derive(Clone, Copy)]
pub struct Rounded {
    pub base: u64,
    pub top: Wide,
    pub b: u16,
    pub t: u16,
    pub e: u8,
    pub ie: u8,
    pub exact: u8,
}

#[repr(C)]
#[derive(Clone, Copy)]
pub struct Range {
    pub start: u64,
    pub size: u64,
    pub every: u8,
}

#[repr(C)]
#[derive(Clone, Copy)]
pub struct Made {
    pub cap: Cap,
    pub refusal: u8,
}

#[repr(C)]
#[derive(Clone, Copy)]
pub struct Access {
    pub address: u64,
    pub refusal: u8,
}

#[repr(C)]
#[derive(Clone, Copy)]
pub struct Line {
    pub cap: Cap,
    pub number: u64,
    pub length: usize,
    pub offset: i16,
    pub kind: u8,
    pub target: u8,
    pub source: u8,
    pub authority: u8,
    pub size: u8,
}

#[repr(C)]
#[derive(Clone, Copy)]
pub struct Answer {
    pub line: u64,
    pub steps: u32,
    pub roots: u32,
    pub state: u8,
    pub refusal: u8,
}

#[repr(C)]
#[derive(Clone, Copy)]
pub struct Judge {
    pub at: *mut c_void,
    pub held: bool,
}

#[repr(C)]
#[derive(Clone, Copy)]
pub struct OptionalCap {
    pub cap: Cap,
    pub present: u8,
}

#[repr(C)]
#[derive(Clone, Copy)]
pub struct Expected {
    pub cap: Cap,
    pub number: u64,
    pub size: u8,
    pub kind: u8,
}

#[repr(C)]
#[derive(Clone, Copy)]
pub struct Taken {
    pub bytes: u64,
    pub state: u8,
}

#[repr(C)]
#[derive(Clone, Copy)]
pub struct Place {
    pub number: u64,
    pub kind: u8,
}

#[repr(C)]
#[derive(Clone, Copy)]
pub struct RunLine {
    pub line: Line,
    pub second: Cap,
    pub target: Place,
    pub source: Place,
}

#[repr(C)]
#[derive(Clone, Copy)]
pub struct RunJudge {
    pub at: *mut c_void,
    pub held: bool,
}

#[repr(C)]
#[derive(Clone, Copy)]
pub struct Asks {
    pub held: u8,
    pub used: u8,
    pub owned: u8,
}

#[repr(C)]
#[derive(Clone, Copy)]
pub struct RunAnswer {
    pub line: u64,
    pub steps: u32,
    pub roots: u32,
    pub objects: u32,
    pub state: u8,
    pub refusal: u8,
}

#[repr(C)]
#[derive(Clone, Copy)]
pub struct Object {
    pub base: u64,
    pub top: Wide,
    pub held: u64,
    pub line: u64,
    pub state: u8,
}

#[repr(C)]
#[derive(Clone, Copy)]
pub struct HeapAnswer {
    pub line: u64,
    pub live: u64,
    pub events: u32,
    pub state: u8,
    pub refusal: u8,
}

#[repr(C)]
#[derive(Clone, Copy)]
pub struct HeapWhy {
    pub answer: HeapAnswer,
    pub length: u64,
}

extern "C" {
    pub fn capcheck_version() -> Name;
    pub fn capcheck_split(word: Word) -> Fields;
    pub fn capcheck_join(fields: Fields) -> OptionalWord;
    pub fn capcheck_to_memory(word: Word, bytes: *mut u8);
    pub fn capcheck_from_memory(bytes: *const u8) -> Word;
    pub fn capcheck_read_word(text: *const u8, length: usize) -> OptionalWord;
    pub fn capcheck_explain(cap: Cap, text: *mut u8, room: usize) -> u64;
    pub fn capcheck_decode(word: Word) -> Bounds;
    pub fn capcheck_mantissa(word: Word) -> u16;
    pub fn capcheck_sound(word: Word) -> bool;
    pub fn capcheck_length(word: Word) -> Wide;
    pub fn capcheck_round(base: u64, length: u64) -> Rounded;
    pub fn capcheck_round_length(length: u64) -> Wide;
    pub fn capcheck_align_mask(length: u64) -> u64;
    pub fn capcheck_least_law(word: Word, base: u64, length: u64) -> bool;
    pub fn capcheck_reach(word: Word) -> Range;
    pub fn capcheck_keeps_bounds(word: Word, address: u64) -> bool;
    pub fn capcheck_with_bounds(word: Word, base: u64, length: u64) -> Word;
    pub fn capcheck_perm_view(word: Word) -> u32;
    pub fn capcheck_root(base: u64, length: Wide, permissions: u32) -> OptionalWord;
    pub fn capcheck_sealed(word: Word) -> bool;
    pub fn capcheck_refusal_name(refusal: u8) -> Name;
    pub fn capcheck_refusal_sentence(refusal: u8) -> Sentence;
    pub fn capcheck_set_bounds(source: Cap, length: u64, exact: u8) -> Made;
    pub fn capcheck_set_addr(source: Cap, address: u64) -> Made;
    pub fn capcheck_and_perm(source: Cap, mask: u64) -> Made;
    pub fn capcheck_seal(source: Cap, authority: Cap) -> Made;
    pub fn capcheck_unseal(source: Cap, authority: Cap) -> Made;
    pub fn capcheck_set_bounds_clear(source: Cap, length: u64, exact: u8) -> Cap;
    pub fn capcheck_set_addr_clear(source: Cap, address: u64) -> Cap;
    pub fn capcheck_and_perm_clear(source: Cap, mask: u64) -> Cap;
    pub fn capcheck_seal_clear(source: Cap, authority: Cap) -> Cap;
    pub fn capcheck_unseal_clear(source: Cap, authority: Cap) -> Cap;
    pub fn capcheck_clear_tag(source: Cap) -> Cap;
    pub fn capcheck_derive_fault(source: Cap, word: Word, opens: u8) -> u8;
    pub fn capcheck_may_load(authority: Cap, offset: i64, size: u64) -> Access;
    pub fn capcheck_may_store(authority: Cap, offset: i64, size: u64) -> Access;
    pub fn capcheck_may_load_cap(authority: Cap, offset: i64) -> Access;
    pub fn capcheck_may_store_cap(authority: Cap, offset: i64, stored: Cap) -> Access;
    pub fn capcheck_loaded(authority: Cap, stored: Cap) -> Cap;
    pub fn capcheck_line_version(buffer: *mut u8, version: u64) -> usize;
    pub fn capcheck_line_mode(buffer: *mut u8, clear: u8) -> usize;
    pub fn capcheck_line_root(buffer: *mut u8, target: u64, word: Word) -> usize;
    pub fn capcheck_line_root_at(buffer: *mut u8, address: u64, word: Word) -> usize;
    pub fn capcheck_line_move(buffer: *mut u8, target: u64, source: u64, recorded: Cap) -> usize;
    pub fn capcheck_line_cleartag(buffer: *mut u8, target: u64, source: u64, recorded: Cap) -> usize;
    pub fn capcheck_line_setbounds(buffer: *mut u8, target: u64, source: u64, length: u64, recorded: Cap) -> usize;
    pub fn capcheck_line_setboundsexact(buffer: *mut u8, target: u64, source: u64, length: u64, recorded: Cap) -> usize;
    pub fn capcheck_line_setaddr(buffer: *mut u8, target: u64, source: u64, address: u64, recorded: Cap) -> usize;
    pub fn capcheck_line_andperm(buffer: *mut u8, target: u64, source: u64, mask: u64, recorded: Cap) -> usize;
    pub fn capcheck_line_seal(buffer: *mut u8, target: u64, source: u64, authority: u64, recorded: Cap) -> usize;
    pub fn capcheck_line_unseal(buffer: *mut u8, target: u64, source: u64, authority: u64, recorded: Cap) -> usize;
    pub fn capcheck_line_lc(buffer: *mut u8, target: u64, authority: u64, offset: i64, recorded: Cap) -> usize;
    pub fn capcheck_line_sc(buffer: *mut u8, source: u64, authority: u64, offset: i64) -> usize;
    pub fn capcheck_line_load(buffer: *mut u8, authority: u64, offset: i64, size: u64, value: u64) -> usize;
    pub fn capcheck_line_store(buffer: *mut u8, authority: u64, offset: i64, size: u64, value: u64) -> usize;
    pub fn capcheck_line_end(buffer: *mut u8, steps: u64) -> usize;
    pub fn capcheck_line_run_version(buffer: *mut u8) -> usize;
    pub fn capcheck_line_root_special(buffer: *mut u8, special: u64, word: Word) -> usize;
    pub fn capcheck_line_hart(buffer: *mut u8, hart: u64) -> usize;
    pub fn capcheck_line_derive(buffer: *mut u8, target: Place, source: Place, recorded: Cap) -> usize;
    pub fn capcheck_line_exchange(buffer: *mut u8, target: u64, source: u64, special: u64, cap: Cap, other: Cap) -> usize;
    pub fn capcheck_line_invoke(buffer: *mut u8, code: u64, datum: u64, code_word: Word, datum_word: Word) -> usize;
    pub fn capcheck_line_drop(buffer: *mut u8, place: Place) -> usize;
    pub fn capcheck_line_fill(buffer: *mut u8, address: u64, word: Word) -> usize;
    pub fn capcheck_line_object(buffer: *mut u8, source: u64, object: u64) -> usize;
    pub fn capcheck_line_free(buffer: *mut u8, source: u64, object: u64) -> usize;
    pub fn capcheck_read_line(bytes: *const u8, length: usize) -> Line;
    pub fn capcheck_read_run_line(bytes: *const u8, length: usize) -> RunLine;
    pub fn capcheck_judge_bytes(bytes: *const u8, length: usize) -> Answer;
    pub fn capcheck_judge_open(judge: *mut Judge) -> u8;
    pub fn capcheck_judge_line(judge: *mut Judge, line: *const u8, length: usize) -> u8;
    pub fn capcheck_judge_lines(judge: *mut Judge, bytes: *const u8, length: usize) -> Taken;
    pub fn capcheck_judge_step(judge: *mut Judge, line: *const Line) -> u8;
    pub fn capcheck_judge_answer(judge: *const Judge) -> Answer;
    pub fn capcheck_judge_end(judge: *const Judge) -> Answer;
    pub fn capcheck_judge_register(judge: *const Judge, number: u64) -> OptionalCap;
    pub fn capcheck_judge_granule(judge: *const Judge, address: u64) -> OptionalCap;
    pub fn capcheck_judge_origin(judge: *const Judge, place: Place) -> Place;
    pub fn capcheck_judge_expected(judge: *const Judge) -> Expected;
    pub fn capcheck_judge_end_report(judge: *const Judge, text: *mut u8, room: usize) -> u64;
    pub fn capcheck_judge_close(judge: *mut Judge);
    pub fn capcheck_run_judge_bytes(bytes: *const u8, length: usize, asks: Asks) -> RunAnswer;
    pub fn capcheck_run_judge_open(judge: *mut RunJudge, asks: Asks) -> u8;
    pub fn capcheck_run_judge_line(judge: *mut RunJudge, line: *const u8, length: usize) -> u8;
    pub fn capcheck_run_judge_lines(judge: *mut RunJudge, bytes: *const u8, length: usize) -> Taken;
    pub fn capcheck_run_step(judge: *mut RunJudge, line: *const RunLine) -> u8;
    pub fn capcheck_run_judge_answer(judge: *const RunJudge) -> RunAnswer;
    pub fn capcheck_run_judge_end(judge: *const RunJudge) -> RunAnswer;
    pub fn capcheck_run_judge_held(judge: *const RunJudge, place: Place) -> OptionalCap;
    pub fn capcheck_run_judge_owner(judge: *const RunJudge, place: Place) -> u32;
    pub fn capcheck_run_judge_object(judge: *const RunJudge, number: u32) -> Object;
    pub fn capcheck_run_judge_next_object(judge: *const RunJudge, from: u32) -> u32;
    pub fn capcheck_run_judge_hart(judge: *const RunJudge) -> u32;
    pub fn capcheck_run_judge_next_hart(judge: *const RunJudge, from: u32) -> u32;
    pub fn capcheck_run_judge_held_in(judge: *const RunJudge, hart: u32, place: Place) -> OptionalCap;
    pub fn capcheck_run_judge_owner_in(judge: *const RunJudge, hart: u32, place: Place) -> u32;
    pub fn capcheck_run_judge_holder(judge: *const RunJudge, number: u32) -> Place;
    pub fn capcheck_run_judge_holder_hart(judge: *const RunJudge, number: u32) -> u32;
    pub fn capcheck_run_judge_expected(judge: *const RunJudge) -> Expected;
    pub fn capcheck_run_judge_end_report(judge: *const RunJudge, text: *mut u8, room: usize) -> u64;
    pub fn capcheck_run_judge_close(judge: *mut RunJudge);
    pub fn capcheck_heap_judge_why(bytes: *const u8, length: usize, text: *mut u8, room: usize) -> HeapWhy;
}
