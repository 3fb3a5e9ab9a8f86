//! Judges the logs of allocators of the corpus that CORPUS names.
use capcheck::*;
use std::{env, fs};

#[test]
fn the_corpus_has_its_verdicts() {
    let Ok(corpus) = env::var("CORPUS") else {
        return eprintln!("left out: CORPUS names no folder like conformance");
    };
    let index = fs::read_to_string(format!("{corpus}/INDEX.tsv")).unwrap();
    let mut rows = 0;
    for row in index.lines() {
        let words: Vec<&str> = row.split('\t').collect();
        if !words[0].starts_with("heaps/") {
            continue;
        }
        let log = fs::read(format!("{corpus}/{}", words[0])).unwrap();
        let (verdict, text) = explain_heap_bytes(&log).unwrap();
        assert!(words.contains(&&*verdict.to_string()), "{row}: {verdict}");
        assert_eq!(text.lines().next(), Some(&*verdict.to_string()), "{row}");
        assert_eq!(judge_heap_bytes(&log), Ok(verdict));
        rows += 1;
    }
    assert!(rows > 40, "{rows} logs of allocators");
}

#[test]
fn an_object_that_meets_another_is_refused() {
    let log = b"heap 1\nroot 0000000000000000 10000000000000000\n\
        malloc 0000000000001000 0000000000000010\nmalloc 0000000000001008 0000000000000010\n";
    let (verdict, text) = explain_heap_bytes(log).unwrap();
    assert_eq!(verdict, HeapVerdict::No { line: 4, refusal: Refusal::Overlaps });
    assert!(text.starts_with("no 4 28 Overlaps\n"), "{text}");
    assert_eq!(Refusal::of(29).map(|it| it.to_string()), Some("NotLive".to_string()));
    assert_eq!(Refusal::NotLive.sentence(), "No object lives at the address that is freed.");
}
