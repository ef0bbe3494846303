//! The oracle held to document 01's lines, and the original to itself.

use crate::acts::{self, Act};
use crate::answer::{answer, hex, outcome, read, recorded, told, unhex, Read, FORMS};
use crate::{asked, cases, lists};
use std::collections::BTreeMap;
use vaporetto::errors::Result;
use vaporetto::{CharacterBoundary, Sentence};

/// The one-blank sentence.
const BLANK: &str = "20 6 . 0,1 0,1 0 . 0-1 5c20 20";

fn of(form: char, line: &str) -> String {
    recorded(form, line.as_bytes())
}

#[test]
fn fields_stand_in_their_order() {
    assert_eq!(of('R', "aあ"), "R 61e38182 = 61e38182 23 2 0,1,4 0,1,0,0,2 0 . . . 6120e38182");
    assert_eq!(of('T', "a/x b"), "T 612f782062 = 6162 22 1 0,1,2 0,1,2 1 78;- 0-1,1-2 612f7820622f 612f787c622f");
    assert_eq!(of('P', "a|b c|d"), "P 617c6220637c64 = 61626364 2222 121 0,1,2,3,4 0,1,2,3,4 0 . 0-1,3-4 612064 617c6220637c64");
    assert_eq!(of('T', "a//x b"), "T 612f2f782062 = 6162 22 1 0,1,2 0,1,2 2 -,78;-,- 0-1,1-2 612f2f7820622f2f 612f2f787c622f2f");
}

#[test]
fn refusals_of_document_01_are_refusals_here() {
    for (form, line) in [('R', ""), ('T', "\\"), ('P', "a\\-b"), ('T', "a /b"), ('T', "a "), ('P', "a-"), ('T', "a \\"), ('T', "a  b"), ('P', "")] {
        assert_eq!(of(form, line), format!("{form} {} !", hex(line.as_bytes())));
    }
    assert_eq!(recorded('T', b"a \xe3\x81"), "T 6120e381 ! 2 2");
    assert_eq!(told('T', b"a  b"), "T 61202062 ! InvalidArgumentError: tokenized_text: must not contain consecutive whitespaces");
}

#[test]
fn questions_are_read_back() {
    assert_eq!(asked(b"R ."), "R . !");
    assert_eq!(asked(b"P 5c"), of('P', "\\"));
    for wrong in ["", "R", "Q 61", "R 6", "R 6g", "R 61 ", "R é"] {
        assert_eq!(asked(wrong.as_bytes()), "?");
    }
    assert_eq!(unhex(&hex(b"\x00\x7f\xff")), Some(vec![0, 0x7f, 0xff]));
}

/// Reads a line in one of the forms over a sentence that is there already.
fn update<'a>(sentence: &mut Sentence<'a, '_>, form: char, line: &'a str) -> Result<()> {
    match form {
        'R' => sentence.update_raw(line),
        'T' => sentence.update_tokenized(line),
        'P' => sentence.update_partial_annotation(line),
        _ => panic!("unknown form {form}"),
    }
}

#[test]
fn updates_answer_as_readers_and_a_refused_one_leaves_a_blank() {
    assert_eq!(answer(&Sentence::default()), BLANK);
    for (form, line) in cases::answers() {
        let Ok(line) = std::str::from_utf8(&line) else { continue };
        let mut sentence = Sentence::from_partial_annotation("あ/x/y-b|c d/z").unwrap();
        match update(&mut sentence, form, line) {
            Ok(()) => assert_eq!(Some(answer(&sentence)), read(form, line).ok().map(|s| answer(&s))),
            Err(error) => {
                assert_eq!(Some(error.to_string()), read(form, line).err().map(|e| e.to_string()));
                assert_eq!(answer(&sentence), BLANK);
            }
        }
    }
}

#[test]
fn acts_do_what_document_01_says() {
    assert_eq!(acts::recorded('P', "a/x-b", &Act::Scores(vec![0])), "S P 612f782d62 0 = 6162 22 0 0,1,2 0,1,2 0 . 0-2 6162 612d62");
    assert_eq!(acts::recorded('P', "a/x-b", &Act::Scores(vec![1])), "S P 612f782d62 1 = 6162 22 1 0,1,2 0,1,2 0 . 0-1,1-2 612062 617c62");
    assert_eq!(acts::recorded('T', "a/x", &Act::Columns(2)), "C T 612f78 2 = 61 2 . 0,1 0,1 2 -,- 0-1 612f2f 612f2f");
    assert_eq!(
        acts::recorded('R', "ab", &Act::Boundary(0, CharacterBoundary::WordBoundary)),
        "B R 6162 0 1 = 6162 22 1 0,1,2 0,1,2 0 . 0-1,1-2 612062 617c62"
    );
    for (place, answered) in [(0, "0-1 1"), (1, "3-4 4"), (2, "2-3 3"), (3, "3-4 4"), (4, ". 4"), (9, ". 9")] {
        assert_eq!(acts::recorded('P', "a|b c|d", &Act::Next(place)), format!("N P 617c6220637c64 {place} = {answered}"));
    }
}

#[test]
fn every_refusal_of_the_original_is_met() {
    let mut met = BTreeMap::new();
    for (form, line) in cases::answers() {
        if let Read::Refused(message) = outcome(form, &line) {
            *met.entry((form, message.split(": '").next().unwrap().to_string())).or_insert(0) += 1;
        }
    }
    let counts: Vec<_> = FORMS.iter().map(|form| met.keys().filter(|(f, _)| f == form).count()).collect();
    assert_eq!(counts, [2, 6, 4], "{met:#?}");
}

#[test]
fn no_line_of_the_answers_is_long() {
    assert!(cases::answers().iter().all(|(_, line)| line.len() <= 256));
    assert!(cases::long().iter().all(|(_, parts)| parts.iter().map(|(part, count)| part.len() * count).sum::<usize>() <= 4096));
}

#[test]
fn every_recorded_line_keeps_to_the_format() {
    for (name, lines) in lists::all() {
        for line in lines {
            assert!(line.len() < 8191, "{name}: a line of {} bytes", line.len());
            assert!(line.bytes().all(|b| b.is_ascii_graphic() || b == b' '), "{name}: {line}");
            assert!(line.split(' ').all(|field| !field.is_empty()), "{name}: {line}");
            if let Some((_, answer)) = line.split_once(" = ") {
                let fields = answer.split(' ').count();
                assert!(fields == 10 || fields == 5 && name == "long.txt" || fields == 2 && line.starts_with("N "), "{name}: {line}");
            }
        }
    }
}

#[test]
fn the_sum_is_the_one_described() {
    assert_eq!(lists::sum(b""), 5381);
    assert_eq!(lists::sum(b"a"), 177670);
    assert_eq!(lists::sum(b"abcdefgh"), 1722392489);
}
