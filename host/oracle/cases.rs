//! The questions whose answers are recorded. Everything is counted out or drawn from fixed seeds.

use crate::acts::Act;
use crate::answer::{read, FORMS};
use crate::draw::Draw;
use std::collections::HashSet;
use vaporetto::CharacterBoundary::{NotWordBoundary, Unknown, WordBoundary};

/// A form and a line of bytes.
pub type Question = (char, Vec<u8>);

/// A form and a line given as repeated parts.
pub type LongQuestion = (char, Vec<(&'static str, usize)>);

/// Every question of the list of answers, each once.
pub fn answers() -> Vec<Question> {
    let mut all = vec![];
    named(&mut all);
    short(&mut all);
    type_edges(&mut all);
    utf8_edges(&mut all);
    many_columns(&mut all);
    drawn(&mut all);
    let mut seen = HashSet::new();
    all.retain(|question| seen.insert(question.clone()));
    all
}

fn put(all: &mut Vec<Question>, forms: &[char], line: &[u8]) {
    all.extend(forms.iter().map(|&form| (form, line.to_vec())));
}

/// Lines that document 01 names, and others of their kind.
fn named(all: &mut Vec<Question>) {
    for line in [
        "aあ", "", "a\\", "\\", "a\\-b", "a /b", "a ", "a-", "a|b c|d", "a//x b", "a/-b", "a/x-b", "a \\", "ab", "a/x b", "a-b|c", "a b", "a  b",
        "a/", "a", "a//", "a/ b", "a\\ b", "a\\/b", "a\\\\b", "\\ ", "\\/", "\\\\", "a/\\/", "a/\\ /\\\\", "a/b/", "a//b", "a/b\\", "a/\\",
        "a-b/x|c", "a/x-b/y|c/z", "a/x b/y", " - - ", "/-\\| ", "a/\\-\\|\\ \\/\\\\-b", "a|b|c", "a b c", "a-b c-d|e", "a b|c d", "漢-字/名|か-な",
        "漢字/名詞/カンジ と/助詞 かな/名詞//x", "１２Ａｂ", "ｱﾞ・ー", "々〇ゝ", "\u{feff}a", "a\nb", "a\r\tb", "a\0", "\\\0", "a/\0", "a\\\0",
        "a/\\\0", "a\u{300}", "😀-😀|😀", "😀/😀 é/é", "\u{10ffff}|\u{e000} \u{d7ff}",
    ] {
        put(all, &FORMS, line.as_bytes());
    }
}

/// Every line of so many characters over an alphabet.
pub fn every(alphabet: &[char], length: usize) -> Vec<String> {
    if length == 0 {
        return vec![String::new()];
    }
    every(alphabet, length - 1).iter().flat_map(|line| alphabet.iter().map(move |c| format!("{line}{c}"))).collect()
}

/// Short lines, all there are over small alphabets.
fn short(all: &mut Vec<Question>) {
    let nine = ['a', 'あ', ' ', '/', '\\', '-', '|', '\0', '𠀀'];
    for (forms, alphabet, lengths) in [
        (&FORMS[..], &nine[..], 0..=3),
        (&['T'], &['a', ' ', '/', '\\'], 4..=5),
        (&['T'], &['あ', ' ', '/'], 6..=6),
        (&['P'], &['a', ' ', '|', '/', '\\'], 4..=4),
        (&['P'], &['a', '-', '|', '/', '\\'], 4..=4),
        (&['P'], &['あ', '-', '/'], 5..=6),
    ] {
        for line in lengths.flat_map(|length| every(alphabet, length)) {
            put(all, forms, line.as_bytes());
        }
    }
}

/// The first and the last number of each range that has a type other than Other.
pub const RANGES: [(u32, u32); 18] = [
    (0x30, 0x39),
    (0x41, 0x5a),
    (0x61, 0x7a),
    (0x3040, 0x3096),
    (0x30a0, 0x30fa),
    (0x30fc, 0x30ff),
    (0x3400, 0x4dbf),
    (0x4e00, 0x9fff),
    (0xf900, 0xfaff),
    (0xff10, 0xff19),
    (0xff21, 0xff3a),
    (0xff41, 0xff5a),
    (0xff66, 0xff9f),
    (0x20000, 0x2a6df),
    (0x2a700, 0x2b73f),
    (0x2b740, 0x2b81f),
    (0x2b820, 0x2ceaf),
    (0x2f800, 0x2fa1f),
];

/// The first and the last character of each range of types, with the one before and the one after.
fn type_edges(all: &mut Vec<Question>) {
    for (first, last) in RANGES {
        for number in [first - 1, first, last, last + 1] {
            put(all, &['R'], char::from_u32(number).unwrap().to_string().as_bytes());
        }
        let line: String = [first - 1, first, last, last + 1].iter().map(|&n| char::from_u32(n).unwrap()).collect();
        put(all, &['R', 'T'], line.as_bytes());
    }
}

/// Sequences of bytes around every bound of RFC 3629, alone and inside a line.
fn utf8_edges(all: &mut Vec<Question>) {
    let leads = [0x7f, 0x80, 0xbf, 0xc0, 0xc1, 0xc2, 0xdf, 0xe0, 0xe1, 0xec, 0xed, 0xee, 0xef, 0xf0, 0xf1, 0xf3, 0xf4, 0xf5, 0xf8, 0xff];
    let seconds = [0x41, 0x7f, 0x80, 0x8f, 0x90, 0x9f, 0xa0, 0xbf, 0xc0];
    let thirds = [0x41, 0x80, 0xbf, 0xc0];
    for lead in leads {
        put(all, &['R'], &[lead]);
        for second in seconds {
            put(all, &['R'], &[lead, second]);
            for third in if lead < 0xe0 { &thirds[..1] } else { &thirds[..] } {
                put(all, &['R'], &[lead, second, *third]);
                for fourth in if lead < 0xf0 || *third == 0x41 { &thirds[..0] } else { &thirds[..] } {
                    put(all, &['R'], &[lead, second, *third, *fourth]);
                }
            }
        }
        for (before, after) in [("aあ", "a"), ("a/", "|"), ("\\", ""), ("a  ", " "), ("\0", "a")] {
            put(all, &['T', 'P'], &[before.as_bytes(), &[lead], after.as_bytes()].concat());
        }
    }
    for number in [0x7f, 0x80, 0x7ff, 0x800, 0xd7ff, 0xe000, 0xfeff, 0xffff, 0x10000, 0x10ffff] {
        let line = format!("a{}\\b", char::from_u32(number).unwrap());
        for end in 0..=line.len() {
            put(all, &['R'], &line.as_bytes()[..end]);
        }
    }
}

/// Lines with many tags on one character, and with rows of every length.
fn many_columns(all: &mut Vec<Question>) {
    for columns in [3, 4, 7, 8, 9, 16, 31, 32, 40] {
        let empty = "/".repeat(columns);
        let full: String = (0..columns).map(|i| format!("/{i}")).collect();
        let last = format!("{}x", "/".repeat(columns));
        for tags in [&empty, &full, &last] {
            for line in [format!("a{tags}"), format!("a{tags} あ"), format!("a あ{tags}"), format!("あa{tags} b/x 𠀀")] {
                put(all, &['T'], line.as_bytes());
            }
            for line in [format!("a{tags}-あ"), format!("a|あ{tags}"), format!("a/x-あ{tags} b|c"), format!("a{tags} b")] {
                put(all, &['P'], line.as_bytes());
            }
        }
    }
    let steps = |mark: &str| (0..8).map(|n| format!("a{}", "/t".repeat(n))).collect::<Vec<_>>().join(mark);
    put(all, &['T', 'P'], steps(" ").as_bytes());
    put(all, &['P'], steps("|").as_bytes());
    put(all, &['P'], steps("-").as_bytes());
}

/// Drawn lines, read in their own form, some of them in another form or damaged.
fn drawn(all: &mut Vec<Question>) {
    let mut draw = Draw::new(1);
    for _ in 0..250 {
        let lines = [('R', draw.raw()), ('T', draw.tokenized()), ('P', draw.partial())];
        for (form, line) in &lines {
            if *form != 'R' || draw.below(4) == 0 {
                put(all, &[*form], line.as_bytes());
            }
            if draw.below(3) == 0 {
                put(all, &['T', 'P'], &draw.damaged(line));
            }
        }
    }
    for mark in ["-", "|", " "] {
        let line = (0..60).map(|_| draw.character().to_string()).collect::<Vec<_>>().join(mark);
        put(all, &FORMS, line.as_bytes());
    }
}

/// Lines at and near 4,096 bytes.
pub fn long() -> Vec<LongQuestion> {
    let mut all: Vec<LongQuestion> = vec![];
    for parts in [
        vec![("a", 4096)],
        vec![("a", 4095)],
        vec![("あ", 1365), ("a", 1)],
        vec![("a", 1), ("あ", 1365)],
        vec![("𠀀", 1024)],
        vec![("/", 4096)],
        vec![("\\", 4096)],
        vec![("\\", 4095)],
        vec![(" ", 4096)],
        vec![("a ", 2047), ("b", 1)],
        vec![("a ", 2047), ("ab", 1)],
        vec![("a ", 2048)],
        vec![("a-", 2047), ("b", 1)],
        vec![("a-", 2047), ("b/", 1)],
        vec![("a-", 2048)],
        vec![("a|", 2047), ("b\\", 1)],
        vec![("a|", 2048)],
        vec![("a", 4095), ("\0", 1)],
        vec![("a", 4095), ("/", 1)],
        vec![("a", 4095), (" ", 1)],
        vec![("a", 1), ("/", 4095)],
        vec![("a", 1), ("/", 4094), ("x", 1)],
        vec![("a/", 1), ("x", 4094)],
        vec![("a/", 1), ("あ", 1364), ("x", 2)],
        vec![("a/", 1), ("\\ ", 2047)],
        vec![("a/", 1), ("\\あ", 1023), ("\\", 1)],
        vec![("a/x/y ", 682), ("a/x", 1)],
        vec![("a/x/y|", 682), ("a/x", 1)],
        vec![("a/x/y-", 682), ("b/x", 1)],
        vec![("漢/名 ", 511), ("漢/名", 1)],
        vec![("漢/名|", 511), ("漢/名", 1)],
        vec![("漢-字 ", 511), ("漢", 1)],
        vec![("a ", 30), ("a", 1), ("/", 4000)],
        vec![("a|", 30), ("a", 1), ("/", 4000), ("x", 34)],
        vec![("a-", 500), ("b", 1), ("/", 300)],
        vec![("a|b c|", 682), ("d", 1)],
        vec![("a|b c|", 682), ("d-é", 1)],
    ] {
        all.extend(FORMS.iter().map(|&form| (form, parts.clone())));
    }
    all
}

/// The acts that are recorded, each with the accepted line that it is done on.
pub fn acts() -> Vec<(char, String, Act)> {
    let mut all = vec![];
    steps(&mut all);
    let lines = [
        ('R', "aあ𠀀"),
        ('R', "a"),
        ('T', "a"),
        ('T', "a/x"),
        ('T', "ab/x あ//y 𠀀"),
        ('T', "a\\ b/ c"),
        ('P', "a/x-b|c d"),
        ('P', "a-b/x/y|あ c/z"),
        ('P', "あ"),
        ('P', " /x|/-\\"),
    ];
    for (form, line) in lines {
        let boundaries = read(form, line).unwrap().boundaries().len();
        for index in 0..boundaries {
            for value in [NotWordBoundary, WordBoundary, Unknown] {
                all.push((form, line.into(), Act::Boundary(index, value)));
            }
        }
        for count in [0, 1, 2, 5] {
            all.push((form, line.into(), Act::Columns(count)));
        }
        for scores in every_score(boundaries) {
            all.push((form, line.into(), Act::Scores(scores)));
        }
    }
    all
}

/// Every place, and one past the end, of every sentence of one to five characters.
fn steps(all: &mut Vec<(char, String, Act)>) {
    for characters in 1..=5 {
        for marks in every(&['-', '|', ' '], characters - 1) {
            let line: String = std::iter::once("あ".to_string()).chain(marks.chars().map(|m| format!("{m}a"))).collect();
            for place in 0..=characters + 1 {
                all.push(('P', line.clone(), Act::Next(place)));
            }
        }
    }
}

/// All scores about zero, and the largest and the smallest.
fn every_score(count: usize) -> Vec<Vec<i32>> {
    let signs = every(&['-', '0', '+'], count);
    let small = signs.iter().map(|s| s.chars().map(|c| "-0+".find(c).unwrap() as i32 - 1).collect());
    small.chain([vec![i32::MIN; count], vec![i32::MAX; count]]).collect()
}
