//! The times of both sides on the same lines, in one process.

use crate::{number, Failure, Outcome};
use oracle::draw::Draw;
use sides::answers::{Buffers, Form, Record, AMPLE, LONGEST};
use sides::original;
use sides::port::{self, Port};
use std::env::var;
use std::hint::black_box;
use std::io::{self, stdout, Write};
use std::time::Duration;
use vaporetto::Sentence;

/// Surfaces with a part of speech and a reading.
const WORDS: [(&str, &str, &str); 24] = [
    ("東京", "名詞", "トーキョー"),
    ("特許", "名詞", "トッキョ"),
    ("許可", "名詞", "キョカ"),
    ("局", "接尾辞", "キョク"),
    ("は", "助詞", "ワ"),
    ("が", "助詞", "ガ"),
    ("を", "助詞", "オ"),
    ("に", "助詞", "ニ"),
    ("図書館", "名詞", "トショカン"),
    ("本", "名詞", "ホン"),
    ("読", "動詞", "ヨ"),
    ("む", "語尾", "ム"),
    ("火星", "名詞", "カセー"),
    ("猫", "名詞", "ネコ"),
    ("の", "助詞", "ノ"),
    ("生態", "名詞", "セータイ"),
    ("調査", "名詞", "チョーサ"),
    ("し", "動詞", "シ"),
    ("た", "助動詞", "タ"),
    ("コンピュータ", "名詞", "コンピュータ"),
    ("Rust", "名詞", "ラスト"),
    ("2024", "名詞", "ニセンニジューヨン"),
    ("年", "接尾辞", "ネン"),
    ("。", "補助記号", "。"),
];

/// Prints the times of both sides; fails where they do not say the same of the lines.
pub fn command(words: &[&str]) -> Outcome {
    let rounds = match words {
        [] => 9,
        ["--rounds"] => number("--rounds", None)? as usize,
        ["--rounds", rounds] => number("--rounds", Some(rounds))? as usize,
        ["--rounds", _, word, ..] | [word, ..] => return Err(Failure::Usage(format!("bench does not know '{word}'"))),
    };
    let mut out = stdout();
    writeln!(out, "Machine: {}.", var("MACHINE").unwrap_or("unknown".into()))?;
    let heading = "| lines | form | work | Rust ns/line | port ns/line | Rust ns/byte | port ns/byte | ratio |\n|---|---|---|---|---|---|---|---|";
    writeln!(out, "Medians of {rounds} rounds, both sides in turn. No buffer is cleared between lines; the one call of the port makes its own anew each time.\n\n{heading}")?;
    let (mut draw, mut port) = (Draw::new(1), Port::default());
    let kinds = [("notes", true, 20, 400, 200), ("plain", false, 20, 400, 200), ("4,096 bytes", true, 4096, 4096, 12)];
    for (name, tagged, shortest, longest, count) in kinds {
        for form in [Form::Tokenized, Form::Partial] {
            let lines: Vec<String> = (0..count).map(|_| line(&mut draw, form, tagged, shortest, longest)).collect();
            if !lines.iter().all(|line| port.outcome(form, line.as_bytes()) == original::outcome(form, line).map_err(|told| told.refusal)) {
                writeln!(out, "The port does not answer as the original: no times.")?;
                return Ok(false);
            }
            rows(name, form, &lines, rounds)?;
        }
    }
    Ok(true)
}

/// A line of words, with two tags each or with none, of so many bytes; the last tag is drawn out to the shortest length.
pub fn line(draw: &mut Draw, form: Form, tagged: bool, shortest: usize, longest: usize) -> String {
    let goal = shortest + draw.below(longest - shortest + 1);
    let mut line = word(draw, form, tagged);
    loop {
        let next = (if form == Form::Tokenized { " " } else { "|" }).to_string() + &word(draw, form, tagged);
        if line.len() + next.len() > goal && (tagged || line.len() >= shortest) {
            break;
        }
        line += &next;
    }
    let lacking = shortest.saturating_sub(line.len());
    line + &"a".repeat(lacking)
}

/// A word as a form writes it.
fn word(draw: &mut Draw, form: Form, tagged: bool) -> String {
    let (surface, part, reading) = draw.one(&WORDS);
    let characters: Vec<String> = surface.chars().map(String::from).collect();
    let surface = characters.join(if form == Form::Tokenized { "" } else { "-" });
    surface + &if tagged { format!("/{part}/{reading}") } else { String::new() }
}

/// A sentence in the port's buffers.
type Sheet = (Record, Buffers);

/// Reads a line into buffers that are reused.
fn read(form: Form, line: &str, buffers: &mut Buffers) -> Record {
    let mut numbers = [0; 5];
    port::read(form as u32, line.as_bytes(), &mut buffers.lend(AMPLE), &mut numbers).expect("the port reads the line");
    numbers.map(|number| number as usize)
}

/// Writes a sentence into an output that is reused.
fn write(form: Form, record: Record, buffers: &mut Buffers, out: &mut [u8]) -> usize {
    port::write(form as u32, record, &buffers.lend(buffers.lengths()), out).expect("the port writes the sentence") as usize
}

fn update<'a>(sentence: &mut Sentence<'a, '_>, form: Form, line: &'a str) {
    match form {
        Form::Raw => sentence.update_raw(line),
        Form::Tokenized => sentence.update_tokenized(line),
        Form::Partial => sentence.update_partial_annotation(line),
    }
    .expect("the original reads the line")
}

fn write_original(sentence: &Sentence, form: Form, out: &mut String) {
    match form {
        Form::Tokenized => sentence.write_tokenized_text(out),
        _ => sentence.write_partial_annotation_text(out),
    }
}

/// The rows of some lines in a form: read, write, read then write by two calls of the port and by one.
fn rows(name: &str, form: Form, lines: &[String], rounds: usize) -> io::Result<()> {
    let bytes: usize = lines.iter().map(String::len).sum();
    let row = |work: &str, old: &mut dyn FnMut(), new: &mut dyn FnMut()| {
        let (old, new) = medians(rounds, old, new);
        let per = |time: Duration, count: usize| time.as_nanos() as f64 / count as f64;
        writeln!(
            stdout(),
            "| {name} | {} | {work} | {:.0} | {:.0} | {:.2} | {:.2} | {:.2} |",
            form.letter(),
            per(old, lines.len()),
            per(new, lines.len()),
            per(old, bytes),
            per(new, bytes),
            old.as_secs_f64() / new.as_secs_f64()
        )
    };
    let sentences: Vec<Sentence> = lines.iter().map(|line| original::read(form, line).expect("the original reads the line")).collect();
    let mut sheets: Vec<Sheet> = sentences.iter().map(|s| original::answered(s)).map(|answer| (answer.record, answer.buffers)).collect();
    let (mut sentence, mut string) = (Sentence::default(), String::new());
    let (mut buffers, mut out) = (Buffers::filled(AMPLE, 0), vec![0; LONGEST]);
    row("read", &mut || lines.iter().for_each(|line| update(black_box(&mut sentence), form, black_box(line))), &mut || {
        lines.iter().for_each(|line| {
            black_box(read(form, black_box(line), &mut buffers));
        })
    })?;
    row("write", &mut || sentences.iter().for_each(|s| write_original(black_box(s), form, black_box(&mut string))), &mut || {
        sheets.iter_mut().for_each(|(record, held)| {
            black_box(write(form, *record, held, &mut out));
        })
    })?;
    let mut both = || {
        lines.iter().for_each(|line| {
            update(black_box(&mut sentence), form, black_box(line));
            write_original(&sentence, form, black_box(&mut string));
        })
    };
    row("read then write", &mut both, &mut || {
        lines.iter().for_each(|line| {
            let record = read(form, black_box(line), &mut buffers);
            black_box(write(form, record, &mut buffers, &mut out));
        })
    })?;
    row("read then write, one call", &mut both, &mut || {
        lines.iter().for_each(|line| {
            let ended = port::convert(form as u32, form as u32, black_box(line.as_bytes()), &mut out[..1 << 20], 0);
            black_box(ended.expect("the port converts the line"));
        })
    })
}

/// The median times of a pass of each side over all lines; a round has as many passes as make it long enough to time.
fn medians(rounds: usize, old: &mut dyn FnMut(), new: &mut dyn FnMut()) -> (Duration, Duration) {
    let timed = |work: &mut dyn FnMut(), passes: u32| {
        let began = spent();
        (0..passes).for_each(|_| work());
        (spent() - began) / passes
    };
    let once = timed(old, 2).max(timed(new, 2)).max(Duration::from_nanos(1));
    let passes = (Duration::from_millis(20).as_nanos() / once.as_nanos()).clamp(1, 10_000) as u32;
    let (mut olds, mut news): (Vec<Duration>, Vec<Duration>) = (0..rounds).map(|_| (timed(old, passes), timed(new, passes))).unzip();
    olds.sort();
    news.sort();
    (olds[rounds / 2], news[rounds / 2])
}

/// The processor's time that this process has taken: other work on the machine does not count.
fn spent() -> Duration {
    #[repr(C)]
    struct Time {
        seconds: i64,
        nanoseconds: i64,
    }
    extern "C" {
        fn clock_gettime(clock: i32, time: *mut Time) -> i32;
    }
    const OF_THIS_PROCESS: i32 = 2;
    let mut time = Time { seconds: 0, nanoseconds: 0 };
    assert_eq!(unsafe { clock_gettime(OF_THIS_PROCESS, &mut time) }, 0);
    Duration::new(time.seconds as u64, time.nanoseconds as u32)
}
