//! The lines that both sides are asked about. Everything is counted out or drawn from a seed.

use oracle::cases;
use oracle::draw::Draw;
use sides::answers::Form;

/// A line, and where it comes from.
pub type Asked = (&'static str, Vec<u8>);

/// The lines of the recorded lists.
pub fn recorded() -> Vec<Asked> {
    let mut lines: Vec<Vec<u8>> = cases::answers().into_iter().map(|(_, line)| line).collect();
    lines.extend(cases::long().iter().map(|(_, parts)| parts.iter().flat_map(|(part, count)| part.repeat(*count).into_bytes()).collect()));
    lines.sort();
    lines.dedup();
    lines.into_iter().map(|line| ("recorded", line)).collect()
}

/// Every line of so many characters over small alphabets.
pub fn short(long_run: bool) -> impl Iterator<Item = Asked> {
    let alphabets: &[(&[char], usize)] = match long_run {
        false => &[(&['a', 'あ', ' ', '/', '\\', '-', '|'], 4), (&['a', '/', ' '], 6), (&['あ', '-', '/', '\\'], 5)],
        true => &[
            (&['a', 'あ', ' ', '/', '\\', '-', '|', '\0', '𠀀'], 4),
            (&['a', 'あ', ' ', '/', '\\', '-', '|', '\0'], 5),
            (&['あ', ' ', '/', '\\', '-', '|'], 6),
            (&['a', ' ', '/', '\\'], 8),
            (&['é', '-', '|', '/', '\\'], 7),
            (&['あ', ' ', '/'], 10),
            (&['a', '-', '/'], 10),
        ],
    };
    alphabets.iter().flat_map(|(alphabet, length)| cases::every(alphabet, *length)).map(|line| ("short", line.into_bytes()))
}

/// A drawn line of any form, whole or damaged.
pub fn drawn(draw: &mut Draw) -> Asked {
    let line = match draw.below(3) {
        0 => draw.raw(),
        1 => draw.tokenized(),
        _ => draw.partial(),
    };
    match draw.below(3) {
        0 => ("damaged", draw.damaged(&line)),
        _ => ("drawn", line.into_bytes()),
    }
}

/// A drawn line of a form that ends within a few bytes of the limit of 4,096.
pub fn near_limit(draw: &mut Draw, form: Form) -> Asked {
    let goal = 4088 + draw.below(14);
    let line = filled(draw, form, goal, 'a');
    match draw.below(4) {
        0 => ("damaged near the limit", draw.damaged(&line)),
        _ => ("near the limit", line.into_bytes()),
    }
}

/// A line of a form of so many bytes, some hundreds at least: drawn parts, and what is lacking filled up by a character.
pub fn filled(draw: &mut Draw, form: Form, goal: usize, filler: char) -> String {
    let mut line = String::new();
    while line.len() < goal {
        let (between, part) = match form {
            Form::Raw => ("", draw.raw()),
            Form::Tokenized => (" ", draw.tokenized()),
            Form::Partial => (draw.one(&["-", "|", " "]), draw.partial()),
        };
        if line.len() + between.len() + part.len() > goal {
            break;
        }
        line += if line.is_empty() { "" } else { between };
        line += &part;
    }
    if form == Form::Partial && line.len() < goal {
        line.push('/');
    }
    let (lacking, each) = (goal - line.len(), filler.len_utf8());
    line + &"a".repeat(lacking % each) + &filler.to_string().repeat(lacking / each)
}

/// A line of a few tokens, one of them with up to so many tags.
pub fn wide(draw: &mut Draw, most: usize) -> Asked {
    let columns = draw.below(most + 1);
    let each = draw.one(&["/", "/", "/x", "/あ", "//y", "/\\/"]);
    let tags: String = each.repeat(columns / each.matches('/').count());
    let mark = draw.one(&[" ", "|", "-"]);
    let (before, after) = (draw.below(12), draw.below(12));
    let line = format!("{}漢{tags}{}", format!("a/x{mark}").repeat(before), format!("{mark}b").repeat(after));
    ("wide", line.into_bytes())
}

/// A line whose sentence, tokenized or partial, has about as many cells as the conversion holds, or as it makes room for on shorter lines.
pub fn crowded(draw: &mut Draw) -> Asked {
    let cells = draw.one(&[256, 512, 2048, 2048]);
    let characters = draw.one(&[1, 2, 3, 16, 32, 45, 64, 128, 500, 1024, 1025, 2047]);
    let columns = cells / characters + draw.below(2);
    let (before, after) = (characters / draw.one(&[1, 2, 1 << 20]), draw.one(&["", "x", "あ"]));
    let tags = "/".repeat(columns) + after;
    let mut words = vec!["b".to_string(); characters];
    words[before.saturating_sub(1)] += &tags;
    ("with many cells", words.join(draw.one(&[" ", " ", "|"])).into_bytes())
}

/// The tokenized line of 4,096 bytes that has the most cells: 2,048 characters with 2,048 columns.
pub fn most_cells() -> Asked {
    ("with the most cells", ["b".repeat(2048), "/".repeat(2048)].concat().into_bytes())
}

/// The line of 4,096 bytes that is written back to the most: as partial, 1,025 slashes with 2,047 columns.
pub fn longest() -> Asked {
    ("longest", ["/".repeat(2048), "|/".repeat(1024)].concat().into_bytes())
}
