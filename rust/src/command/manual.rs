//! The page of the manual, from the table of words.

use super::table::Word;
use super::words::WORDS;
use super::{PURPOSE, STATUS, USAGE};

/// The page, for man.
pub fn page() -> String {
    let version = env!("CARGO_PKG_VERSION");
    let words: String = WORDS.iter().map(section).collect();
    format!(
        ".TH RANTHELO 1 \"\" \"ranthelo {version}\" \"\"\n\
         .SH NAME\nranthelo \\- judges whether a list of tests is complete\n\
         .SH SYNOPSIS\n.B ranthelo\n.I WORD\n[OPTIONS]\n.IR SHEET ..\n.SH DESCRIPTION\n{}\n.PP\n{}\n.SH WORDS\n{words}\
         .SH \"EXIT STATUS\"\n{}\n",
        escaped(PURPOSE),
        escaped(USAGE),
        escaped(STATUS)
    )
}

fn section(word: &Word) -> String {
    let purpose = escaped(word.purpose);
    let paragraphs: Vec<String> = word.details.split("\n\n").map(escaped).collect();
    let options = word.options.iter().map(|option| {
        let (shown, does) = (escaped(&option.shown()), escaped(option.does));
        format!(".TP\n.B {shown}\n{does}\n")
    });
    format!(
        ".SS {}\n{purpose}\n.PP\n.B {}\n.PP\n{}\n{}",
        escaped(word.name),
        escaped(&word.usage()),
        paragraphs.join("\n.PP\n"),
        options.collect::<String>()
    )
}

/// Text as man takes it: dashes that can be copied, no line that begins with a command; an indented line stays one.
fn escaped(text: &str) -> String {
    let lines = text.lines().map(|line| {
        let plain = line.trim_start();
        let escaped = plain.replace('\\', "\\e").replace('-', "\\-");
        let guard = if escaped.starts_with(['.', '\'']) {
            "\\&"
        } else {
            ""
        };
        let alone = if plain.len() < line.len() {
            ".br\n"
        } else {
            ""
        };
        format!("{alone}{guard}{escaped}")
    });
    lines.collect::<Vec<_>>().join("\n")
}
