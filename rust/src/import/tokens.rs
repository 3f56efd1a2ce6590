//! The words and signs of DOT.

use crate::text::Mistake;

/// A word or a sign, with its line.
#[derive(Clone, Debug, PartialEq, Eq)]
pub struct Token {
    pub line: usize,
    pub what: What,
}

#[derive(Clone, Debug, PartialEq, Eq)]
pub enum What {
    /// A name, quoted or not.
    Word(String),
    /// `->` or `--`
    Arrow,
    /// A bracket, `;`, `,`, `=` or `:`.
    Sign(char),
}

/// The letters that are left, and the line that they stand in.
struct Left<'a> {
    letters: std::iter::Peekable<std::str::Chars<'a>>,
    line: usize,
}

impl Left<'_> {
    fn next(&mut self) -> Option<char> {
        let letter = self.letters.next()?;
        self.line += usize::from(letter == '\n');
        Some(letter)
    }

    fn next_if(&mut self, wanted: impl Fn(char) -> bool) -> Option<char> {
        let found = self.letters.peek().is_some_and(|&letter| wanted(letter));
        if found { self.next() } else { None }
    }

    fn skip_line(&mut self) {
        while self.next_if(|letter| letter != '\n').is_some() {}
    }

    /// What stands before two signs, which are passed.
    fn skip_to(&mut self, end: [char; 2]) {
        let mut last = ' ';
        while let Some(letter) = self.next() {
            if [last, letter] == end {
                return;
            }
            last = letter;
        }
    }

    /// The rest of a quoted name; `\n`, `\l` and `\r` end a line of it.
    fn quoted(&mut self) -> Option<String> {
        let mut text = String::new();
        loop {
            match self.next()? {
                '"' => return Some(text),
                '\\' => match self.next()? {
                    'n' | 'l' | 'r' => text.push('\n'),
                    '\n' => {}
                    letter @ ('"' | '\\') => text.push(letter),
                    letter => text.extend(['\\', letter]),
                },
                letter => text.push(letter),
            }
        }
    }

    /// The rest of a name in HTML, without its tags.
    fn tagged(&mut self) -> Option<String> {
        let (mut text, mut depth) = (String::new(), 1);
        while depth > 0 {
            match self.next()? {
                '<' => depth += 1,
                '>' => depth -= 1,
                letter if depth == 1 => text.push(letter),
                _ => {}
            }
        }
        Some(text.trim().to_string())
    }

    fn word(&mut self, first: char) -> String {
        let mut word = first.to_string();
        while let Some(letter) = self.next_if(is_letter) {
            word.push(letter);
        }
        word
    }
}

fn is_letter(letter: char) -> bool {
    letter.is_alphanumeric() || letter == '_' || letter == '.'
}

/// The tokens of a text.
pub fn tokens(text: &str) -> Result<Vec<Token>, Vec<Mistake>> {
    let mut left = Left {
        letters: text.chars().peekable(),
        line: 1,
    };
    let mut tokens = Vec::new();
    let mut fresh = 0;
    while let Some(letter) = left.next() {
        let line = left.line;
        let wrong = |what: String| Err(vec![Mistake::new(line, what)]);
        let what = match letter {
            '#' if fresh != line => {
                left.skip_line();
                continue;
            }
            '/' if left.next_if(|next| next == '/').is_some() => {
                left.skip_line();
                continue;
            }
            '/' if left.next_if(|next| next == '*').is_some() => {
                left.skip_to(['*', '/']);
                continue;
            }
            '-' if left.next_if(|next| next == '>' || next == '-').is_some() => What::Arrow,
            '{' | '}' | '[' | ']' | ';' | ',' | '=' | ':' => What::Sign(letter),
            '"' => match left.quoted() {
                Some(word) => What::Word(word),
                None => return wrong("a \" is not closed".to_string()),
            },
            '<' => match left.tagged() {
                Some(word) => What::Word(word),
                None => return wrong("a < is not closed".to_string()),
            },
            letter if is_letter(letter) || letter == '-' => What::Word(left.word(letter)),
            letter if letter.is_whitespace() => continue,
            letter => return wrong(format!("{letter} stands in no DOT")),
        };
        fresh = line;
        tokens.push(Token { line, what });
    }
    Ok(tokens)
}
