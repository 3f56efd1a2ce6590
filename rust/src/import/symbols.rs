//! Numbers for what has names elsewhere.

use crate::text::Mistake;

/// The most states, presses or sounds of a sheet.
const MOST: usize = 16;

/// Things of one kind, by their numbers.
pub struct Symbols {
    /// As they were written.
    written: Vec<String>,
    /// Whether each is the number that it is written as.
    numeric: bool,
}

impl Symbols {
    /// Numbers things in the order in which they are met; or by themselves, if they are the numbers from 0 on.
    pub fn of<'a>(
        what: &str,
        met: impl IntoIterator<Item = (usize, &'a str)>,
    ) -> Result<Self, Vec<Mistake>> {
        let (mut written, mut over): (Vec<String>, Option<usize>) = (Vec::new(), None);
        for (line, one) in met {
            if written.iter().any(|other| other == one) {
                continue;
            }
            written.push(one.to_string());
            if written.len() == MOST + 1 {
                over = Some(line);
            }
        }
        if let Some(line) = over {
            let what = format!("{} {what}, over {MOST}", written.len());
            return Err(vec![Mistake::new(line, what)]);
        }
        let first = written.first().is_some_and(|one| one == "0");
        let all = (0..written.len()).all(|number| written.contains(&number.to_string()));
        let numeric = all && (first || what != "states");
        Ok(Symbols { written, numeric })
    }

    /// How many there are.
    pub fn size(&self) -> u8 {
        self.written.len() as u8
    }

    /// The number of one of them.
    pub fn number(&self, one: &str) -> u8 {
        let number = match self.numeric {
            true => one.parse().ok(),
            false => self.written.iter().position(|other| other == one),
        };
        number.unwrap_or(0) as u8
    }

    /// Their names as a text has them, no two the same; none where numbers are enough.
    pub fn names(&self) -> Vec<String> {
        let mut names: Vec<String> = Vec::new();
        if self.numeric {
            return names;
        }
        for one in &self.written {
            let blank = |letter: char| {
                letter.is_whitespace() || letter.is_control() || letter == '#' || letter == ','
            };
            let clean = one.replace(blank, "_");
            let clean = if clean.is_empty() {
                "_".to_string()
            } else {
                clean
            };
            let numbered = (2..).map(|i| format!("{clean}_{i}"));
            let mut free = [clean.clone()]
                .into_iter()
                .chain(numbered)
                .filter(|name| !names.contains(name));
            names.push(free.next().expect("a free name"));
        }
        names
    }
}
