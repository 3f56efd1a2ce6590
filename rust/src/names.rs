//! What states, presses and sounds are called in answers in words: their numbers, or the names that a text gives them.

use crate::machine::{Move, Site};

/// What has names.
#[derive(Clone, Copy, Debug, PartialEq, Eq)]
pub enum Named {
    /// A state.
    State,
    /// A press.
    Press,
    /// A sound.
    Sound,
}

impl Named {
    /// All of them, in the order of the sizes.
    pub const ALL: [Named; 3] = [Named::State, Named::Press, Named::Sound];

    /// The word of a text's line that gives the names.
    pub(crate) fn word(self) -> &'static str {
        match self {
            Named::State => "STATES",
            Named::Press => "PRESSES",
            Named::Sound => "SOUNDS",
        }
    }

    /// One of them, in words.
    #[must_use]
    pub fn one(self) -> &'static str {
        match self {
            Named::State => "state",
            Named::Press => "press",
            Named::Sound => "sound",
        }
    }

    /// What an operand of a command is.
    pub(crate) fn of_operand(operand: &str) -> Option<Self> {
        match operand {
            "state" | "next state" => Some(Named::State),
            "press" => Some(Named::Press),
            "sound" => Some(Named::Sound),
            _ => None,
        }
    }
}

/// The names of states, presses and sounds, in the order of their numbers. Where one is missing, the number stands.
///
/// ```
/// use ranthelo::{Named, Names};
///
/// let names = Names { states: vec!["locked".to_string()], ..Names::default() };
/// assert_eq!((names.state(0), names.state(1)), ("locked".to_string(), "1".to_string()));
/// assert_eq!(names.number(Named::State, "locked"), Some(0));
/// ```
#[derive(Clone, Debug, Default, PartialEq, Eq)]
pub struct Names {
    /// The names of states.
    pub states: Vec<String>,
    /// The names of presses.
    pub presses: Vec<String>,
    /// The names of sounds.
    pub sounds: Vec<String>,
}

impl Names {
    /// No names: everything is called by its number.
    pub const NUMBERS: Names = Names {
        states: Vec::new(),
        presses: Vec::new(),
        sounds: Vec::new(),
    };

    /// The names of one kind.
    #[must_use]
    pub fn of(&self, kind: Named) -> &[String] {
        match kind {
            Named::State => &self.states,
            Named::Press => &self.presses,
            Named::Sound => &self.sounds,
        }
    }

    pub(crate) fn of_mut(&mut self, kind: Named) -> &mut Vec<String> {
        match kind {
            Named::State => &mut self.states,
            Named::Press => &mut self.presses,
            Named::Sound => &mut self.sounds,
        }
    }

    /// Whether there are none.
    #[must_use]
    pub fn is_empty(&self) -> bool {
        Named::ALL.iter().all(|&kind| self.of(kind).is_empty())
    }

    /// A name, or the number where there is none.
    #[must_use]
    pub fn called(&self, kind: Named, number: u8) -> String {
        let name = self.of(kind).get(usize::from(number)).cloned();
        name.unwrap_or_else(|| number.to_string())
    }

    /// The number that has a name.
    #[must_use]
    pub fn number(&self, kind: Named, name: &str) -> Option<u8> {
        let number = self.of(kind).iter().position(|other| other == name)?;
        u8::try_from(number).ok()
    }

    /// The number that a word stands for: the one that has this name, or itself; or what is wrong with the word.
    ///
    /// ```
    /// use ranthelo::{Named, Names};
    ///
    /// let names = Names { presses: vec!["knock".to_string()], ..Names::default() };
    /// assert_eq!((names.value(Named::Press, "knock"), names.value(Named::Press, "7")), (Ok(0), Ok(7)));
    /// let wrong = names.value(Named::Press, "kick").unwrap_err();
    /// assert_eq!(wrong, "kick is no number and no name of a press");
    /// ```
    pub fn value(&self, kind: Named, word: &str) -> Result<u8, String> {
        let named = self.number(kind, word).map(Ok);
        named
            .unwrap_or_else(|| number(word))
            .map_err(|what| match self.of(kind) {
                [_, ..] if !is_digits(word) => format!("{what} and no name of a {}", kind.one()),
                _ => what,
            })
    }

    /// What a state is called.
    #[must_use]
    pub fn state(&self, state: u8) -> String {
        self.called(Named::State, state)
    }

    /// What a press is called.
    #[must_use]
    pub fn press(&self, press: u8) -> String {
        self.called(Named::Press, press)
    }

    /// What a sound is called.
    #[must_use]
    pub fn sound(&self, sound: u8) -> String {
        self.called(Named::Sound, sound)
    }

    /// `state 1, press 0`, or `waking`.
    #[must_use]
    pub fn site(&self, site: Site) -> String {
        match site {
            Site::Waking => "waking".to_string(),
            Site::Pair((state, press)) => {
                format!("state {}, press {}", self.state(state), self.press(press))
            }
        }
    }

    /// `sound 0, next state 1`
    #[must_use]
    pub fn to(&self, to: Move) -> String {
        format!(
            "sound {}, next state {}",
            self.sound(to.sound),
            self.state(to.next)
        )
    }
}

fn is_digits(word: &str) -> bool {
    word.bytes().all(|digit| digit.is_ascii_digit())
}

/// The value of a number from 0 to 255, or what is wrong with it.
pub(crate) fn number(word: &str) -> Result<u8, String> {
    match word.parse() {
        Ok(value) if is_digits(word) => Ok(value),
        _ if is_digits(word) && !word.is_empty() => Err(format!("{word} is not 0 to 255")),
        _ => Err(format!("{word} is no number")),
    }
}
