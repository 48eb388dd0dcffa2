//! Reads a program's options: `--name VALUE` and plain `--name`.

/// What the options say. Names that a program does not know end the reading.
pub struct Options {
    words: std::iter::Peekable<std::vec::IntoIter<String>>,
}

impl Options {
    /// The program's own arguments.
    pub fn of_program() -> Options {
        let words: Vec<String> = std::env::args().skip(1).collect();
        Options {
            words: words.into_iter().peekable(),
        }
    }

    /// The next word, if it is an option.
    pub fn option(&mut self) -> Option<String> {
        self.words.next_if(|word| word.starts_with("--"))
    }

    /// The number behind an option.
    pub fn number(&mut self, option: &str) -> Result<u64, String> {
        let word = self.word(option)?;
        word.parse()
            .map_err(|_| format!("{option} takes a number, not {word:?}"))
    }

    /// The word behind an option.
    pub fn word(&mut self, option: &str) -> Result<String, String> {
        let word = self.words.next();
        word.ok_or_else(|| format!("{option} takes a value"))
    }

    /// All words that are left.
    pub fn rest(self) -> Vec<String> {
        self.words.collect()
    }
}
