//! A place in a text that a reader moves on, from what it expects to what comes next.

pub struct Cursor<'a> {
    text: &'a str,
    at: usize,
}

impl<'a> Cursor<'a> {
    pub fn new(text: &'a str) -> Cursor<'a> {
        Cursor { text, at: 0 }
    }

    /// What is wrong, and where.
    pub fn wrong(&self, reason: &str) -> String {
        format!("at byte {}: {reason}", self.at)
    }

    /// The text from here on.
    pub fn rest(&self) -> &'a str {
        &self.text[self.at..]
    }

    /// What comes next as far as the characters fit.
    pub fn ahead(&self, fits: impl Fn(char) -> bool) -> &'a str {
        let rest = self.rest();
        &rest[..rest.len() - rest.trim_start_matches(fits).len()]
    }

    /// Takes so many bytes, which end with a character.
    pub fn part(&mut self, length: usize) -> &'a str {
        let part = &self.rest()[..length];
        self.at += length;
        part
    }

    /// Takes a character, where there is one.
    pub fn character(&mut self) -> Option<char> {
        let next = self.rest().chars().next()?;
        self.at += next.len_utf8();
        Some(next)
    }

    /// Takes what comes next, where that is this.
    pub fn take(&mut self, word: &str) -> bool {
        let found = self.rest().starts_with(word);
        self.at += if found { word.len() } else { 0 };
        found
    }

    pub fn expect(&mut self, word: &str) -> Result<(), String> {
        match self.take(word) {
            true => Ok(()),
            false => Err(self.wrong(&format!("no {word}"))),
        }
    }
}
