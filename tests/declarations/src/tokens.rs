//! Words, numbers, texts and single signs of a source, with comments left out.

use crate::Read;

pub(crate) struct Tokens {
    tokens: Vec<String>,
    at: usize,
}

fn is_word(c: char) -> bool {
    c.is_ascii_alphanumeric() || c == '_'
}

impl Tokens {
    /// Comments from `//` to the line's end, and between `/*` and `*/`. A sign that is no word is a token by itself.
    pub(crate) fn of(source: &str) -> Tokens {
        let chars: Vec<char> = source.chars().collect();
        let starts = |at: usize, with: &str| with.chars().enumerate().all(|(i, c)| chars.get(at + i) == Some(&c));
        let mut tokens = Vec::new();
        let mut at = 0;
        while at < chars.len() {
            let start = at;
            if starts(at, "//") {
                at += chars[at..].iter().take_while(|&&c| c != '\n').count();
            } else if starts(at, "/*") {
                at += 2;
                while at < chars.len() && !starts(at, "*/") {
                    at += 1;
                }
                at += 2;
            } else if chars[at] == '"' {
                at += 1;
                while at < chars.len() && chars[at] != '"' {
                    at += if chars[at] == '\\' { 2 } else { 1 };
                }
                at += 1;
                tokens.push(chars[start..at.min(chars.len())].iter().collect());
            } else if is_word(chars[at]) {
                at += chars[at..].iter().take_while(|&&c| is_word(c)).count();
                tokens.push(chars[start..at].iter().collect());
            } else {
                at += 1;
                if !chars[start].is_whitespace() {
                    tokens.push(chars[start].to_string());
                }
            }
        }
        Tokens { tokens, at: 0 }
    }

    pub(crate) fn is_done(&self) -> bool {
        self.at >= self.tokens.len()
    }

    pub(crate) fn peek(&self) -> &str {
        self.tokens.get(self.at).map_or("", String::as_str)
    }

    pub(crate) fn next(&mut self) -> Read<String> {
        let token = self.tokens.get(self.at).cloned().ok_or("the source ends too early")?;
        self.at += 1;
        Ok(token)
    }

    /// Whether these tokens stand here; then they are passed.
    pub(crate) fn take(&mut self, wanted: &str) -> bool {
        let count = wanted.split(' ').count();
        let found = self.tokens.iter().skip(self.at).take(count).map(String::as_str).eq(wanted.split(' '));
        if found {
            self.at += count;
        }
        found
    }

    pub(crate) fn expect(&mut self, wanted: &str) -> Read<()> {
        if self.take(wanted) {
            return Ok(());
        }
        let near = &self.tokens[self.at.saturating_sub(6).min(self.tokens.len())..(self.at + 6).min(self.tokens.len())];
        Err(format!("`{wanted}` is missing near `{}`", near.join(" ")))
    }

    pub(crate) fn word(&mut self) -> Read<String> {
        let word = self.next()?;
        match word.starts_with(|c: char| c.is_ascii_alphabetic() || c == '_') {
            true => Ok(word),
            false => Err(format!("`{word}` where a name is wanted")),
        }
    }

    /// Passes what stands between this sign, which is next, and its counterpart, with both of them.
    pub(crate) fn skip_group(&mut self, open: &str, close: &str) -> Read<()> {
        self.expect(open)?;
        let mut depth = 1;
        while depth > 0 {
            let token = self.next()?;
            depth += i32::from(token == open) - i32::from(token == close);
        }
        Ok(())
    }
}
