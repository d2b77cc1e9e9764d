//! The words of a text in Rattle, Rust or C, each with its line. Comments are
//! left out; a string stays one word with its quotes.

#[derive(Clone, Debug, PartialEq, Eq)]
pub struct Token {
    pub text: String,
    pub line: usize,
}

/// Signs of two characters that are one word.
const PAIRS: [&str; 3] = ["->", "=>", "::"];

pub fn tokens(text: &str) -> Vec<Token> {
    let chars: Vec<char> = text.chars().collect();
    let mut out = Vec::new();
    let (mut at, mut line) = (0, 1);
    while at < chars.len() {
        let end = word_end(&chars, at);
        let word: String = chars[at..end].iter().collect();
        let comment = word.starts_with("//") || word.starts_with("/*");
        if !comment && !chars[at].is_whitespace() {
            let token = Token {
                text: word.clone(),
                line,
            };
            out.push(token);
        }
        line += word.matches('\n').count();
        at = end;
    }
    out
}

fn is_word(c: char) -> bool {
    c.is_alphanumeric() || c == '_'
}

/// Where the word, the comment or the white space that begins here ends.
fn word_end(chars: &[char], at: usize) -> usize {
    let here = |i: usize| chars.get(i).copied().unwrap_or('\0');
    match (here(at), here(at + 1)) {
        ('/', '/') => line_end(chars, at),
        ('/', '*') => comment_end(chars, at),
        ('"', _) => quoted_end(chars, at + 1, '"'),
        // a character, not a lifetime and not a name with a prime
        ('\'', '\\') => quoted_end(chars, at + 1, '\''),
        ('\'', _) if here(at + 2) == '\'' => at + 3,
        (c, _) if is_word(c) => {
            let mut end = at;
            while is_word(here(end)) {
                end += 1;
            }
            end
        }
        (a, b) if PAIRS.contains(&[a, b].iter().collect::<String>().as_str()) => at + 2,
        _ => at + 1,
    }
}

fn line_end(chars: &[char], at: usize) -> usize {
    let rest = chars[at..].iter().position(|c| *c == '\n');
    rest.map_or(chars.len(), |n| at + n)
}

/// Comments of this kind stand within each other in Rust.
fn comment_end(chars: &[char], at: usize) -> usize {
    let (mut end, mut deep) = (at, 0);
    while end + 1 < chars.len() {
        match (chars[end], chars[end + 1]) {
            ('/', '*') => (deep, end) = (deep + 1, end + 2),
            ('*', '/') => (deep, end) = (deep - 1, end + 2),
            _ => end += 1,
        }
        if deep == 0 {
            return end;
        }
    }
    chars.len()
}

fn quoted_end(chars: &[char], at: usize, quote: char) -> usize {
    let mut end = at;
    while end < chars.len() && chars[end] != quote {
        end += if chars[end] == '\\' { 2 } else { 1 };
    }
    (end + 1).min(chars.len())
}

/// The words from one place on. What was expected and is not there ends in an
/// error that says where.
pub struct Cursor<'a> {
    file: &'a str,
    tokens: &'a [Token],
    at: usize,
}

impl<'a> Cursor<'a> {
    pub fn new(file: &'a str, tokens: &'a [Token]) -> Cursor<'a> {
        Cursor {
            file,
            tokens,
            at: 0,
        }
    }

    /// The word that comes next, or one behind it; empty past the end.
    pub fn ahead(&self, by: usize) -> &'a str {
        self.tokens.get(self.at + by).map_or("", |t| &t.text)
    }

    pub fn peek(&self) -> &'a str {
        self.ahead(0)
    }

    pub fn done(&self) -> bool {
        self.at >= self.tokens.len()
    }

    /// FILE:LINE of the next word.
    pub fn place(&self) -> String {
        let here = self.tokens.get(self.at).or(self.tokens.last());
        format!("{}:{}", self.file, here.map_or(1, |t| t.line))
    }

    pub fn word(&mut self) -> &'a str {
        let text = self.peek();
        self.at += 1;
        text
    }

    /// Takes the next word if it is this one.
    pub fn take(&mut self, text: &str) -> bool {
        let is = self.peek() == text;
        self.at += usize::from(is);
        is
    }

    /// Takes all of these words or none.
    pub fn take_all(&mut self, texts: &[&str]) -> bool {
        let are = texts.iter().enumerate().all(|(i, t)| self.ahead(i) == *t);
        self.at += if are { texts.len() } else { 0 };
        are
    }

    pub fn expect(&mut self, text: &str) -> Result<(), String> {
        if self.take(text) {
            return Ok(());
        }
        Err(self.wrong(&format!("`{text}`")))
    }

    pub fn name(&mut self) -> Result<String, String> {
        let first = self.peek().chars().next().unwrap_or(' ');
        if !is_word(first) || first.is_numeric() {
            return Err(self.wrong("a name"));
        }
        Ok(self.word().to_string())
    }

    pub fn number(&mut self) -> Result<u64, String> {
        let value = number(self.peek()).ok_or_else(|| self.wrong("a number"))?;
        self.at += 1;
        Ok(value)
    }

    /// The words up to the sign that closes the one that comes next; both are
    /// taken and left out.
    pub fn group(&mut self, open: &str, close: &str) -> Result<&'a [Token], String> {
        self.expect(open)?;
        let (start, mut deep) = (self.at, 1);
        while !self.done() {
            let word = self.word();
            deep += usize::from(word == open);
            deep -= usize::from(word == close);
            if deep == 0 {
                return Ok(&self.tokens[start..self.at - 1]);
            }
        }
        Err(self.wrong(&format!("`{close}`")))
    }

    pub fn wrong(&self, wanted: &str) -> String {
        let there = if self.done() {
            "the end".to_string()
        } else {
            format!("`{}`", self.peek())
        };
        format!("{}: {wanted} was expected, not {there}", self.place())
    }
}

/// A plain whole number as Rattle, Rust and C write it: `44_356`, `0x7FFF`.
pub fn number(word: &str) -> Option<u64> {
    let digits: String = word.chars().filter(|c| *c != '_').collect();
    match digits.strip_prefix("0x") {
        Some(hex) => u64::from_str_radix(hex, 16).ok(),
        None => digits.parse().ok(),
    }
}

/// The parts between commas that stand in no brackets; a last comma ends no
/// part.
pub fn parts(tokens: &[Token]) -> Vec<&[Token]> {
    let mut out = Vec::new();
    let (mut start, mut deep) = (0, 0);
    for (i, token) in tokens.iter().enumerate() {
        match token.text.as_str() {
            "(" | "[" | "{" => deep += 1,
            ")" | "]" | "}" => deep -= 1,
            "," if deep == 0 => {
                out.push(&tokens[start..i]);
                start = i + 1;
            }
            _ => {}
        }
    }
    if start < tokens.len() {
        out.push(&tokens[start..]);
    }
    out
}
