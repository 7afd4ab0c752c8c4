//! The words, numbers and marks of the written form, each by how it is spelled.

#[derive(Clone, Copy, PartialEq, Debug)]
pub enum Token {
    /// A word or mark that is always spelled alike.
    Fixed(&'static str),
    /// "Variables are v0 to v15"
    Variable,
    /// "options o0 and up, below F"
    Option(usize),
    /// F, the number of options.
    Count,
    /// "numbers are signed decimals in 32 bits"
    Number,
}

impl Token {
    /// Whether it is a word or number, and no mark.
    pub fn is_word(self) -> bool {
        match self {
            Token::Fixed(word) => word.starts_with(|c: char| c.is_ascii_alphabetic()),
            _ => true,
        }
    }

    /// Whether a spelling of it begins with these bytes.
    pub fn begins(self, bytes: &[u8]) -> bool {
        match self {
            Token::Fixed(word) => word.as_bytes().starts_with(bytes),
            Token::Option(options) if bytes == b"o" => options > 0,
            Token::Variable if bytes == b"v" => true,
            Token::Number if bytes == b"-" => true,
            _ => self.value(bytes).is_some(),
        }
    }

    /// What it stands for, where these bytes are all of its spelling (0 for a word or mark).
    pub fn value(self, bytes: &[u8]) -> Option<i64> {
        let text = std::str::from_utf8(bytes).ok()?;
        let below = |number: Option<i64>, end: usize| number.filter(|&n| n < end as i64);
        match self {
            Token::Fixed(word) => (text == word).then_some(0),
            Token::Variable => below(decimal(text.strip_prefix('v')?), 16),
            Token::Option(options) => below(decimal(text.strip_prefix('o')?), options),
            Token::Count => below(decimal(text), 7),
            Token::Number => signed(text),
        }
    }
}

/// "no plus, leading zero"
fn decimal(text: &str) -> Option<i64> {
    let digits = !text.is_empty() && text.bytes().all(|byte| byte.is_ascii_digit());
    let leading_zero = text.len() > 1 && text.starts_with('0');
    (digits && !leading_zero).then(|| text.parse().ok())?
}

/// "or -0"
fn signed(text: &str) -> Option<i64> {
    let number = match text.strip_prefix('-') {
        Some(digits) => -decimal(digits).filter(|&n| n != 0)?,
        None => decimal(text)?,
    };
    i32::try_from(number).ok().map(i64::from)
}
