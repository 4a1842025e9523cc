//! The words and the quoted texts of a line.

#[derive(Clone, PartialEq, Eq, Debug)]
pub enum Token {
    Word(String),
    Text(String),
}

impl Token {
    /// What was written, without quotes.
    pub fn written(&self) -> &str {
        match self {
            Token::Word(w) | Token::Text(w) => w,
        }
    }
}

/// The words of a line with where each starts, and where a comment or the line ends.
pub fn tokens(line: &str) -> Result<(Vec<(Token, usize)>, usize), String> {
    let mut found = Vec::new();
    let mut chars = line.char_indices().peekable();
    while let Some(&(at, c)) = chars.peek() {
        match c {
            '#' => return Ok((found, at)),
            '"' => {
                chars.next();
                let mut text = String::new();
                loop {
                    match chars.next() {
                        None => return Err("a text that does not end: a closing \" is missing".into()),
                        Some((_, '"')) => break,
                        Some((_, '\\')) => match chars.next() {
                            Some((_, 'n')) => text.push('\n'),
                            Some((_, c @ ('"' | '\\'))) => text.push(c),
                            _ => return Err("in a text, \\ stands only before \", \\ or n".into()),
                        },
                        Some((_, c)) => text.push(c),
                    }
                }
                found.push((Token::Text(text), at));
            }
            c if c.is_whitespace() => {
                chars.next();
            }
            _ => {
                let mut word = String::new();
                while let Some((_, c)) = chars.next_if(|(_, c)| !c.is_whitespace() && *c != '#' && *c != '"') {
                    word.push(c);
                }
                found.push((Token::Word(word), at));
            }
        }
    }
    Ok((found, line.len()))
}
