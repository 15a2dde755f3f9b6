//! The words and signs of a text, and the text of words and signs with spaces where lines have them.

/// A word of letters and digits, or a sign.
pub enum Token {
    Word(String),
    Sign(char),
}

pub fn tokens(text: &str) -> Vec<Token> {
    let mut tokens: Vec<Token> = Vec::new();
    let mut goes_on = false;
    for letter in text.chars() {
        let is_word = letter.is_alphanumeric() || letter == '_' || letter == '.';
        match tokens.last_mut() {
            Some(Token::Word(word)) if is_word && goes_on => word.push(letter),
            _ if is_word => tokens.push(Token::Word(letter.into())),
            _ if letter.is_whitespace() => {}
            _ => tokens.push(Token::Sign(letter)),
        }
        goes_on = is_word;
    }
    tokens
}

/// A space stands behind the first word and behind a comma, and between two words or before the `#` behind one.
pub fn joined(tokens: &[Token]) -> String {
    let mut text = String::new();
    for (at, token) in tokens.iter().enumerate() {
        let before = at.checked_sub(1).map(|before| &tokens[before]);
        let parted = match (before, token) {
            (None, _) => false,
            (Some(Token::Sign(sign)), _) => *sign == ',',
            (Some(Token::Word(_)), Token::Word(_) | Token::Sign('#')) => true,
            (Some(Token::Word(_)), Token::Sign(sign)) => at == 1 && *sign != ',',
        };
        if parted {
            text.push(' ');
        }
        match token {
            Token::Word(word) => text += word,
            Token::Sign(sign) => text.push(*sign),
        }
    }
    text
}

/// A number in decimal, or after 0x in hexadecimal.
pub fn read_number(word: &str) -> Option<u32> {
    let (digits, radix) = word.strip_prefix("0x").map_or((word, 10), |digits| (digits, 16));
    let is_number = digits.bytes().all(|digit| digit.is_ascii_alphanumeric());
    is_number.then(|| u32::from_str_radix(digits, radix).ok()).flatten()
}
