//! In place of token.rs: no text is read here.

#[derive(Debug)]
pub struct ParserError;

#[derive(Clone, Default)]
pub struct TriviaMap;

pub struct Tokenizer;

impl Tokenizer {
    pub fn new_with_trivia(_text: &str, _trivia: TriviaMap) -> Self {
        Tokenizer
    }
}
