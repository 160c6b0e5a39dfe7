//! In place of the grammar: no text is read here.

use crate::syntax::{IDLInitArgs, IDLProg, IDLType, IDLTypes};
use crate::token::{ParserError, Tokenizer, TriviaMap};

macro_rules! parsers {
    ($($parser:ident $parsed:ident),*) => { $(
        pub struct $parser;
        impl $parser {
            pub fn new() -> Self {
                $parser
            }
            pub fn parse(&self, _trivia: Option<&TriviaMap>, _lexer: Tokenizer) -> Result<$parsed, ParserError> {
                Err(ParserError)
            }
        }
    )* };
}

parsers!(TypParser IDLType, TypsParser IDLTypes, IDLProgParser IDLProg, IDLInitArgsParser IDLInitArgs);
