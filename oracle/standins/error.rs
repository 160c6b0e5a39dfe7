//! In place of candid_parser's error.rs.

use crate::token::ParserError;

pub type Result<T = ()> = std::result::Result<T, Error>;

#[derive(Debug)]
pub enum Error {
    Parse(ParserError),
    Custom(anyhow::Error),
    CandidError(candid::Error),
}

impl Error {
    pub fn msg<T: ToString>(text: T) -> Self {
        Error::Custom(anyhow::anyhow!(text.to_string()))
    }
}

impl std::fmt::Display for Error {
    fn fmt(&self, f: &mut std::fmt::Formatter<'_>) -> std::fmt::Result {
        match self {
            Error::Parse(e) => write!(f, "{e:?}"),
            Error::Custom(e) => write!(f, "{e}"),
            Error::CandidError(e) => write!(f, "{e}"),
        }
    }
}

impl From<ParserError> for Error {
    fn from(e: ParserError) -> Error {
        Error::Parse(e)
    }
}

impl From<anyhow::Error> for Error {
    fn from(e: anyhow::Error) -> Error {
        Error::Custom(e)
    }
}

impl From<candid::Error> for Error {
    fn from(e: candid::Error) -> Error {
        Error::CandidError(e)
    }
}

impl From<std::io::Error> for Error {
    fn from(e: std::io::Error) -> Error {
        Error::msg(format!("io error: {e}"))
    }
}

pub fn pretty_parse<T>(_name: &str, text: &str) -> Result<T>
where
    T: std::str::FromStr<Err = Error>,
{
    text.parse::<T>()
}
