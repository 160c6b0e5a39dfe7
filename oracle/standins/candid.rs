//! In place of the crate candid: its types, as far as the reader's questions need them. types/internal.rs and
//! types/type_env.rs are the customer's, `idl_hash` and `RecursionDepth` are cut from lib.rs and utils.rs at build time.
#![allow(dead_code, unexpected_cfgs)]

pub mod types;

pub use types::{CandidType, TypeEnv};

pub mod utils {
    use crate::{Error, Result};
    include!(concat!(env!("ORACLE_TREE"), "/cut/utils.rs"));
}

include!(concat!(env!("ORACLE_TREE"), "/cut/lib.rs"));

pub type Result<T = ()> = std::result::Result<T, Error>;

#[derive(Debug)]
pub struct Error(String);

impl Error {
    pub fn msg<T: ToString>(text: T) -> Self {
        Error(text.to_string())
    }
}

impl std::fmt::Display for Error {
    fn fmt(&self, f: &mut std::fmt::Formatter<'_>) -> std::fmt::Result {
        f.write_str(&self.0)
    }
}
