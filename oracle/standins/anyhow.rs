//! In place of the crate anyhow: an error is its text.

pub struct Error(String);

pub type Result<T, E = Error> = std::result::Result<T, E>;

impl Error {
    pub fn msg<T: ToString>(text: T) -> Self {
        Error(text.to_string())
    }
}

impl std::fmt::Display for Error {
    fn fmt(&self, f: &mut std::fmt::Formatter<'_>) -> std::fmt::Result {
        f.write_str(&self.0)
    }
}

impl std::fmt::Debug for Error {
    fn fmt(&self, f: &mut std::fmt::Formatter<'_>) -> std::fmt::Result {
        f.write_str(&self.0)
    }
}

/// Only what an option needs.
pub trait Context<T> {
    fn with_context<C: std::fmt::Display, F: FnOnce() -> C>(self, text: F) -> Result<T>;
}

impl<T> Context<T> for Option<T> {
    fn with_context<C: std::fmt::Display, F: FnOnce() -> C>(self, text: F) -> Result<T> {
        self.ok_or_else(|| Error::msg(text()))
    }
}

#[macro_export]
macro_rules! anyhow {
    ($text:literal $($rest:tt)*) => { $crate::Error::msg(format!($text $($rest)*)) };
    ($text:expr) => { $crate::Error::msg($text) };
}

#[macro_export]
macro_rules! bail {
    ($($text:tt)*) => { return Err($crate::anyhow!($($text)*)) };
}
