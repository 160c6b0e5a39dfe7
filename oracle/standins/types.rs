//! In place of types/mod.rs.

pub mod internal;
pub mod type_env;

pub use internal::{Field, FuncMode, Function, Label, Type, TypeInner};
pub use type_env::TypeEnv;

pub trait CandidType {
    fn ty() -> Type;
}
