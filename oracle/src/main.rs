//! The customer's Rust beside the reader: answers, random books and the comparison. docs/TESTING.md says how to run it.

mod answer;
mod book;
mod compare;
#[cfg(counted)]
mod counting;
mod exhaustive;
#[cfg(exports)]
mod exported;
mod generate;
mod numbers;
#[cfg(exports)]
mod ours;
mod rows;
mod shrink;

/// candid_parser as the customer's sources see it.
#[path = "../standins/error.rs"]
mod error;
#[path = "../standins/grammar.rs"]
mod grammar;
#[path = "../standins/token.rs"]
mod token;

use error::{pretty_parse, Error, Result};

#[allow(dead_code)]
mod analysis {
    include!(concat!(env!("ORACLE_TREE"), "/parser/analysis.rs"));
}

#[allow(dead_code, unused_imports)]
mod syntax {
    include!(concat!(env!("ORACLE_TREE"), "/parser/syntax/mod.rs"));
}

/// typing.rs, and beside it what it keeps to itself.
#[allow(dead_code)]
mod typing {
    include!(concat!(env!("ORACLE_TREE"), "/parser/typing.rs"));

    /// `check_file_` from where the files are merged.
    pub fn check_merged(merged_prog: &IDLMergedProg) -> Result<(TypeEnv, Option<Type>)> {
        let mut te = TypeEnv::new();
        let mut env = Env { te: &mut te, pre: false };
        check_decs(&mut env, &merged_prog.decs())?;
        let res = check_actor(&env, &merged_prog.resolve_actor()?)?;
        Ok((te, res))
    }

    /// `check_decs` without `validate_decs`, for definitions on which that does not return.
    fn check_decs_unvalidated(env: &mut Env, decs: &[Dec]) -> Result<()> {
        for dec in decs.iter() {
            if let Dec::TypD(Binding { id, .. }) = dec {
                let duplicate = env.te.0.insert(id.to_string(), TypeInner::Unknown.into());
                if duplicate.is_some() {
                    return Err(Error::msg(format!("duplicate binding for {id}")));
                }
            }
        }
        env.pre = true;
        check_defs(env, decs)?;
        check_cycle(env.te)?;
        env.pre = false;
        Ok(())
    }

    /// Whether each method in a type is a function, no name crossed but those of the methods.
    fn has_functions(env: &TypeEnv, t: &Type) -> bool {
        match t.as_ref() {
            TypeInner::Opt(t) | TypeInner::Vec(t) => has_functions(env, t),
            TypeInner::Record(fs) | TypeInner::Variant(fs) => fs.iter().all(|f| has_functions(env, &f.ty)),
            TypeInner::Func(f) => f.args.iter().chain(&f.rets).all(|t| has_functions(env, t)),
            TypeInner::Service(ms) => ms.iter().all(|(_, t)| env.as_func(t).is_ok() && has_functions(env, t)),
            _ => true,
        }
    }

    fn validated(env: &TypeEnv) -> Result<()> {
        if env.0.values().all(|t| has_functions(env, t)) {
            Ok(())
        } else {
            Err(Error::msg("not a function type: "))
        }
    }

    pub fn check_merged_unvalidated(merged_prog: &IDLMergedProg) -> Result<(TypeEnv, Option<Type>)> {
        let mut te = TypeEnv::new();
        let mut env = Env { te: &mut te, pre: false };
        check_decs_unvalidated(&mut env, &merged_prog.decs())?;
        validated(env.te)?;
        let res = check_actor(&env, &merged_prog.resolve_actor()?)?;
        Ok((te, res))
    }

    pub fn check_init_args_unvalidated(te: &mut TypeEnv, main_env: &TypeEnv, prog: &IDLInitArgs) -> Result<Vec<Type>> {
        let mut env = Env { te, pre: false };
        check_decs_unvalidated(&mut env, &prog.decs)?;
        validated(env.te)?;
        env.te.merge(main_env)?;
        prog.args.iter().map(|arg| check_type(&env, &arg.typ)).collect()
    }

    /// The lowest name on which an init file's definitions and main's differ: `merge` with one of main's after another. The
    /// error that `merge` gives names none.
    pub fn differing(main_env: &TypeEnv, prog: &IDLInitArgs) -> Result<Option<String>> {
        let mut te = TypeEnv::new();
        check_decs_unvalidated(&mut Env { te: &mut te, pre: false }, &prog.decs)?;
        for (name, ty) in &main_env.0 {
            let one = TypeEnv(BTreeMap::from([(name.clone(), ty.clone())]));
            if te.merge(&one).is_err() {
                return Ok(Some(name.clone()));
            }
        }
        Ok(None)
    }
}

const STACK: usize = 1 << 30;

const USAGE: &str = "usage: oracle answer < BATCH
       oracle generate SEED COUNT [damage] > BATCH
       oracle generate-all main|import|init|sound|values|type-import|imports|import-init > BATCH
       oracle compare BATCH ANSWERS RUST [DIFFERENCE]
       oracle pick BATCH NAME > BOOK
       oracle shrink DIFFERENCE ANSWER_BATCH [ARGUMENT ...] > SMALLER";

fn main() {
    let run = || {
        stacker::begin(STACK);
        let words: Vec<String> = std::env::args().skip(1).collect();
        let words: Vec<&str> = words.iter().map(|word| word.as_str()).collect();
        match words[..] {
            ["answer"] => answer::run(),
            #[cfg(exports)]
            ["bench-uses", samples, length] => answer::bench::run_uses(number(samples), number(length)),
            #[cfg(counted)]
            ["measure"] => answer::bench::measure::run(),
            ["generate", seed, count] => generate::run(number(seed), number(count), false),
            ["generate", seed, count, "damage"] => generate::run(number(seed), number(count), true),
            ["generate-all", part] => exhaustive::run(part),
            ["compare", batch, answers, rust] => compare::run(batch, answers, rust, None),
            ["compare", batch, answers, rust, difference] => compare::run(batch, answers, rust, Some(difference)),
            ["pick", batch, name] => compare::pick(batch, name),
            #[cfg(exports)]
            ["bench", samples, length] => answer::bench::run(number(samples), number(length)),
            ["shrink", difference, ref answers @ ..] if !answers.is_empty() => shrink::run(difference, answers),
            _ => {
                eprintln!("{USAGE}");
                2
            }
        }
    };
    let thread = std::thread::Builder::new().stack_size(STACK).spawn(run);
    std::process::exit(thread.expect("a thread").join().unwrap_or(3));
}

fn number(word: &str) -> u64 {
    word.parse().expect("a number")
}
