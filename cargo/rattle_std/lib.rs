//! What the program takes from the std of the Rattle toolchain, on Rust's own. **Not proved.**
//!
//! Memory that the program asks for itself can be refused here too. Where Rust's std asks for some
//! by itself, the program ends if there is none.

use std::collections::TryReserveError;
use std::{env, io};

/// The allocator, which Rust does not pass on.
#[derive(Clone, Copy)]
pub struct Global;

/// There was no memory.
#[derive(Clone, Copy, Debug, PartialEq, Eq)]
pub struct AllocError;

impl From<TryReserveError> for AllocError {
    fn from(_error: TryReserveError) -> AllocError {
        AllocError
    }
}

/// Why a test ends early.
pub type Fail = AllocError;

/// A type without meaning: contracts use it to tell one call from another. It is never made.
pub enum Brand {}

/// A `String`, where there may be no memory.
pub trait Text: Sized {
    fn from_str(alloc: Global, text: &str) -> Result<Self, AllocError>;
    fn try_push_str(&mut self, text: &str) -> Result<(), AllocError>;
}

impl Text for String {
    fn from_str(_alloc: Global, text: &str) -> Result<String, AllocError> {
        let mut made = String::new();
        made.try_push_str(text)?;
        Ok(made)
    }

    fn try_push_str(&mut self, text: &str) -> Result<(), AllocError> {
        self.try_reserve(text.len())?;
        self.push_str(text);
        Ok(())
    }
}

/// A `Vec`, where there may be no memory.
pub trait Items<T> {
    fn try_push(&mut self, item: T) -> Result<(), AllocError>;
    fn try_extend_from_slice(&mut self, items: &[T]) -> Result<(), AllocError>
    where
        T: Clone;
}

impl<T> Items<T> for Vec<T> {
    fn try_push(&mut self, item: T) -> Result<(), AllocError> {
        self.try_reserve(1)?;
        self.push(item);
        Ok(())
    }

    #[inline]
    fn try_extend_from_slice(&mut self, items: &[T]) -> Result<(), AllocError>
    where
        T: Clone,
    {
        self.try_reserve(items.len())?;
        self.extend_from_slice(items);
        Ok(())
    }
}

/// What ends a test that fails.
pub trait Abort {}

impl Abort for HostRuntime {}

/// The process.
#[derive(Clone, Copy)]
pub struct HostRuntime;

impl HostRuntime {
    pub fn alloc(self) -> Global {
        Global
    }

    pub fn stdin(self) -> io::Stdin {
        io::stdin()
    }

    pub fn stdout(self) -> io::Stdout {
        io::stdout()
    }

    pub fn stderr(self) -> io::Stderr {
        io::stderr()
    }

    /// The words of the call. It fails if one is not in UTF-8.
    pub fn words(self) -> Result<Vec<String>, io::Error> {
        let words = env::args_os().map(|it| it.into_string());
        words.collect::<Result<_, _>>().map_err(|_| io::ErrorKind::InvalidData.into())
    }
}
