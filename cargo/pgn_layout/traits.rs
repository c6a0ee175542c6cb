//! What Rust's users expect of the types. **Not proved**: written for Cargo.

#[cfg(feature = "std")]
use crate::Outlet;
use crate::{CurrentLine, Layout, WriteFault};
use core::fmt::{self, Debug, Display, Formatter};

impl Display for WriteFault {
    /// Writes the words that the program reports.
    fn fmt(&self, out: &mut Formatter<'_>) -> fmt::Result {
        out.write_str("output cannot be written")
    }
}

#[cfg(feature = "std")]
impl std::error::Error for WriteFault {}

#[cfg(feature = "std")]
impl<W> Debug for Outlet<W> {
    fn fmt(&self, out: &mut Formatter<'_>) -> fmt::Result {
        out.debug_struct("Outlet").finish_non_exhaustive()
    }
}

/// Shows a type by its name. The default is what `new` makes.
macro_rules! is_plain {
    ($($type:ident)*) => {$(
        impl Debug for $type {
            fn fmt(&self, out: &mut Formatter<'_>) -> fmt::Result {
                out.debug_struct(stringify!($type)).finish_non_exhaustive()
            }
        }

        impl Default for $type {
            fn default() -> $type {
                $type::new()
            }
        }
    )*};
}

is_plain!(CurrentLine Layout);
