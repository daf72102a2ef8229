//! A stand-in for snafu: `.context(..)` on a result, and a derive that writes nothing. The one context selector that the
//! compiled files use stands in the crate root.
pub use snafu_derive::Snafu;

pub trait IntoError<E> {
    type Source;
    fn into_error(self, source: Self::Source) -> E;
}

pub trait ResultExt<T, S> {
    fn context<C, E>(self, selector: C) -> Result<T, E>
    where
        C: IntoError<E, Source = S>;
}

impl<T, S> ResultExt<T, S> for Result<T, S> {
    fn context<C, E>(self, selector: C) -> Result<T, E>
    where
        C: IntoError<E, Source = S>,
    {
        self.map_err(|source| selector.into_error(source))
    }
}

pub mod prelude {
    pub use crate::{ResultExt, Snafu};
}
