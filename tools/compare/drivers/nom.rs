//! nom 8's face over nom 7, for the crate `versions` 8.0.1 and nothing else.
//!
//! Every name that the crate imports from nom stands here as nom 7 has it, but
//! `fail`: a parser in nom 7, and in nom 8 a function that makes one. Names
//! that the crate does not use are left out, so that sources which need
//! another changed name do not build, rather than build with another meaning.

pub use nom7::{Err, IResult, Parser};

pub mod error {
    pub use nom7::error::Error;
}

pub mod branch {
    pub use nom7::branch::alt;
}

pub mod bytes {
    pub mod complete {
        pub use nom7::bytes::complete::{tag, take_while1};
    }
}

pub mod character {
    pub mod complete {
        pub use nom7::character::complete::{alphanumeric1, char, digit1};
    }
}

pub mod multi {
    pub use nom7::multi::separated_list1;
}

pub mod combinator {
    pub use nom7::combinator::{eof, map, map_res, opt, peek, recognize, value};

    /// Makes nom 7's parser `fail`, which always gives a recoverable error.
    pub fn fail<I, O, E: nom7::error::ParseError<I>>() -> impl FnMut(I) -> nom7::IResult<I, O, E> {
        nom7::combinator::fail
    }
}
