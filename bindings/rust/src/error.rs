//! Why a call was refused.
use core::fmt;

macro_rules! errors {
    ($($name:ident = $number:literal, $message:literal;)*) => {
        /// Why a call was refused. `number` is the number that the library itself returns; include/pipnn.h says which call returns
        /// which, in which order it checks, and what stays unchanged (everything but scratch).
        #[derive(Clone, Copy, Debug, PartialEq, Eq, Hash)]
        #[non_exhaustive]
        pub enum Error {
            $(#[doc = $message] $name,)*
            /// A number that this crate has no name for: the archive is newer than the crate.
            Unknown(u32),
        }

        impl Error {
            /// Every error that has a name, by rising number.
            pub const ALL: &'static [Error] = &[$(Error::$name),*];

            /// The library's number.
            pub const fn number(self) -> u32 {
                match self {
                    $(Error::$name => $number,)*
                    Error::Unknown(number) => number,
                }
            }

            /// What was wrong, in a sentence.
            pub const fn message(self) -> &'static str {
                match self {
                    $(Error::$name => $message,)*
                    Error::Unknown(_) => "a refusal that this crate has no name for",
                }
            }

            fn of(number: u32) -> Error {
                match number {
                    $($number => Error::$name,)*
                    other => Error::Unknown(other),
                }
            }
        }
    };
}

errors! {
    DimensionOutOfRange = 1, "the dimension is not 1 to 64";
    ParameterOutOfRange = 2, "a parameter or the capacity is beyond its limits";
    SliceTooShort = 3, "a store or scratch is too short";
    NotWellFormed = 4, "the store's content is not that of an index";
    AlreadyBuilt = 5, "the index is built, and takes no more vectors";
    DimensionMismatch = 6, "the vector's length differs from the dimension";
    NonFiniteInput = 7, "a component is infinite or not a number";
    Full = 8, "the index holds as many vectors as its capacity";
    EmptyIndex = 9, "an index with no vectors cannot be built";
    NotBuilt = 10, "the index is not built; call build() before searching";
    KOrEfTooLarge = 11, "k or ef is above 1024";
    OutputTooShort = 12, "an output is shorter than the answer can be";
    LimitNotFinite = 13, "the limit is infinite or not a number";
    BadSightings = 14, "there are more than 512 sightings, or their two lists differ in length";
}

/// The library's 0 is success.
pub(crate) fn accepted(number: u32) -> Result<(), Error> {
    match number {
        0 => Ok(()),
        refusal => Err(Error::of(refusal)),
    }
}

impl fmt::Display for Error {
    fn fmt(&self, f: &mut fmt::Formatter<'_>) -> fmt::Result {
        write!(f, "{} (refusal {})", self.message(), self.number())
    }
}

#[cfg(feature = "std")]
impl std::error::Error for Error {}
