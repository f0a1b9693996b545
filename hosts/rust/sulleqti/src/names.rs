//! Values that have names in CSL.

use crate::error::Error;
use crate::json::Members;

/// Enums with the name of each value, which stands in its docs.
macro_rules! named {
    ($($(#[$of_enum:meta])* $enum:ident {
        $($(#[$of_value:meta])* $value:ident = $name:literal),* $(,)?
    })*) => {
        $(
            $(#[$of_enum])*
            #[derive(Clone, Copy, Debug, PartialEq, Eq, Hash)]
            pub enum $enum {
                $(#[doc = concat!("`", $name, "`.")] $(#[$of_value])* $value,)*
            }

            impl $enum {
                /// The name in CSL, or in docs/WIRE.md.
                pub fn name(self) -> &'static str {
                    match self {
                        $($enum::$value => $name,)*
                    }
                }
            }

            impl $crate::names::Named for $enum {
                fn from_name(name: &str) -> Option<$enum> {
                    match name {
                        $($name => Some($enum::$value),)*
                        _ => None,
                    }
                }
            }
        )*
    };
}

pub(crate) use named;

/// A type whose values have names.
pub(crate) trait Named: Sized {
    /// The value of this name.
    fn from_name(name: &str) -> Option<Self>;
}

/// The value whose name a member of a reply has.
pub(crate) fn take_named<T: Named>(
    members: &mut Members,
    member: &'static str,
) -> Result<Option<T>, Error> {
    let Some(name) = members.take(member) else { return Ok(None) };
    T::from_name(&name.into_text()?).map(Some).ok_or(Error::Reply(member))
}
