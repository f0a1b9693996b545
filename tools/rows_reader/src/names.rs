//! The names that CSL gives to variables, terms and the values of attributes.

/// A value that a name stands for.
pub trait Named: Copy + Drop {
    /// The value of the name.
    fn from_name(name: &str) -> Option<Self>;
}

/// A value that has a name.
pub trait Name: Copy {
    fn name(self) -> &'static str;
}

/// Gives names to the arms of enums, for rows to be read.
macro_rules! named {
    ($($enum:ident { $($name:literal $arm:ident $(($value:expr))?),* })*) => {
        $(
            impl Named for $enum {
                fn from_name(name: &str) -> Option<$enum> {
                    match name {
                        $($name => Some($enum::$arm $(($value))?),)*
                        _ => None,
                    }
                }
            }
        )*
    };
}

/// Gives names to the arms of enums, for rows to be read and for results to be printed.
macro_rules! names {
    ($($enum:ident { $($name:literal $arm:ident),* })*) => {
        $(
            impl Named for $enum {
                fn from_name(name: &str) -> Option<$enum> {
                    match name {
                        $($name => Some($enum::$arm),)*
                        _ => None,
                    }
                }
            }

            impl Name for $enum {
                fn name(self) -> &'static str {
                    match self {
                        $($enum::$arm => $name,)*
                    }
                }
            }
        )*
    };
}

pub mod options;
pub mod variables;
