//! A stand-in for the crate `bitflags`: flags with a name each, and whether one holds another.
#[macro_export]
macro_rules! bitflags {
    ($(#[$of:meta])* pub struct $name:ident: $bits:ty { $($(#[$on:meta])* const $flag:ident = $value:expr;)* }) => {
        $(#[$of])*
        pub struct $name($bits);
        impl $name {
            $($(#[$on])* pub const $flag: Self = Self($value);)*
            pub const fn empty() -> Self {
                Self(0)
            }
            pub const fn contains(&self, other: Self) -> bool {
                self.0 & other.0 == other.0
            }
        }
    };
}
