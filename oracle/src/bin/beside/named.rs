//! An enum whose cases have words for what is printed.
macro_rules! named {
    ($(#[$doc:meta])* $name:ident { $($case:ident = $text:expr),* $(,)? }) => {
        $(#[$doc])* #[derive(Clone, Copy, Debug, PartialEq, Eq)] pub enum $name { $($case),* }
        impl $name {
            pub const ALL: &'static [$name] = &[$($name::$case),*];
            pub fn text(self) -> &'static str { match self { $($name::$case => $text),* } }
        }
    };
}
