// What constants.rs needs of the crate's own macro: the constants and `contains`.
#[macro_export]
macro_rules! my_bitflags {
    ($name:ident, #[error($msg:expr)] $unknown:ident, $t:ty,
     $(#[$meta:meta])* pub struct $same:ident: $u:ty { $($(#[$m:meta])* const $flag:ident = $v:expr;)* }) => {
        $(#[$meta])* pub struct $same($u);
        impl $same {
            $($(#[$m])* pub const $flag: $same = $same($v);)*
            pub const fn empty() -> Self { Self(0) }
            pub const fn contains(&self, other: Self) -> bool { self.0 & other.0 == other.0 }
        }
    };
}
