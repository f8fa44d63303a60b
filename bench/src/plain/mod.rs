//! The Rust side: what a programmer would write for speed without a proof, and the nested loops of the definition.
//!
//! Nothing here takes memory from the heap, and divisors are constants: every function is compiled once for each q.

pub mod audit;
pub mod book;
pub mod judge;
pub mod map;
pub mod sha256;
pub mod system;

/// Calls `$function::<q>(arguments)` for the q of a checked system.
#[macro_export]
macro_rules! by_order {
    ($q:expr, $function:ident($($argument:expr),*)) => {
        match $q {
            2 => $function::<2>($($argument),*),
            7 => $function::<7>($($argument),*),
            31 => $function::<31>($($argument),*),
            _ => $function::<251>($($argument),*),
        }
    };
}
