//! The exports of the clearing book's static library.

use crate::arguments::Arguments;

/// Declares exports, each as a method: slices to read, words, and slices to write by their places. A
/// slice is passed as a pointer to its first cell and its length.
macro_rules! exports {
    ($(
        $(#[$about:meta])*
        fn $name:ident = $symbol:literal(
            $($read:ident),+; $($word:ident: $type:ty),+; $($write:ident at $place:literal),+
        ) -> $answer:ty;
    )+) => {
        impl Arguments {$(
            $(#[$about])*
            pub fn $name(&mut self) -> $answer {
                extern "C" {
                    #[link_name = $symbol]
                    fn export(
                        $($read: *const u64, _: usize,)+
                        $($word: $type,)+
                        $($write: *mut u64, _: usize,)+
                    ) -> $answer;
                }
                // SAFETY: every pointer comes with the length of the slice it is of, and the
                // export writes inside those that are lent as mutable alone.
                unsafe {
                    export(
                        $(self.$read.as_ptr(), self.$read.len(),)+
                        $(self.$word,)+
                        $(self.written[$place].as_mut_ptr(), self.written[$place].len(),)+
                    )
                }
            }
        )+}
    };
}

exports! {
    /// Whether the arguments were in order.
    fn notice = "clearing_notice"(
        by, to, groups, reserves; n: usize; retention at 0, payable at 1
    ) -> bool;

    /// Whether the arguments were in order. The scaled amounts are written above 0 and below it.
    fn scaled = "clearing_scaled"(
        by, to, groups, reserves, received; n: usize; revised at 0, above at 1, below at 2
    ) -> bool;

    /// The rounds, or more than 64 where the arguments are not in order.
    fn settle = "clearing_settle"(
        by, to, groups, reserves, received; n: usize; paid at 0, claims at 1, arrears at 2
    ) -> u64;

    /// Whether the arguments were in order.
    fn late = "clearing_late"(
        to, claims, paid; money: u64, n: usize; pays at 0
    ) -> bool;
}

extern "C" {
    fn clearing_proportion(amount: u64, part: u64, whole: u64) -> u64;
}

/// amount × part / whole rounded down, or 2^64 − 1 where the arguments are not in order.
pub fn proportion(amount: u64, part: u64, whole: u64) -> u64 {
    // SAFETY: the function takes any three words.
    unsafe { clearing_proportion(amount, part, whole) }
}
