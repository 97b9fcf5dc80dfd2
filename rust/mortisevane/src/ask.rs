//! The one place that calls the exports.

use crate::exports::Size;

/// What an export answers of memory that it was lent, as a number of the machine's own width: a count or a place that lies
/// within a slice, or among the eight calls, so that nothing is cut off.
pub(crate) fn within(size: Size) -> usize {
    size as usize
}

/// Asks an export: `ask!(export(value, lent row, lent mut row))`. What is handed over are the names of variables: numbers
/// and structs by value, `lent` slices as a pointer and a length.
macro_rules! ask {
    ($export:ident($($handed:tt)*)) => {
        ask!(@ $export [] $($handed)*,)
    };
    (@ $export:ident [$($ready:expr,)*] lent mut $row:ident, $($rest:tt)*) => {
        ask!(@ $export [$($ready,)* <[_]>::as_mut_ptr($row), <[_]>::len($row),] $($rest)*)
    };
    (@ $export:ident [$($ready:expr,)*] lent $row:ident, $($rest:tt)*) => {
        ask!(@ $export [$($ready,)* <[_]>::as_ptr($row), <[_]>::len($row),] $($rest)*)
    };
    (@ $export:ident [$($ready:expr,)*] $value:ident, $($rest:tt)*) => {
        ask!(@ $export [$($ready,)* $value,] $($rest)*)
    };
    (@ $export:ident [$($ready:expr,)*] $(,)?) => {
        // SAFETY: an export takes any numbers, and of rows any contents (include/mortisevane.h). Each pointer and length
        // is one slice's, so that it is aligned, not null (an empty slice's too), and good for so many elements. A row
        // that is lent for writing comes from `&mut`, so nothing else that is lent shares a byte with it; one that is lent
        // for reading is never written. Nothing that is lent is kept. The declarations are written from the proved source.
        unsafe { $crate::exports::$export($($ready),*) }
    };
}
