//! Structs of numbers, told one after the other in the order of their fields.

/// What is made of so many numbers in one order.
pub trait Numbers: Sized {
    /// How many numbers it is made of.
    const COUNT: usize;

    /// Takes its numbers from the front; there must be enough.
    fn from_numbers(numbers: &mut impl Iterator<Item = u32>) -> Self;

    /// Adds its numbers at the end.
    fn append_to(&self, numbers: &mut Vec<u32>);

    /// All its numbers.
    fn numbers(&self) -> Vec<u32> {
        let mut numbers = Vec::with_capacity(Self::COUNT);
        self.append_to(&mut numbers);
        numbers
    }
}

impl Numbers for u32 {
    const COUNT: usize = 1;

    fn from_numbers(numbers: &mut impl Iterator<Item = u32>) -> Self {
        numbers.next().expect("there is a number for each field")
    }

    fn append_to(&self, numbers: &mut Vec<u32>) {
        numbers.push(*self);
    }
}

/// Nothing is told beside yes or no.
impl Numbers for () {
    const COUNT: usize = 0;

    fn from_numbers(_: &mut impl Iterator<Item = u32>) -> Self {}

    fn append_to(&self, _: &mut Vec<u32>) {}
}

/// Declares a struct whose fields are numbers, or again such structs.
macro_rules! numbers {
    (
        $(#[$about:meta])*
        pub struct $name:ident {
            $($(#[$meaning:meta])* pub $field:ident: $type:ty,)*
        }
    ) => {
        $(#[$about])*
        #[derive(Clone, Copy, Debug, Default, PartialEq, Eq)]
        pub struct $name {
            $($(#[$meaning])* pub $field: $type,)*
        }

        impl $crate::numbers::Numbers for $name {
            const COUNT: usize = 0 $(+ <$type as $crate::numbers::Numbers>::COUNT)*;

            // Rust makes a struct's fields in the order written.
            fn from_numbers(numbers: &mut impl Iterator<Item = u32>) -> Self {
                $name {
                    $($field: $crate::numbers::Numbers::from_numbers(numbers),)*
                }
            }

            fn append_to(&self, numbers: &mut Vec<u32>) {
                $($crate::numbers::Numbers::append_to(&self.$field, numbers);)*
            }
        }
    };
}

pub(crate) use numbers;

#[cfg(test)]
mod tests {
    use super::*;

    numbers! {
        pub struct Inner {
            pub left: u32,
            pub right: u32,
        }
    }

    numbers! {
        pub struct Outer {
            pub before: u32,
            pub inner: Inner,
            pub after: u32,
        }
    }

    #[test]
    fn in_the_order_of_the_fields() {
        let outer = Outer {
            before: 1,
            inner: Inner { left: 2, right: 3 },
            after: 4,
        };
        assert_eq!(Outer::COUNT, 4);
        assert_eq!(outer.numbers(), [1, 2, 3, 4]);
        assert_eq!(Outer::from_numbers(&mut (1..)), outer);
    }
}
