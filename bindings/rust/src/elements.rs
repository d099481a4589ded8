//! Codes and quantities into and out of the elements of an array.

use crate::numbers::{Code, Quantity};

/// What stands in one or more elements, from the first of a slice on.
pub trait Stored<Element>: Sized {
    fn put(&self, elements: &mut [Element]);
    fn take(elements: &[Element]) -> Self;
}

impl<C: Code + Copy> Stored<u32> for C {
    fn put(&self, elements: &mut [u32]) {
        let code = self.to_elements();
        let code = code.as_ref();
        elements[..code.len()].copy_from_slice(code);
    }

    fn take(elements: &[u32]) -> Self {
        let mut code = C::Elements::default();
        let count = code.as_ref().len();
        code.as_mut().copy_from_slice(&elements[..count]);
        C::from_elements(code)
    }
}

impl<Q: Quantity + Copy> Stored<i64> for Q {
    fn put(&self, elements: &mut [i64]) {
        elements[0] = self.to_element();
    }

    fn take(elements: &[i64]) -> Self {
        Q::from_element(elements[0])
    }
}

/// What has an array of its own.
pub trait Record: Sized {
    type Element;
    type Elements: AsRef<[Self::Element]> + AsMut<[Self::Element]>;
    /// The elements of a record without any field.
    const BLANK: Self::Elements;
    fn to_elements(&self) -> Self::Elements;
    fn from_elements(elements: &Self::Elements) -> Self;
}

/// A struct whose fields stand in the elements that are written after them.
macro_rules! group {
    ($(#[$text:meta])* $name:ident of $element:ty { $($field:ident: $type:ty = $at:literal),* $(,)? }) => {
        $(#[$text])*
        #[derive(Clone, Copy, Debug, PartialEq, Eq, Hash)]
        pub struct $name {
            $(pub $field: $type),*
        }

        impl Stored<$element> for $name {
            fn put(&self, elements: &mut [$element]) {
                $(self.$field.put(&mut elements[$at..]);)*
            }

            fn take(elements: &[$element]) -> Self {
                $name { $($field: Stored::take(&elements[$at..])),* }
            }
        }
    };
}

/// An enum that is a record: the number of its type in element 0, and the fields from the elements on that are written after them.
macro_rules! record {
    (
        $(#[$text:meta])* $name:ident of [$element:ty; $elements:literal], $blank:expr;
        $($(#[$type_text:meta])* $type:ident = $number:literal { $($field:ident: $kind:ty = $at:literal),* $(,)? }),* $(,)?
    ) => {
        $(#[$text])*
        pub enum $name {
            $($(#[$type_text])* $type { $($field: $kind),* }),*
        }

        impl Record for $name {
            type Element = $element;
            type Elements = [$element; $elements];
            const BLANK: [$element; $elements] = $blank;

            fn to_elements(&self) -> [$element; $elements] {
                let mut elements = Self::BLANK;
                match self {
                    $($name::$type { $($field),* } => {
                        elements[0] = $number;
                        $($field.put(&mut elements[$at..]);)*
                    })*
                }
                elements
            }

            fn from_elements(elements: &[$element; $elements]) -> Self {
                match elements[0] {
                    $($number => $name::$type { $($field: Stored::take(&elements[$at..])),* },)*
                    other => unreachable!("the library gives no {} of type {other}", stringify!($name)),
                }
            }
        }
    };
}

pub(crate) use {group, record};
