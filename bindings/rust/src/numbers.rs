//! Quantities in their units and codes in their fields. None is ever taken for another.

/// The mark of what is missing, in an element of quantities.
pub(crate) const MISSING: i64 = i64::MIN;

/// A quantity as an element of an array.
pub trait Quantity: Sized {
    #[doc(hidden)]
    fn to_element(self) -> i64;
    #[doc(hidden)]
    fn from_element(element: i64) -> Self;
}

macro_rules! quantities {
    ($($(#[$text:meta])* $name:ident($number:ty)),* $(,)?) => {$(
        $(#[$text])*
        #[derive(Clone, Copy, Debug, PartialEq, Eq, PartialOrd, Ord, Hash)]
        pub struct $name(pub $number);

        impl Quantity for $name {
            fn to_element(self) -> i64 {
                i64::from(self.0)
            }

            fn from_element(element: i64) -> Self {
                $name(element.try_into().expect("the library keeps to the width"))
            }
        }
    )*};
}

quantities!(
    /// Latitude and longitude, north and east above zero.
    Nanodegrees(i64),
    /// Every other angle.
    Millidegrees(u32),
    /// A length without a direction.
    Millimetres(u32),
    /// An altitude, depth below zero.
    AltitudeMillimetres(i32),
    /// A speed without a direction.
    MetresPerHour(u32),
    /// A vertical speed, down below zero.
    VerticalMetresPerHour(i32),
    /// A confidence.
    Percent(u32),
);

impl<Q: Quantity> Quantity for Option<Q> {
    fn to_element(self) -> i64 {
        self.map_or(MISSING, Q::to_element)
    }

    fn from_element(element: i64) -> Self {
        (element != MISSING).then(|| Q::from_element(element))
    }
}

/// A code of one of the fourteen fields. [`crate::code`] and [`crate::report`] lead there and back.
pub trait Code: Sized {
    /// What the code stands for.
    type Quantity: Quantity;
    #[doc(hidden)]
    const FIELD: u8;
    /// Of one element, or of two: the sign first.
    #[doc(hidden)]
    type Elements: AsRef<[u32]> + AsMut<[u32]> + Default;
    #[doc(hidden)]
    fn to_elements(self) -> Self::Elements;
    #[doc(hidden)]
    fn from_elements(elements: Self::Elements) -> Self;
}

macro_rules! plain_codes {
    ($($(#[$text:meta])* $name:ident = $field:literal: $quantity:ty),* $(,)?) => {$(
        $(#[$text])*
        #[derive(Clone, Copy, Debug, PartialEq, Eq, PartialOrd, Ord, Hash)]
        pub struct $name(pub u32);

        impl Code for $name {
            type Quantity = $quantity;
            const FIELD: u8 = $field;
            type Elements = [u32; 1];

            fn to_elements(self) -> [u32; 1] {
                [self.0]
            }

            fn from_elements([number]: [u32; 1]) -> Self {
                $name(number)
            }
        }
    )*};
}

plain_codes!(
    /// 0 to 127: the least whose radius covers the uncertainty.
    UncertaintyCode = 2: Millimetres,
    /// 0 to 127, as an uncertainty code but by the table of heights.
    AltitudeUncertaintyCode = 3: Millimetres,
    /// 16 bits, in steps of five metres.
    InnerRadiusCode = 5: Millimetres,
    /// 0 to 179, in steps of two degrees.
    OffsetCode = 6: Millidegrees,
    /// 0 to 179, in steps of two degrees, the upper end belonging to the step.
    IncludedCode = 7: Millidegrees,
    /// 0 to 179, in degrees.
    OrientationCode = 8: Millidegrees,
    /// 0 to 359, in degrees.
    BearingCode = 9: Millidegrees,
    /// 16 bits, to the nearest kilometre per hour.
    HorizontalSpeedCode = 10: MetresPerHour,
    /// 0 to 254: the least that covers the uncertainty; 255 for not given.
    UncertaintySpeedCode = 12: Option<MetresPerHour>,
    /// 1 to 100; 0 for none.
    ConfidenceCode = 13: Option<Percent>,
);

macro_rules! signed_codes {
    ($($(#[$text:meta])* $name:ident { $sign:ident } = $field:literal: $quantity:ty),* $(,)?) => {$(
        $(#[$text])*
        #[derive(Clone, Copy, Debug, PartialEq, Eq, Hash)]
        pub struct $name {
            /// The sign bit.
            pub $sign: bool,
            /// N, without the sign.
            pub number: u32,
        }

        impl Code for $name {
            type Quantity = $quantity;
            const FIELD: u8 = $field;
            type Elements = [u32; 2];

            fn to_elements(self) -> [u32; 2] {
                [u32::from(self.$sign), self.number]
            }

            fn from_elements([sign, number]: [u32; 2]) -> Self {
                $name { $sign: sign != 0, number }
            }
        }
    )*};
}

signed_codes!(
    /// S and 23 bits.
    LatitudeCode { south } = 0: Nanodegrees,
    /// D and 15 bits, in metres.
    AltitudeCode { depth } = 4: AltitudeMillimetres,
    /// D and 8 bits, to the nearest kilometre per hour.
    VerticalSpeedCode { down } = 11: VerticalMetresPerHour,
);

/// 24 bits with a sign.
#[derive(Clone, Copy, Debug, PartialEq, Eq, PartialOrd, Ord, Hash)]
pub struct LongitudeCode(pub i32);

impl Code for LongitudeCode {
    type Quantity = Nanodegrees;
    const FIELD: u8 = 1;
    type Elements = [u32; 1];

    fn to_elements(self) -> [u32; 1] {
        [self.0 as u32]
    }

    fn from_elements([bits]: [u32; 1]) -> Self {
        LongitudeCode(bits as i32)
    }
}
