//! Geographical Area Descriptions (3GPP TS 23.032): octets to codes, codes to quantities, and both back, in whole numbers.
//!
//! Every function answers every call; a refusal changes nothing. The work is done by a proved library, libdesk.a.
//!
//! ```
//! use gad::{choose, read_shape, report_shape, Axes, Horizontal, Millidegrees, Millimetres, Nanodegrees, Place, Request, Shape};
//!
//! let place = Place { latitude: Nanodegrees(45_000_000_000), longitude: Nanodegrees(-90_000_000_000) };
//! let axes = Axes { semi_major: Millimetres(57_274), semi_minor: Millimetres(51_160), orientation: Millidegrees(30_000) };
//! let request = Request { place, altitude: None, horizontal: Some(Horizontal::Ellipse(axes)), altitude_uncertainty: None, confidence: None };
//!
//! // The receiver takes circles and ellipses. Both axes have the code 20, so a circle says as much in fewer octets.
//! let mut message = [0; 14];
//! let length = choose(&request, 1 << 1 | 1 << 3, &mut message)?;
//! assert_eq!(message[..length], [0x10, 0x40, 0x00, 0x00, 0xC0, 0x00, 0x00, 0x14]);
//!
//! let shape = report_shape(&read_shape(&message[..length])?)?;
//! assert_eq!(shape, Shape::Circle { place, uncertainty: Millimetres(57_274) });
//! # Ok::<(), gad::Refusal>(())
//! ```

mod elements;
mod library;
mod numbers;
mod requests;
mod shapes;
mod velocities;

pub use numbers::*;
pub use requests::{Horizontal, Request};
pub use shapes::{Axes, AxesCodes, Place, PlaceCodes, Shape, ShapeCodes};
pub use velocities::{Course, CourseCodes, Velocity, VelocityCodes};

use elements::Record;
use std::fmt;

/// The longest message: a polygon of fifteen points.
pub const LONGEST_MESSAGE: usize = 91;

macro_rules! refusals {
    ($($(#[$text:meta])* $name:ident = $number:literal: $said:literal),* $(,)?) => {
        /// Why there is no answer. The first that applies, in the order that each function gives.
        #[derive(Clone, Copy, Debug, PartialEq, Eq, Hash)]
        pub enum Refusal {
            $($(#[$text])* $name = $number),*
        }

        impl Refusal {
            fn of_number(number: i64) -> Option<Self> {
                match number {
                    $($number => Some(Refusal::$name),)*
                    _ => None,
                }
            }
        }

        impl fmt::Display for Refusal {
            fn fmt(&self, f: &mut fmt::Formatter<'_>) -> fmt::Result {
                f.write_str(match self {
                    $(Refusal::$name => $said),*
                })
            }
        }
    };
}

refusals!(
    /// A message of no octets.
    NoOctets = 1: "no octets",
    /// No such shape or velocity.
    UnknownType = 2: "no such shape or velocity",
    /// A message whose length is not its layout's.
    WrongLength = 3: "the length is not the layout's",
    /// A polygon of fewer than 3 or more than 15 points.
    PolygonCount = 4: "a polygon has 3 to 15 points",
    /// An orientation, offset or included code of 180 or more, a bearing code of 360 or more.
    AngleCode = 5: "an angle code is too large",
    /// A confidence code of 101 or more.
    ConfidenceTooLarge = 6: "a confidence code is too large",
    /// A quantity outside its range, a code outside its field.
    OutOfRange = 7: "a quantity is out of its range, or a code out of its field",
    /// An uncertainty above what the largest code covers.
    UncertaintyTooLarge = 8: "an uncertainty is larger than any code covers",
    /// No shape on the list holds the request.
    NoneHolds = 9: "no shape on the list holds the request",
    /// A buffer shorter than the message.
    BufferTooShort = 10: "the buffer is shorter than the message",
);

impl std::error::Error for Refusal {}

/// How many elements or octets a call put, or why it put none.
fn put_or_refused(answer: i64) -> Result<usize, Refusal> {
    usize::try_from(answer).map_err(|_| Refusal::of_number(-answer).expect("the library gives no other refusal"))
}

/// A call that is given one array and fills another: (to, room, from, elements).
type ArrayCall<T, F> = unsafe extern "C" fn(*mut T, usize, *const F, usize) -> i64;

/// Calls with two slices, of which the call looks at and writes no more than they hold.
fn call<T, F>(function: ArrayCall<T, F>, to: &mut [T], from: &[F]) -> Result<usize, Refusal> {
    // SAFETY: the pointers and lengths are those of slices that live through the call and can't overlap, and the library
    // stays within them, as include/gad.h says of every function that is passed here.
    put_or_refused(unsafe { function(to.as_mut_ptr(), to.len(), from.as_ptr(), from.len()) })
}

/// The record that a call fills.
fn filled<R: Record, F>(function: ArrayCall<R::Element, F>, from: &[F]) -> Result<R, Refusal> {
    let mut elements = R::BLANK;
    call(function, elements.as_mut(), from)?;
    Ok(R::from_elements(&elements))
}

/// Octets to codes. Refused: no octets, unknown type, polygon count, wrong length, angle code, confidence too large.
pub fn read_shape(message: &[u8]) -> Result<ShapeCodes, Refusal> {
    filled(library::gad_read_shape, message)
}

/// Octets to codes. Refused: no octets, unknown type, wrong length, angle code.
pub fn read_velocity(message: &[u8]) -> Result<VelocityCodes, Refusal> {
    filled(library::gad_read_velocity, message)
}

/// Codes to octets: the message's length. Refused: polygon count, angle code, confidence too large, out of range, buffer too short.
pub fn write_shape(codes: &ShapeCodes, out: &mut [u8]) -> Result<usize, Refusal> {
    call(library::gad_write_shape, out, &codes.to_elements())
}

/// Codes to octets: the message's length. Refused: angle code, out of range, buffer too short.
pub fn write_velocity(codes: &VelocityCodes, out: &mut [u8]) -> Result<usize, Refusal> {
    call(library::gad_write_velocity, out, &codes.to_elements())
}

/// Codes to the quantities that they report. Refused: polygon count, angle code, confidence too large, out of range.
pub fn report_shape(codes: &ShapeCodes) -> Result<Shape, Refusal> {
    filled(library::gad_report_shape, &codes.to_elements())
}

/// Codes to the quantities that they report. Refused: angle code, out of range.
pub fn report_velocity(codes: &VelocityCodes) -> Result<Velocity, Refusal> {
    filled(library::gad_report_velocity, &codes.to_elements())
}

/// Quantities to the codes of their own type. Refused: polygon count, out of range, uncertainty too large.
pub fn code_shape(shape: &Shape) -> Result<ShapeCodes, Refusal> {
    filled(library::gad_code_shape, &shape.to_elements())
}

/// Quantities to the codes of their own type. Refused: out of range, uncertainty too large.
pub fn code_velocity(velocity: &Velocity) -> Result<VelocityCodes, Refusal> {
    filled(library::gad_code_velocity, &velocity.to_elements())
}

/// A request to the octets of the best message of the shapes on the receiver's list, bit t of which is shape t: the message's length, 14
/// at most. Refused: out of range, uncertainty too large, none holds, buffer too short.
pub fn choose(request: &Request, list: u16, out: &mut [u8]) -> Result<usize, Refusal> {
    let elements = request.to_elements();
    // SAFETY: as in call().
    put_or_refused(unsafe { library::gad_choose(out.as_mut_ptr(), out.len(), elements.as_ptr(), elements.len(), list) })
}

/// One quantity to its code. Refused: out of range, uncertainty too large.
pub fn code<C: Code>(quantity: C::Quantity) -> Result<C, Refusal> {
    let mut elements = C::Elements::default();
    let code = elements.as_mut();
    // SAFETY: as in call().
    put_or_refused(unsafe { library::gad_code(code.as_mut_ptr(), code.len(), C::FIELD, quantity.to_element()) })?;
    Ok(C::from_elements(elements))
}

/// One code to the quantity that it reports. Refused: angle code, confidence too large, out of range.
pub fn report<C: Code>(code: C) -> Result<C::Quantity, Refusal> {
    let elements = code.to_elements();
    let code = elements.as_ref();
    let mut quantity = 0;
    // SAFETY: as in call().
    put_or_refused(unsafe { library::gad_report(&mut quantity, 1, C::FIELD, code.as_ptr(), code.len()) })?;
    Ok(C::Quantity::from_element(quantity))
}
