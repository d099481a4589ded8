//! Velocities as codes and as quantities.

use crate::elements::{group, record, Record, Stored};
use crate::numbers::*;

group! {
    /// The codes of a horizontal velocity.
    CourseCodes of u32 { bearing: BearingCode = 0, speed: HorizontalSpeedCode = 1 }
}

group! {
    /// A horizontal velocity; the bearing is clockwise from north.
    Course of i64 { bearing: Millidegrees = 0, speed: MetresPerHour = 1 }
}

/// The four types of velocity, in codes or in quantities: for each field what it is and its first element.
macro_rules! velocity {
    ($(#[$text:meta])* $name:ident of [$element:ty; $elements:literal] {
        course: $course:ty = $course_at:literal,
        vertical: $vertical:ty = $vertical_at:literal,
        uncertainty: $uncertainty:ty = $uncertainty_at:literal,
        vertical_uncertainty: $vertical_uncertainty:ty = $vertical_uncertainty_at:literal,
    }) => {
        record! {
            $(#[$text])*
            #[derive(Clone, Copy, Debug, PartialEq, Eq, Hash)]
            $name of [$element; $elements], [0; $elements];
            Horizontal = 0 { course: $course = $course_at },
            WithVertical = 1 { course: $course = $course_at, vertical: $vertical = $vertical_at },
            WithUncertainty = 2 { course: $course = $course_at, uncertainty: $uncertainty = $uncertainty_at },
            WithBoth = 3 {
                course: $course = $course_at,
                vertical: $vertical = $vertical_at,
                uncertainty: $uncertainty = $uncertainty_at,
                vertical_uncertainty: $vertical_uncertainty = $vertical_uncertainty_at,
            },
        }
    };
}

velocity! {
    /// The codes of a velocity, as its message has them.
    VelocityCodes of [u32; 7] {
        course: CourseCodes = 1,
        vertical: VerticalSpeedCode = 3,
        uncertainty: UncertaintySpeedCode = 5,
        vertical_uncertainty: UncertaintySpeedCode = 6,
    }
}

velocity! {
    /// The quantities of a velocity.
    Velocity of [i64; 6] {
        course: Course = 1,
        vertical: VerticalMetresPerHour = 3,
        uncertainty: Option<MetresPerHour> = 4,
        vertical_uncertainty: Option<MetresPerHour> = 5,
    }
}
