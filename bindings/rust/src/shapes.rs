//! Shapes as codes and as quantities.

use crate::elements::{group, record, Record, Stored};
use crate::numbers::*;

group! {
    /// A point's codes.
    PlaceCodes of u32 { latitude: LatitudeCode = 0, longitude: LongitudeCode = 2 }
}

group! {
    /// A point.
    Place of i64 { latitude: Nanodegrees = 0, longitude: Nanodegrees = 1 }
}

group! {
    /// The codes of an ellipse around a point.
    AxesCodes of u32 { semi_major: UncertaintyCode = 0, semi_minor: UncertaintyCode = 1, orientation: OrientationCode = 2 }
}

group! {
    /// An ellipse around a point; the orientation is the semi-major axis's, clockwise from north.
    Axes of i64 { semi_major: Millimetres = 0, semi_minor: Millimetres = 1, orientation: Millidegrees = 2 }
}

/// The count of a polygon's points as an element; the library refuses every count above fifteen alike.
fn count_of<T>(points: &[T]) -> u32 {
    u32::try_from(points.len()).unwrap_or(u32::MAX)
}

/// The seven types of shape, in codes or in quantities: for each field what it is and its first element. Element 1 is the count of a polygon's
/// points, which are all that the last elements have room for.
macro_rules! shape {
    ($(#[$text:meta])* $name:ident of [$element:ty; $elements:literal] {
        place: $place:ident = $place_at:literal,
        altitude: $altitude:ty = $altitude_at:literal,
        uncertainty: $uncertainty:ty = $uncertainty_at:literal,
        axes: $axes:ty = $axes_at:literal,
        altitude_uncertainty: $altitude_uncertainty:ty = $altitude_uncertainty_at:literal,
        inner_radius: $inner_radius:ty = $inner_radius_at:literal,
        offset: $offset:ty = $offset_at:literal,
        included: $included:ty = $included_at:literal,
        confidence: $confidence:ty = $confidence_at:literal or $no_confidence:expr,
        points: $points_at:literal by $point_elements:literal,
    }) => {
        record! {
            $(#[$text])*
            #[derive(Clone, Debug, PartialEq, Eq, Hash)]
            $name of [$element; $elements], {
                let mut elements = [0; $elements];
                elements[$confidence_at] = $no_confidence;
                elements
            };
            Point = 0 { place: $place = $place_at },
            Circle = 1 { place: $place = $place_at, uncertainty: $uncertainty = $uncertainty_at },
            Ellipse = 3 { place: $place = $place_at, axes: $axes = $axes_at, confidence: $confidence = $confidence_at },
            /// Three to fifteen points.
            Polygon = 5 { points: Vec<$place> = 1 },
            Altitude = 8 { place: $place = $place_at, altitude: $altitude = $altitude_at },
            Ellipsoid = 9 {
                place: $place = $place_at,
                altitude: $altitude = $altitude_at,
                axes: $axes = $axes_at,
                altitude_uncertainty: $altitude_uncertainty = $altitude_uncertainty_at,
                confidence: $confidence = $confidence_at,
            },
            Arc = 10 {
                place: $place = $place_at,
                inner_radius: $inner_radius = $inner_radius_at,
                uncertainty: $uncertainty = $uncertainty_at,
                offset: $offset = $offset_at,
                included: $included = $included_at,
                confidence: $confidence = $confidence_at,
            },
        }

        impl $name {
            /// The one point of every shape but a polygon.
            pub fn place(&self) -> Option<$place> {
                match self {
                    $name::Polygon { .. } => None,
                    $name::Point { place }
                    | $name::Circle { place, .. }
                    | $name::Ellipse { place, .. }
                    | $name::Altitude { place, .. }
                    | $name::Ellipsoid { place, .. }
                    | $name::Arc { place, .. } => Some(*place),
                }
            }
        }

        /// From the count on.
        impl Stored<$element> for Vec<$place> {
            fn put(&self, elements: &mut [$element]) {
                elements[0] = count_of(self).into();
                for (point, elements) in self.iter().zip(elements[$points_at - 1..].chunks_exact_mut($point_elements)) {
                    point.put(elements);
                }
            }

            fn take(elements: &[$element]) -> Self {
                elements[$points_at - 1..].chunks_exact($point_elements).take(elements[0] as usize).map(Stored::take).collect()
            }
        }
    };
}

shape! {
    /// The codes of a shape, as its message has them.
    ShapeCodes of [u32; 61] {
        place: PlaceCodes = 2,
        altitude: AltitudeCode = 5,
        uncertainty: UncertaintyCode = 7,
        axes: AxesCodes = 8,
        altitude_uncertainty: AltitudeUncertaintyCode = 11,
        inner_radius: InnerRadiusCode = 12,
        offset: OffsetCode = 13,
        included: IncludedCode = 14,
        confidence: ConfidenceCode = 15 or 0,
        points: 16 by 3,
    }
}

shape! {
    /// The quantities of a shape.
    Shape of [i64; 44] {
        place: Place = 2,
        altitude: AltitudeMillimetres = 4,
        uncertainty: Millimetres = 5,
        axes: Axes = 6,
        altitude_uncertainty: Millimetres = 9,
        inner_radius: Millimetres = 10,
        offset: Millidegrees = 11,
        included: Millidegrees = 12,
        confidence: Option<Percent> = 13 or MISSING,
        points: 14 by 2,
    }
}
