//! Every shape there and back, against messages worked out by hand from document 01, and what is refused.

mod common;

use common::test_samples;
use gad::*;

const PLACE: Place = Place { latitude: Nanodegrees(45_000_000_000), longitude: Nanodegrees(-90_000_000_000) };
const CODES: PlaceCodes = place_codes(false, 4_194_304, -4_194_304);
const AXES: Axes = Axes { semi_major: Millimetres(57_274), semi_minor: Millimetres(51_159), orientation: Millidegrees(30_000) };
const AXES_CODES: AxesCodes =
    AxesCodes { semi_major: UncertaintyCode(20), semi_minor: UncertaintyCode(19), orientation: OrientationCode(30) };

const fn place_codes(south: bool, latitude: u32, longitude: i32) -> PlaceCodes {
    PlaceCodes { latitude: LatitudeCode { south, number: latitude }, longitude: LongitudeCode(longitude) }
}

const fn place(latitude: i64, longitude: i64) -> Place {
    Place { latitude: Nanodegrees(latitude), longitude: Nanodegrees(longitude) }
}

/// The type's octet, 45 degrees north and 90 west, and the rest.
fn message(first: u8, rest: &[u8]) -> Vec<u8> {
    [&[first, 0x40, 0x00, 0x00, 0xC0, 0x00, 0x00], rest].concat()
}

fn arc_codes() -> ShapeCodes {
    ShapeCodes::Arc {
        place: CODES,
        inner_radius: InnerRadiusCode(2),
        uncertainty: UncertaintyCode(20),
        offset: OffsetCode(1),
        included: IncludedCode(0),
        confidence: ConfidenceCode(100),
    }
}

fn arc() -> Shape {
    Shape::Arc {
        place: PLACE,
        inner_radius: Millimetres(10_000),
        uncertainty: Millimetres(57_274),
        offset: Millidegrees(2_000),
        included: Millidegrees(2_000),
        confidence: Some(Percent(100)),
    }
}

fn ellipsoid_codes() -> ShapeCodes {
    ShapeCodes::Ellipsoid {
        place: CODES,
        altitude: AltitudeCode { depth: false, number: 1000 },
        axes: AXES_CODES,
        altitude_uncertainty: AltitudeUncertaintyCode(2),
        confidence: ConfidenceCode(67),
    }
}

fn ellipsoid() -> Shape {
    Shape::Ellipsoid {
        place: PLACE,
        altitude: AltitudeMillimetres(1_000_000),
        axes: AXES,
        altitude_uncertainty: Millimetres(2_278),
        confidence: Some(Percent(67)),
    }
}

fn samples() -> Vec<(Vec<u8>, ShapeCodes, Shape)> {
    vec![
        (message(0x00, &[]), ShapeCodes::Point { place: CODES }, Shape::Point { place: PLACE }),
        (
            message(0x10, &[0x14]),
            ShapeCodes::Circle { place: CODES, uncertainty: UncertaintyCode(20) },
            Shape::Circle { place: PLACE, uncertainty: Millimetres(57_274) },
        ),
        (
            message(0x30, &[0x14, 0x13, 0x1E, 0x00]),
            ShapeCodes::Ellipse { place: CODES, axes: AXES_CODES, confidence: ConfidenceCode(0) },
            Shape::Ellipse { place: PLACE, axes: AXES, confidence: None },
        ),
        (
            message(0x53, &[0x80, 0x00, 0x00, 0xFF, 0xFF, 0xFF, 0x7F, 0xFF, 0xFF, 0x80, 0x00, 0x00]),
            ShapeCodes::Polygon { points: vec![CODES, place_codes(true, 0, -1), place_codes(false, 8_388_607, -8_388_608)] },
            Shape::Polygon { points: vec![PLACE, place(-1, -21_457), place(89_999_989_272, -180_000_000_000)] },
        ),
        (
            message(0x80, &[0x83, 0xE8]),
            ShapeCodes::Altitude { place: CODES, altitude: AltitudeCode { depth: true, number: 1000 } },
            Shape::Altitude { place: PLACE, altitude: AltitudeMillimetres(-1_000_000) },
        ),
        (message(0x90, &[0x03, 0xE8, 0x14, 0x13, 0x1E, 0x02, 0x43]), ellipsoid_codes(), ellipsoid()),
        (message(0xA0, &[0x00, 0x02, 0x14, 0x01, 0x00, 0x64]), arc_codes(), arc()),
    ]
}

test_samples!(read_shape, write_shape, report_shape, code_shape);

#[test]
fn spare_bits_are_ignored() {
    let codes = ShapeCodes::Circle { place: CODES, uncertainty: UncertaintyCode(20) };
    assert_eq!(read_shape(&message(0x1F, &[0x94])), Ok(codes));
}

#[test]
fn every_shape_but_a_polygon_has_one_place() {
    for (_, codes, shape) in samples() {
        let polygon = matches!(shape, Shape::Polygon { .. });
        assert_eq!(codes.place(), (!polygon).then_some(CODES));
        assert_eq!(shape.place(), (!polygon).then_some(PLACE));
    }
}

#[test]
fn a_polygon_of_fifteen_points_comes_back() {
    let points: Vec<PlaceCodes> = (1..16).map(|i| place_codes(i % 2 == 0, 500_000 * i, -500_000 * i as i32)).collect();
    let codes = ShapeCodes::Polygon { points };
    let mut out = [0; LONGEST_MESSAGE];
    assert_eq!(write_shape(&codes, &mut out), Ok(LONGEST_MESSAGE));
    assert_eq!(read_shape(&out), Ok(codes.clone()));
    assert_eq!(code_shape(&report_shape(&codes).unwrap()), Ok(codes));
}

#[test]
fn unreadable_messages_are_refused_in_order() {
    let refused = |message: &[u8]| read_shape(message).unwrap_err();
    assert_eq!(refused(&[]), Refusal::NoOctets);
    assert_eq!(refused(&[0x20]), Refusal::UnknownType);
    assert_eq!(refused(&[0x50]), Refusal::PolygonCount);
    assert_eq!(refused(&[0x5F]), Refusal::WrongLength);
    assert_eq!(refused(&[0x10, 0x40]), Refusal::WrongLength);
    assert_eq!(refused(&message(0x30, &[1, 1, 180, 101])), Refusal::AngleCode);
    assert_eq!(refused(&message(0x30, &[1, 1, 179, 101])), Refusal::ConfidenceTooLarge);
}

#[test]
fn codes_outside_their_fields_are_refused() {
    let place = CODES;
    let ellipse = |axes: AxesCodes, confidence| ShapeCodes::Ellipse { place, axes, confidence: ConfidenceCode(confidence) };
    let wide = AxesCodes { semi_major: UncertaintyCode(128), ..AXES_CODES };
    let turned = AxesCodes { orientation: OrientationCode(u32::MAX), ..wide };
    let refusals = [
        (ShapeCodes::Polygon { points: vec![place; 2] }, Refusal::PolygonCount),
        (ShapeCodes::Polygon { points: vec![place; 16] }, Refusal::PolygonCount),
        (ellipse(turned, 101), Refusal::AngleCode),
        (ellipse(wide, 101), Refusal::ConfidenceTooLarge),
        (ellipse(wide, 100), Refusal::OutOfRange),
        (ShapeCodes::Point { place: place_codes(false, 8_388_608, 0) }, Refusal::OutOfRange),
        (ShapeCodes::Point { place: place_codes(false, 0, -8_388_609) }, Refusal::OutOfRange),
    ];
    for (codes, refusal) in refusals {
        assert_eq!(write_shape(&codes, &mut []), Err(refusal));
        assert_eq!(report_shape(&codes), Err(refusal));
    }
}

#[test]
fn quantities_out_of_range_are_refused() {
    let turned = Axes { semi_major: Millimetres(51_160), semi_minor: Millimetres(57_274), ..AXES };
    let refusals = [
        (Shape::Polygon { points: vec![PLACE; 16] }, Refusal::PolygonCount),
        (Shape::Circle { place: place(90_000_000_001, 0), uncertainty: Millimetres(u32::MAX) }, Refusal::OutOfRange),
        (Shape::Circle { place: PLACE, uncertainty: Millimetres(u32::MAX) }, Refusal::UncertaintyTooLarge),
        (Shape::Ellipse { place: PLACE, axes: turned, confidence: None }, Refusal::OutOfRange),
        (Shape::Ellipse { place: PLACE, axes: AXES, confidence: Some(Percent(0)) }, Refusal::OutOfRange),
        (Shape::Point { place: place(i64::MIN, i64::MAX) }, Refusal::OutOfRange),
    ];
    for (shape, refusal) in refusals {
        assert_eq!(code_shape(&shape), Err(refusal));
    }
}
