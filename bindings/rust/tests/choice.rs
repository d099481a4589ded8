//! The choice of shape: document 01's figures, and what is refused.

use gad::*;

const CIRCLE_AND_ELLIPSE: u16 = 1 << 1 | 1 << 3;
const EVERY: u16 = u16::MAX;
const POINT: Request = Request {
    place: Place { latitude: Nanodegrees(45_000_000_000), longitude: Nanodegrees(-90_000_000_000) },
    altitude: None,
    horizontal: None,
    altitude_uncertainty: None,
    confidence: None,
};

fn circle(radius: u32) -> Request {
    Request { horizontal: Some(Horizontal::Circle(Millimetres(radius))), ..POINT }
}

fn ellipse(semi_minor: u32) -> Request {
    let axes = Axes { semi_major: Millimetres(57_274), semi_minor: Millimetres(semi_minor), orientation: Millidegrees(30_000) };
    Request { horizontal: Some(Horizontal::Ellipse(axes)), ..POINT }
}

fn chosen(request: &Request, list: u16) -> Result<Vec<u8>, Refusal> {
    let mut out = [0xA5; 16];
    let length = choose(request, list, &mut out)?;
    assert!(out[length..].iter().all(|octet| *octet == 0xA5));
    Ok(out[..length].to_vec())
}

#[test]
fn a_circle_where_it_says_as_much() {
    assert_eq!(chosen(&ellipse(51_160), CIRCLE_AND_ELLIPSE), Ok(vec![0x10, 0x40, 0, 0, 0xC0, 0, 0, 0x14]));
}

#[test]
fn an_ellipse_where_it_is_tighter() {
    assert_eq!(chosen(&ellipse(51_159), CIRCLE_AND_ELLIPSE), Ok(vec![0x30, 0x40, 0, 0, 0xC0, 0, 0, 0x14, 0x13, 0x1E, 0]));
}

#[test]
fn an_altitude_and_an_ellipsoid() {
    let high = Request { altitude: Some(AltitudeMillimetres(-1_000)), ..POINT };
    assert_eq!(chosen(&high, EVERY), Ok(vec![0x80, 0x40, 0, 0, 0xC0, 0, 0, 0x80, 0x01]));
    let full = Request {
        altitude: Some(AltitudeMillimetres(-1_000)),
        altitude_uncertainty: Some(Millimetres(1_126)),
        confidence: Some(Percent(67)),
        ..circle(0)
    };
    assert_eq!(chosen(&full, EVERY), Ok(vec![0x90, 0x40, 0, 0, 0xC0, 0, 0, 0x80, 0x01, 0, 0, 0, 2, 67]));
}

#[test]
fn none_holds() {
    assert_eq!(chosen(&POINT, 0), Err(Refusal::NoneHolds));
    for list in 0..=u16::MAX {
        let request = Request { altitude: Some(AltitudeMillimetres(0)), ..circle(1) };
        assert_eq!(chosen(&request, list), Err(Refusal::NoneHolds));
    }
}

#[test]
fn a_short_buffer_is_refused_and_kept() {
    for room in 0..8 {
        let mut out = [0xA5; 8];
        assert_eq!(choose(&circle(57_274), EVERY, &mut out[..room]), Err(Refusal::BufferTooShort));
        assert_eq!(out, [0xA5; 8]);
    }
    // No looser message for want of room.
    assert_eq!(choose(&ellipse(51_159), CIRCLE_AND_ELLIPSE, &mut [0; 10]), Err(Refusal::BufferTooShort));
}

#[test]
fn ranges_come_before_uncertainties_and_those_before_the_list() {
    let far = Request { place: Place { latitude: Nanodegrees(90_000_000_001), ..POINT.place }, ..circle(u32::MAX) };
    assert_eq!(chosen(&far, 0), Err(Refusal::OutOfRange));
    assert_eq!(chosen(&circle(u32::MAX), 0), Err(Refusal::UncertaintyTooLarge));
    assert_eq!(chosen(&ellipse(57_275), EVERY), Err(Refusal::OutOfRange));
}
