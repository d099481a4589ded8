//! Document 01's figures for single codes, the ends of every field, and reports.

use gad::*;

fn south(number: u32) -> LatitudeCode {
    LatitudeCode { south: true, number }
}

fn north(number: u32) -> LatitudeCode {
    LatitudeCode { south: false, number }
}

#[test]
fn latitudes() {
    for (quantity, expected) in [
        (10_728, north(0)),
        (10_729, north(1)),
        (90_000_000_000, north(8_388_607)),
        (89_999_989_272, north(8_388_607)),
        (0, north(0)),
        (-1, south(0)),
    ] {
        assert_eq!(code::<LatitudeCode>(Nanodegrees(quantity)), Ok(expected));
    }
    assert_eq!(code::<LatitudeCode>(Nanodegrees(90_000_000_001)), Err(Refusal::OutOfRange));
    assert_eq!(report(south(0)), Ok(Nanodegrees(-1)));
    assert_eq!(report(north(8_388_607)), Ok(Nanodegrees(89_999_989_272)));
    assert_eq!(report(north(8_388_608)), Err(Refusal::OutOfRange));
}

#[test]
fn longitudes() {
    for (quantity, expected) in [(-21_457, -1), (-21_458, -2), (180_000_000_000, -8_388_608)] {
        assert_eq!(code::<LongitudeCode>(Nanodegrees(quantity)), Ok(LongitudeCode(expected)));
    }
    assert_eq!(code::<LongitudeCode>(Nanodegrees(i64::MIN)), Err(Refusal::OutOfRange));
    assert_eq!(report(LongitudeCode(-8_388_608)), Ok(Nanodegrees(-180_000_000_000)));
    assert_eq!(report(LongitudeCode(-8_388_609)), Err(Refusal::OutOfRange));
}

#[test]
fn uncertainties() {
    for (radius, expected) in [(57_274, 20), (57_275, 21), (51_159, 19), (51_160, 20), (0, 0), (1, 1), (1_000, 1), (1_001, 2)] {
        assert_eq!(code::<UncertaintyCode>(Millimetres(radius)), Ok(UncertaintyCode(expected)));
    }
    assert_eq!(code::<UncertaintyCode>(Millimetres(u32::MAX)), Err(Refusal::UncertaintyTooLarge));
    assert_eq!(report(UncertaintyCode(20)), Ok(Millimetres(57_274)));
    assert_eq!(report(UncertaintyCode(128)), Err(Refusal::OutOfRange));
}

#[test]
fn altitude_uncertainties() {
    for (height, expected) in [(1_125, 1), (1_126, 2), (2_278, 2), (2_279, 3)] {
        assert_eq!(code::<AltitudeUncertaintyCode>(Millimetres(height)), Ok(AltitudeUncertaintyCode(expected)));
    }
    assert_eq!(code::<AltitudeUncertaintyCode>(Millimetres(1_000_000)), Err(Refusal::UncertaintyTooLarge));
    assert_eq!(report(AltitudeUncertaintyCode(2)), Ok(Millimetres(2_278)));
}

#[test]
fn lengths() {
    assert_eq!(code(AltitudeMillimetres(i32::MIN)), Ok(AltitudeCode { depth: true, number: 32_767 }));
    assert_eq!(report(AltitudeCode { depth: true, number: 0 }), Ok(AltitudeMillimetres(-1)));
    assert_eq!(code::<InnerRadiusCode>(Millimetres(u32::MAX)), Ok(InnerRadiusCode(65_535)));
    assert_eq!(report(InnerRadiusCode(65_535)), Ok(Millimetres(327_675_000)));
}

#[test]
fn angles() {
    assert_eq!(code::<OffsetCode>(Millidegrees(2_000)), Ok(OffsetCode(1)));
    assert_eq!(code::<OffsetCode>(Millidegrees(360_000)), Err(Refusal::OutOfRange));
    assert_eq!(report(OffsetCode(180)), Err(Refusal::AngleCode));
    assert_eq!(code::<IncludedCode>(Millidegrees(2_000)), Ok(IncludedCode(0)));
    assert_eq!(code::<IncludedCode>(Millidegrees(2_001)), Ok(IncludedCode(1)));
    assert_eq!(report(IncludedCode(179)), Ok(Millidegrees(360_000)));
    assert_eq!(code::<OrientationCode>(Millidegrees(179_999)), Ok(OrientationCode(179)));
    assert_eq!(report(OrientationCode(179)), Ok(Millidegrees(179_000)));
    assert_eq!(code::<BearingCode>(Millidegrees(359_999)), Ok(BearingCode(359)));
    assert_eq!(report(BearingCode(360)), Err(Refusal::AngleCode));
}

#[test]
fn speeds() {
    assert_eq!(code::<HorizontalSpeedCode>(MetresPerHour(499)), Ok(HorizontalSpeedCode(0)));
    assert_eq!(code::<HorizontalSpeedCode>(MetresPerHour(500)), Ok(HorizontalSpeedCode(1)));
    assert_eq!(report(HorizontalSpeedCode(65_535)), Ok(MetresPerHour(65_535_000)));
    assert_eq!(code(VerticalMetresPerHour(-500)), Ok(VerticalSpeedCode { down: true, number: 1 }));
    assert_eq!(report(VerticalSpeedCode { down: true, number: 0 }), Ok(VerticalMetresPerHour(-1)));
    assert_eq!(code::<UncertaintySpeedCode>(Some(MetresPerHour(253_001))), Ok(UncertaintySpeedCode(254)));
    assert_eq!(code::<UncertaintySpeedCode>(Some(MetresPerHour(254_001))), Err(Refusal::UncertaintyTooLarge));
    assert_eq!(code::<UncertaintySpeedCode>(None), Ok(UncertaintySpeedCode(255)));
    assert_eq!(report(UncertaintySpeedCode(255)), Ok(None));
    assert_eq!(report(UncertaintySpeedCode(0)), Ok(Some(MetresPerHour(0))));
}

#[test]
fn confidences() {
    assert_eq!(code::<ConfidenceCode>(None), Ok(ConfidenceCode(0)));
    assert_eq!(code::<ConfidenceCode>(Some(Percent(100))), Ok(ConfidenceCode(100)));
    assert_eq!(code::<ConfidenceCode>(Some(Percent(0))), Err(Refusal::OutOfRange));
    assert_eq!(report(ConfidenceCode(0)), Ok(None));
    assert_eq!(report(ConfidenceCode(101)), Err(Refusal::ConfidenceTooLarge));
}
