//! Every velocity there and back, against messages worked out by hand from document 01, and what is refused.

mod common;

use common::test_samples;
use gad::*;

const COURSE: Course = Course { bearing: Millidegrees(300_000), speed: MetresPerHour(90_000) };
const CODES: CourseCodes = CourseCodes { bearing: BearingCode(300), speed: HorizontalSpeedCode(90) };

fn samples() -> Vec<(Vec<u8>, VelocityCodes, Velocity)> {
    vec![
        (vec![0x01, 0x2C, 0x00, 0x5A], VelocityCodes::Horizontal { course: CODES }, Velocity::Horizontal { course: COURSE }),
        (
            vec![0x13, 0x2C, 0x00, 0x5A, 0x05],
            VelocityCodes::WithVertical { course: CODES, vertical: VerticalSpeedCode { down: true, number: 5 } },
            Velocity::WithVertical { course: COURSE, vertical: VerticalMetresPerHour(-5_000) },
        ),
        (
            vec![0x21, 0x2C, 0x00, 0x5A, 0x03],
            VelocityCodes::WithUncertainty { course: CODES, uncertainty: UncertaintySpeedCode(3) },
            Velocity::WithUncertainty { course: COURSE, uncertainty: Some(MetresPerHour(3_000)) },
        ),
        (
            vec![0x33, 0x2C, 0x00, 0x5A, 0x00, 0xFE, 0xFF],
            VelocityCodes::WithBoth {
                course: CODES,
                vertical: VerticalSpeedCode { down: true, number: 0 },
                uncertainty: UncertaintySpeedCode(254),
                vertical_uncertainty: UncertaintySpeedCode(255),
            },
            Velocity::WithBoth {
                course: COURSE,
                vertical: VerticalMetresPerHour(-1),
                uncertainty: Some(MetresPerHour(254_000)),
                vertical_uncertainty: None,
            },
        ),
    ]
}

test_samples!(read_velocity, write_velocity, report_velocity, code_velocity);

#[test]
fn unreadable_messages_are_refused() {
    assert_eq!(read_velocity(&[]), Err(Refusal::NoOctets));
    assert_eq!(read_velocity(&[0x40]), Err(Refusal::UnknownType));
    assert_eq!(read_velocity(&[0x01, 0x68, 0x00]), Err(Refusal::WrongLength));
    assert_eq!(read_velocity(&[0x01, 0x68, 0x00, 0x00]), Err(Refusal::AngleCode));
}

#[test]
fn codes_outside_their_fields_are_refused() {
    let turned = VelocityCodes::Horizontal { course: CourseCodes { bearing: BearingCode(360), speed: HorizontalSpeedCode(65_536) } };
    let fast = VelocityCodes::Horizontal { course: CourseCodes { bearing: BearingCode(359), speed: HorizontalSpeedCode(65_536) } };
    for (codes, refusal) in [(turned, Refusal::AngleCode), (fast, Refusal::OutOfRange)] {
        assert_eq!(write_velocity(&codes, &mut []), Err(refusal));
        assert_eq!(report_velocity(&codes), Err(refusal));
    }
}

#[test]
fn quantities_out_of_range_are_refused() {
    let uncertain = |bearing| Velocity::WithUncertainty {
        course: Course { bearing: Millidegrees(bearing), ..COURSE },
        uncertainty: Some(MetresPerHour(254_001)),
    };
    assert_eq!(code_velocity(&uncertain(360_000)), Err(Refusal::OutOfRange));
    assert_eq!(code_velocity(&uncertain(359_999)), Err(Refusal::UncertaintyTooLarge));
}
