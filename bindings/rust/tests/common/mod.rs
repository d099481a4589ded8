//! What holds of both kinds of message, shapes and velocities.

/// Tests of a kind's four functions with its samples(): messages, their codes and their quantities.
macro_rules! test_samples {
    ($read:ident, $write:ident, $report:ident, $code:ident) => {
        #[test]
        fn messages_are_read() {
            for (message, codes, _) in samples() {
                assert_eq!($read(&message), Ok(codes));
            }
        }

        #[test]
        fn no_other_length_is_read() {
            for (message, ..) in samples() {
                let mut longer = message.clone();
                longer.push(0);
                assert_eq!($read(&longer), Err(Refusal::WrongLength));
                assert_eq!($read(&message[..message.len() - 1]), Err(Refusal::WrongLength));
            }
        }

        #[test]
        fn codes_are_written_and_the_rest_of_the_buffer_is_kept() {
            for (message, codes, _) in samples() {
                let mut out = [0xA5; LONGEST_MESSAGE];
                assert_eq!($write(&codes, &mut out), Ok(message.len()));
                assert_eq!(out[..message.len()], message);
                assert!(out[message.len()..].iter().all(|octet| *octet == 0xA5));
            }
        }

        #[test]
        fn a_short_buffer_is_refused_and_kept() {
            for (message, codes, _) in samples() {
                for room in 0..message.len() {
                    let mut out = [0xA5; LONGEST_MESSAGE];
                    assert_eq!($write(&codes, &mut out[..room]), Err(Refusal::BufferTooShort));
                    assert_eq!(out, [0xA5; LONGEST_MESSAGE]);
                }
            }
        }

        #[test]
        fn codes_are_reported_and_quantities_coded() {
            for (_, codes, quantities) in samples() {
                assert_eq!($report(&codes).as_ref(), Ok(&quantities));
                assert_eq!($code(&quantities), Ok(codes));
            }
        }

        #[test]
        fn a_message_comes_back_by_way_of_quantities() {
            for (message, ..) in samples() {
                let quantities = $report(&$read(&message).unwrap()).unwrap();
                let mut out = [0; LONGEST_MESSAGE];
                let length = $write(&$code(&quantities).unwrap(), &mut out).unwrap();
                assert_eq!(out[..length], message);
            }
        }
    };
}

pub(crate) use test_samples;
