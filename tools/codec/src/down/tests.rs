//! Messages read, written and read again.

use super::Down;
use crate::random::messages::{random_down, DOWN_KINDS};
use crate::random::noise::noisy_down;
use crate::random::Random;
use crate::MESSAGE;

#[test]
fn written_is_read_again() {
    let mut random = Random::new(1);
    for i in 0..40_000 {
        let message = random_down(&mut random, i % DOWN_KINDS);
        assert!(message.is_sound());
        assert_eq!(Down::read(&message.write()), Ok(message));
    }
}

/// Bits without a meaning change nothing.
#[test]
fn noise_is_not_read() {
    let mut random = Random::new(2);
    for i in 0..40_000 {
        let message = random_down(&mut random, i % DOWN_KINDS);
        assert_eq!(Down::read(&noisy_down(&mut random, &message)), Ok(message));
    }
}

/// What is read of any bytes is sound, and stays the same when written.
#[test]
fn read_is_sound() {
    let mut random = Random::new(3);
    let mut read = 0;
    for _ in 0..200_000 {
        let mut bytes = [0; MESSAGE];
        random.fill(&mut bytes);
        bytes[0] &= 0x7F;
        bytes[1] &= 0x9F;
        if let Ok(message) = Down::read(&bytes) {
            read += 1;
            assert!(message.is_sound());
            assert_eq!(Down::read(&message.write()), Ok(message));
        }
    }
    assert!(read > 1000);
}

#[test]
fn by_hand() {
    let read = |bytes: [u8; 12]| match Down::read(&bytes) {
        Ok(message) => message.to_string(),
        Err(cause) => cause.to_string(),
    };
    assert_eq!(
        read([5, 3, 0, 0x30, 0x39, 9, 9, 9, 9, 9, 9, 9]),
        "message=Ranging_time pon_id=5 delay=12345"
    );
    assert_eq!(
        read([64, 3, 0, 0x30, 0x39, 0, 0, 0, 0, 0, 0, 0]),
        "fault 17 address=64"
    );
    assert_eq!(
        read([5, 3, 0, 0x7D, 0x01, 0, 0, 0, 0, 0, 0, 0]),
        "fault 17 field=delay"
    );
    assert_eq!(
        read([5, 3, 1, 0, 0, 0, 0, 0, 0, 0, 0, 0]),
        "fault 17 field=delay"
    );
    assert_eq!(
        read([64, 17, 0, 0, 0, 0, 0, 0, 0, 0, 0, 0]),
        "fault 17 identifier=17"
    );
    assert_eq!(
        read([64, 2, 8, 0xAA, 0x55, 0xAA, 1, 2, 0xFE, 0xFF, 0xFF, 0xFF]),
        "message=Upstream_overhead guard=8 overhead=aa55aa delay=0"
    );
    assert_eq!(
        read([64, 2, 24, 0xAA, 0x55, 0xAA, 1, 2, 0xFF, 0, 0x7D, 0x00]),
        "message=Upstream_overhead guard=24 overhead=aa55aa delay=32000"
    );
    assert_eq!(
        read([7, 0x0B, 1, 252, 1, 52, 3, 0, 0, 0, 0, 0]),
        "message=Divided_slot_grant_configuration pon_id=7 active=1 code=252 offset=52 length=1 service=3"
    );
    assert_eq!(
        read([7, 0x0B, 1, 252, 0, 53, 3, 0, 0, 0, 0, 0]),
        "fault 17 field=offset"
    );
    assert_eq!(
        read([7, 0x0B, 1, 252, 2, 52, 3, 0, 0, 0, 0, 0]),
        "fault 17 field=length"
    );
    assert_eq!(
        read([7, 0x0F, 0xFE, 0xAB, 0xC0, 1, 1, 1, 1, 1, 1, 1]),
        "message=Churned_VP pon_id=7 churned=0 vpi=2748"
    );
    assert_eq!(
        read([7, 0x0F, 0xFE, 0xAB, 0xC8, 1, 1, 1, 1, 1, 1, 1]),
        "fault 17 field=vpi"
    );
    assert_eq!(
        read([64, 0x7F, 0, 1, 2, 3, 4, 5, 6, 7, 8, 9]),
        "message=Vendor_specific pon_id=all kind=7 bytes=00010203040506070809"
    );
    assert_eq!(
        read([64, 0x80, 1, 0x0A, 0xF0, 3, 4, 5, 6, 7, 8, 9]),
        "message=PST line=1 k1=0a k2=f0"
    );
    assert_eq!(
        read([64, 7, 0x0F, 1, 2, 3, 4, 5, 6, 7, 8, 9]),
        "message=Disable_serial_number access=allow_all"
    );
}
