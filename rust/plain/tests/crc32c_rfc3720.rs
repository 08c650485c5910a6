//! CRC32C against the examples that RFC 3720 publishes in appendix B.4.

use plain::crc32c;

#[test]
fn zeros() {
    assert_eq!(crc32c(&[0x00; 32]), 0x8A91_36AA);
}

#[test]
fn ones() {
    assert_eq!(crc32c(&[0xFF; 32]), 0x62A8_AB43);
}

#[test]
fn incrementing() {
    let bytes: [u8; 32] = std::array::from_fn(|index| index as u8);
    assert_eq!(crc32c(&bytes), 0x46DD_794E);
}

#[test]
fn decrementing() {
    let bytes: [u8; 32] = std::array::from_fn(|index| 31 - index as u8);
    assert_eq!(crc32c(&bytes), 0x113F_DB5C);
}

/// An iSCSI SCSI Read (10) command.
#[test]
fn scsi_read() {
    let bytes = [
        0x01, 0xC0, 0x00, 0x00, 0x00, 0x00, 0x00, 0x00, 0x00, 0x00, 0x00, 0x00, 0x00, 0x00, 0x00,
        0x00, 0x14, 0x00, 0x00, 0x00, 0x00, 0x00, 0x04, 0x00, 0x00, 0x00, 0x00, 0x14, 0x00, 0x00,
        0x00, 0x18, 0x28, 0x00, 0x00, 0x00, 0x00, 0x00, 0x00, 0x00, 0x02, 0x00, 0x00, 0x00, 0x00,
        0x00, 0x00, 0x00,
    ];
    assert_eq!(crc32c(&bytes), 0xD996_3A56);
}

/// Lengths that are no multiple of eight take single steps at their end.
#[test]
fn odd_lengths() {
    assert_eq!(crc32c(b""), 0);
    assert_eq!(crc32c(b"123456789"), 0xE306_9283);
}
