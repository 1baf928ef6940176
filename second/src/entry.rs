//! Entries: 16 bytes, a serial of 12 and an event code of 4.

pub type Entry = [u8; 16];

pub const SERIAL: usize = 12;

/// 01's "bytes 0x21 to 0x7E, then only 0x20 to the end" with 02's "at least one byte of 0x21 to 0x7E must come first"; the
/// code is any bytes.
pub fn well_formed(entry: &Entry) -> bool {
    let serial = &entry[..SERIAL];
    let printed = serial.iter().take_while(|&&byte| matches!(byte, 0x21..=0x7e)).count();
    printed > 0 && serial[printed..].iter().all(|&byte| byte == 0x20)
}
