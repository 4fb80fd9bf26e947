//! The bytes that document 02, A3, keeps out of every text, and texts with them.

#[rustfmt::skip]
pub const CONTROL_BYTES: &[u8] = &[
    0x00, 0x01, 0x02, 0x03, 0x04, 0x05, 0x06, 0x07, 0x08, 0x0b, 0x0c, 0x0e, 0x0f, 0x10, 0x11, 0x12, 0x13, 0x14, 0x15, 0x16,
    0x17, 0x18, 0x19, 0x1a, 0x1b, 0x1c, 0x1d, 0x1e, 0x1f, 0x7f,
];

#[rustfmt::skip]
pub const TEXTS: &[&[u8]] = &[
    // each alone
    b"\x00", b"\x01", b"\x02", b"\x03", b"\x04", b"\x05", b"\x06", b"\x07", b"\x08", b"\x0b", b"\x0c", b"\x0e", b"\x0f",
    b"\x10", b"\x11", b"\x12", b"\x13", b"\x14", b"\x15", b"\x16", b"\x17", b"\x18", b"\x19", b"\x1a", b"\x1b", b"\x1c",
    b"\x1d", b"\x1e", b"\x1f", b"\x7f",
    // in names and sheets
    b"5\0", b"\x1f5", b"abc\x7f", b"1.5\x0b", b"1,2\x0c34", b"1\x0eth", b"9:30\0", b"9\x1b:30", b"9:30\x08am", b"A.B\x01",
    b"5\x02kg", b"kg\x7f", b"12\x03-18", b"5/\x1e8", b"7%\0", b"XI\x0cV", b"19\x0084", b"-1.50\x1f", b"Bar 12\x1f at 9:30.",
    b"Bar 12 at 9:30.\x0c\n", b"a.\x0b\nB", b"a.\n\x7f\nB", b"yahoo! \0a", b"\"\x1b", b"\"\x1b ", b" \x0c ", b"\r\n\0",
    b"caf\xc3\xa9\x7f", b"\x11\xe2\x82\xac",
    // with broken UTF-8, which is tested first
    b"\0\xff", b"\xff\0", b"\xc3\x1f", b"\x7f\xe2\x82", b"\xf0\x90\x0b\x8d", b"\x80\x08", b"\x0c\xc0\x80",
    // none of them: their neighbours, and two and three bytes
    b"\x09", b"\x0a", b"\x0d", b"\x20", b"\x7e", b"5\t", b"~5", b"\xc2\x80", b"\xc2\x85", b"\xc2\x8b", b"\xc2\x9b", b"\xc2\x9f",
    b"\xc2\xa0", b"\xe2\x80\xa8", b"a.\xc2\x85B", b"5\xc2\x9f", b"Bar\xe2\x80\xa812",
];
