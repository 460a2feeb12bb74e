//! What the fields of a line are damaged to: right texts and wrong ones.

/// The talker's two bytes and the report's three.
pub const HEADS: [&[u8]; 30] = [
    b"ABVDM", b"ADVDM", b"AIVDM", b"ANVDM", b"ARVDM", b"ASVDM", b"ATVDM", b"AXVDM", b"BSVDM", b"SAVDM", b"AIVDO", b"AIVDX", b"XXVDM", b"aivdm",
    b"AIvdm", b"AI", b"AIVD", b"AIVDMX", b"", b"A,VDM", b"AI,DM", b"AIVD,", b"A*VDM", b"AIVD*", b"AI\xffDM", b"\x80\xffVDM", b"\0\0\0\0\0", b"     ",
    b"\\AVDM", b"!AIVD",
];
pub const DECIMALS: [&[u8]; 24] = [
    b"", b"0", b"1", b"2", b"3", b"9", b"00", b"01", b"007", b"10", b"254", b"255", b"256", b"300", b"1000", b"000000000000000000000255",
    b"000000000000000000000256", b"99999999999999999999", b"-1", b"+1", b" 1", b"1 ", b"1a", b"\xb2",
];
pub const CHANNELS: [&[u8]; 13] = [b"", b"A", b"B", b"1", b"AB", b"A B", b"*", b"A*", b"\x11", b"\xe9", b"\0", b"\\", b"!"];
pub const PAYLOADS: [&[u8]; 18] =
    [b"", b"w", b"0", b"X", b"_", b"/", b"x", b"*", b"w*", b"w*w", b"\0", b"w\0", b"\0w", b"\xff", b"w\xe9", b"!", b"\\", b" "];
pub const FILLS: [&[u8]; 16] = [b"0", b"1", b"2", b"3", b"4", b"5", b"6", b"7", b"00", b"05", b"06", b"0000000000000005", b"", b"255", b"256", b"a"];
/// Tag blocks and start marks.
pub const BEFORE: [&[u8]; 20] = [
    b"!", b"$", b"", b"\\t\\!", b"\\\\!", b"\\a\\$", b"\\g:1-2-1234,s:r1*5F\\!", b"\\!*\\!", b"\\$\xff\0\\!", b"\\a\\", b"\\a", b"\\!", b"\\",
    b"\\a\\\\b\\!", b"\\a\\ !", b" !", b"!!", b"$!", b"#", b"a\\b\\!",
];

/// What may follow the star: the checksum in every number of digits and in either case, then wrong ones, then none.
pub fn ends(sum: u8) -> Vec<String> {
    let mut ends = vec![format!("{sum:x}"), format!("{sum:X}")];
    ends.extend((2..=9).map(|width| format!("{sum:0width$X}")));
    ends.extend([0x01, 0x10, 0x80, 0xff].map(|other| format!("{:02X}", sum ^ other)));
    for text in ["\r\n", "G", "g", "0", "f", " ", "*", ",0*00"] {
        ends.push(format!("{sum:02x}{text}"));
    }
    for text in ["1", "*", " ", "0x", "+", "0000000", "00000000"] {
        ends.push(format!("{text}{sum:02X}"));
    }
    ends.extend(["", "G", "\r\n", "0", "FF", "fF", "100", "0100", "00000100", "000001000", "FFFFFFFF", "fffffffff"].map(String::from));
    ends
}
