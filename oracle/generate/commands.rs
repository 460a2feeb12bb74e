//! Commands of the comparing protocol, written and counted.

use std::io::Write;

pub struct Commands<W: Write> {
    pub out: W,
    pub made: usize,
}

impl<W: Write> Commands<W> {
    pub fn new(out: W) -> Self {
        Self { out, made: 0 }
    }

    /// A command as it stands, for those that are not in the protocol's form.
    pub fn put(&mut self, command: &str) {
        writeln!(self.out, "{command}").expect("the commands are written");
        self.made += 1;
    }

    pub fn fresh(&mut self) {
        self.put("fresh");
    }

    pub fn unarmor(&mut self, fill: usize, room: usize, data: &[u8]) {
        self.put(&format!("unarmor {fill} {room} {}", hex(data)));
    }

    pub fn decode(&mut self, bytes: &[u8]) {
        self.put(&format!("decode {}", hex(bytes)));
    }

    pub fn read(&mut self, decode: bool, line: &[u8]) {
        self.read_into(decode, 384, 288, line);
    }

    pub fn read_into(&mut self, decode: bool, room: usize, bit_room: usize, line: &[u8]) {
        self.put(&format!("read {} {room} {bit_room} {}", u8::from(decode), hex(line)));
    }
}

fn hex(bytes: &[u8]) -> String {
    if bytes.is_empty() {
        return "-".into();
    }
    let digits = b"0123456789abcdef";
    bytes.iter().flat_map(|&byte| [byte >> 4, byte & 15]).map(|digit| char::from(digits[usize::from(digit)])).collect()
}
