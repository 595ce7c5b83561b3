//! Bytes as text; long runs of one byte are counted.

/// Two capital digits a byte. Eight or more equal bytes are written once, with their count.
pub fn hex(bytes: &[u8]) -> String {
    let mut text = String::from("\"");
    let mut i = 0;
    while i < bytes.len() {
        let run = bytes[i..].iter().take_while(|b| **b == bytes[i]).count();
        if run >= 8 {
            text += &format!("({}x{:02X})", run, bytes[i]);
            i += run;
        } else {
            text += &format!("{:02X}", bytes[i]);
            i += 1;
        }
    }
    text + "\""
}

/// The same with spaces between bytes, as the documents write them.
pub fn spaced(bytes: &[u8]) -> String {
    bytes.iter().map(|b| format!("{b:02X}")).collect::<Vec<_>>().join(" ")
}
