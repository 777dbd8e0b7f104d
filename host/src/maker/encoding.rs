//! The text in a file's bytes: UTF-8, with or without a byte order mark. Any other encoding is told at its lines.

use super::Fault;

const UTF_8_MARK: &[u8] = &[0xef, 0xbb, 0xbf];

/// The text without its byte order mark.
pub fn text_of(bytes: &[u8]) -> Result<String, Vec<Fault>> {
    let bytes = bytes.strip_prefix(UTF_8_MARK).unwrap_or(bytes);
    if bytes.starts_with(&[0xff, 0xfe]) || bytes.starts_with(&[0xfe, 0xff]) {
        return Err(vec![told(1, "this is UTF-16; save the text as UTF-8")]);
    }
    let mut faults = Vec::new();
    for (line, content) in (1..).zip(bytes.split(|&byte| byte == b'\n')) {
        if content.contains(&0) {
            // No text of any kind, or two bytes a character: the lines behind it say no more.
            return Err(vec![told(line, "there is a zero byte: this is UTF-16, or no text; save the text as UTF-8")]);
        }
        if let Err(error) = std::str::from_utf8(content) {
            let byte = content[error.valid_up_to()];
            faults.push(told(
                line,
                &format!("the byte {byte:02x} is not UTF-8, but Latin-1 or the like; save the text as UTF-8"),
            ));
        }
    }
    if faults.is_empty() {
        Ok(String::from_utf8(bytes.to_vec()).expect("each line is UTF-8"))
    } else {
        Err(faults)
    }
}

fn told(line: usize, text: &str) -> Fault {
    Fault { line, text: text.to_string() }
}
