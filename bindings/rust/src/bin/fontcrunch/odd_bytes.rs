//! Bytes of a malformed line that nobody sees on a screen, named in words.

/// What is to be said besides of a line that is malformed.
pub fn told(line: &[u8]) -> Option<&'static str> {
    if line.starts_with(b"\xef\xbb\xbf") {
        Some("a byte order mark stands before the line, and lines have none")
    } else if line.ends_with(b"\r") {
        Some("the line ends with a carriage return (CRLF), and lines end with a line feed alone")
    } else if line.contains(&b'\t') {
        Some("a tab stands in the line, and between numbers stands one blank")
    } else {
        None
    }
}

#[cfg(test)]
mod tests {
    use super::*;

    #[test]
    fn three_kinds() {
        assert!(told(b"\xef\xbb\xbf0 0 1").unwrap().contains("byte order mark"));
        assert!(told(b"0 0 1\r").unwrap().contains("CRLF"));
        assert!(told(b"0\t0 1").unwrap().contains("tab"));
        assert_eq!(told(b"0 0 x"), None);
    }
}
