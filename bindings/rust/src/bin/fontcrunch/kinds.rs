//! Files of another kind than is read, known by how they begin.

use std::path::Path;

/// What a file is that holds no lines; None where it may hold some.
pub fn of_start(start: &[u8]) -> Option<&'static str> {
    font(start).or_else(|| {
        let start = start.strip_prefix(b"\xef\xbb\xbf").unwrap_or(start).trim_ascii_start();
        let is_glif = start.starts_with(b"<?xml") || start.starts_with(b"<glyph");
        is_glif.then_some(
            "is XML, as a file of GLIF is, and not lines; fontcrunch glif FILE.glif --closed crunches one",
        )
    })
}

/// What a file is that begins as fonts do.
pub fn font(start: &[u8]) -> Option<&'static str> {
    let four = start.get(..4)?;
    match four {
        [0, 1, 0, 0] | b"true" | b"ttcf" => {
            Some("is a TrueType font; python3 -m fontcrunch crunches one, and glyph takes its descriptions")
        }
        b"OTTO" => Some("is an OpenType font of cubic outlines; as a UFO, fontcrunch ufo --cubic takes it"),
        b"wOFF" | b"wOF2" => {
            Some("is a web font, which is packed; python3 -m fontcrunch takes one that is not")
        }
        _ => None,
    }
}

/// What a folder is.
pub fn of_folder(path: &Path) -> &'static str {
    if path.join("metainfo.plist").is_file() || path.join("glyphs").is_dir() {
        "is a UFO; fontcrunch ufo IN.ufo -o OUT.ufo crunches it"
    } else {
        "is a folder"
    }
}

#[cfg(test)]
mod tests {
    use super::*;

    #[test]
    fn beginnings() {
        assert!(of_start(b"\x00\x01\x00\x00\x00\x0c").unwrap().contains("TrueType"));
        assert!(of_start(b"OTTO\x00").unwrap().contains("OpenType"));
        assert!(of_start(b"wOF2").unwrap().contains("web font"));
        assert!(of_start(b"<?xml version=\"1.0\"?>").unwrap().contains("GLIF"));
        assert!(of_start(b"\xef\xbb\xbf <glyph name='a'>").unwrap().contains("GLIF"));
        for lines in [&b""[..], b"0 0 1", b"<", b"<b>", b"x", b"\x00\x01\x00"] {
            assert_eq!(of_start(lines), None);
        }
    }
}
