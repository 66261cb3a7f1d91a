//! The names and files of a layer, as its contents.plist has them. Outside the proofs.

use std::path::Path;

use crate::look::xml::{line_and_column, Fault, Kind, Scanner};

/// The pairs of a list, or what is wrong with it and where.
pub fn named(path: &Path, bytes: &[u8]) -> Result<Vec<(String, String)>, String> {
    pairs(bytes).map_err(|fault| {
        let (line, column) = line_and_column(bytes, fault.at);
        format!("{}:{line}:{column}: {}", path.display(), fault.what)
    })
}

/// The pairs of the one dictionary of a property list, each a key and a string.
fn pairs(bytes: &[u8]) -> Result<Vec<(String, String)>, Fault> {
    let mut scanner = Scanner::new(bytes, true)?;
    let mut pairs = Vec::new();
    let (mut path, mut key, mut said) = (Vec::new(), None, String::new());
    while let Some(token) = scanner.next()? {
        match token.kind {
            Kind::Start { name, empty, .. } => {
                said.clear();
                if !empty {
                    path.push(name);
                } else if path == ["plist", "dict"] && name == "string" {
                    pairs.extend(key.take().map(|key| (key, String::new())));
                }
            }
            Kind::Text { said: text, .. } => said.push_str(&text),
            Kind::End { .. } => {
                match path[..] {
                    ["plist", "dict", "key"] => key = Some(std::mem::take(&mut said)),
                    ["plist", "dict", "string"] => {
                        pairs.extend(key.take().map(|key| (key, std::mem::take(&mut said))));
                    }
                    // a value of another kind is the value of its key
                    ["plist", "dict", _] => key = None,
                    _ => {}
                }
                path.pop();
            }
        }
    }
    Ok(pairs)
}

#[cfg(test)]
mod tests {
    use super::*;

    #[test]
    fn keys_and_strings() {
        let text = b"<?xml version=\"1.0\" encoding=\"UTF-8\"?>
<!DOCTYPE plist PUBLIC \"-//Apple//DTD PLIST 1.0//EN\" \"http://www.apple.com/DTDs/PropertyList-1.0.dtd\">
<plist version=\"1.0\"><dict>
<key>A</key><string>A_.glif</string>
<key>a&amp;b</key><string>a<!-- -->&amp;b.glif</string>
<key>n</key><integer>3</integer>
<key>d</key><dict><key>x</key><string>y</string></dict>
<key>e</key><string/>
</dict></plist>";
        let expected = [("A", "A_.glif"), ("a&b", "a&b.glif"), ("e", "")];
        let expected: Vec<_> = expected.iter().map(|(k, v)| (k.to_string(), v.to_string())).collect();
        assert_eq!(pairs(text).unwrap(), expected);
        assert!(pairs(b"<plist><dict>").is_err());
    }
}
