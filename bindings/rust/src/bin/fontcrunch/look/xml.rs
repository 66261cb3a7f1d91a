//! A second reader of XML, for messages, for counting and for what the proved reader of GLIF does not take. It is
//! small, is outside the proofs, and decides nothing that an entry decides. It follows docs/GLIF.md, "The grammar"; where
//! a document type is allowed, as in property lists, it is passed over.

use std::ops::Range;

use crate::contour_line::shown;

/// What is wrong with a file, and at which byte.
#[derive(Debug, PartialEq, Eq)]
pub struct Fault {
    pub at: usize,
    pub what: String,
}

fn fault<T>(at: usize, what: impl Into<String>) -> Result<T, Fault> {
    Err(Fault { at, what: what.into() })
}

/// The line and the column of a byte, both counted from 1; columns are bytes.
pub fn line_and_column(bytes: &[u8], at: usize) -> (usize, usize) {
    let before = &bytes[..at.min(bytes.len())];
    let line_start = before.iter().rposition(|&byte| byte == b'\n').map_or(0, |end| end + 1);
    (1 + before.iter().filter(|&&byte| byte == b'\n').count(), before.len() - line_start + 1)
}

#[derive(Debug, PartialEq, Eq)]
pub enum Kind<'a> {
    /// A start tag with its attributes, as text and as what they stand for.
    Start {
        name: &'a str,
        attributes: Vec<(&'a str, String)>,
        empty: bool,
    },
    End {
        name: &'a str,
    },
    /// Characters, or a reference or a section, which is marked; as what they stand for.
    Text {
        said: String,
        marked: bool,
    },
}

#[derive(Debug, PartialEq, Eq)]
pub struct Token<'a> {
    pub span: Range<usize>,
    pub kind: Kind<'a>,
}

/// The names of open elements and of a tag's attributes that the proved reader holds at once.
const MOST_NAMES: usize = 256;

pub struct Scanner<'a> {
    text: &'a str,
    at: usize,
    open: Vec<&'a str>,
    document_types: bool,
    rooted: bool,
}

impl<'a> Scanner<'a> {
    /// Of bytes that are characters of XML.
    pub fn new(bytes: &'a [u8], document_types: bool) -> Result<Scanner<'a>, Fault> {
        let text = match std::str::from_utf8(bytes) {
            Ok(text) => text,
            Err(error) => return fault(error.valid_up_to(), "bytes that are no UTF-8"),
        };
        if let Some((at, c)) = text.char_indices().find(|&(_, c)| !is_allowed(c)) {
            return fault(at, format!("the character U+{:04X} is not allowed", u32::from(c)));
        }
        let mut scanner = Scanner { text, at: 0, open: Vec::new(), document_types, rooted: false };
        scanner.start()?;
        Ok(scanner)
    }

    /// What stands at the very start.
    fn start(&mut self) -> Result<(), Fault> {
        if self.rest().starts_with('\u{feff}') {
            if !self.document_types {
                return fault(0, "a byte order mark is not read");
            }
            self.at += '\u{feff}'.len_utf8();
        }
        if !self.rest().starts_with("<?") {
            return Ok(());
        }
        let Some(length) = self.rest()[2..].find("?>") else {
            return fault(self.at, "the XML declaration is not ended");
        };
        let said = &self.rest()[2..2 + length];
        let after = said.strip_prefix("xml").filter(|after| after.starts_with(is_blank));
        let Some(after) = after else {
            return fault(0, "an instruction at the very start is not read");
        };
        if !self.document_types && !is_declaration(after) {
            return fault(
                0,
                "the XML declaration has version 1.0, perhaps the encoding UTF-8, and nothing else",
            );
        }
        self.at += 2 + length + 2;
        Ok(())
    }

    fn rest(&self) -> &'a str {
        &self.text[self.at..]
    }

    /// The next token; None at a proper end.
    pub fn next(&mut self) -> Result<Option<Token<'a>>, Fault> {
        loop {
            let from = self.at;
            let rest = self.rest();
            if rest.is_empty() {
                return self.ended();
            }
            if !rest.starts_with('<') {
                if let Some(token) = self.characters(from)? {
                    return Ok(Some(token));
                }
            } else if rest.starts_with("<!--") {
                self.comment()?;
            } else if rest.starts_with("<![") {
                return self.section(from).map(Some);
            } else if rest.starts_with("<!") {
                self.document_type()?;
            } else if rest.starts_with("<?") {
                self.instruction()?;
            } else if rest.starts_with("</") {
                return self.end_tag(from).map(Some);
            } else {
                return self.start_tag(from).map(Some);
            }
        }
    }

    fn ended(&self) -> Result<Option<Token<'a>>, Fault> {
        match self.open.last() {
            Some(name) => {
                fault(self.at, format!("the file ends, and the element {} is not closed", word(name)))
            }
            None if !self.rooted => fault(self.at, "the file has no element"),
            None => Ok(None),
        }
    }

    /// Characters up to the next tag, or one reference.
    fn characters(&mut self, from: usize) -> Result<Option<Token<'a>>, Fault> {
        let rest = self.rest();
        let (said, length) = match rest.strip_prefix('&') {
            Some(_) => self.reference()?,
            None => {
                let length = rest.find(['<', '&']).unwrap_or(rest.len());
                (rest[..length].to_owned(), length)
            }
        };
        if let Some(at) = rest[..length].find("]]>") {
            return fault(from + at, "]]> stands in text");
        }
        self.at += length;
        let marked = rest.starts_with('&');
        if self.open.is_empty() {
            let blank = !marked && said.chars().all(is_blank);
            return if blank { Ok(None) } else { fault(from, "text stands outside the root element") };
        }
        Ok(Some(Token { span: from..self.at, kind: Kind::Text { said, marked } }))
    }

    /// What a reference here stands for, and its length.
    fn reference(&self) -> Result<(String, usize), Fault> {
        let wrong = || fault(self.at, "a reference is one of &lt; &gt; &amp; &apos; &quot; &#N; &#xN;");
        let Some(length) = self.rest().find(';') else {
            return wrong();
        };
        let name = &self.rest()[1..length];
        let number = match name.strip_prefix('#') {
            None => None,
            Some(digits) => match digits.strip_prefix('x') {
                Some(hex) if hex.bytes().all(|d| d.is_ascii_hexdigit()) => u32::from_str_radix(hex, 16).ok(),
                None if digits.bytes().all(|d| d.is_ascii_digit()) => digits.parse().ok(),
                _ => None,
            },
        };
        let stands_for = match name {
            "lt" => Some('<'),
            "gt" => Some('>'),
            "amp" => Some('&'),
            "apos" => Some('\''),
            "quot" => Some('"'),
            _ => number.and_then(char::from_u32),
        };
        match stands_for {
            Some(c) if is_allowed(c) => Ok((c.to_string(), length + 1)),
            _ => wrong(),
        }
    }

    fn comment(&mut self) -> Result<(), Fault> {
        match self.rest()[4..].find("--") {
            None => fault(self.at, "a comment is not ended"),
            Some(length) if self.rest()[4 + length..].starts_with("-->") => {
                self.at += 4 + length + 3;
                Ok(())
            }
            Some(length) => fault(self.at + 4 + length, "-- stands in a comment"),
        }
    }

    fn section(&mut self, from: usize) -> Result<Token<'a>, Fault> {
        let Some(inside) = self.rest().strip_prefix("<![CDATA[") else {
            return fault(from, "<![ begins no section CDATA");
        };
        if self.open.is_empty() {
            return fault(from, "a section stands outside the root element");
        }
        let Some(length) = inside.find("]]>") else {
            return fault(from, "a section CDATA is not ended");
        };
        self.at += "<![CDATA[".len() + length + "]]>".len();
        let said = inside[..length].to_owned();
        Ok(Token { span: from..self.at, kind: Kind::Text { said, marked: true } })
    }

    fn document_type(&mut self) -> Result<(), Fault> {
        if !self.document_types || self.rooted {
            return fault(self.at, "a document type is not read");
        }
        let mut depth = 0;
        for (length, c) in self.rest().char_indices() {
            match c {
                '[' => depth += 1,
                ']' => depth -= 1,
                '>' if depth <= 0 => {
                    self.at += length + 1;
                    return Ok(());
                }
                _ => {}
            }
        }
        fault(self.at, "a document type is not ended")
    }

    fn instruction(&mut self) -> Result<(), Fault> {
        let rest = self.rest();
        if rest[2..].starts_with(['x', 'X']) {
            return fault(self.at, "an instruction whose name begins with x is not read");
        }
        let name = name_length(&rest[2..]);
        let Some(length) = rest[2..].find("?>") else {
            return fault(self.at, "an instruction is not ended");
        };
        if name == 0 || (name != length && !rest[2 + name..].starts_with(is_blank)) {
            return fault(self.at, "an instruction has no proper name");
        }
        self.at += 2 + length + 2;
        Ok(())
    }

    fn end_tag(&mut self, from: usize) -> Result<Token<'a>, Fault> {
        let rest = &self.rest()[2..];
        let name = &rest[..name_length(rest)];
        let blanks = rest[name.len()..].len() - rest[name.len()..].trim_start_matches(is_blank).len();
        if name.is_empty() || !rest[name.len() + blanks..].starts_with('>') {
            return fault(from, "an end tag is no </name>");
        }
        match self.open.pop() {
            Some(open) if open == name => {}
            Some(open) => return fault(from, format!("</{}> closes the element {}", word(name), word(open))),
            None => return fault(from, format!("</{}> closes no element", word(name))),
        }
        self.at += 2 + name.len() + blanks + 1;
        Ok(Token { span: from..self.at, kind: Kind::End { name } })
    }

    fn start_tag(&mut self, from: usize) -> Result<Token<'a>, Fault> {
        let name = &self.rest()[1..1 + name_length(&self.rest()[1..])];
        if name.is_empty() {
            return fault(from, "< begins no tag");
        }
        if self.open.is_empty() && self.rooted {
            return fault(from, format!("a second root element, {}", word(name)));
        }
        self.at += 1 + name.len();
        let mut attributes: Vec<(&str, String)> = Vec::new();
        let empty = loop {
            let blank = self.pass_blanks();
            if self.rest().starts_with("/>") {
                self.at += 2;
                break true;
            } else if self.rest().starts_with('>') {
                self.at += 1;
                break false;
            }
            let at = self.at;
            let (key, value) = self.attribute(name, blank)?;
            if attributes.iter().any(|(other, _)| *other == key) {
                return fault(at, format!("the attribute {} stands twice", word(key)));
            }
            attributes.push((key, value));
            if self.open.len() + attributes.len() > MOST_NAMES {
                return fault(at, format!("more than {MOST_NAMES} names are open at once"));
            }
        };
        self.rooted = true;
        if self.open.len() >= MOST_NAMES {
            return fault(from, format!("more than {MOST_NAMES} names are open at once"));
        }
        if !empty {
            self.open.push(name);
        }
        Ok(Token { span: from..self.at, kind: Kind::Start { name, attributes, empty } })
    }

    /// Whether there were some.
    fn pass_blanks(&mut self) -> bool {
        let rest = self.rest();
        let blanks = rest.len() - rest.trim_start_matches(is_blank).len();
        self.at += blanks;
        blanks > 0
    }

    fn attribute(&mut self, tag: &str, blank: bool) -> Result<(&'a str, String), Fault> {
        let from = self.at;
        let name = &self.rest()[..name_length(self.rest())];
        if name.is_empty() {
            return fault(from, format!("the tag {} is not ended", word(tag)));
        }
        if !blank {
            return fault(from, format!("no blank stands before the attribute {}", word(name)));
        }
        self.at += name.len();
        self.pass_blanks();
        if !self.rest().starts_with('=') {
            return fault(from, format!("the attribute {} has no value", word(name)));
        }
        self.at += 1;
        self.pass_blanks();
        let Some(quote) = self.rest().chars().next().filter(|&c| c == '"' || c == '\'') else {
            return fault(from, format!("the value of {} stands in no quotation marks", word(name)));
        };
        self.at += 1;
        let mut value = String::new();
        loop {
            let Some(c) = self.rest().chars().next() else {
                return fault(from, format!("the value of {} is not ended", word(name)));
            };
            if c == '<' {
                return fault(self.at, format!("< stands in the value of {}", word(name)));
            }
            if c == '&' {
                let (said, length) = self.reference()?;
                value.push_str(&said);
                self.at += length;
                continue;
            }
            self.at += c.len_utf8();
            if c == quote {
                return Ok((name, value));
            }
            value.push(c);
        }
    }
}

/// A word of the file for a message.
pub fn word(text: &str) -> String {
    shown(text.as_bytes())
}

/// What stands between `<?xml` and `?>`.
fn is_declaration(said: &str) -> bool {
    let Some(after) = said_value(said, "version", &["1.0"]) else {
        return false;
    };
    let after = said_value(after, "encoding", &["UTF-8", "utf-8"]).unwrap_or(after);
    after.chars().all(is_blank)
}

/// What follows ` name="value"`, where that comes first.
fn said_value<'a>(said: &'a str, name: &str, values: &[&str]) -> Option<&'a str> {
    let trimmed = said.trim_start_matches(is_blank);
    if trimmed.len() == said.len() {
        return None;
    }
    let after = trimmed.strip_prefix(name)?.trim_start_matches(is_blank).strip_prefix('=')?;
    let after = after.trim_start_matches(is_blank);
    let quote = after.chars().next().filter(|&c| c == '"' || c == '\'')?;
    let (value, after) = after[1..].split_once(quote)?;
    values.contains(&value).then_some(after)
}

/// A character of XML 1.0.
fn is_allowed(c: char) -> bool {
    matches!(c, '\t' | '\n' | '\r' | ' '..='\u{fffd}' | '\u{10000}'..)
}

fn is_blank(c: char) -> bool {
    matches!(c, ' ' | '\t' | '\n' | '\r')
}

/// The bytes of a name at the start of a text; 0 where there is none.
fn name_length(text: &str) -> usize {
    let starts = |b: u8| b.is_ascii_alphabetic() || b == b'_' || b == b':' || b >= 0x80;
    let goes_on = |b: u8| starts(b) || b.is_ascii_digit() || b == b'-' || b == b'.';
    if !text.bytes().next().is_some_and(starts) {
        return 0;
    }
    text.bytes().take_while(|&b| goes_on(b)).count()
}

#[cfg(test)]
mod tests {
    use super::*;

    fn first_fault(text: &str) -> String {
        let mut scanner = match Scanner::new(text.as_bytes(), false) {
            Ok(scanner) => scanner,
            Err(fault) => return format!("{}: {}", fault.at, fault.what),
        };
        loop {
            match scanner.next() {
                Ok(Some(_)) => {}
                Ok(None) => return "none".to_owned(),
                Err(fault) => return format!("{}: {}", fault.at, fault.what),
            }
        }
    }

    #[test]
    fn faults_are_told_with_their_place() {
        for (text, told) in [
            ("<a/>", "none"),
            ("<?xml version='1.0' encoding=\"utf-8\" ?><a b='&#x41;' c=\"'\">x<!-- - -->&lt;<![CDATA[<]]></a >\n", "none"),
            ("<!DOCTYPE a><a/>", "0: a document type is not read"),
            ("\u{feff}<a/>", "0: a byte order mark is not read"),
            ("<?xml version='1.1'?><a/>", "0: the XML declaration has version 1.0, perhaps the encoding UTF-8, and nothing else"),
            ("<?a b?><a/>", "0: an instruction at the very start is not read"),
            (" <?xml version='1.0'?><a/>", "1: an instruction whose name begins with x is not read"),
            ("<a><b></a></b>", "6: </a> closes the element b"),
            ("<a></a></a>", "7: </a> closes no element"),
            ("<a>", "3: the file ends, and the element a is not closed"),
            ("", "0: the file has no element"),
            ("<a/><b/>", "4: a second root element, b"),
            ("<a/>x", "4: text stands outside the root element"),
            ("<a b='1' b='2'/>", "9: the attribute b stands twice"),
            ("<a b/>", "3: the attribute b has no value"),
            ("<a b=1/>", "3: the value of b stands in no quotation marks"),
            ("<a b='1'c='2'/>", "8: no blank stands before the attribute c"),
            ("<a b='<'/>", "6: < stands in the value of b"),
            ("<a b='1", "3: the value of b is not ended"),
            ("<a>&nbsp;</a>", "3: a reference is one of &lt; &gt; &amp; &apos; &quot; &#N; &#xN;"),
            ("<a>&#0;</a>", "3: a reference is one of &lt; &gt; &amp; &apos; &quot; &#N; &#xN;"),
            ("<a>]]></a>", "3: ]]> stands in text"),
            ("<a><!-- -- --></a>", "8: -- stands in a comment"),
            ("<a>\u{1}</a>", "3: the character U+0001 is not allowed"),
            ("<a", "2: the tag a is not ended"),
            ("< a/>", "0: < begins no tag"),
        ] {
            assert_eq!(first_fault(text), told, "{text}");
        }
    }

    #[test]
    fn places_are_lines_and_columns() {
        let bytes = b"ab\ncd\n";
        let told: Vec<_> = [0, 1, 2, 3, 5, 6, 99].iter().map(|&at| line_and_column(bytes, at)).collect();
        assert_eq!(told, [(1, 1), (1, 2), (1, 3), (2, 1), (2, 3), (3, 1), (3, 1)]);
    }

    #[test]
    fn property_lists_have_a_document_type() {
        let text =
            b"<?xml version='1.0' encoding='UTF-8'?>\n<!DOCTYPE plist PUBLIC 'a' 'b' [ <!X> ]>\n<plist/>";
        let mut scanner = Scanner::new(text, true).unwrap();
        assert!(matches!(scanner.next().unwrap().unwrap().kind, Kind::Start { name: "plist", .. }));
        assert_eq!(scanner.next(), Ok(None));
    }
}
