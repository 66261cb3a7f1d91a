use super::*;

const LONGEST: usize = 65_536;

/// Gives its bytes in parts of so many.
struct Slowly<'a> {
    bytes: &'a [u8],
    part: usize,
}

impl Read for Slowly<'_> {
    fn read(&mut self, buffer: &mut [u8]) -> io::Result<usize> {
        let count = self.part.min(self.bytes.len()).min(buffer.len());
        let (now, later) = self.bytes.split_at(count);
        buffer[..count].copy_from_slice(now);
        self.bytes = later;
        Ok(count)
    }
}

fn lines_of(bytes: &[u8], part: usize) -> Vec<Vec<u8>> {
    let mut lines = Lines::new(Slowly { bytes, part }, LONGEST);
    let mut all = Vec::new();
    while let Some(line) = lines.next(|| Ok(())).unwrap() {
        all.push(line.to_vec());
    }
    assert!(lines.next(|| Ok(())).unwrap().is_none());
    all
}

fn texts(text: &str) -> Vec<String> {
    let at_once = lines_of(text.as_bytes(), text.len().max(1));
    for part in 1..=3 {
        assert_eq!(lines_of(text.as_bytes(), part), at_once, "{text:?} in parts of {part}");
    }
    at_once.into_iter().map(|line| String::from_utf8(line).unwrap()).collect()
}

#[test]
fn byte_10_ends_a_line() {
    assert_eq!(texts("a\nbc\n"), ["a", "bc"]);
    assert_eq!(texts("a\r\nb"), ["a\r", "b"]);
    assert_eq!(texts("\n\na\n\n"), ["", "", "a", ""]);
}

#[test]
fn a_last_line_with_no_end_counts_where_it_is_not_empty() {
    assert_eq!(texts(""), [""; 0]);
    assert_eq!(texts("\n"), [""]);
    assert_eq!(texts("a"), ["a"]);
    assert_eq!(texts("a\nb"), ["a", "b"]);
}

#[test]
fn a_long_line_is_cut_and_the_next_is_whole() {
    let mut bytes = vec![b'1'; 1_000_000];
    bytes.extend_from_slice(b"\nnext\n");
    for part in [1000, 65_536, 1_000_006] {
        let lines = lines_of(&bytes, part);
        assert_eq!(lines.len(), 2);
        assert_eq!(lines[0].len(), LONGEST + 1);
        assert_eq!(lines[1], b"next");
    }
}

#[test]
fn answers_go_out_before_input_is_waited_for() {
    let mut lines = Lines::new(Slowly { bytes: b"a\nb\n", part: 2 }, LONGEST);
    let mut sent = 0;
    for expected in 1..=2 {
        lines
            .next(|| {
                sent += 1;
                Ok(())
            })
            .unwrap();
        assert_eq!(sent, expected);
    }
}

#[test]
fn failures_are_told_apart() {
    struct Broken;
    impl Read for Broken {
        fn read(&mut self, _: &mut [u8]) -> io::Result<usize> {
            Err(io::Error::other("broken"))
        }
    }
    let mut lines = Lines::new(Broken, LONGEST);
    assert!(matches!(lines.next(|| Ok(())), Err(Stopped::Reading(_))));
    assert!(matches!(lines.next(|| Err(io::Error::other("full"))), Err(Stopped::Writing(_))));
}

#[test]
fn an_interrupted_read_is_tried_again() {
    struct Interrupted(bool);
    impl Read for Interrupted {
        fn read(&mut self, buffer: &mut [u8]) -> io::Result<usize> {
            if !std::mem::replace(&mut self.0, true) {
                return Err(ErrorKind::Interrupted.into());
            }
            buffer[0] = b'a';
            Ok(1)
        }
    }
    let mut lines = Lines::new(Interrupted(false).take(3), LONGEST);
    assert_eq!(lines.next(|| Ok(())).unwrap().unwrap(), b"aaa");
}
