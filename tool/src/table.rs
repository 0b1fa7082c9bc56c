//! The table of many logs: one line of CSV for each, quoted and ended as RFC 4180 has it.

use std::borrow::Cow;

use crate::answer::Answer;

/// The names of the columns, as the first line.
pub const HEADING: &str = "file,version,episodes,links,width,apart,refusal,place,loop\r\n";

/// The line of a file: its name and its fields.
pub fn line(file: &[u8], answer: Result<&Answer, &str>) -> Vec<u8> {
    let mut line = quoted(file).into_owned();
    for field in fields(answer) {
        line.push(b',');
        line.extend_from_slice(&quoted(field.as_bytes()));
    }
    line.extend_from_slice(b"\r\n");
    line
}

/// What stands behind the name of a file: the figures of its log as they are printed; or of a refused one its number and place, and of a
/// loop the episodes too; or why the file cannot be read, in the place of a refusal.
pub fn fields<'a>(answer: Result<&Answer<'a>, &'a str>) -> [Cow<'a, str>; 8] {
    let figures = |name| Cow::from(answer.ok().and_then(|answer| answer.figures(name)).unwrap_or_default());
    let version = answer.ok().and_then(Answer::version).map(|version| version.to_string()).unwrap_or_default();
    let (refusal, place) = match answer {
        Ok(answer) => answer.refusal().unwrap_or_default(),
        Err(message) => (message, ""),
    };
    let [episodes, links, width, apart, steps] = ["episodes", "links", "width", "apart", "loop"].map(figures);
    [version.into(), episodes, links, width, apart, refusal.into(), place.into(), steps]
}

/// A field, in quotes where it has a comma, a quote or a line break; each quote in it is then doubled.
fn quoted(field: &[u8]) -> Cow<'_, [u8]> {
    if !field.iter().any(|byte| b",\"\r\n".contains(byte)) {
        return Cow::Borrowed(field);
    }
    let mut quoted = vec![b'"'];
    for byte in field {
        if *byte == b'"' {
            quoted.push(b'"');
        }
        quoted.push(*byte);
    }
    quoted.push(b'"');
    Cow::Owned(quoted)
}

#[cfg(test)]
mod tests {
    use super::*;
    use crate::answer::Buffers;
    use crate::log::Log;
    use zohapy::bytes_from_words;

    /// The line of a log in its text form.
    fn line_of(file: &str, text: &str) -> String {
        let log = bytes_from_words(&Log::from_text(text).expect("a text form").words());
        String::from_utf8(line(file.as_bytes(), Ok(&Buffers::new().answer(&log)))).expect("text")
    }

    #[test]
    fn a_report_a_loop_a_refusal_and_an_unreadable_file() {
        assert_eq!(line_of("a.log", "episodes 5\n0-1\n2-3\n0-1\n"), "a.log,0,5,2,3,1 3 4,,,\r\n");
        assert_eq!(line_of("a.log", "version 1\nepisodes 2\n0-1 361\n"), "a.log,1,2,0,2,0 1,,,\r\n");
        assert_eq!(line_of("a.log", "episodes 0\n"), "a.log,0,0,0,0,,,,\r\n");
        assert_eq!(line_of("a.log", "episodes 3\nvoices 1 2\n0-1\n1-2\n"), "a.log,0,3,2,2,1,,,\r\n");
        assert_eq!(line_of("a.log", "version 1\nepisodes 6\n0-1\n5-1\n1-4\n4-5\n"), "a.log,,,,,,13,3,1 4 5\r\n");
        assert_eq!(line_of("a.log", "episodes 5\n0-1\n2-7\n"), "a.log,,,,,,7,4,\r\n");
        assert_eq!(line(b"a.log", Err("No such file, or none")), b"a.log,,,,,,\"No such file, or none\",,\r\n");
        assert_eq!(HEADING.matches(',').count(), 8);
    }

    #[test]
    fn names_are_quoted_where_they_must_be() {
        let rows = [
            ("a b.log", "a b.log"),
            (" 'a;b'\t.log ", " 'a;b'\t.log "),
            ("a,b.log", "\"a,b.log\""),
            ("\"a\".log", "\"\"\"a\"\".log\""),
            ("a\nb.log", "\"a\nb.log\""),
            ("a\rb.log", "\"a\rb.log\""),
            ("", ""),
        ];
        for (name, field) in rows {
            assert_eq!(line_of(name, "episodes 1\n"), format!("{field},0,1,0,1,0,,,\r\n"));
        }
        assert!(line(b"\xFF,.log", Err("")).starts_with(b"\"\xFF,.log\","), "the bytes of a name that is no UTF-8 stay");
    }
}
