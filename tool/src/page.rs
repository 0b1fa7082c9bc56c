//! One HTML page for many logs: a table with a row for each, and in the row what its picture is drawn from and the explanation. The
//! page's script draws a picture when its row is opened. It needs no other file and no network.

use zohapy::{Failure, words_from_bytes};

use crate::answer::Answer;
use crate::log::Log;
use crate::table;

const TEMPLATE: &str = include_str!("page/week.html");
const STYLE: &str = include_str!("page/week.css");
const SCRIPT: &str = concat!(include_str!("page/picture.js"), "\n", include_str!("page/week.js"));

/// The page up to its first row.
pub fn head() -> String {
    around_rows().0.replace("{style}", STYLE)
}

/// The row of a file: of a log's bytes with the answer to them, or of a file that cannot be read, with the message that says why. The
/// explanation is shown where the row is opened, below the picture if there is one.
pub fn row(file: &[u8], log: Result<(&[u8], &Answer), &str>, explanation: Option<&str>) -> String {
    let name = escaped(&String::from_utf8_lossy(file));
    let cells = table::fields(log.map(|(_, answer)| answer)).map(|field| format!("<td>{}</td>", escaped(&field))).concat();
    let (class, data) = match log {
        Ok((bytes, answer)) => (class(answer), data(explanation, picture(bytes, answer).as_deref())),
        Err(message) => ("unread", data(Some(explanation.unwrap_or(message)), None)),
    };
    format!("<tr class=\"{class}\"><th scope=\"row\">{name}</th>{cells}<script type=\"text/plain\">{data}</script></tr>\n")
}

/// The page behind its last row, with a summary of some lines.
pub fn tail(summary: &str) -> String {
    let (before, behind) = around_rows().1.split_once("{summary}").expect("the template has a place for the summary");
    [before, &escaped(summary.trim_end()), &behind.replace("{script}", SCRIPT)].concat()
}

/// The template before and behind the rows.
fn around_rows() -> (&'static str, &'static str) {
    TEMPLATE.split_once("{rows}").expect("the template has a place for the rows")
}

/// What a row shows, for its style and for the filter.
fn class(answer: &Answer) -> &'static str {
    match answer.width().map_err(|refusal| refusal.number) {
        Ok(_) => "report",
        Err(13) => "loop",
        Err(_) => "refused",
    }
}

/// What a row carries besides its cells, as a JSON object without a `<`.
fn data(text: Option<&str>, picture: Option<&[u8]>) -> String {
    let text = text.map(|text| format!("\"text\":{}", quoted(text)));
    let picture = picture.map(|picture| format!("\"picture\":\"{}\"", base64(picture)));
    format!("{{{}}}", text.into_iter().chain(picture).collect::<Vec<_>>().join(","))
}

/// What the picture of a log's report or loop is drawn from, where it has one.
fn picture(bytes: &[u8], answer: &Answer) -> Option<Vec<u8>> {
    let drawn = answer.report();
    if matches!(drawn, Err(Failure::Refused(_))) {
        return None;
    }
    let log = words_from_bytes(bytes).and_then(|words| Log::from_words(&words)).ok()?;
    let mut numbers = vec![u32::from(drawn.is_err())];
    numbers.extend(of_log(&log));
    match drawn {
        Ok(report) => {
            numbers.push(report.links as u32);
            list(&mut numbers, &report.apart);
            numbers.push(report.threads.len() as u32);
            report.threads.iter().for_each(|steps| list(&mut numbers, steps));
        }
        Err(Failure::Loop(episodes)) => list(&mut numbers, &episodes),
        Err(Failure::Refused(_)) => return None,
    }
    Some(varints(&numbers))
}

/// What both pictures have of a log: its version, n, its marks but those with one voice, and its links, each once and rising, as the
/// gap to the one before and the least pause.
fn of_log(log: &Log) -> Vec<u32> {
    let marks: Vec<_> = log.marks.iter().filter(|mark| mark.voices != 1).collect();
    let mut numbers = vec![log.version, log.episodes, marks.len() as u32];
    numbers.extend(marks.iter().flat_map(|mark| [mark.episode, mark.voices]));
    let links = log.least_pauses();
    numbers.push(links.len() as u32);
    let mut before = 0;
    for ((from, to), pause) in links {
        let at = from * log.episodes + to;
        numbers.push(2 * (at - before) + u32::from(pause > 0));
        numbers.extend(Some(pause).filter(|pause| *pause > 0));
        before = at;
    }
    numbers
}

/// Adds a list with its length before it.
fn list(numbers: &mut Vec<u32>, listed: &[u32]) {
    numbers.push(listed.len() as u32);
    numbers.extend(listed);
}

/// The bytes of numbers, seven bits in each, the lowest first; the top bit says that more of the number follow (LEB128).
fn varints(numbers: &[u32]) -> Vec<u8> {
    let mut bytes = Vec::with_capacity(numbers.len() * 2);
    for mut number in numbers.iter().copied() {
        while number >= 0x80 {
            bytes.push(number as u8 | 0x80);
            number >>= 7;
        }
        bytes.push(number as u8);
    }
    bytes
}

/// Three bytes as four letters, with `=` for what is missing at the end.
fn base64(bytes: &[u8]) -> String {
    const LETTERS: &[u8; 64] = b"ABCDEFGHIJKLMNOPQRSTUVWXYZabcdefghijklmnopqrstuvwxyz0123456789+/";
    let mut letters = String::with_capacity(bytes.len().div_ceil(3) * 4);
    for three in bytes.chunks(3) {
        let byte = |i: usize| u32::from(three.get(i).copied().unwrap_or(0));
        let bits = byte(0) << 16 | byte(1) << 8 | byte(2);
        for i in 0..4 {
            let letter = LETTERS[(bits >> (18 - 6 * i)) as usize & 63] as char;
            letters.push(if i <= three.len() { letter } else { '=' });
        }
    }
    letters
}

/// A text as HTML, in an element or in quotes. A carriage return would be read as a newline.
fn escaped(text: &str) -> String {
    let mut html = String::with_capacity(text.len());
    for letter in text.chars() {
        match letter {
            '&' => html.push_str("&amp;"),
            '<' => html.push_str("&lt;"),
            '>' => html.push_str("&gt;"),
            '"' => html.push_str("&quot;"),
            '\r' => html.push_str("&#13;"),
            _ => html.push(letter),
        }
    }
    html
}

/// A text as a JSON string. It has no `<`, so nothing in it ends the script that it stands in.
fn quoted(text: &str) -> String {
    let mut json = String::with_capacity(text.len() + 2);
    json.push('"');
    for letter in text.chars() {
        match letter {
            '"' | '\\' => json.extend(['\\', letter]),
            '\n' => json.push_str("\\n"),
            '<' | '\0'..='\x1F' => json.push_str(&format!("\\u{:04x}", u32::from(letter))),
            _ => json.push(letter),
        }
    }
    json.push('"');
    json
}

#[cfg(test)]
mod tests {
    use super::*;
    use crate::answer::Buffers;
    use crate::random::Random;
    use std::collections::BTreeMap;
    use zohapy::{Link, Mark, Report, bytes_from_words};

    /// The row of a log.
    fn row_of(log: &[u8], explanation: Option<&str>) -> String {
        row(b"a.log", Ok((log, &Buffers::new().answer(log))), explanation)
    }

    /// The bytes of a log in text form.
    fn bytes(text: &str) -> Vec<u8> {
        bytes_from_words(&Log::from_text(text).expect("a text form").words())
    }

    /// What is behind a row's cells.
    fn data_of(row: &str) -> &str {
        let (_, data) = row.split_once("<script type=\"text/plain\">").expect("the row has data");
        data.strip_suffix("</script></tr>\n").expect("the data is the last of the row")
    }

    /// Numbers that are taken one by one.
    struct Numbers(std::vec::IntoIter<u8>);

    impl Numbers {
        /// Those of the letters in a row's data.
        fn of(row: &str) -> Numbers {
            let (_, letters) = data_of(row).split_once("\"picture\":\"").expect("the row has a picture");
            let letters = letters.trim_end_matches(['}', '"', '=']);
            let value = |letter| match letter {
                b'A'..=b'Z' => letter - b'A',
                b'a'..=b'z' => letter - b'a' + 26,
                b'0'..=b'9' => letter - b'0' + 52,
                b'+' => 62,
                b'/' => 63,
                _ => panic!("{letter} is no letter of base64"),
            };
            let bits: Vec<u8> = letters.bytes().map(value).flat_map(|six| (0..6).rev().map(move |i| six >> i & 1)).collect();
            let byte = |bits: &[u8]| bits.iter().fold(0, |byte, bit| byte << 1 | bit);
            Numbers(bits.chunks_exact(8).map(byte).collect::<Vec<_>>().into_iter())
        }

        fn one(&mut self) -> u32 {
            let byte = self.0.next().expect("there is a number");
            let low = u32::from(byte & 0x7F);
            if byte < 0x80 { low } else { low | self.one() << 7 }
        }

        fn list(&mut self) -> Vec<u32> {
            (0..self.one()).map(|_| self.one()).collect()
        }

        fn log(&mut self) -> Log {
            let (version, episodes) = (self.one(), self.one());
            let marks = (0..self.one()).map(|_| Mark { episode: self.one(), voices: self.one() }).collect();
            let mut at = 0;
            let links = (0..self.one()).map(|_| {
                let gap = self.one();
                at += gap / 2;
                Link { from: at / episodes, to: at % episodes, pause: if gap % 2 == 1 { self.one() } else { 0 } }
            });
            let links = links.collect();
            Log { version, episodes, marks, links }
        }
    }

    /// Checks that a row's data has the log, each link once with its least pause, and its report or loop, and nothing more.
    fn check_picture(log: &Log, row: &str) {
        let mut numbers = Numbers::of(row);
        let drawn = Report::of(&log.words());
        assert_eq!(numbers.one(), u32::from(drawn.is_err()));
        let links = log.least_pauses().into_iter().map(|((from, to), pause)| Link { from, to, pause }).collect();
        let marks = log.marks.iter().filter(|mark| mark.voices != 1).copied().collect();
        assert_eq!(numbers.log(), Log { links, marks, ..log.clone() });
        match drawn {
            Ok(report) => {
                assert_eq!((numbers.one() as usize, numbers.list()), (report.links, report.apart));
                assert_eq!((0..numbers.one()).map(|_| numbers.list()).collect::<Vec<_>>(), report.threads);
            }
            Err(failure) => assert_eq!(Failure::Loop(numbers.list()), failure),
        }
        assert_eq!(numbers.0.next(), None);
    }

    #[test]
    fn rows_of_a_report_a_loop_and_a_refused_log() {
        assert_eq!(
            row_of(&bytes("episodes 5\n0-1\n2-3\n"), None),
            "<tr class=\"report\"><th scope=\"row\">a.log</th><td>0</td><td>5</td><td>2</td><td>3</td><td>1 3 4</td><td></td>\
             <td></td><td></td><script type=\"text/plain\">{\"picture\":\"AAAFAAICGAIDAQMEAwIAAQICAwEE\"}</script></tr>\n"
        );
        assert_eq!(
            row_of(&bytes("version 1\nepisodes 3\n0-1\n1-0 300\n"), Some("a loop")),
            "<tr class=\"loop\"><th scope=\"row\">a.log</th><td></td><td></td><td></td><td></td><td></td><td>13</td><td>2</td>\
             <td>0 1</td><script type=\"text/plain\">{\"text\":\"a loop\",\"picture\":\"AQEDAAICBawCAgAB\"}</script></tr>\n"
        );
        assert_eq!(
            row_of(&[1, 2, 3], Some("3 bytes\n")),
            "<tr class=\"refused\"><th scope=\"row\">a.log</th><td></td><td></td><td></td><td></td><td></td><td>15</td><td>3</td>\
             <td></td><script type=\"text/plain\">{\"text\":\"3 bytes\\n\"}</script></tr>\n"
        );
    }

    #[test]
    fn a_file_that_cannot_be_read_has_its_message() {
        let cells = "<td></td><td></td><td></td><td></td><td></td><td>no &lt;file&gt;</td><td></td><td></td>";
        assert_eq!(
            row(b"\xFF<b>&\"\r", Err("no <file>"), None),
            format!(
                "<tr class=\"unread\"><th scope=\"row\">\u{FFFD}&lt;b&gt;&amp;&quot;&#13;</th>{cells}\
                 <script type=\"text/plain\">{{\"text\":\"no \\u003cfile>\"}}</script></tr>\n"
            )
        );
    }

    #[test]
    fn nothing_in_an_explanation_ends_its_script() {
        let row = row_of(&[], Some("</script><!-- \"\\\t\n\u{1} ü"));
        assert_eq!(data_of(&row), "{\"text\":\"\\u003c/script>\\u003c!-- \\\"\\\\\\u0009\\n\\u0001 ü\"}");
    }

    #[test]
    fn the_data_has_all_that_a_picture_is_drawn_from() {
        let mut random = Random::new();
        for (round, ceiling) in [1, 3, 100, 4096].into_iter().cycle().take(300).enumerate() {
            let episodes = 1 + random.below(60);
            let links = (0..random.below(200)).map(|_| random.link(episodes, ceiling));
            let links = links.filter(|link| round % 3 == 0 || link.from < link.to).collect();
            let marks = if round % 8 < 4 { vec![] } else { random.marks(episodes) };
            let log = Log { version: round as u32 / 4 % 2, episodes, marks, links };
            check_picture(&log, &row_of(&bytes_from_words(&log.words()), None));
        }
        for text in
            ["episodes 0\n", "episodes 200\n", "version 1\nepisodes 2\nvoices 1 0\nvoices 0 0\n", "episodes 200\n199-199\n"]
        {
            check_picture(&Log::from_text(text).expect("a text form"), &row_of(&bytes(text), None));
        }
    }

    #[test]
    fn logs_of_full_size_have_short_data() {
        let mut random = Random::new();
        for (ceiling, most) in [(1, 7_500), (4096, 18_500)] {
            let mut links = BTreeMap::new();
            while links.len() < 4096 {
                let link = random.link(200, ceiling);
                if link.from < link.to {
                    links.insert((link.from, link.to), link);
                }
            }
            let log = Log { version: 1, episodes: 200, marks: vec![], links: links.into_values().collect() };
            let row = row_of(&bytes_from_words(&log.words()), None);
            check_picture(&log, &row);
            assert!(row.len() < most, "{}", row.len());
        }
    }

    #[test]
    fn letters_of_bytes() {
        for (bytes, letters) in
            [("", ""), ("f", "Zg=="), ("fo", "Zm8="), ("foo", "Zm9v"), ("foob", "Zm9vYg=="), ("\u{7}?~", "Bz9+")]
        {
            assert_eq!(base64(bytes.as_bytes()), letters);
        }
        assert_eq!(base64(&[0xFF, 0xEF, 0xBF]), "/++/");
        assert_eq!(varints(&[0, 127, 128, 300, u32::MAX]), [0, 0x7F, 0x80, 1, 0xAC, 2, 0xFF, 0xFF, 0xFF, 0xFF, 0x0F]);
    }

    #[test]
    fn the_page_is_whole_and_refers_to_nothing_outside_it() {
        let (head, tail) = (head(), tail("{script}\n<3 logs\n"));
        assert!(head.starts_with("<!DOCTYPE html>\n") && head.ends_with("<tbody>\n"), "{head}");
        assert!(tail.starts_with("</tbody>\n") && tail.ends_with("</html>\n") && tail.contains(">{script}\n&lt;3 logs</"));
        for page in [&head, &tail] {
            assert!(!page.contains("{style}") && !page.contains("{rows}") && !page.contains("{summary}"));
            assert!(!page.contains("@import") && !page.contains("src=") && !page.contains("href="));
        }
        assert!(!STYLE.contains("</") && !STYLE.contains("url(") && !STYLE.contains("http"));
        assert!(!SCRIPT.contains("</script") && !SCRIPT.contains("<!--") && !SCRIPT.contains("{script}"));
        assert_eq!(SCRIPT.matches("http").count(), 1, "the namespace of a picture");
        let columns: Vec<&str> =
            head.split("<th scope=\"col\"").skip(1).map(|rest| rest.split(['>', '<']).nth(1).unwrap_or(rest)).collect();
        assert_eq!(columns.join(",") + "\r\n", table::HEADING);
    }
}
