//! SVG pictures of a report and of a loop. Episodes stand from left to right by number.

use std::cmp::Ordering;
use std::collections::{BTreeMap, BTreeSet};

use zohapy::{LONGEST_PAUSE, Report, counts};

use crate::log::Log;
use crate::wording::{counted, listed};

/// Colours that colour-blind readers can tell apart, from the palette of Okabe and Ito without yellow and black. Each thread also
/// has a row of its own.
const COLOURS: [&str; 6] = ["#0072B2", "#D55E00", "#009E73", "#CC79A7", "#E69F00", "#56B4E9"];

/// Room at the left for the names of the rows, and at the right.
const LEFT: usize = 90;
const RIGHT: usize = 90;
const LEAST_WIDTH: usize = 760;

/// The height of a thread's row, and the radius of a ring.
const ROW: usize = 38;
const RING: usize = 9;

/// A picture of a report: one line for each thread, a ring round each member of the apart set, and the log's other links as arcs,
/// dotted where they do not count. Duets are dots in circles, doors open circles.
pub fn of_report(log: &Log, report: &Report) -> String {
    let on_threads: BTreeSet<(u32, u32)> =
        report.threads.iter().flat_map(|steps| steps.windows(2)).map(|pair| (pair[0], pair[1])).collect();
    let others: BTreeSet<(u32, u32)> = pairs(log).filter(|link| !on_threads.contains(link)).collect();
    let [episodes, links] = [counted(report.episodes, "episode"), counted(report.links, "link")];

    let mut picture = Picture::new(log);
    picture.heading(&format!("Sleeper report: {episodes}, {links}, width {}", report.width), &report.to_string());
    if report.episodes == 0 {
        picture.note("There is no episode, so there need be no sleeper.");
        return picture.finished();
    }
    picture.note_on_width(report);
    if !others.is_empty() {
        picture.note("arcs: the log's other links, above the episodes to a larger number, below to a smaller one.");
    }
    picture.note_on_dotted();
    picture.note_on_pauses();
    picture.note_on_voices();
    picture.axis(&others, &[], &report.apart);
    // The members in the threads' order, each as often as it has voices.
    let members = report.apart.iter().flat_map(|member| (0..log.voices(*member)).map(|_| *member));
    for (i, (steps, member)) in report.threads.iter().zip(members).enumerate() {
        picture.thread(i, steps, member);
    }
    picture.episode_lines();
    picture.finished()
}

/// A picture of a loop: its episodes in rings, its links as arrows, and the log's other links as arcs, dotted where they do not
/// count.
pub fn of_loop(log: &Log, episodes: &[u32]) -> String {
    let first = episodes[0];
    let links: Vec<(u32, u32)> = episodes.iter().copied().zip(episodes[1..].iter().copied().chain([first])).collect();
    let others: BTreeSet<(u32, u32)> = pairs(log).filter(|link| !links.contains(link)).collect();
    let length = counted(episodes.len(), "episode");
    let reason = match episodes.len() {
        1 => format!(
            "{first} (in a ring). It is linked to itself, so it would come before itself; that link, the arrow, is wrong."
        ),
        _ => format!(
            "{} and back to {first} (in rings). Along its links, the arrows, {first} would come before itself, so at least \
             one of them is wrong.",
            listed(episodes)
        ),
    };

    let mut picture = Picture::new(log);
    let lines = format!("refused 13 at {}\nloop {}", episodes.len(), listed(episodes));
    picture.heading(&format!("No report: the log has a loop of {length}"), &lines);
    picture.note(&format!("loop: {reason}"));
    picture.note("arcs: the log's links, above the episodes to a larger number, below to a smaller one.");
    picture.note_on_dotted();
    picture.note_on_pauses();
    picture.note_on_voices();
    picture.axis(&others, &links, episodes);
    picture.finished()
}

/// Why so many sleepers are enough, by the threads of a report.
fn why_enough(report: &Report, voiced: bool) -> String {
    let sleepers = counted(report.width, "sleeper");
    let are = if report.width == 1 { "is" } else { "are" };
    if voiced {
        return format!("Each episode is in at least as many as it has voices, so {sleepers} {are} enough.");
    }
    let hold = match report.width {
        1 => "The thread holds".to_string(),
        k => format!("The {k} threads hold"),
    };
    let shared = report.threads.iter().map(Vec::len).sum::<usize>() > report.episodes;
    let more = if shared { " An episode can be in more than one thread." } else { "" };
    format!("{hold} every episode, so {sleepers} {are} enough.{more}")
}

/// Why no fewer sleepers are enough, by the apart set of a report.
fn why_no_fewer(report: &Report, voiced: bool) -> String {
    let voices = counted(report.width, "voice");
    let reason = match (report.apart.len(), voiced) {
        (1, false) => "(in a ring). There is an episode".to_string(),
        (1, true) => format!("(in a ring). It has {voices}"),
        (_, false) => "(in rings). None of these has a way to another".to_string(),
        (_, true) => format!("(in rings). None of these has a way to another, and together they have {voices}"),
    };
    format!("{} {reason}, so no fewer than {}.", listed(&report.apart), counted(report.width, "sleeper"))
}

/// The links of a log without their pauses, repeats too.
fn pairs(log: &Log) -> impl Iterator<Item = (u32, u32)> {
    log.links.iter().map(|link| (link.from, link.to))
}

/// The least pause of each link of a log, where it is not 0.
fn least_pauses(log: &Log) -> BTreeMap<(u32, u32), u32> {
    let mut least = log.least_pauses();
    least.retain(|_, pause| *pause > 0);
    least
}

/// The room that figures or a circle take.
#[derive(Clone, Copy, Debug, PartialEq, Eq)]
struct Area {
    left: usize,
    right: usize,
    top: usize,
    bottom: usize,
}

impl Area {
    /// That of a number whose figures stand on `y`, with its middle at `x`. Few fonts have figures that are wider or higher.
    fn of_number(number: u32, x: usize, y: usize, size: usize) -> Area {
        let half = (number.to_string().len() * size * 7).div_ceil(20);
        Area { left: x - half, right: x + half, top: y - (size * 3).div_ceil(4), bottom: y }
    }

    /// That of a circle.
    fn of_circle(x: usize, y: usize, radius: usize) -> Area {
        Area { left: x - radius, right: x + radius, top: y - radius, bottom: y + radius }
    }

    fn overlaps(&self, other: &Area) -> bool {
        self.left < other.right && other.left < self.right && self.top < other.bottom && other.top < self.bottom
    }
}

/// A pause that is to be written: its minutes, and where.
struct Wanted {
    pause: u32,
    x: usize,
    y: usize,
}

/// A picture that grows downwards.
struct Picture {
    episodes: usize,
    /// The distance between two episodes, and the size of their numbers.
    step: usize,
    size: usize,
    width: usize,
    /// How far apart the episodes of the longest arc are.
    longest: usize,
    /// Where the next part begins.
    y: usize,
    /// Where the row of all episodes stands.
    axis_at: usize,
    /// The episodes with other voices than 1, and their voices.
    voices: BTreeMap<u32, u32>,
    /// The links that do not count.
    dotted: BTreeSet<(u32, u32)>,
    /// The least pauses that are not 0, those that are to be written, and what they must not overlap.
    pauses: BTreeMap<(u32, u32), u32>,
    wanted: Vec<Wanted>,
    taken: Vec<Area>,
    head: String,
    body: String,
}

impl Picture {
    fn new(log: &Log) -> Picture {
        let episodes = log.episodes as usize;
        let step = (900 / episodes.max(1)).clamp(24, 64);
        let width = (LEFT + step * episodes.saturating_sub(1) + RIGHT).max(LEAST_WIDTH);
        let size = if step < 26 { 10 } else { 12 };
        let pauses = least_pauses(log);
        let dotted = pauses.iter().filter(|(_, pause)| !counts(log.version, **pause)).map(|(link, _)| *link).collect();
        let voices = log.marks.iter().filter(|mark| mark.voices != 1).map(|mark| (mark.episode, mark.voices)).collect();
        Picture {
            episodes,
            step,
            size,
            width,
            longest: 0,
            y: 0,
            axis_at: 0,
            voices,
            dotted,
            pauses,
            wanted: Vec::new(),
            taken: Vec::new(),
            head: String::new(),
            body: String::new(),
        }
    }

    /// Where an episode stands.
    fn x(&self, episode: u32) -> usize {
        LEFT + self.step * episode as usize
    }

    /// Adds a line to the picture's body.
    fn put(&mut self, element: &str) {
        self.body.push_str(element);
        self.body.push('\n');
    }

    /// The title, and the whole content in words for those who do not see the picture.
    fn heading(&mut self, title: &str, content: &str) {
        self.head = format!("<title id=\"title\">{title}</title>\n<desc id=\"content\">{}</desc>\n", content.trim_end());
        self.y = 34;
        self.put(&format!("<text x=\"12\" y=\"{}\" font-size=\"20\" font-weight=\"bold\">{title}</text>", self.y));
        self.y += 6;
    }

    /// A paragraph, broken into lines that fit the picture.
    fn note(&mut self, text: &str) {
        let room = (self.width - 24).min(1000) / 8;
        let mut line = String::new();
        for word in text.split(' ') {
            if !line.is_empty() && line.len() + 1 + word.len() > room {
                self.note_line(&line);
                line.clear();
            }
            if !line.is_empty() {
                line.push(' ');
            }
            line.push_str(word);
        }
        self.note_line(&line);
        self.y += 4;
    }

    fn note_line(&mut self, line: &str) {
        self.y += 20;
        self.put(&format!("<text x=\"12\" y=\"{}\" font-size=\"14\">{line}</text>", self.y));
    }

    /// Why the width of a report is what it is.
    fn note_on_width(&mut self, report: &Report) {
        if report.width == 0 {
            self.note("Every episode is a door, so there need be no sleeper.");
            return;
        }
        let voiced = !self.voices.is_empty();
        let enough = why_enough(report, voiced);
        self.note(&format!("threads: each row below is one, episodes that one sleeper could have made, in order. {enough}"));
        self.note(&format!("apart: {}", why_no_fewer(report, voiced)));
    }

    /// What dotted arcs are, where there are any.
    fn note_on_dotted(&mut self) {
        if !self.dotted.is_empty() {
            self.note(&format!(
                "dotted arcs: links that do not count, because their least pause is over {LONGEST_PAUSE} minutes."
            ));
        }
    }

    /// What the figures beside links are, where there are any.
    fn note_on_pauses(&mut self) {
        if !self.pauses.is_empty() {
            self.note("pauses: in minutes, beside a link, where its least pause is not 0 and there is room.");
        }
    }

    /// How duets and doors are drawn, each where there are any.
    fn note_on_voices(&mut self) {
        let has = |voices: u32| self.voices.values().any(|given| *given == voices);
        let duet = "a dot in a circle is a duet, with two voices";
        let door = "an open circle is a door, with none";
        match (has(2), has(0)) {
            (true, true) => self.note(&format!("voices: {duet}; {door}.")),
            (true, false) => self.note(&format!("voices: {duet}.")),
            (false, true) => self.note(&format!("voices: {door}.")),
            (false, false) => {}
        }
    }

    /// The row of all episodes, with arcs and arrows above and below it. Arcs of links that do not count are dotted. Marked
    /// episodes have bold numbers, and rings where there are arrows.
    fn axis(&mut self, arcs: &BTreeSet<(u32, u32)>, arrows: &[(u32, u32)], marked: &[u32]) {
        self.longest = arcs.iter().chain(arrows).map(|link| link.0.abs_diff(link.1) as usize).max().unwrap_or(0);
        let rises = |link: &&(u32, u32)| link.0 <= link.1;
        let room = |links: &mut dyn Iterator<Item = &(u32, u32)>| links.map(|link| self.arc_height(*link)).max().unwrap_or(0);
        let above = room(&mut arcs.iter().chain(arrows).filter(rises));
        let below = room(&mut arcs.iter().chain(arrows).filter(|link| !rises(link)));

        let y = self.y + 24 + above + 12;
        let under = y + 14 + self.size;
        // Dots have less ink than a line, so they are larger and stronger.
        let [lines, dots] = if arcs.len() > 400 { [(0.6, 0.1), (0.9, 0.2)] } else { [(1.0, 0.5), (1.5, 0.8)] };
        let style = |(thick, strength)| {
            format!("fill=\"none\" stroke=\"#555555\" stroke-width=\"{thick}\" stroke-opacity=\"{strength}\"")
        };
        let (dotted, whole): (Vec<(u32, u32)>, Vec<_>) = arcs.iter().partition(|link| self.dotted.contains(link));
        self.put(&format!("<g class=\"arcs\" {}>", style(lines)));
        whole.into_iter().for_each(|link| self.arc(link, y - 5, under));
        self.put("</g>");
        if !dotted.is_empty() {
            self.put(&format!("<g class=\"dotted\" {} stroke-linecap=\"round\" stroke-dasharray=\"0 4\">", style(dots)));
            dotted.into_iter().for_each(|link| self.arc(link, y - 5, under));
            self.put("</g>");
        }
        if !arrows.is_empty() {
            self.head.push_str(
                "<defs><marker id=\"tip\" viewBox=\"0 0 10 10\" refX=\"9\" refY=\"5\" markerWidth=\"11\" markerHeight=\"11\" \
                 markerUnits=\"userSpaceOnUse\" orient=\"auto\"><path d=\"M0 1 L10 5 L0 9 Z\" fill=\"#D55E00\"/></marker>\
                 </defs>\n",
            );
            self.put("<g class=\"arrows\" fill=\"none\" stroke=\"#D55E00\" stroke-width=\"2.5\" marker-end=\"url(#tip)\">");
            for link in arrows {
                self.arc(*link, y - RING - 2, under);
            }
            self.put("</g>");
        }
        // Those of arrows come first, and so find room first.
        arrows.iter().for_each(|link| self.arc_pause(*link, y - RING - 2, under));
        arcs.iter().for_each(|link| self.arc_pause(*link, y - 5, under));
        self.row_names("episodes", y);
        for episode in 0..self.episodes as u32 {
            let bold = marked.contains(&episode);
            self.episode(episode, y, 3, "#333333");
            self.number(episode, y + 11 + self.size, bold);
            if bold && !arrows.is_empty() {
                self.ring(episode, y);
            }
        }
        self.y = under + below + 8;
        self.axis_at = y;
    }

    /// How far an arc goes up or down: in proportion to its length, and not far even for the longest.
    fn arc_height(&self, (from, to): (u32, u32)) -> usize {
        let length = from.abs_diff(to) as usize;
        match length {
            0 => 24,
            _ => 10 + (self.step * self.longest * 3 / 10).min(140) * length / self.longest,
        }
    }

    /// An arc above `over` to a larger number, or one below `under` to a smaller one. Its control point is twice as far off as it
    /// goes.
    fn arc(&mut self, (from, to): (u32, u32), over: usize, under: usize) {
        let (start, end, height) = (self.x(from), self.x(to), self.arc_height((from, to)));
        let middle = (start + end) / 2;
        let path = match from.cmp(&to) {
            Ordering::Less => format!("M{start} {over} Q{middle} {} {end} {over}", over as isize - 2 * height as isize),
            Ordering::Greater => format!("M{start} {under} Q{middle} {} {end} {under}", under + 2 * height),
            Ordering::Equal => {
                let (left, right, top) = (start - 4, start + 4, over - height * 4 / 3);
                format!("M{left} {over} C{} {top} {} {top} {right} {over}", left - 22, right + 22)
            }
        };
        self.put(&format!("<path d=\"{path}\"/>"));
    }

    /// The pause of an arc, beyond its middle.
    fn arc_pause(&mut self, (from, to): (u32, u32), over: usize, under: usize) {
        let (middle, height) = ((self.x(from) + self.x(to)) / 2, self.arc_height((from, to)));
        let y = if from <= to { over - height - 3 } else { under + height + 1 + self.size };
        self.want_pause((from, to), middle, y);
    }

    /// The row of a thread: a line through its steps, each with a dot and its number, and a ring round its member of the apart
    /// set. Where a step goes to a smaller number the line goes down. The pauses stand below the line.
    fn thread(&mut self, i: usize, steps: &[u32], member: u32) {
        let colour = COLOURS[i % COLOURS.len()];
        let mut y = self.y + ROW;
        self.row_names(&format!("thread {i}"), y);
        let mut places = Vec::with_capacity(steps.len());
        for (place, step) in steps.iter().enumerate() {
            if place > 0 && *step < steps[place - 1] {
                y += ROW;
            }
            places.push(y);
        }
        let points: Vec<String> = steps.iter().zip(&places).map(|(step, y)| format!("{},{y}", self.x(*step))).collect();
        self.put(&format!(
            "<polyline points=\"{}\" fill=\"none\" stroke=\"{colour}\" stroke-width=\"3\" stroke-linejoin=\"round\"/>",
            points.join(" ")
        ));
        for (pair, y) in steps.windows(2).zip(places.windows(2)) {
            self.want_pause((pair[0], pair[1]), (self.x(pair[0]) + self.x(pair[1])) / 2, (y[0] + y[1]) / 2 + 2 + self.size);
        }
        for (step, y) in steps.iter().zip(places) {
            self.episode(*step, y, 5, colour);
            if *step == member {
                self.ring(*step, y);
            }
            self.number(*step, y - RING - 4, *step == member);
        }
        self.y = y;
    }

    /// The name of a row at its left, and in a wide picture also at its right.
    fn row_names(&mut self, name: &str, y: usize) {
        let y = y + 4;
        self.put(&format!("<text x=\"12\" y=\"{y}\" font-size=\"12\">{name}</text>"));
        if self.episodes > 60 {
            self.put(&format!("<text x=\"{}\" y=\"{y}\" font-size=\"12\" text-anchor=\"end\">{name}</text>", self.width - 12));
        }
    }

    /// An episode at its place: a dot, of a duet in a circle, or the open circle of a door.
    fn episode(&mut self, episode: u32, y: usize, radius: usize, colour: &str) {
        let x = self.x(episode);
        match self.voices.get(&episode) {
            None => self.dot(x, y, radius, colour),
            Some(0) => self.circle("door", (x, y), radius, ("#FFFFFF", colour)),
            Some(_) => {
                self.circle("duet", (x, y), radius + 1, ("#FFFFFF", colour));
                self.dot(x, y, radius.div_ceil(2), colour);
            }
        }
    }

    /// A circle with a line round it, and the colours in it and of the line.
    fn circle(&mut self, class: &str, (x, y): (usize, usize), radius: usize, (inside, line): (&str, &str)) {
        self.put(&format!(
            "<circle class=\"{class}\" cx=\"{x}\" cy=\"{y}\" r=\"{radius}\" fill=\"{inside}\" stroke=\"{line}\" \
             stroke-width=\"1.5\"/>"
        ));
        self.taken.push(Area::of_circle(x, y, radius + 1));
    }

    fn dot(&mut self, x: usize, y: usize, radius: usize, colour: &str) {
        self.put(&format!("<circle cx=\"{x}\" cy=\"{y}\" r=\"{radius}\" fill=\"{colour}\"/>"));
        self.taken.push(Area::of_circle(x, y, radius));
    }

    /// The number of an episode at its place, with white round its figures.
    fn number(&mut self, episode: u32, y: usize, bold: bool) {
        self.taken.push(Area::of_number(episode, self.x(episode), y, self.size));
        let weight = if bold { " font-weight=\"bold\"" } else { "" };
        self.put(&format!(
            "<text x=\"{}\" y=\"{y}\" font-size=\"{}\" text-anchor=\"middle\" stroke=\"#FFFFFF\" stroke-width=\"3\" \
             paint-order=\"stroke\"{weight}>{episode}</text>",
            self.x(episode),
            self.size
        ));
    }

    fn ring(&mut self, episode: u32, y: usize) {
        self.taken.push(Area::of_circle(self.x(episode), y, RING + 1));
        self.put(&format!(
            "<circle class=\"ring\" cx=\"{}\" cy=\"{y}\" r=\"{RING}\" fill=\"none\" stroke=\"#000000\" stroke-width=\"2\"/>",
            self.x(episode)
        ));
    }

    /// Keeps the pause of a link, where it is not 0, to be written when all else stands.
    fn want_pause(&mut self, link: (u32, u32), x: usize, y: usize) {
        if let Some(&pause) = self.pauses.get(&link) {
            self.wanted.push(Wanted { pause, x, y });
        }
    }

    /// The pauses, each where it overlaps no other figures and no circle.
    fn write_pauses(&mut self) {
        let size = self.size - 2;
        let mut texts = String::new();
        for Wanted { pause, x, y } in std::mem::take(&mut self.wanted) {
            let area = Area::of_number(pause, x, y, size);
            if !self.taken.iter().any(|taken| taken.overlaps(&area)) {
                self.taken.push(area);
                texts += &format!("<text x=\"{x}\" y=\"{y}\">{pause}</text>\n");
            }
        }
        if !texts.is_empty() {
            self.put(&format!(
                "<g class=\"pauses\" font-size=\"{size}\" font-style=\"italic\" text-anchor=\"middle\" fill=\"#555555\" \
                 stroke=\"#FFFFFF\" stroke-width=\"3\" paint-order=\"stroke\">\n{texts}</g>"
            ));
        }
    }

    /// A faint line for each episode, from the row of all episodes to the last thread, below all else.
    fn episode_lines(&mut self) {
        let mut lines = String::from("<g class=\"lines\" stroke=\"#E4E4E4\">\n");
        for episode in 0..self.episodes as u32 {
            lines += &format!("<path d=\"M{} {} V{}\"/>\n", self.x(episode), self.axis_at, self.y);
        }
        self.body.insert_str(0, &(lines + "</g>\n"));
    }

    /// The whole file.
    fn finished(mut self) -> String {
        self.write_pauses();
        let (width, height) = (self.width, self.y + 30);
        format!(
            "<svg xmlns=\"http://www.w3.org/2000/svg\" width=\"{width}\" height=\"{height}\" viewBox=\"0 0 {width} {height}\" \
             role=\"img\" aria-labelledby=\"title content\" font-family=\"sans-serif\" fill=\"#000000\">\n{}\
             <rect width=\"{width}\" height=\"{height}\" fill=\"#FFFFFF\"/>\n{}</svg>\n",
            self.head, self.body
        )
    }
}

#[cfg(test)]
mod tests {
    use super::*;
    use crate::random::Random;
    use zohapy::{Failure, Link, Mark};

    /// How often a piece of text occurs.
    fn occurs(svg: &str, piece: &str) -> usize {
        svg.matches(piece).count()
    }

    /// Checks that each element is closed, in order, and that each value of an attribute is in quotes.
    fn check_elements(svg: &str) {
        let mut open: Vec<&str> = Vec::new();
        for part in svg.split('<').skip(1) {
            let (tag, text) = part.split_once('>').expect("each < has a >");
            assert!(!text.contains(['>', '&']), "{text}");
            assert_eq!(tag.matches('"').count(), 2 * tag.matches("=\"").count(), "{tag}");
            let name = tag.split([' ', '/']).find(|name| !name.is_empty()).expect("each element has a name");
            if tag.starts_with('/') {
                assert_eq!(open.pop(), Some(name));
            } else if !tag.ends_with('/') {
                open.push(name);
            }
            assert!(!open.is_empty() || text.trim().is_empty(), "{text}");
        }
        assert!(open.is_empty());
        assert!(!svg.contains("href") && occurs(svg, "http") == 1, "the picture refers to nothing outside it");
    }

    /// The picture of a log and its report; what every picture of a report has is checked.
    fn picture(log: &Log) -> (String, Report) {
        let report = Report::of(&log.words()).expect("the log has a report");
        let svg = of_report(log, &report);
        check_elements(&svg);
        assert_eq!(occurs(&svg, "<polyline "), report.threads.len());
        assert_eq!(occurs(&svg, "class=\"ring\""), report.width);
        // How many episodes of the row of all, and how many steps, have so many voices.
        let all = |voices: u32| (0..log.episodes).filter(|episode| log.voices(*episode) == voices).count();
        let steps = |voices: u32| report.threads.iter().flatten().filter(|step| log.voices(**step) == voices).count();
        assert_eq!(occurs(&svg, "class=\"duet\""), all(2) + steps(2));
        assert_eq!(occurs(&svg, "class=\"door\""), all(0) + steps(0));
        assert_eq!(occurs(&svg, " r=\"5\""), steps(0) + steps(1));
        assert_eq!(svg.contains(">voices: "), all(1) < report.episodes);
        assert!(svg.contains(&format!("<desc id=\"content\">{}</desc>", report.to_string().trim_end())));
        (svg, report)
    }

    fn log(episodes: u32, links: &[(u32, u32)]) -> Log {
        Log { version: 0, episodes, marks: vec![], links: links.iter().map(|&(from, to)| Link { from, to, pause: 0 }).collect() }
    }

    /// The same log with marks (episode, voices).
    fn marked(log: Log, marks: &[(u32, u32)]) -> Log {
        Log { marks: marks.iter().map(|&(episode, voices)| Mark { episode, voices }).collect(), ..log }
    }

    /// The same links in version 1.
    fn in_version_1(log: Log) -> Log {
        Log { version: 1, ..log }
    }

    /// The paths of a group, without what it begins with.
    fn paths<'a>(svg: &'a str, group: &str) -> Vec<&'a str> {
        let Some((_, rest)) = svg.split_once(&format!("<g class=\"{group}\"")) else { return Vec::new() };
        let (content, _) = rest.split_once("</g>").expect("the group ends");
        content.lines().skip(1).collect()
    }

    /// A log of links with their pauses.
    fn paused(episodes: u32, links: &[(u32, u32, u32)]) -> Log {
        let links = links.iter().map(|&(from, to, pause)| Link { from, to, pause }).collect();
        Log { version: 0, episodes, marks: vec![], links }
    }

    /// The notes of a picture, each in one line.
    fn notes(svg: &str) -> Vec<String> {
        let mut notes: Vec<(usize, String)> = Vec::new();
        for tag in svg.split('<').filter(|tag| tag.starts_with("text ") && tag.contains(" font-size=\"14\"")) {
            let (y, line) = (value(tag, "y"), tag.split_once('>').expect("a text").1);
            match notes.last_mut() {
                Some((last, note)) if y == *last + 20 => *note += &format!(" {line}"),
                _ => notes.push((y, line.to_string())),
            }
            notes.last_mut().expect("a note").0 = y;
        }
        notes.into_iter().map(|note| note.1).collect()
    }

    /// The value of an element's attribute.
    fn value(tag: &str, name: &str) -> usize {
        let (_, rest) = tag.split_once(&format!(" {name}=\"")).expect("the element has the attribute");
        rest.split_once('"').and_then(|(value, _)| value.parse().ok()).expect("a number")
    }

    /// Where the first dot of a radius stands.
    fn dots_at(svg: &str, radius: usize) -> usize {
        value(svg.split('<').find(|tag| tag.contains(&format!(" r=\"{radius}\""))).expect("a dot"), "cy")
    }

    /// The pauses that a picture writes, each with its place, in order. That none overlaps another one, an episode's
    /// number or a circle is checked.
    fn pauses(svg: &str) -> Vec<(u32, usize, usize)> {
        let Some((before, rest)) = svg.split_once("<g class=\"pauses\"") else { return Vec::new() };
        let (head, texts) = rest.split_once('>').expect("the group begins");
        let (texts, behind) = texts.split_once("</g>").expect("the group ends");
        assert_eq!(behind, "\n</svg>\n", "the pauses stand above all else");
        let mut taken: Vec<Area> = Vec::new();
        for tag in before.split('<').filter(|tag| tag.starts_with("circle ")) {
            let width = if tag.contains(" stroke=") { 1 } else { 0 };
            taken.push(Area::of_circle(value(tag, "cx"), value(tag, "cy"), value(tag, "r") + width));
        }
        for tag in before.split('<').filter(|tag| tag.starts_with("text ") && tag.contains("\"middle\"")) {
            let number = tag.split_once('>').and_then(|(_, text)| text.parse().ok()).expect("an episode's number");
            taken.push(Area::of_number(number, value(tag, "x"), value(tag, "y"), value(tag, "font-size")));
        }
        let mut written = Vec::new();
        for tag in texts.split('<').filter(|tag| tag.starts_with("text ")) {
            let pause = tag.split_once('>').and_then(|(_, text)| text.parse().ok()).expect("a pause");
            let area = Area::of_number(pause, value(tag, "x"), value(tag, "y"), value(head, "font-size"));
            assert!(!taken.iter().any(|other| other.overlaps(&area)), "{pause} at {area:?}");
            taken.push(area);
            written.push((pause, value(tag, "x"), value(tag, "y")));
        }
        written
    }

    /// The minutes of the pauses that a picture writes, in order.
    fn minutes(svg: &str) -> Vec<u32> {
        pauses(svg).iter().map(|pause| pause.0).collect()
    }

    #[test]
    fn the_whole_example() {
        let (svg, _) = picture(&log(5, &[(0, 1), (2, 3)]));
        assert!(svg.contains("<title id=\"title\">Sleeper report: 5 episodes, 2 links, width 3</title>"));
        assert!(svg.contains("None of these has a way to another, so no fewer than 3 sleepers."));
        assert!(svg.contains(">apart: 1 3 4 (in rings). "));
        assert!(svg.contains("<polyline points=\"90,"));
        assert_eq!(occurs(&svg, "<path d=\"M90 "), 1, "episode 0 has its line and no arc");
    }

    #[test]
    fn links_that_are_on_no_thread_are_arcs_once_each() {
        let (svg, _) = picture(&log(3, &[(0, 1), (1, 2), (0, 2), (0, 2)]));
        assert_eq!(occurs(&svg, " Q"), 1);
        let (svg, _) = picture(&log(3, &[(2, 1), (1, 0), (2, 0)]));
        assert_eq!(occurs(&svg, " Q"), 1);
    }

    #[test]
    fn a_step_to_a_smaller_number_goes_down() {
        let (svg, _) = picture(&log(3, &[(2, 0), (0, 1)]));
        let points = svg.split_once("points=\"").and_then(|(_, rest)| rest.split_once('"')).expect("a line").0;
        let heights: Vec<usize> =
            points.split(' ').map(|point| point.split_once(',').expect("x,y").1.parse().expect("a number")).collect();
        assert_eq!((heights[1] - heights[0], heights[2] - heights[1]), (ROW, 0));
    }

    #[test]
    fn no_episode_and_one_episode() {
        let (svg, _) = picture(&log(0, &[]));
        assert!(svg.contains("There is no episode"));
        let (svg, _) = picture(&log(1, &[]));
        assert!(svg.contains("so no fewer than 1 sleeper."));
        picture(&log(200, &[]));
    }

    #[test]
    fn random_logs() {
        let mut random = Random::new();
        for (round, ceiling) in [1, 3, 100, 4096].into_iter().cycle().take(200).enumerate() {
            let episodes = 2 + random.below(60);
            let links = (0..random.below(200)).map(|_| random.link(episodes, ceiling)).filter(|link| link.from < link.to);
            let links = links.collect();
            let marks = if round % 8 < 4 { vec![] } else { random.marks(episodes) };
            let log = Log { version: round as u32 / 4 % 2, episodes, marks, links };
            let (svg, _) = picture(&log);
            let least = least_pauses(&log);
            assert!(minutes(&svg).iter().all(|pause| least.values().any(|least| least == pause)));
            assert_eq!(svg.contains(">pauses: "), !least.is_empty());
            let long = least.values().filter(|pause| log.version == 1 && **pause > 360).count();
            assert_eq!(paths(&svg, "dotted").len(), long);
        }
    }

    #[test]
    fn a_pause_stands_below_a_thread_and_above_an_arc() {
        let (svg, report) = picture(&paused(4, &[(0, 1, 20), (1, 2, 0), (2, 3, 4095), (0, 2, 90)]));
        assert_eq!(report.threads, [vec![0, 1, 2, 3]]);
        let [(90, middle, above), (20, left, below), (4095, right, also_below)] = pauses(&svg)[..] else { panic!("{svg}") };
        assert_eq!((left, middle, right), (90 + 32, 90 + 64, 90 + 160));
        assert!(above < dots_at(&svg, 3) && dots_at(&svg, 5) < below && below == also_below);
    }

    #[test]
    fn a_pause_stands_below_an_arc_to_a_smaller_number() {
        let (svg, _) = picture(&paused(3, &[(2, 1, 10), (1, 0, 20), (2, 0, 30)]));
        let [(30, middle, below), (10, ..), (20, ..)] = pauses(&svg)[..] else { panic!("{svg}") };
        assert_eq!(middle, 90 + 64);
        assert!(dots_at(&svg, 3) < below && below < dots_at(&svg, 5));
    }

    #[test]
    fn of_several_pauses_the_least_is_written_and_0_is_not() {
        assert_eq!(minutes(&picture(&paused(2, &[(0, 1, 50), (0, 1, 20), (0, 1, 35)])).0), [20]);
        let without = picture(&log(2, &[(0, 1), (0, 1)])).0;
        assert_eq!(picture(&paused(2, &[(0, 1, 50), (0, 1, 0)])).0, without);
        assert!(!without.contains("pauses"));
    }

    #[test]
    fn a_pause_is_written_where_it_overlaps_nothing() {
        let mut picture = Picture::new(&log(2, &[]));
        assert_eq!(picture.size, 12);
        // The figures of a pause are 7 wide and 8 high.
        assert_eq!(Area::of_number(45, 200, 100, 10), Area { left: 193, right: 207, top: 92, bottom: 100 });
        picture.dot(300, 100, 5, "#333333");
        let rows = [
            (45, 200, 100, true),   // the first
            (46, 213, 100, false),  // 1 too far left
            (47, 214, 100, true),   // just beside the first
            (48, 200, 93, false),   // 1 too low
            (49, 200, 92, true),    // just above the first
            (50, 289, 100, false),  // 1 into the dot
            (51, 288, 100, true),   // just beside the dot
            (6, 300, 95, true),     // just above the dot
            (1234, 300, 113, true), // just below it
            (7, 300, 112, false),   // 1 into both
        ];
        picture.wanted.extend(rows.iter().map(|&(pause, x, y, _)| Wanted { pause, x, y }));
        let written: Vec<u32> = rows.iter().filter(|row| row.3).map(|row| row.0).collect();
        assert_eq!(minutes(&picture.finished()), written);
    }

    #[test]
    fn the_pauses_of_a_loop_find_room_first() {
        let svg = of_loop(&paused(3, &[(0, 1, 5), (1, 0, 6), (1, 2, 7), (2, 2, 8)]), &[0, 1]);
        assert_eq!(minutes(&svg), [5, 6, 7, 8]);
        // The arcs 49-101 and 50-100 have one middle, and the second is as high but for 1.
        let links = [(0, 199, 1), (49, 101, 2), (50, 100, 3), (5, 5, 4)];
        assert_eq!(minutes(&of_loop(&paused(200, &links), &[5])), [4, 1, 2]);
        assert_eq!(minutes(&of_loop(&paused(200, &[&links[..], &[(100, 50, 9)]].concat()), &[50, 100])), [3, 9, 1, 4]);
    }

    #[test]
    fn links_that_do_not_count_are_dotted_once_each_with_their_least_pause() {
        // 0-1 and 1-2 count; the others do not, one of them given twice, one to a smaller number and one to itself.
        let links = [(0, 1, 360), (1, 2, 400), (1, 2, 200), (2, 3, 900), (2, 3, 361), (2, 0, 500), (3, 3, 4095)];
        let (svg, report) = picture(&in_version_1(paused(4, &links)));
        assert_eq!((report.links, report.threads), (2, vec![vec![0, 1, 2], vec![3]]));
        assert!(svg.contains(">Sleeper report: 4 episodes, 2 links, width 2</text>"));
        assert!(svg.contains(">dotted arcs: links that do not count, because their least pause is over 360 minutes.</text>"));
        assert_eq!((paths(&svg, "arcs").len(), paths(&svg, "dotted").len()), (0, 3));
        assert_eq!(minutes(&svg), [500, 361, 4095, 360, 200]);
        // In version 0 there is no report; without the links that close loops none is dotted.
        assert!(matches!(Report::of(&paused(4, &links).words()), Err(Failure::Loop(_))));
        let (svg, report) = picture(&paused(4, &links[..5]));
        assert_eq!((report.links, report.width), (3, 1));
        assert!(!svg.contains("dotted"));
    }

    #[test]
    fn dotted_arcs_are_those_that_other_arcs_would_be() {
        // In version 0 all four are arcs, and so are they in version 1, where the first and the last count.
        let links = [(0, 3, 360), (0, 4, 361), (1, 3, 700), (2, 4, 0)];
        let rows = [(0, 1, 1), (1, 2, 2), (2, 3, 3), (3, 4, 4)];
        let log = paused(5, &[&rows[..], &links[..]].concat());
        let [(of_0, _), (of_1, _)] = [picture(&log), picture(&in_version_1(log.clone()))];
        let [all, lines, dots] = [paths(&of_0, "arcs"), paths(&of_1, "arcs"), paths(&of_1, "dotted")];
        assert_eq!((all.len(), lines.len(), dots.len()), (4, 2, 2));
        // A path is `<path d="Mx y Qx y x y"/>`. The note on dotted arcs moves all else down, so only x is compared.
        let across = |path: &&str| path.split(' ').skip(1).step_by(2).map(str::to_string).collect::<Vec<_>>();
        let places = |paths: &[&str]| paths.iter().map(across).collect::<BTreeSet<_>>();
        assert_eq!(places(&all), places(&[lines, dots].concat()));
        assert_eq!(minutes(&of_0), minutes(&of_1));
    }

    #[test]
    fn where_every_link_counts_the_picture_is_that_of_version_0() {
        let mut random = Random::new();
        for ceiling in [1, 100, 361].into_iter().cycle().take(150) {
            let episodes = 1 + random.below(30);
            let links = (0..random.below(60)).map(|_| random.link(episodes, ceiling)).collect();
            let log = Log { version: 0, episodes, marks: random.marks(episodes), links };
            let [of_0, of_1] = [log.clone(), in_version_1(log)].map(|log| match Report::of(&log.words()) {
                Ok(report) => of_report(&log, &report),
                Err(Failure::Loop(episodes)) => of_loop(&log, &episodes),
                Err(failure) => panic!("{failure}"),
            });
            assert!(of_0 == of_1 && !of_0.contains("dotted"));
        }
    }

    #[test]
    fn a_duet_is_a_dot_in_a_circle_and_a_door_an_open_circle() {
        let path = log(3, &[(0, 1), (1, 2)]);
        let (svg, report) = picture(&marked(path.clone(), &[(0, 2), (1, 0)]));
        assert_eq!((report.apart, report.threads), (vec![0], vec![vec![0, 1, 2], vec![0]]));
        let [.., enough, no_fewer, voices] = &notes(&svg)[..] else { panic!("{svg}") };
        assert!(enough.ends_with("Each episode is in at least as many as it has voices, so 2 sleepers are enough."));
        assert_eq!(no_fewer, "apart: 0 (in a ring). It has 2 voices, so no fewer than 2 sleepers.");
        assert_eq!(voices, "voices: a dot in a circle is a duet, with two voices; an open circle is a door, with none.");
    }

    #[test]
    fn the_notes_say_what_there_is() {
        let path = log(3, &[(0, 1), (1, 2)]);
        let marked_path = |marks: &[(u32, u32)]| notes(&picture(&marked(path.clone(), marks)).0);
        assert_eq!(marked_path(&[(0, 2), (1, 1)])[2], "voices: a dot in a circle is a duet, with two voices.");
        let door = marked_path(&[(1, 0)]);
        assert!(door[0].ends_with("so 1 sleeper is enough."));
        assert_eq!(door[1], "apart: 2 (in a ring). It has 1 voice, so no fewer than 1 sleeper.");
        assert_eq!(door[2], "voices: an open circle is a door, with none.");
        let apart = &notes(&picture(&marked(log(3, &[(0, 1)]), &[(2, 2)])).0)[1];
        assert!(
            apart.starts_with("apart: 1 2 (in rings). None of these has a way to another, and together they have 3 voices, so")
        );
        // Marks that say 1 are not drawn.
        assert_eq!(picture(&marked(path.clone(), &[(0, 1), (1, 1)])).0, picture(&path).0);
    }

    #[test]
    fn of_doors_alone_there_are_no_threads() {
        let (svg, report) = picture(&marked(log(3, &[(0, 1), (2, 1)]), &[(0, 0), (1, 0), (2, 0)]));
        assert_eq!(report.width, 0);
        assert!(svg.contains(">Every episode is a door, so there need be no sleeper.<"));
        assert_eq!((paths(&svg, "arcs").len(), occurs(&svg, "class=\"door\"")), (2, 3));
    }

    #[test]
    fn a_loop_has_duets_and_doors() {
        let log = marked(log(4, &[(0, 1), (1, 0), (1, 2)]), &[(0, 2), (1, 0), (3, 0)]);
        let svg = of_loop(&log, &[0, 1]);
        check_elements(&svg);
        assert_eq!(["ring", "duet", "door"].map(|class| occurs(&svg, &format!("class=\"{class}\""))), [2, 1, 2]);
        assert!(svg.contains(">voices: a dot in a circle is a duet, "));
    }

    #[test]
    fn a_loop_has_dotted_arcs_for_the_links_that_do_not_count() {
        let log = in_version_1(paused(4, &[(0, 1, 5), (1, 0, 6), (2, 1, 361), (2, 3, 360), (3, 3, 400), (2, 1, 400)]));
        let Err(Failure::Loop(episodes)) = Report::of(&log.words()) else { panic!("the log has a loop") };
        assert_eq!(episodes, [0, 1]);
        let svg = of_loop(&log, &episodes);
        check_elements(&svg);
        let groups = ["arrows", "arcs", "dotted"].map(|group| paths(&svg, group).len());
        assert_eq!(groups, [2, 1, 2]);
        assert!(svg.contains(">dotted arcs: links that do not count, "));
        assert_eq!(minutes(&svg), [5, 6, 361, 360, 400]);
    }

    #[test]
    fn a_loop_has_a_ring_for_each_episode_and_an_arrow_for_each_link() {
        let long = [(0, 199), (199, 0), (0, 1)];
        let rows = [
            (5, &[(0, 1), (1, 3), (3, 0), (1, 2), (2, 2)][..]),
            (5, &[(4, 4), (0, 4)]),
            (3, &[(0, 2), (2, 1), (1, 0)]),
            (200, &long),
        ];
        for (n, links) in rows {
            let log = log(n, links);
            let Err(Failure::Loop(episodes)) = Report::of(&log.words()) else { panic!("the log has a loop") };
            let svg = of_loop(&log, &episodes);
            check_elements(&svg);
            assert_eq!(occurs(&svg, "class=\"ring\""), episodes.len());
            let arrows = svg.split_once("<g class=\"arrows\"").and_then(|(_, rest)| rest.split_once("</g>")).expect("arrows").0;
            assert_eq!(occurs(arrows, "<path "), episodes.len());
            assert!(svg.contains(&format!("refused 13 at {}\nloop {}</desc>", episodes.len(), listed(&episodes))));
            assert!(svg.contains("No report: the log has a loop of "));
        }
    }
}
