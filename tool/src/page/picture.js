"use strict";

// Pictures of reports and of loops, as `zohapy-tool picture` draws them: `draw` gives the same text to the letter.
// What picture.rs says of a function is not said again here.

// Colours that colour-blind readers can tell apart, from the palette of Okabe and Ito without yellow and black.
const COLOURS = ["#0072B2", "#D55E00", "#009E73", "#CC79A7", "#E69F00", "#56B4E9"];

const LEFT = 90;
const RIGHT = 90;
const LEAST_WIDTH = 760;
const ROW = 38;
const RING = 9;
const LONGEST_PAUSE = 360;

// The whole part of a quotient, of numbers that are not negative.
function divided(a, b) {
  return Math.floor(a / b);
}

// A row's numbers, of which each has seven bits in each byte, the lowest first.
class Numbers {
  constructor(bytes) {
    this.bytes = bytes;
    this.at = 0;
  }

  one() {
    let value = 0;
    for (let shift = 0; ; shift += 7) {
      const byte = this.bytes[this.at++];
      value |= (byte & 127) << shift;
      if (!(byte & 128)) {
        return value >>> 0;
      }
    }
  }

  some(count, what) {
    return Array.from({ length: count }, what);
  }

  list() {
    return this.some(this.one(), () => this.one());
  }
}

// The log in a row's numbers. A link has its least pause and its place `at` among all pairs of episodes; links rise by it.
function logOf(numbers) {
  const [version, episodes] = [numbers.one(), numbers.one()];
  const voices = new Map(numbers.some(numbers.one(), () => [numbers.one(), numbers.one()]));
  let at = 0;
  const links = numbers.some(numbers.one(), () => {
    const gap = numbers.one();
    at += gap >> 1;
    return { at, from: divided(at, episodes), to: at % episodes, pause: gap & 1 ? numbers.one() : 0 };
  });
  return { version, episodes, voices, links };
}

function reportOf(numbers) {
  const [links, apart] = [numbers.one(), numbers.list()];
  return { links, apart, threads: numbers.some(numbers.one(), () => numbers.list()) };
}

// The picture in a row's bytes.
function draw(bytes) {
  const numbers = new Numbers(bytes);
  const isLoop = numbers.one() === 1;
  const log = logOf(numbers);
  return isLoop ? loopPicture(log, numbers.list()) : reportPicture(log, reportOf(numbers));
}

function reportPicture(log, report) {
  const pairs = report.threads.flatMap((steps) => steps.slice(1).map((step, i) => steps[i] * log.episodes + step));
  const onThreads = new Set(pairs);
  const others = log.links.filter((link) => !onThreads.has(link.at));
  const width = report.threads.length;
  const [episodes, links] = [counted(log.episodes, "episode"), counted(report.links, "link")];
  const lines = [`episodes ${log.episodes}`, `links ${report.links}`, `width ${width}`, line("apart", report.apart)];
  lines.push(...report.threads.map((steps) => line("thread", steps)));

  const picture = new Picture(log);
  picture.heading(`Sleeper report: ${episodes}, ${links}, width ${width}`, lines.join("\n"));
  if (log.episodes === 0) {
    picture.note("There is no episode, so there need be no sleeper.");
    return picture.finished();
  }
  picture.noteOnWidth(report);
  if (others.length > 0) {
    picture.note("arcs: the log's other links, above the episodes to a larger number, below to a smaller one.");
  }
  picture.noteOnDotted();
  picture.noteOnPauses();
  picture.noteOnVoices();
  picture.axis(others, [], report.apart);
  // The members in the threads' order, each as often as it has voices.
  const members = report.apart.flatMap((member) => Array(log.voices.get(member) ?? 1).fill(member));
  report.threads.forEach((steps, i) => picture.thread(i, steps, members[i]));
  picture.episodeLines();
  return picture.finished();
}

function loopPicture(log, episodes) {
  const first = episodes[0];
  const arrows = episodes.map((from, i) => {
    const to = episodes[i + 1] ?? first;
    return { at: from * log.episodes + to, from, to };
  });
  const onLoop = new Set(arrows.map((link) => link.at));
  const others = log.links.filter((link) => !onLoop.has(link.at));
  const listed = episodes.join(" ");
  const reason =
    episodes.length === 1
      ? `${first} (in a ring). It is linked to itself, so it would come before itself; that link, the arrow, is wrong.`
      : `${listed} and back to ${first} (in rings). Along its links, the arrows, ${first} would come before itself, so at ` +
        "least one of them is wrong.";

  const picture = new Picture(log);
  const lines = `refused 13 at ${episodes.length}\nloop ${listed}`;
  picture.heading(`No report: the log has a loop of ${counted(episodes.length, "episode")}`, lines);
  picture.note(`loop: ${reason}`);
  picture.note("arcs: the log's links, above the episodes to a larger number, below to a smaller one.");
  picture.noteOnDotted();
  picture.noteOnPauses();
  picture.noteOnVoices();
  picture.axis(others, arrows, episodes);
  return picture.finished();
}

// Why so many sleepers are enough, by the threads of a report.
function whyEnough(log, report) {
  const width = report.threads.length;
  const [sleepers, are] = [counted(width, "sleeper"), width === 1 ? "is" : "are"];
  if (log.voices.size > 0) {
    return `Each episode is in at least as many as it has voices, so ${sleepers} ${are} enough.`;
  }
  const hold = width === 1 ? "The thread holds" : `The ${width} threads hold`;
  const steps = report.threads.reduce((sum, steps) => sum + steps.length, 0);
  const more = steps > log.episodes ? " An episode can be in more than one thread." : "";
  return `${hold} every episode, so ${sleepers} ${are} enough.${more}`;
}

// Why no fewer sleepers are enough, by the apart set of a report.
function whyNoFewer(log, report) {
  const [width, voiced, one] = [report.threads.length, log.voices.size > 0, report.apart.length === 1];
  const voices = counted(width, "voice");
  let reason = voiced ? `(in a ring). It has ${voices}` : "(in a ring). There is an episode";
  if (!one) {
    const together = voiced ? `, and together they have ${voices}` : "";
    reason = `(in rings). None of these has a way to another${together}`;
  }
  return `${report.apart.join(" ")} ${reason}, so no fewer than ${counted(width, "sleeper")}.`;
}

// The room that the figures of a number take, which stand on `y` with their middle at `x`, and the room that a circle takes.
function areaOfNumber(number, x, y, size) {
  const half = divided(String(number).length * size * 7 + 19, 20);
  return { left: x - half, right: x + half, top: y - divided(size * 3 + 3, 4), bottom: y };
}

function areaOfCircle(x, y, radius) {
  return { left: x - radius, right: x + radius, top: y - radius, bottom: y + radius };
}

function overlap(a, b) {
  return a.left < b.right && b.left < a.right && a.top < b.bottom && b.top < a.bottom;
}

class Picture {
  constructor(log) {
    this.log = log;
    this.step = Math.min(Math.max(divided(900, Math.max(log.episodes, 1)), 24), 64);
    this.width = Math.max(LEFT + this.step * Math.max(log.episodes - 1, 0) + RIGHT, LEAST_WIDTH);
    this.size = this.step < 26 ? 10 : 12;
    this.longest = 0;
    this.y = 0;
    this.axisAt = 0;
    const paused = log.links.filter((link) => link.pause > 0);
    this.pauses = new Map(paused.map((link) => [link.at, link.pause]));
    this.dotted = new Set(paused.filter((link) => log.version > 0 && link.pause > LONGEST_PAUSE).map((link) => link.at));
    this.wanted = [];
    this.taken = [];
    this.head = "";
    this.body = [];
  }

  x(episode) {
    return LEFT + this.step * episode;
  }

  put(element) {
    this.body.push(element);
  }

  heading(title, content) {
    this.head = `<title id="title">${title}</title>\n<desc id="content">${content}</desc>\n`;
    this.y = 34;
    this.put(`<text x="12" y="${this.y}" font-size="20" font-weight="bold">${title}</text>`);
    this.y += 6;
  }

  note(text) {
    const room = divided(Math.min(this.width - 24, 1000), 8);
    let line = "";
    for (const word of text.split(" ")) {
      if (line !== "" && line.length + 1 + word.length > room) {
        this.noteLine(line);
        line = "";
      }
      line += line === "" ? word : ` ${word}`;
    }
    this.noteLine(line);
    this.y += 4;
  }

  noteLine(line) {
    this.y += 20;
    this.put(`<text x="12" y="${this.y}" font-size="14">${line}</text>`);
  }

  noteOnWidth(report) {
    if (report.threads.length === 0) {
      this.note("Every episode is a door, so there need be no sleeper.");
      return;
    }
    const enough = whyEnough(this.log, report);
    this.note(`threads: each row below is one, episodes that one sleeper could have made, in order. ${enough}`);
    this.note(`apart: ${whyNoFewer(this.log, report)}`);
  }

  noteOnDotted() {
    if (this.dotted.size > 0) {
      this.note(`dotted arcs: links that do not count, because their least pause is over ${LONGEST_PAUSE} minutes.`);
    }
  }

  noteOnPauses() {
    if (this.pauses.size > 0) {
      this.note("pauses: in minutes, beside a link, where its least pause is not 0 and there is room.");
    }
  }

  noteOnVoices() {
    const given = new Set(this.log.voices.values());
    const notes = [];
    if (given.has(2)) {
      notes.push("a dot in a circle is a duet, with two voices");
    }
    if (given.has(0)) {
      notes.push("an open circle is a door, with none");
    }
    if (notes.length > 0) {
      this.note(`voices: ${notes.join("; ")}.`);
    }
  }

  axis(arcs, arrows, marked) {
    const all = [...arcs, ...arrows];
    this.longest = Math.max(0, ...all.map((link) => Math.abs(link.from - link.to)));
    const rises = (link) => link.from <= link.to;
    const room = (links) => Math.max(0, ...links.map((link) => this.arcHeight(link)));
    const above = room(all.filter(rises));
    const below = room(all.filter((link) => !rises(link)));

    const y = this.y + 24 + above + 12;
    const under = y + 14 + this.size;
    // Dots have less ink than a line, so they are larger and stronger.
    const [lines, dots] = arcs.length > 400 ? [[0.6, 0.1], [0.9, 0.2]] : [[1, 0.5], [1.5, 0.8]];
    const style = ([thick, strength]) => `fill="none" stroke="#555555" stroke-width="${thick}" stroke-opacity="${strength}"`;
    const isDotted = (link) => this.dotted.has(link.at);
    const dotted = arcs.filter(isDotted);
    this.put(`<g class="arcs" ${style(lines)}>`);
    arcs.filter((link) => !isDotted(link)).forEach((link) => this.arc(link, y - 5, under));
    this.put("</g>");
    if (dotted.length > 0) {
      this.put(`<g class="dotted" ${style(dots)} stroke-linecap="round" stroke-dasharray="0 4">`);
      dotted.forEach((link) => this.arc(link, y - 5, under));
      this.put("</g>");
    }
    if (arrows.length > 0) {
      this.head +=
        '<defs><marker id="tip" viewBox="0 0 10 10" refX="9" refY="5" markerWidth="11" markerHeight="11" ' +
        'markerUnits="userSpaceOnUse" orient="auto"><path d="M0 1 L10 5 L0 9 Z" fill="#D55E00"/></marker></defs>\n';
      this.put('<g class="arrows" fill="none" stroke="#D55E00" stroke-width="2.5" marker-end="url(#tip)">');
      arrows.forEach((link) => this.arc(link, y - RING - 2, under));
      this.put("</g>");
    }
    // Those of arrows come first, and so find room first.
    arrows.forEach((link) => this.arcPause(link, y - RING - 2, under));
    arcs.forEach((link) => this.arcPause(link, y - 5, under));
    this.rowNames("episodes", y);
    for (let episode = 0; episode < this.log.episodes; episode++) {
      const bold = marked.includes(episode);
      this.episode(episode, y, 3, "#333333");
      this.number(episode, y + 11 + this.size, bold);
      if (bold && arrows.length > 0) {
        this.ring(episode, y);
      }
    }
    this.y = under + below + 8;
    this.axisAt = y;
  }

  arcHeight({ from, to }) {
    const length = Math.abs(from - to);
    return length === 0 ? 24 : 10 + divided(Math.min(divided(this.step * this.longest * 3, 10), 140) * length, this.longest);
  }

  arc(link, over, under) {
    const [start, end, height] = [this.x(link.from), this.x(link.to), this.arcHeight(link)];
    const middle = divided(start + end, 2);
    let path;
    if (link.from < link.to) {
      path = `M${start} ${over} Q${middle} ${over - 2 * height} ${end} ${over}`;
    } else if (link.from > link.to) {
      path = `M${start} ${under} Q${middle} ${under + 2 * height} ${end} ${under}`;
    } else {
      const [left, right, top] = [start - 4, start + 4, over - divided(height * 4, 3)];
      path = `M${left} ${over} C${left - 22} ${top} ${right + 22} ${top} ${right} ${over}`;
    }
    this.put(`<path d="${path}"/>`);
  }

  arcPause(link, over, under) {
    const [middle, height] = [divided(this.x(link.from) + this.x(link.to), 2), this.arcHeight(link)];
    const y = link.from <= link.to ? over - height - 3 : under + height + 1 + this.size;
    this.wantPause(link.at, middle, y);
  }

  thread(i, steps, member) {
    const colour = COLOURS[i % COLOURS.length];
    let y = this.y + ROW;
    this.rowNames(`thread ${i}`, y);
    const places = steps.map((step, place) => {
      if (place > 0 && step < steps[place - 1]) {
        y += ROW;
      }
      return y;
    });
    const points = steps.map((step, place) => `${this.x(step)},${places[place]}`).join(" ");
    this.put(`<polyline points="${points}" fill="none" stroke="${colour}" stroke-width="3" stroke-linejoin="round"/>`);
    for (let place = 1; place < steps.length; place++) {
      const [from, to] = [steps[place - 1], steps[place]];
      const middle = divided(this.x(from) + this.x(to), 2);
      const below = divided(places[place - 1] + places[place], 2) + 2 + this.size;
      this.wantPause(from * this.log.episodes + to, middle, below);
    }
    steps.forEach((step, place) => {
      this.episode(step, places[place], 5, colour);
      if (step === member) {
        this.ring(step, places[place]);
      }
      this.number(step, places[place] - RING - 4, step === member);
    });
    this.y = y;
  }

  rowNames(name, middle) {
    const y = middle + 4;
    this.put(`<text x="12" y="${y}" font-size="12">${name}</text>`);
    if (this.log.episodes > 60) {
      this.put(`<text x="${this.width - 12}" y="${y}" font-size="12" text-anchor="end">${name}</text>`);
    }
  }

  episode(episode, y, radius, colour) {
    const x = this.x(episode);
    const voices = this.log.voices.get(episode) ?? 1;
    if (voices === 1) {
      this.dot(x, y, radius, colour);
    } else if (voices === 0) {
      this.circle("door", x, y, radius, colour);
    } else {
      this.circle("duet", x, y, radius + 1, colour);
      this.dot(x, y, divided(radius + 1, 2), colour);
    }
  }

  circle(name, x, y, radius, colour) {
    this.put(`<circle class="${name}" cx="${x}" cy="${y}" r="${radius}" fill="#FFFFFF" stroke="${colour}" stroke-width="1.5"/>`);
    this.taken.push(areaOfCircle(x, y, radius + 1));
  }

  dot(x, y, radius, colour) {
    this.put(`<circle cx="${x}" cy="${y}" r="${radius}" fill="${colour}"/>`);
    this.taken.push(areaOfCircle(x, y, radius));
  }

  number(episode, y, bold) {
    const x = this.x(episode);
    this.taken.push(areaOfNumber(episode, x, y, this.size));
    const weight = bold ? ' font-weight="bold"' : "";
    this.put(
      `<text x="${x}" y="${y}" font-size="${this.size}" text-anchor="middle" stroke="#FFFFFF" stroke-width="3" ` +
        `paint-order="stroke"${weight}>${episode}</text>`,
    );
  }

  ring(episode, y) {
    const x = this.x(episode);
    this.taken.push(areaOfCircle(x, y, RING + 1));
    this.put(`<circle class="ring" cx="${x}" cy="${y}" r="${RING}" fill="none" stroke="#000000" stroke-width="2"/>`);
  }

  wantPause(at, x, y) {
    const pause = this.pauses.get(at);
    if (pause !== undefined) {
      this.wanted.push({ pause, x, y });
    }
  }

  writePauses() {
    const size = this.size - 2;
    const texts = [];
    for (const { pause, x, y } of this.wanted) {
      const area = areaOfNumber(pause, x, y, size);
      if (!this.taken.some((taken) => overlap(taken, area))) {
        this.taken.push(area);
        texts.push(`<text x="${x}" y="${y}">${pause}</text>`);
      }
    }
    if (texts.length > 0) {
      this.put(
        `<g class="pauses" font-size="${size}" font-style="italic" text-anchor="middle" fill="#555555" stroke="#FFFFFF" ` +
          `stroke-width="3" paint-order="stroke">\n${texts.join("\n")}\n</g>`,
      );
    }
  }

  episodeLines() {
    const lines = ['<g class="lines" stroke="#E4E4E4">'];
    for (let episode = 0; episode < this.log.episodes; episode++) {
      lines.push(`<path d="M${this.x(episode)} ${this.axisAt} V${this.y}"/>`);
    }
    this.body.unshift(...lines, "</g>");
  }

  finished() {
    this.writePauses();
    const [width, height] = [this.width, this.y + 30];
    return (
      `<svg xmlns="http://www.w3.org/2000/svg" width="${width}" height="${height}" viewBox="0 0 ${width} ${height}" role="img" ` +
      `aria-labelledby="title content" font-family="sans-serif" fill="#000000">\n${this.head}` +
      `<rect width="${width}" height="${height}" fill="#FFFFFF"/>\n${this.body.join("\n")}\n</svg>\n`
    );
  }
}

function counted(count, noun) {
  return `${count} ${noun}${count === 1 ? "" : "s"}`;
}

function line(name, figures) {
  return [name, ...figures].join(" ");
}
