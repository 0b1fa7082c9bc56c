// The table: it sorts, filters, and opens rows.

// Why a log is refused, shorter than the README says it.
const REASONS = {
  1: "fewer than two words",
  2: "the first word is no head",
  3: "more than 200 episodes",
  4: "a word that is neither from nor to",
  5: "a to word before any from word",
  6: "no to word behind a from word",
  7: "an episode is not below n",
  8: "more than 4,096 to words",
  9: "the last word is no end",
  10: "the end does not give the count of to words",
  11: "the output or the text buffer is too short",
  12: "the work buffer is too short",
  13: "a loop",
  14: "more than 33,256 bytes",
  15: "the bytes are no multiple of four",
  18: "the version is neither 0 nor 1",
  19: "more than two voices",
  20: "voices, and more than 120 episodes",
  21: "voices given again",
};

// The most rows that one click opens.
const MOST_OPENED = 50;

const COLUMN = { file: 0, refusal: 6 };

const table = document.querySelector("table");
const body = table.tBodies[0];
const filter = document.getElementById("filter");
const openAll = document.getElementById("open-all");
const closeAll = document.getElementById("close-all");

// The rows, as they stand now. A row has its number in the order of the files, its kind, and its detail while it is open.
const rows = Array.from(body.rows, (element, number) => {
  return { element, number, kind: element.className, button: null, detail: null };
});
const rowOf = new Map(rows.map((row) => [row.element, row]));

// What a row carries besides its cells: `text`, the explanation, and `picture`.
function dataOf(row) {
  return JSON.parse(row.element.lastElementChild.textContent);
}

// The picture of a row as `zohapy-tool picture` writes it, where it has one.
function pictureOf(row) {
  const { picture } = dataOf(row);
  return picture === undefined ? null : draw(Uint8Array.from(atob(picture), (letter) => letter.charCodeAt(0)));
}

// A picture whose names end in the row's number, so that no two in the page are the same.
function named(svg, number) {
  return svg
    .replace(/ id="(title|content|tip)"/g, ` id="$1-${number}"`)
    .replace('aria-labelledby="title content"', `aria-labelledby="title-${number} content-${number}"`)
    .replace("url(#tip)", `url(#tip-${number})`);
}

// An element of an opened row that scrolls by itself, also with the keyboard.
function scrolling(name, label) {
  const box = document.createElement(name);
  box.tabIndex = 0;
  box.setAttribute("role", "region");
  box.setAttribute("aria-label", label);
  return box;
}

// The row below an opened row: its picture, and its explanation below that.
function detailOf(row) {
  const detail = document.createElement("tr");
  detail.className = "detail";
  detail.id = `detail-${row.number}`;
  const cell = detail.insertCell();
  cell.colSpan = table.tHead.rows[0].cells.length;
  const file = row.button.textContent;
  const svg = pictureOf(row);
  if (svg !== null) {
    const box = scrolling("div", `Picture of ${file}`);
    box.className = "picture";
    box.innerHTML = named(svg, row.number);
    cell.append(box);
  }
  const { text } = dataOf(row);
  if (text !== undefined) {
    const box = scrolling("pre", `Explanation of ${file}`);
    box.textContent = text;
    cell.append(box);
  }
  return detail;
}

function openRow(row) {
  if (row.detail === null) {
    row.detail = detailOf(row);
    row.element.after(row.detail);
    row.element.classList.add("open");
    row.button.setAttribute("aria-expanded", "true");
  }
}

function closeRow(row) {
  if (row.detail !== null) {
    row.detail.remove();
    row.detail = null;
    row.element.classList.remove("open");
    row.button.setAttribute("aria-expanded", "false");
  }
}

function toggle(row) {
  (row.detail === null ? openRow : closeRow)(row);
  offerButtons();
}

// Offers to close rows where one is open, and to open those that are shown where they are not too many.
function offerButtons() {
  const shown = rows.filter((row) => !row.element.hidden);
  closeAll.disabled = rows.every((row) => row.detail === null);
  openAll.disabled = shown.length > MOST_OPENED || shown.every((row) => row.detail !== null);
  openAll.textContent = shown.length > MOST_OPENED ? `Open all shown (${MOST_OPENED} at most)` : "Open all shown";
}

// What a row is sorted by in a column: a list of numbers, none where the cell is empty. The files keep the order that they came
// in, and a message is above all numbers.
function keyOf(row, column) {
  if (column === COLUMN.file) {
    return [row.number];
  }
  const text = row.element.cells[column].textContent;
  if (text === "") {
    return null;
  }
  return /^[0-9 ]+$/.test(text) ? text.split(" ").map(Number) : [Infinity];
}

// How two lists of numbers stand to each other: the first two that differ decide, and a list comes behind its own beginning.
function compared(a, b) {
  const both = Math.min(a.length, b.length);
  for (let i = 0; i < both; i++) {
    if (a[i] !== b[i]) {
      return a[i] < b[i] ? -1 : 1;
    }
  }
  return a.length - b.length;
}

// Sorts by a column: rising first, then falling. Empty cells come last either way, and equal rows stay in their order.
function sort(column) {
  const heads = Array.from(table.tHead.rows[0].cells);
  const falling = heads[column].getAttribute("aria-sort") === "ascending";
  heads.forEach((head) => head.removeAttribute("aria-sort"));
  heads[column].setAttribute("aria-sort", falling ? "descending" : "ascending");
  const keys = new Map(rows.map((row) => [row, keyOf(row, column)]));
  rows.sort((one, other) => {
    const [a, b] = [keys.get(one), keys.get(other)];
    if (a === null || b === null) {
      return (a === null) - (b === null);
    }
    return falling ? compared(b, a) : compared(a, b);
  });
  const sorted = document.createDocumentFragment();
  for (const { element, detail } of rows) {
    sorted.append(element, ...(detail === null ? [] : [detail]));
  }
  body.append(sorted);
}

// Whether a row is shown where this is chosen: all, one kind of rows, or a refusal's number.
function isShown(row, chosen) {
  switch (chosen) {
    case "all":
      return true;
    case "report":
    case "unread":
      return row.kind === chosen;
    case "refused":
      return row.kind === "refused" || row.kind === "loop";
    default:
      return row.element.cells[COLUMN.refusal].textContent === chosen;
  }
}

// Shows the rows that are chosen, with what is open of them.
function show() {
  let count = 0;
  for (const row of rows) {
    const shown = isShown(row, filter.value);
    count += shown;
    row.element.hidden = !shown;
    if (row.detail !== null) {
      row.detail.hidden = !shown;
    }
  }
  document.getElementById("count").textContent = `${count} of ${counted(rows.length, "log")} shown`;
  offerButtons();
}

// The choices: all rows, reports, refused logs, each refusal that occurs, and files that were not read.
function offerChoices() {
  const refused = rows.filter((row) => isShown(row, "refused"));
  const numbers = new Set(refused.map((row) => Number(row.element.cells[COLUMN.refusal].textContent)));
  const choices = [["all", "all"], ["report", "reports"], ["refused", "refused"]];
  for (const number of Array.from(numbers).sort((a, b) => a - b)) {
    choices.push([String(number), `${number}: ${REASONS[number]}`]);
  }
  choices.push(["unread", "not read"]);
  for (const [value, name] of choices) {
    const count = rows.filter((row) => isShown(row, value)).length;
    if (count > 0 || value !== "unread") {
      filter.add(new Option(`${name} (${count})`, value));
    }
  }
}

// Makes what an element holds the label of a button.
function labelled(element) {
  const button = document.createElement("button");
  button.type = "button";
  button.append(...element.childNodes);
  element.append(button);
  return button;
}

// The next row that is shown, up or down.
function nextShown(row, sibling) {
  let element = row.element;
  do {
    element = element[sibling];
  } while (element !== null && (element.hidden || !rowOf.has(element)));
  return rowOf.get(element);
}

// The row of an element, or the one above where the element is in an opened row's detail.
function rowAround(element) {
  const around = element.closest("tr");
  return rowOf.get(around) ?? rowOf.get(around.previousElementSibling);
}

// A row opens where it is clicked, unless that ends the selection of text in it.
function clicked(event) {
  const row = rowOf.get(event.target.closest("tr"));
  if (row === undefined || (event.target !== row.button && String(getSelection()) !== "")) {
    return;
  }
  toggle(row);
  row.button.focus({ preventScroll: true });
}

function pressed(event) {
  const row = rowAround(event.target);
  if (event.key === "Escape" && row.detail !== null) {
    closeRow(row);
    offerButtons();
    row.button.focus();
    return;
  }
  const sibling = { ArrowUp: "previousElementSibling", ArrowDown: "nextElementSibling" }[event.key];
  if (sibling !== undefined && event.target === row.button) {
    event.preventDefault();
    nextShown(row, sibling)?.button.focus();
  }
}

function start() {
  Array.from(table.tHead.rows[0].cells, (head, column) => labelled(head).addEventListener("click", () => sort(column)));
  for (const row of rows) {
    row.button = labelled(row.element.cells[COLUMN.file]);
    row.button.setAttribute("aria-expanded", "false");
    row.button.setAttribute("aria-controls", `detail-${row.number}`);
  }
  body.addEventListener("click", clicked);
  body.addEventListener("keydown", pressed);
  filter.addEventListener("change", show);
  openAll.addEventListener("click", () => {
    rows.filter((row) => !row.element.hidden).forEach(openRow);
    offerButtons();
  });
  closeAll.addEventListener("click", () => {
    rows.forEach(closeRow);
    offerButtons();
  });
  table.classList.add("live");
  document.querySelector("h1").after(document.getElementById("summary"));
  document.getElementById("controls").hidden = false;
  offerChoices();
  show();
}

start();

// For tests.
window.zohapy = { draw, pictureOf: (number) => pictureOf(rows.find((row) => row.number === number)) };
