"use strict";
// Joins the drawing to the page: its size, what is selected, and the texts under the timeline.

const element = id => document.getElementById(id);
const scroll = element("scroll"), tip = element("tip");

// One drawing for each frame, however many events there are.
let frame = 0;
function redraw() {
  if (frame === 0) frame = requestAnimationFrame(() => { frame = 0; draw(); });
}

// A run that fits the timeline line by line needs no overview.
const ROOMY = 60;

function resize() {
  overview.hidden = view.count <= ROOMY;
  const ratio = window.devicePixelRatio || 1, room = scroll.parentElement;
  view.height = room.clientHeight;
  fitLanes();
  element("spacer").style.height = `${lanesHeight()}px`;
  view.width = scroll.clientWidth;
  for (const [canvas, height] of [[timeline, view.height], [overview, 34]]) {
    canvas.width = Math.round(view.width * ratio);
    canvas.height = Math.round(height * ratio);
    canvas.style.width = `${view.width}px`;
    canvas.style.height = `${height}px`;
  }
  settle();
  drawOverview();
  draw();
}

function show(keep) {
  showOnly(keep);
  nameOnly();
  view.top = scroll.scrollTop = 0;
  resize();
}

function showWhole() {
  view.scale = leastScale();
  view.start = 0;
  settle();
  redraw();
}

// Chooses a mark: shows it, says what it is, and puts it into the text under the timeline.
function select(mark, move = true) {
  state.selected = mark;
  if (mark >= 0) {
    if (!isShown(mark)) show(null);
    if (move) reveal(mark);
    scroll.scrollTop = view.top;
    element("spoken").textContent = [titleOf(mark), ...facts(mark).map(fact => fact.text)].join(". ");
  }
  fillSelected();
  nameOnly();
  redraw();
}

const titleOf = mark => `line ${marks.line[mark]}: ${wholeText(mark)}`;

function make(name, text, className = "") {
  const made = document.createElement(name);
  made.textContent = text;
  if (className !== "") made.className = className;
  return made;
}

// A row of text that leads to a mark.
function link(text, mark) {
  const made = make("a", text, "go");
  made.href = "#";
  made.addEventListener("click", event => { event.preventDefault(); select(mark); });
  return made;
}

function factRow(fact) {
  const row = make("p", "");
  row.append(fact.mark === undefined ? make(fact.strong ? "strong" : "span", fact.text) : link(fact.text, fact.mark));
  return row;
}

function fillSelected() {
  const box = element("selected"), mark = state.selected;
  if (mark < 0) {
    const hint = "Point at a dot, or go to the timeline with Tab and press an arrow key.";
    box.replaceChildren(make("h2", "Selected line"), make("p", hint));
    return;
  }
  box.replaceChildren(make("h2", "Selected line"), make("p", titleOf(mark), "call"), ...facts(mark).map(factRow));
  const readers = readersOf(mark);
  for (const reader of readers.slice(0, 20)) {
    const text = `found by ${wholeText(reader)} of ${transactionOf(reader)} on line ${marks.line[reader]}`;
    box.append(factRow({text, mark: reader}));
  }
  if (readers.length > 20) box.append(make("p", `and by ${readers.length - 20} calls more`));
}

function fillFailure() {
  const box = element("failure");
  box.hidden = failure === null && run.words.length === 0;
  if (failure === null) {
    box.append(make("h2", "What this means"), ...run.words.map(text => make("p", text)));
    return;
  }
  box.append(make("h2", "Failing step"));
  if (failure.mark >= 0) {
    element("to-failure").hidden = false;
    const row = make("p", "", "call");
    row.append(link(titleOf(failure.mark), failure.mark), ` of ${transactionOf(failure.mark)}`);
    box.append(row);
  }
  box.append(make("p", failure.words), ...failure.rows.map(failureRow));
}

// A sentence of the explanation, which leads to the call that it names.
function failureRow({text, mark}) {
  const role = mark < 0 ? "" : ["recorded", "right"].find(name => failure[name] === mark) || "";
  const row = make("p", "", `why ${role}`);
  row.append(mark < 0 ? text : link(text, mark));
  return row;
}

function fillReport() {
  const left = run.reportLines - run.report.length;
  const text = run.report.join("\n") + (left > 0 ? `\nand ${left} lines more` : "");
  element("report").append(make("h2", "The program's report"), make("pre", text));
}

function fillCounts() {
  const ends = {committed: 0, undone: 0, open: 0, "not open": 0};
  for (const end of attempts.end) ends[end]++;
  const number = (count, word) => `${count.toLocaleString("en")} ${word}${count === 1 ? "" : "s"}`;
  const kept = KNOWN_ENDS.map(end => `${ends[end].toLocaleString("en")} ${end}`).join(", ");
  const parts = [number(markCount, "line"), number(run.transactions.length, "transaction"),
    `${number(attempts.end.length, "attempt")}: ${kept}`];
  element("counts").textContent = parts.join(" \u00b7 ");
}
