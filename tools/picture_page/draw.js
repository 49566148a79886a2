"use strict";
// Draws the timeline. Only what can be seen is looked at: in each lane the marks are found by bisection, and marks that
// fall on one pixel are drawn once.

const timeline = document.getElementById("timeline");
const pen = timeline.getContext("2d");
const state = {selected: -1, hovered: -1, found: [], arrows: true};
const LABEL_FONT = '11px ui-monospace, "DejaVu Sans Mono", monospace';
const TEXT_FONT = '11px system-ui, "DejaVu Sans", sans-serif', NAME_FONT = `600 ${TEXT_FONT}`;
const ROW = 14, MOST_ARROWS = 400;
// Slots narrower than these have no ticks, and no dots.
const TICKS_FROM = 0.3, DOTS_FROM = 5;
const COLOURS = ["paper", "panel", "lane", "rule", "ink", "faint", "committed", "committed-edge", "undone", "undone-edge",
  "open", "open-edge", "failure", "right", "arrow", "found"];
let colours = {}, hatch = null, letter = 6.7;

function readColours() {
  const style = getComputedStyle(document.documentElement);
  for (const name of COLOURS) {
    colours[name] = style.getPropertyValue(`--${name}`).trim();
  }
  hatch = hatching();
  pen.font = LABEL_FONT;
  letter = pen.measureText("0000000000").width / 10;
}

function hatching() {
  const tile = document.createElement("canvas");
  tile.width = tile.height = 7;
  const brush = tile.getContext("2d");
  brush.fillStyle = colours.undone;
  brush.fillRect(0, 0, 7, 7);
  brush.strokeStyle = colours["undone-edge"];
  brush.lineWidth = 0.9;
  for (const shift of [-7, 0, 7]) {
    brush.beginPath(); brush.moveTo(shift - 1, 8); brush.lineTo(shift + 8, -1); brush.stroke();
  }
  return pen.createPattern(tile, "repeat");
}

function draw() {
  const ratio = window.devicePixelRatio || 1;
  pen.setTransform(ratio, 0, 0, ratio, 0, 0);
  pen.clearRect(0, 0, view.width, view.height);
  const from = Math.max(0, Math.floor(view.top / view.laneHeight));
  const to = Math.min(view.lanes.length, Math.ceil((view.top + view.height) / view.laneHeight));
  names = [];
  boxes = [];
  for (let row = from; row < to; row++) drawLane(row);
  drawUnjudged();
  if (state.arrows) drawArrows(from, to);
  drawStrongArrows();
  names.forEach(drawName);
  drawFound();
  for (let row = from; row < to; row++) drawLaneMarks(row);
  drawRings();
  drawTags();
  drawFailure();
  drawAxis();
  for (let row = from; row < to; row++) drawLaneName(row);
  drawOverviewWindow();
}

// Where the bar of a lane is, and how many rows of text have room under it.
function barOf(row) {
  const top = laneTop(row), tall = view.laneHeight >= 56;
  const height = tall ? 18 : Math.max(12, Math.min(18, view.laneHeight - 10));
  const y = tall ? top + 18 : top + (view.laneHeight - height) / 2;
  return {y, height, tall, rows: tall ? Math.floor((view.laneHeight - 42) / ROW) : 0};
}

function drawLane(row) {
  if (row % 2 === 0) {
    pen.fillStyle = colours.lane;
    pen.fillRect(GUTTER, laneTop(row), view.width - GUTTER, view.laneHeight);
  }
  const {attempts: list} = view.lanes[row], bar = barOf(row);
  const from = firstAttemptFrom(list, view.start), to = firstAttemptFrom(list, slotAt(view.width)) + 1;
  if (to - from > view.width / 6) {
    drawDensity(list.slice(from, to), bar);
    return;
  }
  for (const attempt of list.slice(from, to)) {
    const left = Math.max(GUTTER - 8, xOfSlot(view.slots[attempts.first[attempt]] + 0.12));
    const right = Math.min(view.width + 8, xOfSlot(view.slots[attempts.last[attempt]] + 0.88));
    if (left < view.width) drawBar(attempt, left, Math.max(1, right - left), bar);
  }
}

// Attempts that are too narrow to be drawn one by one: in each column of pixels, how many there are of each end.
function drawDensity(list, bar) {
  const columns = Math.ceil(view.width - GUTTER) + 1, counts = {};
  for (const end of KNOWN_ENDS) counts[end] = new Uint16Array(columns);
  for (const attempt of list) {
    const from = Math.max(0, Math.floor(xOfSlot(view.slots[attempts.first[attempt]]) - GUTTER));
    const to = Math.min(columns - 1, Math.floor(xOfSlot(view.slots[attempts.last[attempt]] + 0.9) - GUTTER));
    for (let column = from; column <= to; column++) counts[knownEnd(attempt)][column]++;
  }
  const total = counts.committed.map((count, column) => count + counts.undone[column] + counts.open[column]);
  const base = new Float32Array(columns).fill(bar.y + bar.height);
  for (const end of KNOWN_ENDS) drawShares(counts[end], total, base, bar, colours[`${end}-edge`]);
}

// The share of one end in each column, on top of what is there. Columns of equal height are drawn at once.
function drawShares(counts, total, base, bar, colour) {
  const heightAt = column => total[column] === 0 ? 0 : counts[column] / total[column] * bar.height;
  pen.fillStyle = colour;
  for (let from = 0, to = 1; from < counts.length; from = to, to++) {
    const height = heightAt(from), bottom = base[from];
    base[from] -= height;
    for (; to < counts.length && heightAt(to) === height && base[to] === bottom; to++) base[to] -= height;
    if (height > 0) pen.fillRect(GUTTER + from, bottom - height, to - from, height);
  }
}

function drawBar(attempt, left, width, bar) {
  const known = knownEnd(attempt);
  const isChosen = state.selected >= 0 && marks.attempt[state.selected] === attempt;
  if (width < 5) {
    pen.fillStyle = colours[`${known}-edge`];
    pen.fillRect(left, bar.y, width, bar.height);
    return;
  }
  pen.fillStyle = known === "undone" ? hatch : colours[known];
  pen.strokeStyle = isChosen ? colours.ink : colours[`${known}-edge`];
  pen.lineWidth = isChosen ? 2 : 1;
  pen.setLineDash(known === "open" ? [4, 3] : []);
  pen.beginPath();
  pen.roundRect(left, bar.y, width, bar.height, 4);
  pen.fill();
  pen.stroke();
  pen.setLineDash([]);
  names.push({attempt, left, width, bar});
}

// The transactions' names over the bars, or in them if the lanes are low, and how they ended, if there is room. They are
// drawn after the arrows.
let names = [];
function drawName({attempt, left, width, bar}) {
  const sign = isJudged(attempt) ? {committed: " \u2713", undone: " \u2717"}[attempts.end[attempt]] || "" : "";
  const again = attempts.number[attempt] > 1 ? ` (attempt ${attempts.number[attempt]})` : "";
  const name = run.transactions[attempts.transaction[attempt]];
  const text = [name + again + sign, name + sign, name].find(words => words.length * 6.6 < width - 4);
  if (text === undefined) return;
  if (!bar.tall) {
    nameInside(attempt, text, Math.max(left, GUTTER) + 4, bar);
    return;
  }
  pen.font = NAME_FONT;
  writeOver(text, Math.max(left + 1, GUTTER + 4), bar.y - 6, colours.ink);
}

// A name in the bar itself, if no mark of the lane is where it would be.
function nameInside(attempt, text, x, bar) {
  const first = attempts.first[attempt], list = view.lanes[rowOf(first)].marks;
  const next = list[firstFrom(list, Math.max(view.slots[first] + 1, view.start))];
  if (next !== undefined && xOf(next) < x + text.length * 6.6 + 4) return;
  pen.font = TEXT_FONT;
  pen.fillStyle = colours.ink;
  pen.fillText(text, x, bar.y + bar.height / 2 + 4);
}

// A text with a rim of paper, so that it can be read over lines.
function writeOver(text, x, y, colour) {
  pen.lineWidth = 3;
  pen.lineJoin = "round";
  pen.strokeStyle = colours.paper;
  pen.strokeText(text, x, y);
  pen.fillStyle = colour;
  pen.fillText(text, x, y);
  boxes.push({left: x, right: x + pen.measureText(text).width, y});
}

function drawLaneMarks(row) {
  if (view.scale < TICKS_FROM) return;
  const list = view.lanes[row].marks, bar = barOf(row);
  const seen = list.slice(firstFrom(list, view.start - 1), firstFrom(list, slotAt(view.width) + 1));
  let drawnTo = -Infinity;
  for (const mark of seen) {
    const x = xOf(mark);
    if (x < drawnTo + 1) continue;
    drawTick(mark, x, bar);
    drawnTo = x;
  }
  if (bar.rows > 0 && seen.length * 12 < view.width) drawLabels(seen, bar);
}

function drawTick(mark, x, bar) {
  if (view.scale < DOTS_FROM) {
    pen.fillStyle = colours.ink;
    if (isCall(mark)) pen.fillRect(x - 0.5, bar.y + 3, 1, bar.height - 6);
  } else if (isCall(mark)) {
    drawDot(mark, x, bar.y + bar.height / 2, Math.min(4.5, view.scale / 2.4));
  } else {
    pen.fillStyle = colours.faint;
    pen.fillRect(x - 0.5, bar.y + bar.height - 6, 1.2, 6);
  }
}

// What a search found, behind the ticks; what falls on one pixel of a lane is drawn once.
function drawFound() {
  const width = Math.max(4, Math.min(16, view.scale)), drawnTo = new Map();
  pen.fillStyle = colours.found;
  for (let place = firstFrom(state.found, view.start - 1); place < state.found.length; place++) {
    const mark = state.found[place], row = rowOf(mark), x = xOf(mark);
    if (x > view.width + width) break;
    if (!isShown(mark) || x < (drawnTo.get(row) ?? -Infinity) + 1) continue;
    const bar = barOf(row);
    pen.fillRect(x - width / 2, bar.y - 3, width, bar.height + 6);
    drawnTo.set(row, x);
  }
}

function drawRings() {
  for (const mark of [state.selected, state.hovered]) if (mark >= 0) ring(mark, colours.ink);
  if (failure === null) return;
  for (const mark of [failure.entry, againstEvidence]) if (mark >= 0) ring(mark, colours.failure);
}

// A full dot changes its object, an open one only looks; one that was taken back is dotted.
function drawDot(mark, x, y, radius) {
  pen.beginPath();
  pen.arc(x, y, radius, 0, 2 * Math.PI);
  pen.fillStyle = marks.changes[mark] ? colours.ink : colours.paper;
  pen.strokeStyle = colours.ink;
  pen.lineWidth = 1.6;
  if (marks.gone[mark] >= 0) {
    pen.fillStyle = marks.changes[mark] ? colours.faint : colours.paper;
    pen.setLineDash([1.6, 1.6]);
  }
  pen.fill();
  pen.stroke();
  pen.setLineDash([]);
}

function ring(mark, colour) {
  const x = xOf(mark), bar = barOf(rowOf(mark));
  if (!isShown(mark) || x < GUTTER || x > view.width) return;
  pen.beginPath();
  pen.arc(x, bar.y + bar.height / 2, 8, 0, 2 * Math.PI);
  pen.strokeStyle = colour;
  pen.lineWidth = 2;
  pen.stroke();
}

// Texts under the bar, as many as have room: first the calls, then the other steps.
function drawLabels(seen, bar) {
  const taken = Array.from({length: bar.rows}, () => []), placed = [];
  const ranked = [...seen].sort((a, b) => rank(a) - rank(b) || a - b);
  for (const mark of ranked) {
    const text = labelOf(mark), width = text.length * letter + 8;
    const left = Math.min(xOf(mark) + 7, view.width - width), right = left + width;
    const row = taken.findIndex(spans => spans.every(span => right <= span.left || left >= span.right));
    if (text === "" || row < 0 || right < GUTTER) continue;
    taken[row].push({left, right});
    placed.push({mark, text, row, left});
  }
  placed.forEach(label => drawLeader(label, bar));
  placed.forEach(label => drawLabel(label, bar));
}

const isNamed = mark => failure !== null && [failure.entry, failure.mark, againstEvidence].includes(mark);
const rank = mark => isNamed(mark) ? 0 : isCall(mark) ? 1 : 2;

function labelOf(mark) {
  const step = stepOf(mark);
  if (step === "begin") return "";
  const text = shortText(mark);
  return failure !== null && mark === failure.entry && failure.gives ? `${text}, not ${failure.gives}` : text;
}

function drawLeader({mark, row}, bar) {
  pen.fillStyle = colours.rule;
  pen.fillRect(xOf(mark) - 0.5, bar.y + bar.height, 1, 8 + row * ROW);
}

function drawLabel({mark, text, row, left: x}, bar) {
  const y = bar.y + bar.height + 15 + row * ROW, named = rank(mark) === 0;
  pen.font = named ? `600 ${LABEL_FONT}` : LABEL_FONT;
  writeOver(text, x, y, named ? colours.failure : isCall(mark) ? colours.ink : colours.faint);
}
