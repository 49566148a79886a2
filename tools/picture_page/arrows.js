"use strict";
// Draws the arrows, from what was read to who wrote it, and what belongs to the rejected step.

// The arrows of the calls in view. If there are too many, none but those of the chosen mark are drawn.
function drawArrows(from, to) {
  if (view.scale < TICKS_FROM) return;
  const drawn = [];
  for (let row = from; row < to; row++) {
    const list = view.lanes[row].marks;
    const seen = list.slice(firstFrom(list, view.start - 1), firstFrom(list, slotAt(view.width)));
    drawn.push(...seen.filter(mark => marks.source[mark] >= 0 && !isOfFailure(mark)));
  }
  if (drawn.length > MOST_ARROWS) return;
  pen.globalAlpha = drawn.length > 80 ? 0.4 : 0.75;
  for (const mark of drawn) drawArrow(mark, marks.source[mark], colours.arrow, 1.2);
  pen.globalAlpha = 1;
}

// Whether the arrow of a mark is drawn as one of the failure.
const isOfFailure = mark => failure !== null && ((mark === failure.entry && marks.source[mark] === failure.recorded)
  || (mark === againstEvidence && marks.source[mark] === failure.entry));

// From where an arrow leads to the evidence, if that is another call than the one that fails: from the step's call, or
// from its line if it has none.
const againstEvidence = failure === null || failure.entry < 0 || failure.gives || failure.call === failure.entry ? -1
  : failure.call >= 0 ? failure.call : failure.mark;

let tags = [];
function drawStrongArrows() {
  tags = [];
  for (const mark of new Set([state.selected, state.hovered])) {
    if (mark < 0) continue;
    const call = marks.about[mark] >= 0 ? marks.about[mark] : mark;
    if (marks.source[call] >= 0 && !isOfFailure(call)) drawArrow(call, marks.source[call], colours.arrow, 2.4);
    const readers = readersOf(call).filter(reader => !isOfFailure(reader)).slice(0, 60);
    for (const reader of readers) drawArrow(reader, call, colours.arrow, 2.4);
  }
  if (failure === null || failure.entry < 0) return;
  if (againstEvidence >= 0) drawArrow(againstEvidence, failure.entry, colours.failure, 2.2, [2, 3], "evidence");
  if (failure.recorded >= 0) drawArrow(failure.entry, failure.recorded, colours.failure, 2.2, [6, 4], "recorded");
  if (failure.right >= 0) drawArrow(failure.entry, failure.right, colours.right, 2.4, [], "right");
}

// From one who read to one who wrote. Both ends are on the bars' edges that face each other.
function drawArrow(reader, writer, colour, width, dash = [], tag = "") {
  if (!isShown(reader) || !isShown(writer)) return;
  const [x1, x2] = [xOf(reader), xOf(writer)];
  if (Math.max(x1, x2) < GUTTER || Math.min(x1, x2) > view.width) return;
  const [from, to] = [barOf(rowOf(reader)), barOf(rowOf(writer))];
  const level = rowOf(reader) === rowOf(writer), up = level || from.y > to.y;
  const y1 = up ? from.y : from.y + from.height, y2 = level ? to.y : up ? to.y + to.height + 1 : to.y - 1;
  const bend = level ? Math.min(26, 8 + Math.abs(x1 - x2) / 12) : Math.min(70, Math.abs(y1 - y2) * 0.55);
  const [c1, c2] = level ? [y1 - bend, y2 - bend] : up ? [y1 - bend, y2 + bend] : [y1 + bend, y2 - bend];
  pen.strokeStyle = pen.fillStyle = colour;
  pen.lineWidth = width;
  pen.setLineDash(dash);
  pen.beginPath();
  pen.moveTo(x1, y1);
  pen.bezierCurveTo(x1, c1, x2, c2, x2, y2);
  pen.stroke();
  pen.setLineDash([]);
  arrowHead(x2, y2, c2 < y2 ? 1 : -1, 3 + width);
  if (tag !== "") tags.push({text: tag, colour, pointAt: t => pointOf([x1, x1, x2, x2], [y1, c1, c2, y2], t)});
}

// A point of a cubic curve.
function pointOf(xs, ys, t) {
  const weights = [(1 - t) ** 3, 3 * t * (1 - t) ** 2, 3 * t ** 2 * (1 - t), t ** 3];
  const sum = list => list.reduce((total, value, place) => total + value * weights[place], 0);
  return {x: sum(xs), y: sum(ys)};
}

function arrowHead(x, y, down, size) {
  pen.beginPath();
  pen.moveTo(x, y);
  pen.lineTo(x - size * 0.75, y - down * size * 1.7);
  pen.lineTo(x + size * 0.75, y - down * size * 1.7);
  pen.fill();
}

// The boxes of the texts that were written, for the tags to keep out of.
let boxes = [];
const isFree = ({x, y}, width) => x - width / 2 > GUTTER && x + width / 2 < view.width && boxes.every(box =>
  x + width / 2 < box.left || x - width / 2 > box.right || y + 9 < box.y - 11 || y - 9 > box.y + 3);

function drawTags() {
  for (const tag of tags) drawTag(tag);
}

// A tag is on its arrow, where it hides no text if there is such a place.
function drawTag({text, pointAt, colour}) {
  pen.font = NAME_FONT;
  const width = pen.measureText(text).width + 10;
  const points = [0.6, 0.5, 0.4, 0.7, 0.3, 0.8, 0.2].map(pointAt);
  const {x, y} = points.find(point => isFree(point, width)) || points[0];
  pen.fillStyle = colours.paper;
  pen.strokeStyle = colour;
  pen.beginPath();
  pen.roundRect(x - width / 2, y - 8, width, 16, 8);
  pen.fill();
  pen.lineWidth = 1;
  pen.stroke();
  pen.fillStyle = colour;
  pen.fillText(text, x - width / 2 + 5, y + 4);
}

// What is after the failing step was not judged, and is paler.
function drawUnjudged() {
  if (failure === null || failure.mark < 0) return;
  const x = Math.max(GUTTER, xOfSlot(view.slots[failure.mark] + 1));
  if (x >= view.width) return;
  pen.globalAlpha = 0.6;
  pen.fillStyle = colours.paper;
  pen.fillRect(x, AXIS, view.width - x, view.height);
  pen.globalAlpha = 1;
}

function drawFailure() {
  if (failure === null || failure.mark < 0 || !isShown(failure.mark)) return;
  const x = xOf(failure.mark), bar = barOf(rowOf(failure.mark));
  if (x < GUTTER || x > view.width) return;
  pen.fillStyle = colours.failure;
  pen.fillRect(x - 0.75, AXIS, 1.5, Math.min(view.height, lanesHeight() - view.top) - AXIS);
  pen.beginPath();
  const y = bar.y + bar.height / 2;
  pen.moveTo(x, y - 10); pen.lineTo(x + 9, y); pen.lineTo(x, y + 10); pen.lineTo(x - 9, y);
  pen.fill();
  pen.fillStyle = colours.paper;
  pen.font = NAME_FONT;
  pen.fillText("!", x - 2, y + 4);
}
