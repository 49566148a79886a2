"use strict";
// Draws the line numbers above the lanes, and the lanes' names beside them.

function drawAxis() {
  pen.fillStyle = colours.panel;
  pen.fillRect(0, 0, view.width, AXIS);
  pen.fillStyle = colours.rule;
  pen.fillRect(0, AXIS - 1, view.width, 1);
  pen.font = TEXT_FONT;
  pen.fillStyle = colours.faint;
  pen.fillText("line", 12, 17);
  const flag = failure !== null && failure.mark >= 0 && isShown(failure.mark) ? flagSpan() : null;
  for (const mark of axisMarks()) drawLineNumber(mark, flag);
  if (flag !== null && flag.right > GUTTER && flag.left < view.width) drawFlag(flag);
}

// Marks at even distances in the axis: every one, every second, every fifth, and so on.
function axisMarks() {
  const factors = [2, 2.5, 2];
  let every = 1;
  for (let turn = 0; every * view.scale < 46; turn++) every *= factors[turn % factors.length];
  const shown = [], phase = view.filtered || markCount === 0 ? 0 : marks.line[0];
  const first = Math.ceil((view.start + phase) / every) * every - phase;
  const end = Math.min(view.count, slotAt(view.width));
  for (let slot = Math.max(first, 0); slot < end; slot += every) shown.push(markOfSlot(slot));
  return shown;
}

function markOfSlot(slot) {
  let low = 0, high = markCount - 1;
  while (low < high) {
    const middle = (low + high) >> 1;
    if (view.slots[middle + 1] <= slot) low = middle + 1; else high = middle;
  }
  return low;
}

function drawLineNumber(mark, flag) {
  const text = String(marks.line[mark]), x = xOf(mark), half = pen.measureText(text).width / 2;
  const isUnderFlag = flag !== null && x + half > flag.left - 4 && x - half < flag.right + 4;
  if (x - half < GUTTER || x + half > view.width || isUnderFlag) return;
  pen.fillStyle = colours.faint;
  pen.fillText(text, x - half, 17);
  pen.fillStyle = colours.rule;
  pen.fillRect(x - 0.5, AXIS - 4, 1, 4);
}

function flagSpan() {
  pen.font = NAME_FONT;
  const text = `line ${failure.line}${failure.criterion ? `: ${failure.criterion}` : ""}`;
  const width = pen.measureText(text).width + 14, x = xOf(failure.mark);
  pen.font = TEXT_FONT;
  const left = Math.min(x - width / 2, view.width - width - 2);
  return {text, left, right: left + width};
}

function drawFlag({text, left, right}) {
  pen.fillStyle = colours.failure;
  pen.beginPath();
  pen.roundRect(left, 4, right - left, AXIS - 8, 4);
  pen.fill();
  pen.font = NAME_FONT;
  pen.fillStyle = colours.paper;
  pen.fillText(text, left + 7, 17);
}

function drawLaneName(row) {
  const top = laneTop(row), bar = barOf(row);
  pen.save();
  pen.beginPath();
  pen.rect(0, AXIS, GUTTER, view.height);
  pen.clip();
  pen.fillStyle = colours.panel;
  pen.fillRect(0, top, GUTTER - 1, view.laneHeight);
  pen.fillStyle = colours.rule;
  pen.fillRect(0, top + view.laneHeight - 1, GUTTER, 1);
  pen.fillRect(GUTTER - 1, top, 1, view.laneHeight);
  pen.font = NAME_FONT;
  pen.fillStyle = colours.ink;
  pen.fillText(view.lanes[row].name, 12, bar.y + bar.height / 2 + 4, GUTTER - 18);
  pen.restore();
}
