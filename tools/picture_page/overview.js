"use strict";
// Draws the overview: the whole run in a strip, and what part of it the timeline shows.

const overview = document.getElementById("overview");

// How the attempts of each column of the overview end, and where the view is. Drawn once into a picture of its own.
let overviewPicture = null;
function drawOverview() {
  const ratio = window.devicePixelRatio || 1, height = 34;
  overviewPicture = document.createElement("canvas");
  overviewPicture.width = Math.max(1, Math.round(view.width * ratio));
  overviewPicture.height = height * ratio;
  const brush = overviewPicture.getContext("2d"), columns = Math.max(1, Math.floor(view.width - GUTTER - 12));
  brush.scale(ratio, ratio);
  const parts = countEnds(columns);
  const most = parts.total.reduce((a, b) => Math.max(a, b), 1);
  for (let column = 0; column < columns; column++) {
    let y = height - 3;
    for (const end of KNOWN_ENDS) {
      const part = parts[end][column] / most * (height - 8);
      brush.fillStyle = colours[`${end}-edge`];
      brush.fillRect(GUTTER + column, y - part, 1, part);
      y -= part;
    }
  }
  brush.fillStyle = colours.faint;
  brush.font = TEXT_FONT;
  brush.fillText("whole run", 12, 21);
  drawOverviewMarks(brush, columns, height);
}

// For each column how many attempts of each end go through it, counted by where they begin and end.
function countEnds(columns) {
  const parts = {};
  for (const name of [...KNOWN_ENDS, "total"]) parts[name] = new Float32Array(columns + 1);
  const columnOf = slot => Math.min(columns - 1, Math.floor(slot / Math.max(1, view.count) * columns));
  attempts.first.forEach((first, attempt) => {
    if (!isShown(first)) return;
    const from = columnOf(view.slots[first]), to = columnOf(view.slots[attempts.last[attempt]] + 0.99) + 1;
    for (const name of [knownEnd(attempt), "total"]) { parts[name][from]++; parts[name][to]--; }
  });
  for (const part of Object.values(parts)) {
    for (let column = 1; column <= columns; column++) part[column] += part[column - 1];
  }
  return parts;
}

function drawOverviewMarks(brush, columns, height) {
  const xOfMark = mark => GUTTER + (view.slots[mark] + 0.5) / Math.max(1, view.count) * columns;
  brush.fillStyle = colours.ink;
  for (const mark of state.found.slice(0, 5000)) if (isShown(mark)) brush.fillRect(xOfMark(mark) - 0.5, height - 4, 1, 4);
  if (failure === null || failure.mark < 0 || !isShown(failure.mark)) return;
  brush.fillStyle = colours.failure;
  const x = xOfMark(failure.mark);
  brush.fillRect(x - 1, 0, 2, height);
  brush.beginPath();
  brush.moveTo(x - 6, 0); brush.lineTo(x + 6, 0); brush.lineTo(x, 8);
  brush.fill();
}

function drawOverviewWindow() {
  if (overviewPicture === null) return;
  const ratio = window.devicePixelRatio || 1, brush = overview.getContext("2d");
  brush.setTransform(1, 0, 0, 1, 0, 0);
  brush.clearRect(0, 0, overview.width, overview.height);
  brush.drawImage(overviewPicture, 0, 0);
  brush.scale(ratio, ratio);
  const room = roomForSlots(), left = GUTTER + view.start / Math.max(1, view.count) * room;
  const width = Math.max(3, Math.min(room, room / view.scale / Math.max(1, view.count) * room));
  brush.globalAlpha = 0.55;
  brush.fillStyle = colours.panel;
  brush.fillRect(GUTTER, 0, left - GUTTER, 34);
  brush.fillRect(left + width, 0, view.width - left - width, 34);
  brush.globalAlpha = 1;
  brush.strokeStyle = colours.ink;
  brush.strokeRect(left + 0.5, 0.5, width - 1, 33);
}
