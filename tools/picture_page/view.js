"use strict";
// Which lines are shown, and where. Each shown mark has a slot, counted from 0, and all slots have one width. So the view
// is the slot at the left edge, the width of a slot, and how far the lanes are scrolled.

const GUTTER = 92, AXIS = 26, LEAST_LANE = 26, MOST_LANE = 104, WIDEST_SLOT = 160;
const view = {
  start: 0, scale: 10, top: 0, width: 800, height: 300, laneHeight: LEAST_LANE,
  lanes: [],                                    // the lanes that have a shown mark: name, marks, attempts
  rows: [],                                     // by number of a lane: its place in `lanes`, or -1
  slots: new Int32Array(markCount + 1),         // by mark: how many shown marks are before it
  count: 0,
  filtered: false,
};

// Shows the marks that `keep` has, or all if it is null.
function showOnly(keep) {
  const lanes = run.lanes.map(name => ({name, marks: [], attempts: []}));
  view.filtered = keep !== null;
  view.count = 0;
  for (let mark = 0; mark < markCount; mark++) {
    view.slots[mark] = view.count;
    if (keep !== null && !keep[mark]) continue;
    view.count++;
    lanes[attempts.lane[marks.attempt[mark]]].marks.push(mark);
  }
  view.slots[markCount] = view.count;
  attempts.lane.forEach((lane, attempt) => {
    if (isShown(attempts.first[attempt])) lanes[lane].attempts.push(attempt);
  });
  view.lanes = lanes.filter(lane => lane.marks.length > 0);
  let row = 0;
  view.rows = lanes.map(lane => lane.marks.length > 0 ? row++ : -1);
  fitLanes();
}

const isShown = mark => view.slots[mark + 1] > view.slots[mark];

function fitLanes() {
  const fair = (view.height - AXIS) / Math.max(1, view.lanes.length);
  view.laneHeight = Math.floor(Math.max(LEAST_LANE, Math.min(MOST_LANE, fair)));
  view.top = Math.max(0, Math.min(view.top, lanesHeight() - view.height));
}

const lanesHeight = () => AXIS + view.lanes.length * view.laneHeight;
const laneTop = row => AXIS + row * view.laneHeight - view.top;
const rowOf = mark => view.rows[attempts.lane[marks.attempt[mark]]];
const xOfSlot = slot => GUTTER + (slot - view.start) * view.scale;
const xOf = mark => xOfSlot(view.slots[mark] + 0.5);
const slotAt = x => view.start + (x - GUTTER) / view.scale;
const roomForSlots = () => Math.max(50, view.width - GUTTER - 12);
const leastScale = () => Math.min(WIDEST_SLOT, roomForSlots() / Math.max(1, view.count));

// Within what a view can be: the whole run is the least, and one does not leave it.
function settle() {
  view.scale = Math.max(leastScale(), Math.min(WIDEST_SLOT, view.scale));
  view.start = Math.max(0, Math.min(view.start, view.count - roomForSlots() / view.scale));
}

// Zooms by a factor, so that what is at x stays there.
function zoomAt(x, factor) {
  const slot = slotAt(x);
  view.scale *= factor;
  view.scale = Math.max(leastScale(), Math.min(WIDEST_SLOT, view.scale));
  view.start = slot - (x - GUTTER) / view.scale;
  settle();
}

function showSlots(from, to) {
  view.scale = roomForSlots() / Math.max(1, to - from);
  view.scale = Math.max(leastScale(), Math.min(90, view.scale));
  view.start = (from + to) / 2 - roomForSlots() / view.scale / 2;
  settle();
}

// Shows a mark: moves only if it is out of sight or too small to read, and then puts it in the middle.
function reveal(mark) {
  const slot = view.slots[mark], isLegible = view.scale >= 8;
  if (!isLegible) view.scale = 24;
  const across = roomForSlots() / view.scale;
  if (!isLegible || slot < view.start || slot + 1 > view.start + across) view.start = slot + 0.5 - across / 2;
  settle();
  const top = rowOf(mark) * view.laneHeight;
  if (top < view.top) view.top = top;
  if (top + view.laneHeight + AXIS > view.top + view.height) view.top = top + view.laneHeight + AXIS - view.height;
}

// The place in an ascending list of marks of the first one at a slot or after it.
function firstFrom(list, slot) {
  let low = 0, high = list.length;
  while (low < high) {
    const middle = (low + high) >> 1;
    if (view.slots[list[middle]] < slot) low = middle + 1; else high = middle;
  }
  return low;
}

// The place of the first attempt of a lane that ends at a slot or after it.
function firstAttemptFrom(list, slot) {
  let low = 0, high = list.length;
  while (low < high) {
    const middle = (low + high) >> 1;
    if (view.slots[attempts.last[list[middle]]] < slot) low = middle + 1; else high = middle;
  }
  return low;
}

// The mark of a lane that is nearest to a slot.
function nearestIn(lane, slot) {
  const after = firstFrom(lane.marks, slot);
  const [left, right] = [lane.marks[after - 1], lane.marks[after]];
  if (left === undefined || right === undefined) return left === undefined ? right : left;
  return slot - view.slots[left] <= view.slots[right] - slot ? left : right;
}

// The mark that a point of the timeline is on, or -1.
function markAt(x, y) {
  const lane = view.lanes[Math.floor((y - AXIS + view.top) / view.laneHeight)];
  if (lane === undefined || x < GUTTER || y < AXIS) return -1;
  const mark = nearestIn(lane, slotAt(x) - 0.5);
  return Math.abs(xOf(mark) - x) <= Math.max(7, view.scale / 2) ? mark : -1;
}
