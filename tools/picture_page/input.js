"use strict";
// Search, pointer and keys, and how the page opens.

let foundAt = -1;
function runSearch() {
  state.found = search(element("search").value);
  foundAt = -1;
  const asked = element("search").value.trim() !== "";
  element("found").textContent = asked ? `${state.found.length.toLocaleString("en")} found` : "";
  nameOnly();
  drawOverview();
  redraw();
}

function step(by) {
  const count = state.found.length;
  if (count === 0) return;
  foundAt = foundAt < 0 ? (by > 0 ? 0 : count - 1) : (foundAt + by + count) % count;
  element("found").textContent = `${(foundAt + 1).toLocaleString("en")} of ${count.toLocaleString("en")}`;
  select(state.found[foundAt]);
}

// What the button that hides lines would leave: what a search found, or else what the selected line or the rejection is
// about.
function nameOnly() {
  const mark = state.selected, about = mark >= 0 ? placeOf(mark) || transactionOf(mark) : "";
  const story = state.found.length > 0 ? "Only what is found" : isOfStory() ? "Only the failure's lines" : `Only ${about}`;
  const hidden = `All lines (${view.count.toLocaleString("en")} of ${markCount.toLocaleString("en")} shown)`;
  element("only").textContent = view.filtered ? hidden : story === "Only " ? "Only some lines" : story;
  element("only").disabled = !view.filtered && story === "Only ";
  element("only").classList.toggle("on", view.filtered);
}

const isOfStory = () => failure !== null && failure.mark >= 0 && (state.selected < 0 || state.selected === failure.mark);

function toggleOnly() {
  const chosen = state.selected;
  if (view.filtered) {
    show(null);
    if (chosen >= 0) select(chosen); else showWhole();
    return;
  }
  const story = storyLines();
  if (story.length === 0) return;
  show(withEnds(story));
  showWhole();
}

function storyLines() {
  if (state.found.length > 0) return state.found;
  if (isOfStory()) return storyOfFailure();
  if (state.selected < 0) return [];
  return marksWhere(mark => marks.place[state.selected] < 0 ? marks.attempt[mark] === marks.attempt[state.selected]
    : marks.place[mark] === marks.place[state.selected]);
}

function toggleArrows() {
  state.arrows = !state.arrows;
  element("arrows").setAttribute("aria-pressed", String(state.arrows));
  redraw();
}

// The pointer.

let drag = null;
function pointerDown(event) {
  tip.hidden = true;
  drag = {x: event.clientX, y: event.clientY, start: view.start, top: scroll.scrollTop, moved: false};
  timeline.setPointerCapture(event.pointerId);
}

function pointerMove(event) {
  if (drag === null) {
    hover(event.offsetX, event.offsetY);
    return;
  }
  const [dx, dy] = [event.clientX - drag.x, event.clientY - drag.y];
  drag.moved = drag.moved || Math.abs(dx) + Math.abs(dy) > 3;
  view.start = drag.start - dx / view.scale;
  scroll.scrollTop = drag.top - dy;
  view.top = scroll.scrollTop;
  settle();
  redraw();
}

function pointerUp(event) {
  if (drag !== null && !drag.moved) select(markAt(event.offsetX, event.offsetY), false);
  drag = null;
}

function hover(x, y) {
  const mark = markAt(x, y);
  if (mark !== state.hovered) {
    state.hovered = mark;
    redraw();
  }
  tip.hidden = mark < 0;
  if (mark >= 0) placeTip(mark, x, y);
}

function placeTip(mark, x, y) {
  tip.replaceChildren(make("b", titleOf(mark)), ...facts(mark).map(fact => make("div", fact.text)));
  const {offsetWidth: width, offsetHeight: height} = tip;
  tip.style.left = `${Math.max(4, Math.min(x + 14, view.width - width - 8))}px`;
  tip.style.top = `${y + 20 + height < view.height ? y + 18 : Math.max(2, y - height - 14)}px`;
}

function unhover() {
  tip.hidden = true;
  state.hovered = -1;
  redraw();
}

function wheel(event) {
  event.preventDefault();
  const isAcross = Math.abs(event.deltaX) > Math.abs(event.deltaY);
  const across = event.shiftKey ? event.deltaX || event.deltaY : isAcross ? event.deltaX : 0;
  if (across !== 0) view.start += across / view.scale;
  else if (event.offsetX < GUTTER) scroll.scrollTop += event.deltaY;
  else zoomAt(event.offsetX, Math.exp(-event.deltaY * (event.ctrlKey ? 0.01 : 0.0018)));
  settle();
  unhover();
}

function moveOverview(event) {
  if (event.buttons === 0) return;
  const room = roomForSlots();
  view.start = (event.offsetX - GUTTER) / room * view.count - room / view.scale / 2;
  settle();
  redraw();
}

// The keys.

function zoomBy(factor) {
  const x = state.selected >= 0 && isShown(state.selected) ? xOf(state.selected) : 0;
  zoomAt(x > GUTTER && x < view.width ? x : (GUTTER + view.width) / 2, factor);
  redraw();
}

// Keys that work everywhere but in a field.
const KEYS = {
  "+": () => zoomBy(1.5), "=": () => zoomBy(1.5), "-": () => zoomBy(1 / 1.5), "0": showWhole,
  f: () => failure !== null && failure.mark >= 0 && select(failure.mark),
  a: toggleArrows, o: toggleOnly, "/": () => element("search").focus(), Escape: () => { select(-1); unhover(); },
};

// Keys of the timeline.
const STEPS = {
  ArrowLeft: () => along(-1), ArrowRight: () => along(1), ArrowUp: () => across(-1), ArrowDown: () => across(1),
  Home: () => chooseSlot(0), End: () => chooseSlot(view.count - 1), Enter: follow,
};

function chooseSlot(slot) {
  if (view.count > 0) select(markOfSlot(Math.max(0, Math.min(view.count - 1, Math.floor(slot)))));
}

// To the line before or after in the same lane.
function along(by) {
  if (state.selected < 0) return chooseSlot(view.start + roomForSlots() / view.scale / 2);
  const list = view.lanes[rowOf(state.selected)].marks;
  const next = list[firstFrom(list, view.slots[state.selected]) + by];
  if (next !== undefined) select(next);
}

// To the nearest line of the lane above or below.
function across(by) {
  if (state.selected < 0) return chooseSlot(view.start + roomForSlots() / view.scale / 2);
  const lane = view.lanes[rowOf(state.selected) + by];
  if (lane !== undefined) select(nearestIn(lane, view.slots[state.selected]));
}

function follow() {
  if (state.selected < 0) return;
  const to = [marks.source, marks.about].map(column => column[state.selected]).find(mark => mark >= 0);
  if (to !== undefined) select(to);
}

function keyDown(event) {
  if (event.ctrlKey || event.metaKey || event.altKey) return;
  if (event.target.tagName === "INPUT") {
    if (event.key === "Escape") timeline.focus();
    if (event.key === "Enter" && event.shiftKey) { event.preventDefault(); step(-1); }
    return;
  }
  const act = event.target === timeline && STEPS[event.key] || KEYS[event.key];
  if (act === undefined || (event.key === "Enter" && event.target !== timeline)) return;
  event.preventDefault();
  act();
  if (act !== KEYS.Escape && event.target === timeline && state.selected >= 0) tipAtSelected();
}

// What the pointer shows of a mark, for one who came to it with the keys.
function tipAtSelected() {
  const mark = state.selected, bar = barOf(rowOf(mark));
  tip.hidden = !isShown(mark);
  if (!tip.hidden) placeTip(mark, xOf(mark), bar.y + bar.height + 8);
}

// The page opens on what matters: the failing step with its evidence, or the whole run.
function openView() {
  showOnly(null);
  resize();
  if (failure === null || failure.mark < 0) return showWhole();
  const slots = marksOfFailure().map(mark => view.slots[mark]);
  const from = Math.min(...slots), to = Math.max(...slots);
  if (view.count <= ROOMY) showWhole();
  else if (to - from <= ROOMY) showSlots(from - 6, to + 8);
  else toggleOnly();
  select(failure.mark, false);
}

function listen() {
  timeline.addEventListener("pointerdown", pointerDown);
  timeline.addEventListener("pointermove", pointerMove);
  timeline.addEventListener("pointerup", pointerUp);
  timeline.addEventListener("pointercancel", () => { drag = null; });
  timeline.addEventListener("pointerleave", unhover);
  timeline.addEventListener("wheel", wheel, {passive: false});
  scroll.addEventListener("scroll", () => { view.top = scroll.scrollTop; redraw(); });
  overview.addEventListener("pointerdown", moveOverview);
  overview.addEventListener("pointermove", moveOverview);
  document.addEventListener("keydown", keyDown);
  window.addEventListener("resize", resize);
  matchMedia("(prefers-color-scheme: dark)").addEventListener("change", () => { readColours(); resize(); });
  element("search").addEventListener("input", runSearch);
  element("search-form").addEventListener("submit", event => { event.preventDefault(); step(1); });
  const buttons = {"zoom-in": KEYS["+"], "zoom-out": KEYS["-"], whole: showWhole, "to-failure": KEYS.f, only: toggleOnly,
    arrows: toggleArrows, previous: () => step(-1)};
  for (const [id, act] of Object.entries(buttons)) element(id).addEventListener("click", act);
}

readColours();
fillCounts();
fillFailure();
fillReport();
fillSelected();
listen();
openView();
document.body.dataset.lines = String(markCount);
