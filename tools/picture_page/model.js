"use strict";
// The run, as picture.py wrote it, and what can be asked of it. Nothing here knows of the screen.
// A mark is one recorded line or one call of the start. Marks are numbered in the order of their lines, and -1 is none.

const run = JSON.parse(document.getElementById("run").textContent);
const attempts = run.attempts;
const failure = run.failure;
const marks = {};
for (const name of Object.keys(run.marks)) marks[name] = Int32Array.from(run.marks[name]);
const markCount = marks.line.length;
// The ends that have a colour. A record of a transaction that is not open is drawn as an open attempt.
const KNOWN_ENDS = ["committed", "undone", "open"];

const isCall = mark => marks.place[mark] >= 0 && marks.about[mark] < 0;
const stepOf = mark => run.steps[marks.step[mark]];
const transactionOf = mark => run.transactions[attempts.transaction[marks.attempt[mark]]];
const placeOf = mark => marks.place[mark] < 0 ? "" : run.places[marks.place[mark]];
const objectOf = mark => placeOf(mark).split("(")[0];

// What the line says, in full: acct.read(1)=100, or push acct.read(1)=100.
function wholeText(mark) {
  if (isCall(mark)) return run.texts[marks.text[mark]];
  return marks.about[mark] >= 0 ? `${stepOf(mark)} ${wholeText(marks.about[mark])}` : stepOf(mark);
}

// A call that has no other result than none.
const WITHOUT_RESULT = /(\.(?:write|add|enq|push|insert)\(.*\))=none$/;

// The same for the timeline, without what goes without saying: the only object, and a result that can only be none.
function shortText(mark) {
  if (marks.about[mark] >= 0) return `${stepOf(mark)} ${shortText(marks.about[mark])}`;
  const text = wholeText(mark);
  if (!isCall(mark)) return text;
  const shown = text.replace(WITHOUT_RESULT, "$1");
  return run.objects.length === 1 ? shown.slice(run.objects[0].length + 1) : shown;
}

const knownEnd = attempt => KNOWN_ENDS.includes(attempts.end[attempt]) ? attempts.end[attempt] : "open";

// Whether the attempt ended before the rejected step.
const isJudged = attempt => failure === null || failure.mark < 0 || attempts.last[attempt] < failure.mark;

function endOf(attempt) {
  const end = attempts.end[attempt], last = attempts.last[attempt], line = marks.line[last];
  if (end === "open") return "open at the end of the run";
  if (end === "not open") return "not open";
  if (failure !== null && last === failure.mark) return `whose ${stepOf(last)} this is`;
  return isJudged(attempt) ? `${end} on line ${line}` : `with its ${stepOf(last)} on line ${line}, which was not judged`;
}

function attemptText(attempt) {
  const thread = attempts.thread[attempt];
  const parts = [run.transactions[attempts.transaction[attempt]]];
  if (stepOf(attempts.first[attempt]) === "start") return `${parts[0]}, the start of the run`;
  if (thread >= 0) parts[0] += ` on ${run.threads[thread]}`;
  if (attempts.number[attempt] > 1) parts.push(`attempt ${attempts.number[attempt]}`);
  parts.push(endOf(attempt));
  if (attempts.order[attempt] > 0) parts.push(`commit number ${attempts.order[attempt]}`);
  return parts.join(", ");
}

// The marks of the calls that found what a call wrote. The index is built once, when it is first asked for.
let readerIndex = null;
function readersOf(mark) {
  if (readerIndex === null) {
    readerIndex = new Map();
    for (let reader = 0; reader < markCount; reader++) {
      const source = marks.source[reader];
      if (source < 0) continue;
      if (!readerIndex.has(source)) readerIndex.set(source, []);
      readerIndex.get(source).push(reader);
    }
  }
  return readerIndex.get(mark) || [];
}

// What there is to say of a mark, besides its text: rows of text, each perhaps with a mark to go to.
function facts(mark) {
  const rows = [{text: attemptText(marks.attempt[mark])}];
  const source = marks.source[mark];
  const add = (other, text) => other >= 0 && rows.push({text: `${text} ${marks.line[other]}`, mark: other});
  if (source >= 0) add(source, `found what ${wholeText(source)} of ${transactionOf(source)} left on line`);
  add(marks.gone[mark], "taken back on line");
  add(marks.about[mark], "the call is on line");
  for (const [name, text] of failureRoles()) if (failure[name] === mark && text !== "") rows.push({text, strong: true});
  return rows;
}

// What a mark can be in a rejection, in words.
function failureRoles() {
  if (failure === null) return [];
  const should = failure.gives ? `: it should have given ${failure.gives}` : "";
  return [
    ["call", failure.call === failure.mark ? "" : `the rejected step on line ${failure.line} is about this call`],
    ["mark", `the program rejected the run here${failure.criterion ? `, by ${failure.criterion}` : ""}`],
    ["entry", `the program names this call as evidence${should}`],
    ["recorded", "left what the named call found"],
    ["right", "left what the named call should have found"],
  ];
}

// The marks that a search finds. A number is a line; a name that some transaction or object has is just that; all else
// is looked for in the texts of the lines.
function search(query) {
  const [, kind, words] = /^(?:(line|tx|on):)?\s*(.*?)\s*$/.exec(query);
  if (words === "") return [];
  if (kind === "line" || (kind === undefined && /^\d+$/.test(words))) return marksOfLine(Number(words));
  const transaction = kind === "on" ? -1 : run.transactions.indexOf(words);
  const places = new Set();
  const isMeant = place => place === words || place.split("(")[0] === words;
  if (kind !== "tx") run.places.forEach((place, number) => isMeant(place) && places.add(number));
  if (transaction >= 0 || places.size > 0 || kind !== undefined) {
    return marksWhere(mark => attempts.transaction[marks.attempt[mark]] === transaction || places.has(marks.place[mark]));
  }
  return marksWithText(words.toLowerCase());
}

function marksWhere(holds) {
  const found = [];
  for (let mark = 0; mark < markCount; mark++) if (holds(mark)) found.push(mark);
  return found;
}

// The marks of a line, or, if nothing was recorded on it, the first mark after it.
function marksOfLine(line) {
  const found = marksWhere(mark => marks.line[mark] === line);
  const after = found.length === 0 ? marks.line.findIndex(other => other > line) : -1;
  return after >= 0 ? [after] : found;
}

// Texts, places and transactions are compared once for each name, and not once for each line.
function marksWithText(words) {
  const inNames = names => names.map(name => name.toLowerCase().includes(words));
  const [texts, transactions, steps] = [run.texts, run.transactions, run.steps].map(inNames);
  return marksWhere(mark => texts[marks.text[mark]] || transactions[attempts.transaction[marks.attempt[mark]]]
    || steps[marks.step[mark]] || (marks.about[mark] >= 0 && texts[marks.text[marks.about[mark]]]));
}

// The lines that a story needs besides its own: those on which its attempts begin and end.
function withEnds(found) {
  const keep = new Uint8Array(markCount);
  for (const mark of found) {
    const attempt = marks.attempt[mark];
    keep[mark] = keep[attempts.first[attempt]] = keep[attempts.last[attempt]] = 1;
  }
  return keep;
}

// The lines that a rejection is about: those on the place of the evidence, of the transactions that it names.
function storyOfFailure() {
  const named = marksOfFailure();
  const involved = new Set(named.map(mark => attempts.transaction[marks.attempt[mark]]));
  const entry = failure.entry >= 0 ? failure.entry : failure.mark;
  const place = marks.place[entry];
  return marksWhere(mark => involved.has(attempts.transaction[marks.attempt[mark]])
    && (place < 0 || marks.place[mark] === place || named.includes(mark)));
}

// The marks that the rejection and its explanation name.
function marksOfFailure() {
  const named = [failure.mark, failure.entry, failure.recorded, failure.right, ...failure.rows.map(row => row.mark)];
  return named.filter(mark => mark >= 0);
}
