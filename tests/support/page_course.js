// Runs the script of the page that `swimd web` serves over a server, streams and a clock of its own, and writes as JSON
// what it does as these go on. Usage: node page_course.js URL
"use strict";
const { emptyDocument, rowsOf, scriptOf } = require("./page_document.js");

const answers = { "/metrics": "", "/members.json": '{"members":[]}',
  "/verdicts.json": '{"explained":false,"changes":[]}' };
const document = emptyDocument(), id = document.getElementById, streams = [], timers = new Map(), intervals = [];
const asked = { now: 0, most: 0, members: 0 };
let gate = () => {}, isOpen = false;

class EventSource {
  static CLOSED = 2;
  constructor() {
    this.readyState = 0;
    streams.push(this);
  }
  open() {
    this.readyState = 1;
    this.onopen();
  }
  fail(state) {
    this.readyState = state;
    this.onerror();
  }
  tell(change) { this.onmessage({ data: JSON.stringify(change) }); }
  close() { this.readyState = EventSource.CLOSED; }
}
const setTimeout = (told, delay) => {
  const timer = {};
  timers.set(timer, [told, delay]);
  return timer;
};
const clearTimeout = timer => timers.delete(timer);
async function fetch(path) {
  asked.most = Math.max(asked.most, ++asked.now);
  if (path === "/members.json") asked.members++;
  if (!isOpen) await new Promise(done => gate = done);
  asked.now--;
  return { ok: true, text: async () => answers[path] };
}

const last = () => streams[streams.length - 1], change = number => ({ event: "life", life: number });
const lives = () => rowsOf(id("events")).map(row => row[1]);
const settled = () => new Promise(done => setImmediate(() => setImmediate(done)));
const delays = () => [...timers.values()].map(it => it[1]).filter(it => it >= 2000);
// The stream is given up, and the delay after which the next one is opened; then that is.
function givenUp() {
  timers.clear();
  last().fail(EventSource.CLOSED);
  const [[told, delay]] = timers.values();
  timers.clear();
  told();
  return delay;
}

async function go() {
  const script = scriptOf(await (await globalThis.fetch(process.argv[2])).text()), told = {};
  const given = { document, fetch, EventSource, setTimeout, clearTimeout, setInterval: it => intervals.push(it) };
  new Function(...Object.keys(given), script)(...Object.values(given));
  for (let times = 0; times < 3; times++) intervals[0]();
  await settled();
  told.whileAsking = { ...asked };
  isOpen = true;
  gate();
  await settled();
  told.onceAnswered = { ...asked };
  last().open();
  for (const number of [1, 2]) last().tell(change(number));
  told.first = lives();
  timers.clear();
  last().fail(0);
  told.whileReopening = delays();
  last().open();
  told.reopened = lives();
  told.delays = Array.from({ length: 7 }, givenUp);
  told.opened = streams.length;
  last().open();
  last().tell(change(2));
  told.anew = lives();
  told.afterThat = givenUp();
  const { click } = id("hold").heard, members = asked.members;
  last().open();
  last().tell(change(3));
  await settled();
  click();
  timers.clear();
  intervals[0]();
  last().fail(EventSource.CLOSED);
  await settled();
  told.held = { label: id("hold").textContent, at: id("at").textContent.endsWith(", paused"), lives: lives(),
    stream: last().readyState, timers: timers.size, asked: asked.members - members };
  click();
  await settled();
  told.goesOn = { label: id("hold").textContent, stream: last().readyState, asked: asked.members - members };
  console.log(JSON.stringify(told));
}
go();
