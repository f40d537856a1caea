// Runs the script of the page that `swimd web` serves, with the few things of a browser that it uses, and writes what it
// shows as JSON. Usage: node page_screen.js URL
"use strict";
const { emptyDocument, rowsOf, scriptOf } = require("./page_document.js");

const url = process.argv[2], document = emptyDocument(), id = document.getElementById, streams = [];
class EventSource {
  constructor(path) { streams.push([this, path]); }
}

async function show() {
  const script = scriptOf(await (await fetch(url)).text()), names = ["document", "fetch", "EventSource", "setInterval"];
  new Function(...names, script)(document, (path, how) => fetch(new URL(path, url), how), EventSource, () => {});
  for (const [stream, path] of streams) {
    const text = await (await fetch(new URL(path, url))).text();
    for (const found of text.matchAll(/^data: (.*)$/gm)) stream.onmessage({ data: found[1] });
  }
  const isTold = () => id("at").textContent || id("alarm").textContent;
  for (let tries = 0; tries < 100 && !isTold(); tries++) await new Promise(done => setTimeout(done, 100));
  const told = { title: document.title, sum: id("sum").textContent, alarm: id("alarm").textContent };
  const rows = name => rowsOf(id(name));
  console.log(JSON.stringify({ ...told, members: rows("members"), events: rows("events"), counts: rows("counts") }));
}
show();
