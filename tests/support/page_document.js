// The few things of a document that the script of the page of `swimd web` uses.
"use strict";

class Element {
  constructor(tag) {
    Object.assign(this, { tag, kids: [], attributes: {}, heard: {}, hidden: false, className: "" });
  }
  get textContent() { return this.kids.map(it => it instanceof Element ? it.textContent : String(it)).join(""); }
  set textContent(text) { this.kids = text === "" ? [] : [String(text)]; }
  append(...kids) { this.kids.push(...kids); }
  setAttribute(name, value) { this.attributes[name] = value; }
  addEventListener(kind, told) { this.heard[kind] = told; }
}

// An empty document: whatever element is asked for is there.
function emptyDocument() {
  const byId = {};
  return { title: "", hidden: false, createElement: tag => new Element(tag), addEventListener() {},
    createElementNS: (space, tag) => new Element(tag), getElementById: id => byId[id] ||= new Element("?") };
}

const scriptOf = page => /<script>([^]*?)<\/script>/.exec(page)[1];
const rowsOf = element => element.kids.map(row => row.kids.map(cell => cell.textContent));

module.exports = { emptyDocument, rowsOf, scriptOf };
