"use strict";

const DELAY = 80; // milliseconds after a letter before the server is asked
const COPIED = 1500; // milliseconds for which a button says that it copied
const MOST_COLUMNS = 100; // as many as the server lays a query out in

const element = (id) => document.getElementById(id);
const field = element("query");
let timer = 0;
let asked = 0; // the columns of the last request
let asking = new AbortController();

/** Shows the text in the element, or that it is too long, which is nothing to copy. */
function showText(id, text) {
  element(id).textContent = text ?? "too long to show";
  for (const button of document.querySelectorAll(`[data-copies=${id}]`)) {
    button.hidden = text === null;
  }
}

function showOnly(...ids) {
  for (const id of ["trouble", "rejected", "accepted"]) {
    element(id).hidden = !ids.includes(id);
  }
}

/** Shows a message and its place, and a text with a mark at the part that the message is about. */
function showMessage(id, { message, line, column, parts: [before, part, after] }, idOfText) {
  showText(id, `${line}:${column}: ${message}`);
  const mark = document.createElement("mark");
  mark.textContent = part;
  element(idOfText).replaceChildren(before, mark, after);
}

function showDrawing(drawing, note) {
  const picture = drawing === null ? [] : [new DOMParser().parseFromString(drawing, "image/svg+xml").documentElement];
  element("drawing").replaceChildren(...picture);
  element("drawing").hidden = drawing === null;
  showText("note", note ?? "");
}

/** Scrolls the picture to the root of the tree, which is at the left, in the middle of all that is below it. */
function scrollToRoot() {
  const picture = element("drawing");
  const root = picture.querySelector(".node")?.getBoundingClientRect();
  if (root) {
    const { top, bottom } = picture.getBoundingClientRect();
    picture.scrollLeft = 0;
    picture.scrollTop += (root.top + root.bottom - top - bottom) / 2;
  }
}

function showResult({ error, line, layout, warning, drawing, note }) {
  if (error) {
    showMessage("message", error, "place");
    showOnly("rejected");
    return;
  }
  showText("line", line);
  showText("layout", layout);
  element("warning").hidden = !warning;
  if (warning) {
    showMessage("warning", warning, "layout");
  }
  showDrawing(drawing, note);
  showOnly("accepted");
  scrollToRoot();
}

function showTrouble(text) {
  showText("trouble", text);
  showOnly("trouble");
}

/** Returns how many characters a line of the layout has room for. The field is as wide as the layout, which may be hidden. */
function columns() {
  const { fontFamily, fontSize, paddingLeft, paddingRight } = getComputedStyle(element("layout"));
  const pen = document.createElement("canvas").getContext("2d");
  pen.font = `${fontSize} ${fontFamily}`;
  const room = field.clientWidth - parseFloat(paddingLeft) - parseFloat(paddingRight);
  return Math.max(1, Math.min(MOST_COLUMNS, Math.floor(room / pen.measureText("0").width)));
}

async function ask(query) {
  asking.abort();
  asking = new AbortController();
  const { signal } = asking;
  asked = columns();
  try {
    const headers = { "Content-Type": "application/json" };
    const body = JSON.stringify({ query, width: asked });
    const response = await fetch("query", { method: "POST", headers, body, signal });
    const result = await response.json();
    if (response.ok) {
      showResult(result);
    } else {
      showTrouble(`The server rejects the request: ${result.rejected}.`);
    }
  } catch (error) {
    if (!signal.aborted) {
      showTrouble("The server does not respond.");
    }
  }
}

/** Puts the query into the address of the page, which is a link to it. */
function keepLink(query) {
  try {
    history.replaceState(null, "", `#q=${encodeURIComponent(query)}`);
  } catch (error) {
    // (half a character has no link, and some browsers change the address only so often)
  }
}

function update() {
  if (field.value.trim() === "") {
    asking.abort();
    showOnly();
  } else {
    ask(field.value);
  }
}

function updateSoon() {
  clearTimeout(timer);
  timer = setTimeout(update, DELAY);
}

function typed() {
  keepLink(field.value);
  updateSoon();
}

/** Lays the query out again where a line has room for more or fewer characters now. */
function resized() {
  if (columns() !== asked) {
    updateSoon();
  }
}

/** Copies the text that the button is for, or selects it where the browser lets no page copy. */
async function copy(button) {
  const shown = element(button.dataset.copies);
  try {
    await navigator.clipboard.writeText(shown.textContent);
    button.textContent = "Copied";
  } catch (error) {
    getSelection().selectAllChildren(shown);
    button.textContent = "Selected";
  }
  setTimeout(() => {
    button.textContent = "Copy";
  }, COPIED);
}

/** Puts the query of a link, after `#q=`, into the field. */
function follow() {
  const [, text] = /^#q=(.*)$/.exec(location.hash) ?? [];
  if (text === undefined) {
    return;
  }
  try {
    field.value = decodeURIComponent(text);
    update();
  } catch (error) {
    showTrouble("The query of this link cannot be read.");
  }
}

field.addEventListener("input", typed);
window.addEventListener("hashchange", follow);
window.addEventListener("resize", resized);
for (const button of document.querySelectorAll("[data-copies]")) {
  button.addEventListener("click", () => copy(button));
}
follow();
