"use strict";

// The way from the page to the start of the site.
const root = document.currentScript.getAttribute("src").replace("site.js", "");

// What folds hides: a place that is linked to is unfolded.
function unfold() {
  let at = document.getElementById(decodeURIComponent(location.hash.slice(1)));
  if (!at) return;
  const opens = (fold) => { fold.open = true; fill(fold); };
  const inner = at.querySelector(":scope > details");
  if (inner) opens(inner);
  for (let up = at; up; up = up.parentElement) if (up.tagName === "DETAILS") opens(up);
  at.scrollIntoView();
}

// The texts of definitions, by page and name: a row of a tree shows its own as it is unfolded. A
// page without a server can fetch a script and nothing else, so there is one for each page.
const texts = {}, waiting = {}, rows = {};
function takes(found) {
  for (const page in found) {
    texts[page] = found[page];
    for (const fold of waiting[page] || []) fill(fold);
  }
}

// The place of a row's definition, as its page and its name.
function placeOf(fold) {
  const link = fold.querySelector(":scope > .at > a");
  return link ? link.getAttribute("href").slice(root.length).split("#") : [];
}

function fill(fold) {
  const box = fold.querySelector(":scope > .text");
  if (!box || box.firstChild) return;
  const [page, name] = placeOf(fold);
  if (!(page in texts)) {
    if (!(page in waiting)) {
      const script = document.createElement("script");
      script.src = `${root}texts/${page.replace(".html", ".js")}`;
      document.head.append(script);
    }
    (waiting[page] = waiting[page] || []).push(fold);
    return;
  }
  box.innerHTML = texts[page][name].replaceAll('href="^', `href="${root}`);
  for (const link of box.querySelectorAll("a")) {
    const to = link.getAttribute("href");
    const row = rows[to] || rows[to.replace(/\.[^.#]*$/, "")];
    if (row) link.setAttribute("href", `#${row}`);
  }
}

// A click on a row of a tree unfolds it, with its text; names in that lead to their rows.
function trees() {
  for (const row of document.querySelectorAll(".tree li[id]")) {
    const link = row.querySelector(":scope > details > .at > a");
    if (link) rows[link.getAttribute("href")] = row.id;
  }
  document.addEventListener("click", (event) => {
    const head = event.target.closest(".tree summary");
    if (head) fill(head.parentElement);
  });
}

// The index of names shows those that have the letters which are typed.
function finds(input) {
  input.addEventListener("input", () => {
    const part = input.value.trim().toLowerCase();
    for (const letter of document.querySelectorAll(".letter")) {
      let some = false;
      for (const row of letter.querySelectorAll("li")) {
        row.hidden = !row.textContent.toLowerCase().includes(part);
        some = some || !row.hidden;
      }
      letter.hidden = !some;
      letter.open = some && part !== "";
    }
  });
}

// The slider over the lines of a script: what each answers, and how much of the picture is drawn.
function slides(data) {
  const lines = JSON.parse(data.textContent);
  const slide = document.getElementById("slide");
  const say = (id, words) => { document.getElementById(id).textContent = words; };
  const rows = [...document.querySelectorAll(".script tr[data-at]")];
  const veil = document.querySelector(".veil"), picture = document.querySelector(".picture");
  function show() {
    const at = Number(slide.value);
    const [number, text, answer, column, did, now] = lines[at];
    say("text", `${number}: ${text}`);
    say("answer", answer);
    say("did", did);
    say("now", now);
    rows.forEach((row, place) => {
      row.classList.toggle("now", place === at);
      row.classList.toggle("later", place > at);
    });
    if (!veil) return;
    const edge = Number(veil.dataset.left) + column * Number(veil.dataset.cell);
    veil.style.left = `${edge}px`;
    picture.scrollLeft = edge - picture.clientWidth * 0.7;
  }
  function go(to) {
    slide.value = to;
    show();
  }
  slide.addEventListener("input", show);
  document.getElementById("back").addEventListener("click", () => go(Number(slide.value) - 1));
  document.getElementById("on").addEventListener("click", () => go(Number(slide.value) + 1));
  for (const row of rows) row.addEventListener("click", () => go(row.dataset.at));
  show();
}

window.addEventListener("hashchange", unfold);
document.addEventListener("DOMContentLoaded", () => {
  trees();
  unfold();
  const find = document.getElementById("find"), data = document.getElementById("slides");
  if (find) finds(find);
  if (data) slides(data);
});
