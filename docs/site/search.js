// The search: the index is in search-index.js, which is read when the field is first used. No server is asked.
"use strict";
(function () {
  const MOST = 50;
  let field, box, count, list, wanted = null;

  // Reads the index once, and then does what waits for it.
  function withIndex(then) {
    if (window.searchIndex) { then(); return; }
    const first = wanted === null;
    wanted = then;
    if (!first) { return; }
    const script = document.createElement("script");
    script.src = "search-index.js";
    script.onload = function () { unpack(window.searchIndex); wanted(); };
    script.onerror = function () { count.textContent = "The index can't be read."; box.hidden = false; };
    document.head.append(script);
  }

  // The sections of a word are written as their distances.
  function unpack(index) {
    for (const word in index.words) {
      let at = 0;
      index.words[word] = index.words[word].map((distance) => (at += distance));
    }
  }

  // How well a heading fits a word: it is the word, has it, or has it in a longer one.
  function headingFits(heading, term) {
    if (heading === term) { return 8; }
    if (heading.split(/[^\p{L}\p{N}_-]+/u).includes(term)) { return 6; }
    return heading.includes(term) ? 2 : 0;
  }

  // How well each section fits a word: by its heading, and by whether its text has the word, or a longer one.
  function fits(index, term) {
    const found = new Map();
    const add = (at, points) => { if (points) { found.set(at, Math.max(found.get(at) || 0, points)); } };
    for (const word in index.words) {
      if (word.startsWith(term)) { index.words[word].forEach((at) => add(at, word === term ? 4 : 1)); }
    }
    index.sections.forEach((section, at) => add(at, headingFits(section[1].toLowerCase(), term)));
    return found;
  }

  // The sections that fit every word, the best first.
  function search(index, text) {
    const terms = text.toLowerCase().split(/\s+/).filter(Boolean);
    const each = terms.map((term) => fits(index, term));
    if (!each.length) { return []; }
    const all = [...each[0].keys()].filter((at) => each.every((found) => found.has(at)));
    const points = (at) => each.reduce((sum, found) => sum + found.get(at), 0);
    return all.sort((a, b) => points(b) - points(a) || a - b);
  }

  // A result: a link to a section, with its page.
  function shown(index, at) {
    const [page, heading, anchor] = index.sections[at];
    const [title, path] = index.pages[page];
    const item = document.createElement("li"), link = document.createElement("a");
    const of = document.createElement("span");
    link.href = path + (anchor ? "#" + encodeURIComponent(anchor) : "");
    link.textContent = heading || title;
    of.className = "of";
    of.textContent = heading && heading !== title ? " – " + title : "";
    link.append(of);
    item.append(link);
    return item;
  }

  function show() {
    const text = field.value.trim();
    box.hidden = !text;
    if (!text) { list.replaceChildren(); return; }
    withIndex(function () {
      const index = window.searchIndex, found = search(index, field.value.trim());
      list.replaceChildren(...found.slice(0, MOST).map((at) => shown(index, at)));
      const places = found.length === 1 ? " place" : " places";
      const more = found.length > MOST ? ", of which " + MOST + " are shown" : "";
      count.textContent = found.length ? found.length + places + more : "Nothing is found.";
    });
  }

  // Arrows go through the results, Enter follows the first one, Escape ends the search.
  function onKey(event) {
    const links = [...list.querySelectorAll("a")], at = links.indexOf(document.activeElement);
    if (event.key === "ArrowDown" && links.length) {
      links[Math.min(at + 1, links.length - 1)].focus();
    } else if (event.key === "ArrowUp" && at >= 0) {
      (at ? links[at - 1] : field).focus();
    } else if (event.key === "Enter" && document.activeElement === field && links.length) {
      links[0].click();
    } else if (event.key === "Escape") {
      field.value = "";
      show();
      field.focus();
    } else {
      return;
    }
    event.preventDefault();
  }

  function begin() {
    const form = document.querySelector(".search");
    field = document.getElementById("site-search");
    box = document.querySelector(".found");
    count = document.getElementById("site-count");
    list = document.getElementById("site-results");
    form.hidden = false;
    form.addEventListener("submit", (event) => event.preventDefault());
    field.addEventListener("input", show);
    field.addEventListener("keydown", onKey);
    box.addEventListener("keydown", onKey);
    list.addEventListener("click", () => { box.hidden = true; });
    document.addEventListener("keydown", function (event) {
      const isTyping = /^(input|textarea|select)$/i.test(event.target.tagName);
      if (event.key === "/" && !isTyping && !event.ctrlKey && !event.metaKey && !event.altKey) {
        field.focus();
        event.preventDefault();
      }
    });
  }

  document.readyState === "loading" ? document.addEventListener("DOMContentLoaded", begin) : begin();
})();
