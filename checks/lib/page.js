// What checks/site asks of a page that is open in the browser: each function answers with plain data.
(function () {
  "use strict";
  // What was found of colours, and of what is behind elements, since the last look.
  const known = new Map(), backs = new Map();

  // An element by its name and class, with the begin of its text.
  function named(element) {
    const kind = element.getAttribute("class");
    return element.tagName.toLowerCase() + (kind ? "." + kind : "") + ": " + element.textContent.trim().slice(0, 40);
  }

  // Whether an element is shown.
  const isShown = (element) => element.checkVisibility({ visibilityProperty: true });

  // A colour as four numbers, the last for how opaque it is: a canvas paints it.
  function colour(text) {
    if (!known.has(text)) {
      const canvas = new OffscreenCanvas(1, 1).getContext("2d");
      canvas.fillStyle = text;
      canvas.fillRect(0, 0, 1, 1);
      const [red, green, blue, opaque] = canvas.getImageData(0, 0, 1, 1).data;
      known.set(text, [red, green, blue, opaque / 255]);
    }
    return known.get(text);
  }

  // A colour over another.
  const over = (top, below) => [0, 1, 2].map((at) => top[at] * top[3] + below[at] * (1 - top[3])).concat(1);

  // What is behind an element's text: its own colour over that of what is around it.
  function behind(element) {
    if (!element) {
      const isDark = matchMedia("(prefers-color-scheme: dark)").matches && !matchMedia("print").matches;
      return isDark ? [18, 18, 18, 1] : [255, 255, 255, 1];
    }
    if (!backs.has(element)) {
      const own = colour(getComputedStyle(element).backgroundColor);
      backs.set(element, over(own, behind(element.parentElement)));
    }
    return backs.get(element);
  }

  // How bright a colour is, by WCAG.
  function brightness(found) {
    const linear = (part) => (part <= 0.04045 ? part / 12.92 : ((part + 0.055) / 1.055) ** 2.4);
    const [red, green, blue] = found.map((part) => linear(part / 255));
    return 0.2126 * red + 0.7152 * green + 0.0722 * blue;
  }

  // The contrast of a colour of an element with what is behind it. What shows under the pointer alone is taken as shown.
  function contrast(element, text) {
    const back = behind(element);
    const [low, high] = [brightness(over(colour(text), back)), brightness(back)].sort((a, b) => a - b);
    return (high + 0.05) / (low + 0.05);
  }

  // Each colour of what is shown, with the contrast that it wants: of texts, of fields' hints, and of pictures.
  function* coloured() {
    const walker = document.createTreeWalker(document.body, NodeFilter.SHOW_TEXT);
    for (let text = walker.nextNode(); text; text = walker.nextNode()) {
      const element = text.parentElement, style = getComputedStyle(element);
      if (text.data.trim() && !element.closest("script, style, title")) {
        yield [element, element instanceof SVGElement ? style.fill : style.color, 4.5];
      }
    }
    for (const element of document.querySelectorAll("input")) {
      yield [element, getComputedStyle(element, "::placeholder").color, 4.5];
    }
    for (const element of document.querySelectorAll("svg :is(rect, line, circle):not(.grid)")) {
      const style = getComputedStyle(element);
      yield [element, element.tagName === "rect" ? style.fill : style.stroke, 3];
    }
  }

  // Each colour before each other, with its least contrast and where that is.
  window.contrasts = function () {
    const found = new Map();
    backs.clear();
    for (const [element, text, least] of coloured()) {
      if (isShown(element)) {
        const ratio = contrast(element, text), key = [text, backs.get(element), least].join();
        if (!found.has(key)) { found.set(key, { ratio, least, colour: text, where: named(element) }); }
      }
    }
    return [...found.values()];
  };

  // Whether an element is in a box that scrolls, or cuts what is too wide.
  function isBoxed(element) {
    for (let at = element.parentElement; at && at !== document.body; at = at.parentElement) {
      if (getComputedStyle(at).overflowX !== "visible") { return true; }
    }
    return false;
  }

  // How wide the page is, how wide the window, and what goes beyond it.
  window.widths = function () {
    const page = document.documentElement.scrollWidth, most = document.documentElement.clientWidth;
    const isOver = (it) => it.getBoundingClientRect().right > most + 1 && !isBoxed(it);
    const over = page > most ? [...document.body.querySelectorAll("*")].filter(isOver) : [];
    return { page, window: most, where: over.slice(0, 3).map(named).join("; ") };
  };

  // Opens what is folded.
  window.unfold = () => document.querySelectorAll("details").forEach((it) => { it.open = true; });

  // The page's links, and the places in it that can be linked to.
  window.links = () => ({
    links: [...document.querySelectorAll("[href], [src]")].map((it) => [it.tagName.toLowerCase(), it.href || it.src]),
    places: [...document.querySelectorAll("[id]")].map((it) => it.id),
  });

  // What has no name for a reader who does not see it.
  window.unnamed = function () {
    const all = (selector) => [...document.querySelectorAll(selector)];
    const named = (it) => it.getAttribute("aria-label") || it.textContent.trim();
    const found = all("a[href], button, summary, nav, [role=region], svg[role=img]").filter((it) => !named(it))
      .concat(all("input").filter((it) => !it.labels.length))
      .concat(all("svg:not([role]), img:not([alt])").filter((it) => !it.closest("[aria-hidden=true]")))
      .map((it) => it.outerHTML.slice(0, 80));
    return found.concat(all("main").length === 1 ? [] : ["the page, which has not one main"])
      .concat(document.documentElement.lang ? [] : ["the page's language"]);
  };

  // What a print leaves of the parts that are for the screen.
  window.printed = function () {
    const parts = [".top", ".skip", ".neighbours", "#site-pages"];
    return parts.filter((it) => document.querySelector(it) && isShown(document.querySelector(it)));
  };

  // Searches for a text, and answers the links that are found, as soon as there are some.
  window.found = async function (text) {
    const field = document.getElementById("site-search"), count = document.getElementById("site-count");
    count.textContent = "";
    field.value = text;
    field.dispatchEvent(new Event("input"));
    for (let left = 1000; left && !count.textContent; left--) { await new Promise((done) => setTimeout(done, 20)); }
    return [...document.querySelectorAll("#site-results a")].map((it) => [it.textContent, it.getAttribute("href")]);
  };
})();
