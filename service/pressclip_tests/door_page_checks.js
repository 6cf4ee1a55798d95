/**
 * What everyone needs of a page, as far as a script can see it (after the rules of WCAG 2.2, levels A and AA). Gives a
 * list of faults, each a rule and the element that breaks it.
 */

const LEAST_TEXT = 4.5;
const LEAST_LARGE_TEXT = 3;
const LEAST_EDGE = 3;
const LEAST_TARGET = 24;
const OPERATED = "a[href], button, input, select, textarea, summary, [role=textbox], [role=button]";

const faults = [];
const tell = (rule, node, more = "") => faults.push(`${rule}: ${node.outerHTML?.slice(0, 140) ?? node} ${more}`);

const isShown = (node) => node.checkVisibility({ checkOpacity: true, checkVisibilityCSS: true })
  && node.getClientRects().length > 0;
const isUnseen = (node) => node.closest(".unseen, .skip") !== null;
const modal = document.querySelector("dialog[open]");
const root = modal ?? document.body;
const all = (selector) => [...root.querySelectorAll(selector)].filter(isShown);

/** A colour as red, green, blue and opacity. */
function colour(text) {
  const numbers = text.match(/[\d.]+/g)?.map(Number) ?? [0, 0, 0, 0];
  return numbers.length === 3 ? [...numbers, 1] : numbers;
}

/** One colour over another. */
function over([r, g, b, a], [s, h, c]) {
  return [r * a + s * (1 - a), g * a + h * (1 - a), b * a + c * (1 - a), 1];
}

/** The colour behind a node. */
function behind(node) {
  const layers = [];
  for (let at = node; at; at = at.parentElement) {
    layers.push(colour(getComputedStyle(at).backgroundColor));
  }
  return layers.reverse().reduce((below, layer) => over(layer, below), [255, 255, 255, 1]);
}

/** How light a colour is, from 0 to 1. */
function luminance([r, g, b]) {
  const [x, y, z] = [r, g, b].map((part) => part / 255)
    .map((part) => (part <= 0.04045 ? part / 12.92 : ((part + 0.055) / 1.055) ** 2.4));
  return 0.2126 * x + 0.7152 * y + 0.0722 * z;
}

/** The contrast of two colours, from 1 to 21. */
function contrast(one, other) {
  const [less, more] = [luminance(one), luminance(other)].sort((a, b) => a - b);
  return (more + 0.05) / (less + 0.05);
}

/** The name by which a screen reader knows an element. */
function nameOf(node) {
  const by = node.getAttribute("aria-labelledby");
  if (by) {
    return by.split(" ").map((id) => document.getElementById(id)?.textContent ?? "").join(" ").trim();
  }
  const label = node.getAttribute("aria-label");
  if (label) {
    return label.trim();
  }
  if (node.labels?.length) {
    return [...node.labels].map((one) => one.textContent).join(" ").trim();
  }
  const copy = node.cloneNode(true);
  copy.querySelectorAll("[aria-hidden=true]").forEach((one) => one.remove());
  return node.matches("input, select, textarea") ? "" : copy.textContent.trim();
}

function checkNames() {
  for (const node of all(OPERATED)) {
    const name = nameOf(node);
    if (!name) {
      tell("a control has a name", node);
    }
    const copy = node.cloneNode(true);
    copy.querySelectorAll("[aria-hidden=true]").forEach((one) => one.remove());
    const seen = copy.textContent.trim();
    if (node.matches("button, a") && seen && !name.includes(seen)) {
      tell("the name of a control has the text that it shows", node);
    }
  }
}

function checkReferences() {
  const ids = [...document.querySelectorAll("[id]")].map((node) => node.id);
  ids.filter((id, place) => ids.indexOf(id) !== place).forEach((id) => tell("an id is used once", id));
  for (const name of ["for", "aria-labelledby", "aria-describedby", "aria-controls"]) {
    for (const node of document.querySelectorAll(`[${name}]`)) {
      const missing = node.getAttribute(name).split(" ").filter((id) => !document.getElementById(id));
      missing.forEach((id) => tell(`${name} leads to an element`, node, id));
    }
  }
}

function checkHeadings() {
  const headings = all("h1, h2, h3, h4, h5, h6").map((node) => [Number(node.tagName[1]), node]);
  if (!modal && headings.filter(([level]) => level === 1).length !== 1) {
    tell("there is one heading of level 1", "page");
  }
  headings.reduce((before, [level, node]) => {
    if (level > before + 1) {
      tell("headings leave out no level", node);
    }
    if (!node.textContent.trim()) {
      tell("a heading has a text", node);
    }
    return level;
  }, modal ? 1 : 0);
}

function checkLandmarks() {
  if (!document.documentElement.lang || !document.title.trim()) {
    tell("the page has a language and a title", "page");
  }
  if (modal) {
    return;
  }
  for (const name of ["header", "main"]) {
    if (document.querySelectorAll(`body > ${name}, body > div > ${name}`).length !== 1) {
      tell(`there is one ${name}`, "page");
    }
  }
  for (const node of all("nav, section")) {
    if (!nameOf(node) || (!node.hasAttribute("aria-label") && !node.hasAttribute("aria-labelledby"))) {
      tell("a landmark has a name", node);
    }
  }
  for (const node of all("body > *, .panes > *")) {
    if (!node.matches("header, nav, main, section, .panes, .skip, .unseen, dialog, script")) {
      tell("all stands in a landmark", node);
    }
  }
}

function checkLists() {
  for (const list of all("ul, ol")) {
    [...list.children].filter((child) => child.tagName !== "LI").forEach((child) => tell("a list has items alone", child));
  }
  for (const node of all("[aria-hidden=true]")) {
    if (node.querySelector(OPERATED)) {
      tell("what is hidden from screen readers is not operated", node);
    }
  }
  document.querySelectorAll("[tabindex]").forEach((node) => node.tabIndex > 0 && tell("no tabindex is over 0", node));
  all("img").forEach((node) => node.hasAttribute("alt") || tell("a picture has a text", node));
}

function checkText() {
  const walker = document.createTreeWalker(root, NodeFilter.SHOW_TEXT);
  for (let text = walker.nextNode(); text; text = walker.nextNode()) {
    const node = text.parentElement;
    if (!text.data.trim() || !isShown(node) || isUnseen(node)) {
      continue;
    }
    const style = getComputedStyle(node);
    const size = parseFloat(style.fontSize);
    const isLarge = size >= 24 || (size >= 18.66 && Number(style.fontWeight) >= 700);
    const ground = behind(node);
    const found = contrast(over(colour(style.color), ground), ground);
    if (found < (isLarge ? LEAST_LARGE_TEXT : LEAST_TEXT)) {
      tell("a text has contrast", node, found.toFixed(2));
    }
  }
  for (const node of all("input")) {
    const ground = behind(node);
    const found = contrast(over(colour(getComputedStyle(node, "::placeholder").color), ground), ground);
    if (node.placeholder && found < LEAST_TEXT) {
      tell("a placeholder has contrast", node, found.toFixed(2));
    }
  }
}

function checkControls() {
  for (const node of all("input, select, .CodeMirror")) {
    const found = contrast(colour(getComputedStyle(node).borderTopColor), behind(node.parentElement));
    if (!node.matches("[type=checkbox]") && found < LEAST_EDGE) {
      tell("the edge of a box has contrast", node, found.toFixed(2));
    }
  }
  for (const node of all("button, select, input, a[href]")) {
    const { width, height } = node.getBoundingClientRect();
    const target = node.labels?.[0]?.getBoundingClientRect();
    if (!isUnseen(node) && Math.max(height, target?.height ?? 0) < LEAST_TARGET) {
      tell("a control is large enough", node, `${width}x${height}`);
    } else if (!isUnseen(node) && Math.max(width, target?.width ?? 0) < LEAST_TARGET) {
      tell("a control is wide enough", node, `${width}x${height}`);
    }
  }
}

function checkWidth() {
  const width = document.documentElement.clientWidth;
  if (document.documentElement.scrollWidth > width) {
    tell("nothing is wider than the page", "page", document.documentElement.scrollWidth);
  }
  for (const node of all("*")) {
    const box = node.getBoundingClientRect();
    if (!isUnseen(node) && !node.closest(".CodeMirror") && (box.right > width + 1 || box.left < -1)) {
      tell("nothing stands beside the page", node, `${box.left} to ${box.right}`);
    }
  }
}

[checkNames, checkReferences, checkHeadings, checkLandmarks, checkLists, checkText, checkControls, checkWidth]
  .forEach((check) => check());
return faults;
