/** The alerts, as they come in. */

import { announce, counted, element, find, later, markedNodes } from "./elements.js";

/** @typedef {import("./types.js").Alert} Alert */
/** @typedef {import("./types.js").Marked} Marked */

const MOST_SHOWN = 100;
const MOST_QUERIES = 5;
const SHOWN_EVERY = 250;
const SPOKEN_AFTER = 2_000;
const TIME = new Intl.DateTimeFormat(undefined, { hour: "2-digit", minute: "2-digit" });

/** The list of alerts, newest first. */
export class Alerts {
  /** @type {(Alert | null)[]} */
  #waiting = [];
  #isPaused = false;
  #heldBack = 0;
  #unspoken = 0;
  #timer = 0;
  #list = find("alert-list", HTMLOListElement);
  #pause = find("pause", HTMLButtonElement);
  #more = find("held-back", HTMLButtonElement);
  #speak = later(SPOKEN_AFTER, () => this.#say());

  /**
   * @param {(query: string, article: string) => void} opens hears which query is to be opened with which article
   * @param {(count: number) => void} came hears how many came
   */
  constructor(opens, came) {
    this.opens = opens;
    this.came = came;
    this.#pause.addEventListener("click", () => this.toggle());
    this.#more.addEventListener("click", () => this.toggle());
  }

  /** Puts the keyboard to the newest alert. */
  focus() {
    (this.#list.querySelector("button") ?? find("alerts", HTMLElement)).focus();
  }

  /** Holds back what comes, or shows it again. */
  toggle() {
    this.#isPaused = !this.#isPaused;
    this.#pause.setAttribute("aria-pressed", String(this.#isPaused));
    this.#pause.firstChild?.replaceWith(this.#isPaused ? "Go on " : "Pause ");
    announce(this.#isPaused ? "Alerts are held back." : "Alerts are shown as they come.");
    this.#heldBack = 0;
    this.#show();
  }

  /**
   * Takes an alert; null where some were left out.
   * @param {Alert | null} alert
   */
  take(alert) {
    this.#waiting.push(alert && { at: Date.now() / 1000, ...alert });
    if (this.#waiting.length > MOST_SHOWN) {
      this.#waiting.shift();
    }
    if (alert) {
      this.#heldBack += 1;
      this.#unspoken += 1;
    }
    this.#timer ||= setTimeout(() => this.#show(), SHOWN_EVERY);
  }

  /** Shows what waits, unless it is held back. */
  #show() {
    clearTimeout(this.#timer);
    this.#timer = 0;
    this.#more.hidden = !this.#isPaused || this.#heldBack === 0;
    this.#more.textContent = `Show ${counted(this.#heldBack, "new alert")}`;
    if (this.#isPaused) {
      return;
    }
    const nodes = this.#waiting.map((alert) => (alert ? this.#node(alert) : gapNode()));
    this.#waiting = [];
    this.#list.prepend(...nodes.reverse());
    while (this.#list.children.length > MOST_SHOWN) {
      this.#list.lastElementChild?.remove();
    }
    find("no-alerts", HTMLElement).hidden = this.#list.children.length > 0;
    if (this.#heldBack > 0) {
      this.came(this.#heldBack);
      this.#speak();
    }
    this.#heldBack = 0;
  }

  /** Has a screen reader say how many came. */
  #say() {
    announce(counted(this.#unspoken, "new alert"));
    this.#unspoken = 0;
  }

  /**
   * What shows an alert.
   * @param {Alert} alert
   * @returns {HTMLElement}
   */
  #node({ article, queries, title, at = 0, excerpts = [] }) {
    const when = new Date(at * 1000);
    const shown = queries.slice(0, MOST_QUERIES);
    const rest = queries.length - shown.length;
    return element("li", {},
      element("p", { class: "from" },
        element("span", { class: "headline", dir: "auto" }, title || titleIn(excerpts) || article),
        element("time", { datetime: when.toISOString() }, TIME.format(when))),
      ...shown.map((query) => this.#queryNode(query, article, excerpts.filter((one) => one.query === query))),
      ...(rest > 0 ? [element("p", { class: "quiet" }, `and ${counted(rest, "more query", "more queries")}`)] : []));
  }

  /**
   * What shows that a query holds of an article.
   * @param {string} query
   * @param {string} article
   * @param {Marked[]} excerpts
   * @returns {HTMLElement}
   */
  #queryNode(query, article, excerpts) {
    const button = element("button", {
      type: "button", class: "chip", "aria-label": `Open ${query} with this article`,
      onclick: () => this.opens(query, article),
    }, query);
    const texts = excerpts.map(({ field, pieces }) =>
      element("p", { class: "excerpt", dir: "auto", "data-field": field }, ...markedNodes(pieces)));
    return element("div", { class: "of-query" }, button, ...texts);
  }
}

/**
 * The title, where a query holds in it.
 * @param {Marked[]} excerpts
 * @returns {string | undefined}
 */
function titleIn(excerpts) {
  return excerpts.find(({ field }) => field === "title")?.pieces.join("");
}

/**
 * What shows that alerts were left out.
 * @returns {HTMLElement}
 */
function gapNode() {
  return element("li", { class: "gap" }, "Some alerts before this were not heard here.");
}
