/** Puts the parts of the page together. */

import { AlertStream } from "./events.js";
import { Alerts } from "./alerts.js";
import { Box } from "./box.js";
import { Dialect } from "./dialect.js";
import { Draft } from "./draft.js";
import { find } from "./elements.js";
import { Keys } from "./keys.js";
import { Panes } from "./panes.js";
import { Queries } from "./queries.js";
import { Reading } from "./reading.js";
import { Standing } from "./standing.js";
import { queryMode } from "./syntax.js";
import { askToken } from "./token.js";
import { Trying } from "./trying.js";

/**
 * The box in which the query is written.
 * @returns {Box}
 */
function queryBox() {
  const { CodeMirror } = /** @type {any} */ (window);
  CodeMirror.defineMode("pressclip", queryMode);
  return new Box(find("query-box", HTMLElement), {
    label: "Query", placeholder: "Write a query, as: +tea +price*", mode: "pressclip", describedBy: "sentence fault",
  });
}

/** The parts of the page, which hear of each other here. */
class Page {
  #panes = new Panes();
  #box = queryBox();
  /** @type {Dialect} */
  #dialect = new Dialect(this.#box, () => this.#reading.hear());
  #trying = new Trying(this.#box, this.#dialect);
  /** @type {Reading} */
  #reading = new Reading(this.#box, this.#dialect, (fields, isReadable) => this.#trying.hear(fields, isReadable));
  #queries = new Queries((id) => this.#open(id));
  #draft = new Draft(this.#box, this.#dialect, (id) => this.#queries.mark(id), () => this.#queries.load());
  #alerts = new Alerts((query, article) => this.#open(query, article), (count) => this.#panes.came(count));
  #standing = new Standing(() => this.#queries.refresh());
  #stream = new AlertStream({
    alert: (alert) => this.#alerts.take(alert),
    gap: () => this.#alerts.take(null),
    state: (state, why) => this.#standing.hear(state, why),
  });

  /** Begins to show and to hear. */
  start() {
    const begin = this.#goTo("write", () => this.#draft.begin());
    find("new-query", HTMLButtonElement).addEventListener("click", begin);
    find("sign-in", HTMLButtonElement).addEventListener("click", () => this.#signIn());
    new Keys([
      { key: "n", says: "begin a new query", act: begin },
      { key: "e", says: "go to the query's box", act: this.#goTo("write", () => this.#box.focus()) },
      { key: "t", says: "go to the article's text", act: this.#goTo("write", () => this.#trying.focus()) },
      { key: "/", says: "search the queries", act: this.#goTo("queries", () => this.#queries.focus()) },
      { key: "a", says: "go to the alerts", act: this.#goTo("alerts", () => this.#alerts.focus()) },
      { key: "p", says: "hold alerts back, or go on", act: () => this.#alerts.toggle() },
    ], { save: () => this.#draft.save(), next: () => this.#reading.next() });
    this.#dialect.load();
    this.#load();
    this.#standing.run();
    this.#stream.run();
  }

  /** Loads what is registered, and what came last. */
  #load() {
    this.#queries.load();
    this.#trying.load();
  }

  /** Asks for a token, and tries again with it. */
  async #signIn() {
    if (await askToken(true)) {
      this.#stream.retry();
      this.#load();
    }
  }

  /**
   * What goes to a part and does something there.
   * @param {import("./panes.js").Pane} pane
   * @param {() => void} act
   * @returns {() => void}
   */
  #goTo(pane, act) {
    return () => {
      this.#panes.show(pane);
      act();
    };
  }

  /**
   * Opens a query, with one of the last articles or without.
   * @param {string} id
   * @param {string} [article]
   */
  async #open(id, article) {
    if (await this.#draft.open(id)) {
      this.#panes.show("write");
      this.#box.focus();
      if (article !== undefined) {
        await this.#trying.open(article);
      }
    }
  }
}

if ("CodeMirror" in window) {
  new Page().start();
} else {
  const fault = find("fault", HTMLElement);
  fault.hidden = false;
  fault.textContent = "The service has no box to write in: its machine lacks the package libjs-codemirror.";
}
