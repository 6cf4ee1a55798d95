/** How the service stands: whether alerts are heard, whether the engine answers, and whether queries changed. */

import { Refused, addressOf, call } from "./api.js";
import { find } from "./elements.js";

const EVERY = 10_000;
const WORDS = { live: "Live", waiting: "Reconnecting", locked: "A token is needed" };

/** The line in the head of the page. */
export class Standing {
  /** @type {"live" | "waiting" | "locked"} */
  #stream = "waiting";
  #isReady = true;
  #changes = -1;

  /** @param {() => void} changed hears that queries were registered or deleted, here or elsewhere */
  constructor(changed) {
    this.changed = changed;
  }

  /** Looks now and then, for as long as the page is there. */
  async run() {
    for (;;) {
      if (!document.hidden) {
        await this.look();
      }
      await new Promise((resolve) => {
        setTimeout(resolve, EVERY);
      });
    }
  }

  /** Looks how the service stands. */
  async look() {
    try {
      const said = await call("GET", addressOf("readyz"));
      this.#isReady = said.is_ready;
      if (this.#changes !== said.changes && this.#changes >= 0) {
        this.changed();
      }
      this.#changes = said.changes;
    } catch (error) {
      if (!(error instanceof Refused)) {
        throw error;
      }
      this.#isReady = error.status === 401 || error.status === 403;
    }
    this.#show();
  }

  /**
   * Hears how the stream of alerts stands.
   * @param {"live" | "waiting" | "locked"} state
   * @param {string} [why]
   */
  hear(state, why) {
    this.#stream = state;
    find("status", HTMLElement).title = why ?? "";
    this.#show();
  }

  /** Shows it. */
  #show() {
    const isStarting = this.#stream === "live" && !this.#isReady;
    const state = isStarting ? "waiting" : this.#stream;
    find("status", HTMLElement).dataset.state = state;
    find("status-text", HTMLElement).textContent = isStarting ? "The engine starts" : WORDS[state];
    find("sign-in", HTMLButtonElement).hidden = state !== "locked";
  }
}
