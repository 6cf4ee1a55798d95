/** In which dialect the query in the box is written. */

import { Refused, addressOf, call } from "./api.js";
import { find } from "./elements.js";

/** @typedef {"classic" | "press"} Name */

/** @type {Record<Name, string>} */
const PLACEHOLDERS = {
  classic: "Write a query, as: +tea +price*",
  press: "Write a query, as: tea NEAR/5 price*",
};

/** The service's own dialect, and the choice of another for reading and trying. */
export class Dialect {
  /** @type {Name} */
  #own = "classic";
  #select = find("dialect", HTMLSelectElement);

  /**
   * @param {import("./box.js").Box} box the query's box
   * @param {() => void} changed hears that the query is in another dialect now
   */
  constructor(box, changed) {
    this.box = box;
    this.changed = changed;
    this.#select.addEventListener("change", () => this.#show());
  }

  /** Asks which dialects the service has. Where it does not say so, all is in its own. */
  async load() {
    try {
      const { dialects } = await call("GET", addressOf("healthz"));
      this.#own = dialects[0];
      find("dialect-choice", HTMLElement).hidden = dialects.length < 2;
      this.takeOwn();
    } catch (error) {
      if (!(error instanceof Refused)) {
        throw error;
      }
    }
  }

  /**
   * The dialect of the query.
   * @returns {Name}
   */
  get chosen() {
    return /** @type {Name} */ (this.#select.value);
  }

  /**
   * What an address says of it.
   * @returns {Record<string, string>} nothing where it is the service's own
   */
  get parameters() {
    return this.chosen === this.#own ? {} : { dialect: this.chosen };
  }

  /** Goes back to the service's own, in which all saved queries are. */
  takeOwn() {
    this.#select.value = this.#own;
    this.#show();
  }

  /** Shows which it is. */
  #show() {
    this.box.placeholder = PLACEHOLDERS[this.chosen];
    this.changed();
  }
}
