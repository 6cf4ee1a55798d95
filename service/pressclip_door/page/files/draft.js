/** The query that is written: a new one, or one that is registered and was opened. */

import { Refused, addressOfQuery, call } from "./api.js";
import { announce, find } from "./elements.js";
import { asksFor } from "./question.js";

/** @typedef {import("./types.js").Listing} Listing */

const NEW_HEADING = "New query";
const NEW_NOTE = "Which articles do you want to hear of?";

/** What is in the query's box, and the form that saves it. */
export class Draft {
  /** @type {Listing | null} */
  #opened = null;
  #id = find("query-id", HTMLInputElement);
  #said = find("said", HTMLElement);

  /**
   * @param {import("./box.js").Box} box
   * @param {import("./dialect.js").Dialect} dialect
   * @param {(id: string | null) => void} changed hears which query is open now
   * @param {() => void} saved hears that the registered queries are others now
   */
  constructor(box, dialect, changed, saved) {
    this.box = box;
    this.dialect = dialect;
    this.changed = changed;
    this.saved = saved;
    find("save", HTMLFormElement).addEventListener("submit", (event) => {
      event.preventDefault();
      this.save();
    });
    find("delete-query", HTMLButtonElement).addEventListener("click", () => this.remove());
    this.#id.addEventListener("input", () => this.#say(""));
    box.onChange(() => {
      this.#say("");
      this.#note();
    });
    window.addEventListener("beforeunload", (event) => {
      if (this.#isUnsaved) {
        event.preventDefault();
      }
    });
  }

  /** Whether leaving it would lose what was written. */
  get #isUnsaved() {
    const text = this.box.text;
    return this.#opened ? text !== this.#opened.query : text.trim() !== "";
  }

  /** Asks whether what is not saved may go. */
  async #mayGo() {
    return !this.#isUnsaved || asksFor("Leave without saving?", "What you changed in this query is lost.", "Leave it");
  }

  /** Begins a new query. */
  async begin() {
    if (await this.#mayGo()) {
      this.#show(null);
      this.box.focus();
    }
  }

  /**
   * Opens a registered query. One that is open and was changed here stays as it is.
   * @param {string} id
   * @returns {Promise<boolean>} whether it is open now
   */
  async open(id) {
    if (this.#opened?.id === id && this.#isUnsaved) {
      return true;
    }
    if (!(await this.#mayGo())) {
      return false;
    }
    return this.#trying(async () => {
      this.#show(await call("GET", addressOfQuery(id)));
    });
  }

  /**
   * Shows a query in the box and in the form.
   * @param {Listing | null} listing null for a new one
   */
  #show(listing) {
    this.#opened = listing;
    if (listing) {
      this.dialect.takeOwn();
    }
    this.box.text = listing?.query ?? "";
    this.#head();
    this.#id.value = listing?.id ?? "";
    this.#say("");
  }

  /** Shows which query is open. */
  #head() {
    const id = this.#opened?.id ?? null;
    find("write-heading", HTMLElement).textContent = id ?? NEW_HEADING;
    find("delete-query", HTMLButtonElement).hidden = id === null;
    this.#note();
    this.changed(id);
  }

  /** Shows whether it is saved. */
  #note() {
    const saved = this.#isUnsaved ? "Changed, and not saved yet" : "Saved";
    find("write-note", HTMLElement).textContent = this.#opened === null ? NEW_NOTE : saved;
  }

  /** Saves the query under the name in the form. */
  async save() {
    const id = this.#id.value.trim();
    const query = this.box.text;
    if (query.trim() === "") {
      this.#refuse("Write a query first.", () => this.box.focus());
    } else if (id === "") {
      this.#refuse("Give it a name first.", () => this.#id.focus());
    } else {
      await this.#trying(async () => {
        if (await this.#mayReplace(id, query)) {
          await this.#put(id, query);
        }
      });
    }
  }

  /**
   * Registers the query, and says so.
   * @param {string} id
   * @param {string} query
   */
  async #put(id, query) {
    const listener = this.#opened?.id === id ? this.#opened.listener : undefined;
    await call("PUT", addressOfQuery(id, this.dialect.parameters), { query, ...(listener ? { listener } : {}) });
    this.#opened = { id, query, listener };
    this.#head();
    this.#id.value = id;
    this.#say("Saved. Alerts begin with the next article.");
    this.saved();
  }

  /**
   * Whether nothing is lost by saving, or what is lost may go: another query under this name.
   * @param {string} id
   * @param {string} query
   * @returns {Promise<boolean>}
   */
  async #mayReplace(id, query) {
    const there = await registered(id);
    const known = this.#opened?.id === id ? this.#opened : null;
    if (there === null || there.query === query || there.query === known?.query) {
      return true;
    }
    const heading = known ? `Someone changed ${id} meanwhile` : `There is a query ${id} already`;
    return asksFor(heading, `It is: ${there.query}`, "Replace it");
  }

  /** Deletes the query that is open, once that is confirmed. */
  async remove() {
    const opened = this.#opened;
    if (!opened || !(await asksFor(`Delete ${opened.id}?`, "Its alerts end with the next article.", "Delete it"))) {
      return;
    }
    await this.#trying(async () => {
      await call("DELETE", addressOfQuery(opened.id));
      this.#show(null);
      this.#say(`Deleted ${opened.id}.`);
      this.box.focus();
      this.saved();
    });
  }

  /**
   * Does something, and says why where it is refused.
   * @param {() => Promise<void>} act
   * @returns {Promise<boolean>} whether it was done
   */
  async #trying(act) {
    try {
      await act();
      return true;
    } catch (error) {
      if (!(error instanceof Refused)) {
        throw error;
      }
      this.#say(error.message, true);
      return false;
    }
  }

  /**
   * Says what is missing, and goes there.
   * @param {string} says
   * @param {() => void} go
   */
  #refuse(says, go) {
    go();
    this.#say(says, true);
  }

  /**
   * Says something beside the form.
   * @param {string} says
   * @param {boolean} [isBad]
   */
  #say(says, isBad = false) {
    this.#said.textContent = says;
    this.#said.classList.toggle("bad", isBad);
  }
}

/**
 * The query that is registered under an id; null where none is.
 * @param {string} id
 * @returns {Promise<Listing | null>}
 */
async function registered(id) {
  try {
    return await call("GET", addressOfQuery(id));
  } catch (error) {
    if (error instanceof Refused && error.status === 404) {
      return null;
    }
    throw error;
  }
}
