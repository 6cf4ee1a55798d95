/** The list of all registered queries. */

import { Newest, Refused, addressOf } from "./api.js";
import { announce, counted, element, find, later } from "./elements.js";

/** @typedef {import("./types.js").Listing} Listing */
/** @typedef {import("./types.js").ListingPage} ListingPage */

const QUIET_MILLISECONDS = 150;
const PAGE = "50";

/** The list, and the box that searches it. */
export class Queries {
  #newest = new Newest();
  #next = "";
  /** @type {string | null} */
  #open = null;
  #isFirstWanted = false;
  #list = find("query-list", HTMLUListElement);
  #search = find("search", HTMLInputElement);

  /** @param {(id: string) => void} opens hears which query is to be opened */
  constructor(opens) {
    this.opens = opens;
    this.#search.addEventListener("input", later(QUIET_MILLISECONDS, () => this.load()));
    this.#search.addEventListener("input", () => {
      this.#isFirstWanted = false;
    });
    this.#search.addEventListener("keydown", (event) => this.#searchKey(event));
    this.#list.addEventListener("keydown", (event) => this.#listKey(event));
    find("more-queries", HTMLButtonElement).addEventListener("click", () => this.#more());
  }

  /** Puts the keyboard into the search. */
  focus() {
    this.#search.focus();
    this.#search.select();
  }

  /** Loads the list from its beginning. */
  async load() {
    await this.#page("", (rows) => this.#put(rows));
  }

  /**
   * Shows a list in the place of the one before. The keyboard stays at its query, or goes to the first where that one
   * is gone; the first is opened where that was asked for meanwhile.
   * @param {Node[]} rows
   */
  #put(rows) {
    const active = document.activeElement;
    const id = active instanceof HTMLElement && this.#list.contains(active) ? active.dataset.id : undefined;
    this.#list.replaceChildren(...rows);
    const buttons = [...this.#list.querySelectorAll("button")];
    if (id !== undefined) {
      (buttons.find((button) => button.dataset.id === id) ?? buttons[0] ?? this.#search).focus();
    }
    if (this.#isFirstWanted) {
      this.#isFirstWanted = false;
      buttons[0]?.click();
    }
  }

  /** Loads the list anew, unless someone goes through it. */
  async refresh() {
    const isGoneThrough = this.#list.contains(document.activeElement) || this.#list.children.length > Number(PAGE);
    if (!isGoneThrough) {
      await this.load();
    }
  }

  /** Loads the next page, and goes on at its first query. */
  async #more() {
    const before = this.#list.children.length;
    await this.#page(this.#next, (rows) => this.#list.append(...rows));
    const first = this.#list.children[before]?.querySelector("button");
    first?.focus();
  }

  /**
   * Loads a page.
   * @param {string} after the id behind which it begins
   * @param {(rows: Node[]) => void} put
   */
  async #page(after, put) {
    const search = this.#search.value.trim();
    const parameters = { limit: PAGE, ...(after ? { after } : {}), ...(search ? { search } : {}) };
    try {
      /** @type {ListingPage | undefined} */
      const page = await this.#newest.ask("GET", addressOf("queries", parameters));
      if (page) {
        put(page.queries.map((listing) => this.#row(listing)));
        this.#next = page.next ?? "";
        this.#tell(page.count, search);
      }
    } catch (error) {
      if (!(error instanceof Refused)) {
        throw error;
      }
      this.#say(error.message);
    }
  }

  /**
   * Shows how many there are.
   * @param {number} count of all
   * @param {string} search
   */
  #tell(count, search) {
    const shown = this.#list.children.length;
    find("query-count", HTMLElement).textContent = count.toLocaleString("en");
    find("more-queries", HTMLButtonElement).hidden = this.#next === "";
    if (shown > 0) {
      this.#say("");
    } else {
      this.#say(count === 0 ? "None yet. Write one, give it a name, and save it." : `None has “${search}”.`);
    }
    if (search) {
      announce(`${counted(shown, "query", "queries")}${this.#next ? " and more" : ""} found`);
    }
  }

  /**
   * Says why the list is empty.
   * @param {string} says
   */
  #say(says) {
    const line = find("no-queries", HTMLElement);
    line.hidden = says === "";
    line.textContent = says;
  }

  /**
   * What shows a query.
   * @param {Listing} listing
   * @returns {HTMLElement}
   */
  #row({ id, query }) {
    const button = element("button", { type: "button", "data-id": id, onclick: () => this.opens(id) },
      element("span", { class: "name", dir: "auto" }, id), element("span", { class: "code", dir: "auto" }, query));
    if (id === this.#open) {
      button.setAttribute("aria-current", "true");
    }
    return element("li", {}, button);
  }

  /**
   * Shows which query is open.
   * @param {string | null} id
   */
  mark(id) {
    this.#open = id;
    for (const button of this.#list.querySelectorAll("button")) {
      if (button.dataset.id === id) {
        button.setAttribute("aria-current", "true");
      } else {
        button.removeAttribute("aria-current");
      }
    }
  }

  /**
   * Goes from the search down into the list, or opens the first that it finds.
   * @param {KeyboardEvent} event
   */
  #searchKey(event) {
    if (event.key === "ArrowDown") {
      event.preventDefault();
      this.#list.querySelector("button")?.focus();
    } else if (event.key === "Enter") {
      this.#isFirstWanted = true;
      this.load();
    }
  }

  /**
   * Goes up and down the list.
   * @param {KeyboardEvent} event
   */
  #listKey(event) {
    if (event.key !== "ArrowDown" && event.key !== "ArrowUp") {
      return;
    }
    event.preventDefault();
    const row = document.activeElement?.closest("li");
    const next = event.key === "ArrowDown" ? row?.nextElementSibling : row?.previousElementSibling;
    if (next) {
      next.querySelector("button")?.focus();
    } else if (event.key === "ArrowUp") {
      this.focus();
    }
  }
}
