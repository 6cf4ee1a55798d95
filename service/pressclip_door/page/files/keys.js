/** Keys for all that is done often. */

import { element, find } from "./elements.js";

/**
 * @typedef {object} Key
 * @property {string} key as `KeyboardEvent.key` has it
 * @property {string} says what it does
 * @property {() => void} act
 */

const KEY = "pressclip-single-keys";
const FIXED = [
  [["Ctrl", "S"], "save the query"],
  [["F8"], "go to the next place that a remark is on"],
  [["Esc"], "leave a box"],
  [["↑", "↓"], "go through the list of queries"],
];

/**
 * Whether what is typed now goes into a box.
 * @param {Element | null} target
 * @returns {boolean}
 */
function isBox(target) {
  return target instanceof HTMLElement
    && (target.isContentEditable || target.matches("input:not([type=checkbox]), textarea, select"));
}

/** Which key does what. */
export class Keys {
  #dialog = find("keys", HTMLDialogElement);
  #single = find("single-keys", HTMLInputElement);

  /**
   * @param {Key[]} keys those that work by themselves, outside of boxes
   * @param {{save: () => void, next: () => void}} everywhere those that work in boxes too
   */
  constructor(keys, everywhere) {
    this.keys = [...keys, { key: "?", says: "show this list", act: () => this.show() }];
    this.everywhere = everywhere;
    this.#single.checked = localStorage.getItem(KEY) !== "off";
    this.#single.addEventListener("change", () => {
      localStorage.setItem(KEY, this.#single.checked ? "on" : "off");
    });
    const rows = [...FIXED, ...this.keys.map(({ key, says }) => [[key.toUpperCase()], says])];
    find("key-list", HTMLElement).append(...rows.flatMap(([names, says]) => [
      element("dt", {}, ...[...names].map((name) => element("kbd", {}, name))), element("dd", {}, String(says))]));
    find("show-keys", HTMLButtonElement).addEventListener("click", () => this.show());
    document.addEventListener("keydown", (event) => this.#press(event));
  }

  /** Shows the list of keys. */
  show() {
    this.#dialog.showModal();
  }

  /**
   * Does what a key is for.
   * @param {KeyboardEvent} event
   */
  #press(event) {
    const isCommand = (event.ctrlKey || event.metaKey) && !event.altKey && event.key.toLowerCase() === "s";
    if (isCommand) {
      event.preventDefault();
    }
    if (document.querySelector("dialog[open]")) {
      return;
    }
    if (isCommand || event.key === "F8") {
      event.preventDefault();
      (isCommand ? this.everywhere.save : this.everywhere.next)();
    } else if (event.key === "Escape" && isBox(document.activeElement)) {
      /** @type {HTMLElement} */ (document.activeElement).blur();
    } else if (!event.ctrlKey && !event.metaKey && !event.altKey && !isBox(document.activeElement)) {
      this.#pressSingle(event);
    }
  }

  /**
   * Does what a key by itself is for, where such keys work.
   * @param {KeyboardEvent} event
   */
  #pressSingle(event) {
    const found = this.keys.find(({ key }) => key === event.key.toLowerCase());
    if (found && this.#single.checked) {
      event.preventDefault();
      found.act();
    }
  }
}
