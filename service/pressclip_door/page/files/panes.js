/** The three parts of the page, of which a narrow screen shows one at a time. */

import { find } from "./elements.js";

/** @typedef {"queries" | "write" | "alerts"} Pane */

/** Which part is shown. */
export class Panes {
  #unseen = 0;
  #count = find("unseen", HTMLElement);
  #tabs = Array.from(/** @type {NodeListOf<HTMLElement>} */ (document.querySelectorAll(".tab")));

  constructor() {
    for (const tab of this.#tabs) {
      tab.addEventListener("click", () => this.show(/** @type {Pane} */ (tab.dataset.shows)));
    }
  }

  /**
   * Shows a part; where all are shown nothing changes.
   * @param {Pane} pane
   */
  show(pane) {
    document.body.dataset.pane = pane;
    for (const tab of this.#tabs) {
      if (tab.dataset.shows === pane) {
        tab.setAttribute("aria-current", "true");
      } else {
        tab.removeAttribute("aria-current");
      }
    }
    if (pane === "alerts") {
      this.#unseen = 0;
      this.#count.hidden = true;
    }
    window.dispatchEvent(new Event("resize"));
  }

  /**
   * Counts alerts that came while another part is shown.
   * @param {number} count
   */
  came(count) {
    if (document.body.dataset.pane !== "alerts") {
      this.#unseen += count;
      this.#count.textContent = this.#unseen.toLocaleString("en");
      this.#count.hidden = false;
    }
  }
}
