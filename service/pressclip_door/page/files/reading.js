/** Shows how the query in the box is read. */

import { Newest, addressOf } from "./api.js";
import { announce, counted, element, find, later } from "./elements.js";
import { ByteIndex, endOfPart } from "./places.js";
import { fieldsOf, treeNodes } from "./tree.js";

/** @typedef {import("./types.js").Explained} Explained */
/** @typedef {import("./types.js").Meaning} Meaning */
/** @typedef {import("./types.js").Remark} Remark */
/** @typedef {import("./box.js").Place} Place */

const QUIET_MILLISECONDS = 120;
const SPOKEN_AFTER_MILLISECONDS = 900;
const REMARKS_SHOWN = 5;
const MOST_REMARKS = 200;
const MOST_SENTENCE = 1_500;
const LEVELS = { warning: "Warning", notice: "Note", hint: "Hint" };
const EXAMPLES = {
  classic: [
    ["tea coffee", "one of the two words"],
    ["+tea +price*", "both; the second with any ending"],
    ['"green tea" -spam', "these words together, and not the other"],
    ["title:merger", "only in the title"],
    ["(tea OR coffee) AND harvest", "groups"],
  ],
  press: [
    ["Tesla NEAR/5 recall*", "at most five words on; any ending"],
    ['"green tea" NOT spam', "these words together, and not the other"],
    ["(CEO OR director) /s Musk", "in one sentence"],
    ["2 of (strike, layoffs, closure)", "two of them"],
    ["exact:Orange", "as it is written, with capitals"],
  ],
};

/** What is below the query's box. */
export class Reading {
  #newest = new Newest();
  #speak = later(SPOKEN_AFTER_MILLISECONDS, () => announce(this.#spoken));
  #spoken = "";
  #areAllShown = false;
  /** @type {Place[]} */
  #places = [];
  #atPlace = -1;
  #bytes = new ByteIndex("");
  /** @type {Remark[]} */
  #remarks = [];

  /**
   * @param {import("./box.js").Box} box
   * @param {import("./dialect.js").Dialect} dialect
   * @param {(fields: string[], isReadable: boolean) => void} heard hears which fields the query names
   */
  constructor(box, dialect, heard) {
    this.box = box;
    this.dialect = dialect;
    this.heard = heard;
    box.onChange(later(QUIET_MILLISECONDS, () => this.#ask()));
    find("more-remarks", HTMLButtonElement).addEventListener("click", () => {
      this.#areAllShown = true;
      this.#showRemarks();
    });
    this.#showExamples();
  }

  /** Reads the query anew, in the dialect that it has now. */
  hear() {
    this.#showExamples();
    this.#ask();
  }

  /** Shows examples while the box is empty. */
  #showExamples() {
    const rows = EXAMPLES[this.dialect.chosen].map(([text, says]) => element("li", {},
      element("button", { type: "button", onclick: () => this.#take(text) }, text),
      element("span", { class: "quiet" }, says)));
    find("examples", HTMLElement).replaceChildren(element("ul", { "aria-label": "Examples" }, ...rows));
  }

  /**
   * Puts an example into the box.
   * @param {string} text
   */
  #take(text) {
    this.box.text = text;
    this.box.focus();
  }

  /** Asks how the text is read, and shows it. */
  async #ask() {
    const text = this.box.text;
    if (text.trim() === "") {
      this.#newest.stop();
      this.#show(text, null);
      return;
    }
    try {
      const explained = await this.#newest.ask("POST", addressOf("explain", this.dialect.parameters), { query: text });
      if (explained) {
        this.#show(text, explained);
      }
    } catch (error) {
      this.#show("", null);
      this.#showFault(error instanceof Error ? error.message : String(error));
    }
  }

  /**
   * Shows how a text is read; null for an empty one.
   * @param {string} text
   * @param {Explained | null} explained
   */
  #show(text, explained) {
    find("examples", HTMLElement).hidden = explained !== null;
    this.#remarks = [];
    this.#areAllShown = false;
    this.#bytes = new ByteIndex(text);
    const isFault = explained !== null && "fault" in explained;
    if (isFault) {
      this.#showFault(explained.says);
      this.#places = [this.#placeOf(explained.at, "at-fault", explained.says)];
    } else {
      this.#showMeaning(explained);
      this.#remarks = (explained?.remarks ?? []).slice().sort(byLevel).slice(0, MOST_REMARKS);
      this.#places = this.#remarks.filter(hasPlace).map((remark) =>
        this.#placeOf(remark.at, `at-${remark.level}`, remark.says));
    }
    this.#showRemarks();
    this.box.mark(this.#places.slice().reverse());
    this.#atPlace = -1;
    this.box.setValid(!isFault);
    this.heard(explained && !isFault ? namedIn(explained) : [], explained !== null && !isFault);
  }

  /**
   * Shows the sentence, the flags and the tree.
   * @param {Meaning | null} meaning
   */
  #showMeaning(meaning) {
    const [fault, sentence, tree] = ["fault", "sentence", "tree"].map((id) => find(id, HTMLElement));
    fault.hidden = true;
    sentence.hidden = meaning === null;
    tree.hidden = !meaning?.tree;
    const says = meaning?.says ?? "";
    sentence.textContent = says.length > MOST_SENTENCE ? `${says.slice(0, MOST_SENTENCE)} …` : says;
    tree.replaceChildren(...(meaning?.tree ? treeNodes(meaning.tree) : []));
    const flags = meaning ? flagsOf(meaning) : [];
    const list = find("flags", HTMLElement);
    list.hidden = flags.length === 0;
    list.replaceChildren(...flags.map(([kind, says]) => element("li", { class: kind }, says)));
    this.#say([sentence.textContent, ...flags.map(([, says]) => says)].join(" "));
  }

  /**
   * Shows why the text can't be read.
   * @param {string} says
   */
  #showFault(says) {
    for (const id of ["sentence", "tree", "flags", "examples"]) {
      find(id, HTMLElement).hidden = true;
    }
    const fault = find("fault", HTMLElement);
    fault.hidden = false;
    fault.textContent = says;
    this.#say(says);
  }

  /**
   * Has a screen reader say it, once nothing more is typed.
   * @param {string} says
   */
  #say(says) {
    this.#spoken = says;
    this.#speak();
  }

  /** Shows the remarks, the first of them where there are many. */
  #showRemarks() {
    const shown = this.#areAllShown ? this.#remarks : this.#remarks.slice(0, REMARKS_SHOWN);
    const list = find("remarks", HTMLElement);
    list.hidden = shown.length === 0;
    list.replaceChildren(...shown.map((remark) => this.#remarkNode(remark)));
    const more = find("more-remarks", HTMLButtonElement);
    more.hidden = shown.length === this.#remarks.length;
    more.textContent = `Show ${counted(this.#remarks.length - shown.length, "more remark")}`;
  }

  /**
   * What shows a remark.
   * @param {Remark} remark
   * @returns {HTMLElement}
   */
  #remarkNode(remark) {
    const place = this.#placeOf(remark.at, "", "");
    const part = this.#bytes.text.slice(place.from, place.to);
    const lead = hasPlace(remark) && part
      ? [element("button", { type: "button", class: "part", onclick: () => this.box.select(place) }, part), " "]
      : [];
    return element("li", { class: remark.level },
      element("span", { class: "level" }, LEVELS[remark.level]), element("span", {}, ...lead, remark.says));
  }

  /**
   * The place that is spoken of by the byte at which it begins.
   * @param {number} at
   * @param {string} kind
   * @param {string} says
   * @returns {Place}
   */
  #placeOf(at, kind, says) {
    const from = this.#bytes.of(at);
    return { from, to: endOfPart(this.#bytes.text, from), kind, says };
  }

  /** Puts the cursor at the next place that is marked. */
  next() {
    if (this.#places.length > 0) {
      this.#atPlace = (this.#atPlace + 1) % this.#places.length;
      this.box.select(this.#places[this.#atPlace]);
      announce(this.#places[this.#atPlace].says ?? "");
    }
  }
}

/**
 * The fields that a query names.
 * @param {Meaning} meaning
 * @returns {string[]}
 */
function namedIn(meaning) {
  return meaning.tree ? fieldsOf(meaning.tree) : meaning.fields ?? [];
}

/**
 * Whether a remark holds of a place, and not of the text as a whole.
 * @param {Remark} remark
 * @returns {boolean}
 */
function hasPlace(remark) {
  return remark.level !== "hint" || remark.at > 0;
}

/**
 * The order in which remarks are shown: what matters most comes first.
 * @param {Remark} one
 * @param {Remark} other
 * @returns {number}
 */
function byLevel(one, other) {
  const order = Object.keys(LEVELS);
  return order.indexOf(one.level) - order.indexOf(other.level) || one.at - other.at;
}

/**
 * What is worth to know before the query is saved.
 * @param {Meaning} meaning
 * @returns {[string, string][]}
 */
function flagsOf(meaning) {
  /** @type {[string, string][]} */
  const flags = [];
  if (meaning.never) {
    flags.push(["bad", "No article can hold it."]);
  } else if (meaning.always) {
    flags.push(["warn", "Every article holds it."]);
  }
  if (meaning.tried_on_all && !meaning.never) {
    flags.push(["warn", "Tried on every article: no word narrows it, so it costs time at each one."]);
  }
  return flags;
}
