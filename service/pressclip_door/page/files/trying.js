/** Tries the query in the box on an article, without saving it. */

import { Newest, Refused, addressOf } from "./api.js";
import { Box } from "./box.js";
import { announce, counted, element, find, later } from "./elements.js";
import { spansOf } from "./places.js";

/** @typedef {import("./types.js").Article} Article */
/** @typedef {import("./types.js").Trial} Trial */
/** @typedef {import("./types.js").Marked} Marked */

const QUIET_MILLISECONDS = 250;
const LAST_ARTICLES = "20";
const MOST_LABEL = 70;
const MOST_FIELDS = 16;
const MOST_WORDS_NAMED = 8;
const MOST_MARKED = 1_000;
const USUAL_FIELDS = ["title", "text"];
/** @type {Record<string, string>} */
const PLACEHOLDERS = { title: "A headline", text: "Paste an article here, or pick one of the last" };

/**
 * By what an article is known in the list.
 * @param {Article} article
 * @returns {string}
 */
function labelOf({ id, fields }) {
  const says = (fields.title || fields.text || Object.values(fields)[0] || id).replaceAll(/\s+/gu, " ").trim();
  return says.length > MOST_LABEL ? `${says.slice(0, MOST_LABEL)}…` : says;
}

/** The article, and what the query says of it. */
export class Trying {
  /** @type {Map<string, Box>} */
  #boxes = new Map();
  /** @type {Article[]} */
  #last = [];
  #newest = new Newest();
  #list = new Newest();
  #isReadable = false;
  #pick = find("pick", HTMLSelectElement);
  #later = later(QUIET_MILLISECONDS, () => this.#ask());

  /**
   * @param {Box} query the query's box
   * @param {import("./dialect.js").Dialect} dialect
   */
  constructor(query, dialect) {
    this.query = query;
    this.dialect = dialect;
    this.#ensure(USUAL_FIELDS);
    this.#pick.addEventListener("change", () => this.#picked());
    for (const intent of ["pointerenter", "focus"]) {
      this.#pick.addEventListener(intent, () => this.load());
    }
    this.#show("nothing", "");
  }

  /**
   * Hears how the query is read now: it is tried again, and the fields that it names have boxes.
   * @param {string[]} fields
   * @param {boolean} isReadable
   */
  hear(fields, isReadable) {
    this.#isReadable = isReadable;
    if (isReadable) {
      this.#drop(fields);
      this.#ensure(fields);
    }
    this.#later();
  }

  /**
   * Takes the empty boxes of other fields away.
   * @param {string[]} names
   */
  #drop(names) {
    this.#boxes.forEach((box, name) => {
      if (box.text === "" && !USUAL_FIELDS.includes(name) && !names.includes(name)) {
        find("article", HTMLElement).querySelector(`[data-field="${name}"]`)?.remove();
        this.#boxes.delete(name);
      }
    });
  }

  /** Puts the keyboard into the article's text. */
  focus() {
    this.#boxes.get("text")?.focus();
  }

  /**
   * Sees to a box for each field.
   * @param {string[]} names
   */
  #ensure(names) {
    for (const name of names) {
      if (this.#boxes.has(name) || this.#boxes.size >= MOST_FIELDS) {
        continue;
      }
      const label = name.charAt(0).toUpperCase() + name.slice(1);
      const frame = element("div", { class: `box article-box ${name === "text" ? "tall" : ""}` });
      const holder = element("div", { class: "article-field", "data-field": name },
        element("span", { class: "quiet", "aria-hidden": "true" }, label), frame);
      find("article", HTMLElement).append(holder);
      const box = new Box(frame, { label: `${label} of the article`, placeholder: PLACEHOLDERS[name] ?? "" });
      box.onChange(this.#later);
      box.onPaste(() => {
        this.#pick.value = "";
      });
      this.#boxes.set(name, box);
    }
  }

  /** Loads which articles came last. */
  async load() {
    try {
      const answer = await this.#list.ask("GET", addressOf("articles", { limit: LAST_ARTICLES }));
      if (answer) {
        this.#offer(answer.articles);
      }
    } catch (error) {
      if (!(error instanceof Refused)) {
        throw error;
      }
    }
  }

  /**
   * Offers articles to pick from; the picked one stays picked. Nothing is done where they are those that are offered
   * already, since the list may be open.
   * @param {Article[]} articles
   */
  #offer(articles) {
    const ids = JSON.stringify(articles.map(({ id }) => id));
    if (ids === JSON.stringify(this.#last.map(({ id }) => id))) {
      return;
    }
    const picked = this.#last[parseInt(this.#pick.value, 10)];
    this.#last = articles;
    const options = articles.map((article, place) => element("option", { value: String(place) }, labelOf(article)));
    const group = element("optgroup", { label: "Last articles" }, ...options);
    this.#pick.replaceChildren(element("option", { value: "" }, "Paste a text"), ...(options.length ? [group] : []));
    this.#choose(picked?.id);
  }

  /**
   * Shows which article is picked.
   * @param {string} [id] none where it is no article of the list
   * @returns {Article | undefined} the article, where the list has it
   */
  #choose(id) {
    const place = this.#last.findIndex((article) => article.id === id);
    this.#pick.value = place >= 0 ? String(place) : "";
    return this.#last[place];
  }

  /** Takes the article that was picked into the boxes. */
  #picked() {
    const article = this.#last[parseInt(this.#pick.value, 10)];
    this.#take(article ? article.fields : {});
    if (!article) {
      this.focus();
    }
  }

  /**
   * Takes one of the last articles by its id, if it is still there.
   * @param {string} id
   */
  async open(id) {
    await this.load();
    const article = this.#choose(id);
    if (article) {
      this.#take(article.fields);
    }
  }

  /**
   * Puts the texts of fields into the boxes.
   * @param {Record<string, string>} fields
   */
  #take(fields) {
    this.#ensure(Object.keys(fields));
    this.#boxes.forEach((box, name) => {
      box.text = fields[name] ?? "";
    });
  }

  /** Tries the query on what the boxes have. */
  async #ask() {
    /** @type {Record<string, string>} */
    const fields = {};
    this.#boxes.forEach((box, name) => {
      if (box.text.trim()) {
        fields[name] = box.text;
      }
    });
    this.#newest.stop();
    if (!this.#isReadable || Object.keys(fields).length === 0) {
      this.#mark([]);
      const isWaiting = Object.keys(fields).length > 0 && this.query.text.trim() !== "";
      this.#show("nothing", isWaiting ? "It is tried once the query can be read." : "");
      return;
    }
    try {
      const body = { query: this.query.text, article: { id: "trial", fields } };
      const trial = await this.#newest.ask("POST", addressOf("try", this.dialect.parameters), body);
      if (trial) {
        this.#tell(trial);
      }
    } catch (error) {
      this.#mark([]);
      this.#show("failed", error instanceof Error ? error.message : String(error));
    }
  }

  /**
   * Shows what came of it.
   * @param {Trial} trial
   */
  #tell({ holds, marked }) {
    this.#mark(marked);
    if (!holds) {
      this.#show("no", "Does not hold: this article would not alert.");
      return;
    }
    const words = marked.flatMap(({ pieces }) => pieces.filter((_, place) => place % 2 === 1));
    const named = [...new Set(words)];
    const list = named.slice(0, MOST_WORDS_NAMED).join(", ") + (named.length > MOST_WORDS_NAMED ? ", …" : "");
    const count = counted(words.length, "word");
    if (words.length > MOST_MARKED) {
      this.#show("yes", `Holds at ${count} (${list}); the first ${MOST_MARKED.toLocaleString("en")} are marked.`);
    } else {
      this.#show("yes", words.length ? `Holds: ${count} marked (${list}).` : "Holds.");
    }
  }

  /**
   * Shows a verdict.
   * @param {"nothing" | "yes" | "no" | "failed"} kind
   * @param {string} says
   */
  #show(kind, says) {
    const verdict = find("verdict", HTMLElement);
    verdict.hidden = says === "";
    if (verdict.textContent !== says) {
      announce(says);
    }
    verdict.dataset.says = kind;
    verdict.textContent = says;
  }

  /**
   * Marks words in the boxes, the first of them where there are very many.
   * @param {Marked[]} marked
   */
  #mark(marked) {
    let room = MOST_MARKED;
    this.#boxes.forEach((box, name) => {
      const spans = marked.filter(({ field }) => field === name).flatMap(({ pieces }) => spansOf(pieces));
      box.mark(spans.slice(0, room).map(([from, to]) => ({ from, to, kind: "hit" })));
      room -= Math.min(room, spans.length);
    });
  }
}
