/** The tree of a query, as lists. */

import { counted, element } from "./elements.js";

/** @typedef {import("./types.js").Tree} Tree */
/** @typedef {import("./types.js").Leaf} Leaf */
/** @typedef {import("./types.js").Clause} Clause */
/** @typedef {import("./types.js").RangeEnd} RangeEnd */

const MOST_SHOWN = 120;
const USUAL_FIELD = "text";

/**
 * A word of the query, as it is compared.
 * @param {string} text
 * @returns {HTMLElement}
 */
function word(text) {
  return element("span", { class: "word" }, text);
}

/**
 * What a leaf asks for.
 * @param {Leaf} leaf
 * @returns {(Node | string)[]}
 */
function asked({ term, prefix, phrase, range, ...other }) {
  if (term) {
    return [word(term.word)];
  }
  if (prefix) {
    return [element("span", { class: "unseen" }, "a word that begins with "), word(`${prefix.front}…`)];
  }
  if (phrase) {
    return [element("span", { class: "unseen" }, "the phrase "), word(`“${phrase.words.join(" ")}”`)];
  }
  if (range) {
    return ["a word", ...end(range.low, " from ", " after "), ...end(range.high, " up to ", " before ")];
  }
  return [JSON.stringify(other)];
}

/**
 * An end of a range.
 * @param {RangeEnd} limit
 * @param {string} included what is said where the end itself counts
 * @param {string} excluded what is said where it does not
 * @returns {(Node | string)[]}
 */
function end(limit, included, excluded) {
  return limit ? [limit.included ? included : excluded, word(limit.text)] : [];
}

/**
 * The fields that a tree names, each once.
 * @param {Tree} tree
 * @returns {string[]}
 */
export function fieldsOf(tree) {
  /** @type {Set<string>} */
  const found = new Set();
  const walk = (/** @type {Tree} */ part) => {
    if (Array.isArray(part)) {
      part.forEach((clause) => walk(clause.tree));
    } else if (part !== "all") {
      Object.values(part).forEach((leaf) => leaf?.field && found.add(leaf.field));
    }
  };
  walk(tree);
  return [...found];
}

/**
 * The parts of a group: its clauses by how they count, and what is said before one of them, and before several.
 * @param {Clause[]} clauses
 * @returns {{kind: string, clauses: Clause[], says: string}[]}
 */
function partsOf(clauses) {
  const of = (/** @type {string} */ occur) => clauses.filter((clause) => clause.occur === occur);
  const [must, should, not] = [of("must"), of("should"), of("must_not")];
  const parts = [
    { kind: "must", clauses: must, one: "must have", more: "all of" },
    { kind: "should", clauses: must.length ? [] : should, one: "must have", more: "any of" },
    { kind: "not", clauses: not, one: "but not", more: "but none of" },
    { kind: "idle", clauses: must.length ? should : [], one: "without effect", more: "without effect" },
  ];
  return parts.filter((part) => part.clauses.length > 0).map(({ kind, clauses: own, one, more }) => (
    { kind, clauses: own, says: own.length > 1 ? more : one }));
}

/** Makes the lists, up to so many parts. */
class Branches {
  #room = MOST_SHOWN;
  left = 0;

  /**
   * What shows a part.
   * @param {Tree} tree
   * @returns {Node[]}
   */
  show(tree) {
    if (Array.isArray(tree)) {
      return partsOf(tree).map(({ kind, clauses, says }) => this.#part(kind, clauses, says));
    }
    if (tree === "all") {
      return [element("span", { class: "leaf" }, "anything at all")];
    }
    const field = Object.values(tree)[0]?.field ?? USUAL_FIELD;
    const where = field === USUAL_FIELD ? [] : [element("span", { class: "where" }, ` in ${field}`)];
    return [element("span", { class: "leaf" }, ...asked(tree), ...where)];
  }

  /**
   * What shows clauses that count in one way, behind words that say how. A group that is alone in it is told in one go.
   * @param {string} kind
   * @param {Clause[]} clauses
   * @param {string} says
   * @returns {HTMLElement}
   */
  #part(kind, clauses, says) {
    const only = clauses.length === 1 ? clauses[0].tree : null;
    const parts = Array.isArray(only) ? partsOf(only) : [];
    if (parts.length === 1 && parts[0].kind !== "not") {
      return this.#part(kind, parts[0].clauses, `${says} ${parts[0].says.replace(/^must have ?/u, "")}`.trim());
    }
    const list = element("ul", {});
    for (const clause of clauses) {
      if (this.#room === 0) {
        this.left += 1;
        continue;
      }
      this.#room -= 1;
      list.append(element("li", { class: Array.isArray(clause.tree) ? "group" : "" }, ...this.show(clause.tree)));
    }
    return element("div", { class: `branch ${kind}` }, element("span", { class: "how" }, says), list);
  }
}

/**
 * The tree as elements; of a large one its beginning, and how much is left out.
 * @param {Tree} tree
 * @returns {(Node | string)[]}
 */
export function treeNodes(tree) {
  const branches = new Branches();
  const nodes = branches.show(tree);
  if (branches.left > 0) {
    nodes.push(element("p", { class: "quiet" }, `and ${counted(branches.left, "more part")}`));
  }
  return nodes;
}
