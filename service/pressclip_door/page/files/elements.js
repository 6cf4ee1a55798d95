/** Small helpers for the elements of the page. */

/**
 * Makes an element. A setting is an attribute, or under `onNAME` what listens to the event NAME.
 * @template {keyof HTMLElementTagNameMap} Name
 * @param {Name} name
 * @param {Record<string, string | boolean | ((event: Event) => void)>} [settings]
 * @param {...(Node | string)} children
 * @returns {HTMLElementTagNameMap[Name]}
 */
export function element(name, settings = {}, ...children) {
  const made = document.createElement(name);
  for (const [key, value] of Object.entries(settings)) {
    if (typeof value === "function") {
      made.addEventListener(key.slice(2), value);
    } else if (value !== false) {
      made.setAttribute(key, value === true ? "" : value);
    }
  }
  made.append(...children);
  return made;
}

/**
 * The element of the page with this id, which is of this kind.
 * @template {Element} Kind
 * @param {string} id
 * @param {new () => Kind} kind
 * @returns {Kind}
 */
export function find(id, kind) {
  const found = document.getElementById(id);
  if (!(found instanceof kind)) {
    throw new Error(`there is no ${kind.name} with the id ${id}`);
  }
  return found;
}

/**
 * Has a screen reader say a text, once it has said what it says now.
 * @param {string} text
 */
export function announce(text) {
  find("announcer", HTMLElement).textContent = text;
}

/**
 * A call that is made once it has not been asked for again for so long.
 * @param {number} milliseconds
 * @param {() => void} call
 * @returns {() => void}
 */
export function later(milliseconds, call) {
  let timer = 0;
  return () => {
    clearTimeout(timer);
    timer = setTimeout(call, milliseconds);
  };
}

/**
 * A text in pieces as nodes, with each second piece marked.
 * @param {string[]} pieces
 * @returns {Node[]}
 */
export function markedNodes(pieces) {
  return pieces.map((piece, place) =>
    place % 2 === 1 ? element("mark", {}, piece) : document.createTextNode(piece));
}

/**
 * How many there are of something, with its word.
 * @param {number} count
 * @param {string} word in the singular
 * @param {string} [words] in the plural
 * @returns {string}
 */
export function counted(count, word, words = `${word}s`) {
  return `${count.toLocaleString("en")} ${count === 1 ? word : words}`;
}
