/** The colours of a query's parts in its box: a mode of CodeMirror. */

const ESCAPE = /\\(?:u[0-9a-fA-F]{4}|.)/su;
const OPERATOR = /(?:AND|OR|NOT|&&|\|\|)(?=[\s()]|$)/u;
const FIELD = /[A-Za-z_][A-Za-z0-9_]*:/u;
const RANGE = /[[{][^\]}]*[\]}]?/u;
const SIGN = /[-+!](?=\S)/u;
const WORD = /(?:\\.|[^\s()"\\*])+/su;

/** @typedef {{isQuoted: boolean, isBegun: boolean}} State whether a quote is open, and whether a part has begun */

/**
 * Reads what stands between quotes, as far as it stands on the line.
 * @param {any} stream
 * @param {State} state
 * @returns {string}
 */
function quoted(stream, state) {
  while (!stream.eol()) {
    const character = stream.next();
    if (character === "\\") {
      stream.next();
    } else if (character === '"') {
      state.isQuoted = false;
      break;
    }
  }
  return "query-phrase";
}

/**
 * Reads the next part of a line, and gives its colour.
 * @param {any} stream
 * @param {State} state
 * @returns {string | null}
 */
function part(stream, state) {
  if (state.isQuoted) {
    return quoted(stream, state);
  }
  if (stream.eatSpace()) {
    state.isBegun = false;
    return null;
  }
  if (!state.isBegun && stream.match(OPERATOR)) {
    return "query-operator";
  }
  if (!state.isBegun && stream.match(SIGN)) {
    return stream.current() === "+" ? "query-must" : "query-not";
  }
  if (!state.isBegun && stream.match(FIELD)) {
    return "query-field";
  }
  if (!state.isBegun && stream.match(RANGE)) {
    return "query-phrase";
  }
  return rest(stream, state);
}

/**
 * Reads a quote, a parenthesis, a star, or a word.
 * @param {any} stream
 * @param {State} state
 * @returns {string | null}
 */
function rest(stream, state) {
  if (stream.match(/[()]/u)) {
    state.isBegun = false;
    return "query-operator";
  }
  state.isBegun = true;
  if (stream.eat('"')) {
    state.isQuoted = true;
    return quoted(stream, state);
  }
  if (stream.eat("*")) {
    return "query-operator";
  }
  if (!stream.match(ESCAPE) && !stream.match(WORD)) {
    stream.next();
  }
  return null;
}

/**
 * The mode.
 * @returns {{startState: () => State, token: typeof part}}
 */
export function queryMode() {
  return { startState: () => ({ isQuoted: false, isBegun: false }), token: part };
}
