/** Calls of the door. */

import { askToken, token } from "./token.js";

/** @typedef {import("./types.js").Problem} Problem */

const NO_ANSWER = "The service does not answer.";
const NEEDS_TOKEN = "A token is needed.";

/** A refusal of the door, or that it gave no answer. Its message is for people. */
export class Refused extends Error {
  /**
   * @param {number} status the answer's status; 0 where there was none
   * @param {string} message
   * @param {Problem} [problem]
   */
  constructor(status, message, problem) {
    super(message);
    this.status = status;
    this.problem = problem;
  }
}

/**
 * An address of the door, beside the page's own.
 * @param {string} path
 * @param {Record<string, string>} [parameters]
 * @returns {URL}
 */
export function addressOf(path, parameters = {}) {
  const address = new URL(path, document.baseURI);
  address.search = new URLSearchParams(parameters).toString();
  return address;
}

/**
 * Sends a request with the tab's token. Where the door wants a token, or another one, it is asked for.
 * @param {URL} address
 * @param {RequestInit} [request]
 * @returns {Promise<Response>} the answer, whose status says that it went well
 * @throws {Refused}
 */
export async function send(address, request = {}) {
  for (;;) {
    const used = token();
    const headers = new Headers(request.headers);
    if (used) {
      headers.set("Authorization", `Bearer ${used}`);
    }
    const answer = await fetch(address, { cache: "no-store", ...request, headers }).catch((error) => {
      if (request.signal?.aborted) {
        throw error;
      }
      throw new Refused(0, NO_ANSWER);
    });
    if (answer.ok) {
      return answer;
    }
    if (answer.status !== 401) {
      throw await refusalOf(answer);
    }
    if (token() === used && !(await askToken())) {
      throw new Refused(401, NEEDS_TOKEN);
    }
  }
}

/**
 * What an answer refuses, for people.
 * @param {Response} answer
 * @returns {Promise<Refused>}
 */
async function refusalOf(answer) {
  try {
    /** @type {Problem} */
    const problem = await answer.json();
    const says = problem.detail || problem.title;
    return new Refused(answer.status, says.charAt(0).toUpperCase() + says.slice(1), problem);
  } catch {
    return new Refused(answer.status, `The service answered with status ${answer.status}.`);
  }
}

/**
 * Sends a request with a JSON body, if any, and gives the JSON that is answered.
 * @param {string} method
 * @param {URL} address
 * @param {unknown} [body]
 * @param {AbortSignal} [signal]
 * @returns {Promise<any>}
 * @throws {Refused}
 */
export async function call(method, address, body, signal) {
  const answer = await send(address, {
    method,
    signal,
    headers: body === undefined ? {} : { "Content-Type": "application/json" },
    body: body === undefined ? undefined : JSON.stringify(body),
  });
  return answer.json();
}

/**
 * The address of a registered query.
 * @param {string} id
 * @param {Record<string, string>} [parameters]
 * @returns {URL}
 * @throws {Refused} where the id has no address
 */
export function addressOfQuery(id, parameters = {}) {
  if (id === "." || id === "..") {
    throw new Refused(0, "A name that is only dots has no address: choose another one.");
  }
  return addressOf(`queries/${encodeURIComponent(id)}`, parameters);
}

/** Asks again and again for what is newest: an answer that was overtaken by a later question is dropped. */
export class Newest {
  #controller = new AbortController();

  /**
   * Sends a request and stops the one before it.
   * @param {string} method
   * @param {URL} address
   * @param {unknown} [body]
   * @returns {Promise<any>} the answer; undefined where a later question came
   * @throws {Refused}
   */
  async ask(method, address, body) {
    this.stop();
    const { signal } = this.#controller;
    try {
      const answer = await call(method, address, body, signal);
      return signal.aborted ? undefined : answer;
    } catch (error) {
      if (signal.aborted) {
        return undefined;
      }
      throw error;
    }
  }

  /** Drops what is asked for now. */
  stop() {
    this.#controller.abort();
    this.#controller = new AbortController();
  }
}
