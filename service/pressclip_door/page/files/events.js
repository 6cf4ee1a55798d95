/** The stream of alerts, read by `fetch`, since a token needs a header. */

import { Refused, addressOf, send } from "./api.js";

/** @typedef {import("./types.js").Alert} Alert */

/**
 * @typedef {object} Hearer
 * @property {(alert: Alert) => void} alert hears each alert
 * @property {() => void} gap hears that alerts were left out
 * @property {(state: "live" | "waiting" | "locked", why?: string) => void} state hears how the stream stands
 */

const FIRST_PAUSE = 500;
const MOST_PAUSE = 15_000;
const MOST_SILENCE = 40_000;
const SHOWN_AT_FIRST = "20";

/** Cuts server-sent events out of a text that comes in parts. */
export class EventCutter {
  #rest = "";

  /**
   * The events that are whole by now.
   * @param {string} text what came next
   * @returns {{event: string, id: string, data: string}[]}
   */
  feed(text) {
    const parts = (this.#rest + text).replaceAll("\r\n", "\n").split("\n\n");
    this.#rest = parts.pop() ?? "";
    return parts.map((part) => EventCutter.#read(part)).filter((one) => one.data !== "");
  }

  /**
   * Reads the lines of one event.
   * @param {string} part
   */
  static #read(part) {
    const read = { event: "message", id: "", data: "" };
    for (const line of part.split("\n")) {
      const [, name, value] = /^(\w+): ?(.*)$/.exec(line) ?? [];
      if (name === "data") {
        read.data += (read.data && "\n") + value;
      } else if (name === "event" || name === "id") {
        read[name] = value;
      }
    }
    return read;
  }
}

/**
 * Listens for as long as the page is to be seen, and goes on behind the last alert that it heard. A browser has few
 * connections to one host, so pages that nobody sees keep none.
 */
export class AlertStream {
  #last = "";
  #pause = FIRST_PAUSE;
  #controller = new AbortController();
  /** @type {(() => void) | null} */
  #wake = null;

  /** @param {Hearer} hearer */
  constructor(hearer) {
    this.hearer = hearer;
    document.addEventListener("visibilitychange", () => {
      if (document.hidden) {
        this.#controller.abort();
      } else {
        this.retry();
      }
    });
  }

  /** Listens, again and again. */
  async run() {
    for (;;) {
      if (!document.hidden) {
        await this.#try();
      }
      await this.#rest();
    }
  }

  /** Listens once, and says how that ended. */
  async #try() {
    try {
      await this.#listen();
      this.hearer.state("waiting");
    } catch (error) {
      const isLocked = error instanceof Refused && (error.status === 401 || error.status === 403);
      this.hearer.state(isLocked ? "locked" : "waiting", error instanceof Refused ? error.message : undefined);
    }
  }

  /** Tries again at once. */
  retry() {
    this.#pause = FIRST_PAUSE;
    this.#wake?.();
  }

  /** Waits before the next try, longer each time. */
  async #rest() {
    await new Promise((resolve) => {
      this.#wake = () => resolve(undefined);
      if (!document.hidden) {
        setTimeout(this.#wake, this.#pause);
      }
    });
    this.#wake = null;
    this.#pause = Math.min(this.#pause * 2, MOST_PAUSE);
  }

  /** Listens until the stream ends or is silent for too long. */
  async #listen() {
    const controller = new AbortController();
    this.#controller = controller;
    const headers = this.#last ? { "Last-Event-ID": this.#last } : undefined;
    const parameters = { excerpts: "true", ...(this.#last ? {} : { last: SHOWN_AT_FIRST }) };
    const answer = await send(addressOf("alerts", parameters), { headers, signal: controller.signal });
    if (!answer.body) {
      return;
    }
    this.hearer.state("live");
    this.#pause = FIRST_PAUSE;
    const reader = answer.body.pipeThrough(new TextDecoderStream()).getReader();
    const cutter = new EventCutter();
    for (;;) {
      const timer = setTimeout(() => controller.abort(), MOST_SILENCE);
      const { done, value } = await reader.read().finally(() => clearTimeout(timer));
      if (done) {
        return;
      }
      cutter.feed(value).forEach((event) => this.#hear(event));
    }
  }

  /**
   * Passes an event on.
   * @param {{event: string, id: string, data: string}} event
   */
  #hear(event) {
    if (event.event === "alert") {
      this.#last = event.id || this.#last;
      this.hearer.alert(JSON.parse(event.data));
    } else if (event.event === "lost") {
      this.hearer.gap();
    }
  }
}
