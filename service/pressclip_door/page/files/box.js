/** A box for a text with marked places, by CodeMirror. */

/**
 * @typedef {object} BoxSettings
 * @property {string} label what a screen reader calls it
 * @property {string} placeholder what stands in it while it is empty
 * @property {string} [mode] the name of the mode that colours its parts
 * @property {string} [describedBy] the id of what says more about its text
 */

/**
 * @typedef {object} Place
 * @property {number} from the index of its beginning
 * @property {number} to the index of its end; a caret is shown where it is the beginning too
 * @property {string} kind the class that it is shown by
 * @property {string} [says] what the pointer shows of it
 */

/** One box. */
export class Box {
  /** @type {any[]} */
  #marks = [];
  /** @type {any} */
  #editor;

  /**
   * @param {HTMLElement} parent
   * @param {BoxSettings} settings
   */
  constructor(parent, settings) {
    const { CodeMirror } = /** @type {any} */ (window);
    this.#editor = CodeMirror(parent, {
      mode: settings.mode ?? null,
      lineWrapping: true,
      inputStyle: "contenteditable",
      placeholder: settings.placeholder,
      screenReaderLabel: settings.label,
      extraKeys: { Tab: false, "Shift-Tab": false, Esc: () => this.leave() },
    });
    const input = this.#editor.getInputField();
    input.setAttribute("role", "textbox");
    input.setAttribute("aria-multiline", "true");
    if (settings.describedBy) {
      input.setAttribute("aria-describedby", settings.describedBy);
    }
  }

  /**
   * The text.
   * @returns {string}
   */
  get text() {
    return this.#editor.getValue();
  }

  set text(text) {
    this.#editor.setValue(text);
    this.#editor.clearHistory();
  }

  /** @param {string} text what stands in it while it is empty */
  set placeholder(text) {
    this.#editor.setOption("placeholder", text);
  }

  /**
   * Calls at each change of the text.
   * @param {() => void} call
   */
  onChange(call) {
    this.#editor.on("change", call);
  }

  /**
   * Calls whenever a text is pasted.
   * @param {() => void} call
   */
  onPaste(call) {
    this.#editor.on("inputRead", (/** @type {any} */ _, /** @type {any} */ change) => {
      if (change.origin === "paste") {
        call();
      }
    });
  }

  /** Puts the keyboard into the box. */
  focus() {
    this.#editor.focus();
  }

  /** Takes the keyboard out of the box, to the part of the page around it. */
  leave() {
    this.#editor.getInputField().blur();
    this.#editor.getWrapperElement().closest("[tabindex]")?.focus();
  }

  /** Lays itself out anew, once it is to be seen. */
  refresh() {
    this.#editor.refresh();
  }

  /**
   * Puts the cursor at a place, and the keyboard into the box.
   * @param {Place} place
   */
  select(place) {
    this.#editor.focus();
    this.#editor.setSelection(this.#editor.posFromIndex(place.from), this.#editor.posFromIndex(place.to));
  }

  /**
   * Says whether the text can be read.
   * @param {boolean} isValid
   */
  setValid(isValid) {
    this.#editor.getInputField().setAttribute("aria-invalid", String(!isValid));
  }

  /**
   * Marks these places, and no others.
   * @param {Place[]} places
   */
  mark(places) {
    this.#editor.operation(() => {
      this.#marks.forEach((mark) => mark.clear());
      this.#marks = places.map((place) => this.#markOne(place));
    });
  }

  /**
   * Marks a place.
   * @param {Place} place
   */
  #markOne({ from, to, kind, says }) {
    const start = this.#editor.posFromIndex(from);
    if (from === to) {
      const caret = document.createElement("span");
      caret.className = `caret ${kind}`;
      caret.title = says ?? "";
      return this.#editor.setBookmark(start, { widget: caret, insertLeft: false });
    }
    return this.#editor.markText(start, this.#editor.posFromIndex(to), {
      className: kind,
      attributes: says ? { title: says } : {},
    });
  }
}
