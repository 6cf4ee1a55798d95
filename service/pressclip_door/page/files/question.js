/** Asks whether something is to be done. */

import { find } from "./elements.js";

/**
 * Shows a question, and waits for the answer.
 * @param {string} heading the question
 * @param {string} text what follows
 * @param {string} yes the word for doing it
 * @returns {Promise<boolean>} whether it is to be done
 */
export function asksFor(heading, text, yes) {
  const dialog = find("question", HTMLDialogElement);
  find("question-heading", HTMLElement).textContent = heading;
  find("question-text", HTMLElement).textContent = text;
  find("question-yes", HTMLButtonElement).textContent = yes;
  dialog.returnValue = "no";
  dialog.showModal();
  return new Promise((resolve) => {
    dialog.addEventListener("close", () => resolve(dialog.returnValue === "yes"), { once: true });
  });
}
