/** The token by which the door knows who asks. It is kept for this tab alone, until the tab is closed. */

import { find } from "./elements.js";

const KEY = "pressclip-token";

/**
 * The token of this tab; empty where none was entered.
 * @returns {string}
 */
export function token() {
  return sessionStorage.getItem(KEY) ?? "";
}

/** @type {Promise<boolean> | null} */
let asking = null;
let isDeclined = false;

/**
 * Asks for a token; several calls at a time ask once. Whoever declined is asked again only where that is wished.
 * @param {boolean} [isWished] whether it was asked for by hand
 * @returns {Promise<boolean>} whether one was entered
 */
export async function askToken(isWished = false) {
  if (isDeclined && !isWished) {
    return false;
  }
  asking ??= ask().finally(() => {
    asking = null;
  });
  isDeclined = !(await asking);
  return !isDeclined;
}

/**
 * Shows the dialog, and waits until it is closed.
 * @returns {Promise<boolean>}
 */
function ask() {
  const dialog = find("token", HTMLDialogElement);
  const box = find("token-text", HTMLInputElement);
  if (token()) {
    find("token-why", HTMLElement).textContent = "The service does not know this token. Enter another one.";
  }
  box.value = "";
  find("token-cancel", HTMLButtonElement).onclick = () => dialog.close("");
  dialog.returnValue = "";
  dialog.showModal();
  box.focus();
  return new Promise((resolve) => {
    dialog.addEventListener("close", () => {
      const isEntered = dialog.returnValue === "enter" && box.value.trim() !== "";
      if (isEntered) {
        sessionStorage.setItem(KEY, box.value.trim());
      }
      box.value = "";
      resolve(isEntered);
    }, { once: true });
  });
}
