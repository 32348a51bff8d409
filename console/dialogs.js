// Questions to the user, and what is told behind an action.

import { byId, make } from "./dom.js";

const fieldOf = ({ value, most }) =>
  make("input", { id: "dialog-field", value, maxlength: most, required: true, autocomplete: "off" });

/**
 * Asks in a dialog, whose lines are texts or elements. The answer is what stands in the field, true where there is none, and
 * null where the user went back. Where there is no action, it only tells.
 */
export function ask({ title, lines, field, action }) {
  const dialog = byId("dialog");
  return new Promise((resolve) => {
    let answer = null;
    const input = field && fieldOf(field);
    const submit = (event) => {
      event.preventDefault();
      answer = input ? input.value : true;
      dialog.close();
    };
    const back = make("button", { type: "button", onclick: () => dialog.close() }, action ? "Back" : "Close");
    const form = make("form", { onsubmit: submit },
      make("h2", { id: "dialog-title" }, title),
      ...lines.map((line) => make("div", {}, line)),
      input ? make("label", {}, field.label, input) : null,
      make("div", { class: "line" }, action && make("button", { class: "main" }, action), back));
    dialog.replaceChildren(form);
    dialog.addEventListener("close", () => resolve(answer), { once: true });
    dialog.showModal();
    input?.select();
  });
}

let timer;

/** Tells what an action did, for a while, or why it was refused, until the user has seen it. */
export function tell(text, isRefusal = false) {
  const notice = byId("notice");
  clearTimeout(timer);
  const close = () => { notice.hidden = true; };
  notice.hidden = false;
  notice.classList.toggle("bad", isRefusal);
  const button = make("button", { type: "button", class: "quiet", "aria-label": "close this notice", onclick: close }, "×");
  notice.replaceChildren(make("span", {}, text), button);
  if (!isRefusal) timer = setTimeout(close, 12000);
}
