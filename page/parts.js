// The page's elements by their ids.

export const by = (id) => document.getElementById(id);

// Several of them, by the last part of their ids.
export const parts = (...ids) => Object.fromEntries(ids.map((id) => [id.split("-").pop(), by(id)]));

// Asks a person: gives the answer that she chooses, or null; with GIVEN, the text that she writes.
export function ask(question, answers, { given, cancel = "Cancel" } = {}) {
  const dialog = by("ask"), text = by("ask-text"), isText = given !== undefined;
  if (dialog.open) dialog.close();
  by("ask-question").textContent = question;
  Object.assign(text, { hidden: !isText, value: given || "" });
  return new Promise((resolve) => {
    const end = (answer) => {
      dialog.onclose = null;
      if (dialog.close) dialog.close();
      else dialog.removeAttribute("open");
      resolve(answer);
    };
    const buttons = [...answers, cancel].map((answer, at) => {
      const one = Object.assign(
        document.createElement("button"),
        { type: at ? "button" : "submit", textContent: answer, className: at ? "" : "main" });
      if (at) one.onclick = () => end(answer === cancel ? null : answer);
      return one;
    });
    by("ask-answers").replaceChildren(...buttons);
    by("ask-form").onsubmit = (event) => (event.preventDefault(), end(isText ? text.value : answers[0]));
    dialog.onclose = () => end(null);
    if (dialog.showModal) dialog.showModal();
    else dialog.setAttribute("open", "");
    (isText ? text : buttons[0]).focus();
  });
}
