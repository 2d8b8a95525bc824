// Pieces of the document.

export const by = (id) => document.getElementById(id);

// Writes words if they change: a screen reader speaks what is written.
export function write(element, words) {
  if (element.textContent !== words) element.textContent = words;
}

export function button(words, attributes = {}) {
  const made = document.createElement("button");
  made.type = "button";
  for (const [key, value] of Object.entries(attributes)) made.setAttribute(key, value);
  made.append(...words);
  return made;
}

// A group of buttons of which one is chosen: arrows go from one to the next, Tab goes past the group.
export function arrows(group, choose) {
  group.addEventListener("keydown", (event) => {
    const step = { ArrowRight: 1, ArrowDown: 1, ArrowLeft: -1, ArrowUp: -1 }[event.key];
    if (step === undefined) return;
    const all = [...group.querySelectorAll("button")];
    const next = all[(all.indexOf(document.activeElement) + step + all.length) % all.length];
    event.preventDefault();
    choose(next);
    next.focus();
  });
}
