// Elements of the page.

export function byId(id) {
  return document.getElementById(id);
}

export function paragraph(text, className) {
  const made = document.createElement("p");
  made.textContent = text;
  if (className) {
    made.className = className;
  }
  return made;
}

// An item of a list, of texts and elements.
export function item(...parts) {
  const made = document.createElement("li");
  made.append(...parts);
  return made;
}

// A number of things, such as "1,200 games".
export function counted(count, noun) {
  return count.toLocaleString("en") + " " + noun + (count === 1 ? "" : "s");
}

// A button that calls a function.
export function button(text, act) {
  const made = document.createElement("button");
  made.type = "button";
  made.textContent = text;
  made.addEventListener("click", act);
  return made;
}

// Makes the buttons of a new list one stop of the tab key: the first of them.
export function oneTabStop(list) {
  list.querySelectorAll("button").forEach((it, index) => {
    it.tabIndex = index ? -1 : 0;
  });
}

// Lets the arrow keys, Home and End go through the buttons of a list. The tab key then stops at the
// one that had the focus last.
export function goByKeys(list) {
  list.addEventListener("focusin", (event) => {
    list.querySelectorAll("button").forEach((it) => {
      it.tabIndex = it === event.target ? 0 : -1;
    });
  });
  list.addEventListener("keydown", (event) => {
    const buttons = Array.from(list.querySelectorAll("button"));
    const at = buttons.indexOf(event.target);
    const to = buttons[
      { ArrowUp: at - 1, ArrowDown: at + 1, Home: 0, End: buttons.length - 1 }[event.key]];
    if (to) {
      event.preventDefault();
      to.focus();
    }
  });
}

// A button in a paragraph of its own.
export function buttonLine(text, act) {
  const line = document.createElement("p");
  line.append(button(text, act));
  return line;
}
