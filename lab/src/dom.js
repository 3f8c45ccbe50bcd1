// Small helpers over the document.

export const byId = id => document.getElementById(id);

/** An element with these properties and children. */
export function make(tag, properties = {}, ...children) {
  const element = Object.assign(document.createElement(tag), properties);
  element.append(...children);
  return element;
}

// A property that is set anew costs a picture, even if its value is the old one.

export function setHidden(element, hidden) { if (element.hidden !== hidden) element.hidden = hidden; }

export function setText(element, text) { if (element.textContent !== text) element.textContent = text; }

const FAR = 1e6; // pixels

const scrolls = new Map();

/** Scrolls to so many pixels when the caller is done. A scroll lays the page out, so all of a picture are made together, after
    all that is written for it. */
export function scrollLater(element, top) {
  if (scrolls.size === 0) queueMicrotask(allScrolls);
  scrolls.set(element, top);
}

function allScrolls() {
  for (const [element, top] of scrolls) element.scrollTop = top;
  scrolls.clear();
}

/** Scrolls to the end, without asking where that is: the browser would lay the page out for the answer. */
export function scrollToEnd(element) { scrollLater(element, FAR); }

export const hex = (number, digits = 2) => number.toString(16).toUpperCase().padStart(digits, '0');

/** The options of a select; the chosen one stays, or becomes `first`. */
export function fill(select, names, first) {
  const chosen = names.includes(select.value) ? select.value : first;
  select.replaceChildren(...names.map(name => new Option(name)));
  if (names.includes(chosen)) select.value = chosen;
}

/** Says something was right or wrong. */
export function tell(element, text, right) {
  element.textContent = text;
  element.className = right === undefined ? '' : right ? 'right' : 'wrong';
  element.hidden = false;
}

/** Lets the user save a text as a file. */
export function save(name, text) {
  const link = make('a', { href: URL.createObjectURL(new Blob([text])), download: name });
  link.click();
  URL.revokeObjectURL(link.href);
}
