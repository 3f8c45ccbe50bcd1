// Where the keys go that somebody presses: to the drawn keyboard, unless a field or a list has the focus; and it is said, above the
// keyboard, and in a corner of the window while that line and the keyboard are out of sight.
import { byId, setHidden, setText } from './dom.js';

const HERE = 'your keys go to the keyboard below', NOWHERE = 'what you type goes to the keyboard below', OUT_OF_SIGHT = 'Your keys go to the keyboard, which is out of sight.';
// What takes letters itself; and what takes the space bar, Enter or arrows, but no letters.
const FIELDS = 'input:not([type=checkbox], [type=file]), select, textarea, dialog *';
// Keys that are typed without being characters. The others are the browser's: they scroll, or go to the next control.
const TYPED = new Set(['Enter', 'Backspace', 'Delete', 'Escape', 'CapsLock', 'NumLock', 'ScrollLock', 'Dead']);

/** What an element is called. */
const nameOfElement = element => element.getAttribute('aria-label') ?? element.closest('label')?.textContent.trim().split('\n')[0] ?? (element.textContent.trim().slice(0, 40) || element.id);

const isNothing = element => !element || element === document.body || element === document.documentElement;
const isShift = event => event.key === 'Shift';

/** Whether a key is typed if this element has the focus. A control other than a field keeps what it is used by. */
function isTyped({ key }, element) {
  if (isNothing(element)) return key.length === 1 || TYPED.has(key);
  return key.length === 1 && key !== ' ' && !element.matches(FIELDS);
}

function textFor(element, board) {
  if (element === board) return HERE;
  if (isNothing(element)) return NOWHERE;
  const name = nameOfElement(element);
  return element.matches(FIELDS) || board.closest('[hidden]') ? `your keys go to: ${name}` : `Space and Enter go to: ${name}; letters go to the keyboard below`;
}

/** Watches the focus. A click on a button of these panes leaves the focus where it was: a space that follows is typed, and doesn't
    press the button again. */
export function watchKeys() {
  const board = byId('board'), line = byId('keys-go'), shifts = new Set(), heldApart = new Set();
  const inSight = new Set([line]);
  const say = () => {
    const at = document.activeElement, isHere = at === board, text = textFor(at, board);
    setHidden(byId('keys-go-far'), inSight.size > 0 || !isHere);
    if (line.textContent === text) return;
    setText(line, text);
    line.classList.toggle('elsewhere', !isHere && !isNothing(at));
  };
  setText(byId('keys-go-far'), OUT_OF_SIGHT);
  const watch = new IntersectionObserver(entries => {
    for (const { target, isIntersecting } of entries) inSight[isIntersecting ? 'add' : 'delete'](target);
    say();
  });
  watch.observe(line);
  watch.observe(board);
  document.addEventListener('focusin', say);
  document.addEventListener('focusout', () => queueMicrotask(say));
  document.addEventListener('mousedown', event => {
    if (event.target.closest('#keyboard button, #wires button, #panes button')) event.preventDefault();
  });
  const handOn = (type, init) => board.dispatchEvent(new KeyboardEvent(type, init));
  addEventListener('keydown', event => {
    const at = document.activeElement;
    if (isShift(event)) shifts.add(event.code);
    if (at === board || board.closest('[hidden]') || event.defaultPrevented || event.ctrlKey || event.altKey || event.metaKey) return;
    if (isShift(event) && isNothing(at)) {
      // The focus stays, because Shift and Tab go back.
      heldApart.add(event.code);
      handOn('keydown', event);
    } else if (isTyped(event, at)) {
      board.focus();
      for (const code of shifts) handOn('keydown', { code, key: 'Shift', shiftKey: true });
      handOn('keydown', event);
      event.preventDefault();
    }
  });
  addEventListener('keyup', event => {
    shifts.delete(event.code);
    if (heldApart.delete(event.code) && document.activeElement !== board) handOn('keyup', event);
  });
  addEventListener('blur', () => shifts.clear());
  say();
}
