// A question that must be answered before something is lost.
import { byId } from './dom.js';

/** Asks; whether the answer was yes. `yes` and `no` are what the two buttons say. Escape is a no. */
export function ask(question, yes, no) {
  const dialog = byId('ask');
  byId('ask-text').textContent = question;
  byId('ask-yes').textContent = yes;
  byId('ask-no').textContent = no;
  return new Promise(answered => {
    const end = isYes => {
      dialog.close();
      answered(isYes);
    };
    byId('ask-yes').onclick = () => end(true);
    byId('ask-no').onclick = dialog.oncancel = () => end(false);
    dialog.showModal();
  });
}
