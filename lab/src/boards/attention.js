// What a board can't be without: the keys that none of its keys sends, with the options that mend it.
import { KeyPlaces } from './legend_places.js';
import { isLeftOut } from './refused.js';

/** The keys that a board needs, in the order in which they are told. */
export const NEEDED = [...'abcdefghijklmnopqrstuvwxyz1234567890', 'space', 'enter', 'esc', 'backspace', 'shift', 'ctrl', 'alt'];
// A board with fewer keys is a pad, of which nothing is expected. So many ways out are named.
const FEWEST_KEYS = 30, FEWEST_LETTERS = 13, MOST_WAYS = 3;

const isLetter = name => /^[a-z]$/.test(name);
const keyOfBoard = role => `${role.source.trim() || 'a key without a legend'} (${role.key.where})`;

/** Whether a key is the keypad's by what the file has for it: a digit, or a code of the keypad. */
const isPads = ({ source }) => /^(\d |KC_(KP_|P(\d|SLS|AST|MNS|PLS|ENT|DOT|EQL|CMM)$))/.test(source);

/** The keys that could send something else, the best first: those that send nothing, then those whose code another key sends too,
    but for the keypad's, then those that a board can do without. */
function sparesOf(roles, without) {
  const others = role => roles.filter(other => other !== role && role.sends !== null && other.sends === role.sends);
  const isNeeded = name => NEEDED.includes(name) || /shift$/.test(name), free = roles.filter(role => !role.isFn && !isLeftOut(role.key, without));
  const isSecond = role => others(role).some(other => (isPads(other) && !isNeeded(role.sends)) || roles.indexOf(other) < roles.indexOf(role));
  const gradeOfSender = role => (isPads(role) && others(role).length ? 4 : isSecond(role) ? 2 : isNeeded(role.sends) ? 4 : 3);
  const grade = role => (role.sends === null ? Number(!role.source.trim()) : gradeOfSender(role));
  return free.filter(role => grade(role) < 4).sort((one, other) => grade(one) - grade(other));
}

/** The lacking names with keys that can send them: first the key that sends nothing and has the name by its place or at the end of
    its code; a name that is no letter may go to another key. */
function pairsOf(names, roles, without) {
  const said = roles.map(({ sends }) => ({ characters: /^[a-z0-9]$/.test(sends ?? '') ? [sends] : [] }));
  const places = new KeyPlaces(roles.map(role => role.key), said), taken = new Set(roles.map(role => role.sends)), left = sparesOf(roles, without);
  const isFor = name => role => role.sends === null
    && (role.source.toLowerCase().endsWith(`_${name}`) || places.nameByRow(roles.indexOf(role), taken) === name);
  const own = new Map();
  for (const name of names) {
    const role = left.find(isFor(name));
    if (!role) continue;
    own.set(name, role);
    left.splice(left.indexOf(role), 1);
  }
  return names.map(name => [name, own.get(name) ?? (isLetter(name) ? undefined : left.shift())]).filter(([, role]) => role).slice(0, MOST_WAYS);
}

/** The options that give keys to a board, ready to copy. */
function waysOf(lacking, roles, choices, fn) {
  const ways = [], { role, tap, others } = fn;
  if (role && lacking.includes(tap)) {
    const what = others.length ? `--fn ${others[0].number} makes another key Fn, and --no-fn none` : '--no-fn makes no key Fn';
    ways.push(`${tap} is the tap of Fn (${role.key.where}): ${what}`);
  }
  const names = lacking.filter(name => name !== tap || !ways.length).map(name => (name === 'shift' ? 'lshift' : name));
  const pairs = pairsOf(names, roles, choices.without);
  if (pairs.length) {
    ways.push(`${pairs.map(([name, spare]) => `--key ${spare.key.number}=${name}`).join(' ')} ${pairs.length > 1 ? 'give them' : 'gives it'} to `
      + pairs.map(([, spare]) => keyOfBoard(spare)).join(', '));
  }
  if (fn.role === undefined && lacking.length > pairs.length) ways.push('a keymap with a second layer can send more');
  return ways;
}

/** A line of the keys that a board needs and that none of its keys sends, with Fn or without. `fn` has, of a keymap, the key
    that is Fn or null, what it sent when it was tapped, and the other keys that could be Fn. */
export function attention(roles, choices, fn = {}) {
  const sent = new Set(roles.flatMap(role => [role.sends, role.underFn]).filter(Boolean));
  if (sent.has('lshift') || sent.has('rshift')) sent.add('shift');
  if (roles.length < FEWEST_KEYS && [...sent].filter(isLetter).length < FEWEST_LETTERS) return [];
  const lacking = NEEDED.filter(name => !sent.has(name));
  return lacking.length ? [[`ATTENTION: no key of this board sends ${lacking.join(', ')}`, ...waysOf(lacking, roles, choices, fn)].join('; ')] : [];
}
