// Boards with more keys than a layout has names: which of them could be left out, since another key sends the same.
import { Refused } from './refused.js';

/** Whether a key is an arrow or the like, which the keypad has too. */
const isMoveToo = role => role.notes.some(note => note.includes('Num Lock'));

const goesLate = role => 2 * Boolean(role.underFn) + !isMoveToo(role);

/** The keys that could go, the best first, each with the one that stays: of those that send the same all but one. Moves go before
    others, since the keypad has them. A key with something of its own under Fn goes last. */
function doublesOf(roles) {
  const stays = new Map(), sending = roles.filter(role => role.sends && !role.isFn);
  for (const role of sending) {
    const other = stays.get(role.sends);
    if (!other || goesLate(role) > goesLate(other)) stays.set(role.sends, role);
  }
  return sending.filter(role => stays.get(role.sends) !== role).sort((a, b) => goesLate(a) - goesLate(b))
    .map(role => ({ role, other: stays.get(role.sends) }));
}

const namedKey = role => `${role.source || role.sends} (${role.key.where})`;

/** Why a board with too many keys is refused, with the options that mend it. */
function ofTooMany(names, many, gone, canShare) {
  const why = `it has ${names + many} keys that send something, and a layout has ${names} names for keys, so ${many} must be left out`;
  if (!gone.length) return `${why}: --without KEY leaves one out`;
  const isEnough = gone.length === many, which = isEnough ? 'leaves these out' : `leaves these ${gone.length} out, and others must go too`;
  const shared = canShare && isEnough ? ', --doubles wires their switches beside those of the keys that send the same' : '';
  return `${why}. Other keys send the same as ${gone.map(({ role }) => namedKey(role)).join(', ')}. --without doubles ${which}${shared}; `
    + `or choose among ${gone.map(({ role }) => `--without ${role.key.number}`).join(' ')}`;
}

/** Leaves out as many doubles as are too many if the words say so, or gives them the places of the keys that send the same; what is
    said of it. Otherwise a board with too many keys is refused. Two switches can be at one place only if places are counted. */
export function judgeDoubles(roles, names, { without, doubles: isSharing }, canShare) {
  if (isSharing && !canShare) throw new Refused('its matrix has a place for each key, so --doubles can put no two at one; with --count the keys are counted');
  const many = roles.filter(role => role.isFn || role.sends).length - names, isLeaving = without.has('doubles');
  if (many <= 0) {
    return [...isLeaving ? ['no key is too many, so --without doubles leaves none out'] : [],
      ...isSharing ? ['no key is too many, so --doubles puts no two at one place'] : []];
  }
  const all = doublesOf(roles).filter(({ role, other }) => !isSharing || role.underFn === other.underFn), gone = all.slice(0, many);
  if (!(isLeaving || isSharing) || gone.length < many) throw new Refused(ofTooMany(names, many, gone, canShare));
  if (isSharing) {
    for (const { role, other } of gone) {
      role.beside = other;
      role.notes.push(`its switch is beside that of ${namedKey(other)}`);
    }
    return [`by --doubles two switches are at one place, and send the same: ${gone.map(({ role, other }) => `${namedKey(role)} with ${namedKey(other)}`).join(', ')}`];
  }
  const said = gone.map(({ role }) => namedKey(role)).join(', ');
  for (const { role } of gone) Object.assign(role, { sends: null, underFn: null, notes: ['left out by --without doubles'] });
  return [`left out by --without doubles, since another key sends the same: ${said}`];
}
