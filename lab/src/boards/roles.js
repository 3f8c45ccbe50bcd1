// From two layers of codes to what each key sends, with Fn and without it.
import { fnCandidates, fnKey } from './fn_key.js';
import { countryOfCode, meaningOf } from './key_codes.js';
import { Refused, isLeftOut } from './refused.js';

/** What a key does: the key whose code it sends, the one whose code it sends under Fn if that is another, or it is Fn itself;
    the key at whose place its switch is too, if it has none of its own; what the file has for it, without Fn and under it; and what
    is told of it. */
export const roleOf = (key, more = {}) => ({ key, sends: null, underFn: null, isFn: false, beside: null, source: '', sourceFn: '', notes: [], ...more });

// What is told of codes, those of one layer and reason together.
class Notes {
  constructor() { this.codes = new Map(); }

  note(layer, role, code, why) {
    const reason = `layer ${layer}: ${why}`;
    if (!this.codes.has(reason)) this.codes.set(reason, []);
    this.codes.get(reason).push(`${code} (${role.key.where})`);
    role.notes.push(layer === 0 ? why : `under Fn ${code}: ${why}`);
  }

  lines() { return [...this.codes].map(([reason, codes]) => `${reason}: ${codes.join(', ')}`); }
}

/** The key whose code a key of the lowest layer sends that isn't Fn, or null if it sends none. */
function inBase(notes, role, first, noFn) {
  let means = first;
  if (means.kind === 'momentary') {
    const why = noFn ? 'since no key is Fn' : 'since one key alone can be Fn, and selects one layer';
    notes.note(0, role, role.source, `${means.tap ? 'its layer is lost' : 'left out'}, ${why}`);
    means = means.tap ?? { kind: 'nothing' };
  }
  if (means.kind === 'sends') {
    if (means.lost) notes.note(0, role, role.source, means.lost);
    return means.key;
  }
  if (means.kind === 'unsaid') notes.note(0, role, role.source, `left out, ${means.why}`);
  return null;
}

/** The key whose code a key sends under Fn, if that is another than without. */
function underFn(notes, layer, role, code) {
  let means = meaningOf(code);
  const lost = why => {
    notes.note(layer, role, code, why);
    return null;
  };
  if (means.kind === 'below' || (means.kind === 'nothing' && role.sends === null)) return null;
  if (role.isFn) return lost('lost, since the key is Fn, and sends nothing');
  if (role.sends === null) return lost('lost, since in layer 0 the key sends nothing, and then it has no entry');
  if (means.kind === 'momentary' && means.tap) {
    notes.note(layer, role, code, 'its layer is lost, since there is no third layer');
    means = means.tap;
  }
  if (means.kind === 'sends') {
    if (means.lost) notes.note(layer, role, code, means.lost);
    return means.key === role.sends ? null : means.key;
  }
  const why = { unsaid: means.why, nothing: "since a key can't be silent under Fn alone" }[means.kind] ?? 'since there is no third layer';
  return lost(`sends what it sends in layer 0, ${why}`);
}

/** What each key means in layer 0; the words may say another key of it, or leave it out. */
function meaningsOf(keys, codes, choices) {
  return keys.map((key, at) => {
    if (isLeftOut(key, choices.without)) return { kind: 'nothing' };
    const said = choices.keys.get(key.number);
    return said ? { kind: 'sends', key: said, lost: '' } : meaningOf(codes[at]);
  });
}

/** What each key does, what is told of it, and of the key that is Fn what it would send when it is tapped and which others could
    be it. */
export function rolesOf(keys, layers, choices) {
  const notes = new Notes(), base = meaningsOf(keys, layers[0], choices);
  for (const [at, means] of base.entries()) {
    if (means.kind === 'momentary' && means.layer >= layers.length) {
      throw new Refused(`layer 0, ${keys[at].where}, ${layers[0][at]}: the keymap has no layer ${means.layer}; --without ${keys[at].number} leaves the key out`);
    }
  }
  const candidates = fnCandidates(base, layers), fnAt = fnKey(keys, layers, base, candidates, choices);
  const roles = keys.map((key, at) => roleOf(key, { source: layers[0][at] }));
  let chosen = 0;
  for (const [at, role] of roles.entries()) {
    const means = base[at];
    if (at === fnAt) {
      role.isFn = true;
      chosen = means.layer;
      if (means.lost) notes.note(0, role, role.source, `Fn; ${means.lost}`);
    } else role.sends = inBase(notes, role, means, choices.noFn);
  }
  if (chosen) {
    for (const [at, role] of roles.entries()) {
      role.sourceFn = layers[chosen][at];
      if (!isLeftOut(role.key, choices.without)) role.underFn = underFn(notes, chosen, role, layers[chosen][at]);
    }
  }
  const others = candidates.filter(at => at !== fnAt), fn = { role: roles[fnAt] ?? null, tap: base[fnAt]?.tap?.key ?? null, others: others.map(at => keys[at]) };
  const selects = new Map(others.map(at => [base[at].layer, keys[at].number]).reverse());
  return { roles, fn, told: [...ofCountries(layers), ...notes.lines(), ...layersLost(layers, chosen, selects)] };
}

function layersLost(layers, chosen, selects) {
  const why = chosen ? `Fn selects layer ${chosen}` : selects.size ? 'no key is Fn' : 'no key of layer 0 that could be Fn selects it';
  return [...layers.entries()].filter(([number, layer]) => number !== 0 && number !== chosen
    && !layer.every(code => ['below', 'nothing'].includes(meaningOf(code).kind)))
    .map(([number]) => `layer ${number}: left out: ${why}${selects.has(number) ? `; --fn ${selects.get(number)} takes it` : ''}`);
}

/** A line of the countries whose codes a keymap has: each key is named by its place. */
function ofCountries(layers) {
  const names = [...new Set(layers.flat().map(countryOfCode).filter(Boolean).map(country => country.name))];
  return names.length ? [`the keymap has codes of ${names.join(' and ')}; each key is named by its place`] : [];
}
