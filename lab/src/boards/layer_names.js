// Layers that a keymap selects by names, as keymaps that were written in C have them.
import { Refused } from './refused.js';

// Codes that select a layer while their key is held, with the layer's name; LOWER and RAISE are such codes by custom.
const SELECTS = /\b(MO|LT|TT|OSL)\(\s*([A-Za-z_]\w*)/g, BY_CUSTOM = /^\s*(LOWER|RAISE)\s*$/;
const TRANSPARENT = ['KC_TRNS', 'KC_TRANSPARENT', '_______'];

/** The names in the order of their first mention, each with the keys of layer 0 that select it. */
function mentionsOf(layers) {
  const found = new Map();
  for (const [number, layer] of layers.entries()) {
    for (const [at, code] of layer.entries()) {
      for (const [, , name] of code.matchAll(SELECTS)) {
        if (!found.has(name)) found.set(name, []);
        if (number === 0) found.get(name).push(at);
      }
    }
  }
  return found;
}

/** The first free layer in which the keys that select it send nothing of their own, since they are held then; or else the
    first free one. */
function likelyLayer(layers, keys, free) {
  const isFitting = number => keys.every(at => at < layers[number].length && TRANSPARENT.includes(layers[number][at].trim()));
  return free.find(isFitting) ?? free[0];
}

/** The layers with numbers for names, and what is told of them. */
export function numberedLayers(keys, codes, chosen) {
  const layers = codes.map(layer => layer.map(code => code.replace(BY_CUSTOM, 'MO($1)'))), names = mentionsOf(layers);
  const numbers = new Map(chosen), guessed = [];
  const strange = [...numbers.keys()].find(name => !names.has(name));
  if (strange !== undefined) throw new Refused(`no key of the keymap selects a layer ${strange}`);
  for (const [name, at] of names) {
    if (numbers.has(name)) continue;
    const taken = new Set(numbers.values()), free = [...layers.keys()].filter(number => number > 0 && !taken.has(number));
    if (!free.length) {
      const where = at.length && at[0] < keys.length ? ` (${keys[at[0]].where})` : '';
      throw new Refused(`which layer ${name}${where} is isn't known, and the keymap has no layer left for it; --layer ${name}=1 says that it is layer 1`);
    }
    numbers.set(name, likelyLayer(layers, at, free));
    guessed.push(`${name} is taken as layer ${numbers.get(name)}`);
  }
  return {
    layers: layers.map(layer => layer.map(code => code.replace(SELECTS, (_, call, name) => `${call}(${numbers.get(name)}`))),
    told: guessed.length ? [`the keymap has names for its layers: ${guessed.join(', ')}; --layer ${[...numbers.keys()][0]}=${numbers.values().next().value === 1 ? 2 : 1} and the like say others`] : [],
  };
}
