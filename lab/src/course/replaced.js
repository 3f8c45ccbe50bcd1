/** A text with these replacements, each of the first place. */
export const replaced = (text, pairs) => pairs.reduce((now, [from, to]) => now.replace(from, () => to), text);
