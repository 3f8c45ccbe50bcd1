// The word that is likely meant by another one.

/** How many letters must be put, taken away or changed to make one text of the other. */
function distance(one, other) {
  let row = Array.from({ length: other.length + 1 }, (_, at) => at);
  for (const [down, letter] of [...one].entries()) {
    const above = row;
    row = [down + 1];
    for (const [at, mark] of [...other].entries()) row.push(Math.min(above[at + 1] + 1, row[at] + 1, above[at] + (mark !== letter)));
  }
  return row.at(-1);
}

/** The nearest of some names, if a third of its letters at most are others; or undefined. */
export function nearest(word, names) {
  const rated = names.map(name => ({ name, far: distance(word.toLowerCase(), name.toLowerCase()) }))
    .filter(({ name, far }) => far * 3 <= Math.max(name.length, word.length)).sort((a, b) => a.far - b.far);
  return rated[0]?.name;
}
