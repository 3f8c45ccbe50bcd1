// The two wires as numbers: a level or a pull of each is a bit.

export const CLOCK = 1, DATA = 2, BOTH = 3;

/** Who pulls a wire, as one number: the keyboard's pulls, and the PC's from this bit on. */
export const PC_SIDE = 2;

const FALLS = 11;

/** The cycle at which a byte's frame begins: that of the first of its eleven falls of the clock. `last` is the edge, by its
    number, that completes the byte. */
export function beginOf(edges, last) {
  let begin = edges[last]?.cycle ?? 0;
  for (let at = last, falls = 0; at > 0 && falls < FALLS; at--) {
    if (!(edges[at - 1].levels & CLOCK) || edges[at].levels & CLOCK) continue;
    begin = edges[at].cycle;
    falls++;
  }
  return begin;
}

/** The first place in a list of rising numbers that isn't less than this one; `of` answers the number of an entry. */
export function firstFrom(list, number, of = it => it) {
  let low = 0, high = list.length;
  while (low < high) {
    const middle = (low + high) >> 1;
    if (of(list.at(middle)) < number) low = middle + 1;
    else high = middle;
  }
  return low;
}
