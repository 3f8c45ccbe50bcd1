// From the keys of a board to columns and rows here: twelve columns of eight rows, the band of each diode at the column.
import { Place, Refused } from './refused.js';

const COLUMNS = 12, ROWS_OF_A_COLUMN = 8;
const unsaidDiodes = (line, direction) => `it doesn't say how its diodes stand: its ${line} is taken as a column here, so the band of `
  + `each diode must be at its ${line} (${direction})`;

/** Places one after another, column by column; keys that send nothing have none if there are too many. */
function countedPlaces(roles) {
  const most = COLUMNS * ROWS_OF_A_COLUMN;
  let number = 0;
  const own = roles.filter(role => !role.beside), places = new Map(own.map(role => {
    if (own.length > most && !role.sends && !role.isFn) return [role, null];
    if (number === most) {
      throw new Refused(`${role.key.where} is one key too many: there are ${most} places; --without ${role.key.number} leaves it out`);
    }
    return [role, new Place(number % ROWS_OF_A_COLUMN, Math.floor(number++ / ROWS_OF_A_COLUMN))];
  }));
  return roles.map(role => places.get(role.beside ?? role));
}

/** Whether the places of a board's keys are counted, since its file has none or the words ask for it. */
export const isCounted = (board, choices) => choices.counted || (board.tool === 'editor' && !board.keys.some(key => key.place));

// The matrix of a board: its places, how many rows and columns they take.
class Matrix {
  constructor(places) {
    Object.assign(this, { places, rows: 1 + Math.max(...places.map(it => it.row)), columns: 1 + Math.max(...places.map(it => it.column)) });
    // Into how many parts each column must be cut, so that none has more than eight rows; how many rows the first has.
    this.parts = Math.ceil(this.rows / ROWS_OF_A_COLUMN);
    this.length = Math.ceil(this.rows / this.parts);
  }

  turned() { return new Matrix(this.places.map(({ row, column }) => new Place(column, row))); }

  get fits() { return this.rows <= ROWS_OF_A_COLUMN && this.columns <= COLUMNS; }

  get fitsCut() { return this.parts * this.columns <= COLUMNS; }

  /** The places with each column cut: its parts are columns beside each other. */
  cut() {
    return this.places.map(({ row, column }) => new Place(row % this.length, column * this.parts + Math.floor(row / this.length)));
  }
}

/** The places of the board's own matrix, rows for columns if its diodes ask for it; null if it doesn't fit so. */
function inOwnMatrix(board, own) {
  const turned = own.turned(), straight = { places: own.places, how: "those of the board's matrix" };
  const other = { places: turned.places, how: "those of the board's matrix, its rows as columns here" };
  const asking = (wiring, ...asks) => ({ ...wiring, asks, anew: false });
  if (board.diodes === 'COL2ROW') {
    return turned.fits
      ? asking(other, 'its diodes are COL2ROW, the band at its row, so its rows are columns here and its columns rows') : null;
  }
  if (board.diodes === 'ROW2COL') {
    return own.fits
      ? asking(straight, 'its diodes are ROW2COL, the band at its column, so its rows and columns are those here') : null;
  }
  if (own.fits) {
    return asking(straight, unsaidDiodes('column', 'ROW2COL') + (turned.fits ? '; --diodes COL2ROW takes the other way' : ''));
  }
  return turned.fits ? asking(other, unsaidDiodes('row', 'COL2ROW')) : null;
}

/** The places of the board's matrix with its rows cut, or its columns, or its diodes turned, so that they fit; or null. */
function cutAnew(board, own) {
  const turned = own.turned(), asItIs = { matrix: own, line: 'column', other: 'row', diodes: 'ROW2COL' };
  const chosen = board.diodes === 'ROW2COL' && own.fitsCut ? asItIs
    : turned.fitsCut ? { matrix: turned, line: 'row', other: 'column', diodes: 'COL2ROW' }
      : own.fitsCut ? asItIs : null;
  if (!chosen) return null;
  const { matrix, line, other, diodes } = chosen, { parts, length, rows } = matrix;
  if (parts === 1) {
    return {
      places: matrix.places, how: `those of the board's matrix, its ${line}s as columns here`,
      asks: [`its ${line}s are columns here and its ${other}s rows, and each of its diodes is turned: the band is at its ${line}`],
    };
  }
  const count = Array.from({ length: rows }, (_, at) => at);
  const cuts = count.slice(0, parts).map(part => `${other}s ${spansOf(count.slice(part * length, (part + 1) * length))} column ${part}`);
  const joins = count.slice(0, length).map(at => `row ${at} here is ${other}s ${count.filter(it => it % length === at).join(' and ')}`);
  return {
    places: matrix.cut(), how: `those of the board's matrix, each ${line} cut into ${parts} columns here`,
    asks: [`each of its ${line}s is cut into ${parts} columns here: of ${line} 0 ${cuts.join(', ')}; and so on, ${parts} columns here for each ${line}`,
      `its ${other}s are joined: ${joins.join('; ')}`,
      'the band of each diode is at the column here, which is a part of its '
        + `${line}, ${board.diodes === diodes ? 'as it is now' : 'whatever it is now'}`],
  };
}

/** Places for a board whose own matrix doesn't fit: which has to be wired anew. */
function placedAnew(board, own, roles) {
  const size = `its matrix has ${own.rows} rows of ${own.columns} columns${board.diodes ? ` and its diodes are ${board.diodes}` : ''}, which twelve `
    + "columns of eight rows can't take as they are, so it must be wired anew";
  const { places, how, asks } = cutAnew(board, own) ?? {
    places: countedPlaces(roles), how: 'chosen for it, eight keys a column',
    asks: ["its keys are placed eight a column, in the file's order, the band of each diode at the column"],
  };
  return { places, how, asks: [size, ...asks], anew: true };
}

/** No two keys have one place, and none is outside the matrix, if its size is known. */
function judgePlaces(board, places) {
  const seen = new Set(), { rows, columns } = board;
  for (const place of places) {
    if (seen.has(`${place}`)) throw new Refused(`two keys have the place ${place} in the matrix; with --count the keys are counted, for a board that is wired so`);
    if (place.row >= (rows || place.row + 1) || place.column >= (columns || place.column + 1)) {
      throw new Refused(`a key has the place ${place}, and its matrix ${rows ?? 'None'} rows of ${columns ?? 'None'} columns`);
    }
    seen.add(`${place}`);
  }
}

/** Numbers as people list them: 0 to 3, 5. */
function spansOf(numbers) {
  const parts = [];
  for (const number of [...numbers].sort((a, b) => a - b)) {
    if (parts.at(-1)?.[1] === number - 1) parts.at(-1)[1] = number;
    else parts.push([number, number]);
  }
  return parts.map(([first, last]) => (first === last ? `${first}` : `${first} to ${last}`)).join(', ');
}

/** For each key of a board of two halves whether it is in the right one; null if it is in one piece. Halves have rows of their
    own in the matrix, or else a gap between them, as wide as a key. */
function rightHalf(board) {
  const { keys } = board;
  if (board.split && board.rows && keys.every(key => key.place)) return keys.map(key => key.place.row >= Math.floor(board.rows / 2));
  const ordered = [...keys].sort((a, b) => a.x - b.x);
  let reach = 0;
  for (const [number, key] of ordered.entries()) {
    if (key.x - reach >= 1 && ordered.length <= 4 * number && 4 * number <= 3 * ordered.length) return keys.map(other => other.x >= key.x);
    reach = Math.max(reach, key.x + key.width);
  }
  return null;
}

/** A line of the wires that both halves of a split board need, which pass from the one to the other. */
function sharedWires(board, places) {
  const right = rightHalf(board);
  if (!right) return [];
  const wires = ['column', 'row'].flatMap(name => {
    const [left, other] = [false, true].map(side => new Set(places.filter((place, at) => place && right[at] === side).map(place => place[name])));
    const both = [...left].filter(number => other.has(number));
    return both.length ? [`${name}s ${spansOf(both)}`] : [];
  });
  return wires.length
    ? [`its halves share ${wires.join(' and ')}, and one processor reads both: each wire of the right half passes to the left one`] : [];
}

/** The place of each key here, null if it needs none; how that was found, and what it asks of the board. */
export function wiringOf(board, choices, roles) {
  const places = board.keys.map(key => key.place).filter(Boolean);
  let wiring;
  if (isCounted(board, choices)) {
    if (choices.diodes && !choices.counted) throw new Refused('its keys have no places in a matrix, so --diodes says nothing of them');
    wiring = {
      places: countedPlaces(roles), how: 'counted, column by column', anew: false,
      asks: ['its keys are counted, eight a column, and the board must be wired so, the band of each diode at the column'],
    };
  } else {
    const lost = board.keys.find(key => !key.place);
    if (lost) throw new Refused(`${lost.where} has no place in the matrix; with --count the keys are counted, for a board that is wired so`);
    judgePlaces(board, places);
    if (choices.diodes && board.diodes && choices.diodes !== board.diodes) throw new Refused(`it says that its diodes are ${board.diodes}`);
    const known = { ...board, diodes: board.diodes ?? choices.diodes }, own = new Matrix(places);
    wiring = inOwnMatrix(known, own) ?? placedAnew(known, own, roles);
  }
  return { ...wiring, asks: [...wiring.asks, ...sharedWires(board, wiring.places)] };
}
