// The documents that the page has: docs/OWN-FIRMWARE.md, the long text of the lessons, of which a lesson shows the section that it
// names; and docs/INSTRUCTIONS.md. It reads as much of Markdown as the two have.
import { byId, make } from './dom.js';

const documents = JSON.parse(byId('manual').textContent);

/** The sections of a document, by their titles; what is before the first has the title ''. */
function sectionsIn(text) {
  return new Map(`\n${text}`.split(/^## /m).map((part, n) => {
    const end = part.indexOf('\n');
    return n === 0 ? ['', part.trim()] : [part.slice(0, end), part.slice(end + 1)];
  }));
}

const sections = sectionsIn(documents.firmware), instructions = sectionsIn(documents.instructions);

const MARKED = /`([^`]+)`|\*\*([^*]+)\*\*|\[([^\]]+)\]\([^)]*\)/g;

// A line of text with code, strong words and links, of which the words alone are shown.
function inline(text) {
  const parts = [];
  let from = 0;
  for (const found of text.matchAll(MARKED)) {
    const [whole, code, strong, link] = found;
    parts.push(text.slice(from, found.index), code ? make('code', { textContent: code }) : strong ? make('strong', { textContent: strong }) : link);
    from = found.index + whole.length;
  }
  return [...parts, text.slice(from)];
}

const row = (line, tag) => make('tr', {}, ...line.replace(/^\||\|$/g, '').split('|').map(cell => make(tag, {}, ...inline(cell.trim()))));

// A block of lines: a program's text, a table, a list or a paragraph.
function block(text) {
  const lines = text.split('\n');
  if (lines[0].startsWith('```')) return make('pre', { tabIndex: 0, textContent: lines.slice(1, -1).join('\n') });
  if (lines[0].startsWith('|')) return make('table', {}, make('thead', {}, row(lines[0], 'th')), make('tbody', {}, ...lines.slice(2).map(line => row(line, 'td'))));
  if (lines[0].startsWith('- ')) return make('ul', {}, ...lines.map(line => make('li', {}, ...inline(line.slice(2)))));
  return make('p', {}, ...inline(lines.join(' ')));
}

// A text as elements. A program's text may have empty lines, so it is found first.
const blocksOf = text => text.trim().split(/(^```[^]*?^```$)/m).flatMap(part => (part.startsWith('```') ? [part] : part.trim().split(/\n\n+/))).filter(Boolean).map(block);

/** A section of docs/OWN-FIRMWARE.md as elements. */
export const sectionOf = title => blocksOf(sections.get(title));

const FIRST_WORDS = '**What there is**'; // before them the document speaks of other documents

/** docs/INSTRUCTIONS.md as elements. */
export const instructionTables = () => [...instructions].flatMap(([title, text]) => (title
  ? [make('h4', { textContent: title }), ...blocksOf(text)] : blocksOf(text.slice(text.indexOf(FIRST_WORDS)))));
