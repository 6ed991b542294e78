// The index of the version in use: the titles of the library's tables by number, by title and by word. docs/INDEX.md
// describes its files, which nginx serves to subrequests alone. A line is found by a search in bytes, and nothing else
// of a file is read. text.js says in which njs it runs.
import crypto from 'crypto';
import numbers from './numbers.js';
import texts from './text.js';

const is = texts.is;
const NONE = [];
const KEY_DIGITS = 3;
const HASH_DIGITS = 13;     // of a title's key, after these
const MOST_LINES = 50;      // of one key
const READ_BYTES = 512;
const PROBED_BYTES = 256;
const PAGE = 50;            // titles of a page of the list
const MOST_LENGTHS = 300;   // bytes of the first line of a page: fifty numbers of at most four digits

function hashed(text, digits) { return crypto.createHash('md5').update(text).digest('hex').slice(0, digits); }

// The bytes of a file; none if there is no such file, or no index.
async function bytesOf(r, name) {
    const reply = await r.subrequest('/index/' + name);
    return reply.status === 200 && reply.responseBuffer ? reply.responseBuffer : Buffer.from('');
}
async function linesOf(r, name) {
    const bytes = await bytesOf(r, name);
    return bytes.toString().split('\n').slice(1, -1);
}

// The lines that begin with a text, as arrays of their cells. njs takes 0.1 microseconds for a byte that it searches in
// a buffer, and a tenth of that in a text, so the file is halved, and little of it is read as text.
function linesWith(bytes, beginning, most) {
    let low = 0;
    let high = bytes.length;
    // The first line sought begins after `low`, and not after the first line end from `high` on.
    while (high - low > READ_BYTES) {
        const middle = (low + high) >> 1;
        const start = startAfter(bytes, middle, beginning.length);
        if (start !== null && start < beginning) low = middle;
        else high = middle;
    }
    let found = null;
    for (let size = high - low + READ_BYTES; found === null; size *= 2) {
        const text = bytes.slice(low, low + size).toString();
        found = linesIn(text, beginning, most, high - low, low + size >= bytes.length);
    }
    return found;
}
// The first characters of the line that begins after a place; null if no line has that many.
const CUT = 4;  // bytes at the end of a part may be those of half a character
function startAfter(bytes, place, length) {
    for (let size = PROBED_BYTES; ; size *= 8) {
        const isEnd = place + size >= bytes.length;
        const text = bytes.slice(place, place + size).toString();
        const at = text.indexOf('\n');
        if (at >= 0 && at + length + (isEnd ? 0 : CUT) < text.length) return text.slice(at + 1, at + 1 + length);
        if (isEnd) return null;
    }
}
// The lines of a text that begin so; null if more may follow after the text, or if it ends before the line of `last`.
function linesIn(text, beginning, most, last, isEnd) {
    const found = [];
    let at = text.indexOf('\n' + beginning);
    if (at < 0) {
        const end = text.indexOf('\n', last);
        return isEnd || (end >= 0 && end + beginning.length + CUT < text.length) ? found : null;
    }
    while (found.length < most && text.startsWith(beginning, at + 1)) {
        const end = text.indexOf('\n', at + 1);
        if (!isEnd && (end < 0 || end + beginning.length + CUT >= text.length)) return null;
        found.push(text.slice(at + 1, end).split('\t'));
        at = end;
    }
    return found;
}

// ---------------------------------------------------------------- Titles
// An entry of COVERAGE, whose target alone is read at first: a page needs few of a title's rows.
function targetOf(entry) { return texts.targetOf(entry.slice(0, entry.indexOf(' '))); }
function rowOf(entry) {
    const parts = entry.split(' ');
    return {
        target: texts.targetOf(parts[0]), part: parts[0], row: parts[1], first: parts[2], last: parts[3],
        embargo: parts[4]
    };
}
// An address is after its target, and `@`.
function isAddress(cell) { return cell.startsWith('@'); }
function pageAt(cell) {
    const at = cell.indexOf(' ');
    return { target: cell.slice(1, at), url: cell.slice(at + 1) };
}
function relatedOf(cell) {
    const at = cell.indexOf(' ');
    return { isLater: cell.startsWith('>'), number: cell.slice(1, at), title: cell.slice(at + 1) };
}
// `numbers` are in the form that finds a row, `standard` as the standards write them, each once, and `rows` entries.
function titleOf(kind, cells) {
    const sent = cells[1].split(' ');
    const standard = [];
    sent.forEach((it) => {
        const number = numbers.standard(it);
        if (!standard.includes(number)) standard.push(number);
    });
    const others = cells.length > 3 ? cells.slice(3) : NONE;
    const pages = others.filter(isAddress);
    return {
        kind, title: cells[0], numbers: sent, standard, rows: cells[2] ? cells[2].split(';') : NONE,
        pages: pages.map(pageAt), related: others.slice(pages.length).map(relatedOf)
    };
}
// The lines of a number, or of a title's key after `=`, of one without its subtitle after `~`, of initials after `^`.
async function cellsOf(r, key) {
    const digits = hashed(key, KEY_DIGITS + HASH_DIGITS);
    const name = is(/^[=~^]/, key) ? key.charAt(0) + digits.slice(KEY_DIGITS) : key;
    const bytes = await bytesOf(r, 'keys/' + digits.slice(0, KEY_DIGITS));
    return linesWith(bytes, name + '\t', MOST_LINES);
}
async function titlesOf(r, key) {
    const lines = await cellsOf(r, key);
    return lines.map((cells) => titleOf(cells[1], cells.slice(2)));
}
async function titlesOfAll(r, keys) {
    const lists = await Promise.all(keys.map((key) => titlesOf(r, key)));
    return distinct(lists.reduce((all, list) => all.concat(list), []));
}
function distinct(list) {
    const known = Object.create(null);
    return list.filter((it) => {
        const name = `${it.kind}${it.title}\t${it.numbers.join(' ')}`;
        const isNew = known[name] !== true;
        known[name] = true;
        return isNew;
    });
}
async function isThere(r) {
    const bytes = await bytesOf(r, 'format');
    return bytes.length > 0;
}

// ---------------------------------------------------------------- The list
// The letters of the list of a kind, with the number of titles and that of the digits of the names of words.
async function lettersOf(r, kind) {
    const text = await linesOf(r, `list/${kind}/letters`);
    const lines = text.map((line) => line.split('\t'));
    if (lines.length === 0) return null;
    return {
        count: Number(lines[0][0]), digits: Number(lines[0][1]),
        letters: lines.slice(1).map((it) => {
            return { letter: it[0], page: Number(it[1]), pages: Number(it[2]), starts: it[4] || '' };
        })
    };
}
// The beginnings of the pages of a letter, which an index before format 4 has among the letters, if at all.
async function startsOf(r, kind, it) {
    if (it.starts !== '') return it.starts;
    const lines = await linesOf(r, `list/${kind}/starts`);
    const line = lines.find((one) => one.startsWith(it.letter + '\t'));
    return line === undefined ? '' : line.slice(it.letter.length + 1);
}
// A page of the list whose lines are read one by one. Its first line has the lengths of the others; it is empty in an
// index before format 4, which is divided as a whole.
async function partsOfPage(r, kind, number) {
    const bytes = await bytesOf(r, `list/${kind}/${number}`);
    const head = bytes.slice(0, MOST_LENGTHS).toString();
    const lengths = head.slice(0, Math.max(0, head.indexOf('\n')));
    if (lengths === '') return { lines: bytes.toString().split('\n').slice(1, -1) };
    const starts = [lengths.length + 1];
    lengths.split(' ').forEach((length, i) => { starts.push(starts[i] + Number(length)); });
    return { bytes, starts };
}
function lineOfPage(page, number) {
    if (page.lines) return page.lines[number];
    if (number + 1 >= page.starts.length) return undefined;
    return page.bytes.slice(page.starts[number], page.starts[number + 1] - 1).toString();
}
function linesOfPage(r, kind, number) { return linesOf(r, `list/${kind}/${number}`); }
async function pageOf(r, kind, number) {
    const lines = await linesOfPage(r, kind, number);
    return lines.map((line) => titleOf(kind, line.split('\t')));
}

export default {
    PAGE, MOST_LINES, hashed, bytesOf, linesWith, targetOf, rowOf, titleOf, cellsOf, titlesOf, titlesOfAll, distinct,
    isThere, lettersOf, startsOf, partsOfPage, lineOfPage, pageOf
};
