// A search of the list of titles: by words, of which a reader may give the beginnings, or by numbers. docs/INDEX.md
// describes the files that it reads. text.js says in which njs it runs.
import index from './index.js';
import numbers from './numbers.js';
import texts from './text.js';
import titles from './titles.js';

const is = texts.is;
const NONE = [];
const PAGE = index.PAGE;    // titles of a page of the list, and of a search
const MOST_FEW = 64;        // places in the lines of a beginning that is in few titles
const MOST_WORDS = 6;
const MOST_LETTERS = 60;    // of a word: the index has no more
const MOST_CHECKS = 2000;   // places of the rarest word

// ---------------------------------------------------------------- Words
// A set of places: `list`, `bytes` of four a place, or `bits`. Those of all words that begin so.
function setOf(bytes, length, cells) {
    const count = Number(cells[1]);
    const at = length + Number(cells[2].slice(1));
    if (cells[2].startsWith('@')) return { count, bytes: bytes.slice(at, at + 4 * count) };
    return { count, bits: bytes.slice(at) };
}
async function placesOf(r, kind, word, digits) {
    const beginning = word.slice(0, 3);
    const bytes = await index.bytesOf(r, `words/${kind}/${index.hashed(beginning, digits)}`);
    if (bytes.length === 0) return { count: 0, list: NONE };
    const length = Number(bytes.slice(0, bytes.indexOf('\n')).toString());
    const lines = index.linesWith(bytes.slice(0, length), word.length < 3 ? word + '\t' : word, MOST_FEW);
    if (lines.length > 0 && is(/^[@#]/, lines[0][2])) return setOf(bytes, length, lines[0]);
    const places = Object.create(null);
    lines.forEach((cells) => { cells[2].split(' ').forEach((place) => { places[place] = true; }); });
    const list = Object.keys(places).map(Number).sort((a, b) => a - b);
    return { count: list.length, list, has: places };
}
function hasPlace(set, place) {
    if (set.list) return set.has !== undefined && set.has[place] === true;
    if (set.bits) return ((set.bits[place >> 3] || 0) >> (7 - (place & 7)) & 1) === 1;
    let low = 0;
    let high = set.count - 1;
    while (low <= high) {
        const middle = (low + high) >> 1;
        const found = set.bytes.readUInt32BE(middle * 4);
        if (found === place) return true;
        if (found < place) low = middle + 1; else high = middle - 1;
    }
    return false;
}
// The first places of a set, ascending.
function firstPlaces(set, most) {
    if (set.list) return set.list.slice(0, most);
    const found = [];
    if (set.bytes) {
        for (let i = 0; i < set.count && i < most; i++) found.push(set.bytes.readUInt32BE(i * 4));
        return found;
    }
    for (let i = 0; i < set.bits.length && found.length < most && found.length < set.count; i++) {
        const byte = set.bits[i];
        for (let bit = 0; byte !== 0 && bit < 8; bit++) {
            if (byte >> (7 - bit) & 1 && found.length < set.count) found.push(i * 8 + bit);
        }
    }
    return found.slice(0, most);
}

// ---------------------------------------------------------------- Titles
// A page of the list, which a search reads once.
function pageOf(list, number) {
    const known = list.known[number];
    return known || (list.known[number] = index.partsOfPage(list.r, list.kind, number));
}
// The titles at these places of the list.
async function titlesAt(list, places) {
    const pages = await Promise.all(places.map((place) => pageOf(list, Math.floor(place / PAGE))));
    return places.map((place, i) => index.lineOfPage(pages[i], place % PAGE)).filter(Boolean)
        .map((line) => index.titleOf(list.kind, line.split('\t')));
}
// The first of the places from `low` to `high` whose title has no key that is before; `high` if there is none.
async function firstPlace(list, low, high, isBefore) {
    let first = low;
    let end = high;
    while (first < end) {
        const middle = (first + end) >> 1;
        const page = await pageOf(list, Math.floor(middle / PAGE));
        const line = index.lineOfPage(page, middle % PAGE);
        if (line !== undefined && isBefore(titles.keyOf(line.slice(0, line.indexOf('\t'))))) first = middle + 1;
        else end = middle;
    }
    return first;
}
// The places of at most `most` titles whose keys begin with a key. They follow each other in the list, the title that
// has this key first, since each letter is in the order of its keys.
async function placesWith(list, key, letters, most) {
    const name = is(/^[0-9]/, key) ? '0-9' : key.charAt(0);
    const it = letters.find((one) => one.letter === name) || letters.find((one) => one.letter === 'other');
    if (it === undefined) return NONE;
    const end = (it.page + it.pages) * PAGE;
    const first = await firstPlace(list, it.page * PAGE, end, (other) => other < key);
    const isWith = (other) => other.startsWith(key);
    const last = await firstPlace(list, first, Math.min(first + most, end), isWith);
    const places = [];
    for (let place = first; place < last; place++) places.push(place);
    return places;
}

// The page of what is found that a reader has asked for, the last one if there are fewer.
function partOf(all, asked) {
    const pages = Math.max(1, Math.ceil(all.length / PAGE));
    const page = Math.min(asked, pages);
    return { page, pages, its: all.slice((page - 1) * PAGE, page * PAGE) };
}
// A page of the titles that have all words of a text, or a number in it: at most fifty, and how many there are in all:
// `isMore` if only the first of the rarest word's were looked at. Null if the text has neither.
async function search(r, kind, text, page) {
    const found = numbers.numbersIn([text], numbers.ISSN, 2).concat(numbers.numbersIn([text], numbers.ISBN, 2));
    if (found.length > 0) {
        const all = await index.titlesOfAll(r, found);
        const ofKind = all.filter((it) => it.kind === kind);
        const part = partOf(ofKind, page);
        return { titles: part.its, page: part.page, pages: part.pages, count: ofKind.length, isMore: false };
    }
    const words = titles.wordsOf(text);
    const known = words.map((word) => word.slice(0, MOST_LETTERS));
    const sought = known.filter((word, i) => word.length > 1 && known.indexOf(word) === i).slice(0, MOST_WORDS);
    if (sought.length === 0) return null;
    const letters = await index.lettersOf(r, kind);
    if (letters === null) return { titles: NONE, page: 1, pages: 1, count: 0, isMore: false };
    const sets = await Promise.all(sought.map((word) => placesOf(r, kind, word, letters.digits)));
    const list = { r, kind, known: Object.create(null) };
    return joined(list, words.join(' '), letters.letters, sets, page);
}
// The titles that begin with the text come first, and all others in the order of the list.
async function joined(list, key, letters, sets, page) {
    const rare = sets.reduce((a, b) => a.count <= b.count ? a : b);
    const others = sets.filter((set) => set !== rare);
    const first = rare.count === 0 ? NONE : await placesWith(list, key, letters, Math.min(rare.count, MOST_CHECKS));
    const isFirst = (place) => first.length > 0 && place >= first[0] && place <= first[first.length - 1];
    const checked = firstPlaces(rare, MOST_CHECKS);
    const rest = checked.filter((place) => !isFirst(place) && others.every((set) => hasPlace(set, place)));
    const places = first.concat(rest).slice(0, MOST_CHECKS);
    const part = partOf(places, page);
    const its = await titlesAt(list, part.its);
    const isMore = others.length > 0 && rare.count > checked.length;
    const count = others.length === 0 ? rare.count : places.length;
    return { titles: its, page: part.page, pages: part.pages, count, isMore };
}

export default { firstPlace, search };
