// What a request lacks, from the library's index and from the services that know its DOI or PubMed number: its
// numbers, its title, the other numbers of that title. The same for the page, the log and the staff. text.js says in
// which njs it runs.
import abbreviations from './abbreviations.js';
import exchange from './exchange.js';
import index from './index.js';
import lookup from './lookup.js';
import numbers from './numbers.js';
import program from './program.js';
import reading from './reading.js';
import texts from './text.js';
import titles from './titles.js';

const is = texts.is;
const NONE = [];
const MOST_FURTHER = 3;  // numbers beside those of the request
const MOST_MAYBE = 20;
const MOST_SIMILAR = 16;  // keys of titles like those of a request
const MOST_LETTERS = 250; // of a title that may be like others
const TITLE_KEYS = { j: ['rft.jtitle', 'rft.title', 'rft.stitle'], b: ['rft.btitle', 'rft.title'] };
TITLE_KEYS[''] = ['rft.jtitle', 'rft.btitle', 'rft.title', 'rft.stitle'];

// The titles that a request has for its journal or book, those of its kind first.
function titlesAsked(q) {
    const found = [];
    TITLE_KEYS[q.kind].concat(TITLE_KEYS[''], ['title']).forEach((key) => {
        const title = q.first(key);
        if (title !== '' && !found.includes(title)) found.push(title);
    });
    return found;
}
function keysAsked(q) {
    return titlesAsked(q).map(titles.keyOf).filter((key, i, all) => key !== '' && all.indexOf(key) === i);
}
function ofKind(q, list) { return list.filter((it) => q.kind === '' || it.kind === q.kind); }

// The kind of title that a request says it wants: `j`, `b`, or '' if it may be either.
const KINDS = { book: 'b', bookitem: 'b', report: 'b', document: 'b', dissertation: 'b', article: 'j', journal: 'j',
    issue: 'j', preprint: 'j' };
function kindAsked(q) {
    const kind = texts.own(KINDS, q.first('rft.genre').trim().toLowerCase());
    if (kind) return kind;
    const format = q.isSent('rft_val_fmt') ? q.first('rft_val_fmt') : '';
    const named = texts.own(KINDS, format.slice(format.lastIndexOf(':') + 1));
    if (named) return named;
    return q.isSent('btitle') ? 'b' : q.isSent('jtitle') || q.isSent('stitle') ? 'j' : '';
}

// Readers paste ISBNs into the field of a title. One that the index knows counts; a title that is nothing else is none.
const NO_TITLE = /^\W*(?:isbn(?:-1[03])?)?[\W\dx]*$/i;
async function addIsbnOfTitle(r, q) {
    const isbns = numbers.numbersIn(titlesAsked(q), numbers.ISBN, 1);
    const known = isbns.length > 0 ? await index.titlesOf(r, isbns[0]) : NONE;
    if (known.length === 0) return false;
    const isNone = (key) => q.has(key) && is(NO_TITLE, q.first(key));
    TITLE_KEYS[''].concat(['title']).filter(isNone).forEach((key) => { q.replace(key); });
    q.put('rft.isbn', isbns);
    q.readNumbers();
    setKind(q, known[0]);
    return true;
}

// A request without a number gets those of the one title of its kind that has its title. Returns the titles that the
// index has for its titles, null if the request has a number.
async function addNumbers(r, q) {
    const hasIsbn = !q.hasNumber() && await addIsbnOfTitle(r, q);
    if (hasIsbn || q.hasNumber()) return null;
    const keys = keysAsked(q);
    let named = NONE;
    for (let i = 0; i < keys.length; i++) {
        const all = await index.titlesOf(r, '=' + keys[i]);
        const found = ofKind(q, all);
        named = named.concat(all);
        if (found.length === 1) addNumbersOf(q, found[0]);
        if (found.length > 0) return named;
    }
    if (keys.length > 0) await addAbbreviated(r, q, true);
    return named;
}
// The titles that the request may abbreviate. One alone gives its numbers if the request agrees by another sign.
async function addAbbreviated(r, q, mayAdd) {
    if (q.kind === 'b') return;
    const found = await abbreviations.titlesOf(r, q, titlesAsked(q));
    q.abbreviated = found.titles;
    if (mayAdd && found.isCertain) addNumbersOf(q, found.titles[0]);
}
function addNumbersOf(q, title) {
    q.byTitle = title;
    const issns = title.numbers.filter(numbers.isIssn);
    if (issns.length > 0) {
        q.put('rft.issn', issns.slice(0, 1));
        if (issns.length > 1) q.put('rft.eissn', issns.slice(1, 2));
    } else {
        q.put('rft.isbn', title.standard.slice(0, 1));
    }
    q.readNumbers();
    setKind(q, title);
}
// The title under the key of its kind, where the request does not say the kind. The program reads the format then.
function setKind(q, found) {
    if (q.kind !== '') return;
    const key = found.kind === 'b' ? 'rft.btitle' : 'rft.jtitle';
    const other = found.kind === 'b' ? 'rft.jtitle' : 'rft.btitle';
    if (!q.isSent(other.slice(4))) q.replace(other);
    if (!q.has(key)) q.put(key, [found.title]);
}

// The ISBN in the DOI of a chapter or a book, such as 10.1007/978-.._3, 10.1016/B978-...00003-5, 10.1017/CBO978...004.
const IN_DOI = texts.lazy('(?:^|[^\\d-])(97[89](?:-?\\d){10})(?!\\d)');
function isbnInDoi(q) {
    const doi = q.first('x.doi');
    const name = doi.slice(doi.indexOf('/') + 1);
    if (!name.includes('97') || !is(IN_DOI(), name)) return NONE;
    return numbers.numbersIn([IN_DOI().exec(name)[1]], numbers.ISBN, 1);
}
function numbersAsked(q) { return q.issns.concat(q.isbns); }

// The title of the numbers, and the other numbers of this title.
async function addTitle(r, q) {
    const asked = numbersAsked(q);
    const inDoi = isbnInDoi(q).filter((it) => !asked.includes(it));
    const sought = asked.concat(inDoi);
    const known = sought.length > 0 ? await titlesFor(r, sought) : NONE;
    q.titles = known;
    if (known.length > 0) {
        if (asked.length === 0) q.put('rft.isbn', inDoi);
        if (TITLE_KEYS[''].every((key) => !q.has(key))) {
            q.put(known[0].kind === 'b' ? 'rft.btitle' : 'rft.jtitle', [known[0].title]);
        }
        q.readNumbers();
        q.further = furtherNumbers(q, known);
    }
}
// The titles of the first number, and those of the numbers that these titles do not have.
async function titlesFor(r, sought) {
    const first = await index.titlesOf(r, sought[0]);
    const rest = sought.slice(1).filter((number) => !first.some((it) => it.standard.includes(number)));
    if (rest.length === 0) return first;
    const others = await index.titlesOfAll(r, rest);
    return first.concat(others.filter((it) => !first.some((one) => one.title === it.title && one.kind === it.kind
        && one.numbers.join(' ') === it.numbers.join(' '))));
}

// The other numbers of the titles, in the form that the tables have; one of them fills the free place of a second ISSN.
const NUMBER = /^[\dX-]{8,17}$/;
function furtherNumbers(q, known) {
    const isbn = q.isbns[0];
    const sent = q.issns.concat(isbn === undefined ? NONE : [isbn]);
    const all = known.reduce((list, it) => list.concat(it.numbers), []);
    const others = all.filter((it, i) => is(NUMBER, it) && !sent.includes(it) && all.indexOf(it) === i);
    const issns = others.filter(numbers.isIssn);
    if (q.issns.length === 1 && issns.length > 0) {
        if (q.first('rft.issn') !== sent[0]) q.put('rft.issn', [sent[0]]);
        q.put('rft.eissn', [issns.shift()]);
    }
    // Those of the request come first.
    const isOwn = (it) => q.isbns.includes(numbers.standard(it));
    const isbns = others.filter((it) => !numbers.isIssn(it));
    return issns.concat(isbns.filter(isOwn), isbns.filter((it) => !isOwn(it))).slice(0, MOST_FURTHER);
}

// The titles that a request may mean, if its numbers are not known: those of its title, then those of a similar one,
// then those of another kind. `known` is what addNumbers has found.
async function addMaybe(r, q, known) {
    if (q.titles.length > 0 || titlesAsked(q).length === 0) return;
    const named = known || await index.titlesOfAll(r, keysAsked(q).map((key) => '=' + key));
    const isOfKind = ofKind(q, named).length > 0;
    if (!isOfKind && q.abbreviated === undefined) await addAbbreviated(r, q, false);
    const abbreviated = isOfKind ? NONE : q.abbreviated || NONE;
    const isFound = isOfKind || abbreviated.length > 0;
    const similar = isFound ? abbreviated : await index.titlesOfAll(r, similarKeys(q));
    const all = index.distinct(named.concat(similar));
    const found = ofKind(q, all);
    q.maybe = (found.length > 0 ? found : all).slice(0, MOST_MAYBE);
}
// Keys of titles with another subtitle or without one, and of those whose umlauts are written as two letters, or whose
// `&` in another language.
function similarKeys(q) {
    const found = [];
    const put = (sign, key) => { if (key !== '' && !found.includes(sign + key)) found.push(sign + key); };
    titlesAsked(q).filter((title) => title.length <= MOST_LETTERS).slice(0, 2).forEach((title) => {
        const written = titles.writtenOut(title);
        const keys = keysWithin(title);
        if (written !== title.toLowerCase()) keysWithin(written).forEach((key) => { keys.push(key); });
        keys.slice(1).concat(withOtherAnd(keys[0])).forEach((key) => { put('=', key); });
        keys.forEach((key) => { put('~', key); });
    });
    return found.slice(0, MOST_SIMILAR);
}
// The key of a title, and those without its subtitle and without brackets before that.
function keysWithin(title) {
    const short = titles.shorter(title);
    return [title, short, titles.shorter(short)].map(titles.keyOf);
}
const ANDS = ' and und et ';
function isAnd(word) { return ANDS.includes(' ' + word + ' '); }
function withOtherAnd(key) {
    const words = key.split(' ');
    if (!words.some(isAnd)) return NONE;
    return ANDS.trim().split(' ').map((and) => words.map((word) => isAnd(word) ? and : word).join(' '));
}

// What is certain of a request: `number` was looked up, `title` is not in the index, `unlisted` is a title without an
// index, an `identifier` alone or `nothing` could not be looked up.
async function knowledgeOf(r, q) {
    if (numbersAsked(q).length > 0 || q.titles.length > 0) return 'number';
    if (titlesAsked(q).length > 0) {
        const isThere = await index.isThere(r);
        return isThere ? 'title' : 'unlisted';
    }
    return q.has('x.doi') || q.has('x.pmid') || q.has('x.oclc') ? 'identifier' : 'nothing';
}

// What a look-up of the number beside other things fills in, if the site wants it, and the title that is then known.
async function addLookedUp(r, q) {
    const wasKnown = q.titles.length > 0;
    const fields = await lookup.more(r, q, titlesAsked(q).length > 0);
    if (fields === null) return;
    q.kind = kindAsked(q);
    if (!q.hasNumber()) await addNumbersNamed(r, q, fields);
    if (!wasKnown) await addTitle(r, q);
}
// The numbers of the one title that a reply names.
async function addNumbersNamed(r, q, fields) {
    const names = (fields['rft.jtitle'] || NONE).concat(fields['rft.btitle'] || NONE);
    const keys = names.map(titles.keyOf).filter(Boolean).map((key) => '=' + key);
    const all = await index.titlesOfAll(r, keys);
    const found = ofKind(q, all);
    if (found.length === 1) addNumbersOf(q, found[0]);
}

async function addFound(r, q) {
    const isLookedUp = await lookup.complete(r, q);
    q.kind = kindAsked(q);
    const named = await addNumbers(r, q);
    await addTitle(r, q);
    if (!isLookedUp && lookup.mayAskMore(r, q)) await addLookedUp(r, q);
    await addMaybe(r, q, named);
}
// The request as the program reads it at a place, `/_menu` or `/_read`, once more if the index or a service knows more.
// Its status is not 200 if the program has not read it; a request without pairs is empty.
async function queryOf(r, place) {
    const q = new reading.Reading(exchange.argsOf(r));
    if (q.args === '') return q;
    await program.read(r, q, place, q.args);
    if (q.status !== 200 || q.isEmpty()) return q;
    await addFound(r, q);
    const isMore = q.hasFound() || (place === '/_menu' && q.further.length > 0);
    if (isMore) await program.read(r, q, place, q.textToRead());
    if (q.status === 200) q.knowledge = await knowledgeOf(r, q);
    return q;
}

export default { queryOf, kindAsked };
