// What the services say of a number: Crossref of a DOI, DataCite of that of arXiv, and NCBI of a number of PubMed or
// PMC. It is asked of a number that came without a number and a title of the journal or book, and, if the site wants
// it, of one that came with a title or with an incomplete citation. What a request says stays. text.js says in which
// njs it runs.
import index from './index.js';
import notices from './notices.js';
import numbers from './numbers.js';
import replies from './replies.js';
import texts from './text.js';

const is = texts.is;
const own = texts.own;
const textOf = replies.textOf;
const firstOf = replies.firstOf;
const recordOf = replies.recordOf;
const PMID = /^\d{1,9}$/;
const MOST_IDENTIFIERS = 20;
const NONE = [];
const TITLE_KEYS = ['rft.jtitle', 'rft.btitle', 'rft.title', 'rft.stitle'];

function numbersOf(value, kind) { return numbers.numbersIn(replies.listOf(value, 8).map(textOf), kind, 4); }

// Year, month and day of Crossref as a date, as far as they are known in this order; '' without a year.
function dateOf(issued) {
    const all = own(recordOf(issued), 'date-parts');
    const parts = Array.isArray(all) ? replies.listOf(all[0], 3).map(textOf) : NONE;
    const known = parts.includes('') ? parts.slice(0, parts.indexOf('')) : parts;
    if (!is(/^[12]\d{3}$/, known[0] || '')) return '';
    return known.slice(0, 1).concat(known.slice(1).map((part) => ('0' + part).slice(-2))).join('-');
}

// Each of these gives a record: what fills in the fields of a request, and the notices.
const BOOKS = /^(?:book|monograph|edited-book|reference-book|proceedings)$/;
const CHAPTERS = /^(?:book-|reference-entry|proceedings-article)/;
function ofCrossref(data) {
    const work = recordOf(own(data, 'message'));
    const type = textOf(own(work, 'type'));
    const isBook = is(BOOKS, type);
    const isChapter = is(CHAPTERS, type);
    const title = firstOf(own(work, 'title'));
    const container = firstOf(own(work, 'container-title'));
    const author = replies.firstRecordOf(own(work, 'author'));
    const fields = {
        'rft.genre': [isBook ? 'book' : isChapter ? 'bookitem' : is(/^journal/, type) ? 'article' : ''],
        'rft.atitle': [isBook ? '' : title], 'rft.btitle': [isBook ? title : isChapter ? container : ''],
        'rft.jtitle': [isBook || isChapter ? '' : container],
        'rft.issn': numbersOf(own(work, 'ISSN'), numbers.ISSN), 'rft.isbn': numbersOf(own(work, 'ISBN'), numbers.ISBN),
        'rft.volume': [textOf(own(work, 'volume'))], 'rft.issue': [textOf(own(work, 'issue'))],
        'rft.pages': [textOf(own(work, 'page'))], 'rft.date': [dateOf(own(work, 'issued'))],
        'rft.aulast': [textOf(own(author, 'family'))], 'rft.aufirst': [textOf(own(author, 'given'))]
    };
    return { fields, updates: notices.ofCrossref(work) };
}

// A summary of PubMed; that of PMC has the same form, without the numbers of the journal.
function ofNcbi(data) {
    const result = recordOf(own(data, 'result'));
    const it = recordOf(own(result, firstOf(own(result, 'uids'))));
    const author = replies.firstRecordOf(own(it, 'authors'));
    const fields = {
        'rft.genre': [own(it, 'title') ? 'article' : ''],
        'rft.atitle': [textOf(own(it, 'title')).replace(/\.$/, '')], 'rft.jtitle': [textOf(own(it, 'fulljournalname'))],
        'rft.issn': numbersOf([own(it, 'issn')], numbers.ISSN), 'rft.eissn': numbersOf([own(it, 'essn')], numbers.ISSN),
        'rft.volume': [textOf(own(it, 'volume'))], 'rft.issue': [textOf(own(it, 'issue'))],
        'rft.pages': [textOf(own(it, 'pages'))], 'rft.date': [textOf(own(it, 'pubdate'))],
        'rft.aulast': [textOf(own(author, 'name')).replace(/ [A-Z]{1,3}$/, '')]
    };
    const known = (type) => {
        const all = replies.listOf(own(it, 'articleids'), MOST_IDENTIFIERS).map(recordOf);
        return textOf(own(all.find((one) => own(one, 'idtype') === type), 'value'));
    };
    const pmid = known('pmid');
    fields['x.doi'] = [replies.doiOf(known('doi'))];
    fields['x.pmid'] = [is(PMID, pmid) ? pmid : ''];
    return { fields, updates: notices.ofPubmed(it) };
}

function ofDatacite(data) {
    const it = recordOf(own(recordOf(own(data, 'data')), 'attributes'));
    const title = replies.firstRecordOf(own(it, 'titles'));
    const author = replies.firstRecordOf(own(it, 'creators'));
    const year = textOf(own(it, 'publicationYear'));
    const fields = {
        'rft.genre': [own(title, 'title') ? 'preprint' : ''], 'rft.atitle': [textOf(own(title, 'title'))],
        'rft.date': [is(/^[12]\d{3}$/, year) ? year : ''],
        'rft.aulast': [textOf(own(author, 'familyName')) || textOf(own(author, 'name'))],
        'rft.aufirst': [textOf(own(author, 'familyName')) && textOf(own(author, 'givenName'))]
    };
    return { fields, updates: null };
}

// The path of the proxy for the number of a request, and what reads the reply; null if there is none.
function serviceOf(q) {
    const doi = q.first('x.doi');
    const pmid = q.first('x.pmid');
    if (doi !== '') {
        if (doi.length > replies.MOST_DOI) return null;
        if (!is(/^10\.48550\/arxiv\./i, doi)) return { path: `doi?id=${encodeURIComponent(doi)}`, read: ofCrossref };
        const withoutVersion = doi.replace(/v\d{1,3}$/, '');  // DataCite has one DOI for all versions
        return { path: `arxiv?id=${encodeURIComponent(withoutVersion)}`, read: ofDatacite };
    }
    if (is(PMID, pmid)) return { path: `pmid?id=${pmid}`, read: ofNcbi };
    const pmc = q.pmc();
    return pmc === '' ? null : { path: `pmc?id=${pmc}`, read: ofNcbi };
}

// The keys with which a request says what a field of a reply says.
const TITLES = ['rft.jtitle', 'rft.btitle', 'rft.title'];
const NUMBERS = ['rft.issn', 'rft.eissn', 'rft.isbn', 'rft.eisbn'];
const PAGES = ['rft.pages', 'rft.spage', 'rft.epage', 'rft.artnum'];
const AUTHORS = ['rft.au', 'rft.aulast', 'rft.aufirst', 'rft.auinit', 'rft.auinit1', 'rft.aucorp'];
const SAME = {
    'rft.jtitle': TITLES, 'rft.btitle': TITLES, 'rft.issn': NUMBERS, 'rft.eissn': NUMBERS, 'rft.isbn': NUMBERS,
    'rft.pages': PAGES, 'rft.aulast': AUTHORS, 'rft.aufirst': AUTHORS
};
function says(q, key) {
    return key === 'rft.date' ? q.has('x.from') : (SAME[key] || [key]).some((one) => q.has(one));
}
function fill(q, fields) {
    const lacking = Object.keys(fields).filter((key) => !says(q, key));
    lacking.forEach((key) => {
        const values = fields[key].filter(Boolean);
        if (values.length > 0) q.put(key, values);
    });
    q.readNumbers();
}
// The numbers of a reply beside those of the request, which no title of the index has.
function addNumbers(q, fields) {
    const all = (key) => fields[key] || NONE;
    const issns = all('rft.issn').concat(all('rft.eissn')).filter((it) => !q.issns.includes(it));
    const isbns = all('rft.isbn').filter((it) => !q.isbns.includes(it));
    if (q.issns.length === 1 && issns.length > 0) q.put('rft.eissn', [issns[0]]);
    if (q.isbns.length > 0 && isbns.length > 0) q.put('rft.isbn', q.all('rft.isbn').concat(isbns));
    q.readNumbers();
}

// Fills in what a request lacks. Returns the fields of the reply, null if no service knows the number.
async function ask(r, q) {
    const service = serviceOf(q);
    if (service === null) return null;
    const found = await replies.fetched(r, service.path, service.read);
    if (found === null) return null;
    if (found.updates !== null) {
        q.notices = found.updates.notices;
        q.about = found.updates.about;
    }
    fill(q, found.fields);
    return found.fields;
}

// The look-up of a number that came without a number and a title of the journal or book. Returns whether it was made.
async function complete(r, q) {
    if (!r.variables.openlink_lookup || q.hasNumber() || TITLE_KEYS.some((key) => q.has(key))) return false;
    await ask(r, q);
    return true;
}

// Whether the rules of the targets of a request's titles name a part of the citation that it lacks. The update writes
// into the index which parts they name.
const PARTS = [['date', 'x.from'], ['volume', 'rft.volume'], ['page', 'rft.spage']];
async function lacksNamed(r, q) {
    const lacking = PARTS.filter((it) => !q.has(it[1])).map((it) => it[0]);
    if (lacking.length === 0) return false;
    const named = Object.create(null);
    const bytes = await index.bytesOf(r, 'named');
    bytes.toString().split('\n').map((line) => line.split('\t')).forEach((it) => { named[it[0]] = it[1] || ''; });
    return q.titles.some((it) => it.rows.some((entry) => {
        const parts = (named[index.targetOf(entry)] || '').split(' ');
        return lacking.some((part) => parts.includes(part));
    }));
}
// Whether a number that came beside other things may be looked up.
function mayAskMore(r, q) {
    const hasNumber = q.has('x.doi') || q.has('x.pmid') || q.pmc() !== '';
    return hasNumber && r.variables.openlink_lookup_more === 'on' && Boolean(r.variables.openlink_lookup);
}
// Such a look-up, where the index knows no title of the request, which has one, or its citation lacks what the rules
// name. Returns the fields of the reply, or null.
async function more(r, q, hasTitle) {
    const isKnown = q.titles.length > 0;
    const isWanted = isKnown ? await lacksNamed(r, q) : hasTitle;
    const fields = isWanted ? await ask(r, q) : null;
    if (fields === null || isKnown) return fields;
    addNumbers(q, fields);
    return fields;
}

export default { complete, mayAskMore, more };
