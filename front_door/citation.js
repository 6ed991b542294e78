// What a request is for, as data, as HTML and as RIS. text.js says in which njs it runs.
import texts from './text.js';
import words from './words.js';

const clean = texts.clean;
const escape = texts.escape;
const word = words.word;
const filled = words.filled;

function authorOf(q, site) {
    const authors = q.has('rft.au') ? q.all('rft.au').map(clean).filter(Boolean) : [];
    if (authors.length > 3) return filled(site, 'others', authors.slice(0, 3).join('; '));
    if (authors.length > 0) return authors.join('; ');
    const last = clean(q.first('rft.aulast'));
    if (last === '') return clean(q.first('rft.aucorp'));
    const given = clean(q.first('rft.aufirst') || q.first('rft.auinit') || q.first('rft.auinit1'));
    return given === '' ? last : `${last}, ${given}`;
}

// What the page and the JSON say of a request, and the keys that it is taken from.
const CITED = [
    ['title', 'rft.atitle', 'rft.btitle', 'rft.title'],
    ['journal', 'rft.jtitle', 'rft.stitle', 'rft.btitle', 'rft.title'], ['year', 'rft.date'], ['volume', 'rft.volume'],
    ['issue', 'rft.issue'], ['pages', 'rft.pages', 'rft.spage', 'rft.artnum'], ['doi', 'x.doi'], ['pmid', 'x.pmid'],
    ['issn', 'x.issn'], ['isbn', 'x.isbn']
];
function citationOf(q, site) {
    const citation = {};
    const author = authorOf(q, site);
    if (author !== '') citation.author = author;
    CITED.forEach((it) => {
        const found = firstOf(q, it);
        if (found !== '') citation[it[0]] = it[0] === 'year' ? found.slice(0, 4) : found;
    });
    if (citation.journal === citation.title) delete citation.journal;
    return citation;
}
function firstOf(q, keys) {
    let found = '';
    for (let i = 1; found === '' && i < keys.length; i++) found = clean(q.first(keys[i]));
    return found;
}

const NAMED = ['volume', 'issue', 'pages', 'doi', 'pmid', 'issn', 'isbn'];
function textHtml(value) { return `<bdi>${escape(value)}</bdi>`; }
function citationHtml(c, site) {
    const parts = [];
    if (c.author) parts.push(textHtml(c.author));
    if (c.title) parts.push(`<strong>${textHtml(c.title)}</strong>`);
    if (c.journal) parts.push(`<cite>${textHtml(c.journal)}</cite>`);
    if (c.year) parts.push(textHtml(c.year));
    NAMED.forEach((name) => { if (c[name]) parts.push(textHtml(filled(site, name, c[name]))); });
    const all = parts.join(escape(words.separatorOf(site)));
    return `<p class="citation">${all || escape(word(site, 'noCitation'))}</p>`;
}

// The types of RIS for genres, for types of Dublin Core (those of OpenAIRE too), and for the format of a request that
// names neither. A paper of a conference is CONF, since Zotero and EndNote read that as one in published
// proceedings; CPAPER is an unpublished one for EndNote. A preprint is UNPB, which both read as an unpublished work:
// RIS has no type for preprints, and JOUR would name a journal.
const TYPES = {
    article: 'JOUR', journal: 'JOUR', issue: 'JOUR', journalarticle: 'JOUR', book: 'BOOK', document: 'BOOK',
    bookitem: 'CHAP', booksection: 'CHAP', bookpart: 'CHAP', chapter: 'CHAP', dissertation: 'THES', thesis: 'THES',
    bachelorthesis: 'THES', masterthesis: 'THES', doctoralthesis: 'THES', report: 'RPRT', workingpaper: 'RPRT',
    dataset: 'DATA', preprint: 'UNPB', conference: 'CONF', proceeding: 'CONF', proceedings: 'CONF',
    conferencepaper: 'CONF', conferenceobject: 'CONF', conferenceproceedings: 'CONF',
    conferenceorworkshopitem: 'CONF', patent: 'PAT'
};
function typeNamed(name) {
    return texts.own(TYPES, texts.replaced(name.slice(name.lastIndexOf('/') + 1).toLowerCase(), /[^a-z]/g, ''));
}
// As the program finds the format of a request that has none.
function isOfBook(q) {
    const hasIsbn = q.has('rft.isbn') || q.has('rft.eisbn');
    const hasIssn = q.has('rft.issn') || q.has('rft.eissn');
    return (hasIsbn && !hasIssn) || (q.has('rft.btitle') && !q.has('rft.jtitle'));
}
function typeOf(q) {
    const format = q.first('rft_val_fmt');
    const named = typeNamed(q.first('rft.genre')) || typeNamed(q.first('rft.type'))
        || typeNamed(format.slice(format.lastIndexOf(':') + 1));
    const type = named || (isOfBook(q) ? 'BOOK' : 'JOUR');
    return type === 'BOOK' && q.has('rft.atitle') ? 'CHAP' : type;
}
// `clean` leaves no line end in a value, so no value begins a field of its own.
const FIELDS = 'TI title,T2 journal,PY year,VL volume,IS issue,SP first,EP last,SN number,DO doi';
function authorsOf(q) {
    const authors = q.all('rft.au');
    const name = [q.first('rft.aulast'), q.first('rft.aufirst') || q.first('rft.auinit')].filter(Boolean).join(', ');
    return authors.length > 0 ? authors : [name || q.first('rft.aucorp')];
}
function risOf(q, site) {
    const c = citationOf(q, site);
    c.first = q.first('rft.spage');
    c.last = q.first('rft.epage');
    c.number = c.issn || c.isbn;
    const lines = [`TY  - ${typeOf(q)}`];
    const put = (tag, value) => {
        const text = clean(String(value || '')).slice(0, 1000);
        if (text !== '') lines.push(`${tag}  - ${text}`);
    };
    authorsOf(q).forEach((name) => { put('AU', name); });
    if (!c.title) c.title = c.journal;
    FIELDS.split(',').map((field) => field.split(' ')).forEach((field) => {
        if (field[1] !== 'journal' || c.journal !== c.title) put(field[0], c[field[1]]);
    });
    if (c.pmid) put('AN', `PMID ${c.pmid}`);
    return lines.concat(['ER  - ', '']).join('\r\n');
}

export default { citationOf, citationHtml, risOf };
