// Notices of retractions and corrections, as Crossref and PubMed have them in the record of an article, and in that of
// the notice itself, which is not what was retracted. The program knows the remarks that sources write into titles.
// text.js says in which njs it runs.
import pages from './pages.js';
import replies from './replies.js';
import texts from './text.js';
import words from './words.js';

const is = texts.is;
const own = texts.own;
const escape = texts.escape;
const word = words.word;
const textOf = replies.textOf;
const MOST_READ = 200;
const MOST_NOTICES = 10;
const MOST_SOURCE = 60;  // characters
const NONE = [];
const NOTHING = { notices: NONE, about: NONE };
const KINDS = { retraction: 'retraction', correction: 'correction', corrigendum: 'correction', erratum: 'correction' };

// A notice as { kind, doi, source }, each '' if it is not known; null if it is of another kind.
function noticeOf(value) {
    const it = replies.recordOf(value);
    const kind = own(KINDS, textOf(own(it, 'type')).toLowerCase());
    if (kind === undefined) return null;
    return { kind, doi: replies.doiOf(own(it, 'DOI')), source: textOf(own(it, 'source')).slice(0, MOST_SOURCE) };
}
// Those of a list, retractions first, each once.
function noticesIn(value) {
    const known = Object.create(null);
    const all = replies.listOf(value, MOST_READ).map(noticeOf).filter((it) => {
        const name = it === null ? '' : `${it.kind} ${it.doi.toLowerCase()}`;
        const isNew = it !== null && known[name] !== true;
        known[name] = true;
        return isNew;
    });
    return all.filter(isRetraction).concat(all.filter((it) => !isRetraction(it))).slice(0, MOST_NOTICES);
}
function isRetraction(it) { return it.kind === 'retraction'; }
function isSame(doi, other) { return doi !== '' && doi.toLowerCase() === other.toLowerCase(); }

// `updated-by` has the notices about an article, and `update-to` what a notice is about. Where a publisher has put the
// notice in the place of the article, both are the article's own DOI.
function ofCrossref(work) {
    const doi = replies.doiOf(own(work, 'DOI'));
    const all = noticesIn(own(work, 'update-to'));
    const ofItself = all.filter((it) => isSame(it.doi, doi));
    const by = noticesIn(own(work, 'updated-by'));
    const notices = by.concat(ofItself.filter((it) => !by.some((one) => one.kind === it.kind)));
    return { notices, about: all.filter((it) => it.doi !== '' && !isSame(it.doi, doi)) };
}

// PubMed says by the type of a record that it was retracted, and names the notice in a reference of that kind.
const WITH_DOI = texts.lazy('\\b10\\.\\d{4,9}/[^\\s;,]+');
function ofPubmed(it) {
    if (!replies.listOf(own(it, 'pubtype'), MOST_READ).map(textOf).includes('Retracted Publication')) return NOTHING;
    const references = replies.listOf(own(it, 'references'), MOST_READ).map(replies.recordOf);
    const notice = references.find((one) => is(/^(?:partial )?retraction in$/i, textOf(own(one, 'reftype'))));
    const text = textOf(own(notice, 'refsource'));
    const doi = is(WITH_DOI(), text) ? replies.doiOf(WITH_DOI().exec(text)[0]) : '';
    return { notices: [{ kind: 'retraction', doi, source: 'pubmed' }], about: NONE };
}

const NAMES = { 'retraction-watch': 'Retraction Watch', pubmed: 'PubMed' };
function sourceText(source, site) {
    return source === 'publisher' ? word(site, 'sourcePublisher') : own(NAMES, source) || source;
}
// A text of the page with a link in the place of `{}`.
function withLink(name, link, site) { return words.filled(site, name, '\t').split('\t').map(escape).join(link); }
function noticeHtml(it, site) {
    const parts = [`<strong>${escape(word(site, isRetraction(it) ? 'wasRetracted' : 'wasCorrected'))}</strong>`];
    if (it.doi !== '') parts.push(withLink('notice', pages.doiLink(it.doi), site));
    if (it.source !== '') parts.push(escape(words.filled(site, 'noticeSource', sourceText(it.source, site))));
    return `<p class="${isRetraction(it) ? 'retracted' : 'corrected'}">${parts.join(' ')}</p>`;
}
// The line leads to what the library has of the article.
function aboutHtml(it, site) {
    const address = pages.addressOf('/find', 'rft_id=' + encodeURIComponent('info:doi/' + it.doi), site);
    const link = pages.anchor(address, words.filled(site, 'doi', it.doi));
    return `<p class="about">${withLink('isNotice', link, site)}</p>`;
}
// What is above the links: what the record of a look-up says, else the remark of the source.
function linesOf(q, site) {
    const lines = q.notices.map((it) => noticeHtml(it, site));
    if (q.isRetracted && !q.notices.some(isRetraction)) {
        lines.unshift(`<p class="retracted"><strong>${escape(word(site, 'retracted'))}</strong></p>`);
    }
    return lines.concat(q.about.map((it) => aboutHtml(it, site)));
}
// The same as data; what is not known is left out.
function addTo(data, q) {
    const known = (it) => {
        const found = { kind: it.kind };
        if (it.doi !== '') found.doi = it.doi;
        if (it.source !== '') found.source = it.source;
        return found;
    };
    if (q.isRetracted || q.notices.some(isRetraction)) data.retracted = true;
    if (q.notices.length > 0) data.notices = q.notices.map(known);
    if (q.about.length > 0) data.noticeAbout = q.about.map(known);
}

export default { ofCrossref, ofPubmed, linesOf, addTo };
