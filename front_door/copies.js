// The free copy of an article, as Unpaywall knows it by the DOI, if the site wants it. The reply chooses the host of
// this one link, which the page shows; it is no link of a target, and neither counted nor followed by /go. text.js says
// in which njs it runs.
import replies from './replies.js';
import texts from './text.js';
import words from './words.js';

const is = texts.is;
const own = texts.own;
const MOST_LOCATIONS = 20;
const MOST_ADDRESS = 2000;
const MOST_HOST = 253;
const NAME = 'Free copy';
// An address of RFC 3986 by TLS, at the usual port, without a user, whose host is a name of two parts or more. Browsers
// read a name whose last part is a number as an IP address. In njs 0.7.9 the flag `i` lets U+017F be an `s`, and U+212A
// a `k`, so that ASCII is a form of its own.
const NO_ASCII = /[^!-~]/;
const LABEL = '[a-z\\d](?:[a-z\\d-]{0,61}[a-z\\d])?';
const ADDRESS = texts.lazy('^https://((?:' + LABEL + '\\.)+(?:[a-z]{2,24}|xn--' + LABEL + '))(?::443)?'
    + '(?:[/?#][\\w.~:/?#\\[\\]@!$&\'()*+,;=%-]*)?$', 'i');
const WITHIN = ' arpa corp home internal intranet lan local localhost onion private ';  // names that no public host has
const VERSIONS = {
    publishedVersion: 'copyPublished', acceptedVersion: 'copyAccepted', submittedVersion: 'copySubmitted'
};

// The host of an address that a reader may follow; '' if it is none.
function hostOf(address) {
    if (typeof address !== 'string' || address.length > MOST_ADDRESS) return '';
    if (is(NO_ASCII, address) || !is(ADDRESS(), address)) return '';
    const host = ADDRESS().exec(address)[1].toLowerCase();
    const last = host.slice(host.lastIndexOf('.') + 1);
    return host.length > MOST_HOST || WITHIN.includes(' ' + last + ' ') ? '' : host;
}
function locationOf(value) {
    const it = replies.recordOf(value);
    const urls = [own(it, 'url'), own(it, 'url_for_pdf'), own(it, 'url_for_landing_page')];
    const url = urls.find((one) => hostOf(one) !== '');
    if (url === undefined) return null;
    const version = replies.textOf(own(it, 'version'));
    return { url, host: hostOf(url), version: own(VERSIONS, version) === undefined ? '' : version };
}
// The best place, or the first one after it that a reader may follow; null if there is none.
function copyIn(data) {
    const all = [own(data, 'best_oa_location')].concat(replies.listOf(own(data, 'oa_locations'), MOST_LOCATIONS));
    return all.map(locationOf).find((it) => it !== null) || null;
}

// Asks for the free copy of a request's article: null if it is not asked for. Preprints of arXiv are unknown there.
function find(r, q) {
    const doi = q.first('x.doi');
    if (doi === '' || r.variables.openlink_free_copies !== 'on' || !r.variables.openlink_lookup) return null;
    return doi.length > replies.MOST_DOI || is(/^10\.48550\/arxiv\./i, doi) ? null : ask(r, q, doi);
}
async function ask(r, q, doi) {
    q.freeCopy = await replies.fetched(r, `copy?id=${encodeURIComponent(doi)}`, copyIn);
}

function groupOf(copy, site) {
    const link = { label: words.filled(site, VERSIONS[copy.version] || 'copyUnknown', copy.host), url: copy.url };
    link.host = copy.host;
    if (copy.version !== '') link.version = copy.version;
    const label = words.word(site, 'freeCopy');
    return label === '' || label === NAME ? { name: NAME, links: [link] } : { name: NAME, label, links: [link] };
}
// The groups that a reader sees, of all groups, with that of the free copy: before the first one that is for loans,
// which are shown only without others, but after the first of all.
function placed(shown, groups, q, site) {
    if (q.freeCopy === null) return shown;
    const loans = groups.filter((g) => g.onlyWithout !== undefined)[0];
    const first = loans === undefined ? 1 : Math.max(1, groups.indexOf(loans));
    const before = groups.slice(0, first).map((g) => g.name);
    const place = shown.filter((g) => before.includes(g.name)).length;
    return shown.slice(0, place).concat([groupOf(q.freeCopy, site)], shown.slice(place));
}

export default { hostOf, copyIn, find, placed };
