// The pages that providers have for the journal or book of a request, whose addresses the index has (title_url). They
// are offered for targets that have the title and no link, if the request may mean all of it. They are neither links of
// the program nor full text, so no request counts as one that found something by them. text.js says in which njs it
// runs.
import coverage from './coverage.js';
import index from './index.js';
import texts from './text.js';
import words from './words.js';

const MOST_ROWS = 4;  // whose coverage is shown
const NONE = [];

// Whether a journal's article is named so well that a target without a link does not have it.
function isWhole(q) { return q.has('x.issn') && q.has('x.to') && q.has('rft.volume'); }
// Whether a row may be of what is asked for. Nobody here knows what an embargo closes in a year.
function mayBe(row, year) {
    const isOpen = row.embargo === undefined || row.embargo === '-';
    return coverage.mayHave(row, year) && (year === '' || isOpen);
}
function pageOf(title, page, rows, site) {
    const covered = [];
    rows.slice(0, MOST_ROWS).forEach((row) => {
        const text = coverage.textOf(row, site);
        if (text !== '' && !covered.includes(text)) covered.push(text);
    });
    const name = title.kind === 'b' ? 'bookAt' : 'journalAt';
    return {
        target: page.target, label: words.filled(site, name, words.labelOf(site, page.target)), url: page.url,
        covered: covered.join('; ')
    };
}
// The pages for the titles of a request, one of each target that has no link in the groups.
function pagesOf(q, groups, site) {
    if (isWhole(q) || q.titles.every((it) => it.pages.length === 0)) return [];
    const known = Object.create(null);
    groups.forEach((group) => { group.links.forEach((link) => { known[link.target] = true; }); });
    const year = q.first('rft.date').slice(0, 4);
    const found = [];
    q.titles.forEach((title) => { title.pages.forEach((page) => {
        if (known[page.target] === true || !page.url.startsWith('https:') || !texts.isWeb(page.url)) return;
        const rows = title.rows.map(index.rowOf).filter((row) => row.target === page.target && mayBe(row, year));
        if (rows.length === 0) return;
        known[page.target] = true;
        found.push(pageOf(title, page, rows, site));
    }); });
    return found;
}

// The same, and none while a new version is put in use: then the index may be of another version than the process that
// has replied, and so may have a page of a title that its target does not have.
async function offeredTo(r, q, groups, site) {
    const found = pagesOf(q, groups, site);
    if (found.length === 0) return found;
    const reply = await r.subrequest('/_before');
    return reply.status === 204 ? found : NONE;
}

export default { offeredTo, pagesOf };
