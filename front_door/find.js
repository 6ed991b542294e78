// The front door of the link resolver: has the program read a request of any source and find its links, and replies
// with the reader's page, JSON or a redirect. An operator edits nothing here: labels are in targets.json, the page's
// texts in words/. text.js says in which njs it runs.
import browser from './browser.js';
import citation from './citation.js';
import completion from './completion.js';
import contact from './contact.js';
import copies from './copies.js';
import exchange from './exchange.js';
import form from './form.js';
import heads from './heads.js';
import index from './index.js';
import lists from './lists.js';
import log from './log.js';
import menu from './menu.js';
import program from './program.js';
import reading from './reading.js';
import search from './search.js';
import texts from './text.js';
import titlePages from './title_pages.js';

// Reads a request at a place of the program, and gives it and the site to `reply`.
async function ask(r, place, reply) {
    const site = exchange.siteOf(r);
    const q = await completion.queryOf(r, place);
    r.variables.openlink_source = log.sourceOf(q);
    if (q.status !== 200) return exchange.sendFault(r, program.faultStatus(q.status), site);
    return reply(q, site);
}
// The same for a page of links: `reply` gets the groups too, and is called once the free copy is known, if the page has
// it.
async function answer(r, hasCopy, reply) {
    return ask(r, '/_menu', async (q, site) => {
        const copy = hasCopy ? copies.find(r, q) : null;  // beside what follows
        if (q.isEmpty()) return reply(q, menu.groupsOf(reading.NONE, site), site);
        const links = program.linksOf(q);
        await heads.add(r, site, links, q.titles);
        const groups = menu.groupsOf(links, site);
        q.offered = await titlePages.offeredTo(r, q, groups, site);
        logLinks(r, q, groups);
        if (copy !== null) await copy;
        return reply(q, groups, site);
    });
}

function logTargets(r, names) { r.variables.openlink_targets = names.join(','); }
// Writes to the log how many links there are, and the targets that the reader sees.
function logLinks(r, q, groups) {
    const names = [];
    let count = 0;
    groups.forEach((group) => { count += group.links.length; });
    menu.shownGroups(groups).forEach((group) => { group.links.forEach((link) => { names.push(link.target); }); });
    r.variables.openlink_found = `${groups[0].links.length}/${count}`;
    logTargets(r, names);
    const isWanted = groups[0].links.length === 0 && r.variables.openlink_log_wanted === 'on';
    if (isWanted) r.variables.openlink_wanted = log.wantedOf(q);
}

function replyPage(r, q, groups, site) {
    const text = q.isEmpty() ? form.formOf(q, site, browser.bookmarkletHtml(r, site)) : menu.pageOf(q, groups, site);
    exchange.sendPage(r, 200, text, site);
}
async function find(r) {
    return answer(r, true, (q, groups, site) => { replyPage(r, q, groups, site); });
}
async function json(r) {
    return answer(r, true, (q, groups, site) => { exchange.sendJson(r, 200, menu.dataOf(q, groups, site), site); });
}
const UNLOGGED = ['openlink_line', 'openlink_wanted', 'openlink_found', 'openlink_targets', 'openlink_source'];
// Redirects to a link that the page has. It is one that a reader has followed, unless the method is HEAD: then it has a
// line in a log of its own, and none among the requests.
function follow(r, q, link) {
    if (r.variables.openlink_followed === 'on') {
        const click = log.clickOf(q, link.target);
        if (click !== '') {
            UNLOGGED.forEach((name) => { r.variables[name] = ''; });
            if (r.method === 'GET') r.variables.openlink_click = click;
            return r.return(302, link.url);
        }
    }
    logTargets(r, [link.target]);
    r.return(302, link.url);
}
// The page, after the free copy, for which only a page asks.
async function pageAfterCopy(r, q, groups, site) {
    const copy = copies.find(r, q);
    if (copy !== null) await copy;
    replyPage(r, q, groups, site);
}
// The link of `target`, if the page has one. Without `target` the first link, if there is one alone in the first group
// or `first=1` asks for it. Otherwise the page, and so if the request may mean several titles.
async function go(r) {
    const target = exchange.taken(r, 'target');
    const isFirst = exchange.taken(r, 'first') === '1';
    return answer(r, false, (q, groups, site) => {
        if (target !== undefined) {
            const link = menu.linkTo(q, groups, target);
            return link === undefined ? pageAfterCopy(r, q, groups, site) : follow(r, q, link);
        }
        const links = groups[0].links;
        const isOne = links.length === 1 || (isFirst && links.length > 0);
        if (!isOne || q.maybe.length > 0) return pageAfterCopy(r, q, groups, site);
        logTargets(r, [links[0].target]);
        r.return(302, links[0].url);
    });
}

// The form, filled in with what is known of the request.
async function cite(r) {
    return ask(r, '/_read', (q, site) => { exchange.sendPage(r, 200, form.formOf(q, site, ''), site); });
}
async function ris(r) {
    return ask(r, '/_read', (q, site) => {
        r.headersOut['Content-Disposition'] = 'attachment; filename="citation.ris"';
        exchange.send(r, 200, 'application/x-research-info-systems', citation.risOf(q, site));
    });
}

// Journals and books by letter, and those that a search finds.
const LIST = /^\/(journals|books)(?:\/([^\/]{1,20})\/(\d{1,5}))?\/?$/;
const MOST_SOUGHT = 200;
const NO_LETTERS = { count: 0, letters: [] };
async function list(r) {
    const site = exchange.siteOf(r);
    const found = LIST.exec(r.uri);
    if (!site.hasList || found === null) return exchange.sendFault(r, 404, site);
    const kind = found[1] === 'books' ? 'b' : 'j';
    await heads.read(r, site);
    if (found[2] !== undefined) return letter(r, kind, found[2], Number(found[3]), site);
    const text = texts.clean(exchange.valueOf(r, 'q').slice(0, MOST_SOUGHT));
    if (text !== '') {
        const titles = await search.search(r, kind, text, lists.pageIn(exchange.valueOf(r, 'page')));
        return exchange.sendPage(r, 200, lists.searchOf(kind, text, titles, site), site);
    }
    const letters = await index.lettersOf(r, kind);
    exchange.sendPage(r, 200, lists.startOf(kind, letters || NO_LETTERS, site), site);
}
async function letter(r, kind, name, page, site) {
    const found = await index.lettersOf(r, kind);
    const letters = found || NO_LETTERS;
    const it = letters.letters.find((one) => one.letter === name);
    if (it === undefined || page < 1 || page > it.pages) return exchange.sendFault(r, 404, site);
    it.starts = it.pages > 1 ? await index.startsOf(r, kind, it) : '';
    const titles = await index.pageOf(r, kind, it.page + page - 1);
    exchange.sendPage(r, 200, lists.letterOf(kind, letters, it, page, titles, site), site);
}

// For the operator: why each target has a link or none, for a query of any source.
async function report(r) {
    return ask(r, '/_read', async (q, site) => {
        const reports = await program.reportsOn(r, q.strictTexts());
        if (reports.status !== 200) return exchange.sendFault(r, program.faultStatus(reports.status), site);
        exchange.send(r, 200, 'text/plain', program.joinedReports(reports.texts));
    });
}

// The site's search, for browsers.
function opensearch(r) {
    const site = exchange.siteOf(r);
    exchange.sendIn(r, site, 200, 'application/opensearchdescription+xml', browser.searchOf(r, site));
}

// Whom to tell of a weakness, if the site says it (RFC 9116). The reply is valid for a part of a year, from today.
function security(r) {
    const text = contact.textOf(String(r.variables.openlink_security || ''), Date.now());
    if (text === '') return exchange.sendFault(r, 404, exchange.siteOf(r));
    exchange.send(r, 200, 'text/plain', text);
}

// The page in place of nginx's own text.
function fault(r) { exchange.sendFault(r, Number(r.variables.status) || 503, exchange.siteOf(r)); }

export default {
    find: exchange.guarded(find), json: exchange.guarded(json), go: exchange.guarded(go), cite: exchange.guarded(cite),
    ris: exchange.guarded(ris), list: exchange.guarded(list), report: exchange.guarded(report),
    opensearch: exchange.guarded(opensearch), security: exchange.guarded(security), fault: exchange.guarded(fault)
};
