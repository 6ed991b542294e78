// The reader's page and its JSON: the citation of a request, and the links of a menu in the groups of targets.json.
// text.js says in which njs it runs.
import citation from './citation.js';
import copies from './copies.js';
import coverage from './coverage.js';
import form from './form.js';
import index from './index.js';
import languages from './languages.js';
import lists from './lists.js';
import notices from './notices.js';
import pages from './pages.js';
import texts from './text.js';
import words from './words.js';

const own = texts.own;
const is = texts.is;
const escape = texts.escape;
const word = words.word;
const filled = words.filled;
const NONE = [];
const MOST_ARGS = pages.MOST_ARGS;

function emptyGroups(site) {
    const groups = [];
    const named = site.groups || NONE;
    for (let i = 0; i < named.length; i++) {  // a preloaded array has no methods in njs 0.7.9
        const name = words.textAt(own(named[i], 'name'));
        const label = words.inLanguage(own(named[i], 'label'), site) || name;
        if (name !== '') {
            groups.push({ name, label, onlyWithout: own(named[i], 'onlyWithout'), links: [] });
        }
    }
    if (groups.length > 0) return groups;
    const only = word(site, 'group');
    return [{ name: only, label: only, links: [] }];
}

// A link of program.js as a reader sees it: with the words of targets.json, which edition it is of, if that is not the
// request's own, and what its target has.
function linkOf(found, target, site) {
    const link = { target: found.target, label: words.labelOf(site, found.target), url: found.url };
    const note = words.inLanguage(own(target, 'note'), site);
    if (note !== '') link.note = note;
    if (found.edition !== null) link.edition = found.edition.join(', ');
    if (found.row !== null) addCoverage(link, found.row, site);
    return link;
}
function addCoverage(link, row, site) {
    const data = coverage.dataOf(row);
    if (data === undefined) return;
    link.coverage = data;
    link.covered = coverage.textOf(row, site);
}
// All groups of the site with these links. A target without a group is in the first. One that targets.json does not
// name is in the group that the head of its rules says, if the site has it, and else in the last, unless there is only
// one.
function groupsOf(links, site) {
    const groups = emptyGroups(site);
    const places = Object.create(null);
    groups.forEach((g) => { if (places[g.name] === undefined) places[g.name] = g; });
    const more = word(site, 'more') || 'More';
    const others = site.groups === undefined ? groups[0] : places[more] || { name: more, label: more, links: [] };
    links.forEach((found) => {
        if (!texts.isWeb(found.url)) return;
        const target = languages.objectUnder(site.targets, found.target);
        const group = own(places, groupNameOf(found.target, site)) || (target === undefined ? others : groups[0]);
        group.links.push(linkOf(found, target, site));
    });
    if (!groups.includes(others)) groups.push(others);
    return groups;
}

function groupNameOf(name, site) {
    const target = languages.objectUnder(site.targets, name) || words.headOf(site, name);
    return words.textAt(own(target, 'group'));
}

// The groups that a reader sees: those with links, except where `onlyWithout` names a group that has some.
function shownGroups(groups) {
    const full = groups.filter((g) => g.links.length > 0);
    const names = full.map((g) => g.name);
    return full.filter((g) => !names.includes(g.onlyWithout)).map((g) => {
        if (g.label === g.name) return { name: g.name, links: g.links };
        return { name: g.name, label: g.label, links: g.links };
    });
}

function noteHtml(note) { return note ? `<p>${escape(note)}</p>` : ''; }
function numberText(number, site) { return filled(site, number.includes('-') ? 'issn' : 'isbn', number); }
// The link's name for those who hear it has all that distinguishes it: the edition, and what the target has.
function linkHtml(link, address, site) {
    const edition = link.edition ? filled(site, 'edition', numberText(link.edition, site)) : '';
    const name = pages.isolated(link.label, site) + partHtml(edition) + partHtml(link.covered);
    return `<li>${pages.anchorOf(address, name)}${noteHtml(link.note)}</li>`;
}
// Where the links of targets lead: through /go, which counts them, if the site says so. A link repeats the request, so
// those of many links and a long request lead to the provider at once.
const MOST_REPEATED = 65536;  // bytes of all links of a page
function isCounted(q, links, site) {
    if (!site.isFollowed || q.args === '' || q.args.length > MOST_ARGS) return false;
    const count = links.filter((link) => link.target !== undefined).length;
    return count > 0 && count * q.args.length <= MOST_REPEATED;
}
function addressOf(link, q, site) {
    if (link.target === undefined) return link.url;
    return pages.addressOf('/go', `target=${encodeURIComponent(link.target)}&${q.args}`, site);
}
// The link of a target that the page has, in a group or to the page of the title; undefined if there is none.
function linkTo(q, groups, target) {
    const isOf = (link) => encodeURIComponent(link.target) === target;
    const shown = shownGroups(groups).map((group) => group.links.find(isOf)).find((link) => link !== undefined);
    return shown === undefined ? q.offered.find(isOf) : shown;
}
function partHtml(text) { return text ? ` <span>${escape(text)}</span>` : ''; }

// The link by which a reader sends the request to the library. `{}` in the library's address is the place of the
// request.
const PROBLEM_LINK = /^(?:https?:\/\/|mailto:)[\x21-\x7e]*\{\}[\x21-\x7e]*$/i;
function problemHtml(q, site) {
    const text = word(site, 'problem');
    const link = word(site, 'problemLink');
    if (q.args === '' || text === '' || !is(PROBLEM_LINK, link)) return '';
    const encoded = encodeURIComponent(q.args);
    const request = encoded.includes("'") ? encoded.split("'").join('%27') : encoded;  // nothing is left to escape
    return `<p class="problem"><a href="${escape(link).split('{}').join(request)}">${escape(text)}</a></p>`;
}

// What the reader can do with the request: change it, take it along, come back to it.
function actionsHtml(q, site) {
    if (q.args === '' || q.args.length > MOST_ARGS) return '';
    const args = escape(pages.addressOf('', q.args, site));
    const link = (path, name) => `<li><a href="${path}${args}">${escape(word(site, name))}</a></li>`;
    const links = [link('/cite', 'change'), link('/find.ris', 'ris'), link('/find', 'permanent')];
    return `<ul class="actions">\n${links.join('\n')}\n</ul>`;
}

// What is said of a request without full text: only what is certain.
const NOTICES = {
    number: 'nothing', held: 'held', title: 'unknownTitle', unlisted: 'numberMissing', identifier: 'numberAlone',
    nothing: 'incomplete', page: 'onlyPage'
};
function hasNotice(q, groups) { return groups[0].links.length === 0 && q.maybe.length === 0 && !q.isEmpty(); }
// A journal of the first group may have no link because the request has no year or no volume. Then the page says
// what the group's targets have.
function knowledgeOf(q, groups, site) {
    const isWhole = !q.has('x.issn') || (q.has('x.to') && q.has('rft.volume'));
    if (q.knowledge !== 'number' || isWhole) return q.knowledge;
    const isHeld = heldIn(q, groups[0], site);
    return q.titles.some((it) => it.rows.map(index.rowOf).some(isHeld)) ? 'held' : 'number';
}
// Whether a row is of a target of a group, and may have the year of a request.
function heldIn(q, group, site) {
    return (row) => {
        const target = languages.objectUnder(site.targets, row.target);
        const name = groupNameOf(row.target, site);
        const isOfGroup = site.groups === undefined || name === group.name || (target !== undefined && name === '');
        return isOfGroup && coverage.mayHave(row, q.first('rft.date').slice(0, 4));
    };
}
function noticeHtml(q, groups, site) {
    if (!hasNotice(q, groups)) return '';
    const known = knowledgeOf(q, groups, site);
    const name = q.offered.length > 0 && known === 'number' ? 'page' : known;
    const isOnlyCopy = known === 'number' && q.freeCopy !== null;
    const parts = [pages.notice(isOnlyCopy ? 'onlyCopy' : NOTICES[name] || 'incomplete', site)];
    const isHeld = heldIn(q, groups[0], site);
    if (known === 'held') q.titles.forEach((it) => { parts.push(lists.rowsHtml(it, site, isHeld)); });
    return parts.filter(Boolean).join('\n');
}
// The form, filled in, if more of a citation may find it.
function completeHtml(q, groups, site) {
    const isShort = hasNotice(q, groups) && q.args.length <= MOST_ARGS;
    if (!isShort || knowledgeOf(q, groups, site) === 'number') return '';
    return `<h2>${escape(word(site, 'complete'))}</h2>\n${form.formHtml(q, site)}`;
}
function foundHtml(q, site) {
    if (!q.byTitle) return '';
    const title = pages.isolated(q.byTitle.title, site);
    const number = escape(words.separatorOf(site) + numberText(q.byTitle.standard[0], site));
    return `<p class="found">${filled(site, 'byTitle', '\t').split('\t').map(escape).join(title + number)}</p>`;
}
function listHtml(heading, items) {
    return `<h2>${escape(heading)}</h2>\n<ul>\n${items.join('\n')}\n</ul>`;
}
function linksOf(groups) { return groups.reduce((links, group) => links.concat(group.links), []); }
// The groups that a reader sees, and after that of the full text the pages of the title. Last what is counted of them.
function listsHtml(q, groups, site) {
    const all = copies.placed(shownGroups(groups), groups, q, site);
    const isByGo = isCounted(q, linksOf(all).concat(q.offered), site);
    const toHtml = (link) => linkHtml(link, isByGo ? addressOf(link, q, site) : link.url, site);
    const shown = all.map((g) => listHtml(g.label || g.name, g.links.map(toHtml)));
    const pagesHtml = q.offered.length > 0 ? [listHtml(word(site, 'titlePages'), q.offered.map(toHtml))] : NONE;
    const place = groups[0].links.length > 0 ? 1 : 0;
    const note = isByGo ? [`<p class="counted">${escape(word(site, 'followedNote'))}</p>`] : NONE;
    return shown.slice(0, place).concat(pagesHtml, shown.slice(place), note);
}
function maybeHtml(q, site) {
    if (q.maybe.length === 0) return '';
    const args = q.args.length <= MOST_ARGS ? q.args : '';
    return listHtml(word(site, 'maybe'), q.maybe.map((it) => lists.titleHtml(it, site, args)));
}
function relatedHtml(it, site) {
    const name = it.isLater ? 'later' : 'earlier';
    const key = is(/-/, it.number) ? 'rft.issn=' : 'rft.isbn=';
    const address = pages.addressOf('/find', key + encodeURIComponent(it.number), site);
    const link = pages.anchorOf(address, pages.isolated(it.title, site));
    return `<p class="related">${filled(site, name, '\t').split('\t').map(escape).join(link)}</p>`;
}

// What was found: whose full text, or else the title of what is sought.
const MOST_NAMES = 3;
const RIGHT_TO_LEFT = /[\u0590-\u08ff\ufb1d-\ufdff\ufe70-\ufefc]/;
const MOST_HEADING = 200;  // characters of a title
function namesOf(links, site) {
    const names = [];
    for (let i = 0; i < links.length && names.length <= MOST_NAMES; i++) {
        const name = pages.isolatedText(links[i].label, site);
        if (!names.includes(name)) names.push(name);
    }
    return names;
}
function titleOf(cited, site) {
    const title = cited.title || cited.journal || word(site, 'heading');
    const short = title.length > MOST_HEADING ? `${title.slice(0, MOST_HEADING - 1)}\u2026` : title;
    return is(RIGHT_TO_LEFT, short) ? `\u2068${short}\u2069` : short;
}
function headingOf(q, groups, cited, site) {
    if (site.groups === undefined || q.maybe.length > 0) return titleOf(cited, site);
    const names = namesOf(groups[0].links, site);
    if (names.length === 0) return titleOf(cited, site);
    const listed = names.length === 1 ? names[0] : words.listed(site, names.slice(0, MOST_NAMES));
    const shown = names.length > MOST_NAMES ? filled(site, 'others', listed) : listed;
    return filled(site, 'fullText', shown) || shown;
}
function pageOf(q, groups, site) {
    const cited = citation.citationOf(q, site);
    const heading = headingOf(q, groups, cited, site);
    const title = (cited.title || cited.journal || word(site, 'heading')).slice(0, 100);
    const body = [citation.citationHtml(cited, site)];
    const put = (html) => { if (html !== '') body.push(html); };
    put(foundHtml(q, site));
    notices.linesOf(q, site).forEach(put);
    put(noticeHtml(q, groups, site));
    put(maybeHtml(q, site));
    listsHtml(q, groups, site).forEach(put);
    if (q.titles.length > 0) q.titles[0].related.forEach((it) => { body.push(relatedHtml(it, site)); });
    put(completeHtml(q, groups, site));
    put(actionsHtml(q, site));
    put(problemHtml(q, site));
    return pages.documentOf(title, heading, body, site);
}

// The same as data. What a link's `coverage` says is left to the reader of the data.
function dataOf(q, groups, site) {
    const shown = shownGroups(groups);
    shown.forEach((g) => { g.links.forEach((link) => { delete link.covered; }); });
    const data = { citation: citation.citationOf(q, site), groups: copies.placed(shown, groups, q, site) };
    notices.addTo(data, q);
    if (q.maybe.length > 0) {
        data.maybe = q.maybe.map((it) => ({ title: it.title, numbers: it.standard }));
    }
    const offered = q.offered.map((it) => ({ target: it.target, label: it.label, url: it.url }));
    if (offered.length > 0) data.pages = offered;
    return data;
}

export default { groupsOf, shownGroups, linkTo, pageOf, dataOf };
