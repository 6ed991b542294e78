// The page for staff: the queries that a request becomes, the program's report on each, and for each target the
// command that explains its link or why it has none. Targets without a row of the title are folded. All text of a
// request or a file is escaped here where it is put into HTML, and quoted where it is put into a command. An
// operator edits nothing here: targets.json names the folder of the registry if it is not the one below.
//
// Only the server for staff loads this file, so no request of a reader meets code that reads files. text.js says in
// which njs it runs.
import fs from 'fs';
import citation from './citation.js';
import completion from './completion.js';
import exchange from './exchange.js';
import form from './form.js';
import pages from './pages.js';
import program from './program.js';
import texts from './text.js';
import words from './words.js';

const FOLDER = '/etc/openlink/current';  // that of openlink@.service
const RULES = ['rules/', 'received/'];   // folders of rule files in it
const NO_ROW = 'no row';
const own = texts.own;
const escape = texts.escape;

// ---------------------------------------------------------------- The registry
function folderOf(site) { return typeof site.folder === 'string' ? site.folder.replace(/\/$/, '') : FOLDER; }
function registryPath(site) { return `${folderOf(site)}/registry.tsv`; }
function inFolder(path, site) { return path.startsWith('/') ? path : `${folderOf(site)}/${path}`; }

// The paths of the code and of the table of each target, by its name.
function registryOf(text) {
    const found = Object.create(null);
    text.split('\r').join('\n').split('\n').forEach((line) => {
        const cells = line.split('\t');
        if (cells.length === 3) found[cells[0]] = { code: cells[1], table: cells[2] };
    });
    return found;
}

// The registry as it is on the disk now, or null.
function readRegistry(site) {
    try {
        return registryOf(fs.readFileSync(registryPath(site), 'utf8'));
    } catch (e) {
        return null;
    }
}

// The rules of code/NAME.olk are NAME.rules in the first folder that has such a file, unless targets.json names them.
function rulesOf(name, code, site, exists) {
    const path = own(own(own(site, 'targets'), name), 'rules');
    if (typeof path === 'string') return inFolder(path, site);
    const file = code.slice(code.lastIndexOf('/') + 1).replace(/\.[^.]*$/, '') + '.rules';
    const paths = RULES.map((folder) => inFolder(folder + file, site));
    return paths.find(exists) || paths[0];
}
function isFile(path) {
    try {
        fs.accessSync(path);
        return true;
    } catch (e) {
        return false;
    }
}

// ---------------------------------------------------------------- Commands
// An argument for a shell. A query has no space and no control character, and `'` means the same there as %27.
function quoted(path) { return `'${path.split("'").join("'\\''")}'`; }
function quotedQuery(query) { return `'${query.split("'").join('%27')}'`; }

// The command for a target of the registry, without its last argument, the query.
function commandOf(name, target, site, exists) {
    return ['openlink explain', quoted(rulesOf(name, target.code, site, exists)), quoted(inFolder(target.table, site))]
        .join(' ');
}

// ---------------------------------------------------------------- HTML
function heading(level, text) { return `<${level}>${escape(text)}</${level}>`; }
function paragraph(text) { return text === '' ? '' : `<p>${escape(text)}</p>`; }
// What the program reads or writes is English, from left to right.
function codeHtml(text) { return `<code lang="en" dir="ltr">${escape(text)}</code>`; }

// The form for another request, open if this one has none.
function formHtml(q, site) {
    const isOpen = site.args === '' ? ' open' : '';
    return [`<details${isOpen}><summary>${escape(words.word(site, 'form'))}</summary>`, form.formHtml(q, site, '/why'),
        '</details>'].join('\n');
}
function queryName(i, site) { return words.filled(site, 'query', String(i + 1)); }
function queriesHtml(queries, site) {
    return queries.map((query, i) => {
        const note = i === 0 ? 'query1Note' : i < queries.length - 1 ? 'queryFurtherNote' : 'query2Note';
        return [heading('h2', queryName(i, site)), paragraph(words.word(site, note)),
            `<pre dir="ltr">${escape(query)}</pre>`].filter(Boolean).join('\n');
    });
}

function rowHtml(it) {
    const name = escape(it.name);
    const cells = it.reasons.map(codeHtml)
        .map((reason, i) => i === it.used ? `<strong>${reason}</strong>` : reason);
    const anchor = `<a href="#target-${name}">${name}</a>`;
    return `<tr><th scope="row">${anchor}</th><td>${cells.join('</td><td>')}</td></tr>`;
}
function tableHtml(reasons, queries, site) {
    const names = [words.word(site, 'target')].concat(queries.map((query, i) => queryName(i, site))).map(escape);
    return ['<table>', `<thead><tr><th scope="col">${names.join('</th><th scope="col">')}</th></tr></thead>`, '<tbody>']
        .concat(reasons.map(rowHtml), ['</tbody>', '</table>']);
}

// Whether a target has a row of the title. The others are folded, unless there is nothing else.
function hasRow(it) { return it.reasons.some((reason) => reason !== '' && reason !== NO_ROW); }
function folded(reasons, site, htmlOf) {
    const first = reasons.filter(hasRow);
    const others = reasons.filter((it) => !hasRow(it));
    if (others.length === 0) return htmlOf(first);
    const summary = `<summary>${escape(words.filled(site, 'withoutRow', String(others.length)))}</summary>`;
    return (first.length === 0 ? [] : htmlOf(first))
        .concat([first.length === 0 ? '<details open>' : '<details>', summary], htmlOf(others), ['</details>']);
}
function reportsHtml(reasons, queries, site) {
    return [heading('h2', words.word(site, 'reports')), paragraph(words.word(site, 'reportsNote'))].filter(Boolean)
        .concat(folded(reasons, site, (some) => tableHtml(some, queries, site)));
}
// What to do about the reason of a target.
function todo(reason) {
    if (texts.is(/^link /, reason)) return 'todoLink';
    return reason === NO_ROW ? 'todoNoRow' : reason === 'no link' ? 'todoNoLink' : 'todoOther';
}

// `last` has the last argument for each query as HTML: to escape a long one for each target would take seconds.
function targetHtml(it, registry, last, site) {
    const target = registry === null ? undefined : registry[it.name];
    const name = escape(it.name);
    const reason = it.reasons[it.used];
    const report = `${escape(queryName(it.used, site))}: ${codeHtml(reason)} ${escape(words.word(site, todo(reason)))}`;
    const command = target ? `${escape(commandOf(it.name, target, site, isFile))} ${last[it.used]}` : '';
    return [`<h3 id="target-${name}">${name}</h3>`, `<p>${report}</p>`,
        target ? `<pre dir="ltr" class="command">${command}</pre>`
            : registry !== null ? paragraph(words.filled(site, 'notInRegistry', registryPath(site))) : '']
        .filter(Boolean).join('\n');
}
function commandsHtml(reasons, queries, site) {
    const registry = readRegistry(site);
    const last = queries.map((query) => escape(quotedQuery(query)));
    const note = registry === null ? words.filled(site, 'noRegistry', registryPath(site))
        : words.word(site, 'commandsNote');
    return [heading('h2', words.word(site, 'commands')), paragraph(note)]
        .concat(folded(reasons, site, (some) => some.map((it) => targetHtml(it, registry, last, site))));
}

// The page for a request and the replies to its queries. It has no reports if the program did not answer.
function pageOf(q, replies, site) {
    const title = words.word(site, 'why');
    const reasons = program.reasonsOf(replies.texts);
    const found = replies.status !== 200 ? [pages.faultHtml(replies.status, site)]
        : reportsHtml(reasons, replies.queries, site).concat(commandsHtml(reasons, replies.queries, site));
    const desk = `<p>${pages.anchor('/desk/', words.word(site, 'desk'))}</p>`;
    const body = [desk, citation.citationHtml(citation.citationOf(q, site), site), formHtml(q, site)]
        .concat(queriesHtml(replies.queries, site), found);
    return pages.documentOf(title, title, body, site);
}

async function why(r) {
    const site = exchange.siteOf(r);
    site.isForStaff = true;
    const q = await completion.queryOf(r, '/_read');
    const replies = q.status === 200 ? await program.reportsOn(r, q.strictTexts())
        : { queries: [], status: q.status, texts: [''] };
    const status = replies.status === 200 ? 200 : program.faultStatus(replies.status);
    exchange.sendPage(r, status, pageOf(q, replies, site), site);
}

export default { registryOf, commandOf, quotedQuery, folderOf, why: exchange.guarded(why) };
