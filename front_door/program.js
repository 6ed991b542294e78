// The program's replies: subrequests to its processes, the links of a request, and the reports of all queries joined.
// text.js says in which njs it runs.
import index from './index.js';
import numbers from './numbers.js';
import reading from './reading.js';
import texts from './text.js';

const is = texts.is;

// The status and text of a reply of the program, and the address of the process that gave it. A process that ends while
// it writes leaves a reply that is shorter than its head says, which nginx gives as status 200: it counts as no reply,
// since a page without links would be wrong.
async function replyOf(r, place, args) {
    const reply = await r.subrequest(place, { args });
    const bytes = reply.responseBuffer || Buffer.from('');
    const isWhole = reply.status !== 200 || reply.headersOut['Content-Length'] === String(bytes.length);
    return {
        status: isWhole ? reply.status : 502, text: isWhole ? bytes.toString() : '',
        process: lastOf(String(reply.variables.upstream_addr))
    };
}
// The last of the addresses that nginx has tried.
function lastOf(addresses) { return addresses.slice(addresses.lastIndexOf(' ') + 1); }
// Asks the program, and once more if no process replies: all of them are back within 400 ms of a restart.
async function ask(r, place, args) {
    const reply = await replyOf(r, place, args);
    if (reply.status !== 502) return reply;
    await new Promise(function (done) { setTimeout(done, 400); });
    return replyOf(r, place, args);
}
function isLost(reply) { return reply.status === 502 || reply.status === 504; }
// Asks the program for the reading of a request's text, and at `/_menu` for its links and those for further numbers,
// and gives both to the request, with the status of the reply.
async function read(r, q, place, text) {
    if (text.length > reading.MOST_BYTES) {
        q.status = 413;
        return;
    }
    const numbered = place === '/_menu' && q.further.length > 0 ? `/_menu/${q.further.join(',')}` : place;
    const reply = await ask(r, numbered, text);
    q.status = reply.status;
    if (reply.status === 200) q.take(JSON.parse(reply.text));
}

// The replies of one process to all queries. While a new version is put in use, some processes have it and others the
// one before, and a page of both would be wrong. The first reply alone if it is none.
async function repliesOfOne(r, queries) {
    const first = await ask(r, '/_report', queries[0]);
    if (first.status !== 200) return [first];
    r.variables.openlink_process = first.process;
    const others = await Promise.all(queries.slice(1).map((query) => replyOf(r, '/_report_there', query)));
    return [first].concat(others);
}
// The reports on all queries, asked once more if the process does not reply to all; gives the texts, and the status:
// 200 only if all replies have it, else the greatest other.
async function reportsOn(r, queries) {
    let replies = await repliesOfOne(r, queries);
    if (replies.slice(1).some(isLost)) replies = await repliesOfOne(r, queries);
    const others = replies.map((reply) => reply.status).filter((one) => one !== 200);
    const status = others.length === 0 ? 200 : others.reduce((a, b) => Math.max(a, b));
    return { queries, status, texts: replies.map((reply) => reply.text) };
}

function nameOf(line) { return line.slice(0, line.indexOf('\t')); }
function linesOf(text) { return text.split('\n').filter((line) => line.indexOf('\t') > 0); }
function isLink(reason) { return is(/^link /, reason); }
// The reason of each target for all queries, in the order of the registry, and which of the queries the target gets:
// the first one with a link, as in the menu, else the first one with a row.
function reasonsOf(reports) {
    const all = reports.map((text) => {
        const reasons = Object.create(null);
        linesOf(text).forEach((line) => { reasons[nameOf(line)] = line.slice(line.indexOf('\t') + 1); });
        return reasons;
    });
    return linesOf(reports[0]).map((line) => {
        const name = nameOf(line);
        const reasons = all.map((report) => report[name] || '');
        const links = reasons.map(isLink).indexOf(true);
        const rows = reasons.map((reason) => reason !== 'no row' && reason !== '').indexOf(true);
        return { name, reasons, used: links >= 0 ? links : Math.max(rows, 0) };
    });
}
function joinedReports(reports) {
    return reasonsOf(reports).map((it) => `${it.name}\t${it.reasons[it.used]}\n`).join('');
}

// The entries of the titles' rows, by part and row.
function entriesOf(q) {
    const entries = Object.create(null);
    q.titles.forEach((it) => { it.rows.forEach((entry) => {
        entries[entry.split(' ', 2).join(' ')] = entry;
    }); });
    return entries;
}
// The numbers of an edition that is not the request's own, or null.
function editionOf(q, query) {
    if (query === 'own' || query === 'any' || numbers.standard(query) === q.first('x.isbn')) return null;
    return [numbers.standard(query)];
}
// The links of the program's reply: what the target has of the title, if the index knows it, and the numbers of another
// edition; null if there is none.
function linksOf(q) {
    const entries = entriesOf(q);
    return q.links.map((it) => {
        const entry = entries[`${it.part} ${it.row}`];
        return {
            target: it.target, url: it.link, row: entry === undefined ? null : index.rowOf(entry),
            edition: editionOf(q, it.query)
        };
    });
}

// The status of the page, if the program's is no 200.
function faultStatus(status) { return status === 413 ? 413 : status >= 400 && status < 500 ? 400 : 503; }

export default { read, reportsOn, linksOf, reasonsOf, joinedReports, faultStatus };
