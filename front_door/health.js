// Whether each process of the program answers, how old the version in use is, and when openlink-update last ended well:
// for monitoring, a balancer or a pod.
// The ports are read from the text of the sites, since nginx tells no script the processes of an upstream. Only servers
// for the machine itself and its balancer load this file.
// text.js says in which njs it runs.
import fs from 'fs';
import exchange from './exchange.js';
import staff from './why.js';

const UPSTREAM = /^\s*upstream\s+([\w.-]+)\s*\{/;
const PORT = /^\s*server\s+127\.0\.0\.1:(\d+)/;
const STAMP = /(?:^|\/)(\d{4})(\d\d)(\d\d)T(\d\d)(\d\d)(\d\d)Z$/;
const DAYS = /^\d{1,4}$/;
const MOST_DAYS = 9;  // since the last update: it comes every week, and may be late
const DAY = 86400000;

function portsOf(text) {
    return text.split('\n').map((line) => PORT.exec(line)).filter(Boolean).map((found) => found[1]);
}
// The upstreams of a site, each with its ports.
function upstreamsOf(text) {
    const found = [];
    text.split('\n').forEach((line) => {
        const name = UPSTREAM.exec(line);
        const port = PORT.exec(line);
        if (name !== null) found.push({ name: name[1], ports: [] });
        else if (port !== null && found.length > 0) found[found.length - 1].ports.push(port[1]);
    });
    return found.filter((it) => it.ports.length > 0);
}
// The text of a file, or null.
function textIn(path) {
    try {
        return fs.readFileSync(path, 'utf8');
    } catch (e) {
        return null;
    }
}
function isThere(path) {
    try {
        fs.accessSync(path);
        return true;
    } catch (e) {
        return false;
    }
}
function namesIn(folder) {
    try {
        return fs.readdirSync(folder).sort();
    } catch (e) {
        return [];
    }
}
async function answers(port) {
    try {
        const reply = await ngx.fetch(`http://127.0.0.1:${port}/openurl.txt`);
        await reply.text();
        return reply.status === 200;
    } catch (e) {
        return false;
    }
}
async function ask(upstream) { upstream.are = await Promise.all(upstream.ports.map(answers)); }
// The time that a stamp names, in milliseconds, or NaN.
function timeOf(text) {
    const found = STAMP.exec(text);
    if (found === null) return NaN;
    return Date.UTC(Number(found[1]), Number(found[2]) - 1, Number(found[3]), Number(found[4]), Number(found[5]),
        Number(found[6]));
}
// The whole days since a version was made, by its name.
function ageOf(path, now) {
    const made = timeOf(path);
    return isNaN(made) ? -1 : Math.max(Math.floor((now - made) / DAY), 0);
}
function versionLine(folder) {
    try {
        const path = fs.realpathSync(folder);
        const age = ageOf(path, Date.now());
        const name = path.slice(path.lastIndexOf('/') + 1);
        return age < 0 ? `version ${name}` : `version ${name}, ${age} ${age === 1 ? 'day' : 'days'} old`;
    } catch (e) {
        return 'no version';
    }
}
// When an update last ended well, by the text of the file `updated`, and whether that is more than `most` days ago (0:
// no limit). A machine on which no update has run, such as one that gets its versions from another, has no such file.
function updateOf(text, now, most) {
    const stamp = (text || '').trim();
    const time = timeOf(stamp);
    if (isNaN(time)) return { isOld: false, line: 'no update by openlink-update is known' };
    const days = Math.max(Math.floor((now - time) / DAY), 0);
    return {
        isOld: most > 0 && now - time > most * DAY,
        line: `updated ${stamp}, ${days} ${days === 1 ? 'day' : 'days'} ago`
    };
}
function limitOf(text) { return DAYS.test(String(text)) ? Number(text) : MOST_DAYS; }
// `ok` if all processes answer and the last update is not old. The status is 503 only if no process answers, since
// readers get pages as long as one does.
function replyOf(ports, are, version, update) {
    const some = are.includes(true);
    const isDown = are.includes(false) || !some;
    const heads = [some ? '' : 'no process answers', update.isOld ? 'old' : '',
        some && isDown ? 'some processes do not answer' : ''].filter(Boolean);
    const lines = (heads.length > 0 ? heads : ['ok'])
        .concat(ports.map((port, i) => `port ${port} ${are[i] ? 'answers' : 'does not answer'}`),
            [version, update.line, '']);
    return { status: some ? 200 : 503, text: lines.join('\n') };
}

async function health(r) {
    const ports = portsOf(textIn(r.variables.openlink_site) || '');
    const are = await Promise.all(ports.map(answers));
    const folder = staff.folderOf(exchange.siteOf(r));
    const text = textIn(folder.slice(0, folder.lastIndexOf('/') + 1) + 'updated');
    const update = updateOf(text, Date.now(), limitOf(r.variables.openlink_most_days));
    const reply = replyOf(ports, are, versionLine(folder), update);
    exchange.send(r, reply.status, 'text/plain; charset=utf-8', reply.text);
}

// ---------------------------------------------------------------- A machine of several

// Whether a machine is being drained: `text` is that of the file `drain`, null if there is none. It names the time at
// which draining ends, so that a run that was killed does not leave the machine without readers; if it is empty, there
// is no end.
function isDrained(text, now) {
    if (text === null) return false;
    const end = timeOf(text.trim());
    return isNaN(end) || now < end;
}
// What the balancer is told of a machine: the name of its last delivery, of the one that it should have, whether it is
// drained, and its upstreams, each with `are`, whether its processes answer. Names of deliveries are times.
function machineReplyOf(own, expected, drained, upstreams) {
    const dead = upstreams.filter((it) => !it.are.includes(true)).map((it) => it.name);
    const some = upstreams.some((it) => it.are.includes(false));
    const isOld = expected !== '' && own < expected;
    const heads = [
        upstreams.length === 0 ? 'no site has processes' : '',
        dead.length > 0 ? `no process of ${dead.join(', ')} answers` : '',
        isOld ? `the delivery ${expected} is missing: openlink-update --send brings it` : ''
    ].filter(Boolean);
    const status = heads.length > 0 ? 503 : drained ? 404 : 200;
    const first = heads.length > 0 ? heads : [drained ? 'drained' : some ? 'some processes do not answer' : 'ok'];
    return { status, lines: first.concat([own === '' ? 'no delivery' : 'delivery ' + own]) };
}
// The libraries of the machine that have a version in use: the folder and the site of each. The one without a name is
// the machine's folder itself.
function librariesIn(folder, site) {
    return [''].concat(namesIn(folder)).filter((name) => isThere(`${folder}/${name}/current/registry.tsv`))
        .map((name) => name === '' ? { name: '', folder, site }
            : { name, folder: `${folder}/${name}`, site: `${folder}/${name}/site.conf` });
}
function upstreamLines(it) {
    return it.ports.filter((port, i) => !it.are[i]).map((port) => `${it.name}: port ${port} does not answer`);
}
async function machine(r) {
    const folder = r.variables.openlink_machine;
    const libraries = librariesIn(folder, r.variables.openlink_main);
    const upstreams = [].concat.apply([], libraries.map((it) => upstreamsOf(textIn(it.site) || '')));
    await Promise.all(upstreams.map(ask));
    const own = (textIn(`${folder}/delivery`) || '').split('\n')[0].trim();
    const reply = machineReplyOf(own, String(r.headersIn['Openlink-Delivery'] || '').trim(),
        isDrained(textIn(`${folder}/drain`), Date.now()), upstreams);
    if (own !== '') r.headersOut['Openlink-Delivery'] = own;
    const lines = reply.lines.concat([].concat.apply([], upstreams.map(upstreamLines)),
        libraries.map((it) => (it.name === '' ? '' : `${it.name}: `) + versionLine(`${it.folder}/current`)), ['']);
    exchange.send(r, reply.status, 'text/plain; charset=utf-8', lines.join('\n'));
}

export default {
    portsOf, upstreamsOf, textIn, answers, timeOf, ageOf, updateOf, limitOf, replyOf, isDrained, machineReplyOf,
    health: exchange.guarded(health), machine: exchange.guarded(machine)
};
