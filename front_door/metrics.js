// The state of a library in the text format of Prometheus, for this machine alone: what /health says, the connections
// and requests of nginx, and what the last desk knows of runs, targets and logs. No text is that of a request; names of
// targets have no other characters than a list of targets allows.
// text.js says in which njs it runs.
import fs from 'fs';
import exchange from './exchange.js';
import health from './health.js';
import staff from './why.js';

const ACTIVE = /^Active connections: (\d+)/;
const REQUESTS = /^ \d+ \d+ (\d+)/m;
// A line of the desk: a comment, or a name with labels of plain characters, and a number.
const PLAIN = /^(?:# (?:HELP|TYPE) openlink_\w+ [\w ,.'()]+|openlink_\w+(?:\{\w+="[\w.-]*"\})? [\d.e+-]+)$/;
const MOST_LINES = 2000;

function metric(name, help, values) {
    return [`# HELP ${name} ${help}`, `# TYPE ${name} ${name.slice(-6) === '_total' ? 'counter' : 'gauge'}`]
        .concat(values.map((it) => `${name}${it[0]} ${it[1]}`));
}
function processLines(ports, are) {
    return metric('openlink_process_up', 'Whether a process of the program answers.',
        ports.map((port, i) => [`{port="${port}"}`, are[i] ? 1 : 0]));
}
// The times of the version in use and of the last update that ended well, in seconds; none if they are not known.
function timeLines(version, update) {
    return [
        ['openlink_version_timestamp_seconds', 'When the version in use was made.', version],
        ['openlink_update_timestamp_seconds', 'When an update last ended well.', update]
    ].filter((it) => !isNaN(it[2])).map((it) => metric(it[0], it[1], [['', it[2] / 1000]]));
}
function nginxLines(text) {
    const active = ACTIVE.exec(text);
    const requests = REQUESTS.exec(text);
    if (active === null || requests === null) return [];
    return metric('openlink_nginx_connections', 'Open connections of nginx, of all its sites.', [['', active[1]]])
        .concat(metric('openlink_nginx_requests_total', 'Requests of nginx, of all its sites.', [['', requests[1]]]));
}
// What the desk has written, without a line that has another form.
function deskLines(text) { return (text || '').split('\n').slice(0, MOST_LINES).filter((line) => PLAIN.test(line)); }

function nameOf(folder) {
    try {
        return fs.realpathSync(folder);
    } catch (e) {
        return '';
    }
}
async function metrics(r) {
    const ports = health.portsOf(health.textIn(r.variables.openlink_site) || '');
    const are = await Promise.all(ports.map(health.answers));
    const folder = staff.folderOf(exchange.siteOf(r));
    const update = health.textIn(folder.slice(0, folder.lastIndexOf('/') + 1) + 'updated');
    const status = await r.subrequest('/_status');
    const lines = processLines(ports, are)
        .concat([].concat.apply([], timeLines(health.timeOf(nameOf(folder)), health.timeOf((update || '').trim()))),
            nginxLines(status.status === 200 ? status.responseText : ''),
            deskLines(health.textIn(`${r.variables.openlink_desk}/state/metrics.txt`)), ['']);
    exchange.send(r, 200, 'text/plain; version=0.0.4; charset=utf-8', lines.join('\n'));
}

export default { metrics: exchange.guarded(metrics) };
