// What the log has of a request: the source up to its host, and, if the site says so, what was asked for in vain and
// which link was followed. These have files of their own, with a month and no time, so no line has a number together
// with a time or a source.
// text.js says in which njs it runs.
import texts from './text.js';

const is = texts.is;
const PROBE = 'info:sid/openlink:probe';
const HOST = /^(?:info:(?:sid\/|ofi\/nam:))?(?:https?:\/\/)?([^\/:?#;&]*)/i;
const MOST = 60;
const NUMBER = /^(?:\d{4}-\d{3}[\dX]|97[89]\d{10})$/;
const YEAR = /^[12]\d{3}/;

// The source that a request names, without what may follow the host: some name the page that the reader was on.
function sourceOf(q) {
    const given = q.first('rfr_id');
    if (given === '' || given === PROBE) return given;
    const host = HOST.exec(given.slice(0, 200))[1].slice(0, MOST);
    if (host === '') return '';
    return 'info:sid/' + texts.replaced(host, /[^\w.-]/g, '_').slice(0, host.length);  // without what `replaced` adds
}
function isProbe(q) { return q.first('rfr_id') === PROBE; }
function numberOf(q) {
    const number = q.first('x.issn') || q.first('x.isbn');
    return is(NUMBER, number) ? number : '';
}
// The target whose link was followed, and the number of the request; '' of a probe, and of a name that no target has.
const NAME = /^[\w.-]{1,100}$/;
function clickOf(q, target) {
    if (isProbe(q) || !is(NAME, target)) return '';
    return `target=${target} ${numberOf(q) || '-'}`;
}
// The number and the year of a request, and nothing else of it; '' if it has no number.
function wantedOf(q) {
    const number = numberOf(q);
    if (number === '' || isProbe(q)) return '';
    const date = q.first('rft.date');
    return number + ' ' + (is(YEAR, date) ? date.slice(0, 4) : '-');
}

export default { sourceOf, clickOf, wantedOf };
