// What the program reads in the requests of tests, and links as it gives them. A request whose reading is not known is
// printed, so that fixtures/readings.py asks the program for it, and the script runs again.
import reading from './reading.js';
import readings from './readings.js';
import texts from './text.js';

const MOST_PRINTED = 1000;  // njs cuts a line after 2,048 bytes
const NOTHING = { notes: { left_out: 0, retracted: false }, pairs: [] };
function printUnknown(text) {
    let rest = text;
    for (; rest.length > MOST_PRINTED; rest = rest.slice(MOST_PRINTED)) {
        console.log(JSON.stringify({ part: rest.slice(0, MOST_PRINTED) }));
    }
    console.log(JSON.stringify({ unknown: rest }));
}
function dataOf(text) {
    const found = readings[text];
    if (found === undefined) printUnknown(text);
    return found || NOTHING;
}
// A request as the program reads it.
function queryOf(args) {
    const q = new reading.Reading(args);
    if (args !== '') q.take(dataOf(args));
    return q;
}

// A reply of nginx to a subrequest: that of a process to a request at `/_read` or `/_menu`.
function replyWith(text) {
    return { status: 200, headersOut: { 'Content-Length': String(Buffer.from(text).length) },
        responseBuffer: Buffer.from(text), variables: { upstream_addr: '127.0.0.1:1' } };
}
function isOfProgram(place) { return /^\/_(?:read|menu)/.test(place); }
function replyTo(args) { return replyWith(JSON.stringify(Object.assign({ links: [] }, dataOf(args)))); }

// The links of a page, from lines of a target and an address.
function linksOf(text) {
    return text.split('\n').filter((line) => line.indexOf('\t') > 0).map((line) => {
        const at = line.indexOf('\t');
        return { target: texts.targetOf(line.slice(0, at)), url: line.slice(at + 1), row: null, edition: null };
    });
}

export default { queryOf, replyWith, isOfProgram, replyTo, linksOf };
