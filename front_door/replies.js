// The replies of the services that a look-up asks, by a proxy of the site: openlink.conf has it, and without it none is
// asked. Every byte of a reply is a stranger's. One that is late or wrong is no reply, and a field of it counts if it
// has the expected form. text.js says in which njs it runs.
import texts from './text.js';
import titles from './titles.js';

const SECONDS = 3;  // for all look-ups of a request together
const MOST_BYTES = 1048576;
const MOST_CHARACTERS = 1000;
const MOST_DOI = 300;
const NONE = [];

function textOf(value) {
    if (typeof value !== 'string' && typeof value !== 'number') return '';
    return titles.plain(texts.clean(String(value).slice(0, MOST_CHARACTERS)));
}
function listOf(value, most) { return Array.isArray(value) ? value.slice(0, most) : NONE; }
function firstOf(value) { return textOf(Array.isArray(value) ? value[0] : value); }
function recordOf(value) { return texts.isObject(value) && !Array.isArray(value) ? value : {}; }
function firstRecordOf(value) { return recordOf(Array.isArray(value) ? value[0] : undefined); }
// A DOI without a prefix, '' if it is none. Old ones have `<` and `>`, which are no tags.
const DOI = texts.lazy('^(?:doi: ?|https?://(?:dx\\.)?doi\\.org/)?(10\\.[\\d.]{4,20}/[^\\s]*[^\\s.,;:])[.,;:]*$', 'i');
function doiOf(value) {
    const text = typeof value === 'string' && value.length <= MOST_DOI ? texts.clean(value) : '';
    return text !== '' && texts.is(DOI(), text) ? DOI().exec(text)[1] : '';
}

// The milliseconds that the look-ups of a request still have.
function timeLeft(r) {
    if (r.lookUpsEnd === undefined) {
        r.lookUpsEnd = Date.now() + SECONDS * 1000;
        return SECONDS * 1000;
    }
    return r.lookUpsEnd - Date.now();
}
// What `read` finds in the reply to a path of the proxy, or null. A late `ngx.fetch` can't be ended, so it may keep the
// next request on this connection waiting until the proxy's own time-outs end it; a timer would too, so it is cleared.
async function fetched(r, path, read) {
    const time = timeLeft(r);
    if (time <= 0) return null;
    let end;
    const late = new Promise(function (done) { end = done; });
    const timer = setTimeout(() => { end(null); }, time);  // assigned out here, or njs 0.7.9 can't clear it
    try {
        const reader = r.rawVariables.openlink_reader;
        // Its limit counts by this header; no service gets it.
        const headers = { 'Openlink-Reader': reader ? reader.toString('hex') : '' };
        const options = { headers, max_response_body_size: MOST_BYTES, buffer_size: 65536 };
        const asked = ngx.fetch(`${r.variables.openlink_lookup}/${path}`, options)
            .then((reply) => reply.status === 200 ? reply.text() : null);
        const text = await Promise.race([asked, late]);
        clearTimeout(timer);
        return text === null ? null : read(recordOf(JSON.parse(text)));
    } catch (e) {
        clearTimeout(timer);
        return null;
    }
}

export default { MOST_DOI, textOf, listOf, firstOf, recordOf, firstRecordOf, doiOf, fetched };
