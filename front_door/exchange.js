// What a reader sends and gets: the query of an address and a form, and replies in the reader's language. text.js says
// in which njs it runs.
import languages from './languages.js';
import pages from './pages.js';
import texts from './text.js';

const is = texts.is;
const own = texts.own;
const NO_ASCII = /[^\x21-\x7e]/;
const STRAY = /%(?![0-9a-f]{2})/i;

// The library of a request, by the name in the sites of openlink-library; '' for that of openlink.conf. An object that
// nginx has loaded for a library has its name at the end: `targets__NAME`, with `_` for each hyphen.
function libraryOf(r) { return String(r.variables.openlink_library || '').split('-').join('_'); }
function targetsOf(r) {
    const library = libraryOf(r);
    if (library !== '') return globalThis['targets__' + library] || {};
    return typeof targets === 'undefined' ? {} : targets;
}
const LANGUAGE = /(?:^|&)lang=([a-z]{2,8}(?:-[a-z0-9]{1,8})*)(?=&|$)/i;
// The site in the reader's language. `path` and `args` are the page's own address without the language.
function siteOf(r) {
    const isFault = r.uri === '/fault';
    const sent = isFault ? '' : sentBy(r);
    const asked = hasLanguage(sent) ? LANGUAGE.exec(sent)[1] : undefined;
    const library = libraryOf(r);
    const site = languages.siteIn(targetsOf(r), String(r.headersIn['Accept-Language'] || ''), asked, library);
    if (library !== '' && site.folder === undefined) site.folder = r.variables.openlink_folder;
    site.path = isFault ? '' : r.uri;
    site.args = asked === undefined ? sent : withoutLanguage(sent);
    site.hasList = r.variables.openlink_list !== 'off';
    site.isFramed = Boolean(r.variables.openlink_frames);
    site.isFollowed = r.variables.openlink_followed === 'on';
    return site;
}
function hasLanguage(args) { return args.includes('lang=') && is(LANGUAGE, args); }
function withoutLanguage(args) { return hasLanguage(args) ? args.replace(LANGUAGE, '').replace(/^&/, '') : args; }
// The type has no charset: nginx adds it. njs 0.7.9 would take both together for the type, which nginx does not
// compress.
function send(r, status, type, text) {
    r.headersOut['Content-Type'] = type;
    r.return(status, text);
}
// Sends a text in the reader's language, which another reader may not get from a cache.
function sendIn(r, site, status, type, text) {
    r.headersOut['Content-Language'] = site.language;
    r.headersOut.Vary = 'Accept-Language';
    send(r, status, type, text);
}
function sendPage(r, status, text, site) { sendIn(r, site, status, 'text/html', text); }
function sendJson(r, status, data, site) { sendIn(r, site, status, 'application/json', JSON.stringify(data) + '\n'); }
function sendFault(r, status, site) {
    if (is(/^\/find\.json(?:\?|$)/, String(r.variables.request_uri))) sendJson(r, status, { error: status }, site);
    else sendPage(r, status, pages.faultOf(status, site, status < 500 ? '' : doiOf(r)), site);
}
// The DOI of a request as it was sent, or '': the program, which reads requests, may be what has failed.
const DOI = texts.lazy('10\\.\\d{4,9}(?:\\.\\d+)*(?:/|%2f)(?:[^&;+?#]|;(?![\\w.]+=))*[^&;+?#.,:]', 'i');
function doiOf(r) {
    const args = r.uri === '/fault' ? argsOfFault(r) : argsOf(r);
    return is(DOI(), args) ? DOI().exec(args)[0] : '';
}

// The query of the address and of a form, as ASCII. Every other byte is escaped, line ends first of all: a subrequest's
// arguments reach the program as they are.
function argsOf(r) { return withoutLanguage(sentBy(r)); }
// A page of an error has no query of its own.
function argsOfFault(r) {
    const address = asciiOf(r.rawVariables.request_uri);
    const at = address.indexOf('?');
    return at < 0 ? '' : address.slice(at + 1);
}
function sentBy(r) {
    if (r.sent === undefined) r.sent = bytesToText(r);
    return r.sent;
}
// Takes the pairs of a key from a request, so that nothing else reads them, and returns the first one's value as it was
// sent, or undefined.
function taken(r, key) {
    const pieces = sentBy(r).split('&');
    const isOf = (piece) => piece.startsWith(key + '=');
    const found = pieces.find(isOf);
    if (found === undefined) return undefined;
    r.sent = pieces.filter((piece) => !isOf(piece)).join('&');
    return found.slice(key.length + 1);
}
// The first value of a key of a list, decoded; '' if it has none.
function valueOf(r, key) {
    const found = argsOf(r).split('&').find((piece) => piece.startsWith(key + '='));
    if (found === undefined) return '';
    const text = found.slice(key.length + 1).split('+').join(' ');
    try {
        return decodeURIComponent(is(STRAY, text) ? text.replace(/%(?![0-9a-f]{2})/gi, '%25') : text);
    } catch (e) {
        return '';  // no UTF-8
    }
}
function bytesToText(r) {
    let bytes = r.rawVariables.args || Buffer.from('');
    const isForm = (type) => is(/^application\/x-www-form-urlencoded\b/i, type);
    if (r.method === 'POST' && isForm(String(r.headersIn['Content-Type'])) && r.requestBuffer) {
        bytes = bytes.length > 0 ? Buffer.concat([bytes, Buffer.from('&'), r.requestBuffer]) : r.requestBuffer;
    }
    return asciiOf(bytes);
}
function asciiOf(bytes) {
    const text = bytes.toString();
    if (!is(NO_ASCII, text)) return text;
    return bytes.toString('hex').replace(/../g, (hex) => {
        const byte = parseInt(hex, 16);
        return byte > 0x20 && byte < 0x7f ? String.fromCharCode(byte) : '%' + hex;
    });
}

// An exception would close the connection without a byte. The page has no words of targets.json: they may be the cause.
function guarded(handler) {
    return async function (r) {
        try {
            await handler(r);
        } catch (e) {
            // The reader has gone. Another reply would write the request to the error log.
            if (String(e.message) === 'failed to send response') return;
            const message = texts.clean(String(e.message));
            r.variables.openlink_found = 'exception:' + texts.replaced(message, /[^\w.]/g, '_').slice(0, 60);
            const plain = { languages: own(targetsOf(r), 'languages') };
            sendFault(r, 503, languages.siteIn(plain, '', undefined, libraryOf(r)));
        }
    };
}

export default { argsOf, siteOf, taken, valueOf, send, sendIn, sendPage, sendJson, sendFault, guarded };
