// The frame of every page: its head, the library's name and logo, help, links and languages at its end; and the pages
// of errors. All text of a request or a file is escaped where it is put into HTML. An operator edits nothing here.
// text.js says in which njs it runs.
import languages from './languages.js';
import texts from './text.js';
import words from './words.js';

const own = texts.own;
const is = texts.is;
const escape = texts.escape;
const isWeb = texts.isWeb;
const word = words.word;
// No source sends a longer request. Its page has no links that repeat the request, which would take most of the page's
// bytes and time.
const MOST_ARGS = 3000;
const LOGO = /^[\w-]{1,60}\.(?:svg|png|jpg|gif|webp)$/;

function anchorOf(url, html) { return `<a href="${escape(url)}">${html}</a>`; }
function anchor(url, text) { return anchorOf(url, escape(text)); }
// A text that may have another direction than the page: a title, or the name of a target.
function isolated(text, site) { return site.dir === 'rtl' ? `<bdi>${escape(text)}</bdi>` : escape(text); }
// The same as text, by characters that no reader sees.
function isolatedText(text, site) { return site.dir === 'rtl' ? `\u2068${text}\u2069` : text; }
function notice(name, site) { return `<p class="nothing">${escape(word(site, name))}</p>`; }
// An address of the site, which keeps the language that the reader has chosen.
function addressOf(path, args, site) {
    if (!site.chosen) return args ? `${path}?${args}` : path;
    return `${path}?${args ? args + '&' : ''}lang=${site.chosen}`;
}

// The library's name and logo, which lead to the form. The server of the staff's pages has no form.
function headerHtml(library, site) {
    const logo = word(site, 'logo');
    const name = library === '' ? escape(word(site, 'form')) : '';
    const image = logo !== '' && is(LOGO, logo) ? `<img src="/${logo}" alt="${name}">` : '';
    const shown = [image, escape(library)].filter(Boolean).join(' ');
    if (shown === '') return '';
    const home = site.isForStaff ? shown : `<a href="${addressOf('/find', '', site)}">${shown}</a>`;
    return `<header><p>${home}</p></header>\n`;
}

function addHelp(items, site) {
    const help = word(site, 'help');
    if (help === '') return;
    const link = word(site, 'helpLink');
    items.push(`<li class="help">${isWeb(link) ? anchor(link, help) : escape(help)}</li>`);
}
// The links of the library, such as its imprint. A preloaded array has no methods.
function addLinks(items, site) {
    const list = own(site.words, 'links');
    for (let i = 0; texts.isObject(list) && i < list.length; i++) {
        const it = list[i];
        const label = words.inLanguage(own(it, 'label'), site);
        const url = words.inLanguage(own(it, 'url'), site);
        if (label !== '' && isWeb(url)) items.push(`<li>${anchor(url, label)}</li>`);
    }
}
// The same page in the other languages. A page of an error has no address of its own, but it leads to those that have.
function addLanguages(items, site) {
    if (!site.path || site.languages.length < 2 || site.args.length > MOST_ARGS) return;
    const address = escape(`${site.path}?${site.args === '' ? '' : site.args + '&'}lang=`);
    site.languages.forEach((language) => {
        if (language === site.language) return;
        const name = escape(languages.nameOf(language, site));
        items.push(`<li><a href="${address}${language}" hreflang="${language}" lang="${language}">${name}</a></li>`);
    });
}
function footerHtml(site) {
    const items = [];
    const add = (path, name) => {
        items.push(`<li><a href="${addressOf(path, '', site)}">${escape(word(site, name))}</a></li>`);
    };
    if (!site.isForStaff) add('/find', 'form');
    if (!site.isForStaff && site.hasList) {
        add('/journals', 'journals');
        add('/books', 'books');
    }
    addHelp(items, site);
    addLinks(items, site);
    addLanguages(items, site);
    return items.length > 0 ? `<footer>\n<ul>\n${items.join('\n')}\n</ul>\n</footer>\n` : '';
}

// Characters that HTML may not hold; those of requests are gone before, those of the library's own texts go here.
const CONTROLS = /[\u0000-\u0009\u000b-\u001f\u007f-\u009f\u2028\u2029\ufdd0-\ufdef\ufffe\uffff]/g;
// What browsers find in the head: the search of the site, and, if others show the page in a frame, that its links open
// in the whole window, since publishers refuse to be in one.
function headHtml(library, site) {
    if (site.isForStaff) return '';
    const search = `<link rel="search" type="application/opensearchdescription+xml" href="${
        addressOf('/opensearch.xml', '', site)}" title="${escape(library || word(site, 'form'))}">\n`;
    return site.isFramed ? `<base target="_top">\n${search}` : search;
}
function documentOf(title, heading, body, site) {
    const library = word(site, 'library');
    const text = `<!DOCTYPE html>
<html lang="${site.language}" dir="${site.dir}">
<head>
<meta charset="utf-8">
<meta name="viewport" content="width=device-width, initial-scale=1">
<title>${escape(library === '' ? title : `${title} – ${library}`)}</title>
<link rel="stylesheet" href="/menu.css">
${headHtml(library, site)}</head>
<body>
${headerHtml(library, site)}<main>
<h1>${isolated(heading, site)}</h1>
${body.join('\n')}
</main>
${footerHtml(site)}</body>
</html>
`;
    return is(CONTROLS, text) ? texts.replaced(text, CONTROLS, ' ') : text;
}

const FAULTS = { 403: 'refused', 404: 'missing', 405: 'method', 413: 'tooLong', 414: 'tooLong', 429: 'busy' };
function faultName(status) { return FAULTS[status] || (status < 500 ? 'unreadable' : 'unavailable'); }
function faultHtml(status, site) { return notice(faultName(status), site); }
// The way to an item that needs no resolver.
const MOST_DOI = 300;
function doiLink(doi) {
    return anchor(`https://doi.org/${encodeURIComponent(doi).split('%2F').join('/')}`, `doi.org/${doi}`);
}
// The same of a DOI as a request has it, whose escapes are those of an address.
function doiHtml(doi, site) {
    if (!doi || doi.length > MOST_DOI) return [];
    const link = anchor(`https://doi.org/${doi}`, `doi.org/${doi}`);
    const text = words.filled(site, 'byDoi', '\t').split('\t').map(escape);
    return [`<p>${text.length > 1 ? text.join(link) : link}</p>`];
}
// The page of an error, for a request that may have a DOI, as it was sent.
function faultOf(status, site, doi) {
    const title = word(site, faultName(status) + 'Title');
    return documentOf(title, title, [faultHtml(status, site)].concat(doiHtml(doi, site)), site);
}

export default {
    MOST_ARGS, anchor, anchorOf, isolated, isolatedText, notice, addressOf, documentOf, doiLink, faultHtml, faultOf
};
