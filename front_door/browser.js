// What a browser keeps of the site: its search, as OpenSearch 1.1 describes it, and the bookmarklet, which sends the
// DOI or the address of the page that is shown. text.js says in which njs it runs.
import texts from './text.js';
import words from './words.js';

const own = texts.own;
const is = texts.is;
const escape = texts.escape;
const word = words.word;
const HOST = /^(?:[a-z0-9.-]{1,253}|\[[0-9a-f:.]{2,45}\])(?::\d{1,5})?$/i;
const MOST_NAME = 16;  // characters, as OpenSearch has it

// The address of the site as a reader's browser knows it: `base` of targets.json, or the name by which the request
// came.
function baseOf(r, site) {
    const base = words.textAt(own(site.scholar, 'base'));
    if (base !== '' && texts.isWeb(base)) return base.replace(/\/+$/, '');
    const host = String(r.headersIn.Host || '');
    const isSecure = r.variables.scheme === 'https' || r.headersIn['X-Forwarded-Proto'] === 'https';
    return `http${isSecure ? 's' : ''}://${is(HOST, host) ? host : r.variables.server_name}`;
}

// The description of the search. What is sought is a title, or a number in its field.
function searchOf(r, site) {
    const library = word(site, 'library');
    const form = word(site, 'form');
    const base = escape(baseOf(r, site));
    const language = site.chosen ? `&amp;lang=${site.chosen}` : '';
    return `<?xml version="1.0" encoding="UTF-8"?>
<OpenSearchDescription xmlns="http://a9.com/-/spec/opensearch/1.1/">
<ShortName>${escape((library || form).slice(0, MOST_NAME).trim())}</ShortName>
<Description>${escape(library === '' ? form : words.labelled(site, library, form))}</Description>
<InputEncoding>UTF-8</InputEncoding>
<Language>${site.language}</Language>
<Url type="text/html" template="${base}/find?title={searchTerms}${language}"/>
<Url type="application/opensearchdescription+xml" rel="self" template="${base}/opensearch.xml"/>
</OpenSearchDescription>
`;
}

// The script of the bookmarklet, encoded as an address is: to do that for each form would take a tenth of its time. It
// runs in the page of an article, and takes the DOI that the page declares:
//     for (i = 0; i < n.length && !u; i++) { m = document.querySelector('meta[name="' + n[i] + '" i]');
//         if (m && /10\.\d{4,}\//.test(m.content)) u = m.content; }
//     location.href = 'BASE/find?url=' + encodeURIComponent(u || location.href);
const BEFORE_BASE = "javascript:(function()%7Bvar%20i,m,u='',n=%5B'citation_doi','prism.doi','dc.identifier',"
    + "'bepress_citation_doi'%5D;for(i=0;i%3Cn.length%26%26!u;i++)%7Bm=document.querySelector('meta%5Bname=%22'"
    + "+n%5Bi%5D+'%22%20i%5D');if(m%26%26/10%5C.%5Cd%7B4,%7D%5C//.test(m.content))u=m.content%7Dlocation.href='";
const AFTER_BASE = "/find?url='+encodeURIComponent(u%7C%7Clocation.href)";
// The bookmarklet as a link, with what a reader does with it.
function bookmarkletHtml(r, site) {
    const library = word(site, 'library');
    const name = word(site, 'bookmarklet');
    const label = library ? words.labelled(site, library, name) : name;
    const language = site.chosen ? `+'%26lang=${site.chosen}'` : '';
    const script = `${BEFORE_BASE}${escape(baseOf(r, site))}${AFTER_BASE}${language}%7D)()`;
    const note = escape(word(site, 'bookmarkletNote'));
    return `<p class="bookmarklet">${note} <a href="${script}">${escape(label)}</a></p>`;
}

export default { searchOf, bookmarkletHtml };
