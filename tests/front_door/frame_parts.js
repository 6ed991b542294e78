// What is around the reader's page, and beside it: its frame, errors, the form, the search of a browser, the contact
// and
// the log. Each case is its name, what the modules give, and what was expected.
import browser from './browser.js';
import contact from './contact.js';
import form from './form.js';
import languages from './languages.js';
import log from './log.js';
import pages from './pages.js';

const WORDS = {
    form: 'Form', journals: 'Journals', books: 'Books', byDoi: 'By {}!', search: 'Search', bookmarklet: 'Mark'
};
['refused', 'missing', 'method', 'tooLong', 'busy', 'unreadable', 'unavailable'].forEach((name) => {
    WORDS[name] = name;
    WORDS[name + 'Title'] = name + ' title';
});
function siteOf(words, more) {
    const site = languages.siteIn({ words: Object.assign({}, WORDS, words) }, '');
    return Object.assign(site, { path: '/find', args: '', hasList: true }, more);
}
// A request that has these values alone.
function having(values) { return { first: (key) => values[key] || '' }; }
function asText(html) { return html.replace(/<[^>]*>/g, ' ').replace(/\s+/g, ' ').trim(); }

// ---------------------------------------------------------------- The log
const PROBE = 'info:sid/openlink:probe';
const SOURCES = [
    ['', ''], [PROBE, PROBE], ['info:sid/google', 'info:sid/google'], ['google', 'info:sid/google'],
    ['info:sid/en.wikipedia.org:Eelgrass', 'info:sid/en.wikipedia.org'], ['https://e.org/page?x', 'info:sid/e.org'],
    ['http://e.org', 'info:sid/e.org'], ['info:sid/https://e.org:80/a', 'info:sid/e.org'], ['info:sid/', ''], ['/x',
        ''],
    ['info:ofi/nam:google', 'info:sid/google'], ['info:sid/a b', 'info:sid/a_b'], ['info:sid/a;b', 'info:sid/a'],
    ['info:sid/a?b', 'info:sid/a'], ['info:sid/a#b', 'info:sid/a'], ['info:sid/a&b', 'info:sid/a'], ['INFO:SID/a',
        'info:sid/a'],
    ['info:sid/caf\u00e9', 'info:sid/caf_'], [PROBE + 'x', 'info:sid/openlink']
];
const ISSN = { 'x.issn': '2901-0012' };
// The values of a request, the target that is followed, and the line; then the date and the line of what was wanted.
const CLICKS = [
    [ISSN, 'a-1', 'target=a-1 2901-0012'], [{ 'x.isbn': '9781234560102' }, 'a', 'target=a 9781234560102'],
    [{ 'x.issn': '2901-0012', 'x.isbn': '9781234560102' }, 'a', 'target=a 2901-0012'], [{}, 'a', 'target=a -'],
    [{ 'x.issn': 'x' }, 'a', 'target=a -'], [{ 'x.issn': '2901-0012', rfr_id: PROBE }, 'a', ''], [ISSN, 'a b', ''],
    [ISSN, '', ''],
    [ISSN, 'a/b', ''], [ISSN, 'a_b.c', 'target=a_b.c 2901-0012'], [{ 'x.isbn': '9771234560102' }, 'a', 'target=a -']
];
const WANTED = [
    [ISSN, '2901-0012 -'], [{ 'x.issn': '2901-0012', 'rft.date': '2003-05-01' }, '2901-0012 2003'],
    [{ 'rft.date': '2003' }, ''],
    [{ 'x.issn': '2901-0012', 'rft.date': '3003' }, '2901-0012 -'], [{ 'x.issn': '2901-0012', rfr_id: PROBE }, ''],
    [{ 'x.isbn': '9781234560102', 'rft.date': '1999' }, '9781234560102 1999'], [{ 'x.issn': '2901-0012\nx' }, '']
];
function ofLog() {
    return SOURCES.map((it) => ['the source ' + it[0], log.sourceOf(having({ rfr_id: it[0] })), it[1]])
        .concat(CLICKS.map((it) => ['followed, ' + JSON.stringify(it.slice(0, 2)), log.clickOf(having(it[0]), it[1]),
            it[2]]),
            WANTED.map((it) => ['wanted, ' + JSON.stringify(it[0]), log.wantedOf(having(it[0])), it[1]]));
}

// ---------------------------------------------------------------- The contact (RFC 9116)
const CONTACTS = [
    ['a@e.org', 'mailto:a@e.org'], ['mailto:a@e.org', 'mailto:a@e.org'], ['https://e.org/x', 'https://e.org/x'],
    ['tel:+49-1', 'tel:+49-1'], ['a@e.org https://e.org/', 'mailto:a@e.org https://e.org/'], ['http://e.org/', ''],
    ['x', ''],
    ['a@b@c', ''], ['mailto:a', ''], ['https://', ''], ['', ''], ['x a@e.org', 'mailto:a@e.org'], ['tel:a', ''],
    ['javascript:a@b', ''], ['a@e.org\u00e9', '']
];
function ofContact() {
    return CONTACTS.map((it) => {
        const lines = it[1].split(' ').filter(Boolean).map((one) => 'Contact: ' + one + '\n');
        const expected = lines.length === 0 ? '' : lines.join('') + 'Expires: 1970-06-30T23:59:59Z\n';
        return ['the contact ' + it[0], contact.textOf(it[0], 0), expected];
    }).concat([['180 days later', contact.textOf('a@e.org', 86399999).includes('1970-06-30'), true],
        ['181 days later', contact.textOf('a@e.org', 86400000).includes('1970-07-01'), true]]);
}

// ---------------------------------------------------------------- Errors
const FAULTS = [
    [400, 'unreadable'], [403, 'refused'], [404, 'missing'], [405, 'method'], [408, 'unreadable'], [413, 'tooLong'],
    [414, 'tooLong'], [429, 'busy'], [499, 'unreadable'], [500, 'unavailable'], [503, 'unavailable'], [504,
        'unavailable']
];
function ofFaults() {
    const main = (html) => html.slice(html.indexOf('<main>'), html.indexOf('</main>'));
    const page = (doi, words) => main(pages.faultOf(503, siteOf(words), doi));
    const long = '10.5555/' + 'a'.repeat(292);
    return FAULTS.map((it) => ['the error ' + it[0], asText(main(pages.faultOf(it[0], siteOf(), ''))), it[1]
        + ' title ' + it[1]])
        .concat([
            ['a DOI', asText(page('10.5555/a<b')), 'unavailable title unavailable By doi.org/10.5555/a&lt;b !'],
            ['its address', page('10.5555%2Fa%3Cb/c').includes('href="https://doi.org/10.5555%2Fa%3Cb/c"'), true],
            ['a text without a place for it', asText(page('10.5555/a', { byDoi: 'x' })),
                'unavailable title unavailable doi.org/10.5555/a'],
            ['300 and 301 characters', [page(long), page(long + 'a')].map((it) => it.includes('doi.org')).join(),
                'true,false'],
            ['a DOI that is none', page(undefined).includes('doi.org'), false]
        ]);
}

// ---------------------------------------------------------------- The frame
function ofFrame() {
    const page = (words, more) => pages.documentOf('T', 'H', ['B'], siteOf(words, more));
    const links = { links: [{ label: 'Imprint & more', url: 'https://e.org/?a&b' }, { label: 'Bad',
        url: 'javascript:x' },
        { label: '', url: 'https://f.org/' }] };
    const header = (html) => (/<header>(.*)<\/header>/.exec(html) || ['', 'none'])[1];
    const footer = (html) => asText(html.slice(html.indexOf('<footer>')));
    const both = { languages: ['en', 'de'], language: 'en' };
    const other = '<a href="/find?a=b&amp;lang=de" hreflang="de" lang="de">';
    return [
        ['no library', header(page()), 'none'], ['a library', header(page({ library: 'L & M' })),
            '<p><a href="/find">L &amp; M</a></p>'],
        ['a logo', header(page({ logo: 'a.svg' })), '<p><a href="/find"><img src="/a.svg" alt="Form"></a></p>'],
        ['both', header(page({ logo: 'a.png', library: 'L' })),
            '<p><a href="/find"><img src="/a.png" alt=""> L</a></p>'],
        ['no picture', ['a.exe', '../a.svg', 'a"b.svg', 'a', 'a.svgx'].map((logo) => header(page({ logo }))).join(),
            'none,none,none,none,none'],
        ['pictures', ['svg', 'png', 'jpg', 'gif', 'webp'].map((end) => header(page({ logo: 'a.' + end }))
            .includes('<img src="/a.' + end + '"')).join(), 'true,true,true,true,true'],
        ['quotes in the name of the search', page({ library: 'L "M"' }).includes(' title="L &quot;M&quot;">'), true],
        ['for staff', header(page({ library: 'L' }, { isForStaff: true })), '<p>L</p>'],
        ['the title', [page(), page({ library: 'L' })].map((it) => /<title>(.*)</.exec(it)[1]).join(), 'T,T \u2013 L'],
        ['in a frame', [page({}, { isFramed: true }), page()].map((it) => it.includes('<base target="_top">')).join(),
            'true,false'],
        ['the search', [page(), page({}, { isForStaff: true })].map((it) => it.includes('rel="search"')).join(),
            'true,false'],
        ['the end of a page', footer(page()), 'Form Journals Books'], ['without lists', footer(page({},
            { hasList: false })), 'Form'],
        ['that of staff', page({}, { isForStaff: true }).includes('<footer>'), false],
        ['help', page({ help: 'Help',
            helpLink: 'https://h/' }).includes('<li class="help"><a href="https://h/">Help</a></li>'), true],
        ['help without a link', page({ help: 'Help <', helpLink: 'x' }).includes('<li class="help">Help &lt;</li>'),
            true],
        ['links', footer(page(links)), 'Form Journals Books Imprint &amp; more'],
        ['their addresses', page(links).includes('<a href="https://e.org/?a&amp;b">'), true],
        ['another language', page({}, Object.assign({ args: 'a=b' }, both)).includes(other), true],
        ['its own language', page({}, both).includes('hreflang="en"'), false],
        ['no language of an error', page({}, Object.assign({}, both, { path: '' })).includes('hreflang'), false],
        ['of 3,000 and of 3,001 bytes', [3000, 3001].map((length) => page({}, Object.assign({}, both,
            { args: 'a'.repeat(length) }))
            .includes('hreflang')).join(), 'true,false'],
        ['control characters of the library', page({ library: 'a\u0001b' }).includes('a b'), true]
    ];
}

// ---------------------------------------------------------------- The form and the search of a browser
function ofForm() {
    const html = (values, more, action) => form.formHtml(having(values), siteOf({}, more), action);
    const value = (name, values) => new RegExp('name="' + name + '"[^>]* value="([^"]*)"').exec(html(values))[1];
    const names = html({}).match(/<input id="\w+"/g).map((it) => it.slice(11, -1)).join(' ');
    const request = (headers, scheme) => ({ headersIn: headers, variables: { scheme, server_name: 'n.org' } });
    const base = (headers, scheme, scholar) => /template="(.*)\/find\?/.exec(browser.searchOf(request(headers, scheme),
        Object.assign(siteOf(), { scholar })))[1];
    return [
        ['the fields', names, 'title atitle au date volume issue spage number identifier'],
        ['a title', value('title', { 'rft.btitle': 'S', 'rft.stitle': 'T' }), 'S'], ['an abbreviation', value('title',
            { 'rft.stitle': 'T' }), 'T'],
        ['a title of a journal', value('title', { 'rft.jtitle': 'J', 'rft.btitle': 'S' }), 'J'],
        ['an author', value('au', { 'rft.au': 'Li', 'rft.aulast': 'Berg' }), 'Li'], ['a family name', value('au',
            { 'rft.aulast': 'Berg' }), 'Berg'],
        ['a page', value('spage', { 'rft.spage': '7', 'rft.pages': '7-9' }), '7'], ['pages', value('spage',
            { 'rft.pages': '7-9' }), '7-9'],
        ['a number', value('number', { 'x.issn': '2901-0012', 'x.isbn': '9781234560102' }), '2901-0012'],
        ['an ISBN', value('number', { 'x.isbn': '9781234560102' }), '9781234560102'],
        ['a DOI', value('identifier', { 'x.doi': '10.5555/a', 'x.pmid': '7' }), '10.5555/a'], ['PubMed',
            value('identifier', { 'x.pmid': '7' }), '7'],
        ['quotes', value('atitle', { 'rft.atitle': '"<&' }), '&quot;&lt;&amp;'],
        ['the genre', html({ 'rft.genre': 'a"b' }).includes('<input type="hidden" name="genre" value="a&quot;b">'),
            true],
        ['no genre', html({}).includes('name="genre"'), false],
        ['300 characters of a value', value('atitle', { 'rft.atitle': 'a'.repeat(301) }), 'a'.repeat(300)],
        ['30 characters of a genre', /name="genre" value="(a*)"/.exec(html({ 'rft.genre': 'a'.repeat(31) }))[1].length,
            30],
        ['the language', html({}, { chosen: 'de' }).includes('<input type="hidden" name="lang" value="de">'), true],
        ['where it leads', [html({}), html({}, {},
            '/why')].map((it) => /action="([^"]*)"/.exec(it)[1]).join(), '/find,/why'],
        ['from left to right', html({}).includes(' dir='), false],
        ['from right to left', html({}, { dir: 'rtl' }).match(/ dir="\w+"/g).join(''),
            ' dir="auto" dir="auto" dir="auto"' + ' dir="ltr"'.repeat(6)],
        ['the address of the site', base({ Host: 'e.org' }, 'http'), 'http://e.org'], ['by TLS', base({ Host: 'e.org' },
            'https'), 'https://e.org'],
        ['behind a proxy', base({ Host: 'e.org', 'X-Forwarded-Proto': 'https' }, 'http'), 'https://e.org'],
        ['with a port', base({ Host: 'e.org:8080' }, 'http'), 'http://e.org:8080'], ['of version 6',
            base({ Host: '[::1]:80' }, 'http'), 'http://[::1]:80'],
        ['a host that is none', base({ Host: 'e.org"<' }, 'http'), 'http://n.org'], ['no host', base({}, 'http'),
            'http://n.org'],
        ['a base of the site', base({ Host: 'e.org' }, 'http', { base: 'https://b.org//' }), 'https://b.org'],
        ['a base that is none', base({ Host: 'e.org' }, 'http', { base: 'b.org' }), 'http://e.org']
    ];
}

function cases() { return ofLog().concat(ofContact(), ofFaults(), ofFrame(), ofForm()); }

export default { all: cases };
