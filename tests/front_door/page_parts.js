// The parts of pages that need no program: what a target has, the pages of the list and of a search, notices, free
// copies. Each case is its name, what the modules give, and what was expected.
import copies from './copies.js';
import coverage from './coverage.js';
import languages from './languages.js';
import lists from './lists.js';
import notices from './notices.js';

const WORDS = {
    since: 'since {}', until: 'until {}', between: '{}-{}', withoutYear: 'without 1 year',
        withoutYears: 'without {} years',
    withoutMonth: 'without 1 month', withoutMonths: 'without {} months', withoutDay: 'without 1 day',
    withoutDays: 'without {} days', onlyYear: 'only 1 year', onlyYears: 'only {} years', onlyMonth: 'only 1 month',
    onlyMonths: 'only {} months', onlyDay: 'only 1 day', onlyDays: 'only {} days', journals: 'Journals', books: 'Books',
    titles: '{} titles', oneTitle: '1 title', noTitle: 'none', tooFrequent: 'too frequent', moreThan: 'more than {}',
    firstTitles: 'first {} of {}', firstTitlesOfMore: 'first {} of more than {}', titlesBetween: '{} to {} of {}',
    titlesBetweenOfMore: '{} to {} of more than {}', addWord: '(add a word)', noWords: 'no words', before: 'Before',
    after: 'After', pageOf: 'page {} of {}', otherLetters: 'Others', searchIn: 'in {}', search: 'Search',
        issn: 'ISSN {}',
    isbn: 'ISBN {}', thousand: '1,000', tenThousand: '10,000', copyPublished: 'published at {}',
    copyAccepted: 'accepted at {}', copySubmitted: 'submitted at {}', copyUnknown: 'at {}', retracted: 'Remark',
    wasRetracted: 'Retracted', wasCorrected: 'Corrected', notice: 'see {}', noticeSource: 'says {}',
    sourcePublisher: 'the publisher', isNotice: 'A notice & about {}', doi: 'DOI {}'
};
function siteOf(more) { return languages.siteIn(Object.assign({ words: WORDS }, more), ''); }
function asText(html) { return html.replace(/<[^>]*>/g, ' ').replace(/\s+/g, ' ').trim(); }

// The first and the last date of a row and its embargo, as text; and as data, with a comma between the values.
const COVERED = [
    ['1995', '2003', undefined, '1995-2003', '1995,2003,'], ['1995-05-01', '2003-12', undefined, '1995-2003',
        '1995-05-01,2003-12,'], ['1995', '1995-12-31', undefined, '1995', '1995,1995-12-31,'],
    ['1995', '-', '-', 'since 1995', '1995,,'], ['-', '2003-05', undefined, 'until 2003', ',2003-05,'],
    ['-', '-', '-', '', 'none'], [undefined, undefined, undefined, '', 'none'],
    ['1995', '-', 'P1Y', 'since 1995, without 1 year', '1995,,P1Y'], ['-', '-', 'P12M', 'without 12 months', ',,P12M'],
    ['-', '-', 'P2Y', 'without 2 years', ',,P2Y'], ['-', '-', 'P30D', 'without 30 days', ',,P30D'],
    ['-', '-', 'P1M', 'without 1 month', ',,P1M'], ['-', '-', 'P1D', 'without 1 day', ',,P1D'],
    ['-', '-', 'R10Y', 'only 10 years', ',,R10Y'], ['-', '-', 'R1Y', 'only 1 year', ',,R1Y'],
    ['-', '-', 'R6M', 'only 6 months', ',,R6M'], ['-', '-', 'R90D', 'only 90 days', ',,R90D'],
    ['1995', '2003', 'R10Y,P30D', '1995-2003, only 10 years, without 30 days', '1995,2003,R10Y,P30D'],
    ['-', '-', 'P12345M', 'without 12,345 months', ',,P12345M'], ['-', '-', 'P123456M', '', ',,P123456M'],
    ['-', '-', 'P1Y,x', 'without 1 year', ',,P1Y,x'], ['-', '-', 'Q1Y', '', ',,Q1Y'], ['-', '-', 'P1W', '', ',,P1W'],
    ['-', '-', 'xP1Y', '', ',,xP1Y'], ['-', '-', 'P1Yx', '', ',,P1Yx']
];
// A row, a year, and whether the row may have it.
const HAS = [
    ['1995', '2003', '1994', false], ['1995', '2003', '1995', true], ['1995', '2003', '2003', true],
    ['1995', '2003', '2004', false], ['1995-12', '2003-01', '1995', true], ['1995-12', '2003-01', '2003', true],
    ['-', '2003', '1900', true], ['-', '2003', '2004', false], ['1995', '-', '2100', true], ['1995', '-', '1994',
        false],
    ['-', '-', '1900', true], ['1995', '2003', '', true], [undefined, undefined, '1900', true]
];
function ofCoverage() {
    const data = (row) => {
        const it = coverage.dataOf(row);
        return it === undefined ? 'none' : [it.from, it.to, it.embargo].map((one) => one || '').join();
    };
    return [].concat.apply([], COVERED.map((it) => {
        const row = { first: it[0], last: it[1], embargo: it[2] };
        const name = it.slice(0, 3).join();
        return [['what a target has, ' + name, coverage.textOf(row, siteOf()), it[3]], ['as data, ' + name, data(row),
            it[4]]];
    })).concat(HAS.map((it) => {
        return ['a row that may have ' + it[2] + ', ' + it.slice(0, 2).join(),
            coverage.mayHave({ first: it[0], last: it[1] }, it[2]), it[3]];
    }));
}

// ---------------------------------------------------------------- Lists
// How many titles a search has found, its pages, the page, the titles of this page, and whether there are more.
const FOUND = [
    [0, 1, 1, 0, false, 'none'], [0, 1, 1, 0, true, 'too frequent'], [1, 1, 1, 1, false, '1 title'],
    [7, 1, 1, 7, false, '7 titles'], [50, 1, 1, 50, false, '50 titles'], [7, 1, 1, 7, true, 'more than 7'],
    [120, 3, 1, 50, false, 'first 50 of 120'], [120, 3, 2, 50, false, '51 to 100 of 120'],
    [120, 3, 3, 20, false, '101 to 120 of 120'], [51, 2, 2, 1, false, '51 to 51 of 51'],
    [2000, 40, 1, 50, false, 'first 50 of 2,000'], [2001, 40, 1, 50, false, 'first 50 of 2,001 (add a word)'],
    [2001, 40, 40, 50, false, '1,951 to 2,000 of 2,001 (add a word)'],
    [120, 3, 1, 50, true, 'first 50 of more than 120 (add a word)'],
    [120, 3, 3, 20, true, '101 to 120 of more than 120 (add a word)']
];
// The pages of a list, the one that is shown, and the links to those beside it.
const NEAR = [
    [1, 1, ''], [2, 1, 'After=2'], [2, 2, 'Before=1'], [3, 2, 'Before=1 After=3'], [3, 3, 'Before=2'],
    [200, 199, 'Before=198 After=200']
];
// The pages of a letter, the one that is shown, and the pages that are named.
const NAMED = [
    [1, 1, ''], [2, 1, '[1] 2'], [10, 10, '1 2 3 4 5 6 7 8 9 [10]'], [11, 11, '1 3 5 7 9 [11]'],
    [12, 5, '1 3 [5] 6 7 9 11'], [12, 6, '1 3 5 [6] 7 9 11'], [20, 1, '[1] 2 3 5 7 9 11 13 15 17 19'],
    [100, 37, '1 11 21 31 33 35 [37] 38 39 41 51 61 71 81 91'], [100, 40,
        '1 11 21 31 33 35 37 39 [40] 41 51 61 71 81 91'],
    [101, 101, '1 12 23 34 45 56 67 78 89 100 [101]'], [200, 200,
        '1 21 41 61 81 101 121 141 161 181 185 189 193 197 198 199 [200]']
];
const PAGES_SOUGHT = [['1', 1], ['2', 2], ['10', 10], ['99999', 99999], ['100000', 1], ['0', 1], ['01', 1], ['-1', 1],
    ['2x', 1], ['x2', 1], ['1.5', 1], ['', 1]];
function titleOf(kind, title, numbers, standard, rows) {
    return { kind, title, numbers, standard, rows: rows || [], related: [], pages: [] };
}
function linksIn(html, form) {
    const found = [];
    html.replace(form, (all, address, name) => { found.push([address, name]); return ''; });
    return found;
}
const ANCHOR = /<a href="([^"]*)">([^<]*)<\/a>/g;
function ofLists() {
    const site = siteOf();
    const tides = titleOf('j', 'Tides', ['2901-0012'], ['2901-0012']);
    const searched = (it) => lists.searchOf('j', 'a & b', it, site);
    const status = (html) => /<p class="nothing" role="status">([^<]*)</.exec(html)[1];
    const found = FOUND.map((it) => {
        const titles = [];
        while (titles.length < it[3]) titles.push(tides);
        const text = status(searched({ count: it[0], pages: it[1], page: it[2], titles, isMore: it[4] }));
        return ['found, ' + it.slice(0, 5).join(), text, it[5]];
    });
    found.push(['no words to search', status(searched(null)), 'no words']);
    NEAR.forEach((it) => {
        const html = searched({ count: 50 * it[0], pages: it[0], page: it[1], titles: [tides], isMore: false });
        const near = linksIn(html, ANCHOR).filter((one) => one[1] === 'Before' || one[1] === 'After');
        const pages = near.map((one) => one[1] + '=' + (/page=(\d+)/.exec(one[0]) || ['', '1'])[1]).join(' ');
        found.push(['pages beside ' + it[1] + ' of ' + it[0], pages, it[2]]);
        near.forEach((one) => {
            found.push(['the address of one, ' + one[0],
                /^\/journals\?q=a%20%26%20b(&amp;page=([2-9]|\d\d+))?$/.test(one[0]), true]);
        });
    });
    found.push(['the other kind', searched(null).includes('<a href="/books?q=a%20%26%20b">in Books</a>'), true]);
    found.push(['what is sought', searched(null).includes('value="a &amp; b"'), true]);
    NAMED.forEach((it) => {
        const letter = { letter: 'a', page: 0, pages: it[0], starts: '' };
        const html = lists.letterOf('b', { letters: [letter] }, letter, it[1], [], site);
        const row = html.split('<nav aria-label')[2] || '';
        const names = it[0] === 1 ? '' : asText(row.slice(row.indexOf('<ul'), row.indexOf('</ul>'))
            .replace(/<strong aria-current="page">(\d+)<\/strong>/, '[$1]'));
        found.push(['pages that are named, ' + it.slice(0, 2).join(' of '), names, it[2]]);
        found.push(['the page itself, ' + it.slice(0, 2).join(), html.includes('<p>page ' + it[1] + ' of ' + it[0]
            + '</p>'), true]);
    });
    PAGES_SOUGHT.forEach((it) => { found.push(['the page ' + it[0], lists.pageIn(it[0]), it[1]]); });
    return found.concat(ofLetters(site), ofTitles(site));
}
function ofLetters(site) {
    const letters = ['0-9', 'a', '\u00f8', 'other'].map((letter, i) => ({ letter, page: i, pages: 2,
        starts: 'ab;cd' }));
    const html = lists.letterOf('j', { letters }, letters[1], 2, [], site);
    const both = lists.startOf('b', { count: 1234, letters }, site);
    const chosen = lists.startOf('j', { count: 1, letters: [] }, languages.siteIn({ words: WORDS }, '', 'en'));
    return [
        ['the letters', linksIn(html, ANCHOR).filter((it) => it[0].endsWith('/1')).map((it) => it.join(' ')).join(', '),
            '/journals/0-9/1 0-9, /journals/%C3%B8/1 \u00d8, /journals/other/1 Others, /journals/a/1 Ab, '
                + '/journals/a/1 Before'],
        ['the letter that is shown', html.includes('<li><strong aria-current="true">A</strong></li>'), true],
        ['its heading', html.includes('<h2>A</h2>'), true],
        ['the part that is shown', html.includes('<strong aria-current="page">Cd</strong>'), true],
        ['the first page', both.includes('<p>1,234 titles</p>') && both.includes('<a href="/journals">Journals</a>'),
            true],
        ['no letters', chosen.includes('<p>1 title</p>') && !chosen.includes('<nav'), true],
        ['no titles', html.includes('<ul class="titles">'), false],
        ['a chosen language', [chosen,
            both].map((it) => it.includes('<input type="hidden" name="lang" value="en">')).join(),
            'true,false']
    ];
}
function ofTitles(site) {
    const isbn = titleOf('b', 'Silt & sand', ['0198534531'], ['9780198534532']);
    const issn = titleOf('j', 'Tides', ['2901-0012'], ['2901-0012', '2908-0142', '1', '2', '3'],
        ['a 0 1995', 'a.2 7 1995', 'b 0 - 2003', 'c 0']);
    const address = (it, args) => /href="([^"]*)"/.exec(lists.titleHtml(it, site, args))[1];
    const rows = (isShown) => asText(lists.rowsHtml(issn, site, isShown));
    return [
        ['a book of the list', address(isbn, ''), '/find?rft.genre=book&amp;rft.isbn=9780198534532'],
        ['a journal of the list', address(issn, ''), '/find?rft.genre=journal&amp;rft.issn=2901-0012'],
        ['a title for a request', address(issn, 'a=b&c=d'), '/find?rft.issn=2901-0012&amp;a=b&amp;c=d'],
        ['a title for a request with semicolons', address(issn, 'a=b;c=d'), '/find?rft.issn=2901-0012;a=b;c=d'],
        ['a title for a request with both', address(issn, 'a=b;c&d=e'), '/find?rft.issn=2901-0012&amp;a=b;c&amp;d=e'],
        ['a title as HTML', lists.titleHtml(isbn, site, '').includes('>Silt &amp; sand</a><p>ISBN 9780198534532</p>'),
            true],
        ['four numbers', lists.titleHtml(issn, site,
            '').includes('<p>ISSN 2901-0012, ISSN 2908-0142, ISBN 1, ISBN 2</p>'), true],
        ['a book with an ISSN', address(titleOf('b', 'Silt', ['2901-0012'], ['2901-0012']), ''),
            '/find?rft.genre=book&amp;rft.issn=2901-0012'],
        ['twelve rows', asText(lists.rowsHtml(titleOf('j', 'Tides', [], [], 'abcdefghijklm'.split('').map((name) => name
            + ' 0')), site)), 'a b c d e f g h i j k l'],
        ['a date that is none', asText(lists.rowsHtml(titleOf('j', 'Tides', [], [], ['a 0 <b>']), site)),
            'a: since &lt;b&gt;'],
        ['rows, each once', rows(), 'a: since 1995 b: until 2003 c'], ['rows of one target',
            rows((row) => row.target === 'b'), 'b: until 2003'],
        ['no rows', lists.rowsHtml(isbn, site), '']
    ];
}

// ---------------------------------------------------------------- Notices
function shortOf(list) { return list.map((it) => [it.kind, it.doi, it.source].join(' ').trim()).join(', '); }
function update(type, doi, source) { return { type, DOI: doi, source }; }
// A work of Crossref: what is said by `updated-by` and by `update-to`, the notices, and what it is about.
const OF_CROSSREF = [
    [[update('retraction', '10.5555/r', 'publisher')], [], 'retraction 10.5555/r publisher', ''],
    [[update('Retraction', '10.5555/r', '')], [], 'retraction 10.5555/r', ''],
    [[update('corrigendum', '10.5555/c', '')], [], 'correction 10.5555/c', ''],
    [[update('erratum', '10.5555/c', '')], [], 'correction 10.5555/c', ''],
    [[update('correction', '10.5555/c', '')], [], 'correction 10.5555/c', ''],
    [[update('new_version', '10.5555/v', ''), update('toString', '10.5555/v', ''), 7, null], [], '', ''],
    [[update('correction', '10.5555/c', ''), update('retraction', '10.5555/r', '')], [],
        'retraction 10.5555/r, correction 10.5555/c', ''],
    [[update('retraction', '10.5555/r', 'publisher'), update('retraction', '10.5555/R', 'retraction-watch')], [],
        'retraction 10.5555/r publisher', ''],
    [[update('retraction', '10.5555/r', ''), update('retraction', '10.5555/s', '')], [],
        'retraction 10.5555/r, retraction 10.5555/s', ''],
    [[update('retraction', '10.5555/r', ''), update('correction', '10.5555/r', '')], [],
        'retraction 10.5555/r, correction 10.5555/r', ''],
    [[], [update('retraction', '10.5555/x', '')], '', 'retraction 10.5555/x'],
    [[], [update('retraction', '10.5555/OWN', '')], 'retraction 10.5555/OWN', ''],
    [[update('retraction', '10.5555/r', '')], [update('retraction', '10.5555/own', '')], 'retraction 10.5555/r', ''],
    [[update('correction', '10.5555/c', '')], [update('retraction', '10.5555/own', '')],
        'correction 10.5555/c, retraction 10.5555/own', ''],
    [[], [update('retraction', 'none', '')], '', ''], [undefined, 'x', '', '']
];
const RETRACTED = ['Journal Article', 'Retracted Publication'];
// A record of PubMed: its types, its references as a type and a source, and the notices.
const OF_PUBMED = [
    [RETRACTED, [['Retraction in', 'Tides. 2020;1:2. doi: 10.5555/r; discussion']], 'retraction 10.5555/r pubmed'],
    [RETRACTED, [['Partial retraction in', 'doi: 10.5555/r, 2']], 'retraction 10.5555/r pubmed'],
    [RETRACTED, [['retraction in', '10.5555/r']], 'retraction 10.5555/r pubmed'],
    [RETRACTED, [['Comment in', '10.5555/c'], ['Retraction in', '10.5555/r']], 'retraction 10.5555/r pubmed'],
    [RETRACTED, [['Retraction in', 'Tides. 2020;1:2']], 'retraction  pubmed'], [RETRACTED, [], 'retraction  pubmed'],
    [RETRACTED, [['Retraction in x', '10.5555/r']], 'retraction  pubmed'],
    [RETRACTED, [['Retraction in', 'a10.5555/r']], 'retraction  pubmed'],
    [['Retraction of Publication'], [['Retraction in', '10.5555/r']], ''], [undefined, undefined, '']
];
const REMARK = { kind: 'retraction', doi: '10.5555/r', source: 'publisher' };
const CORRECTION = { kind: 'correction', doi: '', source: 'retraction-watch' };
// Whether a title has a remark, the notices, what is shown, and whether the data says that the article was retracted.
const SHOWN = [
    [false, [], '', false], [true, [], 'Remark', true], [true, [REMARK],
        'Retracted see doi.org/10.5555/r says the publisher', true],
    [false, [REMARK], 'Retracted see doi.org/10.5555/r says the publisher', true],
    [false, [CORRECTION], 'Corrected says Retraction Watch', false],
    [true, [CORRECTION], 'Remark Corrected says Retraction Watch', true],
    [false, [{ kind: 'retraction', doi: '', source: 'pubmed' }], 'Retracted says PubMed', true],
    [false, [{ kind: 'retraction', doi: '', source: '<x>' }], 'Retracted says &lt;x&gt;', true],
    [false, [{ kind: 'retraction', doi: '', source: '' }], 'Retracted', true]
];
function ofNotices() {
    const site = siteOf();
    const found = OF_CROSSREF.map((it, i) => {
        const all = notices.ofCrossref({ DOI: '10.5555/own', 'updated-by': it[0], 'update-to': it[1] });
        return ['notices of Crossref ' + i, shortOf(all.notices) + '|' + shortOf(all.about), it[2] + '|' + it[3]];
    }).concat(OF_PUBMED.map((it, i) => {
        const references = it[1] && it[1].map((one) => ({ reftype: one[0], refsource: one[1] }));
        const all = notices.ofPubmed({ pubtype: it[0], references });
        return ['notices of PubMed ' + i, shortOf(all.notices) + '|' + shortOf(all.about), it[2] + '|'];
    }));
    SHOWN.forEach((it, i) => {
        const q = { isRetracted: it[0], notices: it[1], about: [] };
        const given = {};
        notices.addTo(given, q);
        found.push(['notices that are shown ' + i, asText(notices.linesOf(q, site).join(' ')), it[2]]);
        found.push(['notices as data ' + i, given.retracted === true, it[3]]);
        found.push(['their number ' + i, (given.notices || []).length, it[1].length]);
    });
    const about = { isRetracted: false, notices: [], about: [REMARK] };
    const data = {};
    notices.addTo(data, about);
    const addresses = linksIn(notices.linesOf(about, site).join(''), ANCHOR).map((it) => it.join(' ')).join();
    return found.concat([
        ['what a notice is about', asText(notices.linesOf(about, site).join('')), 'A notice &amp; about DOI 10.5555/r'],
        ['its address', addresses, '/find?rft_id=info%3Adoi%2F10.5555%2Fr DOI 10.5555/r'],
        ['the same as data', JSON.stringify(data), '{"noticeAbout":[' + JSON.stringify(REMARK) + ']}'],
        ['what is not known', JSON.stringify(dataWith([CORRECTION])),
            '{"notices":[{"kind":"correction","source":"retraction-watch"}]}'],
        ['classes', linksIn(notices.linesOf({ isRetracted: false, notices: [REMARK, CORRECTION], about: [] },
            site).join(''),
            /<p class="(\w+)">(<strong>)/g).map((it) => it[0]).join(), 'retracted,corrected']
    ]);
}
function dataWith(list) {
    const data = {};
    notices.addTo(data, { isRetracted: false, notices: list, about: [] });
    return data;
}

// ---------------------------------------------------------------- Free copies
const LABEL_63 = 'a'.repeat(63);
const LONG_HOST = (LABEL_63 + '.').repeat(3) + 'a'.repeat(56);  // with `a.org` it has 253 characters
// An address, and its host if a reader may follow it (RFC 3986, RFC 1123; ICANN's reserved names).
const HOSTS = [
    ['https://e.org/a', 'e.org'], ['https://E.ORG', 'e.org'], ['https://a.b-c.example.edu/x?y#z', 'a.b-c.example.edu'],
    ['https://e.org:443/a', 'e.org'], ['https://e.org?a', 'e.org'], ['https://e.org#a', 'e.org'],
    ['https://xn--bcher-kva.example/', 'xn--bcher-kva.example'], ['https://e.xn--p1ai/', 'e.xn--p1ai'],
    ['https://' + LABEL_63 + '.org', LABEL_63 + '.org'], ['https://' + LABEL_63 + 'a.org', ''],
    ['https://e.' + 'a'.repeat(24), 'e.' + 'a'.repeat(24)], ['https://e.' + 'a'.repeat(25), ''], ['https://e.a', ''],
    ['https://' + LONG_HOST + 'a.org', LONG_HOST + 'a.org'], ['https://' + LONG_HOST + 'aa.org', ''],
    ['https://e.org/' + 'a'.repeat(1986), 'e.org'], ['https://e.org/' + 'a'.repeat(1987), ''],
    ['http://e.org/', ''], ['https://e.org:80/', ''], ['https://e.org:4430/', ''], ['https://u@e.org/', ''],
    ['https://org/', ''], ['https://127.0.0.1/', ''], ['https://e.123/', ''], ['https://[::1]/', ''],
    ['https://-e.org/', ''],
    ['https://e-.org/', ''], ['https://e..org/', ''], ['https://.e.org/', ''], ['https://e.org./', ''],
    ['https://e.org/a b', ''], ['https://e.org/"', ''], ['https://e.org/<', ''], ['https://e.org/a\n', ''],
    ['https://e.org/\u00fc', ''], ['https://e.org/%5B(a)*;=', 'e.org'], ['xhttps://e.org/', ''], ['ftp://e.org/', ''],
    ['', ''], [7, ''], [undefined, '']
].concat(['arpa', 'corp', 'home', 'internal', 'intranet', 'lan', 'local', 'localhost', 'onion', 'private', 'LOCAL']
    .map((name) => ['https://e.' + name + '/', '']));
function place(url, version) { return { url, version }; }
// The best place of Unpaywall and all of them, and the copy: its address and its version.
const COPIES = [
    [place('https://e.org/a', 'publishedVersion'), [], 'https://e.org/a publishedVersion'],
    [place('https://e.org/a', 'acceptedVersion'), [place('https://f.org/b', '')], 'https://e.org/a acceptedVersion'],
    [place('http://e.org/a', ''), [place('ftp://f.org', ''), place('https://f.org/b', 'submittedVersion')],
        'https://f.org/b submittedVersion'],
    [null, [place('https://f.org/b', 'toString')], 'https://f.org/b '], [null, [place('https://f.org/b')],
        'https://f.org/b '],
    [{ url: 'http://e.org', url_for_pdf: 'https://e.org/p', url_for_landing_page: 'https://e.org/l' }, [],
        'https://e.org/p '],
    [{ url: 'https://e.org/u', url_for_pdf: 'https://e.org/p' }, [], 'https://e.org/u '],
    [{ url_for_pdf: 7, url_for_landing_page: 'https://e.org/l' }, [], 'https://e.org/l '], [null, [], 'none'], [7, 'x',
        'none']
];
const GROUPS = [{ name: 'A' }, { name: 'B' }, { name: 'C', onlyWithout: 'A' }, { name: 'D', onlyWithout: 'B' }];
// The groups that are shown of all groups, and their order with the free copy.
const PLACED = [
    [GROUPS, 'A B', 'A B Free copy'], [GROUPS, 'C D', 'Free copy C D'], [GROUPS, 'A D', 'A Free copy D'],
    [GROUPS, '', 'Free copy'], [GROUPS.slice(0, 2), 'A B', 'A Free copy B'], [GROUPS.slice(0, 2), 'B', 'Free copy B'],
    [GROUPS.slice(2), 'C', 'C Free copy']
];
function ofCopies() {
    const hosts = HOSTS.map((it) => ['the host of ' + it[0], copies.hostOf(it[0]), it[1]]);
    const found = hosts.concat(COPIES.map((it, i) => {
        const best = copies.copyIn({ best_oa_location: it[0], oa_locations: it[1] });
        return ['the free copy ' + i, best === null ? 'none' : best.url + ' ' + best.version, it[2]];
    }));
    const copy = { url: 'https://e.org/a', host: 'e.org', version: 'submittedVersion' };
    PLACED.forEach((it) => {
        const shown = it[1].split(' ').filter(Boolean).map((name) => ({ name }));
        const names = (q) => copies.placed(shown, it[0], q, siteOf()).map((one) => one.name).join(' ');
        found.push(['beside ' + it[1], names({ freeCopy: copy }), it[2]]);
        found.push(['none beside ' + it[1], names({ freeCopy: null }), it[1]]);
    });
    const group = (words, version) => JSON.stringify(copies.placed([], [{ name: 'A' }], { freeCopy: { url: copy.url,
        host: copy.host, version } }, siteOf({ words: Object.assign({}, WORDS, words) }))[0]);
    const linkText = (label, version) => '[{"label":"' + label + '","url":"https://e.org/a","host":"e.org"' + version
        + '}]';
    const asked = (doi, variables) => {
        const q = { first: () => doi };
        return copies.find({ variables }, q) === null ? 'no' : 'yes';
    };
    const on = { openlink_free_copies: 'on', openlink_lookup: 'x' };
    globalThis.ngx = { fetch: () => new Promise(() => {}) };
    return found.concat([
        ['a version', group({}, 'submittedVersion'), '{"name":"Free copy","links":'
            + linkText('submitted at e.org', ',"version":"submittedVersion"') + '}'],
        ['another version', group({}, 'acceptedVersion').includes('accepted at e.org'), true],
        ['a published version', group({}, 'publishedVersion').includes('published at e.org'), true],
        ['no version, and a label', group({ freeCopy: 'Frei' }, ''), '{"name":"Free copy","label":"Frei","links":'
            + linkText('at e.org', '') + '}'],
        ['a label that is the name', group({ freeCopy: 'Free copy' }, ''), '{"name":"Free copy","links":'
            + linkText('at e.org', '') + '}'],
        ['no DOI', asked('', on), 'no'], ['not switched on', asked('10.5555/a', { openlink_lookup: 'x' }), 'no'],
        ['switched off', asked('10.5555/a', { openlink_free_copies: 'off', openlink_lookup: 'x' }), 'no'],
        ['no look-up', asked('10.5555/a', { openlink_free_copies: 'on' }), 'no'],
        ['of arXiv', asked('10.48550/ARXIV.2101.00001', on), 'no'],
        ['a DOI of 301 characters', asked('10.5555/' + 'a'.repeat(293), on), 'no']
    ]);
}

function cases() { return ofCoverage().concat(ofLists(), ofNotices(), ofCopies()); }

export default { all: cases };
