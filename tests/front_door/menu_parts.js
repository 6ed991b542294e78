// The reader's page and its data, of a request and links that are given: groups, notices, actions, pages of titles.
// Each case is its name, what the modules give, and what was expected.
import citation from './citation.js';
import known from './known.js';
import languages from './languages.js';
import menus from './menu.js';
import titlePages from './title_pages.js';
import wording from './words.js';

const WORDS = {
    heading: 'Heading', group: 'Links', nothing: 'N nothing', held: 'N held', unknownTitle: 'N title',
    numberMissing: 'N unlisted', numberAlone: 'N identifier', incomplete: 'N incomplete', onlyPage: 'N page',
    onlyCopy: 'N copy', complete: 'Complete', change: 'Change', ris: 'RIS', permanent: 'Permanent', byTitle: 'By {}!',
    maybe: 'Maybe', later: 'Later {}', earlier: 'Earlier {}', fullText: 'Text at {}', others: '{} and others',
    titlePages: 'Pages', journalAt: 'journal at {}', bookAt: 'book at {}', followedNote: 'Counted',
        edition: 'edition {}',
    issn: 'ISSN {}', isbn: 'ISBN {}', noCitation: 'No citation', since: 'since {}', until: 'until {}', between: '{}-{}',
    copyUnknown: 'at {}', problem: 'Problem', problemLink: 'mailto:a@e.org?subject=a&body={}'
};
const GROUPS = [{ name: 'A' }, { name: 'B', label: 'Bee' }, { name: 'C', onlyWithout: 'A' }];
const TARGETS = { a: {}, b: { group: 'B', label: 'Beta', note: 'n < m' }, c: { group: 'C' }, q: { group: 'nowhere' } };
function siteOf(more, asked) {
    return languages.siteIn(Object.assign({ words: WORDS, groups: GROUPS, targets: TARGETS }, more), '', asked);
}
function queryOf(args, fields) { return Object.assign(known.queryOf(args), fields); }
function titleOf(kind, title, numbers, rows, others) {
    return Object.assign({ kind, title, numbers, standard: numbers, rows, related: [], pages: [] }, others);
}
function linksOf(text) { return known.linksOf(text); }
function pageOf(q, links, site) { return menus.pageOf(q, menus.groupsOf(links, site), site); }
function mainOf(html) { return html.slice(html.indexOf('<main>'), html.indexOf('</main>')); }
function asText(html) { return html.replace(/<[^>]*>/g, ' ').replace(/\s+/g, ' ').trim(); }
function addressesIn(html) {
    const found = [];
    html.replace(/href="([^"]*)"/g, (all, address) => { found.push(address.split('&amp;').join('&')); return ''; });
    return found;
}

const A = 'a\thttps://a/\n';
const B = 'b\thttps://b/\n';
const C = 'c\thttps://c/\n';
const D = 'd\thttps://d/\n';
// Links, and the groups with their targets in the order of the page.
const SHOWN = [
    ['', ''], [A, 'A a'], [B, 'B Bee b'], [C, 'C c'], [A + C, 'A a'], [B + C, 'B Bee b, C c'], [D, 'More d'],
    [A + D + B, 'A a, B Bee b, More d'], ['q\thttps://q/\n', 'A q'], ['b.2\thttps://b/\n', 'B Bee b']
];
function ofGroups() {
    const shown = (links, site) => menus.shownGroups(menus.groupsOf(linksOf(links), site))
        .map((g) => [g.name, g.label,
            g.links.map((link) => link.target).join(' ')].filter(Boolean).join(' ')).join(', ');
    const more = (name) => siteOf({ words: { more: name } });
    return SHOWN.map((it) => ['groups of ' + it[0].split('\n').join(' '), shown(it[0], siteOf()), it[1]]).concat([
        ['groups without a name', shown(A + D, siteOf({ groups: [{ name: '' }, { label: 'x' }, {}] })),
            'Links a, More d'],
        ['no groups', shown(A + D, siteOf({ groups: undefined })), 'Links a d'],
        ['the group of others', shown(D, more('Rest')), 'Rest d'],
        ['the group of others that the site has', shown(B + D, more('B')), 'B Bee b d'],
        ['a group of all others is there once', menus.groupsOf([], more('B')).map((g) => g.name).join(), 'A,B,C'],
        ['a group of all others', menus.groupsOf([], siteOf()).map((g) => g.name).join(), 'A,B,C,More']
    ]);
}

// ---------------------------------------------------------------- Links
function linkPart(html, target) { return html.split('<li>').find((it) => it.includes('https://' + target
    + '/')) || ''; }
function ofLinks() {
    const links = linksOf(A + B);
    links[0].row = { target: 'a', first: '1995', last: '-' };
    links[1].edition = ['2901-0012', '2908-0142'];
    const site = siteOf();
    const q = queryOf('rft.issn=2901-0012');
    const html = pageOf(q, links, site);
    const data = menus.dataOf(q, menus.groupsOf(links, site), site);
    links[1].edition = ['9781234560102'];
    const book = pageOf(q, links, siteOf());
    return [
        ['a link and its coverage', asText(linkPart(html, 'a')), 'a since 1995 Bee'],
        ['a link, its edition and its note', asText(linkPart(html, 'b')).split(' Change')[0],
            'Beta edition ISSN 2901-0012, 2908-0142 n &lt; m'],
        ['another book', asText(linkPart(book, 'b')).split(' Change')[0], 'Beta edition ISBN 9781234560102 n &lt; m'],
        ['the same as data', JSON.stringify(data.groups),
            '[{"name":"A","links":[{"target":"a","label":"a","url":"https://a/",'
            + '"coverage":{"from":"1995"}}]},{"name":"B","label":"Bee","links":[{"target":"b","label":"Beta",'
            + '"url":"https://b/",'
            + '"note":"n < m","edition":"2901-0012, 2908-0142"}]}]'],
        ['no coverage', JSON.stringify(menus.dataOf(q, menus.groupsOf(linksOf(A), site), site).groups),
            '[{"name":"A","links":[{"target":"a","label":"a","url":"https://a/"}]}]']
    ];
}

// ---------------------------------------------------------------- Addresses
function ofAddresses() {
    const inSite = (language) => Object.assign(siteOf({ languages: ['en'] }, language), { isFollowed: true });
    const counted = (sent, more, language, name) => {
        const links = linksOf((name || 'b-1') + '\thttps://b/\n');
        return addressesIn(mainOf(pageOf(queryOf(sent, more), links, inSite(language))));
    };
    const followed = (sent) => mainOf(pageOf(queryOf(sent), linksOf(A), inSite()));
    const copy = { url: 'https://copy.org/', host: 'copy.org', version: '' };
    const args = 'rft.issn=2901-0012&a=\'"&b=c';
    const site = siteOf();
    const plain = addressesIn(mainOf(pageOf(queryOf(args), linksOf(A), site)));
    const chosen = addressesIn(mainOf(pageOf(queryOf('a=b'), linksOf(A), siteOf({ languages: ['en'] }, 'en'))));
    const request = 'rft.issn%3D2901-0012%26a%3D%27%22%26b%3Dc';
    const twice = siteOf({ words: Object.assign({}, WORDS, { problemLink: 'https://p/?{}#{}' }) });
    const offered = [{ target: 'z', label: 'journal at z', url: 'https://z/', covered: '' }];
    const groups = menus.groupsOf(linksOf(A + C + 'x/y\thttps://x/\n'), site);
    const to = (q, target) => (menus.linkTo(q, groups, target) || { url: 'none' }).url;
    const hasProblem = (words) => pageOf(queryOf('a=b'), [], siteOf({ words: Object.assign({}, WORDS, words) }))
        .includes('class="problem"');
    const letters = 'abdefghijklmnopqrstuvwxyz0123456'.split('');
    const many = (length) => addressesIn(mainOf(pageOf(queryOf('a=' + 'b'.repeat(length - 2)), linksOf(letters.map(
        (name) => name + '\thttps://b/\n').join('')), inSite()))).filter((it) => it.startsWith('/go')).length;
    return [
        ['forms of the address of a problem', ['https://p/{}', 'xhttps://p/{}', 'javascript:"https://p/{}"',
            'https://p/{} x'].map((problemLink) => hasProblem({ problemLink })).join(), 'true,false,false,false'],
        ['a problem without a text', hasProblem({ problem: '' }), false],
        ['links that are counted, up to 65,536 bytes', [many(2048), many(2049)].join(), '32,0'],
        ['a page of the title alone, counted', addressesIn(mainOf(pageOf(queryOf('a=b', { offered: [{ target: 'z',
            label: 'journal at z', url: 'https://z/', covered: '' }] }), [], inSite())))[0], '/go?target=z&a=b'],
        ['addresses of a page', plain.map((it) => it.split('&quot;').join('"').split('&#39;').join("'")).join(' '),
            `https://a/ /cite?${args} /find.ris?${args} /find?${args} mailto:a@e.org?subject=a&body=${request}`],
        ['in a language that was chosen', chosen.slice(0, 4).join(' '),
            'https://a/ /cite?a=b&lang=en /find.ris?a=b&lang=en /find?a=b&lang=en'],
        ['a problem, in two places', addressesIn(mainOf(pageOf(queryOf('a=b'), [], twice))).slice(-1)[0],
            'https://p/?a%3Db#a%3Db'],
        ['of no request', addressesIn(mainOf(pageOf(queryOf(''), [], site))).length, 0],
        ['of 3,000 bytes', addressesIn(mainOf(pageOf(queryOf('a=' + 'b'.repeat(2998)), [],
            site))).filter((it) => it.startsWith('/cite')).length, 1],
        ['of 3,001 bytes', addressesIn(mainOf(pageOf(queryOf('a=' + 'b'.repeat(2999)), [],
            site))).filter((it) => it.startsWith('/')).length, 0],
        ['links that are counted', counted('a=b', { freeCopy: copy }).slice(0, 2).sort().join(' '),
            '/go?target=b-1&a=b https://copy.org/'],
        ['counted, by a name with a slash', counted('a=b', {}, '', 'x/y')[0], '/go?target=x%2Fy&a=b'],
        ['the note of counting', asText(followed('a=b')).includes('Counted'), true],
        ['no note of counting', asText(followed('')).includes('Counted'), false],
        ['an ampersand in the address of a problem', pageOf(queryOf('a=b'), [],
            site).includes('subject=a&amp;body=a%3Db'), true],
        ['counted in a language', counted('a=b', {}, 'en')[0], '/go?target=b-1&a=b&lang=en'],
        ['not counted, of a long request', counted('a=' + 'b'.repeat(2999), {})[0], 'https://b/'],
        ['not counted, of no request', counted('', {})[0], 'https://b/'],
        ['the link of a target', to(queryOf('a=b', { offered }), 'a'), 'https://a/'],
        ['of a target that is not shown', to(queryOf('a=b', { offered }), 'c'), 'none'],
        ['of a page of the title', to(queryOf('a=b', { offered }), 'z'), 'https://z/'],
        ['of a name with a slash', [to(queryOf('a=b'), 'x%2Fy'), to(queryOf('a=b'), 'x/y')].join(), 'https://x/,none'],
        ['of another target', to(queryOf('a=b'), 'toString'), 'none']
    ];
}

// ---------------------------------------------------------------- What is said
const ISSN = 'rft.issn=2901-0012';
const WHOLE = ISSN + '&rft.date=2003&rft.volume=12';
const COPY = { url: 'https://copy.org/', host: 'copy.org', version: '' };
const HELD = [titleOf('j', 'Tides', ['2901-0012'], ['a 0 1995', 'b 0 1990'])];
const OFFERED = [{ target: 'z', label: 'journal at z', url: 'https://z/', covered: 'since 1990' }];
const MAYBE = [titleOf('j', 'Tides', ['2901-0012'], [])];
// A request, what is known of it, its links, the notice, and whether the form follows.
const NOTICES = [
    [ISSN, { knowledge: 'number' }, '', 'N nothing', false], [ISSN, { knowledge: 'title' }, '', 'N title', true],
    [ISSN, { knowledge: 'unlisted' }, '', 'N unlisted', true], [ISSN, { knowledge: 'identifier' }, '', 'N identifier',
        true],
    [ISSN, { knowledge: 'nothing' }, '', 'N incomplete', true], [ISSN, { knowledge: 'other' }, '', 'N incomplete',
        true],
    [ISSN, { knowledge: 'number' }, A, '', false], [ISSN, { knowledge: 'number' }, B, 'N nothing', false],
    [ISSN, { knowledge: 'title', maybe: MAYBE }, '', '', false], ['', { knowledge: 'nothing' }, '', '', false],
    [ISSN, { knowledge: 'number', titles: HELD }, '', 'N held', true],
    [WHOLE, { knowledge: 'number', titles: HELD }, '', 'N nothing', false],
    [ISSN + '&rft.date=2003', { knowledge: 'number', titles: HELD }, '', 'N held', true],
    [ISSN + '&rft.volume=12', { knowledge: 'number', titles: HELD }, '', 'N held', true],
    [ISSN + '&rft.date=1994', { knowledge: 'number', titles: HELD }, '', 'N nothing', false],
    ['rft.isbn=9781234560102', { knowledge: 'number', titles: HELD }, '', 'N nothing', false],
    [ISSN, { knowledge: 'title', titles: HELD }, '', 'N title', true],
    [ISSN, { knowledge: 'number', offered: OFFERED }, '', 'N page', false],
    [ISSN, { knowledge: 'number', titles: HELD, offered: OFFERED }, '', 'N held', true],
    [ISSN, { knowledge: 'title', offered: OFFERED }, '', 'N title', true],
    [ISSN, { knowledge: 'number', freeCopy: COPY }, '', 'N copy', false],
    [ISSN, { knowledge: 'title', freeCopy: COPY }, '', 'N title', true],
    [ISSN, { knowledge: 'number', titles: HELD, freeCopy: COPY }, '', 'N held', true],
    ['a=' + 'b'.repeat(2999), { knowledge: 'title' }, '', 'N title', false]
];
function ofSaid() {
    const site = siteOf();
    const found = NOTICES.map((it, i) => {
        const html = mainOf(pageOf(queryOf(it[0], it[1]), linksOf(it[2]), siteOf()));
        const said = (/>(N [a-z]+)</.exec(html) || ['', ''])[1] + ' ' + html.includes('<h2>Complete</h2>');
        return ['what is said of ' + it[0].slice(0, 40) + ' ' + i, said, it[3] + ' ' + it[4]];
    });
    const text = (args, fields, links, more) => asText(mainOf(pageOf(queryOf(args, fields), linksOf(links),
        siteOf(more))));
    const held = text(ISSN + '&rft.date=1992', { knowledge: 'number', titles: [titleOf('j', 'Tides', ['2901-0012'],
        ['a 0 1995', 'a 1 1990 1993', 'b 0 1990'])] }, '');
    const byTitle = titleOf('j', 'Tides', ['2901-0012'], []);
    const related = [{ isLater: true, number: '2908-0142', title: 'Coasts' }, { isLater: false, number: '9781234560102',
        title: 'Silt' }];
    const withRelated = mainOf(pageOf(queryOf(ISSN, { titles: [titleOf('j', 'Tides', ['2901-0012'], [],
        { related })] }), [], site));
    return found.concat([
        ['the rows of the first group', held.includes('N held a: 1990-1993 ') && !held.includes('since 19'), true],
        ['the rows of two titles', text(ISSN, { knowledge: 'number', titles: [HELD[0], titleOf('j', 'Coasts',
            ['2908-0142'], ['a 1 1990'])] }, '').includes('N held a: since 1995 a: since 1990'), true],
        ['titles before and after the first of two', asText(mainOf(pageOf(queryOf(ISSN, { titles: [titleOf('j', 'Tides',
            ['2901-0012'], [], { related }), HELD[0]] }), [], site))).includes('Later Coasts Earlier Silt'), true],
        ['no rows beside another notice', text(WHOLE, { knowledge: 'number', titles: HELD }, '').includes('since'),
            false],
        ['a site without groups', text(ISSN, { knowledge: 'number', titles: HELD }, '', { groups: undefined })
            .includes('N held a: since 1995'), true],
        ['the book that gave the number', text(ISSN, { byTitle: titleOf('b', 'Silt', ['0198534531'], [], { standard:
            ['9780198534532'] }) }, A).includes('By Silt, ISBN 9780198534532!'), true],
        ['titles that a request of 3,000 bytes and one of 3,001 may mean', [2986, 2987].map((length) => addressesIn(
            mainOf(pageOf(queryOf('title=Tides&a=' + 'b'.repeat(length), { maybe: MAYBE }), [], site)))[0]
            .includes('a=bb')).join(), 'true,false'],
        ['titles that a long request may mean', addressesIn(mainOf(pageOf(queryOf('title=Tides&a=' + 'b'.repeat(3000),
            { maybe: MAYBE }), [], site)))[0], '/find?rft.genre=journal&rft.issn=2901-0012'],
        ['the title that gave the number', text(ISSN, { byTitle }, A).includes('By Tides, ISSN 2901-0012!'), true],
        ['titles before and after', asText(withRelated).includes('Later Coasts Earlier Silt'), true],
        ['their addresses', addressesIn(withRelated).slice(0, 2).join(' '),
            '/find?rft.issn=2908-0142 /find?rft.isbn=9781234560102'],
        ['titles that are meant', text('title=Tides', { maybe: MAYBE }, '').includes('Maybe Tides ISSN 2901-0012'),
            true],
        ['the same as data', JSON.stringify(menus.dataOf(queryOf('title=Tides', { maybe: [titleOf('b', 'Silt',
        ['0198534531'], [],
            { standard: ['9780198534532'] })] }), menus.groupsOf([], site), site).maybe),
                '[{"title":"Silt","numbers":["9780198534532"]}]'],
        ['pages as data', JSON.stringify(menus.dataOf(queryOf(ISSN, { offered: OFFERED }), menus.groupsOf([], site),
            site).pages),
            '[{"target":"z","label":"journal at z","url":"https://z/"}]'],
        ['no pages as data', menus.dataOf(queryOf(ISSN), menus.groupsOf([], site), site).pages, undefined],
        ['pages after the full text', text(ISSN, { offered: OFFERED }, A
            + B).includes('A a Pages journal at z since 1990 Bee Beta'), true],
        ['pages before other groups', text(ISSN, { knowledge: 'number', offered: OFFERED },
            B).includes('Pages journal at z since 1990 Bee'), true],
        ['a remark before the notice', text(ISSN, { knowledge: 'number', isRetracted: true }, '', { words:
            Object.assign({ retracted: 'Remark' }, WORDS) }).includes('Remark N nothing'), true]
    ]);
}

// Links of the first group, a title, and the heading.
const HEADINGS = [
    ['a', 'Silt', 'Text at a'], ['a e', 'Silt', 'Text at a, e'], ['a e f', 'Silt', 'Text at a, e, f'],
    ['a e f g', 'Silt', 'Text at a, e, f and others'], ['', 'Silt', 'Silt'], ['', '', 'Heading'],
    ['', '\u05d0 Silt', '\u2068\u05d0 Silt\u2069'], ['', 'Silt \u0628', '\u2068Silt \u0628\u2069'], ['', 'S\u00fcd',
        'S\u00fcd'],
    ['', '\ufe8d', '\u2068\ufe8d\u2069'], ['', '\ufb2a', '\u2068\ufb2a\u2069']
];
function ofHeadings() {
    const targets = { a: {}, e: {}, f: {}, g: {}, h: { label: 'a' } };
    const heading = (html) => /<h1>([^<]*)<\/h1>/.exec(html)[1];
    const page = (names, title, more, fields) => pageOf(queryOf(title === '' ? '' : 'atitle='
        + encodeURIComponent(title) + '&'
        + ISSN, fields), linksOf(names.split(' ').filter(Boolean).map((name) => name + '\thttps://x/\n').join('')),
    siteOf(Object.assign({ targets }, more)));
    const titleIn = (html) => /<title>([^<]*)</.exec(html)[1];
    return HEADINGS.map((it) => ['the heading of ' + it[0] + ', ' + it[1], heading(page(it[0], it[1])), it[2]]).concat([
        ['two targets of one label', heading(page('a h', 'Silt')), 'Text at a'],
        ['a request that may mean several titles', heading(page('a', 'Silt', {}, { maybe: MAYBE })), 'Silt'],
        ['a site without groups', heading(page('a', 'Silt', { groups: undefined })), 'Silt'],
        ['a site without the text', heading(page('a', 'Silt', { words: {} })), 'a'],
        ['the heading of a journal', heading(pageOf(queryOf('jtitle=Tides'), [], siteOf())), 'Tides'],
        ['200 characters of a title', heading(page('', 'a'.repeat(200))), 'a'.repeat(200)],
        ['201 characters of a title', heading(page('', 'a'.repeat(201))), 'a'.repeat(199) + '\u2026'],
        ['the title of a page', titleIn(page('a', 'Silt')), 'Silt'], ['of a journal',
            titleIn(pageOf(queryOf('jtitle=Tides'), [], siteOf())), 'Tides'],
        ['a hundred characters of it', titleIn(page('', 'a'.repeat(101))), 'a'.repeat(100)]
    ]);
}

// ---------------------------------------------------------------- Pages of titles
const PAGE = { target: 'z', url: 'https://z/' };
// A request, the rows of its title, the pages, the targets that have links, and the pages that are offered.
const OFFERS = [
    [ISSN, ['z 0 1995'], [PAGE], '', 'z journal at z, since 1995'], [ISSN, ['z 0'], [PAGE], '', 'z journal at z'],
    [WHOLE, ['z 0 1995'], [PAGE], '', ''], ['rft.date=2003&rft.volume=12&jtitle=Tides', ['z 0 1995'], [PAGE], '',
        'z journal at z, since 1995'],
    [ISSN + '&rft.date=2003', ['z 0 1995'], [PAGE], '', 'z journal at z, since 1995'],
    [ISSN + '&rft.volume=12', ['z 0 1995'], [PAGE], '', 'z journal at z, since 1995'],
    [ISSN + '&rft.date=1994', ['z 0 1995'], [PAGE], '', ''], [ISSN + '&rft.date=2003', ['z 0 1995 - P1Y'], [PAGE], '',
        ''],
    [ISSN + '&rft.date=2003', ['z 0 1995 - -'], [PAGE], '', 'z journal at z, since 1995'],
    [ISSN, ['z 0 1995 - P1Y'], [PAGE], '', 'z journal at z, since 1995'], [ISSN, ['z 0 1995'], [PAGE], 'z', ''],
    [ISSN, ['z 0 1995'], [PAGE], 'a', 'z journal at z, since 1995'], [ISSN, ['y 0 1995'], [PAGE], '', ''], [ISSN, [],
    [PAGE], '', ''],
    [ISSN, ['z 0 1995', 'z.2 4 1995', 'z 3 - 1990'], [PAGE], '', 'z journal at z, since 1995; until 1990'],
    [ISSN, ['z 0 1991 1991', 'z 1 1992 1992', 'z 2 1993 1993', 'z 3 1994 1994', 'z 4 1995 1995'], [PAGE], '',
        'z journal at z, 1991; 1992; 1993; 1994'],
    [ISSN, ['z 0'], [{ target: 'z', url: 'http://z/' }], '', ''], [ISSN, ['z 0'], [{ target: 'z',
        url: 'https://z/ a' }], '', ''],
    [ISSN, ['z 0'], [PAGE, { target: 'z', url: 'https://other/' }], '', 'z journal at z'], [ISSN, ['z 0'], [], '', '']
];
function ofPages() {
    const site = siteOf();
    const offered = (it, kind) => {
        const q = queryOf(it[0], { titles: [titleOf(kind, 'Tides', ['2901-0012'], it[1], { pages: it[2] })] });
        const links = linksOf(it[3].split(' ').filter(Boolean).map((name) => name + '\thttps://x/\n').join(''));
        return titlePages.pagesOf(q, menus.groupsOf(links, site), site);
    };
    const text = (found) => found.map((one) => one.target + ' ' + [one.label,
        one.covered].filter(Boolean).join(', ')).join(' | ');
    return OFFERS.map((it, i) => ['pages of a title ' + i, text(offered(it, 'j')), it[4]])
        .concat([['the page of a book', text(offered([ISSN, ['z 0'], [PAGE], ''], 'b')), 'z book at z'],
            ['its address', offered(OFFERS[0], 'j')[0].url, 'https://z/']]);
}

// ---------------------------------------------------------------- Citations
const CITED = [
    ['aulast=Li&aufirst=Wei&auinit=W&jtitle=Tides', 'Li, Wei Tides'], ['aulast=Li&auinit=W&auinit1=V&jtitle=Tides',
        'Li, W Tides'],
    ['jtitle=Tides&artnum=in+press', 'Tides in press'], ['au=%01&au=Li&jtitle=Tides', 'Li Tides'],
    ['issn=2901-0012&isbn=9781234560102&jtitle=Tides', 'Tides ISSN 2901-0012 ISBN 9781234560102'],
    ['atitle=p%3C0.05+%26+q&jtitle=Tides', 'p&lt;0.05 &amp; q Tides'], ['', 'No citation']
];
function ofCitations() {
    const words = Object.assign({}, WORDS, { pages: '{}', list: '{} {}' });
    const site = siteOf({ words });
    const ris = (args) => {
        const q = queryOf(args);
        return citation.risOf(q, site).split('\r\n');
    };
    return CITED.map((it) => {
        return ['the citation of ' + it[0], asText(citation.citationHtml(citation.citationOf(queryOf(it[0]), site),
            site)), it[1]];
    }).concat([
        ['the number of a record',
            ris('issn=2901-0012&isbn=9781234560102&jtitle=Tides').filter((it) => it.startsWith('SN')).join(),
                'SN  - 2901-0012'],
        ['a type of two words', ris('rft_val_fmt=info:ofi/fmt:kev:mtx:dc&rft.type=Conference+Paper')[0], 'TY  - CONF'],
        ['a type with another sign', ris('rft_val_fmt=info:ofi/fmt:kev:mtx:dc&rft.type=working_paper')[0],
            'TY  - RPRT'],
        ['more places than values', wording.filled(siteOf({ words: { x: '{} {} {}' } }), 'x', ['a', 'b']), 'a b b']
    ]);
}

function cases() {
    return ofGroups().concat(ofLinks(), ofAddresses(), ofSaid(), ofHeadings(), ofPages(), ofCitations());
}

export default { all: cases };
