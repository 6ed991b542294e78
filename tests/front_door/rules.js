// The unit tests of the module: requests, menus, pages and commands. Runs in njs and in node, in a folder with the
// module and with what the program reads in its requests, which fixtures/readings.py writes. Prints a line of JSON for
// each case, its name alone, or with what it gives and what was expected; and a last line with the number of cases.
import citation from './citation.js';
import completion from './completion.js';
import exchange from './exchange.js';
import door from './find.js';
import health from './health.js';
import index from './index.js';
import languages from './languages.js';
import menus from './menu.js';
import numbers from './numbers.js';
import plurals from './plurals.js';
import program from './program.js';
import texts from './text.js';
import staff from './why.js';
import wording from './words.js';
import menuParts from './menu_parts.js';
import pageParts from './page_parts.js';
import flowParts from './flow_parts.js';
import folding from './fold.js';
import frameParts from './frame_parts.js';
import known from './known.js';
import languageParts from './language_parts.js';
import values from './values.js';

globalThis.fold = folding;
let count = 0;

function expect(name, got, expected) {
    count++;
    console.log(JSON.stringify(got === expected ? [name] : [name, String(got), String(expected)]));
}

// What is known of a request when its rules have run, beside its text: the kind of title that it wants, and others.
const ASKED = [
    ['genre=article', 'j'], ['genre=journal', 'j'], ['genre=issue', 'j'], ['genre=preprint', 'j'], ['genre=book', 'b'],
    ['genre=bookitem', 'b'], ['genre=report', 'b'], ['genre=document', 'b'], ['genre=dissertation', 'b'],
    ['genre=+Book+', 'b'], ['rft.genre=book&rft_val_fmt=info:ofi/fmt:kev:mtx:journal', 'b'],
    ['rft.genre=unknown&rft_val_fmt=info:ofi/fmt:kev:mtx:journal', 'j'],
    ['rft_val_fmt=info:ofi/fmt:kev:mtx:journal&rft.btitle=Silt', 'j'], ['rft_val_fmt=info:ofi/fmt:kev:mtx:book', 'b'],
    ['rft_val_fmt=info:ofi/fmt:kev:mtx:dissertation', 'b'], ['rft_val_fmt=info:ofi/fmt:kev:mtx:dc', ''],
    ['btitle=Silt', 'b'], ['rft.btitle=Silt', 'b'], ['jtitle=Tides', 'j'], ['rft.jtitle=Tides', 'j'],
    ['stitle=Tid', 'j'], ['rft.stitle=Tid', 'j'], ['btitle=Silt&jtitle=Tides', 'b'], ['title=Tides', ''],
    ['isbn=9781234560102&title=Tides', ''], ['genre=toString', ''], ['JTitle=Tides', 'j'],
    ['RFT_VAL_FMT=info:ofi/fmt:kev:mtx:book', 'b']
];
function testKnown() {
    ASKED.forEach((it) => {
        expect('the kind that is wanted by ' + it[0], completion.kindAsked(known.queryOf(it[0])), it[1]);
    });
    expect('the first number of PMC', known.queryOf('rft_id=PMC12&rft_id=PMC34').pmc(), '12');
    expect('no number of PMC', known.queryOf('rft_id=pmid:12').pmc(), '');
    const isEmpty = (text) => known.queryOf(text).isEmpty();
    expect('nothing left', [isEmpty(''), isEmpty('a&b='), isEmpty('x.doi=1'), isEmpty('title=10.5555/abc'),
        isEmpty('a=1')]
        .join(), 'true,true,true,false,false');
}

// A request, what was found for it, and the query with which the program is asked again: what was found comes first,
// without what the program derives, and without a format that was not sent.
const AGAIN = [
    ['title=Silt', {}, 'rft.jtitle=Silt&title=Silt'],
    ['issn=29010012', {}, 'rft.issn=2901-0012&rft.issn=29010012&issn=29010012'],
    ['rft_val_fmt=x&rft.volume=3', { 'rft.issn': ['2901-0012', '2908-0142'] },
        'rft.issn=2901-0012&rft.issn=2908-0142&rft_val_fmt=x&rft.volume=3'],
    ['rft.volume=3', { 'rft.atitle': ['Caf\u00e9 & <b>\r\n+'] },
        'rft.atitle=Caf%C3%A9%20%26%20%3Cb%3E%0D%0A%2B&rft.volume=3'],
    ['rft.volume=3', { 'x.doi': ['10.5555/a'], 'x.pmid': ['7'] },
        'rft_id=info%3Adoi%2F10.5555%2Fa&rft_id=info%3Apmid%2F7&rft.volume=3'],
    ['rft.au=Li;rft.au=Wei', {}, 'rft.au=Li&rft.au=Wei'], ['?rft.au=Caf%E9', {}, 'rft.au=Caf%C3%A9']
];
function testAgain() {
    AGAIN.forEach((it) => {
        const asked = known.queryOf(it[0]);
        Object.keys(it[1]).forEach((key) => { asked.put(key, it[1][key]); });
        expect('asked again, ' + it[0] + ' ' + JSON.stringify(it[1]), asked.textToRead(), it[2]);
    });
    const replaced = known.queryOf('title=Silt&isbn=9781234560102');
    replaced.replace('rft.btitle');
    expect('without what was replaced', replaced.textToRead().includes('rft.btitle'), false);
    // What the program takes for no number is none, and the first one is that which it derives.
    const numbersOf = (text) => known.queryOf(text).issns.concat(known.queryOf(text).isbns).join();
    expect('numbers', ['rft.issn=2013-2014', 'rft.isbn=9781234560103+9781234560102', 'issn=2901-0012&eissn=2908-0142',
        'rft.eissn=2908-0142', 'rft.isbn=0198534531&rft.eisbn=9781234560102&rft.isbn=9781234560874', 'isbn=123']
        .map(numbersOf).join(' '),
        ' 9781234560102,9781234560103 2901-0012,2908-0142 2908-0142 9780198534532,9781234560874,9781234560102 ');
    const both = known.queryOf('rft.volume=3');
    both.put('rft.eissn', ['2908-0142']);
    both.put('rft.issn', ['2901-0012']);
    both.put('rft.isbn', ['9781234560102']);
    both.readNumbers();
    expect('numbers that were found', both.issns.concat(both.isbns).join(), '2901-0012,2908-0142,9781234560102');
    const found = known.queryOf('rft.issn=2901-0012&rft.volume=3');
    found.put('rft.issn', ['2908-0142']);
    found.readNumbers();
    expect('values that were found', [found.first('rft.issn'), found.all('rft.issn'), found.issns,
        found.has('rft.eissn')].join(), '2908-0142,2908-0142,2901-0012,2901-0012,2908-0142,false');
    expect('what is found', [found, known.queryOf('rft.issn=2901-0012')].map((it) => it.hasFound()).join(),
        'true,false');
    found.further = ['0198534531', '2915-0032'];
    const rest = 'rft_val_fmt=info%3Aofi%2Ffmt%3Akev%3Amtx%3Ajournal&rft.volume=3';
    expect('the queries for staff', found.strictTexts().join(' '), 'x.issn=2901-0012&rft_val_fmt=info%3Aofi%2Ffmt%3Akev'
        + '%3Amtx%3Ajournal&rft.issn=2901-0012&rft.volume=3 rft.isbn=0198534531&x.issn=2901-0012&' + rest
        + ' rft.issn=2915-0032&x.issn=2901-0012&' + rest + ' rft.issn=ANY&x.issn=2901-0012&' + rest);
    const long = known.queryOf('rft.volume=3');
    long.put('rft.atitle', [repeated('a', 13970)]);
    const cut = [long.textToRead().length];
    [13976, 13977, 14000].forEach((length) => {
        long.put('rft.atitle', [repeated('a', length)]);
        cut.push(long.textToRead().length);
    });
    expect('a query that is too long', cut.join(), '13994,14000,13988,0');
}

// The query of a request, from the bytes of its address and of its form, in ASCII without a line end.
const SENT = [
    ['a=b', undefined, 'a=b'], ['', 'a=b', 'a=b'], ['a=b', 'c=d', 'a=b&c=d'], ['', '', ''],
    ['a=b\n', undefined, 'a=b%0a'], ['', 'a=b\n', 'a=b%0a'], ['', 'a=b\r\n', 'a=b%0d%0a'], ['a=b c', undefined,
    'a=b%20c'],
    ['a=\u00e9', undefined, 'a=%c3%a9'], ['a=\u007f', undefined, 'a=%7f'], ['a=~!', undefined, 'a=~!']
];
function testSent() {
    const argsOf = (method, args, body, type) => exchange.argsOf({ method, rawVariables: { args: Buffer.from(args) },
        headersIn: { 'Content-Type': type }, requestBuffer: body === undefined ? undefined : Buffer.from(body) });
    const form = 'application/x-www-form-urlencoded';
    SENT.forEach((it) => {
        expect('the query of ' + JSON.stringify(it.slice(0, 2)), argsOf('POST', it[0], it[1], form), it[2]);
    });
    const types = ['application/x-www-form-urlencoded; charset=UTF-8', 'Application/X-WWW-Form-URLencoded',
        'text/plain', 'application/x-www-form-urlencodedx', 'multipart/form-data; a=application/x-www-form-urlencoded',
        undefined];
    expect('types of a form', types.map((type) => argsOf('POST', '', 'c=d', type)).join('|'), 'c=d|c=d||||');
    expect('methods', ['POST', 'GET', 'HEAD'].map((method) => argsOf(method, 'a=b', 'c=d', form)).join('|'),
        'a=b&c=d|a=b|a=b');
    const sought = ['q=a+b', 'x=1&q=%C3%A9%20c&q=d', 'q=100%', 'q=%e9', 'xq=a', '', 'q=%4a%', 'q=%%41%Zz'];
    const valueOf = (args) => exchange.valueOf({ method: 'GET', rawVariables: { args: Buffer.from(args) } }, 'q');
    expect('what a search has', sought.map(valueOf).join('|'), 'a b|\u00e9 c|100%||||J%|%A%Zz');
    const named = ['lang=de', 'a=b&lang=de', 'lang=de&a=b', 'a=b&lang=pt-BR&c=d', 'xlang=de', 'lang=d',
        'lang=de_AT', 'lang=DE'];
    expect('without the language', named.map((args) => argsOf('GET', args, undefined, '')).join('|'),
        '|a=b|a=b|a=b&c=d|xlang=de|lang=d|lang=de_AT|');
}

function repeated(text, times) {
    const copies = [];
    while (copies.length < times) copies.push(text);
    return copies.join('');
}

function testMenus() {
    const reports = ['a\tlink 0\nb\tno row\nc\tno link\nd\tno row\n', 'a\tno row\nb\tlink 2\nc\tlink 1\nd\tno row\n'];
    expect('reports are joined', program.joinedReports(reports),
        'a\tlink 0\nb\tlink 2\nc\tlink 1\nd\tno row\n');
    const site = { groups: [{ name: 'A' }, { name: 'B', onlyWithout: 'A' }],
        targets: { a: {}, b: { group: 'B', label: 'Bee', note: 'n' }, constructor: {} } };
    const listed = function (menu) {
        return JSON.stringify(menus.shownGroups(menus.groupsOf(known.linksOf(menu), languages.siteIn(site, ''))));
    };
    expect('a group that another one hides', listed('b\thttp://b/\na\thttp://a/\n'),
        '[{"name":"A","links":[{"target":"a","label":"a","url":"http://a/"}]}]');
    expect('a group alone', listed('b\thttp://b/\n'),
        '[{"name":"B","links":[{"target":"b","label":"Bee","url":"http://b/","note":"n"}]}]');
    expect('links that are none', listed('a\tjavascript:x\nb\thttp://a/ b\nc\thttp://\u00e9/\nx\n'), '[]');
    expect('names of every object', listed('toString\thttp://t/\n__proto__\thttp://p/\nconstructor\thttp://c/\n'),
        '[{"name":"A","links":[{"target":"constructor","label":"constructor","url":"http://c/"}]},'
        + '{"name":"More","links":[{"target":"toString","label":"toString","url":"http://t/"},'
        + '{"target":"__proto__","label":"__proto__","url":"http://p/"}]}]');
    site.groups = [{ name: 'A' }, { name: 'B' }, { name: 'B', label: 'Twin' }];
    expect('two groups of one name', listed('b\thttp://b/\n'),
        '[{"name":"B","links":[{"target":"b","label":"Bee","url":"http://b/","note":"n"}]}]');
}

// What the page says of a request without full text whose title has a row: the request, the row, and the notice.
const NOTICES = [
    ['issn=2901-0012', 't 0 2001', 'held'], ['issn=2901-0012', 't.2 0', 'held'],
    ['issn=2901-0012&volume=3', 't 0 2001', 'held'], ['issn=2901-0012&volume=3&date=2001', 't 0 2001', 'nothing'],
    ['issn=2901-0012&date=2000', 't 0 2001-05 2003-04', 'nothing'],
    ['issn=2901-0012&date=2001', 't 0 2001-05 2003-04', 'held'],
    ['issn=2901-0012&date=2003-12', 't 0 2001-05 2003-04', 'held'],
    ['issn=2901-0012&date=2004', 't 0 2001-05 2003-04', 'nothing'],
    ['issn=2901-0012&date=1900', 't 0 - 2003', 'held'], ['issn=2901-0012&date=2004', 't 0 - 2003', 'nothing'],
    ['isbn=9781234560102', 't 0 2001', 'nothing'], ['issn=2901-0012', 'other 0 2001', 'nothing'],
    ['issn=2901-0012', 'unnamed 0 2001', 'nothing'], ['issn=2901-0012', 'plain 0 2001', 'held']
];
function testNotices() {
    const named = { groups: [{ name: 'A' }, { name: 'B' }], words: { held: 'NOTICE held', nothing: 'NOTICE nothing' },
        targets: { t: { group: 'A' }, other: { group: 'B' }, plain: {} } };
    NOTICES.forEach(function (it) {
        const q = known.queryOf(it[0]);
        q.titles = [{ kind: 'j', title: 'x', numbers: [], standard: [], rows: [it[1]], related: [], pages: [] }];
        q.knowledge = 'number';
        const site = languages.siteIn(named, '');
        const page = menus.pageOf(q, menus.groupsOf([], site), site);
        expect('the notice of ' + it[0] + ', ' + it[1], /NOTICE (\w+)|$/.exec(page)[1], it[2]);
    });
}

// The title of an article, and whether the page says that it was retracted, before its links.
const RETRACTIONS = [
    ['RETRACTED: Silt', true], ['Retracted article: Silt', true], ['RETRACTED CHAPTER: Silt', true],
    ['[Retracted] Silt', true], ['*RETRACTED* Silt', true], ['Retracted \u2013 Silt', true],
    ['Silt (Retracted article. See vol. 18, pg. 344, 2015)', true], ['Silt (Retracted in 2015)', true],
    ['Silt - RETRACTED', true], ['Silt [This article has been retracted]', true],
    ['RETRACTED PAPER: Silt', true], ['Retracted publication: Silt', true], ['Retracted study: Silt', true],
    ['Retracted version: Silt', true], ['Retracted manuscript: Silt', true], ['Retracted conference paper: Silt', true],
    ['Retracted book: Silt', true], ['[This paper was retracted] Silt', true], ['[Retracted]: Silt', true],
    ['Silt *Retracted*', true], ['Silt (Retracted 2015)', true], ['Silt - RETRACTED ARTICLE', true],
    ['Silt. RETRACTED PAPER', true],
    ['Retraction: Silt', false], ['Retraction of: Silt', false], ['Retraction notice to Silt', false],
    ['Retraction Note: Silt', false], ['Silt (Retraction of vol 12, pg 3, 2013)', false],
    ['Retracted articles: a review', false], ['Why articles are retracted', false],
    ['Silt (retracted testimony)', false], ['Retracted and republished: Silt', false]
];
function testRetractions() {
    const site = languages.siteIn({ groups: [{ name: 'A' }], targets: {}, words: { retracted: 'RETRACTION <' } }, '');
    RETRACTIONS.forEach(function (it) {
        ['atitle', 'rft.btitle', 'title'].forEach(function (key) {
            const q = known.queryOf(key + '=' + encodeURIComponent(it[0]) + '&issn=2901-0012');
            const groups = menus.groupsOf(known.linksOf('t\thttp://t/\n'), site);
            const page = menus.pageOf(q, groups, site);
            expect('retracted in JSON: ' + key + '=' + it[0], menus.dataOf(q, groups, site).retracted,
                it[1] ? true : undefined);
            const at = page.indexOf('RETRACTION &lt;');
            expect('retracted: ' + key + '=' + it[0], at > 0 && at < page.indexOf('http://t/'), it[1]);
            expect('the title ' + it[0], page.indexOf('<bdi>Silt</bdi>') > 0, it[1]);
        });
    });
    const lookedUp = known.queryOf('issn=2901-0012');
    lookedUp.take({ notes: { retracted: true }, pairs: [['rft.atitle', 'Silt']] });  // as after a look-up
    lookedUp.take({ notes: { retracted: false }, pairs: [['rft.atitle', 'Silt']] });
    expect('a title that was looked up', lookedUp.first('rft.atitle') + ' ' + lookedUp.isRetracted, 'Silt true');
}

// What a request says of its kind, and the type of RIS.
const RIS_TYPES = [
    ['genre=article&issn=2901-0012', 'JOUR'], ['rft_val_fmt=info:ofi/fmt:kev:mtx:journal', 'JOUR'],
    ['title=Tides', 'JOUR'], ['genre=unknown&issn=2901-0012', 'JOUR'],
    ['genre=book&title=Tides', 'BOOK'], ['isbn=9781234560102', 'BOOK'],
    ['rft_val_fmt=info:ofi/fmt:kev:mtx:book', 'BOOK'],
    ['genre=bookitem&isbn=9781234560102', 'CHAP'], ['isbn=9781234560102&atitle=Silt', 'CHAP'],
    ['rft_val_fmt=info:ofi/fmt:kev:mtx:book&rft.atitle=Silt', 'CHAP'],
    ['genre=dissertation&title=On+Silt', 'THES'], ['rft_val_fmt=info:ofi/fmt:kev:mtx:dissertation', 'THES'],
    ['rft_val_fmt=info:ofi/fmt:kev:mtx:dc&rft.type=info:eu-repo/semantics/doctoralThesis', 'THES'],
    ['genre=report&title=Silt', 'RPRT'], ['rft_val_fmt=info:ofi/fmt:kev:mtx:book&rft.genre=report', 'RPRT'],
    ['rft_val_fmt=info:ofi/fmt:kev:mtx:dc&rft.type=Report', 'RPRT'],
    ['rft.genre=dataset&rft.title=Levels', 'DATA'], ['rft_val_fmt=info:ofi/fmt:kev:mtx:dc&rft.type=Dataset', 'DATA'],
    ['rft_val_fmt=info:ofi/fmt:kev:mtx:dataset&rft.title=Levels', 'DATA'],
    ['genre=preprint&atitle=Silt', 'UNPB'], ['rft_val_fmt=info:ofi/fmt:kev:mtx:journal&rft.genre=preprint', 'UNPB'],
    ['rft_val_fmt=info:ofi/fmt:kev:mtx:dc&rft.type=preprint', 'UNPB'],
    ['genre=proceeding&isbn=9781234560102&atitle=Silt', 'CONF'], ['genre=conference&title=Dredging', 'CONF'],
    ['rft_val_fmt=info:ofi/fmt:kev:mtx:dc&rft.type=conferencePaper', 'CONF'],
    ['genre=constructor', 'JOUR'], ['rft.genre=__proto__&rft.isbn=9781234560102', 'BOOK'],
    ['genre=issue&issn=2901-0012', 'JOUR'], ['genre=document&title=Silt', 'BOOK']
].concat([
    ['journalArticle', 'JOUR'], ['bookSection', 'CHAP'], ['bookPart', 'CHAP'], ['chapter', 'CHAP'], ['thesis', 'THES'],
    ['bachelorThesis', 'THES'], ['masterThesis', 'THES'], ['workingPaper', 'RPRT'], ['proceedings', 'CONF'],
    ['conferenceObject', 'CONF'], ['conferenceProceedings', 'CONF'], ['conferenceOrWorkshopItem', 'CONF'],
    ['patent', 'PAT']
].map((it) => ['rft_val_fmt=info:ofi/fmt:kev:mtx:dc&rft.type=' + it[0], it[1]]));
// The lines of RIS after the type, without the end of the record.
const RIS_FIELDS = [
    ['genre=article&au=Li,+W&au=Berg&atitle=Silt&title=Tides&date=2003-05-01&volume=12&issue=3&spage=101&epage=118'
        + '&issn=2901-0012&id=doi:10.5555/a&id=pmid:7', 'AU  - Li, W|AU  - Berg|TI  - Silt|T2  - Tides|PY  - 2003'
        + '|VL  - 12|IS  - 3|SP  - 101|EP  - 118|SN  - 2901-0012|DO  - 10.5555/a|AN  - PMID 7'],
    ['genre=book&title=Harbours&isbn=9781234560102&aulast=Li&auinit=W',
        'AU  - Li, W|TI  - Harbours|SN  - 9781234560102'],
    ['genre=book&title=Harbours&au=Li,+W&aulast=Li&aufirst=W', 'AU  - Li, W|TI  - Harbours'],
    ['jtitle=Tides&aucorp=Port&issn=2901-0012', 'AU  - Port|TI  - Tides|SN  - 2901-0012'],
    ['genre=article&atitle=Silt%0D%0AAU++-+x', 'TI  - Silt AU - x'],
    ['genre=article&au=Li%0D%0AER++-+x&atitle=Silt', 'AU  - Li ER - x|TI  - Silt'],
    ['genre=article&atitle=' + repeated('a', 1100), 'TI  - ' + repeated('a', 1000)]
];
// The citation as text.
const CITATIONS = [
    ['genre=article&au=Li&atitle=Silt&title=Tides&date=2003-05-01&volume=12&issue=3&pages=101-118&issn=2901-0012'
        + '&id=doi:10.5555/a&id=pmid:7', 'Li, Silt, Tides, 2003, v12, i3, p101-118, d10.5555/a, m7, n2901-0012'],
    ['genre=book&btitle=Harbours&isbn=9781234560102&aulast=Li&aufirst=W', 'Li, W, Harbours, b9781234560102'],
    ['genre=bookitem&atitle=Silt&btitle=Harbours&aulast=Li&auinit=W', 'Li, W, Silt, Harbours'],
    ['genre=dissertation&title=On+Silt&aucorp=Port', 'Port, On Silt'],
    ['rft.genre=dissertation&atitle=Silt&rft.title=Reports&aulast=Li&auinit1=J', 'Li, J, Silt, Reports'],
    ['stitle=Ann+Tid&spage=7&aulast=Li', 'Li, Ann Tid, p7'], ['jtitle=Tides&stitle=Td&rft.title=Silt', 'Silt, Tides'],
    ['genre=book&btitle=Harbours&rft.title=Silt', 'Harbours'],
    ['au=A&au=B&au=C&jtitle=Tides', 'A; B; C, Tides'], ['au=A&au=B&au=C&au=D&jtitle=Tides', 'A; B; C and others, Tides']
];
const PLAIN_WORDS = {
    volume: 'v{}', issue: 'i{}', pages: 'p{}', doi: 'd{}', pmid: 'm{}', issn: 'n{}', isbn: 'b{}',
    others: '{} and others'
};
function testCitations() {
    const site = languages.siteIn({ words: PLAIN_WORDS }, '');
    RIS_FIELDS.forEach((it) => {
        const q = known.queryOf(it[0]);
        const lines = citation.risOf(q, site).split('\r\n');
        expect('fields of RIS of ' + it[0].slice(0, 60), lines.slice(1).join('|'), it[1] + '|ER  - |');
    });
    CITATIONS.forEach((it) => {
        const html = citation.citationHtml(citation.citationOf(known.queryOf(it[0]), site), site);
        expect('the citation of ' + it[0], html.replace(/<[^>]*>/g, ''), it[1]);
    });
}
function testValues() {
    const numbersIn = (text, kind) => numbers.numbersIn([text], kind, 2).join(' ');
    values.ISSNS.forEach((it) => { expect('the ISSNs in ' + it[0], numbersIn(it[0], numbers.ISSN), it[1]); });
    values.ISBNS.forEach((it) => { expect('the ISBNs in ' + it[0], numbersIn(it[0], numbers.ISBN), it[1]); });
    values.ADDRESSES.forEach((it) => { expect('the address ' + it[0], texts.isWeb(it[0]), it[1]); });
    // njs throws at some lengths if the last match ends the text.
    [31, 32, 33, 63, 64, 65, 96].forEach((length) => {
        const text = 'é'.repeat(length - 1);
        expect(`a text of ${length} characters`, texts.clean(text + '\u2028'), text);
    });
    values.ESCAPED.forEach((it) => { expect('in HTML, ' + it[0], texts.escape(it[0]), it[1]); });
    values.CLEAN.forEach((it) => { expect('clean, ' + it[0].slice(0, 40), texts.clean(it[0]), it[1]); });
    values.STANDARD.forEach((it) => {
        expect('the number ' + it[0], numbers.standard(it[0]) + ' ' + numbers.isIssn(it[0]), it[1]);
    });
}
function testRis() {
    RIS_TYPES.forEach(function (it) {
        const q = known.queryOf(it[0]);
        const text = citation.risOf(q, languages.siteIn({}, ''));
        expect('RIS of ' + it[0], text.split('\r\n')[0], 'TY  - ' + it[1]);
    });
}

// A header, the languages that are offered, and the one that is chosen.
const HEADERS = [
    ['', 'en de', 'en'], ['de', 'en de', 'de'], ['DE', 'en de', 'de'], ['de-AT', 'en de', 'de'],
    ['de-Latn-AT', 'en de', 'de'],
    ['de-AT, en;q=0.9', 'en de', 'de'], ['en;q=0.3, de;q=0.8', 'en de', 'de'], ['fr, de;q=0.5', 'en de', 'de'],
    ['fr', 'en de', 'en'], ['de;q=0', 'de en', 'en'], ['de;q=0.000, fr', 'de en', 'en'],
    ['en;q=0, de;q=0', 'de en', 'de'],
    ['*', 'en de', 'en'], ['*, en;q=0.5', 'en de', 'de'], ['fr, *;q=0.1', 'en de', 'en'], ['*;q=0', 'en de', 'en'],
    ['de, *;q=0', 'en de', 'de'], ['de;q=0.5, en;q=0.5', 'en de', 'de'], ['de ; q=1.000 , en', 'en de', 'de'],
    ['de;q=0.001', 'en de', 'de'], ['pt', 'en pt-BR', 'pt-BR'], ['pt-PT', 'en pt-BR', 'en'],
    ['pt-br', 'en pt pt-BR', 'pt-BR'],
    ['pt', 'en pt-BR pt', 'pt'], ['zh-Hant-TW', 'en zh zh-Hant', 'zh-Hant'], ['den', 'en de', 'en'],
    ['d', 'en de', 'en'],
    ['de;q=2, en', 'de en', 'en'], ['de;q=0.1234, en', 'de en', 'en'], ['de;q=, en', 'de en', 'en'],
    ['de;level=1, en', 'de en', 'en'],
    ['de-AT, de;q=0', 'de en', 'en'], ['de-AT, de;q=0.0, fr', 'de en', 'en'], ['de, en;q=0.05', 'en de', 'de'],
    ['de_AT, en', 'de en', 'en'], ['<de>, "en", \u00e9, de\r\nX: y', 'en de', 'en'], [',,,de,,', 'en de', 'de'],
    ['__proto__', 'en', 'en'],
    // regions, and the scripts of Chinese
    ['fr-CA, en;q=0.5', 'en fr', 'fr'], ['pt-BR', 'en pt', 'pt'], ['pt-PT', 'en pt', 'pt'], ['es-419', 'en es', 'es'],
    ['ar-EG,ar;q=0.9', 'en ar', 'ar'], ['sv-FI', 'en sv', 'sv'], ['nl-BE;q=0.9, fr-BE', 'nl fr', 'fr'],
    ['zh-CN,zh;q=0.9', 'en zh-Hans', 'zh-Hans'], ['zh-SG', 'en zh-Hans', 'zh-Hans'], ['zh', 'en zh-Hans', 'zh-Hans'],
    ['zh-Hans-CN', 'en zh-Hans', 'zh-Hans'], ['ZH-cn', 'en zh-Hans', 'zh-Hans'], ['zh-CN', 'en zh-CN', 'zh-CN'],
    ['zh-TW', 'en zh-Hans', 'en'], ['zh-TW,zh;q=0.9,en;q=0.8', 'en zh-Hans', 'zh-Hans'],
    ['zh-HK', 'en zh-Hans zh-Hant', 'zh-Hant'], ['zh-TW', 'en zh', 'zh'], ['zh-CN;q=0, *', 'zh-Hans en', 'zh-Hans'],
    ['zh-Hans;q=0, zh-CN, en;q=0.1', 'zh-Hans en', 'en'], ['zh-AQ', 'en zh-Hans', 'en']
];

function testHeaders() {
    HEADERS.forEach(function (it) {
        expect('language for ' + it[0], languages.chosen(it[0], it[1].split(' ')), it[2]);
    });
    expect('500 bytes', languages.chosen(repeated(' ', 498) + 'de', ['en', 'de']), 'de');
    expect('a range that is cut', languages.chosen(repeated(' ', 498) + 'de-AT', ['en', 'de']), 'en');
    expect('commas', languages.chosen(repeated(',', 8192), ['en', 'de']), 'en');
    expect('ranges beyond the twentieth', languages.chosen(repeated('fr,', 20) + 'de', ['en', 'de']), 'en');
}

// The categories of CLDR, of a language and numbers.
const CATEGORIES = [
    ['en de nl sv da el tr', '0 other, 1 one, 2 other, 5 other, 21 other, 1000000 other'],
    ['fr pt pt-BR FR', '0 one, 1 one, 2 other, 21 other, 1000 other, 1000000 many, 1000001 other, 3000000 many'],
    ['es it ca pt-PT PT-pt',
        '0 other, 1 one, 2 other, 21 other, 1000 other, 1000000 many, 1000001 other, 3000000 many'],
    ['pl PL', '0 many, 1 one, 2 few, 4 few, 5 many, 11 many, 12 many, 14 many, 21 many, 22 few, 112 many, 122 few'],
    ['uk ru be', '0 many, 1 one, 2 few, 4 few, 5 many, 11 many, 12 many, 14 many, 21 one, 22 few, 111 many, 121 one'],
    ['cs sk', '0 other, 1 one, 2 few, 4 few, 5 other, 12 other, 21 other, 22 other, 102 other'],
    ['hr sr bs', '0 other, 1 one, 2 few, 11 other, 12 other, 21 one, 24 few'],
    ['ar ar-EG', '0 zero, 1 one, 2 two, 3 few, 10 few, 11 many, 99 many, 100 other, 102 other, 103 few, 111 many'],
    ['he', '0 other, 1 one, 2 two, 3 other, 10 other, 20 other, 102 other'],
    ['ja ko th vi zh-Hans', '0 other, 1 other, 2 other, 1000000 other']
];
function testPlurals() {
    CATEGORIES.forEach(function (it) {
        it[0].split(' ').forEach(function (language) {
            it[1].split(', ').forEach(function (pair) {
                const number = Number(pair.split(' ')[0]);
                expect('the category of ' + number + ' in ' + language, plurals.categoryOf(language, number),
                    pair.split(' ')[1]);
            });
        });
    });
    const site = function (language) { return languages.siteIn({ languages: [language] }, ''); };
    globalThis.words_pl = {
        oneTitle: '1 tytuł', titles: '{} tytułu', 'titles.few': '{} tytuły', 'titles.many': '{} tytułów',
        thousand: '1000', tenThousand: '10\u00a0000'
    };
    globalThis.words_en.titles = '{} titles';
    globalThis.words_en.oneTitle = '1 title';
    globalThis.words_en.thousand = '1,000';
    globalThis.words_en.tenThousand = '10,000';
    const counted = function (language, counts) {
        const pages = site(language);
        return counts.map(function (it) { return wording.counted(pages, 'titles', 'oneTitle', it); }).join(', ');
    };
    expect('counts in Polish', counted('pl', [0, 1, 3, 5, 22, 1002, 12345]),
        '0 tytułów, 1 tytuł, 3 tytuły, 5 tytułów, 22 tytuły, 1002 tytuły, 12\u00a0345 tytułów');
    expect('counts in English', counted('en', [0, 1, 2, 999, 1000, 9999, 10000, 1234567]),
        '0 titles, 1 title, 2 titles, 999 titles, 1,000 titles, 9,999 titles, 10,000 titles, 1,234,567 titles');
    const two = { languages: ['pl', 'de'] };
    globalThis.words_de.titles = '{} Titel';
    const three = function (data, header) {
        return wording.counted(languages.siteIn(data, header), 'titles', 'oneTitle', 3);
    };
    expect('no form of another language', three(two, 'de'), '3 Titel');
    const own = { languages: ['pl'], words: { 'titles.few': '{} tytuliki' } };
    expect('a form of the site', three(own, ''), '3 tytuliki');
    delete globalThis.words_pl;
    expect('no form and no word', wording.counted(site('en'), 'none', 'noneOfOne', 3), '');
}

// The languages that a site offers and the texts that a page has in them.
function testWords() {
    globalThis.words_en = { heading: 'Find', group: 'Links', nothing: 'Nothing' };
    globalThis.words_de = { heading: 'Finden', group: 3, nothing: '  ' };
    globalThis.words_pt_BR = {};
    globalThis.words_he = {};
    globalThis.words_ur_Latn = {};
    globalThis.words_uz_Latn = {};
    globalThis.words_uz_Arab = {};
    const site = function (targets, header) { return languages.siteIn(targets, header); };
    const chosen = function (list, header) { return site({ languages: list }, header).language; };
    expect('no languages', chosen(undefined, 'de'), 'en');
    const noLanguages = [3, {}, 'de', [], [3], ['fr'], ['de_', 7]];
    expect('languages that are none', noLanguages.map(function (it) { return chosen(it, 'de'); }).join(' '),
        'en en en en en en en');
    expect('one that is not loaded', chosen(['fr', 'de', 'en'], 'fr'), 'de');
    expect('a region', chosen(['en', 'pt-BR'], 'pt'), 'pt-BR');
    expect('the direction',
        site({ languages: ['he', 'en'] }, '').dir + ' ' + site({ languages: ['he', 'en'] }, 'en').dir, 'rtl ltr');
    expect('the direction of a script', ['ur-Latn', 'uz-Latn', 'uz-Arab'].map(function (it) {
        return site({ languages: [it] }, '').dir;
    }).join(' '), 'ltr ltr rtl');
    const heading = function (words, header) {
        // No group is named, so there is one with the word `group`.
        return menus.groupsOf([], site({ languages: ['en', 'de'], words }, header))[0].name;
    };
    expect('a word', heading({}, 'en'), 'Links');
    expect('a word that is no text', heading({}, 'de'), 'Links');
    globalThis.words_de.group = 'Verweise';
    expect('a word in another language', heading({}, 'de'), 'Verweise');
    expect('a word of the site', heading({ group: 'A' }, 'en') + ' ' + heading({ group: 'A' }, 'de'), 'A Verweise');
    const both = { group: { en: 'A', de: 'B' } };
    expect('words of the site', heading(both, 'en') + ' ' + heading(both, 'de'), 'A B');
    expect('a word of the site for one language',
        heading({ group: { de: 'B' } }, 'en') + ' ' + heading({ group: { en: 'A' } }, 'de'), 'Links Verweise');
    delete globalThis.words_de.group;
    expect('a plain word for all languages', heading({ group: 'A' }, 'de'), 'A');
    const labels = {
        languages: ['en', 'de'], groups: [{ name: 'G', label: { de: 'H' } }],
        targets: {
            a: { label: { en: 'A', de: 'B' }, note: { de: 'n' } }, b: { label: { en: 'C' } }, c: { label: { fr: 'D' } }
        }
    };
    const found = known.linksOf('a\thttp://a/\nb\thttp://b/\nc\thttp://c/\n');
    const listed = function (header) {
        const group = menus.shownGroups(menus.groupsOf(found, site(labels, header)))[0];
        return group.name + ' ' + group.label + ': '
            + group.links.map(function (it) { return it.label + ' ' + it.note; }).join(', ');
    };
    // As nginx reads a targets.json with `01` in these places.
    const places = [{ groups: 1 }, { targets: 1 }, { words: 1 }, { folder: 1 }, { languages: 1 }, { languages: [1] },
        { targets: { a: 1 } }, { targets: { a: { label: 1, group: 1, note: 1 } } },
        { groups: [{ name: 'G' }], targets: { a: 1, b: {} } }];
    const without = [{}, {}, {}, {}, {}, {}, { targets: {} }, { targets: { a: {} } },
        { groups: [{ name: 'G' }], targets: { b: {} } }];
    const shown = (it) => {
        const read = site(it, 'en');
        return JSON.stringify([read, menus.shownGroups(menus.groupsOf(found, read))].map((each) => {
            return each.targets ? [each.words, each.groups, each.folder, each.language] : each;
        }));
    };
    places.forEach((it, i) => {
        expect('a number in ' + JSON.stringify(it), shown(it), shown(without[i]));
    });
    // A text of the library's own may lack the mark between two texts.
    const marked = (list) => wording.listed(site({ words: { list } }, ''), ['a', 'b']);
    expect('what is between two texts', ['{}; {}', '{}{}', '{}'].map(marked).join(' | '), 'a; b | a, b | a, b');
    expect('labels', listed('en'), 'G undefined: A undefined, C undefined, c undefined');
    expect('labels in another language', listed('de'), 'G H: B n, C undefined, c undefined');
}

// The commands of the page for staff. The registry's paths are relative to its folder.
function testCommands() {
    const registry = staff.registryOf('a\tcode/a.olk\ttables/a.txt\r\n\nb part\tcode/a.olk\t/t/it\'s.txt\n'
        + 'c\tx\nconstructor\tc.d/e\tf\ng.h\tcode/g.h.olk\tg\ni\tx\ty\tz\n');
    expect('a registry', Object.keys(registry).join(), 'a,b part,constructor,g.h');
    const received = function (path) { return path === '/r/received/a.rules'; };
    const command = function (targets, name, query) {
        return staff.commandOf(name, registry[name], languages.siteIn(targets, ''), received) + ' '
            + staff.quotedQuery(query);
    };
    expect('a command', command({}, 'a', 'rft.issn=2901-0012&x=1'),
        "openlink explain '/etc/openlink/current/rules/a.rules' '/etc/openlink/current/tables/a.txt' "
        + "'rft.issn=2901-0012&x=1'");
    expect('the rules of the code', command({ folder: '/srv/r/' }, 'b part', 'a=b'),
        "openlink explain '/srv/r/rules/a.rules' '/t/it'\\''s.txt' 'a=b'");
    expect('code in another folder', command({ folder: '/r' }, 'constructor', ''),
        "openlink explain '/r/rules/e.rules' '/r/f' ''");
    expect('a dot in a name', command({ folder: '/r' }, 'g.h', ''), "openlink explain '/r/rules/g.h.rules' '/r/g' ''");
    const named = function (rules) {
        return command({ folder: '/r', targets: { a: { rules } } }, 'a', '').split("'")[1];
    };
    expect('rules as they were received', command({ folder: '/r' }, 'b part', '').split("'")[1], '/r/received/a.rules');
    expect('rules that are named', [named('own/b.rules'), named('/o/b.rules'), named(3), named(undefined)].join(),
        '/r/own/b.rules,/o/b.rules,/r/received/a.rules,/r/received/a.rules');
    expect('a folder that is no text', command({ folder: ['/r'] }, 'a', '').split("'")[1],
        '/etc/openlink/current/rules/a.rules');
    expect('quotes', command({ folder: '' }, 'a', "a='$(id)`\\\"%27%'"),
        "openlink explain '/rules/a.rules' '/tables/a.txt' 'a=%27$(id)`\\\"%27%%27'");
}

// The reports on both queries, and which of the queries a target gets.
const REASONS = [
    ['link 3', 'no row', 0], ['link 3', 'link 0', 0], ['no row', 'link 0', 1], ['no row', 'no link', 1],
    ['no row', 'no row', 0],
    ['no link', 'no row', 0], ['no link', 'no link', 0], ['no link', 'link 0', 1], ['not a web link', 'no row', 0],
    ['no row', 'over budget', 1]
];
function testReasons() {
    const report = function (i) {
        return REASONS.map(function (it, n) { return 't' + n + '\t' + it[i] + '\n'; }).join('');
    };
    program.reasonsOf([report(0), report(1)]).forEach(function (it, n) {
        expect('the query of ' + REASONS[n].join(', '), it.name + ' ' + it.reasons.join(', ') + ' ' + it.used,
            't' + n + ' ' + REASONS[n][0] + ', ' + REASONS[n][1] + ' ' + REASONS[n][2]);
    });
    expect('a target that the second report lacks', JSON.stringify(program.reasonsOf(['a\tno row\n', ''])),
        '[{"name":"a","reasons":["no row",""],"used":0}]');
    expect('no report', program.reasonsOf(['', '']).length, 0);
}

// A reply to a subrequest of nginx, which has tried three processes. The status 'cut' is that of a reply that a process
// has not written to its end: 200, with less text than its head says.
function replyOf(place, args, status) {
    const reply = known.isOfProgram(place) ? known.replyTo(args) : known.replyWith('a\thttp://a/\n');
    reply.status = status === 'cut' ? 200 : status;
    if (status === 'cut') reply.responseBuffer = reply.responseBuffer.slice(0, -1);
    reply.variables.upstream_addr = '127.0.0.1:3, 127.0.0.1:1, 127.0.0.1:2';
    return reply;
}

// A request of nginx whose subrequests get these statuses; -1 throws.
function requestWith(uri, statuses) {
    return {
        variables: { request_uri: uri }, rawVariables: { args: Buffer.from('issn=2901-0012') }, headersIn: {},
        headersOut: {}, method: 'GET', requested: 0, places: [],
        subrequest: function (place, options) {
            if (place.startsWith('/index/')) return Promise.resolve({ status: 204 });  // there is no index
            const status = statuses[this.requested++];
            this.places.push(place + ' ' + options.args);
            if (status < 0) throw new Error('no\nreply');
            return Promise.resolve(replyOf(place, options.args, status));
        },
        return: function (status, text) {
            this.replied = status + ' ' + /(<h1>|<a href="[^"]*"|.error.:...|.citation.)|$/.exec(text)[0];
        }
    };
}

function testHealth() {
    const site = '# server 127.0.0.1:1;\nupstream openlink {\n    server 127.0.0.1:8081 max_fails=0;\n'
        + '\tserver  127.0.0.1:8082;\n    #server 127.0.0.1:8083;\n    server 192.0.2.1:80;\n}\nserver {\n';
    expect('ports of a site', health.portsOf(site).join(' '), '8081 8082');
    const day = Date.UTC(2028, 1, 29, 12);  // a leap day
    [['20280229T120000Z', 0], ['20280228T120001Z', 0], ['20280228T120000Z', 1], ['20270301T000000Z', 365],
        ['20280301T000000Z', 0], ['20280229T1200Z', -1], ['none', -1]].forEach(function (it) {
        expect('the age of ' + it[0], health.ageOf('/etc/openlink/versions/' + it[0], day), it[1]);
    });
    [[[true, true], '200 ok'], [[true, false], '200 some processes do not answer'],
        [[false, false], '503 no process answers'], [[], '503 no process answers']].forEach(function (it) {
        const reply = health.replyOf(it[0].map(String), it[0], 'version', { isOld: false, line: 'updated' });
        expect('health ' + it[0], reply.status + ' ' + reply.text.split('\n')[0], it[1]);
    });
    [[[true, true], '200 old,port true answers'], [[true, false], '200 old,some processes do not answer'],
        [[false, false], '503 no process answers,old']].forEach(function (it) {
        const reply = health.replyOf(it[0].map(String), it[0], 'version', { isOld: true, line: 'updated' });
        expect('health, old, ' + it[0], reply.status + ' ' + reply.text.split('\n').slice(0, 2).join(','), it[1]);
    });
    testUpdates();
    testMachine();
}

// The delivery of a machine and the one that it should have, whether it is drained, whether the processes of each site
// answer, and the reply: what a balancer takes for a machine that readers may get is a status of 200, and 404 for one
// that is drained.
const EARLY = '20280101T000000Z';
const LATE = '20280102T000000Z';
const MISSING = 'the delivery ' + LATE + ' is missing: openlink-update --send brings it';
const MACHINES = [
    [EARLY, '', false, ['tt'], '200 ok|delivery ' + EARLY], ['', '', false, ['tt'], '200 ok|no delivery'],
    [EARLY, EARLY, false, ['tt'], '200 ok|delivery ' + EARLY], [LATE, EARLY, false, ['tt'], '200 ok|delivery ' + LATE],
    [EARLY, LATE, false, ['tt'], '503 ' + MISSING + '|delivery ' + EARLY],
    ['', LATE, false, ['tt'], '503 ' + MISSING + '|no delivery'],
    [LATE, LATE, true, ['tt'], '404 drained|delivery ' + LATE],
    [EARLY, LATE, true, ['tt'], '503 ' + MISSING + '|delivery ' + EARLY],
    [EARLY, '', false, ['tt', 'tf'], '200 some processes do not answer|delivery ' + EARLY],
    [EARLY, '', true, ['tf'], '404 drained|delivery ' + EARLY],
    [EARLY, '', false, ['tf', 'ff'], '503 no process of site1 answers|delivery ' + EARLY],
    [EARLY, '', true, ['ff', 'tt', 'f'], '503 no process of site0, site2 answers|delivery ' + EARLY],
    [EARLY, '', false, [], '503 no site has processes|delivery ' + EARLY],
    [EARLY, LATE, false, ['f'], '503 no process of site0 answers|' + MISSING + '|delivery ' + EARLY]
];
// The text of the file `drain`, and whether the machine is drained on 1 January 2028 at noon.
const DRAINS = [
    [null, false], ['', true], ['\n', true], ['x', true], ['20280101T120001Z\n', true], ['20280102T000000Z', true],
    ['20280101T120000Z\n', false], ['20280101T115959Z', false], ['20271231T120001Z', false], ['20200101T000000Z', false]
];
function testMachine() {
    MACHINES.forEach((it) => {
        const upstreams = it[3].map((all, i) => ({ name: 'site' + i, are: all.split('').map((one) => one === 't') }));
        const reply = health.machineReplyOf(it[0], it[1], it[2], upstreams);
        expect('a machine, ' + JSON.stringify(it.slice(0, 4)), reply.status + ' ' + reply.lines.join('|'), it[4]);
    });
    DRAINS.forEach((it) => {
        expect('drained, ' + JSON.stringify(it[0]), health.isDrained(it[0], Date.UTC(2028, 0, 1, 12)), it[1]);
    });
    const site = '#upstream x {\nupstream openlink {\n    server 127.0.0.1:8081;\n'
        + '    server 127.0.0.1:8082 backup;\n}\nupstream none {\n    server unix:/run/x;\n}\n'
        + '  upstream  a-b.c{\n    server 127.0.0.1:8091;\n}\n';
    expect('upstreams of a site', health.upstreamsOf('server 127.0.0.1:1;\n' + site)
        .map((it) => it.name + ' ' + it.ports.join(' ')).join(', '), 'openlink 8081 8082, a-b.c 8091');
}

function testUpdates() {
    const now = Date.UTC(2028, 2, 10, 12);  // after a leap day
    const unknown = 'no update by openlink-update is known';
    [['20280301T120000Z\n', 9, false, 'updated 20280301T120000Z, 9 days ago'],
        ['20280301T115959Z\n', 9, true, 'updated 20280301T115959Z, 9 days ago'],
        ['20280229T120000Z', 9, true, 'updated 20280229T120000Z, 10 days ago'],
        ['20280309T120000Z', 1, false, 'updated 20280309T120000Z, 1 day ago'],
        ['20280309T115959Z', 1, true, 'updated 20280309T115959Z, 1 day ago'],
        ['20270301T000000Z', 0, false, 'updated 20270301T000000Z, 375 days ago'],
        ['20280311T120000Z', 9, false, 'updated 20280311T120000Z, 0 days ago'],
        [null, 9, false, unknown], ['', 9, false, unknown], ['20280301', 9, false, unknown]].forEach(function (it) {
        const update = health.updateOf(it[0], now, it[1]);
        expect('updated ' + it[0] + ', at most ' + it[1], update.isOld + ' ' + update.line, it[2] + ' ' + it[3]);
    });
    [['9', 9], ['0', 0], ['30', 30], [undefined, 9], ['', 9], ['-1', 9], ['ten', 9], ['1e9', 9]].forEach(function (it) {
        expect('the limit ' + it[0], health.limitOf(it[0]), it[1]);
    });
}

async function expectReply(name, handler, request, expected) {
    await handler(request);
    expect(name, request.replied + ', requested ' + request.requested, expected);
}

async function testRetries() {
    await expectReply('requested again', door.json, requestWith('/find.json?', [502, 200]),
        '200 "citation", requested 2');
    await expectReply('requested again after half a reply', door.json, requestWith('/find.json?', ['cut', 200]),
        '200 "citation", requested 2');
    await expectReply('requested again in vain', door.find, requestWith('/find?', [502, 502, 200]),
        '503 <h1>, requested 2');
    await expectReply('half of a reply twice', door.go, requestWith('/go?', ['cut', 'cut', 200]),
        '503 <h1>, requested 2');
}

async function testReplies() {
    const one = requestWith('/find?', [200]);
    await expectReply('a menu', door.find, one, '200 <h1>, requested 1');
    expect('its location', one.places.join(), '/_menu issn=2901-0012');
    const reports = requestWith('/report.txt', [200, 200, 200]);
    await door.report(reports);
    expect('the locations of reports', reports.places.map((it) => it.split(' ')[0]).join(' '),
        '/_read /_report /_report_there');
    expect('the process of reports', reports.variables.openlink_process, '127.0.0.1:2');
    await Promise.all([502, 504, 'cut'].map((status) => expectReply('both reports again, after ' + status, door.report,
        requestWith('/report.txt', [200, 200, status, 200, 200]), '200 , requested 5')));
    if (typeof njs === 'undefined') await testRetries();  // the njs command line has no timers
    await expectReply('not requested again', door.json, requestWith('/find.json', [504, 200]),
        '503 "error":503, requested 1');
    await expectReply('no status', door.find, requestWith('/find?', [0]), '503 <h1>, requested 1');
    await expectReply('refused', door.go, requestWith('/go?', [400, 200]), '400 <h1>, requested 1');
    const request = requestWith('/why?', [200, 200, 200]);
    request.rawVariables.args = Buffer.from("au=O'Neill&issn=2901-0012");
    let page = '';
    request.return = function (status, text) { this.replied = status; page = text; };
    globalThis.words_en.todoOther = 'Read the manual';  // the reason of the one target is none that has a text
    await staff.why(request);
    delete globalThis.words_en.todoOther;
    expect('the page for staff', request.replied, 200);
    expect('what to do about another reason', page.includes('Read the manual'), true);
    const listed = page.split('<pre dir="ltr">').slice(1).map(function (it) { return it.split('</pre>')[0]; });
    const sent = listed.map(function (it, i) {
        return (i === 0 ? '/_report ' : '/_report_there ') + it.split('&#39;').join("'").split('&amp;').join('&');
    });
    expect('the queries that were sent', sent.join(' '), request.places.slice(1).join(' '));
    expect('the second one', listed[1].slice(0, 12), 'rft.issn=ANY');
    await expectReply('no reports', staff.why, requestWith('/why?', [200, 200, 503]), '503 <h1>, requested 3');
    await expectReply('refused, for staff', staff.why, requestWith('/why?', [200, 200, 400]), '400 <h1>, requested 3');
    await expectReply('no reading, for staff', staff.why, requestWith('/why?', [503]), '503 <h1>, requested 1');
    const broken = requestWith('/find?', [-1]);
    await expectReply('an exception', door.find, broken, '503 <h1>, requested 1');
    expect('an exception in the log', broken.variables.openlink_found, 'exception:no_reply');
}
// A query of 14,000 bytes is sent to the program, and none of more.
async function testLength() {
    const pages = [14000, 14001].map((length) => {
        const request = requestWith('/find?', [200]);
        request.rawVariables.args = Buffer.from('issn=2901-0012&a=' + repeated('b', length - 17));
        return request;
    });
    await expectReply('14,000 bytes', door.find, pages[0], '200 <h1>, requested 1');
    await expectReply('14,001 bytes', door.find, pages[1], '413 <h1>, requested 0');
}

// The page for staff where no target has a row, and where all have one. What is folded is open if nothing else is
// there.
async function testFolded() {
    const pages = ['no row', 'no link'].map((reason) => {
        const request = requestWith('/why?', []);
        const report = `a\t${reason}\n`;
        request.subrequest = (place, options) => Promise.resolve(place.startsWith('/index/') ? { status: 204 }
            : known.isOfProgram(place) ? known.replyTo(options.args) : known.replyWith(report));
        request.return = function (status, text) { this.page = text; };
        return staff.why(request).then(() => request.page.split('<details open>\n<summary>').length - 1
            + ' ' + request.page.includes('<details>\n<summary>'));
    });
    const found = await Promise.all(pages);
    expect('no row, and no other than rows', found.join(), '2 false,0 false');
}
// An index before format 4: its pages have an empty first line, and its letters the beginnings of their pages.
async function testOldIndex() {
    const files = {
        '/index/list/j/0': '\nAtlas\t1\nBasins\t2\n', '/index/list/j/letters': '\n60\t1\na\t0\t2\t60\tat ba\n'
    };
    const r = { subrequest: (path) => {
        return Promise.resolve({ status: files[path] ? 200 : 204, responseBuffer: Buffer.from(files[path] || '') });
    } };
    const page = await index.partsOfPage(r, 'j', 0);
    expect('an older page', [0, 1, 2].map((place) => index.lineOfPage(page, place)).join('|'), 'Atlas\t1|Basins\t2|');
    const letters = await index.lettersOf(r, 'j');
    const starts = await index.startsOf(r, 'j', letters.letters[0]);
    expect('its beginnings', starts, 'at ba');
}
// The page of an error has the link of the DOI if the resolver has failed, and not if the request is wrong.
async function testFaults() {
    const requests = [503, 400].map((status) => requestWith('/find?', [status]));
    for (let i = 0; i < requests.length; i++) {
        requests[i].rawVariables.args = Buffer.from('id=doi:10.5555/abc');
        requests[i].return = function (status, text) { this.page = status + ' ' + text.includes('https://doi.org/'); };
        await door.find(requests[i]);
    }
    expect('the DOI on the page of an error', requests.map((it) => it.page).join(), '503 true,400 false');
    const asked = await program.reportsOn(requestWith('/find?', [200, 400, 503]), ['a', 'b', 'c']);
    expect('the greatest status of several', asked.status, 503);
    await expectReply('a refused report', door.report, requestWith('/report.txt', [400]), '400 <h1>, requested 1');
    await expectReply('no page with data', door.fault, requestWith('/find.jsonx', []), '503 <h1>, requested 0');
    globalThis.targets = Object.defineProperty({}, 'words', { get: () => { throw new Error('words'); } });
    await expectReply('words that are the cause', door.find, requestWith('/find?', []), '503 <h1>, requested 0');
    globalThis.targets.languages = ['de', 'en'];
    const failed = requestWith('/find?', []);
    failed.return = function (status, text) { this.page = status + ' ' + /<html lang="(\w+)"/.exec(text)[1]; };
    await door.find(failed);
    expect('the language of that page', failed.page, '503 de');
    delete globalThis.targets;
}
// Rows and editions of links: an entry of the index is that of a link by its part and row.
function testLinks() {
    const q = known.queryOf('isbn=9781234560102');
    q.titles = [{ rows: ['a 0 1990', 'a 1 2000', 'b 0 1980', 'b.2 0 1970'], pages: [] }];
    q.links = [['a', 'a', 1, 'own'], ['b', 'b.2', 0, '1234560106'], ['c', 'c', 0, '9781234560874'],
        ['d', 'd', 2, 'any'], ['e', 'e', 0, '2901-0012']].map((it) => {
        return { target: it[0], part: it[1], row: it[2], query: it[3], link: 'x' };
    });
    const shown = program.linksOf(q).map((it) => [it.target, it.url, it.row && it.row.first, it.edition].join(' '));
    expect('rows and editions', shown.join(), 'a x 2000 ,b x 1970 ,c x  9781234560874,d x  ,e x  2901-0012');
}
// A library's own targets.json, whose name has no hyphen, and the folder that its site says if that file does not.
function testLibrary() {
    const request = requestWith('/find', []);
    Object.assign(request.variables, { openlink_library: 'a-b-c', openlink_folder: '/srv/site' });
    const folder = () => exchange.siteOf(request).folder;
    expect('without a file', folder(), '/srv/site');
    globalThis.targets__a_b_c = { folder: '/srv/own' };
    expect('the file of a library', folder(), '/srv/own');
    delete globalThis.targets__a_b_c;
}
// Titles of the index: each is there once, of each kind; a number in two forms is one.
function testTitles() {
    const title = (kind, sent) => index.titleOf(kind, ['Atlas', sent, '']);
    const all = ['b 1', 'j 1', 'b 2', 'b 1'].map((it) => title(it.charAt(0), '123456010' + it.slice(2)));
    expect('distinct titles', index.distinct(all).map((it) => it.kind + it.numbers).join(),
        'b1234560101,j1234560101,b1234560102');
    const related = index.titleOf('j', ['C', '1', '', '<2901-0012 A > B', '>2908-0142 D']).related;
    expect('an earlier title with a sign', related.map((it) => it.isLater + it.number + it.title).join(),
        'false2901-0012A > B,true2908-0142D');
    expect('a number in two forms', title('b', '1234560106 9781234560102').standard.join(), '9781234560102');
}

// The lines of a file of the index that begin so, against a search through all of them. The lines have up to 13,000
// bytes, some keys have several, and the texts after the keys have characters of two and three bytes, as the keys may.
const ARABIC = '0123456789';
const THREE_BYTES = '\u2460\u2461\u2462\u2463\u2464\u2465\u2466\u2467\u2468\u2469';
function numeral(number, digits) { return String(number).split('').map((digit) => digits[Number(digit)]).join(''); }
function madeLines(digits, most, longest) {
    const lines = [];
    let number = 7;
    for (let i = 0; lines.length < most; i++) {
        number = (number * 1103515245 + 12345) % 2147483648;
        const length = number % 9 === 0 ? number % longest : number % 150;
        const text = repeated(number % 2 === 0 ? '\u00e9' : number % 3 === 0 ? 'a\u20ac' : 'a', length);
        for (let j = 0; j <= number % 3; j++) lines.push(numeral(10000 + 3 * i, digits) + '\t' + j + text);
    }
    return lines;
}
// The beginnings for which other lines are found than those that begin so.
function wronglySought(lines, sought) {
    const bytes = Buffer.from('\n' + lines.map(function (line) { return line + '\n'; }).join(''));
    return sought.filter(function (beginning) {
        const expected = lines.filter(function (line) { return line.startsWith(beginning); });
        const found = index.linesWith(bytes, beginning, 50).map(function (cells) { return cells.join('\t'); });
        return found.join('\n') !== expected.slice(0, 50).join('\n');
    });
}
function testLines() {
    [[ARABIC, 0, 1], [ARABIC, 1, 50], [ARABIC, 3, 50], [ARABIC, 40, 50], [ARABIC, 300, 50], [ARABIC, 300, 4500],
        [THREE_BYTES, 300, 50], [THREE_BYTES, 300, 4500]].forEach(function (it) {
        const lines = madeLines(it[0], it[1], it[2]);
        const sought = ['!', '\u30ff'];
        for (let key = 9990; key < 10010 + 3 * lines.length; key += it[1] > 40 ? 5 : 1) {
            sought.push(numeral(key, it[0]) + (key % 2 === 0 ? '\t' : ''), numeral(key, it[0]).slice(0, 4));
        }
        expect('lines found among ' + it.join(' of '), wronglySought(lines, sought).join(), '');
    });
}
// 256 lines of 32 bytes: halves of the file, and of these, begin at the end of a line.
function testLinesAtHalves() {
    const lines = [];
    for (let key = 1000; key < 1256; key++) lines.push(key + '\t' + repeated('a', 26));
    const sought = lines.map(function (line) { return line.slice(0, 5); });
    expect('lines that begin where a half ends', wronglySought(lines, sought).join(), '');
}

testKnown();
testAgain();
testSent();
testLines();
testLinesAtHalves();
testMenus();
testNotices();
testRetractions();
testValues();
testRis();
testCitations();
testHeaders();
languageParts.all().concat(pageParts.all(), menuParts.all(), frameParts.all()).forEach((it) => {
    expect(it[0], it[1], it[2]);
});
testWords();
testPlurals();
testCommands();
testReasons();
testLibrary();
testTitles();
testHealth();
testLinks();
testReplies().then(testLength).then(testFolded).then(testFaults).then(testOldIndex)
    .then(() => flowParts.run(expect)).then(() => { console.log(String(count)); });
