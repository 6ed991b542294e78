// The limits of the front door's scripts: for each the last value that counts and the first one beyond it. Runs in njs,
// which finds the modules and what the program reads in a folder that fixtures/readings.py writes. Prints a line of
// JSON for each case: the file whose limit it is and what it is, alone or with what it gives and what was expected;
// last how many there are.
import browser from './browser.js';
import completion from './completion.js';
import contact from './contact.js';
import copies from './copies.js';
import door from './find.js';
import exchange from './exchange.js';
import folding from './fold.js';
import form from './form.js';
import index from './index.js';
import known from './known.js';
import languages from './languages.js';
import lists from './lists.js';
import log from './log.js';
import lookup from './lookup.js';
import menus from './menu.js';
import notices from './notices.js';
import numbers from './numbers.js';
import pages from './pages.js';
import replies from './replies.js';
import search from './search.js';
import titlePages from './title_pages.js';

globalThis.fold = folding;
globalThis.words_en = { issn: '{}', byDoi: 'by {}' };
globalThis.words_de = {};
let count = 0;

function expect(file, name, got, expected) {
    count++;
    console.log(JSON.stringify(got === expected ? [file, name] : [file, name, String(got), String(expected)]));
}
function repeated(text, times) {
    const parts = [];
    while (parts.length < times) parts.push(text);
    return parts.join('');
}
// The numbers from 1 to `most`, each as `write` gives it.
function counted(most, write) {
    const found = [];
    for (let i = 1; i <= most; i++) found.push(write(i));
    return found;
}
function issn(number) { return '1000-' + String(1000 + number).slice(-3) + '0'; }
function foundOrNone(value) { return value === null ? 'none' : 'found'; }

// ---------------------------------------------------------------- A request of nginx
// The file of the index at a path: the lines of the keys that belong there, of titles by their keys.
function fileOf(path, titles) {
    const lines = [''];
    Object.keys(titles).forEach((key) => {
        const digits = index.hashed(key, 16);
        if (path !== '/index/keys/' + digits.slice(0, 3)) return;
        const name = '=~'.includes(key.charAt(0)) ? key.charAt(0) + digits.slice(3) : key;
        titles[key].forEach((title) => { lines.push(name + '\t' + title); });
    });
    if (path === '/index/list/j/letters') lines.push('1\t1', 'a\t1\t1\t0');
    return lines.length === 1 ? '' : lines.join('\n') + '\n';
}
// A request of a site whose index has these titles. It notes the paths that are read, and what the reader gets.
function requestWith(args, titles) {
    return {
        uri: '/journals', method: 'GET', headersIn: {}, headersOut: {}, variables: {},
        rawVariables: { args: Buffer.from(args) }, paths: [],
        subrequest: function (path, options) {
            this.paths.push(path);
            if (known.isOfProgram(path)) return Promise.resolve(known.replyTo(options.args));
            return Promise.resolve({ status: 200, responseBuffer: Buffer.from(fileOf(path, titles)) });
        },
        return: function (status, text) { this.replied = text; }
    };
}
function readBelow(r, folder) { return r.paths.filter((path) => path.startsWith(folder)).length; }

// ---------------------------------------------------------------- What a request means
async function testFurther(most, expected) {
    const all = counted(most, issn);
    const titles = {};
    titles[all[0]] = ['j\tTides\t' + all.join(' ') + '\t'];
    const q = await completion.queryOf(requestWith('issn=' + all[0], titles), '/_menu');
    expect('completion', most + ' numbers of a title', q.further.join(' '), expected);
}
async function testMaybe(most, expected) {
    const titles = { '=tides': counted(most, (i) => 'j\tTides\t' + issn(i) + '\t') };
    const q = await completion.queryOf(requestWith('rft.jtitle=Tides', titles), '/_menu');
    expect('completion', most + ' titles of one name', q.maybe.length, expected);
}
// The first title has fourteen keys of similar titles, and the last key of the second one is in the index.
async function testSimilar(name, keys, expected) {
    const args = 'rft.jtitle=T%C3%BCde+and+B+(a):+b&rft.stitle=' + name;
    const r = requestWith(args, { '~coast': ['j\tCoast\t1000-0010\t'] });
    const q = await completion.queryOf(r, '/_menu');
    expect('completion', keys + ' keys of similar titles', q.maybe.length, expected);
    // Those of both titles, the initials of the shorter one, and similar ones.
    expect('completion', 'keys that are sought, of ' + keys, readBelow(r, '/index/keys/'), 2 + 1 + 16);
}
async function testLetters(most, expected) {
    const title = 'Coast: ' + repeated('a', most - 7);
    const r = requestWith('rft.jtitle=' + title, { '=coast': ['j\tCoast\t1000-0010\t'] });
    const q = await completion.queryOf(r, '/_menu');
    expect('completion', 'a title of ' + most + ' characters', q.maybe.length, expected);
}
async function testCompletion() {
    const three = '1000-0030 1000-0040 1000-0050';
    await testFurther(5, three);
    await testFurther(6, three);
    await testMaybe(20, 20);
    await testMaybe(21, 20);
    await testSimilar('Coast', 16, 1);
    await testSimilar('Coast:+c', 17, 0);
    await testLetters(250, 1);
    await testLetters(251, 0);
}

// A service that replies after that many milliseconds, on a clock of its own.
let end = null;
function replyAfter(milliseconds, work, data) {
    globalThis.setTimeout = function (late, most) {
        end = milliseconds < most ? null : late;
        return 1;
    };
    globalThis.clearTimeout = function () {};
    const reply = { status: 200, text: function () { return JSON.stringify(data || { message: work }); } };
    globalThis.ngx = { asked: 0, fetch: function () {
        ngx.asked++;
        if (end === null) return Promise.resolve(reply);
        end();
        return new Promise(function () {});
    } };
}
// A request of a site with the look-up, and what it is after a reply to a number that came alone.
function requestOfLookup() { return { variables: { openlink_lookup: 'http://127.0.0.1:8078' }, rawVariables: {} }; }
async function lookedUp(args) {
    const q = known.queryOf(args || 'id=doi:10.5555/a');
    await lookup.complete(requestOfLookup(), q);
    return q;
}
async function testReplies() {
    replyAfter(2999, { title: ['Tides'] });
    const early = await lookedUp();
    expect('replies', 'within 3 seconds', early.first('rft.atitle'), 'Tides');
    replyAfter(3000, { title: ['Tides'] });
    const late = await lookedUp();
    expect('replies', 'after 3 seconds', late.first('rft.atitle'), '');
    replyAfter(0, { title: [repeated('a', 999) + 'b'], volume: repeated('1', 1000) + '2' });
    const long = await lookedUp();
    expect('replies', '1000 characters', long.first('rft.atitle'), repeated('a', 999) + 'b');
    expect('replies', '1001 characters', long.first('rft.volume'), repeated('1', 1000));
    const doi = (length) => '10.5555/' + repeated('a', length - 8);
    expect('replies', 'a DOI of 300 characters', replies.doiOf(doi(300)), doi(300));
    expect('replies', 'a DOI of 301 characters', replies.doiOf(doi(301)), '');
    await testTimeOfAll(2999, 'a second look-up within 3 seconds', 'Tides');
    await testTimeOfAll(3000, 'a second look-up after 3 seconds', '');
}
// Two look-ups of one request, the second one that many milliseconds after the first.
async function testTimeOfAll(milliseconds, name, expected) {
    const r = requestOfLookup();
    const now = Date.now;
    const clock = { time: 1000 };
    Date.now = () => clock.time;
    replyAfter(0, { title: ['Tides'] });
    await lookup.complete(r, known.queryOf('id=doi:10.5555/a'));
    clock.time += milliseconds;
    const q = known.queryOf('id=doi:10.5555/a');
    await lookup.complete(r, q);
    Date.now = now;
    expect('replies', name, q.first('rft.atitle'), expected);
    expect('replies', name + ': how often a service is asked', ngx.asked, expected === '' ? 1 : 2);
}
async function testLookup() {
    const last = { idtype: 'doi', value: '10.5555/a' };
    for (let before = 19; before <= 20; before++) {
        const summary = { title: 'Tides', articleids: counted(before, () => ({ idtype: 'pii' })).concat([last]) };
        replyAfter(0, {}, { result: { uids: ['7'], 7: summary } });
        const q = await lookedUp('id=pmid:7');
        expect('lookup', `a DOI after ${before} other numbers`, q.first('x.doi'), before === 19 ? '10.5555/a' : '');
    }
}
// How often a service is asked for a request with a DOI of that many characters.
async function testLongDois() {
    const site = { openlink_lookup: 'http://127.0.0.1:8078', openlink_free_copies: 'on' };
    for (let length = 300; length <= 301; length++) {
        const ask = () => known.queryOf('id=doi:10.5555/' + repeated('a', length - 8));
        const asked = length === 300 ? 1 : 0;
        replyAfter(0, {});
        await lookup.complete({ variables: site, rawVariables: {} }, ask());
        expect('lookup', `a request for a DOI of ${length} characters`, ngx.asked, asked);
        replyAfter(0, {});
        await copies.find({ variables: site, rawVariables: {} }, ask());
        expect('copies', `a request for a copy of a DOI of ${length} characters`, ngx.asked, asked);
    }
}
function testCopies() {
    const address = (length) => 'https://a.example.org/' + repeated('a', length - 22);
    expect('copies', '2000 characters', copies.hostOf(address(2000)), 'a.example.org');
    expect('copies', '2001 characters', copies.hostOf(address(2001)), '');
    const host = (length) => repeated(repeated('a', 49) + '.', 4) + repeated('a', length - 212) + '.example.org';
    expect('copies', 'a host of 253 characters', copies.hostOf('https://' + host(253)), host(253));
    expect('copies', 'a host of 254 characters', copies.hostOf('https://' + host(254)), '');
    for (let before = 19; before <= 20; before++) {
        const all = counted(before, () => ({ url: 'http://a.example.org/' })).concat([{ url: address(30) }]);
        const found = copies.copyIn({ best_oa_location: null, oa_locations: all });
        expect('copies', `a place after ${before} others`, foundOrNone(found), before === 19 ? 'found' : 'none');
    }
}
function testNotices() {
    const notice = (i) => ({ type: 'correction', DOI: '10.5555/' + i, source: repeated('a', 59) + i });
    const work = (most) => ({ 'updated-by': counted(most, notice) });
    expect('notices', '10 notices', notices.ofCrossref(work(10)).notices.length, 10);
    expect('notices', '11 notices', notices.ofCrossref(work(11)).notices.length, 10);
    const sources = notices.ofCrossref(work(10)).notices.map((it) => it.source.length).join();
    expect('notices', 'a source of 60 and 61 characters', sources, counted(10, () => 60).join());
    const retraction = { reftype: 'Retraction in', refsource: 'doi: 10.5555/a' };
    const doi = function (others) {
        const all = counted(others, () => ({ reftype: 'Comment in' })).concat([retraction]);
        return notices.ofPubmed({ pubtype: ['Retracted Publication'], references: all }).notices[0].doi;
    };
    expect('notices', '200 references', doi(199), '10.5555/a');
    expect('notices', '201 references', doi(200), '');
    const kinds = function (others) {
        const all = counted(others, notice).concat([{ type: 'retraction', DOI: '10.5555/a' }]);
        return notices.ofCrossref({ 'updated-by': all }).notices.map((it) => it.kind).join(' ').slice(0, 10);
    };
    expect('notices', 'a retraction after 199 corrections', kinds(199), 'retraction');
    expect('notices', 'a retraction after 200 corrections', kinds(200), 'correction');
    [0, 1].forEach((most) => {
        const data = {};
        notices.addTo(data, { notices: counted(most, () => ({ kind: 'correction', doi: '', source: '' })), about: [] });
        expect('notices', most + ' as data', JSON.stringify(data), most ? '{"notices":[{"kind":"correction"}]}' : '{}');
    });
}

// ---------------------------------------------------------------- Texts of a request
function testNumbers() {
    const within = (text) => numbers.numbersIn([text], numbers.ISSN, 1).length;
    expect('numbers', '200 characters', within(repeated('a', 190) + ' 2901-0012'), 1);
    expect('numbers', '201 characters', within(repeated('a', 191) + ' 2901-0012'), 0);
    expect('numbers', '12 lines', within(repeated('a\n', 11) + '2901-0012'), 1);
    expect('numbers', '13 lines', within(repeated('a\n', 12) + '2901-0012'), 0);
}
function testReading() {
    [4, 5].forEach((most) => {
        const isbns = counted(most, (i) => 'isbn=978000000000' + i);
        expect('reading', most + ' ISBNs', known.queryOf(isbns.join('&')).isbns.length, 4);
    });
    [2, 3].forEach((most) => {
        expect('reading', most + ' ISSNs', known.queryOf('issn=' + counted(most, issn).join(',')).issns.length, 2);
    });
    [20, 21].forEach((most) => {
        const q = known.queryOf('rft_val_fmt=x&' + repeated('rft.au=Li&', most));
        expect('reading', most + ' values of a key', q.all('rft.au').length, 20);
    });
    [14000, 14001].forEach((length) => {
        const q = known.queryOf('b=1');
        q.replace('b');
        q.put('a', [repeated('x', length - 6)]);
        q.put('c', ['1']);
        expect('reading', length + ' bytes', q.textToRead().length, length === 14000 ? 14000 : 13997);
    });
}
function testLog() {
    expect('log', 'a source without a host', log.sourceOf(known.queryOf('rfr_id=info:sid/')), '');
    expect('log', 'no source', log.sourceOf(known.queryOf('a=b')), '');
    [60, 61].forEach((length) => {
        const q = known.queryOf('rfr_id=info:sid/' + repeated('a', length));
        expect('log', 'a source of ' + length + ' characters', log.sourceOf(q), 'info:sid/' + repeated('a', 60));
    });
}

// ---------------------------------------------------------------- Pages
function testContact() {
    const day = Date.UTC(2026, 0, 1);
    [day, day + 86399999].forEach((now) => {
        const lines = contact.textOf('mailto:a@b', now).split('\n');
        expect('contact', 'the 180th day after ' + now, lines[1], 'Expires: 2026-06-30T23:59:59Z');
    });
}
function testLanguages() {
    const chosen = (header) => languages.chosen(header, ['en', 'de']);
    expect('languages', '500 bytes', chosen(repeated(' ', 498) + 'de'), 'de');
    expect('languages', '501 bytes', chosen(repeated(' ', 499) + 'de'), 'en');
    expect('languages', '20 ranges', chosen(repeated('fr,', 19) + 'de'), 'de');
    expect('languages', '21 ranges', chosen(repeated('fr,', 20) + 'de'), 'en');
    const offered = function (most) {
        return languages.siteIn({ languages: counted(most - 1, () => 'fr').concat(['de']) }, '').language;
    };
    expect('languages', '100 languages', offered(100), 'de');
    expect('languages', '101 languages', offered(101), 'en');
}
function testLists() {
    const site = languages.siteIn({}, '');
    const shown = function (most, rows) {
        const all = counted(most, issn);
        return lists.titleHtml({ kind: 'j', title: 'Tides', numbers: all, standard: all, rows }, site, '');
    };
    [4, 5].forEach((most) => {
        const listed = /<p>([^<]*)<\/p>/.exec(shown(most, []))[1].split(', ').length;
        expect('lists', most + ' numbers', listed, 4);
    });
    [12, 13].forEach((most) => {
        const listed = shown(1, counted(most, (i) => 't' + i + ' 0 2001')).split('</li>').length - 2;
        expect('lists', most + ' rows', listed, 12);
    });
}
function testTitlePages() {
    const q = known.queryOf('rft.issn=1000-0010');
    [4, 5].forEach((most) => {
        const rows = counted(most, (i) => 't ' + i + ' 200' + i + ' 200' + i);
        q.titles = [{ kind: 'j', pages: [{ target: 't', url: 'https://e.org/' }], rows }];
        const found = titlePages.pagesOf(q, [], languages.siteIn({}, ''));
        expect('title_pages', most + ' rows', found[0].covered, '2001; 2002; 2003; 2004');
    });
}
function testPages() {
    const site = languages.siteIn({ languages: ['en', 'de'] }, '');
    site.path = '/find';
    [[3000, true], [3001, false]].forEach((it) => {
        site.args = repeated('a', it[0]);
        expect('pages', it[0] + ' bytes', pages.documentOf('a', 'a', [], site).includes('hreflang'), it[1]);
    });
    [[300, true], [301, false]].forEach((it) => {
        const doi = '10.5555/' + repeated('a', it[0] - 8);
        const text = pages.faultOf(503, languages.siteIn({}, ''), doi);
        expect('pages', 'a DOI of ' + it[0] + ' characters', text.includes('https://doi.org/'), it[1]);
    });
}
function testMenu() {
    const targets = { t1: {}, t2: {}, t3: {}, t4: {} };
    const texts = { fullText: '{}', others: '{} ..' };
    const site = languages.siteIn({ groups: [{ name: 'A' }], targets, words: texts }, '');
    const headingOf = function (args, links) {
        const q = known.queryOf(args);
        return /<h1>([^<]*)<\/h1>/.exec(menus.pageOf(q, menus.groupsOf(links, site), site))[1];
    };
    const linkOf = (i) => ({ target: 't' + i, url: 'https://e.org/', edition: null, row: null });
    const found = (most) => counted(most, linkOf);
    expect('menu', '3 names', headingOf('atitle=a', found(3)), 't1, t2, t3');
    expect('menu', '4 names', headingOf('atitle=a', found(4)), 't1, t2, t3 ..');
    expect('menu', '200 characters', headingOf('atitle=' + repeated('a', 199) + 'b', []), repeated('a', 199) + 'b');
    expect('menu', '201 characters', headingOf('atitle=' + repeated('a', 201), []), repeated('a', 199) + '\u2026');
    site.isFollowed = true;
    [[2048, true], [2049, false]].forEach((it) => {
        const q = known.queryOf('atitle=' + repeated('a', it[0] - 7));
        const text = menus.pageOf(q, menus.groupsOf(found(32), site), site);
        expect('menu', '32 links of ' + it[0] + ' bytes', text.includes('"/go?target=t31&amp;atitle='), it[1]);
    });
}
function testForm() {
    [30, 31].forEach((length) => {
        const text = form.formHtml(known.queryOf('genre=' + repeated('a', length)), languages.siteIn({}, ''));
        const found = /name="genre" value="(.*)"/.exec(text);
        expect('form', 'a genre of ' + length + ' characters', found && found[1], repeated('a', 30));
    });
}
function testLanguageOf() {
    ['lang=fr&issn=1', 'issn=1&lang=fr', 'issn=1'].forEach((sent) => {
        expect('exchange', sent + ' without its language', exchange.argsOf({ sent }), 'issn=1');
    });
}
function testBrowser() {
    const r = { headersIn: { Host: 'e.org' }, variables: { scheme: 'https' } };
    [16, 17].forEach((length) => {
        const text = browser.searchOf(r, languages.siteIn({ words: { library: repeated('a', length) } }, ''));
        expect('browser', length + ' characters', /<ShortName>(.*)<\/ShortName>/.exec(text)[1], repeated('a', 16));
    });
}
async function testFind(length, expected) {
    const r = requestWith('q=' + repeated('a', length - 1) + 'b', {});
    await door.list(r);
    const text = /name="q"[^>]* value="([^"]*)"/.exec(r.replied)[1];
    expect('find', length + ' characters', text, repeated('a', 199) + expected);
}
async function testSearch(words) {
    const r = requestWith('', {});
    await search.search(r, 'j', words, 1);
    expect('search', words, readBelow(r, '/index/words/'), 6);
    // Two ISSNs and two ISBNs of a text are sought.
    const isbn = (number) => '97812345601' + (10 + number);
    for (let most = 2; most <= 3; most++) {
        const asked = requestWith('', {});
        await search.search(asked, 'j', counted(most, issn).concat(counted(most, isbn)).join(' '), 1);
        expect('search', most + ' numbers of each kind', readBelow(asked, '/index/keys/'), 4);
    }
    // The key of a title ends before its numbers.
    const pagesKnown = [{ lines: ['Tides\t1000-0010\t', 'Tides 05\t1000-0029\t'] }];
    const first = await search.firstPlace({ known: pagesKnown }, 0, 2, (key) => key < 'tides 05');
    expect('search', 'the place of a title that begins as a shorter one', first, 1);
}

testNumbers();
testReading();
testLog();
testContact();
testLanguages();
testLists();
testTitlePages();
testPages();
testMenu();
testForm();
testLanguageOf();
testBrowser();
async function testAll() {
    await testCompletion();
    await testReplies();
    await testLookup();
    await testLongDois();
    testNotices();
    testCopies();
    await testFind(200, 'b');
    await testFind(201, 'a');
    await testSearch('ab bc cd de ef fg');
    await testSearch('ab bc cd de ef fg gh');
}
testAll().then(() => { console.log(String(count)); });
