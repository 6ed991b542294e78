// What a request becomes by the library's index and by the services of a look-up, without nginx: both are stand-ins.
import completion from './completion.js';
import index from './index.js';
import known from './known.js';
import languages from './languages.js';
import titlePages from './title_pages.js';

// The file of an index at a path that has these lines by their keys.
function fileOf(path, titles) {
    const lines = Object.keys(titles).filter((key) => path === '/index/keys/' + index.hashed(key, 16).slice(0, 3))
        .map((key) => {
            const name = '=~^'.includes(key.charAt(0)) ? key.charAt(0) + index.hashed(key, 16).slice(3) : key;
            return titles[key].map((title) => name + '\t' + title).join('\n');
        });
    return lines.length === 0 ? '' : '\n' + lines.join('\n') + '\n';
}
// A request of nginx of a site whose index has these titles, and whose services reply with this.
function requestWith(args, titles, variables) {
    return {
        uri: '/find', method: 'GET', headersIn: {}, headersOut: {}, variables: variables || {},
        rawVariables: { args: Buffer.from(args) },
        places: [],
        subrequest: function (path, options) {
            if (known.isOfProgram(path)) {
                this.places.push(path + '?' + options.args);
                return Promise.resolve(known.replyTo(options.args));
            }
            const text = titles === null ? '' : path === '/index/format' ? '6\n' : fileOf(path, titles);
            return Promise.resolve({ status: text === '' ? 404 : 200, responseBuffer: Buffer.from(text || '<p>No\n') });
        }
    };
}
const LOOKUP = { openlink_lookup: 'http://127.0.0.1:8078' };
const MORE = { openlink_lookup: 'http://127.0.0.1:8078', openlink_lookup_more: 'on' };
let paths = [];
function replyWith(data) {
    paths = [];
    globalThis.ngx = { fetch: (address) => {
        paths.push(address.slice(LOOKUP.openlink_lookup.length + 1));
        return Promise.resolve({ status: data === null ? 404 : 200, text: () => JSON.stringify(data) });
    } };
}
// The values that the keys of an expected text have, in its form: `KEY=VALUE`, with a line between two keys.
function valuesOf(q, expected) {
    return expected.split('|').map((pair) => pair.slice(0, pair.indexOf('='))).map((name) => {
        const isWhole = name.startsWith('x.') || name.includes('_');
        return name + '=' + q.all(isWhole ? name : 'rft.' + name).join('+');
    }).join('|');
}

// The titles of an index by their keys.
const TIDES = 'j\tTides\t2901-0012 2908-0142\ta 0';
const SILT = 'b\tSilt\t0198534531\tb 0';
const THREE = 'j\tThree\t2915-0016 2915-0024 2915-0032\t';
const TITLES = {
    '=tides': [TIDES], '2901-0012': [TIDES], '2908-0142': [TIDES], '=silt': [SILT], 9780198534532: [SILT],
    '=both': ['j\tBoth\t2950-0013\t', 'b\tBoth\t9781234560102\t'], '=two': ['j\tTwo\t2960-0014\t',
    'j\tTwo\t2970-0015\t'],
    '=sea and coast': ['j\tSea and coast\t2980-0016\t'], '=kuste': ['j\tK\u00fcste\t2990-0017\t'],
    '~tides studies': ['j\tTides studies: x\t2930-0018\t'], '~two': ['j\tTwo: x\t2920-0019\t'],
    '=sued': ['j\tSued\t2910-0011\t'], '2950-0013': ['j\tBoth\t2950-0013\t'],
    9781234560874: ['b\tSeries\t9781234560874 2940-0011\t'], '=series': ['b\tSeries\t9781234560874 2940-0011\t'],
    '=three': [THREE], '2915-0016': [THREE],
    '2925-0019': ['j\tSeven\t2925-0019 2925-0027 2925-0035 2925-0043 2925-0051 2925-006X 2925-0078\t'],
    '2935-0011': ['j\tOne\t2935-0011 2935-0038\t', 'j\tOther\t2935-0011 2935-0038\t'],
    9781234560102: ['b\tBoth\t9781234560102\t'], 9780804429573: ['b\tForms\t080442957X 9780804429573\t']
};

// ---------------------------------------------------------------- Services
const WORK = { title: ['Silt'], 'container-title': ['Tides'] };
function work(type, more) { return { message: Object.assign({ type }, WORK, more) }; }
const DOI = 'id=doi:10.5555/abc';
const AUTHOR = [{ family: 'Li', given: 'Wei' }, { family: 'Berg' }];
// A request, what Crossref replies, and what is known then.
const CROSSREF = ['book', 'monograph', 'edited-book', 'reference-book', 'proceedings'].map((type) => {
    return [DOI, work(type), 'genre=book|btitle=Silt|atitle=|jtitle='];
}).concat(['book-chapter', 'book-section', 'reference-entry', 'proceedings-article'].map((type) => {
    return [DOI, work(type), 'genre=bookitem|btitle=Tides|atitle=Silt|jtitle='];
}), ['journal-article', 'journal-issue'].map((type) => [DOI, work(type),
    'genre=article|btitle=|atitle=Silt|jtitle=Tides']), [
    [DOI, work('posted-content'), 'genre=|btitle=|atitle=Silt|jtitle=Tides'],
    [DOI, work('report', { issued: { 'date-parts': [[2003, 5, 1]] } }), 'date=2003-05-01|x.from=20030501'],
    [DOI, work('', { issued: { 'date-parts': [[2003, 12]] } }), 'date=2003-12'],
    [DOI, work('', { issued: { 'date-parts': [[2003]] } }), 'date=2003'],
    [DOI, work('', { issued: { 'date-parts': [[null]] } }), 'date='],
    [DOI, work('', { issued: { 'date-parts': [[2003, null, 5]] } }), 'date=2003'],
    [DOI, work('', { issued: { 'date-parts': [[3003]] } }), 'date='], [DOI, work('', { issued: 7 }), 'date='],
    [DOI, work('', { author: AUTHOR, volume: '12', issue: '3', page: '45-67' }),
        'aulast=Li|aufirst=Wei|volume=12|issue=3|pages=45-67|spage=45'],
    [DOI, work('', { ISSN: ['2901-0012', '2908-0142'], ISBN: ['9781234560102'] }),
        'issn=2901-0012+2908-0142|x.issn=2901-0012|isbn=9781234560102'],
    // four numbers, and eight texts
    [DOI, work('', { ISSN: ['2901-0012', '2908-0142', '0028-0836', '2434-561X', '2957-1057'] }),
        'issn=2901-0012+2908-0142+0028-0836+2434-561X'],
    [DOI, work('', { ISSN: ['', '', '', '', '', '', '', '2901-0012', '2908-0142'] }), 'issn=2901-0012'],
    // what a request says stays
    [DOI + '&spage=7', work('', { page: '45-67' }), 'pages=|spage=7'],
    [DOI + '&pages=7-9', work('', { page: '45-67' }), 'pages=7-9|spage=7'],
    [DOI + '&epage=9', work('', { page: '45-67' }), 'pages='], [DOI + '&artnum=e7', work('', { page: '45-67' }),
        'pages='],
    [DOI + '&au=Berg', work('', { author: AUTHOR }), 'au=Berg|aulast=|aufirst='],
    [DOI + '&aulast=Berg', work('', { author: AUTHOR }), 'aulast=Berg|aufirst='],
    [DOI + '&auinit=B', work('', { author: AUTHOR }), 'aulast=|aufirst='],
    [DOI + '&auinit1=B', work('', { author: AUTHOR }), 'aulast=|aufirst='],
    [DOI + '&aucorp=Port', work('', { author: AUTHOR }), 'aulast=|aufirst='],
    [DOI + '&date=2001', work('', { issued: { 'date-parts': [[2003]] } }), 'date=2001'],
    [DOI + '&rft.year=2001', work('', { issued: { 'date-parts': [[2003]] } }), 'date=2001'],
    [DOI + '&date=in+press', work('', { issued: { 'date-parts': [[2003]] } }), 'date=2003'],
    [DOI + '&volume=1', work('', { volume: '12', issue: '3' }), 'volume=1|issue=3'],
    [DOI + '&atitle=Sand', work('journal-article'), 'atitle=Sand|jtitle=Tides'],
    [DOI + '&genre=book', work('journal-article'), 'genre=book'],
    [DOI + '&eisbn=9781234560102', work('', { ISSN: ['2901-0012'] }), 'issn='],
    // up to four numbers of a kind, and a thousand characters of a text
    [DOI, work('', { ISBN: ['9781234560102', '9781234560874', '9780198534532'] }),
        'isbn=9781234560102+9781234560874+9780198534532'],
    [DOI, work('', { title: ['a'.repeat(1001)] }), 'atitle=' + 'a'.repeat(1000)]
]);
const SUMMARY = {
    uid: '12', title: 'Silt.', fulljournalname: 'Tides', issn: '2901-0012', essn: '2908-0142', volume: '12', issue: '3',
    pages: '45-67', pubdate: '2003 May 1', authors: [{ name: 'Li WX' }, { name: 'Berg O' }],
    articleids: [{ idtype: 'pubmed', value: '12' }, { idtype: 'doi', value: '10.5555/abc' }, { idtype: 'pmid',
        value: '12' }]
};
function summary(more) { return { result: { uids: ['12'], 12: Object.assign({}, SUMMARY, more) } }; }
// The same of NCBI, and of DataCite.
const NCBI = [
    ['id=pmid:12', summary(),
        'genre=article|atitle=Silt|jtitle=Tides|issn=2901-0012|eissn=2908-0142|volume=12|issue=3|spage=45'
        + '|date=2003-05+2003 May 1|aulast=Li|x.doi=10.5555/abc|x.pmid=12'],
    ['rft_id=PMC7', summary(), 'atitle=Silt|x.pmid=12|x.doi=10.5555/abc'],
    ['id=pmid:12', summary({ title: '' }), 'genre=|atitle='], ['id=pmid:12', summary({ title: 'Why?' }), 'atitle=Why?'],
    ['id=pmid:12', summary({ authors: [{ name: 'Tide Group' }] }), 'aulast=Tide Group'],
    ['id=pmid:12', summary({ authors: [{ name: 'de Wit J' }] }), 'aulast=de Wit'],
    ['id=pmid:12', summary({ authors: [{ name: 'Li WXY' }] }), 'aulast=Li'],
    ['id=pmid:12', summary({ authors: [{ name: 'Group WXYZ' }] }), 'aulast=Group WXYZ'],
    ['id=pmid:12', summary({ title: 'St. Ives and its tides.' }), 'atitle=St. Ives and its tides'],
    ['rft_id=PMC7', summary({ articleids: [{ idtype: 'doi', value: '10.5555/' + 'a'.repeat(293) }] }), 'x.doi='],
    ['rft_id=PMC7', summary({ articleids: [{ idtype: 'pmid', value: 'x' }, { idtype: 'doi', value: '7' }] }),
        'x.pmid=|x.doi='],
    ['id=pmid:12', { result: { uids: ['13'] } }, 'atitle='], ['id=pmid:12', 7, 'atitle=']
];
function preprint(more) { return { data: { attributes: Object.assign({ titles: [{ title: 'Silt' }] }, more) } }; }
const DATACITE = [
    ['id=arXiv:2101.00001', preprint({ publicationYear: 2021, creators: [{ name: 'Li, Wei', familyName: 'Li',
        givenName: 'Wei' }] }),
        'genre=preprint|atitle=Silt|date=2021|aulast=Li|aufirst=Wei'],
    ['id=arXiv:2101.00001', preprint({ creators: [{ name: 'Tide Group', givenName: 'x' }] }),
        'aulast=Tide Group|aufirst=|date='],
    ['id=arXiv:2101.00001', preprint({ publicationYear: 3021, titles: [] }), 'genre=|atitle=|date=']
];
// The same of a site that asks more, and whose index has these titles.
const INDEXED = [
    [DOI, work('journal-article', { ISSN: ['1000-0010'] }), 'x.issn=1000-0010|jtitle=Tides'],
    [DOI, work('book'), 'rft_val_fmt=info:ofi/fmt:kev:mtx:book|x.isbn=9780198534532'],
    [DOI, work('journal-article'), 'rft_val_fmt=info:ofi/fmt:kev:mtx:journal|x.issn=2901-0012'],
    [DOI + '&jtitle=Nothing', work('journal-article'), 'jtitle=Nothing|atitle=Silt'],
    [DOI + '&rft.title=Nothing', work('journal-article'), 'jtitle=|title=Nothing|atitle=Silt'],
    [DOI + '&issn=1000-0010&jtitle=Nothing', work('journal-article', { ISSN: ['1000-0010', '2908-0142'] }),
        'x.issn=1000-0010|eissn=2908-0142|x.eissn=2908-0142'],
    [DOI + '&issn=1000-0010&eissn=1000-0029&jtitle=Nothing', work('journal-article', { ISSN: ['2908-0142'] }),
        'x.issn=1000-0010|eissn=1000-0029'],
    [DOI + '&issn=1000-0010&jtitle=Nothing', work('journal-article', { ISBN: ['9780198534532'] }), 'isbn='],
    [DOI + '&jtitle=Nothing', work('journal-article', { 'container-title': ['Two'], title: [] }),
        'issn=|jtitle=Nothing'],
    ['rft_id=PMC7', summary({ articleids: [{ idtype: 'doi', value: 'pmid:7' }] }), 'x.doi=|x.issn=2901-0012'],
    // a request whose title the index does not know gets the numbers of the one title of its kind that the reply names
    [DOI + '&jtitle=Nothing', work('journal-article'), 'issn=2901-0012|eissn=2908-0142|x.issn=2901-0012'],
    [DOI + '&btitle=Nothing', work('book'), 'x.isbn=9780198534532'],
    [DOI + '&jtitle=Nothing', work('journal-article', { 'container-title': ['Both'] }), 'x.issn=2950-0013'],
    [DOI + '&issn=1000-0010&jtitle=Nothing', work('journal-article'), 'issn=1000-0010|eissn=|x.issn=1000-0010'],
    [DOI + '&rft.title=Nothing', work('book'), 'btitle=|title=Nothing|x.isbn=9780198534532'],
    // the numbers of the reply come after those of the request, each once
    [DOI + '&isbn=9781000000009&btitle=Nothing', work('book', { ISBN: ['9781000000009', '9780198534532'] }),
        'isbn=9781000000009+9780198534532+9781000000009|x.isbn=9781000000009'],
    ['id=pmid:12&issn=1000-0010&jtitle=Nothing', summary({ issn: '1000-0010' }), 'issn=1000-0010|eissn=2908-0142']
];
// A request, the variables of the site, and the path of the proxy that is asked.
const ASKED = [
    [DOI, LOOKUP, 'doi?id=10.5555%2Fabc'], ['id=pmid:12', LOOKUP, 'pmid?id=12'], ['rft_id=PMC7', LOOKUP, 'pmc?id=7'],
    ['id=arXiv:2101.00001', LOOKUP, 'arxiv?id=10.48550%2FarXiv.2101.00001'],
    ['id=doi:10.48550/ARXIV.2101.00001', LOOKUP, 'arxiv?id=10.48550%2FARXIV.2101.00001'],
    [DOI + '&id=pmid:12', LOOKUP, 'doi?id=10.5555%2Fabc'], ['id=pmid:12&rft_id=PMC7', LOOKUP, 'pmid?id=12'],
    [DOI, {}, ''], [DOI + '&issn=2901-0012', LOOKUP, ''], [DOI + '&isbn=9781234560102', LOOKUP, ''],
    [DOI + '&jtitle=Tides', LOOKUP, ''], [DOI + '&btitle=Silt', LOOKUP, ''], [DOI + '&title=Tides', LOOKUP, ''],
    [DOI + '&stitle=Tid', LOOKUP, ''], [DOI + '&rft.title=Silt', LOOKUP, ''], [DOI + '&atitle=Silt', LOOKUP,
        'doi?id=10.5555%2Fabc'],
    ['rft_id=https://pubmed.gov/1234567890', LOOKUP, ''], ['issn=2901-0012', LOOKUP, ''], ['', LOOKUP, ''],
    ['rft_id=info:oclcnum/7', LOOKUP, ''],
    [DOI + '&jtitle=Tides', MORE, 'doi?id=10.5555%2Fabc'], ['id=pmid:12&jtitle=Tides', MORE, 'pmid?id=12'],
    ['rft_id=PMC7&jtitle=Tides', MORE, 'pmc?id=7'], [DOI + '&issn=2901-0012', MORE, ''],
    [DOI + '&jtitle=Tides', { openlink_lookup_more: 'on' }, '']
];
async function testServices(expect) {
    const all = CROSSREF.concat(NCBI, DATACITE);
    for (let i = 0; i < all.length; i++) {
        replyWith(all[i][1]);
        const q = await completion.queryOf(requestWith(all[i][0], null, LOOKUP), '/_menu');
        expect('looked up, ' + all[i][0] + ' ' + i, valuesOf(q, all[i][2]), all[i][2]);
    }
    for (let i = 0; i < INDEXED.length; i++) {
        replyWith(INDEXED[i][1]);
        const q = await completion.queryOf(requestWith(INDEXED[i][0], TITLES, MORE), '/_menu');
        expect('beside the index, ' + INDEXED[i][0] + ' ' + i, valuesOf(q, INDEXED[i][2]), INDEXED[i][2]);
        expect('asked once, ' + i, paths.length, 1);
    }
    for (let i = 0; i < ASKED.length; i++) {
        replyWith(null);
        await completion.queryOf(requestWith(ASKED[i][0], null, ASKED[i][1]), '/_menu');
        expect('what is asked for ' + ASKED[i][0] + ' ' + i, paths.join(' '), ASKED[i][2]);
    }
}

// ---------------------------------------------------------------- The index
// A request, and what is known then. `known` is what is certain, and `meant` are the titles that it may mean.
const COMPLETED = [
    ['jtitle=Tides', 'issn=2901-0012|eissn=2908-0142|x.issn=2901-0012|known=number|meant='],
    ['btitle=Silt', 'isbn=9780198534532|x.isbn=9780198534532|further=0198534531|known=number|meant='],
    ['title=Silt', 'btitle=Silt|jtitle=|known=number'], ['title=Tides', 'jtitle=Tides|btitle=|known=number'],
    ['jtitle=Both', 'issn=2950-0013|known=number'], ['btitle=Both', 'x.isbn=9781234560102|known=number'],
    ['title=Both', 'issn=|x.isbn=|known=title|meant=Both Both'], ['jtitle=Two', 'issn=|known=title|meant=Two Two'],
    ['jtitle=Two&title=Tides', 'issn=|meant=Two Two'], ['genre=book&jtitle=Both&btitle=Silt', 'x.isbn=9780198534532'],
    ['issn=2901-0012&eissn=2950-0013', 'titles=Tides Both'], ['issn=2901-0012&eissn=2908-0142', 'titles=Tides'],
    ['isbn=9781234560874', 'eissn=|issn=|further=2940-0011'], ['jtitle=S%C3%BCd', 'issn=|meant=Sued'],
    ['jtitle=Silt', 'x.isbn=|known=title|meant=Silt'], ['jtitle=Nothing', 'known=title|meant='],
    ['jtitle=Nothing&title=Tides', 'issn=2901-0012|known=number'],
    ['issn=2901-0012', 'jtitle=Tides|eissn=2908-0142|known=number|further='],
    ['issn=2908-0142', 'eissn=2901-0012|jtitle=Tides'],
    ['issn=2901-0012&rft.title=x', 'jtitle=|known=number'], ['isbn=9780198534532',
        'btitle=Silt|x.isbn=9780198534532|known=number'],
    ['issn=1000-0010', 'jtitle=|eissn=|known=number'], ['id=doi:10.5555/abc', 'known=identifier'], ['id=pmid:12',
        'known=identifier'],
    ['rft_id=info:oclcnum/7', 'known=identifier'], ['volume=3', 'known=nothing'], ['rft_id=PMC7', 'known=nothing'],
    ['id=doi:10.1007/978-0-19-853453-2_3', 'x.isbn=9780198534532|btitle=Silt|known=number'],
    ['id=doi:10.1007/9780198534533', 'x.isbn=|known=identifier'],
    ['jtitle=Sea+und+coast', 'issn=|meant=Sea and coast|known=title'], ['jtitle=Sea+et+coast', 'meant=Sea and coast'],
    ['title=K%C3%BCste', 'rft_val_fmt=info:ofi/fmt:kev:mtx:journal|issn=2990-0017|jtitle=Küste'],
    ['title=Silt', 'rft_val_fmt=info:ofi/fmt:kev:mtx:book|x.isbn=9780198534532|btitle=Silt'],
    ['jtitle=K%C3%BCste', 'issn=2990-0017'], ['jtitle=Kueste', 'meant='], ['jtitle=Tides+studies',
        'meant=Tides studies: x'],
    ['jtitle=Tides+studies:+y', 'meant=Tides studies: x'], ['jtitle=Tides:+y', 'meant=Tides'],
    // one number of each kind for the title, and at most three others
    ['jtitle=Three', 'issn=2915-0016|eissn=2915-0024|further=2915-0032'],
    ['issn=2925-0019', 'eissn=2925-0027|further=2925-0035 2925-0043 2925-0051'],
    ['issn=2935-0011&eissn=1000-0029', 'titles=One Other|further=2935-0038'],
    ['isbn=9780804429573', 'isbn=9780804429573|further=080442957X'],
    ['rft.isbn=9781234560874&rft.isbn=9781000000009', 'titles=Series|further=2940-0011'],
    ['rft.isbn=9781000000009&rft.isbn=9781234560102', 'titles=Both|further=9781234560102'],
    // the title that a DOI has by its ISBN comes after that of the numbers, which stay
    ['issn=2901-0012&id=doi:10.1007/978-0-19-853453-2_3', 'x.isbn=|titles=Tides Silt|further=0198534531'],
    ['id=doi:10.1007/12-9780198534532', 'x.isbn=|known=identifier'], ['id=doi:10.1007/19780198534532',
        'x.isbn=|known=identifier'],
    // what a request says of its format and its title stays, and each of its titles counts
    ['rft_val_fmt=info:ofi/fmt:kev:mtx:dc&title=Silt', 'rft_val_fmt=info:ofi/fmt:kev:mtx:dc|x.isbn=9780198534532'],
    ['issn=2901-0012&stitle=Tid', 'jtitle=|stitle=Tid'],
    ['genre=book&rft.title=Both&rft.btitle=Silt', 'x.isbn=9780198534532'],
    ['jtitle=Nothing&title=Tides+studies', 'meant=Tides studies: x'],
    ['title=Series', 'rft_val_fmt=info:ofi/fmt:kev:mtx:book|btitle=Series|jtitle=|issn=2940-0011'],
    // an online ISSN alone stays the first one, and the ISBN of a DOI is sent once
    ['rft.eissn=2908-0142', 'issn=2908-0142|eissn=2901-0012+2908-0142|x.issn=2908-0142|x.eissn=2901-0012'],
    ['id=doi:10.1017/CBO9781234560102.004', 'isbn=9781234560102|x.isbn=9781234560102|further=']
];
async function testIndex(expect) {
    const read = (q, expected) => expected.split('|').map((pair) => pair.slice(0, pair.indexOf('='))).map((name) => {
        if (name === 'known') return 'known=' + q.knowledge;
        if (name === 'titles') return 'titles=' + q.titles.map((it) => it.title).join(' ');
        if (name === 'further') return 'further=' + q.further.join(' ');
        if (name === 'meant') return 'meant=' + q.maybe.map((it) => it.title).join(' ');
        return valuesOf(q, name + '=');
    }).join('|');
    for (let i = 0; i < COMPLETED.length; i++) {
        const q = await completion.queryOf(requestWith(COMPLETED[i][0], TITLES), '/_menu');
        expect('by the index, ' + COMPLETED[i][0], read(q, COMPLETED[i][1]), COMPLETED[i][1]);
    }
    const none = await completion.queryOf(requestWith('jtitle=Tides', null), '/_menu');
    expect('no index', none.knowledge, 'unlisted');
}

// A request, where it is read, and what the program is asked: once more if something is found.
const READ = [
    ['', '/_menu', ''], ['rft_val_fmt=x&rft.volume=3', '/_menu', '/_menu?rft_val_fmt=x&rft.volume=3'],
    ['a=', '/_menu', '/_menu?a='], ['issn=2901-0012&eissn=2908-0142&jtitle=Tides', '/_menu',
        '/_menu?issn=2901-0012&eissn=2908-0142&jtitle=Tides'],
    ['rft_val_fmt=x&rft.issn=2901-0012&rft.jtitle=A', '/_menu', '/_menu?rft_val_fmt=x&rft.issn=2901-0012&rft.jtitle=A'
        + ' /_menu?rft.eissn=2908-0142&rft_val_fmt=x&rft.issn=2901-0012&rft.jtitle=A'],
    ['rft_val_fmt=x&rft.isbn=9780804429573&rft.btitle=A', '/_menu', '/_menu?rft_val_fmt=x&rft.isbn=9780804429573'
        + '&rft.btitle=A /_menu/080442957X?rft_val_fmt=x&rft.isbn=9780804429573&rft.btitle=A'],
    ['rft_val_fmt=x&rft.isbn=9780804429573&rft.btitle=A', '/_read', '/_read?rft_val_fmt=x&rft.isbn=9780804429573'
        + '&rft.btitle=A'],
    ['rft_val_fmt=x&rft.jtitle=Three', '/_read', '/_read?rft_val_fmt=x&rft.jtitle=Three'
        + ' /_read?rft.issn=2915-0016&rft.eissn=2915-0024&rft_val_fmt=x&rft.jtitle=Three']
];
async function testRead(expect) {
    for (let i = 0; i < READ.length; i++) {
        const r = requestWith(READ[i][0], TITLES);
        await completion.queryOf(r, READ[i][1]);
        expect('what the program is asked for ' + READ[i][0] + ' at ' + READ[i][1], r.places.join(' '), READ[i][2]);
    }
}

// The page of a title is offered if nginx says that no new version is being put in use.
async function testOffers(expect) {
    const site = languages.siteIn({}, '');
    const statuses = [204, 200, 404, 503];
    for (let i = 0; i < statuses.length; i++) {
        const title = { kind: 'j', rows: ['z 0'], pages: [{ target: 'z', url: 'https://z/' }] };
        const q = Object.assign(known.queryOf('issn=2901-0012'), { titles: [title] });
        const r = { places: [], subrequest: function (place) {
            this.places.push(place);
            return Promise.resolve({ status: statuses[i] });
        } };
        const found = await titlePages.offeredTo(r, q, [{ links: [] }], site);
        expect('pages of a title after ' + statuses[i], r.places.join() + ' ' + found.length, '/_before ' + (i === 0
            ? 1 : 0));
    }
}

// The command njs has no timers, and no service here is late.
async function run(expect) {
    const before = [globalThis.setTimeout, globalThis.clearTimeout];
    globalThis.setTimeout = () => 1;
    globalThis.clearTimeout = () => undefined;
    await testServices(expect);
    await testIndex(expect);
    await testRead(expect);
    await testOffers(expect);
    globalThis.setTimeout = before[0];
    globalThis.clearTimeout = before[1];
}

export default { run };
