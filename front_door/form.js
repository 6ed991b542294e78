// The form in which a reader fills in a citation. It is a GET to /find, or to /why for staff, without script. text.js
// says in which njs it runs.
import pages from './pages.js';
import texts from './text.js';
import words from './words.js';

const escape = texts.escape;
const word = words.word;
// How keyboards and spelling checkers treat a field: only a title has words to be checked, and only a year is digits
// alone.
const WORDS = 'autocapitalize="sentences" spellcheck="true"';
const NAMES = 'autocapitalize="words" spellcheck="false"';
const DIGITS = 'inputmode="numeric" spellcheck="false"';
const PART = 'autocapitalize="none" spellcheck="false"';
const ISXN = 'autocapitalize="characters" spellcheck="false"';
const ADDRESS = 'inputmode="url" autocapitalize="none" spellcheck="false"';
// The name of each field in OpenURL 0.1, or `number` and `identifier`, and the keys that fill it in.
const FIELDS = [
    ['title', 'rft.jtitle rft.btitle rft.title rft.stitle', WORDS], ['atitle', 'rft.atitle', WORDS],
    ['au', 'rft.au rft.aulast', NAMES], ['date', 'rft.date', DIGITS], ['volume', 'rft.volume', PART],
    ['issue', 'rft.issue', PART], ['spage', 'rft.spage rft.pages', PART], ['number', 'x.issn x.isbn', ISXN],
    ['identifier', 'x.doi x.pmid', ADDRESS]
];

function fieldHtml(q, field, site) {
    const value = texts.clean(field[1].split(' ').map((key) => q.first(key)).find(Boolean) || '').slice(0, 300);
    const name = field[0];
    const label = `<label for="${name}">${escape(word(site, name + 'Field'))}</label>`;
    const direction = site.dir !== 'rtl' ? '' : ` dir="${field[2] === WORDS || field[2] === NAMES ? 'auto' : 'ltr'}"`;
    return `<p>${label} <input id="${name}" name="${name}" maxlength="300" value="${escape(value)}" ${
        field[2]}${direction}></p>`;
}
// The form alone, filled in with what is known. It leads to the reader's page, or to another address.
function formHtml(q, site, action) {
    const genre = texts.clean(q.first('rft.genre')).slice(0, 30);
    const hidden = [['genre', genre], ['lang', site.chosen || '']].filter((it) => it[1] !== '')
        .map((it) => `<input type="hidden" name="${it[0]}" value="${escape(it[1])}">`);
    return [`<form action="${action || '/find'}" method="get" class="citation">`, hidden.join('')].filter(Boolean)
        .concat(FIELDS.map((field) => fieldHtml(q, field, site)),
            [`<p><button>${escape(word(site, 'search'))}</button></p>`, '</form>']).join('\n');
}
// The page of the form, with what comes after it.
function formOf(q, site, after) {
    const heading = word(site, 'form');
    const note = `<p>${escape(word(site, 'formNote'))}</p>`;
    return pages.documentOf(heading, heading, [note, formHtml(q, site), after].filter(Boolean), site);
}

export default { formHtml, formOf };
