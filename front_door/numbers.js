// ISSNs and ISBNs in the values of a request. text.js says in which njs it runs.
import texts from './text.js';

const is = texts.is;

const DASHES = /[\u00ad\u2010-\u2015\u2043\u2212\ufe58\ufe63\uff0d]/g;
const SPACES = /[\u00a0\u2000-\u200b\u202f\u205f\u3000\ufeff]/g;
const MOST_CHARACTERS = 200;
// The beginning of a value in which dashes and spaces of all kinds, and line ends, are those of ASCII.
function plain(value, most) {
    const text = value.slice(0, most || MOST_CHARACTERS);
    if (is(/^[ -~]*$/, text)) return text.trim();
    const spaced = texts.replaced(texts.replaced(text, DASHES, '-'), SPACES, ' ');
    return (is(/[\r\n\t]/, spaced) ? oneLine(spaced) : spaced).trim();
}
const MOST_LINES = 12;
// A number that is divided at a hyphen continues in the next line.
function oneLine(text) {
    let line = '';
    text.split(/[\r\n\t]/, MOST_LINES).map((it) => it.trim()).filter(Boolean).forEach((it) => {
        line += line === '' || line.charAt(line.length - 1) === '-' ? it : ' ' + it;
    });
    return line;
}

// A count, a page or a date in ASCII: the digits of Arabic, Persian and Devanagari, and all of full width, are its own
// digits, and quotes do not belong to it.
const QUOTES = /["\u00ab\u00bb\u200c-\u200f\u2018-\u201f\u202a-\u202e\u2039\u203a\u2066-\u2069]/g;
const FOREIGN = /[\u0660-\u0669\u06f0-\u06f9\u0966-\u096f\uff01-\uff5e]/g;
function inAscii(char) {
    const code = char.charCodeAt(0);
    if (code > 0xff00) return String.fromCharCode(code - 0xfee0);
    return String((code & 15) - (code > 0x900 ? 6 : 0));
}
function ascii(value, most) {
    const text = plain(value, most);
    if (is(/^[^"\x7f-\uffff]*$/, text)) return text.includes('  ') ? texts.clean(text) : text;
    return texts.clean(texts.replaced(texts.replaced(text, QUOTES, ''), FOREIGN, inAscii));
}
// `form` finds a number in a text, and `exact` matches one as the standards write it.
const ISSN = { exact: /^\d{4}-\d{3}[\dX]$/, write: issn, form: /(?<![\d-])\d{4}[- ]?\d{3}[\dX](?![\d-])/gi };
const ISBN = {
    exact: /^97[89]\d{10}$/, write: isbn13,
    form: /(?<!\d)(?:97[89](?:[- ]?\d){10}|\d(?:[- ]?\d){8}[- ]?[\dX])(?!\d)/gi
};
const NO_ISSN = '0000-0000';  // what some sources send for none
function issn(digits) { return digits.slice(0, 4) + '-' + digits.slice(4); }

function isbn13(digits) {
    if (digits.length === 13) return digits;
    const body = '978' + digits.slice(0, 9);
    let sum = 0;
    for (let i = 0; i < 12; i++) sum += Number(body.charAt(i)) * (i % 2 === 0 ? 1 : 3);
    return body + (10 - sum % 10) % 10;
}

// The first `count` different numbers of a kind in texts, written as the standards do.
function numbersIn(values, kind, count) {
    const found = [];
    const put = (number) => {
        if (number !== NO_ISSN && found.length < count && !found.includes(number)) found.push(number);
    };
    values.forEach((value) => {
        if (is(kind.exact, value)) return put(value);
        const text = ascii(value);
        if (is(kind.form, text)) texts.padded(text).match(kind.form).forEach((it) => {
            put(kind.write(it.split('-').join('').split(' ').join('').toUpperCase()));
        });
    });
    return found;
}
// A number of an index or a service as the standards write it.
function standard(number) { return number.length === 10 ? isbn13(number) : number; }
function isIssn(number) { return number.length === 9; }

export default { ISSN, ISBN, numbersIn, standard, isIssn };
