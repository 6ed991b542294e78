// The key of a title, by which two ways to write it are compared. The update makes the same keys for the index, by its
// file titles.py, where the rules have their comments; fold.json, the table that both need, is made by that file too.
import texts from './text.js';

const is = texts.is;
const own = texts.own;
const replaced = texts.replaced;
const MOST_CHARACTERS = 500;
const TAG = /<\/?[A-Za-z][A-Za-z0-9:-]{0,19}(?: [^<>]{0,200})?\/?>/g;
const ENTITY = /&(?:#([0-9]{1,7})|#[xX]([0-9A-Fa-f]{1,6})|([A-Za-z][A-Za-z0-9]{1,9}));/g;
const SPACES = /[\x00-\x20\x7f-\xa0\u1680\u2000-\u200a\u2028\u2029\u202f\u205f\u3000]+/g;
const APOSTROPHES = "'`\\xb4\\u02b9-\\u02bd\\u2018\\u2019\\u201b\\u2032\\uff07";
const REMOVED = texts.lazy('[' + APOSTROPHES
    + '\\xad\\u0300-\\u036f\\u200b-\\u200f\\u202a-\\u202e\\u2060-\\u2064\\ufeff]+', 'g');
const BETWEEN = '\\x00-/:-@\\[-`{-\\xbf\\xd7\\xf7\\u02c2-\\u02df\\u2000-\\u206f\\u207a-\\u207e\\u208a-\\u208e'
    + '\\u20a0-\\u20cf\\u2100-\\u214f\\u2190-\\u2bff\\u2e00-\\u2e7f\\u3000-\\u3004\\u3008-\\u303f\\u30fb'
    + '\\uff00-\\uff0f\\uff1a-\\uff20\\uff3b-\\uff40\\uff5b-\\uff65\\ufffd';
const SEPARATORS = texts.lazy('[' + BETWEEN + ']+', 'g');
const LEADING = texts.lazy('^[' + BETWEEN + APOSTROPHES + ']+');
const ELIDED = texts.lazy('^(?:gl|un|l)[' + APOSTROPHES + '] *(?=[aeiouhy])');
const ARTICLES = ' the a an der die das den dem des ein eine einen einem einer eines le la les un une el lo los las '
    + 'una unos unas il i gli uno ';
const LAST_ARTICLES = ' the der die das le la les el los las il gli ';
const END = / *(?:[:=].*| [-\/\u2013\u2014] .*|[(\[][^()\[\]]*[)\]] *)$/;

function tableOf(name) { return typeof fold === 'undefined' ? {} : fold[name]; }


function character(entity, decimal, hexadecimal, name) {
    if (name) return own(tableOf('entities'), name) || own(tableOf('entities'), name.toLowerCase()) || entity;
    const code = decimal ? parseInt(decimal, 10) : parseInt(hexadecimal, 16);
    return (code > 0 && code < 0xd800) || (code > 0xdfff && code < 0x110000) ? String.fromCodePoint(code) : entity;
}

// A title without markup; some sources escape it twice.
function plain(title) {
    let text = title;
    if (text.includes('&')) text = replaced(replaced(text, ENTITY, character), ENTITY, character);
    if (text.includes('<')) text = replaced(text, TAG, '');
    return replaced(text, SPACES, ' ').trim();
}

function folded(text) {
    const letters = tableOf('letters');
    return replaced(text, /[\x80-\uffff]/g, (char) => own(letters, char) || char);
}
// A title in ASCII needs less of these forms, and the whole ones are slow to make.
const ASCII_LEADING = /^[\x00-/:-@\[-`{-\x7f]+/;
const ASCII_SEPARATORS = /[\x00-/:-@\[-`{-\x7f]+/g;
const ASCII_ELIDED = /^(?:gl|un|l)['`] *(?=[aeiouhy])/;
function wordsIn(text, isAscii) {
    const joined = isAscii ? text.split("'").join('').split('`').join('') : replaced(text, REMOVED(), '');
    return replaced(joined, isAscii ? ASCII_SEPARATORS : SEPARATORS(), ' ').split(' ').filter(Boolean);
}

// The words of a title, small, without marks, apostrophes, punctuation and its leading article.
function wordsOf(title) {
    let text = plain(title.slice(0, MOST_CHARACTERS)).toLowerCase().split('&').join(' and ');
    const isAscii = !is(/[\x80-\uffff]/, text);
    if (!isAscii) text = folded(text);
    if (text.lastIndexOf(',') > 0) text = withoutLastArticle(text, isAscii);
    text = text.replace(isAscii ? ASCII_LEADING : LEADING(), '');
    const elided = isAscii ? ASCII_ELIDED : ELIDED();
    if (is(elided, text)) return wordsIn(text.replace(elided, ''), isAscii);
    const words = wordsIn(text, isAscii);
    return words.length > 1 && ARTICLES.includes(' ' + words[0] + ' ') ? words.slice(1) : words;
}
// Without an article that a catalogue has put at the end of the title, after a comma.
function withoutLastArticle(text, isAscii) {
    const at = text.lastIndexOf(',');
    const words = wordsIn(text.slice(at + 1), isAscii);
    return words.length === 1 && LAST_ARTICLES.includes(' ' + words[0] + ' ') ? text.slice(0, at) : text;
}
function keyOf(title) { return wordsOf(title).join(' '); }

// A title whose umlauts are written as two letters.
const UMLAUTS = '\xe4 ae,\xf6 oe,\xfc ue,a\u0308 ae,o\u0308 oe,u\u0308 ue';
function writtenOut(title) {
    let text = plain(title.slice(0, MOST_CHARACTERS)).toLowerCase();
    UMLAUTS.split(',').map((it) => it.split(' ')).forEach((it) => { text = text.split(it[0]).join(it[1]); });
    return text;
}

// A title without its subtitle, or without brackets at its end.
function shorter(title) { return plain(title.slice(0, MOST_CHARACTERS)).replace(END, ''); }

export default { MOST_CHARACTERS, plain, wordsOf, keyOf, shorter, writtenOut };
