// Journals by an abbreviated title: its words are the beginnings of those of a title, in their order and equal in
// number, or shortened within (`Natl`). The update makes the same words and keys, by its file short_titles.py, where
// the rules have their comments. text.js says in which njs it runs.
import index from './index.js';
import texts from './text.js';
import titles from './titles.js';

const is = texts.is;
const NONE = [];
const MOST_OF_A_PUBLISHER = 60;     // characters: the index has no more
const YEAR = /^[12]\d{3}(?!\d)/;
const BRACKETS = /[(\[][^()\[\]]*[)\]]/g;
const APOSTROPHES = ["'", '`', '\u2018', '\u2019', '\xb4'];
const STOP = ' a an and the of in on for to at by with from as or der die das des dem den und fur fuer im zur zum von'
    + ' aus mit de du la le les l d et en sur pour au aux un une el los las y del al con por para e da do dos das di'
    + ' della dello dei degli delle il lo gli i van voor het te og av om och pa s ';
const WHOLE = { j: 'journal', q: 'quarterly', z: 'zeitschrift' };
const LAST = ['usa', 'u s a', 'of the united states of america', 'united states of america'];

// The words of a title by which it is found; none if there are fewer than two.
function wordsOf(title) {
    let text = texts.replaced(titles.plain(title.slice(0, titles.MOST_CHARACTERS)), BRACKETS, ' ');
    APOSTROPHES.forEach((it) => { text = text.split(it).join(' '); });
    let words = titles.wordsOf(text);
    LAST.map((it) => it.split(' ')).forEach((last) => {
        const start = words.length - last.length;
        if (start >= 0 && last.every((word, i) => words[start + i] === word)) words = words.slice(0, start);
    });
    const kept = words.filter((word, i) => i === words.length - 1 || !isStop(words, i));
    return kept.length > 1 ? kept : NONE;
}
function isStop(words, i) {
    return STOP.includes(' ' + words[i] + ' ') && !(words[i] === 'y' && words[i - 1] === 'n');
}
function initialsOf(words) {
    const last = words[words.length - 1];
    return words.map((word) => word.charAt(0)).join('') + ' ' + (texts.own(WHOLE, last) || last).slice(0, 2);
}

// How a word fits one of a title: 2 as its beginning, 1 as what is left of it without some letters, 0 not at all. A
// short word with a vowel, such as `med`, is never the latter. One letter fits any word, but `j` a journal alone.
const ALONE = { j: ['journ', 'jorn'], z: ['zeits'] };
function fit(word, whole) {
    const forms = word.length === 1 && whole !== word ? texts.own(ALONE, word) : undefined;
    if (whole.startsWith(word)) return forms === undefined || forms.some((it) => whole.startsWith(it)) ? 2 : 0;
    if (word.length < 3 || (word.length < 4 && is(/[aeiouy]/, word))) return 0;
    let at = -1;
    for (let i = 0; i < word.length; i++) {
        at = whole.indexOf(word.charAt(i), at + 1);
        if (at < 0 || (i === 0 && at > 0)) return 0;
    }
    return 1;
}
// The least fit of all words.
function fitOf(words, others) {
    if (words.length !== others.length) return 0;
    let least = 2;
    for (let i = 0; least > 0 && i < words.length; i++) least = Math.min(least, fit(words[i], others[i]));
    return least;
}

// Whether a request agrees with a title by more than its name: by the year, the publisher, or the DOI.
function agrees(q, cells) {
    const years = cells[5].split(' ');
    const date = q.first('rft.date');
    const year = is(YEAR, date) ? date.slice(0, 4) : '';
    const isWithin = year !== '' && (years[0] === '-' || years[0] <= year) && (years[1] === '-' || year <= years[1]);
    const publisher = titles.keyOf(q.first('rft.pub').slice(0, MOST_OF_A_PUBLISHER));
    const prefix = q.first('x.doi').split('/')[0];
    const isKnown = (sign) => sign === publisher || sign === prefix;
    return (isWithin && years[0] !== '-') || (year === '' || isWithin) && cells.slice(6).some(isKnown);
}

// The shortest title of a request that has words to compare.
function sought(asked) {
    const found = asked.slice(0, 4).map((title) => ({ title, words: wordsOf(title) }))
        .filter((it) => it.words.length > 0);
    return found.length === 0 ? null : found.reduce((a, b) => b.title.length < a.title.length ? b : a);
}
// The titles that one of those of a request may abbreviate, from one file of the index, and whether there is one alone
// that is certain.
async function titlesOf(r, q, asked) {
    const it = sought(asked);
    if (it === null) return { titles: NONE, isCertain: false };
    const lines = await index.cellsOf(r, '^' + initialsOf(it.words));
    const fits = lines.map((cells) => fitOf(it.words, cells[4].split(' ')));
    const best = fits.includes(2) ? 2 : 1;
    const found = lines.filter((cells, i) => fits[i] === best);
    const list = index.distinct(found.map((cells) => index.titleOf(cells[1], cells.slice(2, 4))));
    const isShort = found.length > 0 && it.words.join(' ') !== found[0][4];
    const isAlone = list.length === 1 && lines.length < index.MOST_LINES;
    return { titles: list, isCertain: isAlone && isShort && agrees(q, found[0]) };
}

export default { wordsOf, initialsOf, fitOf, titlesOf };
