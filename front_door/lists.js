// The pages of the library's journals and books: by letter, and those that a search finds. text.js says in which njs
// it runs.
import coverage from './coverage.js';
import index from './index.js';
import numbers from './numbers.js';
import pages from './pages.js';
import texts from './text.js';
import words from './words.js';

const escape = texts.escape;
const word = words.word;
const filled = words.filled;
const PATHS = { j: '/journals', b: '/books' };
const NAMES = { j: 'journals', b: 'books' };
const MOST_NUMBERS = 4;
const MOST_ROWS = 12;
const MOST_TITLES = index.PAGE;

// The link of a title: its number, which comes first to count before others, and the request's own pairs.
function titleAddress(it, args, site) {
    const number = it.numbers[0];
    const pair = (numbers.isIssn(number) ? 'rft.issn=' : 'rft.isbn=') + encodeURIComponent(numbers.standard(number));
    if (!args) return pages.addressOf('/find', `rft.genre=${it.kind === 'b' ? 'book' : 'journal'}&${pair}`, site);
    const isOld = !args.includes('&') && args.includes(';');  // as the program reads it
    return pages.addressOf('/find', pair + (isOld ? ';' : '&') + args, site);
}
// What targets have of a title, of all rows or of those for which `isShown` is true.
function rowsHtml(it, site, isShown) {
    const known = Object.create(null);
    const rows = it.rows.map(index.rowOf).filter(isShown || Boolean).map((row) => {
        const text = coverage.textOf(row, site);
        const label = words.labelOf(site, row.target);
        const name = pages.isolated(label, site);
        return text ? words.labelled(site, name, escape(text)) : name;
    }).filter((text) => {
        const isNew = known[text] !== true;
        known[text] = true;
        return isNew;
    });
    return rows.length === 0 ? '' : `<ul><li>${rows.slice(0, MOST_ROWS).join('</li><li>')}</li></ul>`;
}
function numberText(number, site) { return filled(site, numbers.isIssn(number) ? 'issn' : 'isbn', number); }
function titleHtml(it, site, args) {
    const listed = words.listed(site, it.standard.slice(0, MOST_NUMBERS).map((number) => {
        return pages.isolatedText(numberText(number, site), site);
    }));
    const anchor = pages.anchorOf(titleAddress(it, args, site), pages.isolated(it.title, site));
    return `<li>${anchor}<p>${escape(listed)}</p>${rowsHtml(it, site)}</li>`;
}
function titlesHtml(titles, site) {
    if (titles.length === 0) return [];
    return ['<ul class="titles">'].concat(titles.map((it) => titleHtml(it, site, '')), ['</ul>']);
}
function paragraph(text) { return `<p>${escape(text)}</p>`; }
function countText(count, site) { return words.counted(site, 'titles', 'oneTitle', count); }

function searchHtml(kind, text, site) {
    const language = site.chosen ? `<input type="hidden" name="lang" value="${site.chosen}">` : '';
    const label = `<label for="q">${escape(word(site, 'searchField'))}</label>`;
    const direction = site.dir === 'rtl' ? ' dir="auto"' : '';
    const input = `<input id="q" name="q" maxlength="200" value="${escape(texts.clean(text))}" inputmode="search"${
        direction} autocapitalize="none" spellcheck="false">`;
    return [`<form action="${PATHS[kind]}" method="get" class="search">${language}`,
        `<p>${label} ${input} <button>${escape(word(site, 'search'))}</button></p>`, '</form>'];
}
// A row of links with a name for those who do not see it.
function navigation(name, items, site) {
    if (items.length === 0) return [];
    return [`<nav aria-label="${escape(word(site, name))}">`, '<ul class="letters">'].concat(items,
        ['</ul>', '</nav>']);
}
// A link of such a row. What is shown has none; `current` says what it is, as in aria-current.
function itemHtml(address, name, current) {
    const text = current ? `<strong aria-current="${current}">${escape(name)}</strong>` : pages.anchor(address, name);
    return `<li>${text}</li>`;
}
// The links to the pages before and after one of several.
function nearHtml(page, count, addressOf, site) {
    const near = [[page - 1, 'before'], [page + 1, 'after']].filter((one) => one[0] >= 1 && one[0] <= count);
    return navigation('nearPages', near.map((one) => itemHtml(addressOf(one[0]), word(site, one[1]))), site);
}
// The pages that a row of links names: of ten parts the first page each; of the part with the shown page, the first
// ones of its five parts; and so on, down to the pages beside it. So any of 200 pages is at most three links away.
function namedPages(page, first, last, parts) {
    const step = Math.ceil((last - first + 1) / parts);
    let found = [];
    for (let number = first; number <= last; number += step) {
        const end = Math.min(number + step - 1, last);
        const isAround = step > 1 && number <= page && page <= end;
        found = found.concat(isAround ? namedPages(page, number, end, 5) : [number]);
    }
    return found;
}
// The pages of a letter by the beginning of each, or by number if the index has no beginnings.
function pagesHtml(it, page, addressOf, site) {
    if (it.pages === 1) return [];
    const starts = it.starts.split(';');
    return navigation('letterPages', namedPages(page, 1, it.pages, 10).map((number) => {
        const start = starts[number - 1] || String(number);
        const name = start.charAt(0).toUpperCase() + start.slice(1);
        return itemHtml(addressOf(number), name, number === page ? 'page' : '');
    }), site);
}
function letterPath(kind, letter, page) { return `${PATHS[kind]}/${encodeURIComponent(letter)}/${page}`; }
function letterName(letter, site) { return letter === 'other' ? word(site, 'otherLetters') : letter.toUpperCase(); }
// The letters as links, the one that is shown without.
function lettersHtml(kind, found, shown, site) {
    return navigation('letters', found.letters.map((it) => {
        const address = pages.addressOf(letterPath(kind, it.letter, 1), '', site);
        return itemHtml(address, letterName(it.letter, site), it.letter === shown ? 'true' : '');
    }), site);
}
function documentOf(kind, title, parts, site) {
    const body = parts.reduce((all, part) => all.concat(part), []);
    return pages.documentOf(title, word(site, NAMES[kind]), body, site);
}

// The first page of a kind: its search and its letters.
function startOf(kind, found, site) {
    const other = kind === 'j' ? 'b' : 'j';
    const link = pages.anchor(pages.addressOf(PATHS[other], '', site), word(site, NAMES[other]));
    return documentOf(kind, word(site, NAMES[kind]), [searchHtml(kind, '', site), lettersHtml(kind, found, '', site),
        [paragraph(countText(found.count, site)), `<p>${link}</p>`]], site);
}
// A page of a letter, and the links to the pages around it.
function letterOf(kind, found, it, page, titles, site) {
    const addressOf = (number) => pages.addressOf(letterPath(kind, it.letter, number), '', site);
    const name = letterName(it.letter, site);
    const place = filled(site, 'pageOf', [page, it.pages].map((number) => words.numberOf(site, number)));
    return documentOf(kind, words.labelled(site, word(site, NAMES[kind]), name), [searchHtml(kind, '', site),
        lettersHtml(kind, found, it.letter, site), [`<h2>${escape(name)}</h2>`],
        pagesHtml(it, page, addressOf, site), titlesHtml(titles, site), [paragraph(place)],
        nearHtml(page, it.pages, addressOf, site)], site);
}
// What a search has found; `null` if its text has no word.
function searchOf(kind, text, found, site) {
    const other = kind === 'j' ? 'b' : 'j';
    const args = 'q=' + encodeURIComponent(text);
    const again = pages.addressOf(PATHS[other], args, site);
    const link = pages.anchor(again, filled(site, 'searchIn', word(site, NAMES[other])));
    const title = words.labelled(site, word(site, NAMES[kind]), texts.clean(text).slice(0, 100));
    const near = found === null ? [] : nearHtml(found.page, found.pages, (page) => {
        return pages.addressOf(PATHS[kind], page === 1 ? args : `${args}&page=${page}`, site);
    }, site);
    return documentOf(kind, title, [searchHtml(kind, text, site),
        [`<p class="nothing" role="status">${escape(foundText(found, site))}</p>`],
        titlesHtml(found === null ? [] : found.titles, site), near, [`<p>${link}</p>`]], site);
}
// How many titles a search has found, and which of them its page has.
function foundText(found, site) {
    if (found === null) return word(site, 'noWords');
    const count = found.count;
    if (count === 0) return word(site, found.isMore ? 'tooFrequent' : 'noTitle');
    if (found.pages === 1) {
        return found.isMore ? filled(site, 'moreThan', words.numberOf(site, count)) : countText(count, site);
    }
    const last = (found.page - 1) * MOST_TITLES + found.titles.length;
    const first = last - found.titles.length + 1;
    const shown = found.page === 1 ? [last] : [first, last];
    const name = (found.page === 1 ? 'firstTitles' : 'titlesBetween') + (found.isMore ? 'OfMore' : '');
    const isWhole = !found.isMore && found.pages * MOST_TITLES >= count;
    const text = filled(site, name, shown.concat([count]).map((number) => words.numberOf(site, number)));
    return isWhole ? text : `${text} ${word(site, 'addWord')}`;
}
// The page of a search that an address names, which is the first one unless it is a number.
function pageIn(text) { return texts.is(/^[1-9]\d{0,4}$/, text) ? Number(text) : 1; }

export default { titleHtml, rowsHtml, startOf, letterOf, searchOf, pageIn };
