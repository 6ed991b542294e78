// What a target has of a title, as text and as data, from the row of its table: the dates as the provider gives them.
// text.js says in which njs it runs.
import texts from './text.js';
import words from './words.js';

const is = texts.is;
const PART = /^([RP])(\d{1,5})([YMD])$/;
const UNITS = { Y: 'Year', M: 'Month', D: 'Day' };

function given(cell) { return cell === undefined || cell === '-' ? '' : cell; }
function embargoText(part, site) {
    const found = PART.exec(part);
    if (found === null) return '';
    const single = (found[1] === 'P' ? 'without' : 'only') + UNITS[found[3]];
    return words.counted(site, single + 's', single, Number(found[2]));
}

// For example `since 1995, without the last 12 months`; '' if nothing is known.
function textOf(row, site) {
    const first = given(row.first).slice(0, 4);
    const last = given(row.last).slice(0, 4);
    const years = first && last ? (first === last ? first : words.filled(site, 'between', [first, last]))
        : first ? words.filled(site, 'since', first) : last ? words.filled(site, 'until', last) : '';
    const embargo = given(row.embargo);
    if (embargo === '') return years;
    const parts = embargo.split(',').filter((part) => is(PART, part));
    return words.listed(site, [years].concat(parts.map((part) => embargoText(part, site))).filter(Boolean));
}
// The same as `from`, `to` and `embargo`; undefined if nothing is known.
function dataOf(row) {
    const data = {};
    if (given(row.first) !== '') data.from = row.first;
    if (given(row.last) !== '') data.to = row.last;
    if (given(row.embargo) !== '') data.embargo = row.embargo;
    return data.from || data.to || data.embargo ? data : undefined;
}

// Whether a row may have a year; every row may if it is ''.
function mayHave(row, year) {
    const first = given(row.first).slice(0, 4);
    const last = given(row.last).slice(0, 4);
    return year === '' || ((first === '' || first <= year) && (last === '' || year <= last));
}

export default { mayHave, textOf, dataOf };
