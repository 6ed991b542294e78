// The texts of a page in the reader's language, and the labels of targets. Each is looked up once for a page. text.js
// says in which njs it runs.
import languages from './languages.js';
import plurals from './plurals.js';
import texts from './text.js';

const own = texts.own;

function word(site, name) {
    const text = site.known[name];
    return text !== undefined ? text : (site.known[name] = languages.wordOf(name, site));
}
// A word with a value, or several in their order, in the places of `{}`.
function filled(site, name, values) {
    const parts = word(site, name).split('{}');
    if (!Array.isArray(values)) return parts.join(values);
    return parts.map((part, i) => i === 0 ? part : values[Math.min(i, values.length) - 1] + part).join('');
}
// A word with a count, in the plural form that the reader's language has for it: `single` for 1, `NAME.few` and so on
// for a category that the language has a text for, and else `name`.
function counted(site, name, single, count) {
    if (count === 1) return filled(site, single, '1');
    const form = `${name}.${plurals.categoryOf(site.language, count)}`;
    if (site.known[form] === undefined) site.known[form] = languages.ownWordOf(form, site);
    return filled(site, site.known[form] === '' ? name : form, numberOf(site, count));
}
// A number as the reader's language groups its digits, which the words `thousand` and `tenThousand` show.
function numberOf(site, number) {
    const digits = String(number);
    if (digits.length < 4) return digits;
    const sample = digits.length === 4 ? word(site, 'thousand') : word(site, 'tenThousand');
    const mark = sample.slice(digits.length === 4 ? 1 : 2, -3);
    const first = digits.length % 3;
    const groups = first === 0 ? [] : [digits.slice(0, first)];
    for (let i = first; i < digits.length; i += 3) groups.push(digits.slice(i, i + 3));
    return groups.join(mark);
}
// Several texts after each other, and a text after what it is of, with the marks that the reader's language puts
// between them.
function markOf(site, name, usual) {
    const known = site.marks[name];
    return known !== undefined ? known : (site.marks[name] = word(site, name).split('{}')[1] || usual);
}
function separatorOf(site) { return markOf(site, 'list', ', '); }
function listed(site, parts) { return parts.length === 1 ? parts[0] : parts.join(separatorOf(site)); }
function labelled(site, label, text) { return label + markOf(site, 'labelled', ': ') + text; }
function labelOf(site, target) {
    const label = site.labels[target];
    if (label !== undefined) return label;
    const text = languages.textOf(own(own(site.targets, target), 'label'), site) || own(headOf(site, target), 'label');
    return (site.labels[target] = text || target);
}
// What the head of its rules says of a target that targets.json does not name, if heads.js has read it.
function headOf(site, target) { return own(site.heads, target); }

export default {
    word, filled, counted, numberOf, separatorOf, listed, labelled, labelOf, headOf,
    textAt: languages.textAt, inLanguage: languages.textOf
};
