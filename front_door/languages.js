// The language of the reader's page, and its texts. An operator edits nothing here: the texts of a language are in
// words/, and targets.json says which languages are offered.
//
// Each file of words is an object that openlink.conf loads: words/pt-BR.json is `words_pt_BR`. text.js says in which
// njs it runs.
import texts from './text.js';

const MOST_BYTES = 500;  // of a header; browsers send less than 200
const MOST_RANGES = 20;
const MOST_LANGUAGES = 100;
const TAG = /^[a-z]{2,8}(?:-[a-z0-9]{1,8})*$/i;
const RANGE = /^(\*|[a-z]{1,8}(?:-[a-z0-9]{1,8})*)\s*(?:;\s*q=(0(?:\.\d{0,3})?|1(?:\.0{0,3})?)\s*)?$/i;
// Languages, by the script that CLDR gives them, and scripts that are read from right to left.
const LANGUAGES_RTL = ' ar arc azb ckb dv fa glk he ks lrc mzn nqo pnb prs ps sd sdh skr syr ug ur yi ';
const SCRIPTS_RTL = ' adlm arab hebr nkoo rohg syrc thaa ';

const own = texts.own;
const is = texts.is;
const isObject = texts.isObject;

// ---------------------------------------------------------------- Accept-Language
// A tag in small letters, with the script of Chinese that follows from a region: browsers send `zh-CN` and `zh-TW`,
// where files have `zh-Hans` and `zh-Hant`.
const SCRIPTS = { cn: 'hans', my: 'hans', sg: 'hans', hk: 'hant', mo: 'hant', tw: 'hant' };
function small(tag) {
    const lower = tag.toLowerCase();
    const script = lower.startsWith('zh-') ? own(SCRIPTS, lower.slice(3)) : undefined;
    return script === undefined ? lower : `zh-${script}-${lower.slice(3)}`;
}

// The ranges of a header in their order, each with its quality. Those of another form are left out, and the rest of a
// header that no browser sends.
function rangesOf(header) {
    const pieces = header.slice(0, MOST_BYTES).split(',');
    if (header.length > MOST_BYTES) pieces.pop();
    const ranges = pieces.map((piece) => piece.trim()).filter(Boolean).slice(0, MOST_RANGES);
    return ranges.filter((text) => is(RANGE, text)).map((text) => {
        const found = RANGE.exec(text);
        return { tag: small(found[1]), quality: found[2] === undefined ? 1 : Number(found[2]) };
    });
}

// Whether a tag such as `de` is another one or the beginning of it, such as `de-AT`. In small letters.
function covers(tag, other) { return (other + '-').startsWith(tag + '-'); }

// The language that a range names: itself, else one that the range covers (`pt-BR` for `pt`), else the longest one that
// covers the range (`de` for `de-AT`).
function named(range, languages) {
    const exact = languages.filter((language) => small(language) === range);
    const within = languages.filter((language) => covers(range, small(language)));
    const around = languages.filter((language) => covers(small(language), range));
    return exact[0] || within[0] || around.reduce((a, b) => a && a.length > b.length ? a : b, undefined);
}

// The language of `languages` that an Accept-Language header prefers (RFC 9110, section 12.5.4): the first of those
// with the same quality, and the first of all if the header prefers none. `*` matches every language that no other
// range matches. A quality of 0 rejects a language.
function chosen(header, languages) {
    if (header === '') return languages[0];
    return preferred(header, languages) || chosenOf(rangesOf(header), languages);
}
// The language of the first range alone, which is what browsers prefer: undefined if that range is not enough.
const REJECTION = /=0(?:\.0*)?\s*(?:,|$)/;
function preferred(header, languages) {
    const end = header.indexOf(',');
    const first = end < 0 ? header : header.slice(0, end);
    if (header.length > MOST_BYTES || !is(TAG, first) || is(REJECTION, header)) return undefined;
    return named(small(first), languages);
}
function chosenOf(ranges, languages) {
    const isIn = (range, language) => range.tag !== '*' && covers(range.tag, small(language));
    const free = languages.filter((language) => !ranges.some((range) => range.quality === 0 && isIn(range, language)));
    const others = free.filter((language) => !ranges.some((range) => isIn(range, language)));
    let best = { language: free[0] || languages[0], quality: 0 };
    ranges.forEach((range) => {
        if (range.quality <= best.quality) return;
        const language = range.tag === '*' ? others[0] : named(range.tag, free);
        if (language) best = { language, quality: range.quality };
    });
    return best.language;
}

// ---------------------------------------------------------------- Words
// Those of a library, if it has its own, come before those of all.
function wordsIn(language, library) {
    const name = 'words_' + (language.includes('-') ? language.split('-').join('_') : language);
    return (library && globalThis[name + '__' + library]) || globalThis[name];
}

// The languages that targets.json offers and openlink.conf has loaded; English if it names none. The first is the
// default.
function offered(targets, library) {
    const list = own(targets, 'languages');
    const languages = [];
    for (let i = 0; isObject(list) && i < list.length && i < MOST_LANGUAGES; i++) {  // a preloaded array has no methods
        const language = typeof list[i] === 'string' ? list[i] : '';
        if (is(TAG, language) && isObject(wordsIn(language, library))) languages.push(language);
    }
    return languages.length > 0 ? languages : ['en'];
}

// A script in the tag decides (`sd-Deva`), else the language.
function isRightToLeft(language) {
    const parts = language.toLowerCase().split('-');
    const hasScript = parts.length > 1 && is(/^[a-z]{4}$/, parts[1]);
    return hasScript ? SCRIPTS_RTL.includes(` ${parts[1]} `) : LANGUAGES_RTL.includes(` ${parts[0]} `);
}

// What a language calls itself.
function nameOf(language, site) {
    const name = own(wordsIn(language, site.library), 'language');
    return typeof name === 'string' && name !== '' ? name : language;
}

// What targets.json has under a key if that is an object or a list. nginx reads some numbers that JSON does not have,
// such as 01, so a number counts nowhere.
function objectUnder(targets, key) {
    const value = own(targets, key);
    return isObject(value) ? value : undefined;
}
// What is in the targets.json of a library, for a reader whose browser sends this header, or who has chosen one of the
// languages.
function siteIn(targets, header, asked, library) {
    const languages = offered(targets, library);
    const isChosen = asked !== undefined && languages.includes(asked);
    const language = isChosen ? asked : chosen(header, languages);
    const folder = own(targets, 'folder');
    return { language, main: languages[0], dir: isRightToLeft(language) ? 'rtl' : 'ltr',
        known: Object.create(null), marks: Object.create(null), labels: Object.create(null), languages,
        heads: Object.create(null),
        chosen: isChosen ? asked : '',
        file: wordsIn(language, library), mainFile: wordsIn(languages[0], library), library,
        words: objectUnder(targets, 'words'), groups: objectUnder(targets, 'groups'),
        targets: objectUnder(targets, 'targets'), folder: typeof folder === 'string' ? folder : undefined,
        scholar: objectUnder(targets, 'scholar') };
}

// A text of targets.json for a reader, '' if there is none. It is the same in all languages, or an object of texts by
// language: then it is in the default language if there is none in the reader's.
function textOf(value, site) {
    if (!isObject(value)) return textAt(value);
    const text = own(value, site.language);
    return textAt(text === undefined ? own(value, site.main) : text);
}

function textAt(value) { return typeof value === 'string' ? value.trim() : ''; }
function inFiles(name, site) { return textAt(own(site.file, name)) || textAt(own(site.mainFile, name)); }
// The text of a word in the reader's language, '' if there is none. Those of targets.json come before those of the
// files, but a plain text there is in the default language.
function ownWordOf(name, site) {
    const text = own(site.words, name);
    const isMain = site.language === site.main;
    const replaced = isObject(text) ? own(text, site.language) : isMain ? text : undefined;
    return textAt(replaced) || textAt(own(site.file, name));
}
// The same, or in the default language.
function wordOf(name, site) {
    const text = own(site.words, name);
    if (text === undefined) return inFiles(name, site);
    return ownWordOf(name, site) || textAt(isObject(text) ? own(text, site.main) : text)
        || textAt(own(site.mainFile, name));
}

export default { chosen, nameOf, objectUnder, ownWordOf, siteIn, textAt, textOf, wordOf };
