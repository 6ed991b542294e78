// The cases of languages, their texts and the sites that have them. Each is its name, what the modules give, and what
// was expected.
import languages from './languages.js';
import languageCases from './language_cases.js';

function directionOf(language) {
    const name = 'words_' + language.split('-').join('_');
    const before = globalThis[name];
    globalThis[name] = {};
    const found = languages.siteIn({ languages: [language] }, '').dir;
    if (before === undefined) delete globalThis[name];
    else globalThis[name] = before;
    return found;
}
// In a site of German and English, for a reader who has chosen one of them.
const BOTH = ['de', 'en'];
function siteIn(language, words) { return languages.siteIn({ languages: BOTH, words }, '', language); }
function ofWords() {
    const found = [];
    const before = [globalThis.words_de, globalThis.words_en];
    languageCases.WORDS.forEach((it) => {
        globalThis.words_de = { word: it[1] };
        globalThis.words_en = { word: it[2] };
        BOTH.forEach((language, i) => {
            const site = siteIn(language, it[0] === undefined ? undefined : { word: it[0] });
            const name = ' in ' + language + ', of ' + JSON.stringify(it.slice(0, 3));
            found.push(['the word' + name, languages.wordOf('word', site), it[3 + i]]);
            found.push(['its own word' + name, languages.ownWordOf('word', site), it[5 + i]]);
        });
    });
    languageCases.TEXTS.forEach((it) => {
        BOTH.forEach((language, i) => {
            const name = 'the text ' + JSON.stringify(it[0]) + ' in ' + language;
            found.push([name, languages.textOf(it[0], siteIn(language)), it[1 + i]]);
        });
    });
    globalThis.words_de = before[0];
    globalThis.words_en = before[1];
    return found;
}
// What one library of several has in its targets.json and in its files of texts; a preloaded array has no methods.
function ofSites() {
    const found = [];
    const put = (name, got, expected) => { found.push([name, JSON.stringify(got), JSON.stringify(expected)]); };
    const names = ['words_de', 'words_en', 'words_pt_BR', 'words_en__north'];
    const before = names.map((name) => globalThis[name]);
    globalThis.words_de = { language: 'Deutsch', group: 'Verweise' };
    globalThis.words_en = { language: ' ', group: 'Links' };
    globalThis.words_pt_BR = { language: 7 };
    globalThis.words_en__north = { language: 'English', group: 'In the North' };
    const list = { 0: 'en', 1: 'fr', 2: 'pt-BR', 3: 'd', 4: 'de', length: 5 };
    const site = (asked, library, header) => languages.siteIn({ languages: list, folder: '/srv' }, header || '', asked,
        library);
    put('the languages that are loaded', site().languages, ['en', 'pt-BR', 'de']);
    put('the default', [site().main, site().language, site().chosen], ['en', 'en', '']);
    put('one that is chosen', [site('de').main, site('de').language, site('de').chosen], ['en', 'de', 'de']);
    put('chosen before the header', site('de', undefined, 'pt').language, 'de');
    put('one that is not offered', [site('fr', undefined, 'pt').language, site('fr').chosen], ['pt-BR', '']);
    put('texts of a file', [site('de').file.group, site('de').mainFile.group], ['Verweise', 'Links']);
    put('those of a library', [site('de', 'north').mainFile.group, site('de', 'north').file.group],
        ['In the North', 'Verweise']);
    put('those of another library', site('en', 'south').file.group, 'Links');
    put('the names', ['de', 'en', 'pt-BR'].map((it) => languages.nameOf(it, site())), ['Deutsch', ' ', 'pt-BR']);
    put('the name in a library', languages.nameOf('en', site('en', 'north')), 'English');
    put('the folder', [site().folder, languages.siteIn({ folder: ['/srv'] }, '').folder], ['/srv', undefined]);
    put('the library', [site('en', 'north').library, site().library], ['north', undefined]);
    const data = { words: {}, groups: [1], targets: { a: {} }, scholar: { x: 1 } };
    Object.keys(data).forEach((key) => {
        const one = (value) => {
            const targets = {};
            targets[key] = value;
            return languages.siteIn(targets, '')[key];
        };
        put('the ' + key, one(data[key]), data[key]);
        put('a number for the ' + key, one(1), undefined);
        put('a text for the ' + key, one('a'), undefined);
    });
    put('objects', ['a', 'b', 'toString', '__proto__'].map((key) => languages.objectUnder({ a: {}, b: 1 }, key)),
        [{}, undefined, undefined, undefined]);
    put('no targets', [languages.siteIn(undefined, '').languages, languages.siteIn(null, 'de').main], [['en'], 'en']);
    names.forEach((name, i) => {
        if (before[i] === undefined) delete globalThis[name];
        else globalThis[name] = before[i];
    });
    return found;
}
function ofLanguages() {
    return languageCases.CHOSEN.map((it) => {
        return ['the language for ' + it[0] + ' of ' + it[1], languages.chosen(it[0], it[1].split(' ')), it[2]];
    }).concat(languageCases.DIRECTIONS.map((it) => ['the direction of ' + it[0], directionOf(it[0]), it[1]]), ofWords(),
        ofSites());
}

export default { all: ofLanguages };
