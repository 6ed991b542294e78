// Languages of a request (RFC 9110, section 12.5.4; RFC 4647): a header, the languages that are offered, the first of
// which is the default, and the one that is chosen.
const CHOSEN = [
    // the order of the header decides among equal qualities, the quality before it
    ['en-US,en;q=0.9', 'de en', 'en'], ['de-DE,de;q=0.9,en-US;q=0.8,en;q=0.7', 'en de', 'de'],
    ['en;q=0.8, de;q=0.9', 'en de', 'de'], ['en;q=0.9, de;q=0.8', 'de en', 'en'],
    ['fr, en;q=0.2, de;q=0.3', 'en de', 'de'],
    ['en;q=0.5, de;q=0.5', 'de en', 'en'], ['de;q=0.5, en;q=0.5', 'en de', 'de'], ['en, de', 'de en', 'en'],
    ['de;q=0.999, en;q=1.0', 'de en', 'en'], ['de;q=0.01, en;q=0.009', 'en de', 'de'],
    ['de;q=1, en', 'en de', 'de'], ['de;q=1., en;q=0.', 'en de', 'de'], ['en;q=0., de;q=0.1', 'en de', 'de'],
    // a quality of 0 rejects a language and what it covers
    ['en;q=0', 'en de', 'de'], ['en;q=0.0', 'en de', 'de'], ['en;q=0.00', 'en de', 'de'], ['en;q=0, fr', 'en de', 'de'],
    ['en-GB;q=0', 'en de', 'en'], ['en;q=0, de', 'en-GB de', 'de'], ['en;q=0', 'en-GB de', 'de'],
    ['en, de;q=0', 'de en', 'en'], ['de-AT, de;q=0, en;q=0.1', 'de en', 'en'], ['*;q=0, de;q=0', 'en de', 'en'],
    ['en, en;q=0', 'de en', 'de'], ['pt-BR;q=0, pt', 'pt-BR pt en', 'pt'], ['pt;q=0, *', 'pt-BR en', 'en'],
    // the star is every language that no other range names
    ['*;q=0.5, de;q=0.1', 'de en', 'en'], ['en;q=0.1, *', 'en de', 'de'], ['de, *', 'en de', 'de'],
    ['*, de', 'en de', 'en'], ['*;q=0.1, fr;q=0.9', 'en de', 'en'], ['de;q=0, *', 'de en', 'en'],
    ['en-GB, *;q=0.5', 'de en', 'en'], ['fr;q=0.4, *;q=0.3, de;q=0.2', 'en de', 'en'], ['*-CH, de', 'en de', 'de'],
    // a range names itself, what it covers, and what covers it
    ['de-CH', 'en de-AT de', 'de'], ['de-CH', 'en de-CH de', 'de-CH'], ['de', 'en de-AT de-CH', 'de-AT'],
    ['de-CH', 'en de-AT', 'en'], ['en-GB', 'de en-US', 'de'], ['pt-BR', 'en pt-PT pt', 'pt'],
    ['sr-Latn-RS', 'en sr', 'sr'], ['sr-Latn-RS', 'en sr sr-Latn', 'sr-Latn'], ['sr-Latn', 'en sr-Cyrl', 'en'],
    ['sr', 'en sr-Latn', 'sr-Latn'], ['es-419', 'en es-ES es', 'es'], ['nb-NO', 'en nb', 'nb'], ['no', 'en nb', 'en'],
    ['iw', 'en he', 'en'], ['e', 'de en', 'de'], ['den-SL', 'en de', 'en'], ['deu', 'en de', 'en'],
    ['de-1996', 'en de', 'de'], ['de-CH-1901', 'en de-CH', 'de-CH'], ['x-private', 'en de', 'en'],
    // Chinese by its script, also where a region implies one
    ['zh-MY', 'en zh-Hans', 'zh-Hans'], ['zh-MO', 'en zh-Hant', 'zh-Hant'], ['zh-HK', 'en zh-Hans', 'en'],
    ['zh-SG', 'en zh-Hant', 'en'], ['zh-CN', 'en zh-Hant zh-Hans', 'zh-Hans'], ['zh-Hant-HK', 'en zh-Hant', 'zh-Hant'],
    ['zh-TW', 'en zh-TW', 'zh-TW'], ['zh-Hant', 'en zh-TW', 'zh-TW'], ['zh-cn,zh-tw;q=0.5', 'zh-Hant en', 'zh-Hant'],
    ['zh-Latn', 'en zh-Hans', 'en'], ['zh-CN', 'en zh-Hans-CN', 'zh-Hans-CN'], ['zh-TW', 'en zh-Hant-TW', 'zh-Hant-TW'],
    // signs: spaces and tabs, capitals, and what is no range
    ['de;Q=0.1,en;Q=0.9', 'de en', 'en'], ['\tde\t', 'en de', 'de'], ['de ;q=0.9 , en ; q=0.8', 'en de', 'de'],
    ['de;\tq=0.1, en', 'de en', 'en'], ['DE-at', 'en de', 'de'], ['EN', 'de en', 'en'], ['de', 'en DE', 'DE'],
    ['de;q=-1, en', 'de en', 'en'], ['de;q=.9, en;q=0.1', 'de en', 'en'], ['de;q=1.1, en;q=0.1', 'de en', 'en'],
    ['de;q=1.0000, en;q=0.1', 'de en', 'en'], ['de;q=0.5;x=1, en;q=0.1', 'de en', 'en'],
    ['de;q = 0.9, en;q=0.1', 'de en', 'en'], ['de;q=1e0, en;q=0.1', 'de en', 'en'], ['de-, en;q=0.1', 'de en', 'en'],
    ['-de, en;q=0.1', 'de en', 'en'], ['de--AT, en;q=0.1', 'de en', 'en'], ['de en', 'fr de', 'fr'],
    ['d\u00e9, en;q=0.1', 'de en', 'en'], ['deutschland, en;q=0.1', 'de en', 'en'],
    ['de-verylonger, en;q=0.1', 'de en', 'en'],
    ['12, en;q=0.1', 'de en', 'en'], [',', 'en de', 'en'], [', ,de', 'en de', 'de'], [';q=1', 'en de', 'en'],
    ['toString, constructor', 'en de', 'en'], ['zh-constructor', 'en zh', 'en']
];
// A language and the direction in which it is written, by its script, else by the script that CLDR gives it.
const DIRECTIONS = [
    ['en', 'ltr'], ['de-AT', 'ltr'], ['ar', 'rtl'], ['AR', 'rtl'], ['ar-EG', 'rtl'], ['arc', 'rtl'], ['ckb', 'rtl'],
    ['dv', 'rtl'], ['fa', 'rtl'], ['fa-AF', 'rtl'], ['he', 'rtl'], ['he-IL', 'rtl'], ['nqo', 'rtl'], ['ps', 'rtl'],
    ['sd', 'rtl'], ['syr', 'rtl'], ['ug', 'rtl'], ['ur', 'rtl'], ['ur-PK', 'rtl'], ['yi', 'rtl'], ['ks', 'rtl'],
    ['prs', 'rtl'], ['pnb', 'rtl'], ['skr', 'rtl'], ['azb', 'rtl'], ['mzn', 'rtl'],
    ['az-Arab', 'rtl'], ['uz-Arab-AF', 'rtl'], ['UZ-ARAB', 'rtl'], ['ff-Adlm', 'rtl'], ['rhg-Rohg', 'rtl'],
    ['man-Nkoo', 'rtl'], ['jpr-Hebr', 'rtl'], ['aii-Syrc', 'rtl'], ['xx-Thaa', 'rtl'], ['ar-Arab', 'rtl'],
    ['ar-Latn', 'ltr'], ['ckb-Latn', 'ltr'], ['sd-Deva', 'ltr'], ['ks-Deva-IN', 'ltr'], ['ug-Cyrl', 'ltr'],
    ['yi-Latn', 'ltr'], ['dv-Latn-MV', 'ltr'], ['ku', 'ltr'], ['az', 'ltr'], ['uz-Cyrl', 'ltr'], ['zh-Hans', 'ltr'],
    ['a', 'ltr'], ['arab', 'ltr'], ['en-x-arab', 'ltr'], ['ar-1996', 'rtl'], ['tr', 'ltr'], ['urd', 'ltr']
];
// A text of targets.json, in a site of the languages `de` (the default) and `en`, and what a reader of German and one
// of English sees.
const TEXTS = [
    ['A', 'A', 'A'], [' A ', 'A', 'A'], ['', '', ''], [{ de: 'A', en: 'B' }, 'A', 'B'], [{ de: 'A' }, 'A', 'A'],
    [{ en: 'B' }, '', 'B'], [{ fr: 'C' }, '', ''], [{}, '', ''], [[], '', ''], [3, '', ''], [null, '', ''],
    [undefined, '', ''], [true, '', ''], [{ de: 'A', en: '' }, 'A', ''], [{ de: 'A', en: 3 }, 'A', ''],
    [{ de: ' A', en: 'B ' }, 'A', 'B'], [{ de: { de: 'A' } }, '', '']
];
// Texts of a site with the same languages: those of targets.json, of words/de.json and of words/en.json, then what
// wordOf gives in German and in English, and what ownWordOf gives.
const WORDS = [
    [undefined, 'A', 'B', 'A', 'B', 'A', 'B'], [undefined, 'A', undefined, 'A', 'A', 'A', ''],
    [undefined, undefined, 'B', '', 'B', '', 'B'], [undefined, ' A ', '  ', 'A', 'A', 'A', ''],
    [undefined, 3, {}, '', '', '', ''],
    ['C', 'A', 'B', 'C', 'B', 'C', 'B'], ['C', 'A', undefined, 'C', 'C', 'C', ''], ['', 'A', 'B', 'A', 'B', 'A', 'B'],
    [' C ', 'A', '', 'C', 'C', 'C', ''], [3, 'A', 'B', 'A', 'B', 'A', 'B'],
    [{ de: 'C', en: 'D' }, 'A', 'B', 'C', 'D', 'C', 'D'], [{ en: 'D' }, 'A', 'B', 'A', 'D', 'A', 'D'],
    [{ de: 'C' }, 'A', 'B', 'C', 'B', 'C', 'B'], [{ de: 'C' }, 'A', undefined, 'C', 'C', 'C', ''],
    [{ fr: 'E' }, 'A', 'B', 'A', 'B', 'A', 'B'], [{ de: '', en: 'D' }, 'A', 'B', 'A', 'D', 'A', 'D'],
    [{ de: 3, en: ' ' }, 'A', 'B', 'A', 'B', 'A', 'B'], [{ en: 'D' }, undefined, undefined, '', 'D', '', 'D']
];

export default { CHOSEN, DIRECTIONS, TEXTS, WORDS };
