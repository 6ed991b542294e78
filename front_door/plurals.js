// The plural form that a count has in a language: the category of a whole number in CLDR's rules. A language that is
// not here has `one` for 1 and `other` for all else, or needs no difference. text.js says in which njs it runs.

function isMillions(n) { return n !== 0 && n % 1000000 === 0; }
function isFew(n) { return n % 10 >= 2 && n % 10 <= 4 && (n % 100 < 12 || n % 100 > 14); }
function isOne(n) { return n % 10 === 1 && n % 100 !== 11; }

function arabic(n) {
    if (n < 3) return n === 0 ? 'zero' : n === 1 ? 'one' : 'two';
    const rest = n % 100;
    return rest >= 3 && rest <= 10 ? 'few' : rest >= 11 ? 'many' : 'other';
}
function czech(n) { return n === 1 ? 'one' : n >= 2 && n <= 4 ? 'few' : 'other'; }
function hebrew(n) { return n === 1 ? 'one' : n === 2 ? 'two' : 'other'; }
function polish(n) { return n === 1 ? 'one' : isFew(n) ? 'few' : 'many'; }
function russian(n) { return isOne(n) ? 'one' : isFew(n) ? 'few' : 'many'; }
function serbian(n) { return isOne(n) ? 'one' : isFew(n) ? 'few' : 'other'; }
function romance(n, isSingular) { return isSingular ? 'one' : isMillions(n) ? 'many' : 'other'; }

// The category of a count in a language, such as `pl` or `pt-BR`.
function categoryOf(language, n) {
    switch (language.split('-')[0].toLowerCase()) {
    case 'ar': return arabic(n);
    case 'cs': case 'sk': return czech(n);
    case 'he': return hebrew(n);
    case 'pl': return polish(n);
    case 'be': case 'ru': case 'uk': return russian(n);
    case 'bs': case 'hr': case 'sr': return serbian(n);
    case 'es': case 'it': case 'ca': return romance(n, n === 1);
    case 'fr': return romance(n, n < 2);
    case 'pt': return romance(n, language.toLowerCase() === 'pt-pt' ? n === 1 : n < 2);
    case 'ja': case 'ko': case 'th': case 'vi': case 'zh': return 'other';
    default: return n === 1 ? 'one' : 'other';
    }
}

export default { categoryOf };
