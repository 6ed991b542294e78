// Text of requests and files: what every other file of the module takes from here.
//
// The module runs in njs 0.7.9 and later. That version lacks for-of, destructuring, spread, default parameters,
// classes, generators, `?.`, `??=`, `catch` without a name, the flags `s` and `u`, Set and Map, and of the methods
// `at`, `flat`, `flatMap`, `from`, `fromEntries`, `matchAll`, `normalize` and `replaceAll`. It has `{ a, b }`, template
// literals, rest parameters, `??`, `**`, `includes`, `startsWith`, `padStart`, `find` and `Object.entries`.
//
// It frees no memory before the reply is sent, and `test`, `exec`, `match` and `replace` take 5 KB where nothing
// matches, but `search` takes none: so it goes first. A function expression in an array literal, or under a number in
// an object, turns that number into a text in all files: after `[(x) => x]`, `0 + 1` is '01'. `await` in arguments is
// no syntax. A preloaded array has no methods. Each use of a regular expression costs 10 microseconds, however short
// the text, so what every request passes has few.
//
// HTML and other texts with several parts are template literals. `+` adds to one end of a text; it joins short texts of
// which a request may have hundreds, such as keys, and the sources of regular expressions.

// What a value of JSON has under a key, and nothing that every object inherits: functions, and `__proto__`.
function own(object, key) {
    const value = object && key !== '__proto__' ? object[key] : undefined;
    return typeof value === 'function' ? undefined : value;
}
function is(form, text) { return text.search(form) >= 0; }
function isObject(value) { return typeof value === 'object' && value !== null; }
// njs 0.7.9 throws if a text of 32, 64, .. characters is not ASCII and the last match of a global form ends with it.
function padded(text) { return text.length > 0 && text.length % 32 === 0 ? text + ' ' : text; }
function replaced(text, form, by) { return padded(text).replace(form, by); }
// A form that is made when it is first needed: nginx runs all of a file's own lines for each request, and to make one
// takes up to 0.2 ms.
function lazy(source, flags) {
    let form;
    return function () { return form || (form = new RegExp(source, flags)); };
}

// The target that a name of the registry is a part of: NAME.2, NAME.3 and so on are parts of NAME.
const PART = /^.+(?=\.(?:[2-9]|[1-9]\d\d?)$)/;
function targetOf(name) { return name.lastIndexOf('.') > 0 && is(PART, name) ? PART.exec(name)[0] : name; }

// Text without control characters and noncharacters, which neither HTML nor a header field may hold.
const CONTROLS = /[\u0000-\u001f\u007f-\u009f\u2028\u2029\ufdd0-\ufdef\ufffe\uffff]/g;
const PLAIN = /^[!-~]+(?: [!-~]+)*$(?!\n)/;
function clean(value) {
    if (value === '' || (value.length < 300 && is(PLAIN, value))) return value;
    const text = is(CONTROLS, value) ? replaced(value, CONTROLS, ' ') : value;
    return (text.includes('  ') ? replaced(text, /\s+/g, ' ') : text).trim();
}
// By `split`, since a long address may have thousands of them.
const ENTITIES = [['&', '&amp;'], ['<', '&lt;'], ['>', '&gt;'], ['"', '&quot;'], ["'", '&#39;']];
function escape(text) {
    if (!is(/[&<>"']/, text)) return text;
    let all = text;
    for (let i = 0; i < ENTITIES.length; i++) {
        if (all.includes(ENTITIES[i][0])) all = all.split(ENTITIES[i][0]).join(ENTITIES[i][1]);
    }
    return all;
}
// In njs the flag `i` takes U+212A for a `k`.
function isWeb(link) { return is(/^[Hh][Tt][Tt][Pp][Ss]?:\/\/./, link) && !is(/[^\x21-\x7e]/, link); }

export default { own, is, isObject, lazy, padded, replaced, clean, escape, isWeb, targetOf };
