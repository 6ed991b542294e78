// What the program has read of a request: its pairs as OpenURL 1.0, to which the index and the services add what they
// know. Nothing of a request is split or decoded here. text.js says in which njs it runs.
import numbers from './numbers.js';
import texts from './text.js';

const is = texts.is;
const own = texts.own;
const NONE = [];
const MOST_BYTES = 14000;  // of a query: the program reads 16,384 bytes of a request
const MOST_VALUES = 20;    // of one key
const MOST_ISSNS = 2;
const MOST_ISBNS = 4;
const FORMAT = 'rft_val_fmt';
const ROW_KEYS = { 'rft.issn': true, 'rft.eissn': true, 'rft.isbn': true };  // they find rows
const DERIVED = { 'x.doi': 'info:doi/', 'x.pmid': 'info:pmid/' };  // a query has them as `rft_id`
const PMC = /^https:\/\/pmc\.ncbi\.nlm\.nih\.gov\/articles\/PMC(\d{1,9})\/$/;
const RESERVED = /[^\w.~-]/;

function encode(text) { return is(RESERVED, text) ? encodeURIComponent(text) : text; }
function written(key, value) { return encode(key) + '=' + encode(value); }

function Reading(args) {
    this.args = args;                    // the request as it was sent
    this.status = 200;                   // that of the program's reply
    this.pairs = NONE;                   // the pairs as they were read, each a key and a value
    this.given = Object.create(null);    // their values by key
    this.found = Object.create(null);    // the values that were found, which come before them, by key
    this.replaced = Object.create(null); // the keys whose pairs count no more
    this.links = NONE;                   // the links of the program's reply
    this.isRetracted = false;            // whether a title had the remark that the article was retracted
    this.issns = NONE;                   // the ISSNs, as the standard writes them, at most two
    this.isbns = NONE;                   // the ISBNs, with thirteen digits
    // What lookup.js knows by the services:
    this.notices = NONE;                 // the notices about the article, as notices.js has them
    this.about = NONE;                   // what the request is a notice about, if it is for one
    this.freeCopy = null;                // the free copy, as copies.js has it
    // What completion.js knows by the index:
    this.kind = '';                      // the kind of title that the request wants: `j`, `b`, '' for either
    this.byTitle = null;                 // the title that gave the request its number
    this.titles = NONE;                  // the titles of its numbers
    this.further = NONE;                 // other numbers of these titles
    this.maybe = NONE;                   // the titles that it may mean
    this.offered = NONE;                 // the pages of its titles, as title_pages.js has them
    this.knowledge = 'nothing';          // what is certain of it, as knowledgeOf says
}

// Takes the reading of a reply of the program, and its links, if it has some.
Reading.prototype.take = function (data) {
    this.pairs = data.pairs;
    this.links = data.links || NONE;
    this.isRetracted = this.isRetracted || data.notes.retracted;
    this.given = Object.create(null);
    this.found = Object.create(null);
    this.replaced = Object.create(null);
    for (let i = 0; i < data.pairs.length; i++) {
        const key = data.pairs[i][0];
        if (this.given[key] === undefined) this.given[key] = [data.pairs[i][1]];
        else this.given[key].push(data.pairs[i][1]);
    }
    this.readNumbers();
};

Reading.prototype.isEmpty = function () { return this.pairs.length === 0; };
Reading.prototype.first = function (key) { return (this.found[key] || this.given[key] || NONE)[0] || ''; };
Reading.prototype.has = function (key) { return this.first(key) !== ''; };
// All values of a key, of a hostile request the first ones.
Reading.prototype.all = function (key) {
    const found = this.found[key] || NONE;
    const given = this.given[key] || NONE;
    const values = found.length === 0 ? given : found.concat(given);
    return values.length > MOST_VALUES ? values.slice(0, MOST_VALUES) : values;
};
// Gives a key values that were found, before those of the request.
Reading.prototype.put = function (key, values) { this.found[key] = values; };
// Takes the values of a key away, which something that was found replaces.
Reading.prototype.replace = function (key) {
    this.replaced[key] = true;
    delete this.given[key];
    delete this.found[key];
};
Reading.prototype.hasFound = function () { return Object.keys(this.found).length > 0; };
// Whether the request itself has a key, or its form of OpenURL 0.1, and not only the reading.
Reading.prototype.isSent = function (name) { return this.args.toLowerCase().includes(name + '='); };

// The ISSNs and ISBNs: first those that the program derives, then those that were found. Of several ISBNs it derives
// the first one.
Reading.prototype.readNumbers = function () {
    const foundUnder = (key) => this.found[key] || NONE;
    const issns = [this.first('x.issn'), this.first('x.eissn')].concat(foundUnder('rft.issn'), foundUnder('rft.eissn'));
    const isbn = this.first('x.isbn');
    const isbns = isbn === '' ? foundUnder('rft.isbn') : [isbn].concat(this.all('rft.isbn'), this.all('rft.eisbn'));
    this.issns = issns.every((it) => it === '') ? NONE : numbers.numbersIn(issns, numbers.ISSN, MOST_ISSNS);
    this.isbns = isbns.length === 0 ? NONE : numbers.numbersIn(isbns, numbers.ISBN, MOST_ISBNS);
};
Reading.prototype.hasNumber = function () { return this.issns.length > 0 || this.isbns.length > 0; };
// The number of PMC, without letters, or ''.
Reading.prototype.pmc = function () {
    const address = this.all('rft_id').find((value) => is(PMC, value));
    return address === undefined ? '' : PMC.exec(address)[1];
};

// Pairs as the text of a query; if it is too long, without some at its end, where those are that the program has read
// and written before.
function joined(parts) {
    const all = parts.join('&');
    return all.length <= MOST_BYTES ? all : all.slice(0, Math.max(0, all.lastIndexOf('&', MOST_BYTES)));
}
// The query with what was found, for another reading. The program derives the keys `x.` again, and a format that the
// request has not sent.
Reading.prototype.textToRead = function () {
    const q = this;
    const parts = [];
    Object.keys(q.found).forEach((key) => { q.found[key].forEach((value) => {
        const prefix = own(DERIVED, key);
        parts.push(prefix === undefined ? written(key, value) : written('rft_id', prefix + value));
    }); });
    const isLeftOut = (key) => key.startsWith('x.') || q.replaced[key] || (key === FORMAT && !q.isSent(FORMAT));
    q.pairs.forEach((pair) => { if (!isLeftOut(pair[0])) parts.push(written(pair[0], pair[1])); });
    return joined(parts);
};
// The queries of the program's strict pages, of OpenURL 1.0, as `/menu.json` asks them: the request's own, those with
// further numbers, and the one for targets that answer every request.
Reading.prototype.strictTexts = function () {
    const rest = [];
    this.pairs.forEach((pair) => { if (ROW_KEYS[pair[0]] !== true) rest.push(written(pair[0], pair[1])); });
    const further = this.further.map((number) => {
        return joined([(numbers.isIssn(number) ? 'rft.issn=' : 'rft.isbn=') + number].concat(rest));
    });
    return [joined(this.pairs.map((pair) => written(pair[0], pair[1])))].concat(further,
        [joined(['rft.issn=ANY'].concat(rest))]);
};

export default { MOST_BYTES, NONE, Reading };
