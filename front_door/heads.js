// What the heads of their rules say of targets that targets.json does not name: a label and a group. The index of the
// version has them. text.js says in which njs it runs.
import index from './index.js';
import languages from './languages.js';
import texts from './text.js';

const MOST_CHARACTERS = 100;  // of a label or the name of a group

function isNamed(site, name) { return languages.objectUnder(site.targets, name) !== undefined; }
// The label for a reader: that of the language, of the same one without its region, of all others, or of the site's
// default language.
function labelIn(cells, site) {
    const known = Object.create(null);
    cells.forEach((cell) => {
        const at = cell.indexOf('=');
        if (at >= 0) known[cell.slice(0, at)] = cell.slice(at + 1);
    });
    const keys = [site.language, site.language.split('-')[0], '', site.main.split('-')[0]];
    const key = keys.find((one) => typeof known[one] === 'string' && known[one] !== '');
    return key === undefined ? '' : texts.clean(known[key]).slice(0, MOST_CHARACTERS);
}
// Adds to a site what is said of the targets that it does not name.
async function read(r, site) {
    const bytes = await index.bytesOf(r, 'heads');
    bytes.toString().split('\n').forEach((line) => {
        const cells = line.split('\t');
        if (cells.length < 2 || isNamed(site, cells[0])) return;
        site.heads[cells[0]] = {
            group: texts.clean(cells[1]).slice(0, MOST_CHARACTERS), label: labelIn(cells.slice(2), site)
        };
    });
}

// The targets of links, and those that have the titles of a request.
function targetsOf(links, titles) {
    const rows = titles.map((it) => it.rows.map(index.targetOf).concat(it.pages.map((page) => page.target)));
    return rows.reduce((all, names) => all.concat(names), links.map((link) => link.target));
}
// The same, if the site does not name all of these targets: most name them, and then no file is read.
async function add(r, site, links, titles) {
    if (site.targets !== undefined && targetsOf(links, titles).every((name) => isNamed(site, name))) return;
    await read(r, site);
}

export default { add, read };
