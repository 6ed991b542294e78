// The contact for reports of weaknesses, as RFC 9116 has it for /.well-known/security.txt. text.js says in which njs it
// runs.
import texts from './text.js';

const is = texts.is;
const CONTACT = /^(?:mailto:[^@]+@[^@]+|https:\/\/.+|tel:[+\d().-]+)$/;
const MAIL = /^[^:@\/]+@[^:@\/]+$/;
const PRINTABLE = /^[!-~]+$/;
const DAYS = 180;  // of a year, so that whoever keeps the text asks again in time
const DAY = 86400000;

// The addresses that the site names, with spaces between them; one of mail may lack its `mailto:`.
function contactsIn(value) {
    return value.split(' ').map((it) => is(MAIL, it) ? 'mailto:' + it : it)
        .filter((it) => is(PRINTABLE, it) && is(CONTACT, it));
}
// The end of the day that many days from now, without fractions of a second.
function expiryOf(now) {
    const day = new Date((Math.floor(now / DAY) + DAYS) * DAY);
    return day.toISOString().slice(0, 10) + 'T23:59:59Z';
}
// The text, or '' if the site names no contact.
function textOf(value, now) {
    const contacts = contactsIn(value);
    if (contacts.length === 0) return '';
    return contacts.map((it) => `Contact: ${it}\n`).concat(`Expires: ${expiryOf(now)}\n`).join('');
}

export default { textOf };
