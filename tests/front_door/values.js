// Numbers and texts, and what the scripts read in each.
// A text, and the first two ISSNs, or ISBNs, in it.
const ISSNS = [
    ['2901-0012', '2901-0012'], ['2901 0012', '2901-0012'], ['29010012', '2901-0012'], ['2901-001x', '2901-001X'],
    ['12901-0012', ''], ['-2901-0012', ''], ['2901-00123', ''], ['2901-0012-3', ''], ['290-0012', ''],
    ['2901-001', ''], ['2901--0012', ''], ['2901-0012 2908-0142 2971-1312', '2901-0012 2908-0142'],
    ['2901-0012 29010012 2908-0142', '2901-0012 2908-0142'], ['0000-0000 2901-0012', '2901-0012'],
    ['2901-\n 0012', '2901-0012'], ['0000-0001', '0000-0001'], ['a2901-0012b', '2901-0012'],
    ['2901  0012', '2901-0012'], ['2901\u00010012', ''], ['2901-0012\n2908-0142', '2901-0012 2908-0142']
];
const ISBNS = [
    ['9781234560102', '9781234560102'], ['978 1 234 56010 2', '9781234560102'], ['978-1-234-56010-2', '9781234560102'],
    ['9791234560105', '9791234560105'], ['9771234560102', ''], ['97812345601021', ''], ['19781234560102', ''],
    ['978123456010', ''], ['0198534531', '9780198534532'], ['0-19-853453-1', '9780198534532'],
    ['0 19 853453 1', '9780198534532'], ['080442957X', '9780804429573'], ['08044295XX', ''], ['01985345312', ''],
    ['019853453', ''], ['0000000043', '9780000000040'],
    ['0198534531 9780198534532 9781234560102 9791234560105', '9780198534532 9781234560102']
];
// An address, and whether it is one of the web, in ASCII as headers of replies hold it.
const ADDRESSES = [
    ['https://a', true], ['http://a', true], ['HTTPS://a', true], ['HttP://a~!', true], ['https://', false],
    ['https:/a', false], ['ftp://a', false], [' https://a', false], ['https://a b', false], ['https://a\n', false],
    ['https://\u00fc', false], ['https://\u212a', false], ['https://\u017f', false], ['http\u017f://a', false],
    ['javascript:https://a', false], ['', false]
];

// A text, and the same in HTML and in an attribute of it.
const ESCAPED = [
    ['', ''], ['Silt', 'Silt'], ['a & b', 'a &amp; b'], ['&amp;', '&amp;amp;'], ['<b>', '&lt;b&gt;'], ['>', '&gt;'],
    ['"', '&quot;'], ["'", '&#39;'], ["O'Neill", 'O&#39;Neill'], ['&&<<>>""\'\'',
        '&amp;&amp;&lt;&lt;&gt;&gt;&quot;&quot;&#39;&#39;'], ['caf\u00e9', 'caf\u00e9']
];
// A text, and the same without control characters and noncharacters, line ends and more than one space.
const CLEAN = [
    ['', ''], ['a b', 'a b'], [' a ', 'a'], ['a  b', 'a b'], ['a\tb', 'a b'], ['a\r\nb', 'a b'], ['a\u0000b', 'a b'],
    ['a\u001fb', 'a b'], ['a\u007fb', 'a b'], ['a\u0080b', 'a b'], ['a\u009fb', 'a b'], ['a\u2028b', 'a b'],
    ['a\u2029b', 'a b'], ['a\ufdd0b', 'a b'], ['a\ufdefb', 'a b'], ['a\ufffeb', 'a b'], ['a\uffffb', 'a b'],
    ['a\ufffdb', 'a\ufffdb'], ['a\ufdcfb', 'a\ufdcfb'], ['a\u2027b', 'a\u2027b'], ['caf\u00e9', 'caf\u00e9'],
    ['\t', ''], ['a\n', 'a'], ['a b\n', 'a b'], ['a   b   c', 'a b c'], ['a '.repeat(200), 'a '.repeat(200).trim()]
];
// A number of a table, the same as the standards write it, and whether it is an ISSN.
const STANDARD = [
    ['2901-0012', '2901-0012 true'], ['0198534531', '9780198534532 false'], ['080442957X', '9780804429573 false'],
    ['9781234560102', '9781234560102 false']
];

export default { ESCAPED, CLEAN, STANDARD, ISSNS, ISBNS, ADDRESSES };
