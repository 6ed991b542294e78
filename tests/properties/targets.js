// Whether njs reads each text as JSON, and what it finds.
import fs from 'fs';

const cases = JSON.parse(fs.readFileSync(process.argv[2], 'utf8'));
const read = cases.map((text) => {
    try {
        return [true, JSON.parse(text)];
    } catch (e) {
        return [false];
    }
});
fs.writeFileSync(process.argv[3], JSON.stringify(read));
