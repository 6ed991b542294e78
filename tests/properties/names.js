// What is read in each path of a version: its age in days at a time, and the target that a name is a part of.
import fs from 'fs';
import health from './health.js';
import texts from './text.js';

const cases = JSON.parse(fs.readFileSync(process.argv[2], 'utf8'));
const read = cases.map((it) => [health.ageOf(it[0], it[1]), texts.targetOf(it[0])]);
fs.writeFileSync(process.argv[3], JSON.stringify(read));
