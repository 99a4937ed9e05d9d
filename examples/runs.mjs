// runs.mjs: prints what a command of fcanon prints of standard input, and ends as it does, without the
// program:
//
//     node runs.mjs group < positions.collection

import { readFileSync, writeFileSync } from 'node:fs';
import { importText, run } from 'fcanon/runs';

const [command] = process.argv.slice(2);
const input = readFileSync(0);
const done = command === 'import' ? importText(input) : run(command, input);
writeFileSync(1, done.text);
writeFileSync(2, done.said);
process.exitCode = done.status;
