// driver.mjs MODULE: answers each case of standard input over the module of runs; tests/lib/cases.py says how.

import { readFileSync } from 'node:fs';
import { Runs } from '../../../bindings/javascript/runs.js';

const runs = await Runs.from(readFileSync(process.argv[2]));
const hexOf = (bytes) => Buffer.from(bytes).toString('hex');

function answerTo(task, game, format, size, text) {
  const [input, anySize] = [Buffer.from(text, 'hex'), size === '1'];
  try {
    const done = task === 'import' ? runs.import(input, { game, lines: format === 'lines' ? 'unsaid' : format }) : runs.run(task, input, { format, game, anySize });
    return `${Number(done.refused > 0)} ${hexOf(done.text)} ${hexOf(done.said)}`;
  } catch (error) {
    return `3 - ${hexOf(Buffer.from(`fcanon: ${error.message}\n`))}`;
  }
}

for (const line of readFileSync(0, 'utf8').split('\n')) {
  if (line) process.stdout.write(`${answerTo(...line.split(' '))}\n`);
}
