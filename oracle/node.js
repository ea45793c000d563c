// Compares readings under Npm with the program node-semver: a table of how many texts differ, by the entry of docs/DIFFERENCES.md that says why.
// usage: node oracle/node.js LINES   LINES is oracle/lines.c, built. Exit status 1 where a difference has no entry.
const { execFileSync } = require('child_process');
const semver = require('semver');

const TOKENS = ['1', '0', '2', '1.2', '0.0', '1.2.3', '0.0.3', '*', 'x', 'X', '1.x', '1.2.x', '-', '+', 'a', '-a', '+b', '-0', '-1', '-a.1', '.', ' ', '  ', '\t', ',',
  '||', '|', '>', '<', '>=', '<=', '=', '~', '^', '~>', ' - ', 'v', '01', '1.2.3-a', '1.2.3+b', '1.2.3-a.0'];
const LONGER = 150000;

// All sequences of up to three tokens, and some of four to seven.
function texts() {
  let random = 1;
  const below = (n) => (random = (random * 48271) % 2147483647) % n;
  const found = new Set(['']);
  let last = [''];
  for (let tokens = 0; tokens < 3; tokens++) {
    last = last.flatMap((text) => TOKENS.map((token) => text + token));
    last.forEach((text) => found.add(text));
  }
  for (let i = 0; i < LONGER; i++) {
    found.add(Array.from({ length: 4 + below(4) }, () => TOKENS[below(TOKENS.length)]).join(''));
  }
  return [...found];
}

// node-semver's comparators, spelled as normal text but for the `-0` of upper ends, or `!`.
function reading(text) {
  try {
    return new semver.Range(text).set.map((range) => range.map((c) => c.value || '>=0.0.0').join(' ')).join(' || ');
  } catch {
    return '!';
  }
}

const comparator = (text) => text.replace(/^(?=\d)/, '=').replace(/^(<\d+\.\d+\.\d+)-0$/, '$1');
const ranges = (text) => text.split(' || ').map((range) => range.split(' ').map(comparator));
const alike = (text) => (text[0] === '!' ? '!' : JSON.stringify(ranges(text)));

// What node-semver leaves off: comparators that it has, `>=0.0.0` beside others, what stands beside an empty range or one that no version meets.
function reduced(text) {
  if (text[0] === '!') return '!';
  const kept = ranges(text).map((range) => {
    if (range.includes('<0.0.0')) return '<0.0.0';
    const others = [...new Set(range)].filter((c) => c !== '>=0.0.0');
    return others.length ? others.join(' ') : '>=0.0.0';
  });
  const admitting = kept.filter((range) => range !== '<0.0.0');
  if (admitting.includes('>=0.0.0')) return '>=0.0.0';
  return [...new Set(admitting.length ? admitting : ['<0.0.0'])].join(' || ');
}

const ENTRIES = [
  ['1 and 3, identifiers after `+`', (t) => t.includes('+')],
  ['2, an identifier that begins with a digit', (t, theirs, ours) => ours === '!2' && /[-.](0\d|\d+[a-zA-Z-])/.test(t)],
  ['4, commas', (t, theirs) => theirs === '!' && t.includes(',')],
  ['5, `>` before a partial version', (t, theirs, ours) => ours !== '!2' && />[ \t]*\d+(\.\d+)?(\.[xX*])*(?![\d.])/.test(t)],
  ['8, `v`', (t, theirs, ours) => ours === '!2' && t.includes('v')],
  ['8, a second operator, or a space in one', (t, theirs, ours) => ours === '!2' && /[=~^][ \t]*>?[ \t]*=|[<>][ \t]+=/.test(t)],
  ['8, an operator before a hyphen', (t, theirs, ours) => ours === '!2' && / - /.test(t)],
  ['8, a wildcard without a space', (t, theirs, ours) => ours === '!2' && /[xX*]/.test(t)],
  ['8, what follows `>=0`', (t, theirs, ours) => ours === '!2' && />=0[\d.]*/.test(t)],
  ['8, comparators that are dropped', (t, theirs, ours) => reduced(theirs) === reduced(ours)],
];

const ALIKE = 'alike, but for the `-0` of upper ends (6)';
const NO_ENTRY = 'no entry';

function entry(text, theirs, ours) {
  if (alike(theirs) === alike(ours)) return ALIKE;
  const found = ENTRIES.find(([, holds]) => holds(text, theirs, ours));
  return found ? found[0] : NO_ENTRY;
}

function main(lines) {
  const all = texts();
  const answers = execFileSync(lines, { input: all.join('\n') + '\n', maxBuffer: 1 << 28 }).toString().split('\n');
  const found = new Map([ALIKE, ...ENTRIES.map(([name]) => name), NO_ENTRY].map((name) => [name, []]));
  all.forEach((text, i) => {
    const [theirs, ours] = [reading(text), answers[i]];
    found.get(entry(text, theirs, ours)).push(`${JSON.stringify(text)}: node-semver ${theirs}; here ${ours}`);
  });
  const shown = (texts) => texts.length.toLocaleString('en');
  console.log(`node-semver ${require('semver/package.json').version}, ${shown(all)} texts\n`);
  console.log('| texts | entry of docs/DIFFERENCES.md |\n|---|---|');
  found.forEach((texts, name) => console.log(`| ${shown(texts)} | ${name} |`));
  const unexplained = found.get(NO_ENTRY);
  unexplained.slice(0, 20).forEach((text) => console.log(text));
  process.exitCode = unexplained.length ? 1 : 0;
}

main(process.argv[2]);
