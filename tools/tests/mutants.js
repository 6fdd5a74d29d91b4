// node mutants.js PAGE COUNT LIST: changes texts at random, and looks whether the page says the same of each one as the program, which
// LEANCOP names. LIST has a line "PROBLEM <tab> OPTIONS <tab> TEXT" for each text; that of a structure is followed by the line of its
// formula. Prints how many were judged alike, and how many of them were accepted; or what differs.
'use strict';
const fs = require('fs'), os = require('os'), path = require('path'), { spawnSync } = require('child_process');
const { verdict } = require('./page.js');
const [, , , count, listFile] = process.argv, COMMANDS = { derivation: 'check', tableau: 'tcheck', structure: 'model' };

let seed = 20; // the same mutants in each run (xorshift)
function random(n) {
  seed ^= seed << 13; seed >>>= 0;
  seed ^= seed >>> 17;
  seed ^= seed << 5; seed >>>= 0;
  return seed % n;
}
const pick = list => list[random(list.length)];
const LINES = ['name $$e1 []', 'label 1 []', 'term 1 a', 'end', 'use 1', 'axiom 1 1', 'name $$e5 [$$c1]', 'name $$s2 []', 'use 1 to []', 'axiom 2 3', 'use 0', 'name $$s1 1', 'reduce 1'];
const ARGUMENTS = [' to []', ' to [$$c1]', ' new $$c9', ' term $$e1', ' term a', ' name $$e1', ' name $$e7', ' term $$s1', ' to 1', ' term 1'];
// Each changes a line: k is its place, j that of another one.
const CHANGES = [
  (l, k) => l.splice(k, 1),
  (l, k) => l.splice(k, 0, l[k]),
  (l, k, j) => l.splice(j, 0, ...l.splice(k, 1)),
  (l, k, j) => { [l[k], l[j]] = [l[j], l[k]]; },
  (l, k) => { l[k] = l[k].replace(/\d+/g, n => random(2) ? String(Math.max(0, +n + random(5) - 2)) : n); },
  (l, k) => { l[k] = l[k].replace(/ term .+$/, ' term ' + pick(l.flatMap(x => (/ term (.+)$/.exec(x) || []).slice(1)).concat('a'))); },
  (l, k) => { l[k] = l[k].replace(/\[[^\]]*\]/, pick(l.flatMap(x => x.match(/\[[^\]]*\]/g) || []).concat('[]'))); },
  (l, k) => { const at = random(l[k].length + 1); l[k] = l[k].slice(0, at) + pick([...'09 \'\\$eX(),[]~a', '\u00e9', '\x7f']) + l[k].slice(at + random(2)); },
  (l, k) => { const found = / to \S+| new \$\$c\d+| term .+| name \$\$e\d+/.exec(l[k]); l[k] = found ? l[k].replace(found[0], random(2) ? '' : pick(ARGUMENTS)) : l[k] + pick(ARGUMENTS); },
  (l, k) => { l[k] = pick(LINES); },
  (l, k) => { l[k] = l[k].replace(/\$\$[ecsd]\d+/, '$$$$' + pick([...'ecsd']) + (1 + random(4))); },
  (l, k) => { l[k] = l[k].replace(/ [lr]+ | - /, pick([' l ', ' r ', ' - ', ' lr ', ' rl '])); },
  (l, k) => { if (/^(relation|domain) /.test(l[k])) l[k] = l[k].split(' ').filter((_, i) => i < 2 || random(2)).join(' '); },
  (l, k) => { if (/^(predicate|function) /.test(l[k])) l[k] = l[k].replace(/.$/, pick(['0', '1', '2'])); },
  (l, k) => { if (!random(3)) l.length = k + 1; },
];
function mutant(text) {
  const lines = text.split('\n').slice(0, -1);
  for (let n = 1 + random(3); n && lines.length; n--) {
    const from = random(8) ? Math.min(4, lines.length - 1) : 0, place = () => from + random(lines.length - from);
    pick(CHANGES)(lines, place(), place());
  }
  return lines.join('\n') + pick(['\n', '\n', '\n', '\n', '\n', '\n', '\n', '\n', '', '\n\n', '\nx']);
}

const texts = fs.readFileSync(listFile, 'latin1').trim().split('\n').map(line => {
  const [problem, options, file] = line.split('\t'), whole = fs.readFileSync(file, 'latin1'), lines = whole.split('\n'), kind = lines[0].split(' ')[1];
  const text = kind === 'structure' ? whole.slice(0, whole.indexOf('\nend\n') + 5) : whole;
  const formula = kind === 'structure' ? /\nformula (.*)/.exec(whole)[1] : lines[2].replace('formula ', '');
  return { problem, options: options.split(' ').filter(Boolean), kind, text, known: { kind, setting: lines[1].replace('logic ', ''), formula } };
});
const folder = fs.mkdtempSync(path.join(os.tmpdir(), 'mutants')), file = path.join(folder, 'text');
let accepted = 0, different = 0;
for (let n = 0; n < +count && different < 5; n++) {
  const t = texts[n % texts.length], text = n < texts.length ? t.text : mutant(t.text);
  fs.writeFileSync(file, text, 'latin1');
  const said = spawnSync(process.env.LEANCOP, [COMMANDS[t.kind], ...t.options, t.problem, file], { encoding: 'latin1' }).stdout.trim();
  let got;
  try { got = verdict(text, t.known); } catch (e) { got = String(e.stack); }
  if (/^(accepted|.* at the root)$/.test(said)) accepted++;
  if (got === said) continue;
  different++;
  console.log(t.problem + ' ' + t.options.join(' ') + ': the program says ' + said + ', the page says ' + got + ', of\n' + text);
}
fs.rmSync(folder, { recursive: true });
if (!different) console.log(count + ' alike, ' + (accepted > 0 ? 'some' : 'none') + ' accepted');
