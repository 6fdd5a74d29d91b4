// node page.js PAGE TEXT..: reads texts by the page's own functions, and looks whether each one is accepted, whether each closing joins
// an atom and its opposite at one label, and whether each structure makes its formula false. Prints how many closings there were.
//   --verdict TEXT..: prints what the page says of each text, in the words of the program
//   --why TEXT..: prints why each text is rejected, in words, and how many of its steps are drawn
//   --trim TEXT: prints the derivation that the page shows, without idle steps, with the numbers that its entries then have
//   --draw TEXT: prints what the page would put into its parts, so that it can be looked through for what a text must not bring
'use strict';
const fs = require('fs');
const script = /<script>([\s\S]*)<\/script>/.exec(fs.readFileSync(process.argv[2], 'utf8'))[1];
const page = new Function('module', script + '\nreturn module.exports;')({});
const read = file => fs.readFileSync(file, 'latin1');

// The page's verdict on a text, as the program words it. `known` has the kind of the text and the problem's setting
// and formula, where they are known.
function verdict(text, known) {
  const d = known ? page[{ derivation: 'readDerivation', tableau: 'readTableau', structure: 'readStructure' }[known.kind]](text, known) : page.readAny(text);
  if (d.fault) return d.fault.message.replace('rejected', d.kind === 'structure' ? 'rejected structure' : 'rejected');
  return d.kind === 'structure' ? (d.why.holds ? 'true' : 'false') + ' at the root' : 'accepted';
}
module.exports = { verdict };

function closings(files) {
  const facts = [];
  const says = e => page.formulaText(e.f, e.env, page.PLAIN) + ' at ' + page.labelText(e.label);
  const opposite = (a, b) => facts.push(a.sign !== b.sign && a.f.k === 'atom' && b.f.k === 'atom' && says(a) === says(b));
  for (const file of files) {
    const d = page.readAny(read(file));
    if (d.fault) facts.push(false);
    if (d.kind === 'derivation') d.steps.filter(s => s.axiom).forEach(s => opposite(...s.axiom));
    if (d.kind === 'tableau') {
      d.steps.filter(s => s.up).forEach(s => opposite(s.goal, s.up));
      d.steps.filter(s => s.goal && !s.up).forEach(s => opposite(s.goal, s.made.find(g => g.connected)));
    }
    if (d.kind === 'structure') facts.push(!d.why.holds);
  }
  return facts.every(x => x) ? facts.length : 'a closing is wrong';
}

function trimmed(text) {
  const d = page.readDerivation(text), t = page.withoutIdleSteps(d), numbers = new Map();
  const number = e => {
    if (!numbers.has(e)) {
      let before = 0;
      for (let b = e.branch; b; b = b.parent) before += b === e.branch ? b.entries.indexOf(e) + 1 : b.entries.length;
      numbers.set(e, before);
    }
    return numbers.get(e);
  };
  const steps = t.steps.map(s => s.axiom ? 'axiom ' + s.axiom.map(number).join(' ') : s.text.replace(/^use \d+/, 'use ' + number(s.used)));
  return [...d.lines.slice(0, d.steps[0].line - 1), ...steps, 'end', ''].join('\n');
}

function drawn(text) {
  const put = [];
  // A part of a page that has each property; only what is put into it is kept.
  const part = id => new Proxy(() => {}, {
    get: (_, name) => name === Symbol.toPrimitive ? () => 0 : name === Symbol.iterator ? function* () {} : name === 'textContent' ? (id === 'given' ? text : '') :
      name === 'insertAdjacentHTML' ? (_, html) => put.push(html) : part(),
    set: (_, name, value) => { if (name === 'innerHTML') put.push(value); return true; },
    apply: () => part(),
  });
  const document = new Proxy({}, { get: (_, name) => name === 'getElementById' ? part : part(), set: () => true });
  new Function('module', 'document', 'location', 'history', 'addEventListener', 'innerWidth', 'innerHeight', 'getComputedStyle', 'scrollBy', script)(
    undefined, document, { hash: '' }, { replaceState() {} }, () => {}, 1280, 800, part, () => {});
  return put.join('\n');
}

if (require.main === module) {
  const [how, ...files] = process.argv.slice(3);
  if (how === '--why') for (const d of files.map(f => page.readAny(read(f)))) console.log(d.fault.why + ' ' + d.steps.length);
  else if (how === '--verdict') console.log(files.map(f => verdict(read(f))).join('\n'));
  else if (how === '--trim') process.stdout.write(Buffer.from(trimmed(read(files[0])), 'latin1'));
  else if (how === '--draw') console.log(drawn(read(files[0])));
  else console.log(closings([how, ...files]));
}
