// The page: a formula goes to the server, which asks leancop; what comes back is shown. Nothing is judged here.
import { exercise } from './exercise.js';

const $ = id => document.getElementById(id);
const LOGICS = { classical: 'classical logic', intuitionistic: 'intuitionistic logic', d: 'D', t: 'T', s4: 'S4', s5: 'S5' };
const MODAL = ['d', 't', 's4', 's5'], DOMAINS = ['constant', 'cumulative', 'varying'];
const SIGNS = [['∀', 'for all', 'forall'], ['∃', 'there is', 'exists'], ['¬', 'not', '~'], ['∧', 'and', '&'], ['∨', 'or', '|'], ['→', 'implies', '->'],
  ['↔', 'if and only if', '<->'], ['□', 'necessary', '[]'], ['◇', 'possible', '<>'], ['=', 'equal', '='], ['⊤', 'true', '\\top'], ['⊥', 'false', '\\bot'],
  ['⊢', 'from premises follows', '|-']];
const TYPED = [['<->', '↔'], ['<=>', '↔'], ['->', '→'], ['=>', '→'], ['/\\', '∧'], ['\\/', '∨'], ['[]', '□'], ['<>', '◇'], ['|-', '⊢'],
  ['\\forall', '∀'], ['\\exists', '∃'], ['\\neg', '¬'], ['\\lnot', '¬'], ['\\land', '∧'], ['\\wedge', '∧'], ['\\lor', '∨'], ['\\vee', '∨'],
  ['\\to', '→'], ['\\leftrightarrow', '↔'], ['\\Box', '□'], ['\\Diamond', '◇'], ['\\vdash', '⊢']];

export function element(name, attributes = {}, ...children) {
  const e = document.createElement(name);
  for (const [key, value] of Object.entries(attributes)) {
    if (key.startsWith('on')) e.addEventListener(key.slice(2), value);
    else if (value === true) e.setAttribute(key, '');
    else if (value !== false && value !== undefined && value !== null) e.setAttribute(key, value);
  }
  e.append(...children.filter(c => c !== null && c !== undefined));
  return e;
}

// ---- the server

async function post(path, body) {
  const answer = await fetch('api/' + path, { method: 'POST', headers: { 'Content-Type': 'application/json' }, body: JSON.stringify(body) });
  if (!answer.ok) throw new Error((await answer.text()).trim());
  const value = await answer.json();
  if (value.refused) throw new Error(value.refused);
  return value;
}

let current = null; // the question that is being answered

// Asks, and hands over each event as it comes. A later question stops an earlier one.
export async function ask(what, more, onEvent) {
  stop();
  const mine = current = { job: null };
  busy(true);
  try {
    const { job } = await post('start', { ...question(), ...more, what });
    mine.job = job;
    if (current !== mine) { post('stop', { job }).catch(() => {}); return; }
    let seen = 0, over = false;
    while (!over) {
      const state = await post('state', { job, seen });
      if (current !== mine) return;
      seen += state.events.length;
      over = state.over;
      state.events.forEach(onEvent);
    }
  } catch (fault) {
    if (current === mine) say(fault instanceof TypeError ? 'The server does not answer: leancop-play has ended.' : fault.message, 'bad');
  } finally {
    if (current === mine) { current = null; busy(false); }
  }
}
function stop() {
  if (current?.job) post('stop', { job: current.job }).catch(() => {});
  current = null;
  busy(false);
}
function busy(is) {
  if (!is && document.activeElement === $('stop')) $('prove').focus({ preventScroll: true });
  $('stop').hidden = !is;
  $('answer').setAttribute('aria-busy', is);
}

// ---- the question

export function question() {
  return { formula: $('formula').value, premises: $('premises').value, logic: $('logic').value, domains: $('domains').value,
    seconds: +$('seconds').value, megabytes: +$('megabytes').value };
}
function fragment(steps, q = question()) {
  const words = { f: q.formula, l: q.logic };
  if (q.premises.trim()) words.p = q.premises;
  if (MODAL.includes(q.logic)) words.d = q.domains;
  if (steps) words.x = steps.join(';');
  return new URLSearchParams(words).toString();
}
// What is asked stands in the address, so that it can be kept and sent.
export function keep(steps) {
  const words = '#' + fragment(steps);
  if (location.hash !== words) history.replaceState(null, '', words);
}
function modal() { $('domains').disabled = !MODAL.includes($('logic').value); }

export function say(text, how = '') { $('said').textContent = text; $('said').className = how; document.title = (text ? text.split(/[:.]/)[0] + ' · ' : '') + 'leancop'; }
export function clear() {
  $('welcome')?.remove();
  for (const id of ['known', 'read', 'actions', 'table', 'exercise', 'shown']) $(id).replaceChildren();
  $('text').hidden = true;
  for (const id of ['formula', 'premises']) { $(id + '-fault').replaceChildren(); $(id).removeAttribute('aria-invalid'); }
  say('');
}
const NEAR = 120; // characters of a text that are shown on each side of a place
const shorten = (text, most) => text.length > most ? text.slice(0, most) + ' …' : text;
export function misread(e) {
  // Places count characters; a text here counts halves of those that are written in two.
  const field = $(e.place), text = field.value, place = n => [...text].slice(0, n).join('').length, start = place(e.start), end = place(Math.max(e.start + 1, e.end));
  const marked = shorten(text.slice(start, end).trim(), NEAR), before = text.slice(0, start), behind = text.slice(end);
  $(e.place + '-fault').replaceChildren(element('span', { class: 'copy', 'aria-hidden': 'true' }, before.length > NEAR ? '… ' + before.slice(-NEAR) : before, element('mark', {}, marked || '␣'), shorten(behind, NEAR)),
    element('br'), element('span', { class: 'heard' }, 'At character ' + (e.start + 1) + (marked ? ', “' + marked + '”' : '') + ': '), e.said[0].toUpperCase() + e.said.slice(1) + (e.said.endsWith('.') ? '' : '.'));
  field.setAttribute('aria-invalid', 'true');
  field.focus();
  field.setSelectionRange(start, Math.min(end, text.length));
  say('This cannot be read.', 'bad');
}

// ---- answers

function name(q) { return LOGICS[q.logic] + (MODAL.includes(q.logic) ? ', ' + q.domains + ' domains' : ''); }
function plural(n, one) { return n + ' ' + one + (n === 1 ? '' : 's'); }

export function frame(page, title) {
  if (!page) return element('p', {}, 'Nothing is drawn of it here; its text is below.');
  return element('div', {}, element('iframe', { src: 'shown/' + page, title }), element('p', {}, element('a', { href: 'shown/' + page, target: '_blank', rel: 'noopener' }, 'The picture alone'), element('span', { class: 'paper' }, ' is printed from its own page.')));
}
function read(e) {
  if (!e.as.length) return;
  const last = e.as.length - 1;
  $('read').replaceChildren('Read as: ', last ? e.as.slice(0, last).join(';  ') + '  ⊢  ' : '', e.as[last], ...e.notes.flatMap(n => [element('br'), n]));
}
// One answer: what it is in a sentence, its picture, and its forms to keep.
function show(e, q, problem) {
  $('shown').replaceChildren();
  $('actions').replaceChildren();
  $('known').replaceChildren();
  $('text').hidden = true;
  if (e.kind === 'proof') {
    say('Proved in ' + name(q) + ': a derivation of ' + plural(e.steps, 'step') + ', which leancop accepts.', 'good');
    $('shown').replaceChildren(frame(e.page, 'The proof, step by step'));
  } else if (e.kind === 'structure') {
    say('No theorem of ' + name(q) + ': false in this structure of ' + plural(e.worlds, 'world') + ' and ' + plural(e.elements, 'element') + ', as leancop judges.', 'bad');
    $('shown').replaceChildren(frame(e.page, 'The structure in which it is false, and why'));
  } else return unknown(e, q);
  if (e.text) { $('text').hidden = false; $('text').querySelector('pre').textContent = e.text; }
  actions(e, q, problem);
  intoSight();
}
function intoSight() { if ($('answer').getBoundingClientRect().top > innerHeight / 2) $('answer').scrollIntoView(); }
function unknown(e, q) {
  say(e.kind === 'stopped' ? 'Stopped.' : 'Not known in ' + name(q) + ' after ' + e.seconds + ' s.');
  $('known').replaceChildren(element('ul', {}, ...e.known.map(k => element('li', {}, k))));
  const more = Math.min(600, e.seconds * 6);
  $('actions').replaceChildren(
    more > e.seconds || e.kind === 'stopped' ? element('button', { type: 'button', onclick: () => { prove({ ...q, seconds: more }); $('stop').focus({ preventScroll: true }); } }, 'Go on for ' + (more >= 60 ? more / 60 + ' min' : more + ' s')) : '',
    copyLink(undefined, q));
  intoSight();
}
export function copyLink(steps, q) {
  return element('button', { type: 'button', onclick: async event => {
    const link = new URL('..', location.href).href.replace(/[#?].*$/, '') + '#' + fragment(steps?.(), q);
    try { await navigator.clipboard.writeText(link); event.target.textContent = 'Link copied'; } catch { prompt('The link', link); }
  } }, 'Copy link');
}
function save(text, file, type = 'text/plain') {
  const url = URL.createObjectURL(new Blob([text], { type }));
  element('a', { href: url, download: file }).click();
  setTimeout(() => URL.revokeObjectURL(url), 10000);
}
function actions(e, q, problem) {
  const FILES = { tableau: 'tableau.txt', coq: 'proof.v', svg: e.kind + '.svg' };
  const other = form => element('button', { type: 'button', onclick: () => ask('export', { ...q, form, text: e.text }, made => {
    if (made.kind === 'export') save(made.text, FILES[form], form === 'svg' ? 'image/svg+xml' : undefined);
    else $('known').replaceChildren(element('p', { class: 'fault', role: 'alert' }, made.said));
  }) }, { tableau: 'Tableau', coq: 'Coq', svg: 'SVG' }[form]);
  $('actions').replaceChildren(copyLink(undefined, q),
    element('button', { type: 'button', onclick: () => save(problem(), 'problem.p') }, 'TPTP'),
    element('button', { type: 'button', onclick: () => save(e.text, e.kind + '.txt') }, e.kind === 'proof' ? 'Derivation' : 'Structure'),
    ...(e.kind === 'proof' ? [other('tableau'), other('coq')] : []), other('svg'));
}

function prove(q = question()) {
  clear();
  keep();
  say('Looking for a proof and for a counter-structure ..');
  let problem = '';
  return ask('ask', q, e => {
    if (e.kind === 'read') { problem = e.text; read(e); }
    else if (e.kind === 'misread') misread(e);
    else if (e.kind === 'refused') say(e.said, 'bad');
    else show(e, q, () => problem);
  });
}

function table() {
  clear();
  keep();
  say('Asking all logics ..');
  const cells = {}, cell = (l, d) => cells[l + ' ' + d] = element('td', {}, '..');
  const head = ['Logic', ...DOMAINS].map(t => element('th', { scope: 'col' }, t));
  const rows = Object.keys(LOGICS).map(l => {
    const row = element('tr', {}, element('th', { scope: 'row' }, l === 'classical' || l === 'intuitionistic' ? l : LOGICS[l]));
    if (!MODAL.includes(l)) { const c = cell(l, ''); c.colSpan = 3; row.append(c); } else if (l === 's5') row.append(cell(l, 'constant'), element('td', { class: 'dim' }, 'as constant'), cell(l, 'varying'));
    else row.append(...DOMAINS.map(d => cell(l, d)));
    return row;
  });
  $('table').replaceChildren(element('div', { class: 'scroll' }, element('table', {}, element('caption', { class: 'dim' }, 'In which logics it is a theorem, and with which domains'), element('thead', {}, element('tr', {}, ...head)), element('tbody', {}, ...rows))));
  let left = Object.keys(cells).length;
  const total = left, q = question();
  return ask('table', {}, e => {
    if (e.kind === 'misread') { $('table').replaceChildren(); misread(e); return; }
    if (!e.logic) { say(e.said, 'bad'); return; }
    const setting = { ...q, logic: e.logic, domains: e.domains || 'constant' }, where = cells[e.logic + ' ' + e.domains];
    const witness = (text, how) => element('button', { type: 'button', 'aria-label': text + ', ' + name(setting) + ': show why', onclick: () => {
      show(e, setting, () => e.problem);
      $('shown').scrollIntoView({ block: 'nearest' });
    } }, element('span', { class: how }, text), ' why');
    where.replaceChildren(e.kind === 'proof' ? witness('yes', 'T') : e.kind === 'structure' ? witness('no', 'F')
      : e.kind === 'other' || e.kind === 'refused' ? element('span', { class: 'dim' }, e.said) : element('span', {}, e.kind === 'stopped' ? 'stopped' : 'not known'));
    left -= 1;
    say(left ? 'Asking all logics: ' + (total - left) + ' of ' + total + ' answered.' : 'All logics have answered.');
  });
}

// ---- the parts of the page

function insert(field, text) {
  field.setRangeText(text, field.selectionStart, field.selectionEnd, 'end');
  field.focus();
}
function typed(field) {
  const at = field.selectionStart, before = field.value.slice(0, at);
  if (/^\s*(%|fof|cnf|qmf|\/\*)/.test(field.value)) return; // a problem of TPTP stays as it is
  for (const [text, sign] of TYPED) {
    // A command of letters ends before a character that is none.
    const end = /[a-z]$/i.test(text) ? before.slice(0, -1) : before, rest = before.slice(end.length);
    if (end.endsWith(text) && !/[a-z]/i.test(rest) && !(text[0] === '=' && /[<!]$/.test(end.slice(0, -2)))) {
      field.setRangeText(sign + rest.trimStart(), at - rest.length - text.length, at, 'end');
      return;
    }
  }
}
function signs() {
  let last = $('formula');
  for (const id of ['formula', 'premises']) {
    $(id).addEventListener('focus', () => { last = $(id); });
    $(id).addEventListener('input', event => { if (!event.isComposing && event.inputType === 'insertText') typed($(id)); $(id + '-fault').replaceChildren(); $(id).removeAttribute('aria-invalid'); });
    $(id).addEventListener('keydown', event => { if (event.key === 'Enter' && !event.isComposing && (event.ctrlKey || event.metaKey || (id === 'formula' && !event.shiftKey && !/^\s*(%|fof|cnf|qmf|\/\*)/.test($(id).value)))) { event.preventDefault(); prove(); } });
  }
  $('signs').append(...SIGNS.map(([sign, text, keys], i) => element('button', { type: 'button', title: 'typed ' + keys, 'aria-label': text, tabindex: i ? -1 : 0, onclick: () => insert(last, sign) }, sign)));
  $('signs').addEventListener('keydown', event => { // one stop of Tab; the arrows go from sign to sign
    const buttons = [...$('signs').children], at = buttons.indexOf(document.activeElement), to = { ArrowRight: at + 1, ArrowLeft: at - 1, Home: 0, End: buttons.length - 1 }[event.key];
    if (to === undefined || !buttons[to]) return;
    event.preventDefault();
    buttons[at].tabIndex = -1;
    buttons[to].tabIndex = 0;
    buttons[to].focus();
  });
}
async function examples() {
  const groups = await (await fetch('examples.json')).json(), all = groups.flatMap(g => g.of);
  $('example').append(...groups.map(g => element('optgroup', { label: g.group }, ...g.of.map(e => element('option', { value: all.indexOf(e) + 1 }, e.name)))));
  $('example').addEventListener('change', () => {
    const e = all[$('example').value - 1];
    if (!e) return;
    fill({ f: e.f, p: e.p || '', l: e.l, d: e.d || 'constant' });
    prove();
  });
}
function fill(words) {
  $('formula').value = words.f || '';
  $('premises').value = words.p || '';
  if (Object.hasOwn(LOGICS, words.l)) $('logic').value = words.l;
  if (DOMAINS.includes(words.d)) $('domains').value = words.d;
  modal();
}
function linked() {
  const words = { l: 'classical', d: 'constant', ...Object.fromEntries(new URLSearchParams(location.hash.slice(1))) };
  if (!words.f) { $('formula').focus(); return; }
  fill(words);
  const unknown = [...Object.hasOwn(LOGICS, words.l) ? [] : [words.l], ...DOMAINS.includes(words.d) ? [] : [words.d]];
  if (unknown.length) { clear(); say('This link asks for what is not known here: ' + shorten(unknown.join(', '), NEAR) + '.', 'bad'); return; }
  if (words.x === undefined) prove();
  else exercise(words.x ? words.x.split(';') : []);
}

signs();
modal();
$('question').addEventListener('submit', event => { event.preventDefault(); prove(); });
$('which').addEventListener('click', table);
$('yourself').addEventListener('click', () => exercise([]));
$('stop').addEventListener('click', () => { if (current?.job) post('stop', { job: current.job }).catch(() => {}); });
addEventListener('keydown', event => { if (event.key === 'Escape' && !event.isComposing && !$('stop').hidden) $('stop').click(); });
$('logic').addEventListener('change', modal);
addEventListener('hashchange', linked);
addEventListener('beforeprint', () => { $('text').open = true; });
try { localStorage.setItem('leancop-play', location.pathname); } catch { /* links without a token then need the command */ }
examples();
post('here', {}).then(({ remarks }) => { $('remarks').hidden = !remarks.length; $('remarks').textContent = remarks.join(' '); }).catch(() => {});
linked();
