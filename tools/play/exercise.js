// The reader makes the proof: an entry is chosen, and the rule with what it takes; leancop judges each line.
import { ask, clear, copyLink, element, frame, keep, misread, say } from './page.js';

const $ = id => document.getElementById(id);
let state = null, chosen = null, fault = null, tried = null, hint = null;

export function exercise(steps) {
  clear();
  state = chosen = fault = hint = null;
  return request(steps);
}
function request(steps, asked) {
  return ask('exercise', { steps, asked }, e => {
    if (e.kind === 'misread') { clear(); misread(e); return; }
    if (e.kind === 'refused') { say(e.said, 'bad'); return; }
    state = e;
    fault = e.fault;
    tried = asked;
    hint = null;
    if (!fault) chosen = null;
    keep(state.steps);
    draw();
    if (fault) heard(document.querySelector('.exercise [role=alert]'));
    else if (asked) [...document.querySelectorAll('.proof button.line')].pop()?.focus(); // the newest entry of the open branch
  });
}
function help(all) {
  return ask('help', { steps: state.steps }, e => {
    if (e.kind === 'rest' && all) { request([...state.steps, ...e.steps]); return; }
    if (e.kind === 'rest') { hint = e.hint; chosen = e.asks?.entry ?? chosen; }
    else if (e.kind === 'structure') hint = 'It cannot be proved: leancop found a structure in which the formula is false. “Prove” shows it.';
    else hint = ['No proof is known here.', ...(e.known || []), e.said || ''].join(' ');
    draw();
    heard(document.querySelector('.hint'));
  });
}
// What is said anew has the focus, so that it is seen and heard, and Tab goes on behind it.
function heard(what) {
  what.tabIndex = -1;
  what.focus({ preventScroll: true });
  what.scrollIntoView({ block: 'nearest' });
}

// ---- what is shown

function draw() {
  const open = state.open, button = document.activeElement?.closest('#exercise button')?.textContent;
  if (state.done) say('Proved: leancop accepts your derivation of ' + state.steps.length + (state.steps.length === 1 ? ' step.' : ' steps.'), 'good');
  else if (fault) say('This line is not right.', 'bad');
  else say(open === 1 ? 'One branch is open.' : open + ' branches are open; the marked one comes first.');
  const tools = element('div', { class: 'tools' }, state.done ? null : ruleForm(), hint ? element('div', { class: 'hint' }, hint) : null, buttons());
  $('exercise').replaceChildren(
    element('p', { class: 'dim' }, 'Entry 1 says that the formula is false (F) at the root. Take entries apart until each branch says of one atom that it is true and that it is false.'),
    element('div', { class: 'exercise' }, element('div', {}, element('div', { class: 'proof', role: 'group', 'aria-label': 'Entries' }, branch(state.tree)), lines()), tools));
  $('actions').replaceChildren(copyLink(() => state.steps));
  $('shown').replaceChildren(...(state.done ? [frame(state.page, 'Your proof, step by step')] : []));
  $('text').hidden = !state.done;
  $('text').querySelector('pre').textContent = state.text;
  if (button) { // what was pressed is drawn anew, and keeps the focus where it is still to be pressed
    const same = [...document.querySelectorAll('#exercise button')].find(b => b.textContent === button && !b.disabled);
    if (same) same.focus({ preventScroll: true }); else heard($('said'));
  }
}
function above(b, found = []) { // the branches from the root to the marked one
  if (b.current) return [b, ...found];
  for (const below of b.fork) { const way = above(below, found); if (way.length) return [b, ...way]; }
  return [];
}
function entries() { return above(state.tree).flatMap(b => b.entries); }
function branch(b) {
  const way = above(state.tree).includes(b), list = element('ul', b.current ? { class: 'here' } : {});
  for (const e of b.entries) list.append(element('li', {}, entry(e, way)));
  if (b.closed) list.append(element('li', { class: 'line' }, element('span', { class: 'F' }, '✕ '), element('span', { class: 'n' }, 'closed by ' + b.closed.join(' and '))));
  else if (b.open) list.append(element('li', { class: 'line dim' }, b.current ? '… open, to be closed next' : '… open'));
  for (const below of b.fork) list.append(element('li', {}, branch(below)));
  return list;
}
function entry(e, way) {
  const inside = [element('span', { class: 'n' }, e.n + ' '), element('span', { class: e.sign, 'aria-label': e.sign === 'T' ? 'true' : 'false' }, e.sign), ' ' + e.formula,
    state.modal ? element('span', { class: 'world' }, '  ' + e.world) : '', e.from ? element('span', { class: 'n' }, '  from ' + e.from) : ''];
  if (!way || state.done) return element('span', { class: 'line' }, ...inside);
  return element('button', { type: 'button', class: 'line', 'aria-pressed': String(chosen === e.n), onclick: () => choose(e.n) }, ...inside);
}
function choose(n) {
  chosen = n;
  fault = null;
  draw();
  document.querySelector('.tools fieldset :is(input, button)')?.focus();
}
function radio(group, value, text, more, checked) {
  const id = group + '-' + value;
  return element('div', { class: 'choice' }, element('input', { type: 'radio', name: group, id, value, checked }), element('label', { for: id }, text), more || '');
}
function typedIn(id, options, group, value, label, text) {
  return [element('input', { type: 'text', id, value: text, list: id + '-list', 'aria-label': label, autocapitalize: 'off', autocomplete: 'off', spellcheck: 'false', oninput: () => { $(group + '-' + value).checked = true; } }),
    element('datalist', { id: id + '-list' }, ...options.map(o => element('option', { value: o })))];
}
function ruleForm() {
  const e = entries().find(x => x.n === chosen);
  if (!e) return element('p', {}, 'Choose an entry of the open branch.');
  const was = fault && tried?.entry === e.n ? tried : {}; // what was not right stands there to be mended
  const form = element('form', { autocomplete: 'off', onsubmit: event => { event.preventDefault(); apply(e, form); } },
    element('fieldset', {}, element('legend', {}, 'Take entry ' + e.n + ' apart'),
      state.modal ? element('div', { role: 'radiogroup', 'aria-label': 'at which world' }, radio('world', 'none', 'where it stands', null, was.to === undefined && !was.new),
        radio('world', 'to', 'at a world that is reached:', element('span', {}, ...typedIn('to', state.worlds, 'world', 'to', 'world', was.to)), was.to !== undefined), radio('world', 'new', 'at a new world', null, was.new)) : '',
      state.modal ? element('hr') : '',
      element('div', { role: 'radiogroup', 'aria-label': 'for whom' }, radio('who', 'none', 'for nobody in particular', null, was.term === undefined && !was.name),
        radio('who', 'term', 'for the term:', element('span', {}, ...typedIn('term', state.terms, 'who', 'term', 'term', was.term)), was.term !== undefined), radio('who', 'name', 'for someone with a new name', null, was.name)),
      element('div', { class: 'row' }, element('button', { class: 'first' }, 'Apply'))),
    element('fieldset', {}, element('legend', {}, 'Or close the branch'), element('div', { class: 'choice' }, element('label', { for: 'other' }, 'entry ' + e.n + ' contradicts entry'),
      element('select', { id: 'other' }, ...entries().filter(x => x.n !== e.n).map(x => element('option', { value: x.n, selected: x.n === was.other }, x.n + ' ' + x.sign + ' ' + x.formula.slice(0, 40)))),
      element('button', { type: 'button', onclick: () => request(state.steps, { rule: 'axiom', entry: e.n, other: +$('other').value }) }, 'Close'))),
    element('details', {}, element('summary', {}, 'What does its rule say?'), element('p', {}, e.rule)));
  return form;
}
function apply(e, form) {
  const picked = new FormData(form), asked = { rule: 'use', entry: e.n };
  if (picked.get('world') === 'to') asked.to = $('to').value;
  if (picked.get('world') === 'new') asked.new = true;
  if (picked.get('who') === 'term') asked.term = $('term').value;
  if (picked.get('who') === 'name') asked.name = true;
  request(state.steps, asked);
}
function buttons() {
  const button = (text, onclick, disabled) => element('button', { type: 'button', onclick, disabled }, text);
  const none = !state.steps.length;
  return element('div', { class: 'row' }, button('Hint', () => help(false), state.done), button('The rest', () => help(true), state.done),
    button('Take back', () => request(state.steps.slice(0, -1)), none), button('Start again', () => request([]), none));
}
function lines() {
  const list = element('ol', { 'aria-label': 'Lines of the derivation' }, ...state.steps.map(s => element('li', {}, element('code', {}, s))));
  if (fault) list.append(element('li', {}, element('code', {}, fault.line), element('span', { class: 'fault', role: 'alert' }, fault.said + ' (' + fault.word + ')' + (fault.lost ? ' ' + fault.lost + (fault.lost === 1 ? ' line behind it is' : ' lines behind it are') + ' left out.' : ''))));
  return list;
}
