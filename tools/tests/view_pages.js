// node view_pages.js FOLDER PAGE [MEASURED]: looks at pages of leancop-view in Chromium, as their readers do, and prints a line for each
// check that fails, and in the end how many held. FOLDER has even.html, trimmed.html, long.html (more than 300 steps), broad.html (with long
// formulas in cases), worlds.html, tableau.html and structure.html, all made by leancop-view, of problems with these names; PAGE is
// leancop-view.html itself. To the file MEASURED goes of each look the lowest contrast of a text, that of an edge, and the least height of
// what is pressed. On 1 December 2026 (light, dark): contrast 5.7 and 5.1, edges 4.1 and 5.4, height 26 pixels; roles are tree, treeitem,
// group, listbox, option, status.
'use strict';
const fs = require('fs'), path = require('path'), { start } = require('./chromium.js');
const [, , folder, bare, measured] = process.argv, url = name => 'file://' + path.resolve(folder, name);
let held = 0;
function check(what, fact) { if (fact) held++; else console.log('fails: ' + what); }

// What each page has, at each width and in each colour scheme.
const LOOKED_AT = `(() => {
  const rgb = s => (s.match(/[\\d.]+/g) || []).map(Number), light = c => { const [r, g, b] = c.map(x => (x /= 255) <= 0.03928 ? x / 12.92 : ((x + 0.055) / 1.055) ** 2.4); return 0.2126 * r + 0.7152 * g + 0.0722 * b; };
  const ground = n => { for (; n; n = n.parentElement) { const c = rgb(getComputedStyle(n).backgroundColor); if (c.length === 3 || c[3] > 0.9) return c.slice(0, 3); } return rgb(getComputedStyle(document.documentElement).colorScheme === 'dark' ? '0,0,0' : '255,255,255'); };
  let worst = 99, where = '';
  const texts = document.createTreeWalker(document.body, NodeFilter.SHOW_TEXT);
  for (let t; (t = texts.nextNode());) {
    const n = t.parentElement, style = getComputedStyle(n);
    if (!t.data.trim() || !n.getClientRects().length || style.visibility === 'hidden' || n.closest('svg, .heard, pre, script')) continue;
    const [a, b] = [light(rgb(style.color)), light(ground(n))].sort((x, y) => y - x), contrast = (a + 0.05) / (b + 0.05);
    if (contrast < worst) { worst = contrast; where = n.className + ' ' + t.data.slice(0, 30); }
  }
  const clickable = [...document.querySelectorAll('#page [data-step], #page button, #page input, #page summary, #page textarea')].filter(n => !n.matches('button, input, summary, textarea') && !n.closest('[role=treeitem]'));
  const edges = [...document.querySelectorAll('button, textarea')].filter(n => n.getClientRects().length).map(n => { const [a, b] = [light(rgb(getComputedStyle(n).borderTopColor)), light(ground(n.parentElement))].sort((x, y) => y - x); return (a + 0.05) / (b + 0.05); });
  const low = Math.min(...[...document.querySelectorAll('button, textarea, summary')].filter(n => n.getClientRects().length).map(n => n.getBoundingClientRect().height));
  return { worst, where, edge: Math.min(...edges), low, wide: document.documentElement.scrollWidth - innerWidth, title: document.title, without: clickable.length,
    roles: ['tree', 'treeitem', 'group', 'listbox', 'option', 'status'].filter(r => document.querySelector('[role=' + r + ']')).join(' '), landmarks: ['header', 'nav', 'main', 'h1'].filter(n => document.querySelector(n)).join(' ') };
})()`;
// Whether the first entry that a step adds, with its number and its sign, stands in sight below the buttons, and how many entries are drawn.
const IN_SIGHT = `(() => {
  const nav = document.querySelector('nav').getBoundingClientRect(), box = document.getElementById('picture').getBoundingClientRect();
  const news = [...document.querySelectorAll('#tree .new')], seen = n => { const r = n.getBoundingClientRect(); return r.height > 0 && r.top >= Math.max(0, nav.top <= 1 ? nav.bottom : 0, box.top) - 1 && Math.min(r.bottom, r.top + 24) <= Math.min(innerHeight, box.bottom) + 1 && r.left >= 0 && r.left >= box.left && r.right <= Math.min(innerWidth, box.right) + 1; };
  return news.length > 0 && [news[0], ...news[0].querySelectorAll('.n, .sign')].every(seen);
})()`;

async function looks(p, name, problem) {
  for (const [width, height] of [[1280, 800], [390, 844]]) for (const scheme of ['light', 'dark']) {
    await p.size(width, height);
    await p.scheme(scheme);
    await p.open(url(name));
    const got = await p.run(LOOKED_AT), at = name + ' at ' + width + ', ' + scheme;
    check(at + ': contrast ' + got.worst.toFixed(2) + ' of ' + got.where, got.worst >= 4.5);
    check(at + ': an edge of contrast ' + got.edge.toFixed(2) + ', ' + got.low + ' pixels high', got.edge >= 3 && got.low >= 24);
    if (measured) fs.appendFileSync(measured, [name, width, scheme, got.worst.toFixed(2), got.edge.toFixed(2), Math.round(got.low)].join('\t') + '\n');
    check(at + ': wider than the screen by ' + got.wide, got.wide <= 0);
    check(at + ': the title ' + got.title, got.title.startsWith(problem + ': '));
    check(at + ': ' + got.without + ' clickable things without a role', got.without === 0);
    if (name !== 'structure.html') check(at + ': roles ' + got.roles, got.roles === 'tree treeitem group listbox option status' && got.landmarks === 'header nav main h1');
  }
}
const count = p => p.run('document.getElementById("count").textContent');
const settle = () => new Promise(done => setTimeout(done, 60));

async function steps(p, name, width, height, most) {
  await p.size(width, height);
  await p.scheme('light');
  await p.open(url(name));
  const n = +(await count(p)).split(' of ')[1];
  await p.key('Home');
  check(name + ': Home', (await count(p)) === '0 of ' + n);
  let unseen = 0;
  for (let k = 1; k <= n; k += Math.max(1, Math.floor(n / most))) {
    await p.run('go(' + (k - 1) + ')');
    await p.key('ArrowRight');
    if (!(await p.run(IN_SIGHT)) && k < n) unseen++;
  }
  check(name + ' at ' + width + ': ' + unseen + ' steps whose entry is out of sight', unseen === 0);
}

async function keys(p) {
  await p.size(1280, 800);
  await p.open(url('long.html') + '#150');
  check('a page opened at a step', (await count(p)).startsWith('150 of'));
  check('closed cases are folded', await p.run('document.querySelectorAll("#tree .folded").length > 3 && [...document.querySelectorAll("#tree .folded")].every(n => n.getAttribute("aria-expanded") === "false")'));
  await p.run('location.hash = "#9"');
  await settle();
  check('another fragment', (await count(p)).startsWith('9 of'));
  for (let k = 0; k < 30 && !(await p.run('document.activeElement.getAttribute("role") === "treeitem"')); k++) await p.key('Tab');
  const focus = () => p.run('(document.activeElement.querySelector(".n") || document.activeElement).textContent');
  check('Tab comes to the tree', (await focus()).endsWith('1'));
  await p.key('ArrowDown');
  await p.key('ArrowDown');
  check('down in the tree', (await focus()).endsWith('3'));
  check('one entry can be reached by Tab', await p.run('document.querySelectorAll("#tree [tabindex=\\"0\\"]").length === 1'));
  await p.key('Enter');
  check('Enter goes to the step of an entry', (await count(p)).startsWith('2 of') || (await count(p)).startsWith('1 of'));
  await p.key('End');
  check('End in the tree stays in the tree', !(await count(p)).startsWith('322'));
  const { nodes } = await p.ask('Accessibility.getFullAXTree'), heard = nodes.filter(x => !x.ignored).map(x => [x.role.value, x.name ? x.name.value : '']);
  check('entries are heard with number and sign', heard.some(([role, name]) => role === 'treeitem' && /^entry\s?1\s?F/.test(name)));
  check('the step that is shown is told to a screen reader', await p.run('document.querySelectorAll("#tree [role=treeitem][aria-current=step]").length > 0'));
  check('lines are heard', heard.filter(([role]) => role === 'option').length > 300);
  await p.open(url('even.html'));
  const items = (await p.ask('Accessibility.getFullAXTree')).nodes.filter(x => !x.ignored && x.role.value === 'treeitem').map(x => x.name.value.trim());
  check('what closes a branch is heard in words: ' + items, items.includes('closed by 7 and 3'));
}

async function trims(p) {
  await p.open(url('trimmed.html'));
  const shown = +(await count(p)).split(' of ')[1], all = await p.run('page.judged.steps.length');
  check('a derivation is shown without idle steps: ' + shown + ' of ' + all, shown === 59 && all === 735);
  await p.run('document.getElementById("whole").click()');
  check('its full text is a click away', (await count(p)) === '735 of 735' && (await p.run('location.hash')) === '#all');
}

async function prints(p) {
  for (const name of ['long.html', 'worlds.html', 'structure.html']) {
    await p.size(718, 1000);
    await p.media('print');
    await p.open(url(name));
    const got = await p.run(`(() => { const all = [...document.querySelectorAll('#tree .entry, #tree .closed, .lines li, .goal, table')]; return { out: all.filter(n => n.scrollWidth > n.clientWidth + 1 || n.getBoundingClientRect().right > innerWidth + 1).length, none: all.filter(n => !n.getClientRects().length).length, cut: all.filter(n => n.scrollHeight > n.clientHeight + 3 && getComputedStyle(n).overflowY !== 'visible').length }; })()`);
    check(name + ' printed: ' + JSON.stringify(got), got.out === 0 && got.none === 0 && got.cut === 0);
    await p.media('');
  }
  const { data } = await p.ask('Page.printToPDF', {}), count = /\/Count (\d+)/.exec(Buffer.from(data, 'base64').toString('latin1'));
  check('a small structure is printed on one page: ' + count, count && count[1] === '1');
}

// The sign that folds a case stands beside its entry, also where the entry is long.
async function folds(p) {
  await p.size(390, 844);
  await p.open(url('broad.html') + '#20');
  const got = await p.run(`[...document.querySelectorAll('#tree .head')].filter(h => h.getClientRects().length).map(h => [h.firstElementChild, h.children[1]].map(n => n.getBoundingClientRect())).filter(([fold, entry]) => fold.bottom < entry.top).length`);
  check(got + ' signs that fold stand above their entries', got === 0);
}

async function judges(p) {
  await p.size(1280, 800);
  await p.open('file://' + path.resolve(bare));
  const wrong = 'leancop derivation 1\nlogic classical\nformula (p => q)\nlimit 1\nuse 1\naxiom 2 3\nend\n';
  const draw = text => p.run('document.getElementById("paste") || start(); document.getElementById("paste").value = ' + JSON.stringify(text) + '; document.getElementById("draw").click(); document.body.innerText + document.title');
  const said = await draw(wrong);
  check('a wrong derivation is rejected: ' + said.slice(0, 120), said.includes('Rejected at line 6: no connection.'));
  check('nothing of it is said to be true', !/\btrue\b|cannot be|so it is|A derivation/.test(said.replace('Nothing is proved', '')));
  const right = await draw(wrong.replace('=> q', '=> p'));
  check('a derivation of the formula in line 3', right.includes('A derivation of the formula in line 3. Judged by this page') && right.includes('so it is true'));
  const early = await draw(wrong.replace('use 1', 'us 1'));
  check('a text that is none', early.includes('Rejected at line 5: line.'));
  check('what the page cannot judge', (await draw(wrong.replace('use', '\ufffd'))).includes('Not judged.'));
  check('a structure without its formula', (await draw('leancop structure 1\nlogic classical\nworlds 1\nelements 1\nrelation 1 1\ndomain 1 1\nend\n')).includes('Not judged.'));
}

async function frames(p) {
  await p.size(1280, 800);
  fs.writeFileSync(path.join(folder, 'frame.html'), '<!DOCTYPE html><title>frame</title><iframe id="f" style="width:600px;height:700px" srcdoc="' + fs.readFileSync(path.join(folder, 'even.html'), 'utf8').replace(/&/g, '&amp;').replace(/"/g, '&quot;') + '"></iframe>');
  await p.open(url('frame.html'));
  const inside = 'document.getElementById("f").contentDocument.getElementById("count").textContent';
  check('a page in a frame', (await p.run(inside)) === '6 of 6');
  await p.run('document.getElementById("f").contentWindow.go(2)');
  check('a step in a frame', (await p.run(inside)) === '2 of 6');
  for (const name of ['structure.html', 'even.html']) {
    await p.open(url(name));
    await p.size(700, 500);
    await settle();
    await p.size(1000, 700);
    await settle();
  }
}

(async () => {
  const browser = await start(), p = await browser.page();
  try {
    for (const [name, problem] of [['even.html', 'even.p'], ['long.html', 'pigeonhole3.p'], ['worlds.html', 'converse_barcan.p'], ['tableau.html', 'drinker.p'], ['structure.html', 'barcan.p']]) await looks(p, name, problem);
    await steps(p, 'even.html', 390, 844, 20);
    await steps(p, 'long.html', 390, 844, 20);
    await steps(p, 'long.html', 1280, 800, 15);
    await steps(p, 'trimmed.html', 390, 844, 12);
    await steps(p, 'tableau.html', 390, 844, 20);
    await keys(p);
    await trims(p);
    await prints(p);
    await folds(p);
    await judges(p);
    await frames(p);
    check('no exception: ' + p.thrown.slice(0, 2).join('; '), p.thrown.length === 0);
  } finally {
    await browser.end();
  }
  console.log(held + ' held');
})().catch(e => { console.log('fails: ' + e.stack); process.exitCode = 1; });
