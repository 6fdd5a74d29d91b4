// node play_browser.js LINK [FOLDER]: the page of leancop-play in Chromium, as its readers use it. Prints the number of looks that came out
// as wanted, and each that did not. With FOLDER, pictures are put there, and measured.tsv: of each look the lowest contrast of a text, that
// of an edge, and the height of the lowest button or field.
// On 1 December 2026 (light, dark): contrast 5.6 and 5.8, edges 3.1 and 3.5, height 24 pixels; roles are those of HTML's own elements,
// toolbar, status, alert, radiogroup. What is printed is not tried here.
'use strict';
const fs = require('fs');
const { start } = require('./chromium.js');
const later = ms => new Promise(done => setTimeout(done, ms));
const [link, folder] = process.argv.slice(2);
const ENDLESS = '∀x ∃y R(x,y), ∀x∀y∀z (R(x,y) ∧ R(y,z) → R(x,z)) ⊢ ∃x R(x,x)';
let passed = 0, failed = 0;
function same(what, got, wanted) {
  if (JSON.stringify(got) === JSON.stringify(wanted)) passed++;
  else { failed++; console.log('play_browser.js: ' + what + ': ' + JSON.stringify(got).slice(0, 300) + ' is not ' + JSON.stringify(wanted)); }
}
// A tab as a reader uses it: in front, with keys that type.
async function tab(browser) {
  const page = await browser.page(), { ask } = page;
  await ask('Emulation.setFocusEmulationEnabled', { enabled: true });
  const press = async (key, text, code = 0) => {
    await ask('Input.dispatchKeyEvent', { type: 'keyDown', key, text, code: key, windowsVirtualKeyCode: code });
    await ask('Input.dispatchKeyEvent', { type: 'keyUp', key, code: key, windowsVirtualKeyCode: code });
  };
  return Object.assign(page, {
    go: async url => {
      await ask('Page.bringToFront'); // a tab behind another one is not drawn
      await ask('Page.navigate', { url: 'about:blank' });
      await ask('Page.navigate', { url });
    },
    enter: () => press('Enter', '\r', 13),
    typed: async text => { for (const c of text) await press(c, c); },
    // Whether something comes true, soon.
    until: async (script, seconds = 30) => {
      for (const end = Date.now() + 1000 * seconds; Date.now() < end; await later(50)) if (await page.run(script).catch(() => false)) return true;
      return false;
    },
    whole: async file => {
      const { cssContentSize: { width, height } } = await ask('Page.getLayoutMetrics');
      const { data } = await ask('Page.captureScreenshot', { format: 'png', captureBeyondViewport: true, clip: { x: 0, y: 0, width, height: Math.min(height, 4000), scale: 1 } });
      fs.writeFileSync(file, Buffer.from(data, 'base64'));
    },
    named: async () => (await ask('Accessibility.getFullAXTree')).nodes.filter(n => !n.ignored),
  });
}
const asked = words => link + '#' + new URLSearchParams(words);
const SAID = 'document.getElementById("said").textContent';

// The lowest contrasts and the least height: of texts with what is behind them, 4.5; of the edges of fields and buttons, 3; and 24 pixels for
// what is pressed. What is lower is told. Parts that are disabled have no need of it.
const MEASURED = `(() => {
  const numbers = c => (c.match(/[\\d.]+/g) || []).map(Number), light = ([r, g, b]) => [r, g, b].map(v => v / 255).map(v => v <= .03928 ? v / 12.92 : ((v + .055) / 1.055) ** 2.4).reduce((s, v, i) => s + v * [.2126, .7152, .0722][i], 0);
  const behind = e => { for (; e; e = e.parentElement) { const c = numbers(getComputedStyle(e).backgroundColor); if (c.length === 3 || c[3] > 0) return c; } return matchMedia('(prefers-color-scheme: dark)').matches ? [0, 0, 0] : [255, 255, 255]; };
  const contrast = (colour, ground) => { const [a, b] = [light(numbers(colour)), light(ground)].sort((x, y) => y - x); return (a + .05) / (b + .05); };
  const least = { text: 99, edge: 99, height: 999 }, low = [];
  const look = (what, of, wanted, e) => { least[what] = Math.min(least[what], of); if (of < wanted) low.push(what + ' ' + of.toFixed(2) + ' ' + e.tagName + '.' + e.className + ' ' + e.textContent.trim().slice(0, 20)); };
  for (const e of document.querySelectorAll('body *')) {
    const style = getComputedStyle(e);
    if (e.disabled || !e.getClientRects().length || style.visibility === 'hidden') continue;
    if ([...e.childNodes].some(n => n.nodeType === 3 && n.textContent.trim())) look('text', contrast(style.color, behind(e)), 4.5, e);
    if (e.placeholder && !e.value) look('text', contrast(getComputedStyle(e, '::placeholder').color, behind(e)), 4.5, e);
    if (e.matches('button, select, textarea, input[type=text]')) look('edge', contrast(style.borderTopColor, behind(e.parentElement)), 3, e);
    if (e.matches('button, select, textarea, input[type=text], summary')) look('height', e.getBoundingClientRect().height, 24, e);
  }
  return { ...least, low };
})()`;
const NAMED = new Set(['button', 'textbox', 'combobox', 'radio', 'link', 'Iframe', 'toolbar', 'table']);
async function looked(page, what) {
  for (const [width, height] of [[1280, 900], [390, 844]]) {
    await page.size(width, height);
    for (const scheme of ['light', 'dark']) {
      await page.scheme(scheme);
      const { text, edge, height: least, low } = await page.run(MEASURED);
      same(what + ', contrast and height, ' + scheme + ' at ' + width, low, []);
      if (folder) fs.appendFileSync(folder + '/measured.tsv', [what, width, scheme, text.toFixed(2), edge.toFixed(2), Math.round(least)].join('\t') + '\n');
      if (folder) await later(500);
      if (folder) await (width < 600 ? page.whole : page.picture)(folder + '/' + what.replace(/\W+/g, '_') + '_' + width + '_' + scheme + '.png');
    }
    same(what + ', width ' + width, await page.run('document.documentElement.scrollWidth <= innerWidth'), true);
  }
  await page.size(1280, 900);
  await page.scheme('light');
  same(what + ', names', (await page.named()).filter(n => NAMED.has(n.role.value) && !(n.name && n.name.value)).map(n => n.role.value), []);
}
const drawn = '!!document.querySelector("#shown iframe")';

async function answers(page, other) {
  await page.go(link);
  await page.until('document.querySelectorAll("#example option").length > 10');
  await looked(page, 'the start');

  // By keyboard alone: the field has the focus, signs are typed as on a keyboard, Enter asks.
  await page.typed('forall x (Px -> Qx) -> (forall x Px -> forall x Qx)');
  same('what was typed', await page.run('document.getElementById("formula").value'), 'forall x (Px → Qx) → (forall x Px → forall x Qx)');
  await page.enter();
  same('a proof', await page.until(drawn) && await page.run(SAID), 'Proved in classical logic: a derivation of 8 steps, which leancop accepts.');
  same('how it was read', await page.run('document.getElementById("read").textContent'), 'Read as: ∀x (P(x) → Q(x)) → (∀x P(x) → ∀x Q(x))');
  await looked(page, 'a proof');
  await page.size(390, 844);
  await page.go(await page.run('location.href'));
  same('the answer is in sight on a phone', await page.until(drawn) && await page.run('Math.abs(document.getElementById("answer").getBoundingClientRect().top) < 20'), true);
  await page.size(1280, 900);
  same('the address', await page.run('new URLSearchParams(location.hash.slice(1)).get("f")'), 'forall x (Px → Qx) → (forall x Px → forall x Qx)');
  same('the text', await page.run('document.querySelector("#text pre").textContent.startsWith("leancop derivation 1\\n")'), true);

  await page.go(asked({ f: 'p ∨ ¬p', l: 'intuitionistic' }));
  const refutes = await page.until(drawn);
  if (refutes) {
    same('a structure', await page.run(SAID), 'No theorem of intuitionistic logic: false in this structure of 2 worlds and 1 element, as leancop judges.');
    await looked(page, 'a structure');
    await other.go(await page.run('document.querySelector("#shown a").href'));
    same('its picture alone', await other.until('/makes the formula false/.test(document.body.innerText)'), true);
  } else same('without a structure', /^Not known in intuitionistic logic/.test(await page.run(SAID)), true);

  await page.go(asked({ f: '∀x (P(x) → )', l: 'classical' }));
  await page.until('document.querySelector("#formula-fault mark")');
  same('a formula that does not parse', await page.run('[document.querySelector("#formula-fault mark").textContent, document.activeElement.id, document.activeElement.selectionStart, document.activeElement.getAttribute("aria-invalid")]'), [')', 'formula', 11, 'true']);
  same('what is heard of it', (await page.named()).filter(n => n.role.value === 'textbox' && n.name.value === 'Formula').map(n => n.description.value.replace(/\s+/g, ' ').trim()), ['At character 12, “)”: A formula is wanted here.']);
  await looked(page, 'a misread formula');
  await page.go(asked({ f: 'p → p', l: 'k' }));
  same('a link of a logic that is not there', await page.until(SAID) && await page.run(SAID), 'This link asks for what is not known here: k.');

  await page.go(asked({ f: '□p → p', l: 't', d: 'varying' }));
  await page.until(drawn);
  await page.run('document.getElementById("which").click()');
  same('all logics', await page.until('/have answered/.test(' + SAID + ')') && await page.run('[...document.querySelectorAll("#table .T")].length'), 8);
  await looked(page, 'all logics');
  await page.run('document.querySelector("#table .T").closest("button").click()');
  same('a witness', await page.run(drawn + ' && ' + SAID), 'Proved in T, constant domains: a derivation of 3 steps, which leancop accepts.');
}

// The picture in a tab of its own, which has no origin there, at a step.
async function alone(page, other) {
  await page.go(asked({ f: '∃x (D(x) → ∀y D(y))', l: 'classical' }));
  await page.until(drawn);
  await other.go(await page.run('document.querySelector("#shown a").href') + '#2');
  same('the picture alone', await other.until('/use 1 term/.test(document.body.innerText)'), true);
  same('it has the names that were typed', await other.run('[document.title, document.querySelector(".goal").textContent]'), ['∃x (D(x) → ∀y D(y)): a derivation', '∃x (D(x) → ∀y D(y))']);
  await page.go(asked({ f: '∀x (x ∈ A → x ∈ B) → (a ∈ A → a ∈ B)', l: 'classical' }));
  await page.until(drawn);
  await other.go(await page.run('document.querySelector("#shown a").href'));
  same('a relation between its arguments', await other.until('!!document.querySelector(".goal")') && await other.run('document.querySelector(".goal").textContent'), '∀x ((x ∈ A) → (x ∈ B)) → ((a ∈ A) → (a ∈ B))');
}

async function stopped(page, other) {
  await page.go(asked({ f: 'p', l: 'classical' }));
  await page.until('/^(Not|No)/.test(' + SAID + ')');
  await page.run(`document.getElementById("seconds").value = "60"; document.getElementById("formula").value = ${JSON.stringify(ENDLESS)}; document.getElementById("prove").click()`);
  await later(1500);
  same('it runs', await page.run('!document.getElementById("stop").hidden'), true);
  await page.run('document.getElementById("premises").focus()');
  await page.typed('q');
  same('the page can be used meanwhile', await page.run('document.getElementById("premises").value'), 'q');
  // A second tab, by a link without the token: this browser knows the way in.
  const { origin } = new URL(link);
  await other.go(origin + '/#' + new URLSearchParams({ f: 'p → p', l: 'classical' }));
  same('a second tab', await other.until(drawn) && (await other.run(SAID)).slice(0, 6), 'Proved');
  same('the row of buttons stays one row', await page.run('document.getElementById("stop").offsetTop === document.getElementById("prove").offsetTop'), true);
  await page.ask('Page.bringToFront');
  await page.key('Escape');
  same('stopped', await page.until(SAID + ' === "Stopped."', 4), true);
  same('it can go on', await page.run('/^Go on for/.test(document.querySelector("#actions button").textContent)'), true);
}

async function exercises(page) {
  await page.go(asked({ f: '□(p → q) → (□p → □q)', l: 'd', d: 'constant', x: '' }));
  await page.until('document.querySelectorAll(".proof button.line").length === 1');
  const press = async n => {
    await page.run(`[...document.querySelectorAll(".proof button.line")].find(b => b.textContent.startsWith("${n} ")).focus()`);
    await page.enter();
  };
  // By keyboard: choose an entry, Tab to the rule, Enter.
  await press(1);
  await page.enter();
  same('the first step', await page.until('document.querySelectorAll(".proof button.line").length === 3'), true);
  await press(2);
  await page.enter();
  same('a wrong line, in words', await page.until('document.querySelector(".exercise [role=alert]")') && await page.run('document.querySelector(".exercise [role=alert]").textContent'),
    'Entry 2 is T □(p → q): its rule takes a world that is reached (to). (wrong arguments)');
  same('the wrong line has the focus', await page.run('document.activeElement.getAttribute("role")'), 'alert');
  await looked(page, 'a wrong line');
  await page.run('[...document.querySelectorAll(".tools button")].find(b => b.textContent === "Hint").focus()');
  await page.enter();
  same('a hint', await page.until('document.querySelector(".hint")') && (await page.run('document.activeElement.className + document.querySelector(".hint").textContent')).slice(0, 30), 'hintUse entry 3, F □p → □q. A ');
  await press(3);
  await page.enter();
  await page.until('document.querySelectorAll(".proof button.line").length === 5');
  await press(5);
  await page.key('ArrowDown');
  await page.key('ArrowDown');
  await page.enter();
  same('a new world', await page.until('document.querySelectorAll(".proof button.line").length === 6') && await page.run('location.hash.includes("use+5+new+%24%24c1")'), true);
  await looked(page, 'an exercise');
  const kept = await page.run('location.href');
  await page.go(kept);
  same('kept in the link', await page.until('document.querySelectorAll(".proof button.line").length === 6'), true);
  await page.run('[...document.querySelectorAll(".tools button")].find(b => b.textContent === "The rest").click()');
  same('the rest', await page.until(drawn) && await page.run(SAID), 'Proved: leancop accepts your derivation of 8 steps.');
  await looked(page, 'an exercise that is done');
  await page.go(asked({ f: 'p → q', l: 'classical', x: 'use 1;axiom 2 3' }));
  same('a wrong text', await page.until('document.querySelector(".exercise [role=alert]")') && await page.run('[' + SAID + ', document.querySelector(".exercise [role=alert]").textContent, ' + drawn + ']'),
    ['This line is not right.', 'p and q are different atoms. (no connection)', false]);
  same('what is left of it', await page.run('document.querySelectorAll(".proof button.line").length'), 3);
  await page.go(asked({ f: 'P(a) → ∃x P(x)', l: 't', x: 'use 1' }));
  await page.until('document.querySelectorAll(".proof button.line").length === 3');
  await press(3);
  await page.run('document.getElementById("term").focus()');
  await page.typed('f((');
  await page.enter();
  same('a wrong term stays to be mended', await page.until('document.querySelector(".exercise [role=alert]")') && await page.run('[document.getElementById("term").value, document.getElementById("who-term").checked]'), ['f((', true]);
}

(async () => {
  const browser = await start();
  try {
    const page = await tab(browser), other = await tab(browser);
    await page.size(1280, 900);
    await answers(page, other);
    await alone(page, other);
    await stopped(page, other);
    await exercises(page);
    same('exceptions', [...page.thrown, ...other.thrown], []);
  } catch (fault) {
    failed++;
    console.log('play_browser.js: ' + fault.stack);
  } finally {
    await browser.end();
  }
  console.log(passed + ' as wanted');
  process.exit(failed ? 1 : 0);
})();
