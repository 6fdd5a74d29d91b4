// Chromium without a window, driven by its debugging pipe, from Node without packages. `start()` gives {page, end}; a page has what a
// test asks of it: a size, a colour scheme, keys, and what its script says.
'use strict';
const { spawn } = require('child_process'), fs = require('fs'), os = require('os'), path = require('path');
const KEYS = { ArrowLeft: 37, ArrowUp: 38, ArrowRight: 39, ArrowDown: 40, Home: 36, End: 35, Tab: 9, Enter: 13, Escape: 27 };

exports.start = async function () {
  const profile = fs.mkdtempSync(path.join(os.tmpdir(), 'chromium'));
  const browser = spawn('chromium', ['--headless=new', '--no-sandbox', '--disable-gpu', '--disable-dev-shm-usage', '--no-first-run', '--remote-debugging-pipe', '--user-data-dir=' + profile, 'about:blank'],
    { stdio: ['ignore', 'ignore', 'ignore', 'pipe', 'pipe'] });
  const waiting = new Map(), listeners = new Set();
  let said = '', last = 0;
  browser.stdio[4].on('data', data => {
    said += data;
    for (let at; (at = said.indexOf('\0')) >= 0; said = said.slice(at + 1)) {
      const message = JSON.parse(said.slice(0, at)), asked = waiting.get(message.id);
      waiting.delete(message.id);
      if (asked) message.error ? asked.fail(new Error(message.error.message)) : asked.done(message.result);
      else listeners.forEach(hear => hear(message));
    }
  });
  const send = (method, params = {}, sessionId = undefined) => new Promise((done, fail) => {
    waiting.set(++last, { done, fail });
    browser.stdio[3].write(JSON.stringify({ id: last, method, params, sessionId }) + '\0');
  });
  const page = async () => {
    const { targetId } = await send('Target.createTarget', { url: 'about:blank' });
    const { sessionId } = await send('Target.attachToTarget', { targetId, flatten: true });
    const ask = (method, params) => send(method, params, sessionId), thrown = [];
    listeners.add(m => { if (m.sessionId === sessionId && m.method === 'Runtime.exceptionThrown') thrown.push(m.params.exceptionDetails.exception ? m.params.exceptionDetails.exception.description : m.params.exceptionDetails.text); });
    await ask('Page.enable');
    await ask('Runtime.enable');
    return {
      ask, thrown,
      size: (width, height) => ask('Emulation.setDeviceMetricsOverride', { width, height, deviceScaleFactor: 1, mobile: width < 600 }),
      scheme: value => ask('Emulation.setEmulatedMedia', { features: [{ name: 'prefers-color-scheme', value }] }),
      media: value => ask('Emulation.setEmulatedMedia', { media: value }),
      async open(url) {
        await ask('Page.navigate', { url: 'about:blank' }); // so that another fragment is another load
        await ask('Page.navigate', { url });
        for (let n = 0; n < 400; n++) {
          const there = await this.run('document.readyState + location.href').catch(() => '');
          if (there.startsWith('complete' + url.split('#')[0])) return;
          await new Promise(done => setTimeout(done, 25));
        }
        throw new Error('no page ' + url);
      },
      async run(script) {
        const { result, exceptionDetails } = await ask('Runtime.evaluate', { expression: script, returnByValue: true, awaitPromise: true });
        if (exceptionDetails) throw new Error(exceptionDetails.exception.description + ' in ' + script.slice(0, 200));
        return result.value;
      },
      async key(name) {
        const what = { key: name, code: name, windowsVirtualKeyCode: KEYS[name] };
        await ask('Input.dispatchKeyEvent', { type: 'keyDown', ...what });
        await ask('Input.dispatchKeyEvent', { type: 'keyUp', ...what });
      },
      async picture(file) { fs.writeFileSync(file, Buffer.from((await ask('Page.captureScreenshot', { format: 'png' })).data, 'base64')); },
      async print(file) { fs.writeFileSync(file, Buffer.from((await ask('Page.printToPDF', { preferCSSPageSize: true })).data, 'base64')); },
    };
  };
  const end = async () => {
    const gone = new Promise(done => browser.on('exit', done));
    await send('Browser.close').catch(() => browser.kill());
    await gone;
    fs.rmSync(profile, { recursive: true, force: true });
  };
  return { page, end };
};
