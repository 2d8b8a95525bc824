// robequarry.js in a browser without a window: from one page that has everything inlined, and from files that are served.
// Where Debian's chromium is not installed, the tests say so and are left out.
import assert from 'node:assert/strict';
import { execFile, spawnSync } from 'node:child_process';
import { mkdtempSync, readFileSync, rmSync, writeFileSync } from 'node:fs';
import { createServer } from 'node:http';
import { tmpdir } from 'node:os';
import { join } from 'node:path';
import { test } from 'node:test';
import { fileURLToPath } from 'node:url';
import { promisify } from 'node:util';

const here = new URL('.', import.meta.url);
const source = readFileSync(new URL('robequarry.js', here), 'utf8');
const texts = readFileSync(new URL('texts.js', here), 'utf8');
const bytes = readFileSync(new URL('../target/wasm32/robequarry.wasm', here));
const missing = spawnSync('chromium', ['--version']).status !== 0;
const skip = missing && "'chromium' is not installed (Debian: chromium). Left out: the JavaScript module in a browser";

// What each page does with an engine: its text tells how it went.
const ask = `
  const told = rq.test({ start: { col: 0, row: 0 }, letters: '111033003222' });
  const holder = rq.holder();
  holder.begin(0, { col: 0, row: 0 });
  for (const letter of [1, 0, 3, 2]) holder.add(0, letter);
  holder.close(0, 0);
  const near = holder.reading(0, 0, { angle: 2 ** -149, load: 0 }).word;
  document.body.textContent = JSON.stringify([told.refusal, near]);`;
const expected = '[{"number":9,"name":"dent","piece":2,"place":4,"length":4,"cell":{"col":1,"row":1}},"outside"]';

const page = (script, policy = '') => `<!DOCTYPE html><html><head><meta charset="utf-8">${policy}</head><body>nothing yet
<script type="module">${script}</script></body></html>`;

// The page's text, once its script has run.
async function textOf(address) {
  const folder = mkdtempSync(join(tmpdir(), 'robequarry-'));
  try {
    const words = ['--headless', '--no-sandbox', '--disable-gpu', '--disable-dev-shm-usage', `--user-data-dir=${folder}`,
      '--virtual-time-budget=10000', '--dump-dom', address];
    const { stdout } = await promisify(execFile)('chromium', words, { timeout: 120000, killSignal: 'SIGKILL' });
    return /<body>([^<]*)/.exec(stdout)[1].trim();
  } finally {
    rmSync(folder, { recursive: true, force: true });
  }
}

// The package as a bundler makes one script of it, for a browser.
const noBundler = spawnSync('esbuild', ['--version']).status !== 0;
const skipBundle = skip || (noBundler && "'esbuild' is not installed (Debian: esbuild). Left out: a bundle of the JavaScript module");
function bundled() {
  const words = ['--bundle', '--format=iife', '--global-name=robequarry', '--platform=browser', fileURLToPath(new URL('robequarry.js', here))];
  const { status, stdout, stderr } = spawnSync('esbuild', words, { encoding: 'utf8' });
  assert.equal(status, 0, stderr);
  return stdout;
}

test('one page with a bundle in it, from a file, which may fetch nothing', { skip: skipBundle }, async () => {
  const folder = mkdtempSync(join(tmpdir(), 'robequarry-'));
  const policy = `<meta http-equiv="Content-Security-Policy"
    content="default-src 'none'; script-src 'unsafe-inline' 'wasm-unsafe-eval'">`;
  const inlined = `${bundled()}
    const rq = robequarry.loadSync(Uint8Array.from(atob('${bytes.toString('base64')}'), (c) => c.charCodeAt(0)));${ask}`;
  try {
    writeFileSync(join(folder, 'page.html'), page(inlined, policy));
    assert.equal(await textOf(`file://${folder}/page.html`), expected);
  } finally {
    rmSync(folder, { recursive: true, force: true });
  }
});

test('a page that fetches the module', { skip }, async () => {
  const files = {
    '/': ['text/html', page(`import { load } from './robequarry.js'; const rq = await load('robequarry.wasm');${ask}`)],
    '/robequarry.js': ['text/javascript', source],
    '/texts.js': ['text/javascript', texts],
    '/robequarry.wasm': ['application/wasm', bytes],
  };
  const server = createServer((request, response) => {
    const [type, content] = files[request.url] ?? ['text/plain', ''];
    response.writeHead(files[request.url] ? 200 : 404, { 'content-type': type }).end(content);
  });
  await new Promise((ready) => server.listen(0, '127.0.0.1', ready));
  try {
    assert.equal(await textOf(`http://127.0.0.1:${server.address().port}/`), expected);
  } finally {
    server.closeAllConnections();
    server.close();
  }
});
