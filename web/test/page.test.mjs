import assert from 'node:assert/strict';
import {mkdirSync, mkdtempSync, readFileSync, rmSync, writeFileSync} from 'node:fs';
import {tmpdir} from 'node:os';
import {join} from 'node:path';
import {after, before, describe, it} from 'node:test';
import {gzipSync} from 'node:zlib';
import {Browser, PAGE, chromium} from './browser.mjs';
import {example, forgeDatums, longSearch, made, small, withChange, withLine} from './texts.mjs';

const room = mkdtempSync(join(tmpdir(), 'page-'));
const OUTSIDE = /<(link|img|iframe|object|embed|base|form|audio|video|source)\b|\bimport\(|@import|\burl\(/i;
const MARKUP = ['innerHTML', 'outerHTML', 'insertAdjacentHTML', 'document\\.write', '\\beval\\b', 'new Function',
  'DOMParser', 'createContextualFragment', 'srcdoc'];
const ESCAPE = {key: 'Escape', code: 'Escape', windowsVirtualKeyCode: 27};
const TAB = {key: 'Tab', code: 'Tab', windowsVirtualKeyCode: 9};
const RED = 'rgb(176, 30, 23)';
/** The names of the files that the input holds. */
const HELD = '[...document.querySelector("#file").files].map(file => file.name)';
const SPACE = {key: ' ', code: 'Space', windowsVirtualKeyCode: 32, text: ' '};

/**
 * @param {string} name
 * @param {string | Buffer} text
 */
function put(name, text) {
  writeFileSync(join(room, name), text, 'latin1');
  return join(room, name);
}

describe('certificate.html', () => {
  const page = readFileSync(PAGE, 'utf8');
  it('names nothing outside', () => {
    const addresses = [...page.matchAll(/https?:\/\/[^\s"'<>]*/g)].map(found => found[0]);
    assert.deepEqual(addresses, ['http://www.w3.org/2000/svg']);
    assert.doesNotMatch(page.replace(/\/\*\*[^]*?\*\//g, ''), OUTSIDE);
  });
  it('writes no markup of words', () => assert.doesNotMatch(page, new RegExp(MARKUP.join('|'))));
  it('has a policy that forbids every request, and the hash of each script', () => {
    const [, policy] = /http-equiv="Content-Security-Policy" content="([^"]*)"/.exec(page) ?? [];
    const hash = '\'sha256-[^\' ]+\'';
    assert.match(policy, new RegExp(
      `^default-src 'none'; script-src ${hash}; worker-src blob:; style-src ${hash}; base-uri 'none'; `
      + 'form-action \'none\'; require-trusted-types-for \'script\'; trusted-types worker$'));
  });
});

const skip = chromium ? false : 'skipped: the page in a browser: Chromium isn\'t installed';
describe('the page in a browser', {skip, timeout: 900_000}, () => {
  /** @type {Browser} */
  let browser;
  before(() => { browser = new Browser(); });
  after(async () => {
    await browser.close();
    rmSync(room, {recursive: true});
  });

  /**
   * @param {string} path
   * @param {{how?: 'choose' | 'drop', width?: number, seconds?: number}} [options]
   */
  async function shown(path, {how, width, seconds} = {}) {
    const page = await browser.open({width});
    await page.give(path, how);
    const title = await page.verdict(seconds);
    return {page, title, words: await page.words()};
  }
  const isClean = (/** @type {import('./browser.mjs').Page} */ page) =>
    assert.deepEqual([page.faults(), page.requests()], [[], []]);
  const has = (/** @type {string} */ words, /** @type {string[]} */ parts) =>
    assert.deepEqual(parts.filter(part => !words.includes(part)), []);

  it('a true text', async () => {
    const {page, title, words} = await shown(put('true.cert', example()));
    assert.equal(title, 'Certified');
    has(words, ['2022.7753 m', '-468.6315 m', '2610.2942 m', '-953.3378 m', '3196.2442 m', '-6.4003 m', '3335.3967 m',
      '2005-04-02', '00:00:00 to 00:14:30', '09:18 to 09:32', '13.6 times', 'not proved itself', '0.03 mm', '17.8 mm']);
    const shapes = '#verdict.good, .sky path.arc, .panels svg';
    assert.equal(await page.value(`document.querySelectorAll("${shapes}").length`), 1 + 7 + 4);
    assert.deepEqual(await page.value(HELD), ['true.cert']);
    isClean(page);
  });
  it('dropped, and the input names it', async () => {
    const {page, title} = await shown(put('true.cert', example()), {how: 'drop'});
    assert.equal(title, 'Certified');
    assert.deepEqual(await page.value(HELD), ['true.cert']);
    isClean(page);
  });
  it('of two files at once none is checked, and the page says so', async () => {
    const files = [put('true.cert', example()), put('cut.cert', example().slice(0, 9000))];
    const {page} = await shown(files[0]);
    await page.until('document.title.startsWith("Certified")', 60);
    await page.give(files, 'drop');
    await page.until('/^More/.test(document.querySelector("#verdict h2")?.textContent)', 60);
    const words = await page.words();
    has(words, ['More than one file: nothing was checked', 'These are 2 files. Choose or drop one at a time.']);
    assert.doesNotMatch(words, /2022\.77|Certified/);
    assert.deepEqual(await page.value(HELD), []);
    assert.equal(await page.value('document.title'), 'Check a Baseline certificate');
    await page.give(files[1], 'drop');
    await page.until('document.querySelector("#verdict h2")?.textContent === "Not a certificate"', 60);
    isClean(page);
  });
  it('a click empties the input, so that the same file can be chosen again, and a cancelled one fills it', async () => {
    const {page} = await shown(put('true.cert', example()));
    await page.value('file.addEventListener("click", event => event.preventDefault())');
    await page.value('file.click()');
    assert.deepEqual(await page.value(HELD), []);
    await page.value('file.dispatchEvent(new Event("cancel"))');
    assert.deepEqual(await page.value(HELD), ['true.cert']);
    isClean(page);
  });
  it('a text for a smaller ratio is red', async () => {
    const {page, title} = await shown(put('low.cert', withLine(example(), 2, 'ratio 1500')));
    assert.equal(title, 'Certified, but only for the ratio 1.5');
    assert.equal(await page.value('getComputedStyle(document.querySelector("#verdict h2")).color'), RED);
    isClean(page);
  });
  it('a noted text is red, and its claim is of the free arcs alone', async () => {
    const {page, title, words} = await shown(put('noted.cert', forgeDatums(example())));
    assert.equal(title, 'Certified, but not as the program writes it');
    has(words, ['note: arc 2 is called datum', 'of the arcs that the text calls free, 1 of 7,']);
    const colour = await page.value('getComputedStyle(document.querySelector(".notes")).color');
    assert.equal(colour, RED);
    isClean(page);
  });
  it('a forged text shows no vector', async () => {
    const text = withChange(example(), 'move', () => 'move -2233 -2719 13278');
    const {page, title, words} = await shown(put('forged.cert', text));
    assert.equal(title, 'Not certified: the text says another thing than its rows');
    has(words, ['not certified tail']);
    assert.doesNotMatch(words, /2022\.77|base to the rover/);
    isClean(page);
  });
  it('a cut text, with a hint', async () => {
    const {page, title, words} = await shown(put('cut.cert', example().slice(0, 9000)));
    assert.equal(title, 'Not a certificate');
    assert.match(words, /refused: line \d+ column 1: bad line/);
    has(words, ['cut off on its way']);
    isClean(page);
  });
  it('what a mail program or a packer has changed, with a hint', async () => {
    has((await shown(put('mail.cert', example().replaceAll('\n', '\r\n')))).words, ['CR LF']);
    has((await shown(put('cert.gz', gzipSync(example())))).words, ['This is a gzip file.']);
  });
  it('hostile texts and names are words alone', async () => {
    const markup = '<img src=x onerror=document.title=1><script>document.title=1</script>';
    /** @type {[string, string][]} */
    const texts = [['<img src=x onerror=document.title=1>\u202e\n.cert', withLine(small(), 4, `system ${markup}`)],
      ['a.cert', markup], ['b.cert', `declined ${markup}`], ['c.cert', small(`declined ${markup}`)],
      ['d.cert', withLine(small(), 2, `ratio ${'9'.repeat(4090)}`)],
      ['e.cert', withLine(small(), 8, 'arcs 999999999999999999999')], ['f.cert', 'ab\n'.repeat(2_000_000)],
      ['g.cert', '\0'.repeat(100_000)]];
    for (const [name, text] of texts) {
      const {page, title, words} = await shown(put(name, text));
      assert.equal(title, 'Not a certificate', name);
      assert.doesNotMatch(words, /onerror=.*\/script|9999/);
      assert.equal(await page.value('document.querySelectorAll("img, #answer script").length'), 0);
      assert.notEqual(await page.value('document.title'), '1');
      isClean(page);
    }
  });
  it('a folder, and a file that went away', async () => {
    const folder = join(room, 'folder'), gone = put('gone.cert', example());
    mkdirSync(folder);
    const {page, title, words} = await shown(folder, {how: 'drop'});
    assert.equal(title, 'This file can\u2019t be read');
    has(words, ['It may be a folder']);
    await page.give(gone);
    await page.until('document.title.startsWith("Certified")', 60);
    rmSync(gone);
    await page.value('file.dispatchEvent(new Event("change"))');
    assert.equal(await page.verdict(), 'This file can\u2019t be read');
    assert.equal(await page.value('document.title'), 'Check a Baseline certificate');
    isClean(page);
  });
  it('a file that is too large', async () => {
    const {title, words} = await shown(put('large.cert', '\n'.repeat(67_108_865)));
    assert.equal(title, 'Not a certificate');
    has(words, ['refused: file too large']);
  });
  it('a search without an end is stopped by a key, with a word of its own', async () => {
    const page = await browser.open();
    await page.give(put('long.cert', longSearch(100_000_000)));
    await page.until('/visits/.test(document.querySelector("#step").textContent)', 120);
    await page.press(ESCAPE);
    assert.equal(await page.verdict(10), 'Stopped: nothing was decided');
    assert.doesNotMatch(await page.words(), /spent/);
    isClean(page);
  });
  it('54,000 rows, the most that a text may have', async () => {
    const {page, title} = await shown(put('most.cert', made({pairs: 3600, satellites: 15})), {seconds: 400});
    assert.equal(title, 'Certified');
    assert.equal(await page.value('document.querySelectorAll(".panels path.satellite").length'), 6 * 15);
    isClean(page);
  });
  it('a track, with its places', async () => {
    const text = made({isTrack: true, pairs: 40, satellites: 9});
    const {page, title, words} = await shown(put('few.track', text));
    assert.equal(title, 'Certified');
    assert.equal(await page.value('document.querySelectorAll(".places tbody tr").length'), 40);
    has(words, ['All 40 places in metres', 'each place, before it is rounded to 0.1 mm, is within 0.02 mm of the one that fits']);
    isClean(page);
  });
  it('at 360 pixels nothing is wider than the window', async () => {
    const track = made({isTrack: true, pairs: 40, satellites: 9});
    for (const text of [example(), forgeDatums(example()), track]) {
      const {page} = await shown(put('narrow', text), {width: 360});
      assert.equal(await page.value('document.documentElement.scrollWidth'), 360);
    }
  });
  it('prints one page', async () => {
    const {page} = await shown(put('true.cert', example()));
    const pdf = (await page.print()).toString('latin1');
    assert.equal([...pdf.matchAll(/\/Type\s*\/Page\b/g)].length, 1);
    assert.equal(await page.value('document.documentElement.classList.contains("paper")'), false);
  });
  it('works with the keyboard', async () => {
    const {page} = await shown(put('true.cert', example())), reached = new Set(), active = 'document.activeElement';
    await page.value(`${active}.blur()`);
    for (let k = 0; k < 14; k++) {
      await page.press(TAB);
      reached.add(await page.value(`${active}.id || ${active}.getAttribute("data-satellite")`));
    }
    assert.deepEqual(['file', 'G07', 'G28', 'print'].filter(name => !reached.has(name)), []);
    await page.value('document.querySelector("button[data-satellite=G07]").focus()');
    await page.press(SPACE);
    assert.equal(await page.value('document.querySelectorAll(".panels path.off").length'), 4);
  });
});
