#!/usr/bin/env node
// node shots.mjs FOLDER FILE..: pictures of the page with each file, at 1,200 and 360 pixels, light and dark, and
// on paper: to be looked at.
import {mkdirSync, writeFileSync} from 'node:fs';
import {basename, join, resolve} from 'node:path';
import {Browser} from './browser.mjs';

const [folder, ...files] = process.argv.slice(2), browser = new Browser();
mkdirSync(folder, {recursive: true});
for (const file of files) {
  const name = basename(file).replace(/[^\w.-]/g, '_');
  for (const [width, isDark] of /** @type {[number, boolean][]} */ ([[1200, false], [1200, true], [360, false]])) {
    const page = await browser.open({width, isDark});
    await page.give(resolve(file));
    const title = await page.verdict(), wide = await page.value('document.documentElement.scrollWidth');
    console.log(`${name} at ${width}: ${title}; the page is ${wide} wide`);
    writeFileSync(join(folder, `${name}-${width}${isDark ? '-dark' : ''}.png`), await page.shot());
    if (width === 1200 && !isDark) writeFileSync(join(folder, `${name}.pdf`), await page.print());
    console.log(page.faults().join('\n') || 'no faults', page.requests().join(' ') || 'no requests');
  }
}
await browser.close();
