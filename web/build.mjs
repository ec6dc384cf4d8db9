#!/usr/bin/env node
// node build.mjs [--check]: makes certificate.html of the modules, one file that asks for no other. With --check it
// ends with 1 where the file isn't what it would make.
//
// A module here has its imports at its head, one in a line, each of names from a module beside it, and exports one
// name by each `export const`, `function` or `class`. Each becomes a function that is called once and gives its
// exports; those that are imported come first.
import {createHash} from 'node:crypto';
import {readFileSync, writeFileSync} from 'node:fs';
import {dirname, join, relative} from 'node:path';
import {fileURLToPath} from 'node:url';
import {Script} from 'node:vm';

const ROOT = dirname(fileURLToPath(import.meta.url));
const EXPORT = /^export (?:async )?(?:const|function|class) (\w+)/gm;
const IMPORT = /^import \{([^}]*)\} from '(\.[^']*)';\n/gm;

/**
 * The modules that one needs, itself the last.
 * @param {string} path
 * @param {string[]} found
 */
function modulesOf(path, found = []) {
  if (found.includes(path)) return found;
  for (const [, , from] of read(path).matchAll(IMPORT)) modulesOf(join(dirname(path), from), found);
  found.push(path);
  return found;
}

/** @param {string} path */
const read = path => readFileSync(path, 'utf8');

/** @param {string} path */
const nameOf = path => `m_${relative(ROOT, path).replace(/\W/g, '_')}`;

/** @param {string} text */
const exportsOf = text => [...text.matchAll(EXPORT)].map(found => found[1]);

/**
 * A module as a function that is called once.
 * @param {string} path
 */
function closed(path) {
  const text = read(path), exported = exportsOf(text);
  const taken = (/** @type {string} */ names, /** @type {string} */ file) => {
    const from = join(dirname(path), file), there = exportsOf(read(from));
    const missing = names.split(', ').filter(name => !there.includes(name));
    if (missing.length > 0) throw new Error(`${path}: ${from} doesn't export ${missing}`);
    return `const {${names}} = ${nameOf(from)};\n`;
  };
  const body = text.replace(IMPORT, (_, names, from) => taken(names, from)).replace(/^export /gm, '');
  const head = `// ---- ${relative(ROOT, path)}\nconst ${nameOf(path)} = (() => {\n`;
  return `${head}${body}return {${exported.join(', ')}};\n})();\n`;
}

/**
 * One script of a module and those that it needs.
 * @param {string} path
 */
function bundle(path) {
  const script = `'use strict';\n${modulesOf(join(ROOT, path)).map(closed).join('\n')}`;
  if (/^\s*(import|export)\b/m.test(script)) throw new Error(`${path}: an import or export that isn't understood`);
  if (/<\/script|<!--/i.test(script)) throw new Error(`${path}: ends a script in a page`);
  new Script(script, {filename: path});
  return `\n${script}`;
}

/** @param {string} text */
const hashOf = text => `'sha256-${createHash('sha256').update(text).digest('base64')}'`;

function build() {
  const style = `\n${read(join(ROOT, 'page/style.css'))}`;
  const worker = bundle('page/worker.mjs'), page = bundle('page/page.mjs');
  const policy = [
    `default-src 'none'; script-src ${hashOf(page)}; worker-src blob:; style-src ${hashOf(style)}`,
    "base-uri 'none'; form-action 'none'; require-trusted-types-for 'script'; trusted-types worker",
  ].join('; ');
  const values = {policy, style, worker, page};
  return read(join(ROOT, 'page/frame.html')).replace(/\{(policy|style|worker|page)\}/g,
    (_, name) => values[/** @type {keyof typeof values} */ (name)]);
}

const target = join(ROOT, 'certificate.html'), made = build();
if (process.argv[2] === '--check') {
  if (read(target) !== made) {
    console.error('web/certificate.html isn\'t what web/build.mjs makes of the modules: call node web/build.mjs');
    process.exitCode = 1;
  }
} else {
  writeFileSync(target, made);
  console.log(`${createHash('sha256').update(made).digest('hex')}  certificate.html, ${Buffer.byteLength(made)} bytes`);
}
