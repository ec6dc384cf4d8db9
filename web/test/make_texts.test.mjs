// The texts for compare.mjs are made by a script that loads tools/mutate and runs tools/check_cases: here on one case.
import assert from 'node:assert/strict';
import {spawnSync} from 'node:child_process';
import {mkdirSync, mkdtempSync, readFileSync, readdirSync, rmSync, writeFileSync} from 'node:fs';
import {tmpdir} from 'node:os';
import {dirname, join} from 'node:path';
import {after, describe, it} from 'node:test';
import {fileURLToPath} from 'node:url';

const room = mkdtempSync(join(tmpdir(), 'texts-')), kept = join(room, 'kept');
const HAS_PYTHON = spawnSync('python3', ['--version']).status === 0;
const CASE = 'case one\nfile c |text\nrun check c\nstatus 3\nout\nerr\n';
const SCRIPT = `
import os, sys
import make_texts
make_texts.load_script(os.path.join(make_texts.ROOT, "tools", "mutate"))
make_texts.keep_cases(*sys.argv[1:3], (sys.argv[3],))
`;

describe('make_texts.py', {skip: HAS_PYTHON ? false : 'skipped: the texts of the comparison: Python isn\'t installed'}, () => {
  after(() => rmSync(room, {recursive: true}));
  it('loads tools/mutate, and keeps the text that a case gives to the program', () => {
    mkdirSync(kept);
    writeFileSync(join(room, 'one.cases'), CASE);
    writeFileSync(join(room, 'program'), '#!/bin/sh\nexit 3\n', {mode: 0o755});
    const words = ['-c', SCRIPT, join(room, 'program'), kept, join(room, 'one.cases')];
    const {status, stderr} = spawnSync('python3', words, {encoding: 'utf8', cwd: dirname(fileURLToPath(import.meta.url))});
    assert.deepEqual([status, stderr], [0, '']);
    assert.deepEqual(readdirSync(kept).map(name => readFileSync(join(kept, name), 'utf8')), ['text\n']);
  });
});
