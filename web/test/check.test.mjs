import assert from 'node:assert/strict';
import {spawnSync} from 'node:child_process';
import {dirname, join} from 'node:path';
import {existsSync} from 'node:fs';
import {describe, it} from 'node:test';
import {fileURLToPath} from 'node:url';
import {ROOT} from './texts.mjs';

const WEB = join(dirname(fileURLToPath(import.meta.url)), '..');

describe('check.mjs', () => {
  it('reads through a pipe', {skip: existsSync('/dev/stdin') ? false : 'skipped: no /dev/stdin'}, () => {
    const words = ['-c', 'cat "$0" | "$1" "$2" /dev/stdin', join(ROOT, 'examples', 'g2_quarter.cert'), process.execPath,
      join(WEB, 'check.mjs')];
    const {status, stdout} = spawnSync('sh', words, {encoding: 'utf8'});
    assert.deepEqual([status, stdout.split('\n')[0]], [0, 'certified']);
  });
});

describe('certificate.html', () => {
  it('is what build.mjs makes of the modules', () => {
    const {status, stderr} = spawnSync(process.execPath, [join(WEB, 'build.mjs'), '--check'], {encoding: 'utf8'});
    assert.deepEqual([status, stderr], [0, '']);
  });
});
