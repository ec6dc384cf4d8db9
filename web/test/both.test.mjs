// One table of texts and words, to which check.mjs and recipes/check_certificate.py must answer alike: status, standard
// output and standard error, word for word.
import assert from 'node:assert/strict';
import {spawnSync} from 'node:child_process';
import {closeSync, existsSync, mkdtempSync, openSync, rmSync, writeFileSync} from 'node:fs';
import {tmpdir} from 'node:os';
import {join} from 'node:path';
import {after, describe, it} from 'node:test';
import {
  ROOT, example, forgeDatums, longSearch, made, small, smallTrack, withChange, withItsTail, withLine,
} from './texts.mjs';
import {readCertificate} from '../decide/certificate.mjs';

/** The environment may name another copy of the Python checker. */
const CHECKERS = {
  'check.mjs': [process.execPath, join(ROOT, 'web', 'check.mjs')],
  'check_certificate.py': ['python3', process.env.CHECKER ?? join(ROOT, 'recipes', 'check_certificate.py')],
};
const HAS_PYTHON = spawnSync('python3', ['--version']).status === 0;
const NO_PYTHON = 'skipped: the words of the other checker: Python isn\'t installed';

const track = made({isTrack: true, pairs: 3, satellites: 9, bands: '12'});
const COMPARED = 'by its pairs it is free, and integers of a datum are compared with nothing';
const FORGED = `note: arc 2 is called datum; ${COMPARED} (and 4 more)`;
const STANDS = 'note: pair 1 isn\'t later than the pair before it';
const ODD_LENGTH = 'note: pair 0 arc 0: the direction\'s length isn\'t one';
const ENDLESS = [`note: arc 1 is called datum; ${COMPARED} (and 2 more)`, `${STANDS} (and 9 more)`,
  'note: pair 0 arc 3: the direction\'s length isn\'t one'];
/** @type {Record<string, string>} */
const TEXTS = {
  good: example(), late: withChange(example(), 'pair 29 ', line => line.replace(/^(pair 29) \d+/, '$1 9223372036854775807')), galileo: withLine(example(), 4, 'system E'), forged: forgeDatums(example()), track,
  small: small(), 'small.track': smallTrack(),
  unseparated: withLine(example(), 2, 'ratio 14000'), spent: withLine(example(), 3, 'budget 34'),
  tail: withChange(example(), 'move', line => line.replace('-2233', '-2234')), cut: example().slice(0, 5000),
  range: withLine(small(), 2, 'ratio 100001'), long: withLine(small(), 2, `ratio ${'9'.repeat(4091)}`),
  large: '\n'.repeat(67_108_865), endless: longSearch(100_000_000), '-dash': small(),
  'a\ncertified\n\x1b[2K\u202eb': 'x',
  'noted.track': withItsTail(readCertificate(track.replace(/^pair 1 \d+/m, 'pair 1 13881024000000000'))),
};
const GOOD = ['certified', 'baseline 2022.7753 -468.6315 2610.2942', 'bound 0.03'];
const PLACES = ['place 0 0.0000 0.0000 0.0000', 'place 1 0.0000 0.0000 0.0000', 'place 2 0.0000 0.0000 0.0000'];
const BOUNDS = ['bound 0 0.02', 'bound 1 0.02', 'bound 2 0.02'];
const USAGE = 'usage: PROGRAM [--strict] [--visits N] [--] CERT';
const ODD = 'a\\x0acertified\\x0a\\x1b[2K\\xe2\\x80\\xaeb';

/**
 * The words, the status, and the lines of both streams.
 * @typedef {[string[], number, string[], string[]]} Line
 */

/** @type {Line[]} */
const TABLE = [
  [['good'], 0, GOOD, []],
  [['--strict', 'good'], 0, GOOD, []],
  [['--strict', '--visits', '35', '--', 'good'], 0, GOOD, []],
  [['--visits', '34', 'good'], 7, [], ['not decided: stopped after 34 visits']],
  [['track'], 0, ['certified', ...PLACES, ...BOUNDS], []],
  [['forged'], 0, ['certified', 'baseline 2022.8797 -468.8112 2610.4651', 'bound 0.04'], [FORGED]],
  [['--strict', 'forged'], 1, ['certified'], [FORGED]],
  [['--strict', 'galileo'], 1, ['certified'], ['note: the signals 12 C W aren\'t those of Galileo']],
  [['--strict', 'late'], 1, ['certified'], ['note: pair 29 is later than 2099, the last year that is read']],
  [['noted.track'], 0, ['certified', ...PLACES, ...BOUNDS], [STANDS]],
  [['--strict', 'noted.track'], 1, ['certified'], [STANDS]],
  [['small'], 1, ['not certified weak 0 -6'], [`${ODD_LENGTH} (and 1 more)`]],
  [['small.track'], 1, ['not certified weak 0 -6'],
    [`${ODD_LENGTH} (and 2 more)`]],
  [['unseparated'], 1, ['not certified unseparated'], []],
  [['spent'], 1, ['not certified spent'], []],
  [['tail'], 1, ['not certified tail'], []],
  [['cut'], 3, [], ['refused: cut line 78 column 1: bad line']],
  [['range'], 3, [], ['refused: range line 2 column 7: number out of range']],
  [['long'], 3, [], ['refused: long line 2 column 1: line too long']],
  [['large'], 3, [], ['refused: large: file too large']],
  [['--visits', '100', 'endless'], 7, [], [...ENDLESS, 'not decided: stopped after 100 visits']],
  [['./-dash'], 1, ['not certified weak 0 -6'],
    [`${ODD_LENGTH} (and 1 more)`]],
  [['--', '-dash'], 1, ['not certified weak 0 -6'],
    [`${ODD_LENGTH} (and 1 more)`]],
  [['a\ncertified\n\x1b[2K\u202eb'], 3, [], [`refused: ${ODD} line 1 column 1: bad line`]],
  [['missing'], 4, [], ['read fault: missing']],
  [['.'], 4, [], ['read fault: .']],
  [['-'], 4, [], ['read fault: -']],
  [['--visits', '9'.repeat(18), ''], 4, [], ['read fault: ']],
];
const WRONG_WORDS = [[], ['good', 'good'], ['--strict'], ['--other', 'good'], ['-s', 'good'],
  ['--strict', '--strict', 'good'], ['good', '--strict'], ['good', '--visits', '9'], ['--visits', 'good'],
  ['--visits', '0', 'good'], ['--visits', '07', 'good'], ['--visits', '-1', 'good'], ['--visits=9', 'good'],
  ['--visits', '9', '--visits', '9', 'good'], ['--visits', '9'.repeat(19), 'good']];
TABLE.push(...WRONG_WORDS.map(words => /** @type {Line} */ ([words, 2, [], [USAGE]])));

describe('both checkers', () => {
  const room = mkdtempSync(join(tmpdir(), 'both-'));
  after(() => rmSync(room, {recursive: true}));
  for (const [name, text] of Object.entries(TEXTS)) writeFileSync(join(room, name), text, 'latin1');
  for (const [program, [start, path]] of Object.entries(CHECKERS)) {
    const skip = start === 'python3' && !HAS_PYTHON ? NO_PYTHON : false;
    for (const [words, status, out, err] of TABLE) {
      it(`${program} ${words.join(' ').replace(/[^ -~]/g, '?')}`, {skip}, () => {
        const got = spawnSync(start, [path, ...words], {cwd: room, encoding: 'utf8'});
        const lines = [...out, ''].join('\n'), complaints = [...err, ''].join('\n').replace('PROGRAM', program);
        assert.deepEqual([got.status, got.stdout, got.stderr], [status, lines, complaints]);
      });
    }
    const skipFull = skip || (existsSync('/dev/full') ? false : 'skipped: a full disk: no /dev/full');
    it(`${program} on a full disk`, {skip: skipFull}, () => {
      const full = openSync('/dev/full', 'w'), stdio = /** @type {const} */ (['ignore', full, 'pipe']);
      const {status, stderr} = spawnSync(start, [path, 'good'], {cwd: room, encoding: 'utf8', stdio: [...stdio]});
      closeSync(full);
      assert.deepEqual([status, stderr], [5, 'write fault\n']);
    });
  }
});
