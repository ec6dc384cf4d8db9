// The search on forms made by hand, with ends that no text reached: too wide, and a reduction that stops because a
// number gets too large. recipes/check_certificate.py answers alike, and is asked where Python is there.
import assert from 'node:assert/strict';
import {spawnSync} from 'node:child_process';
import {join} from 'node:path';
import {describe, it} from 'node:test';
import {NotFixed, eliminate} from '../decide/normal.mjs';
import {Visits, twoBest} from '../decide/search.mjs';
import {decorrelate} from '../decide/decorrelation.mjs';
import {ROOT} from './texts.mjs';

const HAS_PYTHON = spawnSync('python3', ['--version']).status === 0;
const CHECKER = process.env.CHECKER ?? join(ROOT, 'recipes', 'check_certificate.py');
/** Asks the Python checker for the two least vectors of a form. */
const ASK = `
import importlib.util, json, sys
sys.dont_write_bytecode = True
spec = importlib.util.spec_from_file_location("checker", sys.argv[1])
checker = importlib.util.module_from_spec(spec)
sys.modules["checker"] = checker
spec.loader.exec_module(checker)
form, budget = json.loads(sys.argv[2])
try:
    least = checker.two_least([row[i:] for i, row in enumerate(form)], budget, iter(range(10**6)))
    print(*(f"{value} {list(image)}" for value, image in least), sep="; ")
except checker.NotCertified as why:
    print(why)
`;

/**
 * The form a(x - k·y)² + b(y - k·z)² + c(z - l)² of three integers, each of which follows from the next, and what the
 * steps of its elimination take from own entries: 4, then 3, then 2. The reduction turns the integers round, since c is
 * less than b and b less than a: its map has entries of k².
 * @param {bigint} k
 * @param {bigint} l
 */
function chain(k, l) {
  const a = 3n << 20n, b = 2n << 20n, c = 1_200_000n;
  return [[a, -a * k, 0n, 0n], [-a * k, a * k * k + b + 4n, -b * k, 0n],
    [0n, -b * k, b * k * k + c + 7n, -c * l], [0n, 0n, -c * l, c * l * l + 9n]];
}

/**
 * The two best vectors, or why there are none.
 * @param {bigint[][]} form
 * @param {bigint} budget
 */
function said(form, budget) {
  try {
    const both = twoBest(form, 3, budget, new Visits(1e6));
    return both.map(({value, integers}) => `${value} [${integers.join(', ')}]`).join('; ');
  } catch (why) {
    if (!(why instanceof NotFixed)) throw why;
    return why.message;
  }
}

/** Name, form, budget, answer. @type {[string, bigint[][], bigint, string][]} */
const FORMS = [
  ['a map within its limit', chain(30_000n, 0n), 1000n, '9 [0, 0, 0]; 2097165 [-30000, -1, 0]'],
  ['a reduction that stops by size', chain(36_000n, 0n), 1000n, '9 [0, 0, 0]; 2097165 [-36000, -1, 0]'],
  ['a point too wide in the form\'s own coordinates', chain(30_000n, 2n), 1000n,
    '4800009 [0, 0, 0]; 6897165 [-30000, -1, 0]'],
  ['and no budget in those of the reduction', chain(30_000n, 2n), 1n, 'overwidth search'],
];

describe('forms that no text reached', () => {
  for (const [name, form, budget, want] of FORMS) {
    it(name, () => assert.equal(said(form, budget), want));
    const skip = HAS_PYTHON ? false : 'skipped: the search of the other checker: Python isn\'t installed';
    it(`${name}, by the other checker`, {skip}, () => {
      const asked = `[${JSON.stringify(form.map(row => row.map(String))).replaceAll('"', '')}, ${budget}]`;
      const {stdout, stderr} = spawnSync('python3', ['-c', ASK, CHECKER, asked], {encoding: 'utf8'});
      assert.equal(stdout.trim() || stderr, want);
    });
  }
  it('the reduction stops before an entry of its map reaches its limit', () => {
    const mapOf = (/** @type {bigint} */ k) => decorrelate(eliminate(chain(k, 0n), 3, 3)).map(row => row.join(' '));
    assert.deepEqual(mapOf(30_000n), ['900000000 30000 1', '30000 1 0', '1 0 0']);
    assert.deepEqual(mapOf(36_000n), ['36000 1 0', '1 0 0', '0 0 1']);
  });
});
