import assert from 'node:assert/strict';
import {describe, it} from 'node:test';
import {check, wordsOf} from '../decide/decide.mjs';
import {ceilDiv, floorDiv, nearestDiv, nearestShift} from '../decide/whole.mjs';
import {reachedRatio, vectorLines} from '../look/vector.mjs';
import {residualsOf} from '../look/residuals.mjs';
import {
  declining, example, forgeDatums, longSearch, small, wideBaseline, withChange, withLine,
} from './texts.mjs';

const said = (/** @type {string} */ text, options = {}) => wordsOf(check(text, options));

describe('whole numbers', () => {
  it('round as the definitions say', () => {
    for (let z = -12n; z <= 12n; z++) {
      for (let m = 1n; m <= 5n; m++) {
        const exact = Number(z) / Number(m);
        const [floor, ceil, nearest] = [Math.floor(exact), Math.ceil(exact), Math.floor(exact + 0.5)].map(BigInt);
        assert.deepEqual([floorDiv(z, m), ceilDiv(z, m), nearestDiv(z, m)], [floor, ceil, nearest]);
      }
      assert.deepEqual([nearestShift(z, 2n), nearestShift(z, 0n)], [nearestDiv(z, 4n), z]);
    }
    assert.deepEqual([nearestDiv(7n, 2n), nearestDiv(-7n, 2n)], [4n, -3n]);
  });
});

describe('the example', () => {
  it('is certified, with its vector and bound', () => {
    const verdict = check(example());
    assert.equal(verdict.kind, 'certified');
    if (verdict.kind !== 'certified') return;
    assert.deepEqual(vectorLines(verdict.cert), ['baseline 2022.7753 -468.6315 2610.2942', 'bound 0.03']);
    assert.equal(reachedRatio(verdict.cert), 13613n);
    assert.equal(residualsOf(verdict.cert).flat().length, 210);
  });
  it('isn\'t, once a number of its tail is another', () => {
    /** @type {[string, RegExp, string][]} */
    const changes = [['z1', /0$/, '1'], ['z2', /0$/, '2'], ['move', /-2233/, '-2234'], ['values', /.$/, '2'],
      ['values', / 43 /, ' 44 '], ['fixed', /.*/, 'declined unseparated']];
    for (const [start, from, to] of changes) {
      assert.equal(said(withChange(example(), start, line => line.replace(from, to))), 'not certified tail', start);
    }
  });
  it('is decided by its own ratio and budget', () => {
    assert.equal(said(withLine(example(), 2, 'ratio 13000')), 'certified');
    assert.equal(said(withLine(example(), 2, 'ratio 14000')), 'not certified unseparated');
    assert.equal(said(withLine(example(), 3, 'budget 1')), 'not certified spent');
  });
  it('needs exactly as many visits as by `baseline check` with other budgets', () => {
    const withBudget = (/** @type {number} */ budget) => said(withLine(example(), 3, `budget ${budget}`));
    assert.deepEqual([34, 35].map(withBudget), ['not certified spent', 'certified']);
  });
});

describe('refusals', () => {
  /** Of a line of the small certificate. @type {[number, string, string][]} */
  const refused = [
    [1, 'baseline-cert 1', 'line 1 column 1: bad line'], [1, 'baseline-track 1', 'line 6 column 1: bad line'],
    [2, 'ratio +2000', 'line 2 column 1: bad line'], [2, 'ratio 02000', 'line 2 column 1: bad line'],
    [2, 'ratio -0', 'line 2 column 1: bad line'], [2, 'ratio 100001', 'line 2 column 7: number out of range'],
    [2, `ratio ${'9'.repeat(4090)}`, 'line 2 column 7: number out of range'],
    [2, `ratio ${'9'.repeat(4091)}`, 'line 2 column 1: line too long'],
    [2, 'ratio  2000', 'line 2 column 1: bad line'], [2, 'ratio 2000\r', 'line 2 column 1: bad line'],
    [4, 'system R', 'line 4 column 1: bad line'],
    [5, 'base 0 -70000000001 0', 'line 5 column 8: number out of range'],
    [7, 'signals 15 C W', 'line 7 column 1: bad line'], [8, 'arcs 1', 'line 8 column 6: number out of range'],
    [9, 'arc 37 0 0 datum 0 0', 'line 9 column 5: number out of range'],
    [9, 'arc 3 1 0 datum 0 0', 'line 9 column 9: number out of range'],
    [9, 'arc 3 0 0 datum 0 1099511627776', 'line 9 column 19: number out of range'],
    [10, 'arc 5 0 0 datum 0 0', 'line 10 column 1: bad line'],
    [12, 'pair 0 9223372036854775808 0 2', 'line 12 column 8: number out of range'],
    [12, 'pair 0 0 0 16', 'line 12 column 12: number out of range'],
    [13, 'row 2 0 0 0 0 0 0 0 0 0 0 0', 'line 13 column 5: number out of range'],
    [14, 'row 0 0 0 0 0 0 0 0 0 0 0 0', 'line 14 column 5: number out of range'],
    [14, 'row 1 0 0 0 0 -1 0 0 0 0 0 0', 'line 14 column 15: number out of range'],
    [15, 'declined spent 1001', 'line 15 column 16: number out of range'],
    [15, 'declined weak fine 63 0', 'line 15 column 20: number out of range'],
    [15, 'fixed', 'line 15 column 1: bad line'],
  ];
  for (const [line, words, want] of refused) {
    it(words.slice(0, 40), () => assert.equal(said(withLine(small(), line, words)), want));
  }
  it('where the text ends too soon or too late', () => {
    assert.equal(said(''), 'line 1 column 1: bad line');
    assert.equal(said(small().slice(0, -1)), 'line 15 column 1: bad line');
    assert.equal(said(`${small()}\n`), 'line 16 column 1: bad line');
    assert.equal(said(`${small()}x`), 'line 16 column 1: bad line');
    assert.equal(said(`${small()}${'x'.repeat(4097)}`), 'line 16 column 1: line too long');
    assert.equal(said('\n'.repeat(67_108_865)), 'file too large');
    assert.equal(said('ab\n'.repeat(22_000_000)), 'line 1 column 1: bad line');
  });
  it('an announced number of lines is read no farther than they are good', () => {
    const text = withLine(small(), 8, 'arcs 200') + 'arc 1 0 0 datum 0 0\n'.repeat(1000);
    assert.equal(said(text), 'line 11 column 1: bad line');
  });
});

describe('other verdicts', () => {
  it('weak', () => assert.equal(said(small()), 'not certified weak 0 -6'));
  it('a baseline that is too wide', () => assert.equal(said(wideBaseline()), 'not certified overwidth float'));
  it('a search that has no end is spent at the budget', () =>
    assert.equal(said(longSearch(20_000)), 'not certified spent'));
  it('the checker\'s own limit is exact, and of both searches together', () => {
    assert.equal(said(longSearch(1000), {mostVisits: 1500}), 'not decided: stopped after 1500 visits');
    assert.equal(said(longSearch(1000), {mostVisits: 1999}), 'not decided: stopped after 1999 visits');
    assert.equal(said(longSearch(1000), {mostVisits: 2000}), 'not certified spent');
    assert.equal(said(example(), {mostVisits: 34}), 'not decided: stopped after 34 visits');
    assert.equal(said(example(), {mostVisits: 35}), 'certified');
  });
  it('a forged text is certified: notes are beside the verdict', () =>
    assert.equal(said(forgeDatums(example())), 'certified'));
});

describe('size', () => {
  for (const isTrack of [false, true]) {
    it(`54,000 rows of a ${isTrack ? 'track' : 'session'} within a minute`, {timeout: 240_000}, () => {
      const text = declining({isTrack, pairs: 3600, satellites: 15}), began = process.cpuUsage();
      assert.equal(said(text), 'not certified tail');
      const seconds = process.cpuUsage(began).user / 1e6;
      assert.ok(seconds < 60, `${seconds} s`);
    });
  }
});
