import assert from 'node:assert/strict';
import {describe, it} from 'node:test';
import {notesOf} from '../look/notes.mjs';
import {readCertificate} from '../decide/certificate.mjs';
import {example, forgeDatums, made, withChange} from './texts.mjs';

const notes = (/** @type {string} */ text) => notesOf(readCertificate(text));

/**
 * The notes of the example with another word in the first line that begins so.
 * @param {string} start
 * @param {number} at
 * @param {string} word
 */
const put = (start, at, word) => notes(withChange(example(), start, line =>
  line.split(' ').map((old, k) => (k === at ? word : old)).join(' ')));

const COMPARED = 'integers of a datum are compared with nothing';
const MORE = / \(and (\d+) more\)$/;

describe('notes', () => {
  it('none on what fix writes', () => assert.deepEqual(notes(example()), []));
  it('arcs called datum', () => assert.deepEqual(notes(forgeDatums(example())),
    [`arc 2 is called datum; by its pairs it is free, and ${COMPARED} (and 4 more)`]));
  it('an arc that shares no pair and is free', () => {
    const text = example().replace('arc 7 0 29 datum', 'arc 7 0 29 free').replace(/^(z[12]) /gm, '$1 0 0 ');
    assert.deepEqual(notes(text), [`arc 0 is called free; by its pairs it is a datum, and ${COMPARED}`]);
  });
  it('arcs out of order', () => {
    const [first, second] = put('arc 11 ', 1, '8');
    assert.deepEqual([first, second.replace(MORE, '')], ['arc 2 is out of order', 'pair 0 has a satellite twice']);
  });
  it('a satellite twice', () =>
    assert.ok(put('arc 28 ', 1, '24').includes('pair 0 has a satellite twice (and 29 more)')));
  it('a time that stands still', () => assert.deepEqual(put('pair 1 ', 2, '7964352000000000'),
    ['pair 1 isn\'t later than the pair before it']));
  it('a time after the last date that is read', () => {
    assert.deepEqual(put('pair 29 ', 2, '37864799999999999'), []);
    assert.deepEqual(put('pair 29 ', 2, '37864800000000000'), ['pair 29 is later than 2099, the last year that is read']);
    assert.deepEqual(put('pair 29 ', 2, '9223372036854775807'), ['pair 29 is later than 2099, the last year that is read']);
  });
  it('a direction that is too long', () => assert.deepEqual(put('row 0 ', 7, '-9628951'),
    ['pair 0 arc 0: the direction\'s length isn\'t one']));
  it('and one within its box', () => assert.deepEqual(put('row 0 ', 7, '-9628852'), []));
  it('a satellite that GPS hasn\'t', () => assert.ok(put('arc 28 ', 1, '33').includes('arc 6 has satellite 33, which GPS hasn\'t')));
  it('signals that Galileo hasn\'t', () => assert.deepEqual(put('system ', 1, 'E'), ['the signals 12 C W aren\'t those of Galileo']));
  it('those that it has', () => {
    const text = made({pairs: 3, satellites: 9, bands: '15'});
    assert.deepEqual(notes(text.replace('system G', 'system E')), []);
    assert.deepEqual(notes(text.replace('system G', 'system E').replace('signals 15 C Q', 'signals 15 W Q')),
      ['the signals 15 W Q aren\'t those of Galileo']);
  });
  it('a radius of an observation', () => assert.deepEqual(put('row 0 ', 6, '471'), ['pair 0 arc 0: RY is over 470']));
  it('a radius of a direction', () => assert.deepEqual(put('row 0 ', 12, '33'), ['pair 0 arc 0: R is over 32']));
});
