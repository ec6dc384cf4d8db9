// What the page says of a verdict, without a browser.
import assert from 'node:assert/strict';
import {describe, it} from 'node:test';
import {example, forgeDatums, made, withChange, withItsTail, withLine} from './texts.mjs';
import {headline, looks, notProved, proved} from '../page/words.mjs';
import {check} from '../decide/decide.mjs';
import {readCertificate} from '../decide/certificate.mjs';
import {viewOf} from '../page/view.mjs';

/** @param {string} text */
function viewed(text) {
  const view = viewOf(check(text), text), {session} = view;
  if (!session) throw new Error('no certificate');
  return {...headline(view), session};
}

/**
 * The words on length that a text gets, and whether they stand out.
 * @param {string} text
 */
function onLength(text) {
  const found = looks(viewed(text).session).find(look => look.text.startsWith('The receivers are '));
  return found && [found.isOut, found.text.replace(/ \((.*) by mean solar time.*/, ' $1')];
}

/**
 * The example with all its times so many hours later.
 * @param {number} hours
 */
const later = hours => example().replace(/^(pair \d+) (\d+)/gm, (_, pair, tag) =>
  `${pair} ${BigInt(tag) + BigInt(hours * 3600) * 10_000_000n}`);

/**
 * A text whose point is so many kilometres farther off in Y: no decision uses it.
 * @param {string} text
 * @param {number} km
 */
const farther = (text, km) => withChange(text, 'point', line => {
  const [word, x, y, z] = line.split(' ');
  return [word, x, BigInt(y) + BigInt(km * 10_000_000), z].join(' ');
});

describe('the words of a verdict', () => {
  it('a true text: the ratio that was reached, and how small a box is', () => {
    const {mood, text, session} = viewed(example());
    assert.equal(mood, 'good');
    assert.match(text, /^No other integers \(.*\), with any vector, .* all others fit at least 13\.6 times as badly, /);
    assert.match(text, /rounding of what is computed \(here at most 0\.22 \u00b5m to each side\), not noise\.$/);
    assert.match(proved(session).join(' '), /within 0\.03 mm of .* \u201cbaseline check\u201d and says 2 times/);
  });
  it('that the integers may be wrong comes first of what isn\'t proved', () =>
    assert.match(notProved(viewed(example()).session)[0], /^That the integers are the right ones\. .* by decimetres\./));
  it('another point: the distance to the best vector stands under a condition', () => {
    const {mood, session} = viewed(farther(example(), 5));
    assert.equal(mood, 'good');
    const sentences = proved(session).filter(text => /\bvector\b.* is within/.test(text));
    assert.deepEqual(sentences.map(text => text.slice(0, 80)),
      ['If the lines base and point are those that the rows were computed with (no check']);
  });
  it('a smaller ratio isn\'t green, though a larger one is reached', () => {
    const {mood, title, text} = viewed(withLine(example(), 2, 'ratio 1500'));
    assert.deepEqual([mood, title], ['look', 'Certified, but only for the ratio 1.5']);
    assert.match(text, /13\.6 times as badly.* asks for less than the usual 2: /);
    assert.equal(viewed(withLine(example(), 2, 'ratio 2000')).mood, 'good');
    assert.equal(viewed(withLine(example(), 2, 'ratio 1999')).title, 'Certified, but only for the ratio 1.999');
  });
  it('a noted text is of the free arcs', () => {
    const {mood, title, text} = viewed(forgeDatums(example()));
    assert.deepEqual([mood, title], ['look', 'Certified, but not as the program writes it']);
    assert.match(text, /^No other integers \(.*\) of the arcs that the text calls free, 1 of 7, with any vector, /);
  });
  it('a larger box is told', () => {
    const text = withChange(example(), 'row 0 ', line => line.replace(' 138839776 13 ', ' 138839776 470 '));
    assert.match(proved(viewed(withItsTail(readCertificate(text))).session)[1], /here at most 7\.92 \u00b5m to each side/);
  });
  it('the length by day and by night, by the sun at the base', () => {
    const near = 'The receivers are 3335 m apart;';
    assert.deepEqual(onLength(example()), [false, `${near} by day use it up to 5 km. 09:18 to 09:32`]);
    assert.deepEqual(onLength(later(12)), [false, `${near} by day use it up to 5 km. 21:18 to 21:32`]);
    assert.deepEqual(onLength(later(13)), [false, `${near} by night use it up to 10 km. 22:18 to 22:32`]);
    assert.deepEqual(onLength(later(20)), [false, `${near} by night use it up to 10 km. 05:18 to 05:32`]);
    assert.deepEqual(onLength(later(21)), [false, `${near} by day use it up to 5 km. 06:18 to 06:32`]);
    const far = 'The receivers are 5607 m apart;';
    assert.deepEqual(onLength(farther(example(), 5)), [true, `${far} by day use it up to 5 km. 09:18 to 09:32`]);
    assert.deepEqual(onLength(farther(later(13), 5)), [false, `${far} by night use it up to 10 km. 22:18 to 22:32`]);
  });
  it('a session that lasts longer than a day stands out', () => {
    const first = (/** @type {number} */ hours) => example().replace(/^(pair 0) \d+/m,
      `$1 ${7_964_352_000_000_000n + 290n * 30_000_000n - BigInt(hours * 3600) * 10_000_000n}`);
    const onTime = (/** @type {string} */ text) => looks(viewed(text).session).find(look => look.text.startsWith('The session lasts '));
    assert.deepEqual(onTime(example()), {isOut: false,
      text: 'The session lasts 14.5 minutes by the text\u2019s times; up to 24 hours is usual.'});
    assert.deepEqual([24, 25, 219_287].map(hours => [onTime(first(hours))?.isOut, onTime(first(hours))?.text.slice(18, 30)]),
      [[false, '24.0 hours b'], [true, '25.0 hours b'], [true, '9137 days by']]);
  });
  it('a session of which a part is by day is by day', () => {
    const text = example().replace(/^(pair 29) \d+/m, `$1 ${7_964_352_290_000_000n + 13n * 36_000_000_000n}`);
    assert.match(String(onLength(text)?.[1]), /by day use it up to 5 km\. 09:18 to 22:18/);
  });
  it('a track', () => {
    const {mood, text, session} = viewed(made({isTrack: true, pairs: 3, satellites: 9}));
    assert.equal(mood, 'good');
    assert.match(text, /, with any places of the rover, fit /);
    assert.match(proved(session).join(' '), /corrections \(move\)\. .* \u201cbaseline check-track\u201d/);
  });
  it('a track: the greatest bound of its places, and none where a place has none', () => {
    const {session} = viewed(made({isTrack: true, pairs: 3, satellites: 9}));
    const said = (/** @type {string[]} */ ...bounds) => proved({...session, places: session.places.map((place, k) =>
      ({...place, bound: bounds[k] ?? place.bound}))}).filter(text => text.startsWith('If the lines base and at are '));
    assert.match(said()[0], /, each place, .* within 0\.02 mm of the one that fits the rows of its pair best with /);
    assert.match(said('0.02', '0.10', '0.03')[0], / within 0\.10 mm /);
    assert.deepEqual(said('0.02', '', '0.03'), []);
  });
});

describe('the place of a session', () => {
  it('the difference of heights is over the ellipsoid, not along the base\'s up', () => {
    const [{rise, enu}] = viewed(example()).session.places;
    assert.deepEqual([rise, enu[2]].map(metres => metres.toFixed(2)), ['-5.53', '-6.40']);
  });
});
