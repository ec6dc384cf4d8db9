// Texts of the tests: the example, what becomes of it in the hands of others, and some that are made.
import {readFileSync} from 'node:fs';
import {dirname, join} from 'node:path';
import {fileURLToPath} from 'node:url';
import {decide} from '../decide/decide.mjs';
import {readCertificate} from '../decide/certificate.mjs';
import {upTo} from '../decide/whole.mjs';

/**
 * @typedef {import('../decide/certificate.mjs').Certificate} Certificate
 * @typedef {import('../decide/certificate.mjs').Arc} Arc
 * @typedef {import('../decide/certificate.mjs').Row} Row
 */

/** The repository. */
export const ROOT = join(dirname(fileURLToPath(import.meta.url)), '..', '..');

/** The certificate of the example. */
export const example = () => readFileSync(join(ROOT, 'examples', 'g2_quarter.cert'), 'latin1');

const HEAD = ['ratio 2000', 'budget 1000', 'system G', 'base 63781370000 0 0'];
const ZEROS = '0 0 0 0 0 0 0 0 0 0 0';

/**
 * The small certificate of FORMATS.
 * @param {string} [tail]
 */
export const small = (tail = 'declined weak fine 0 -6') => lines([
  'baseline-cert 2', ...HEAD, 'point 63781370000 0 0', 'signals 12 C W', 'arcs 2', 'arc 3 0 0 datum 0 0',
  'arc 5 0 0 free 0 0', 'pairs 1', 'pair 0 13881024000000000 0 2', `row 0 ${ZEROS}`, `row 1 ${ZEROS}`, tail,
]);

/**
 * A track of two pairs.
 * @param {string} [tail]
 */
export const smallTrack = (tail = 'declined weak 0 -6') => lines([
  'baseline-track 1', ...HEAD, 'signals 12 C W', 'arcs 2', 'arc 3 0 4 datum 0 0', 'arc 5 0 4 free 0 0', 'pairs 2',
  'pair 0 13881024000000000 0 2', 'at 63781370000 0 0', `row 0 ${ZEROS}`, `row 1 ${ZEROS}`,
  'pair 4 13881054000000000 0 1', 'at 63781370001 -2 3', `row 1 ${ZEROS}`, tail,
]);

/** @param {string[]} of */
const lines = of => of.map(line => `${line}\n`).join('');

/**
 * A text with another line N, counted from 1.
 * @param {string} text
 * @param {number} line
 * @param {string} words
 */
export const withLine = (text, line, words) =>
  text.split('\n').map((old, k) => (k === line - 1 ? words : old)).join('\n');

/**
 * The number of the first line that begins so.
 * @param {string} text
 * @param {string} start
 */
export const lineOf = (text, start) => text.split('\n').findIndex(line => line.startsWith(start)) + 1;

/**
 * A text with a change in its first line that begins so.
 * @param {string} text
 * @param {string} start
 * @param {(line: string) => string} change
 */
export function withChange(text, start, change) {
  const line = lineOf(text, start);
  return withLine(text, line, change(text.split('\n')[line - 1]));
}

/**
 * The lines of a certificate but its tail.
 * @param {Certificate} cert
 */
function spell({isTrack, ratio, budget, system, base, point, bands, codes, arcs, pairs}) {
  const kind = (/** @type {Arc} */ {isDatum}) => (isDatum ? 'datum' : 'free');
  const row = (/** @type {Row} */ {arc, y, yRadius, direction, radii}) => [arc, ...y, yRadius, ...direction, ...radii];
  return [
    `baseline-${isTrack ? 'track 1' : 'cert 2'}`, `ratio ${ratio}`, `budget ${budget}`, `system ${system}`,
    `base ${base.join(' ')}`, ...(isTrack ? [] : [`point ${point.join(' ')}`]), `signals ${bands} ${codes.join(' ')}`,
    `arcs ${arcs.length}`,
    ...arcs.map(arc => `arc ${arc.satellite} ${arc.first} ${arc.last} ${kind(arc)} ${arc.shifts.join(' ')}`),
    `pairs ${pairs.length}`,
    ...pairs.flatMap(pair => [
      `pair ${pair.number} ${pair.tag} ${pair.group} ${pair.rows.length}`,
      ...(isTrack ? [`at ${pair.point.join(' ')}`] : []), ...pair.rows.map(it => `row ${row(it).join(' ')}`),
    ]),
  ];
}

/**
 * A certificate with the tail that its rows have: fixed, or this throws.
 * @param {Certificate} cert
 */
export function withItsTail(cert) {
  const {z1, z2, moves, h, p1, p2, t} = decide(cert, () => {}, Infinity);
  const number = (/** @type {number} */ k) => (cert.isTrack ? [cert.pairs[k].number] : []);
  return lines([...spell(cert), `z1 ${z1.join(' ')}`, `z2 ${z2.join(' ')}`,
    ...moves.map((move, k) => ['move', ...number(k), ...move].join(' ')), `values ${h} ${p1} ${p2} ${t}`, 'fixed']);
}

/**
 * The second best integers of a text in place of the best: all arcs but one are called datum, and whole cycles go from
 * the rows into the shifts.
 * @param {string} text
 */
export function forgeDatums(text) {
  const cert = readCertificate(text);
  for (const keep of cert.arcs.filter(arc => !arc.isDatum)) {
    try {
      return withItsTail(withOneFree(cert, keep));
    } catch { /* this one isn't fixed */ }
  }
  throw new Error('no arc serves');
}

/**
 * @param {Certificate} cert
 * @param {Arc} keep the arc that stays free
 * @returns {Certificate}
 */
function withOneFree(cert, keep) {
  const z2 = cert.tail.vectors?.z2 ?? [], bands = [...cert.bands];
  const cycles = (/** @type {Arc} */ {isDatum, ambiguity}, /** @type {number} */ band) =>
    (isDatum ? 0n : z2[ambiguity * bands.length + band]);
  const arcs = cert.arcs.map(arc => {
    const isDatum = arc !== keep, shifts = arc.shifts.map((shift, b) => shift + cycles(arc, b));
    return {...arc, isDatum, ambiguity: isDatum ? -1 : 0, shifts};
  });
  const moved = (/** @type {Row} */ {arc, y}) => y.map((x, q) => {
    const {isPhase, band, wavelength} = cert.signals[q];
    return isPhase ? x - wavelength * cycles(cert.arcs[arc], bands.indexOf(band)) : x;
  });
  const pairs = cert.pairs.map(pair => ({...pair, rows: pair.rows.map(row => ({...row, y: moved(row)}))}));
  return {...cert, arcs, freeArcs: 1, pairs};
}

/**
 * A certificate or track of so many pairs and satellites whose observations are 0, with directions that turn. It
 * declines, though its rows give a fix.
 * @param {{isTrack?: boolean, pairs: number, satellites: number, bands?: string}} size
 */
export function declining({isTrack = false, pairs, satellites, bands = '125'}) {
  const codes = [...bands].map(band => ({1: 'C', 2: 'W', 5: 'Q'})[band]);
  const rows = (/** @type {number} */ k) => upTo(satellites).map(s =>
    ['row', s, ...Array(bands.length * 2).fill(0), 20, ...directionOf(s, satellites, k), 10, 10, 10].join(' '));
  const arc = (/** @type {number} */ s) =>
    ['arc', s + 1, 0, pairs - 1, s ? 'free' : 'datum', ...Array(bands.length).fill(0)].join(' ');
  const pair = (/** @type {number} */ k) => `pair ${k} ${13881024000000000n + 300000000n * BigInt(k)} 0 ${satellites}`;
  return lines([
    `baseline-${isTrack ? 'track 1' : 'cert 2'}`, 'ratio 2000', 'budget 1000000', 'system G', 'base 63781370000 0 0',
    ...(isTrack ? [] : ['point 63781370000 0 0']), ['signals', bands, ...codes].join(' '),
    `arcs ${satellites}`, ...upTo(satellites).map(arc), `pairs ${pairs}`,
    ...upTo(pairs).flatMap(k => [pair(k), ...(isTrack ? ['at 63781370000 0 0'] : []), ...rows(k)]),
    isTrack ? 'declined overwidth y' : 'declined overwidth fine y',
  ]);
}

/**
 * The same that says what its rows give.
 * @param {{isTrack?: boolean, pairs: number, satellites: number, bands?: string}} size
 */
export const made = size => withItsTail(readCertificate(declining(size)));

/**
 * The direction of a satellite, of so many, in a pair, in 2^-24.
 * @param {number} satellite
 * @param {number} all
 * @param {number} pair
 */
function directionOf(satellite, all, pair) {
  const azimuth = 2.399963 * satellite + pair / 5000;
  const elevation = 0.3 + (1.1 * ((satellite * 7) % all)) / all + 0.00001 * pair * ((satellite % 3) - 1);
  const east = Math.cos(elevation) * Math.sin(azimuth), north = Math.cos(elevation) * Math.cos(azimuth);
  return [Math.sin(elevation), east, north].map(x => Math.round(-x * 2 ** 24));
}

/**
 * A text whose search has no end: each free arc stands alone with the datum, half a cycle from two integers.
 * @param {number} budget
 */
export function longSearch(budget) {
  const unit = 1 << 24, half = [1380, 1771].map(wavelength => wavelength * 4096), east = [unit, 0, 0];
  const four = [east, [0, unit, 0], [0, 0, unit], [-unit / 2, -unit / 2, -unit / 2]];
  const row = (/** @type {number} */ arc, /** @type {number[]} */ y, /** @type {number[]} */ direction) =>
    ['row', arc, ...y, 0, ...direction, 0, 0, 0].join(' ');
  const arc = (/** @type {number} */ s) => `arc ${s + 1} 0 3599 ${s < 4 ? 'datum' : 'free'} 0 0`;
  const alone = (/** @type {number} */ s) => [`pair ${s + 1} ${13881024000000001 + s} 0 2`, row(0, [0, 0, 0, 0], east),
    row(s + 4, [...half, 0, 0], east)];
  return lines(['baseline-cert 2', 'ratio 2000', `budget ${budget}`, 'system G', 'base 63781370000 0 0',
    'point 63781370000 0 0', 'signals 12 C W', 'arcs 24', ...upTo(24).map(arc), 'pairs 21',
    'pair 0 13881024000000000 0 4', ...four.map((direction, s) => row(s, [0, 0, 0, 0], direction)),
    ...upTo(20).flatMap(alone), `declined spent ${budget}`]);
}

/**
 * Rows that hold the baseline so weakly, each coordinate by the next, that its numbers pass their limit: `overwidth
 * float`. The last direction makes the third pivot just large enough.
 */
export function wideBaseline() {
  const unit = 1 << 24, weak = 92_000, last = 47_720, y = 524_288;
  const row = (/** @type {number} */ arc, /** @type {number} */ phase, /** @type {number[]} */ direction) =>
    ['row', arc, phase, phase, 0, 0, 0, ...direction, 0, 0, 0].join(' ');
  const second = [row(1, 0, [weak, unit, 0]), row(1, 0, [0, weak, unit]), row(1, y, [0, 0, last]),
    row(2, 0, [0, 0, 0])];
  return lines(['baseline-cert 2', ...HEAD, 'point 63781370000 0 0', 'signals 12 C W', 'arcs 3',
    'arc 1 0 3 datum 0 0', 'arc 2 0 3 datum 0 0', 'arc 3 0 3 free 0 0', 'pairs 4',
    ...second.flatMap((it, k) => [`pair ${k} ${13881024000000000 + k} 0 2`, row(0, 0, [0, 0, 0]), it]),
    'declined overwidth fine float']);
}
