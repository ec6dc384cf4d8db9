// What the page shows of a verdict, as numbers and words of its own: nothing of the text comes here but what the
// grammar allows.
import {NIGHT} from './usual.mjs';
import {clockOf, dateOf, eastNorthUp, milliseconds, riseOf, solarHour} from './geodesy.mjs';
import {metres, millimetres, reachedRatio, vectorsOf} from '../look/vector.mjs';
import {boundsOf} from '../look/bound.mjs';
import {hintOf} from '../look/hints.mjs';
import {notesOf} from '../look/notes.mjs';
import {micrometres, residualsOf} from '../look/residuals.mjs';
import {wordsOf} from '../decide/decide.mjs';

/**
 * @typedef {import('../decide/certificate.mjs').Certificate} Certificate
 *
 * @typedef {object} View
 * @property {string} kind `certified`, `not certified`, `refused`
 * @property {string} words those of `check`
 * @property {string} hint
 * @property {Session} [session] where the text is a certificate
 *
 * @typedef {object} Session
 * @property {boolean} isTrack
 * @property {boolean} saysFixed
 * @property {string} last line
 * @property {string[]} notes
 * @property {number} ratio asked for
 * @property {number | null} reached at least, rounded down to thousandths; null for any number
 * @property {string} system
 * @property {string[]} bands as `L1 (C)`
 * @property {ShownArc[]} arcs
 * @property {number} rows
 * @property {{number: number, at: number}[]} pairs with their times in seconds since the first
 * @property {{day: string, time: string}} begins
 * @property {{day: string, time: string}} ends
 * @property {{begins: string, ends: string, isNight: boolean}} sun the mean solar time at the base, and whether each
 *   pair is of the night
 * @property {string[]} base in metres
 * @property {Place[]} places the vector, or those of a track; none where the text isn't certified
 * @property {string[]} signals
 * @property {number} box the greatest radius of an observation's box, in micrometres
 * @property {{arc: number, pair: number, values: number[]}[]} residuals in millimetres
 * @property {{arc: number, azimuth: number, elevation: number}[][]} sky of each pair, in radians
 *
 * @typedef {{name: string, first: number, last: number, isDatum: boolean, isUsed: boolean}} ShownArc
 *
 * A vector from the base: its coordinates, its east, north and up, its length, by how much its end is higher over the
 * ellipsoid, all in metres, and how far in millimetres it may be from the least-squares vector in each coordinate, or ''.
 * @typedef {{number: number, at: number, xyz: string[], enu: number[], length: number, rise: number, bound: string}} Place
 */

/**
 * @param {import('../decide/decide.mjs').Verdict} verdict
 * @param {string} text one character for each byte
 * @returns {View}
 */
export function viewOf(verdict, text) {
  const words = wordsOf(verdict);
  if (verdict.kind === 'refused') return {kind: 'refused', words: `refused: ${words}`, hint: hintOf(text)};
  return {kind: verdict.kind, words, hint: '', session: sessionOf(verdict.cert, verdict.kind === 'certified')};
}

/**
 * @param {Certificate} cert
 * @param {boolean} isCertified
 * @returns {Session}
 */
function sessionOf(cert, isCertified) {
  const {isTrack, tail, pairs, signals} = cert, zero = pairs[0].tag, reached = reachedRatio(cert);
  const seconds = (/** @type {bigint} */ tag) => milliseconds(tag - zero) / 1000;
  const times = pairs.map(pair => milliseconds(pair.tag));
  return {
    isTrack, saysFixed: tail.isFixed, last: tail.last, notes: notesOf(cert),
    ratio: Number(cert.ratio) / 1000, reached: reached === null ? null : Number(reached) / 1000,
    system: cert.system === 'E' ? 'Galileo' : 'GPS',
    bands: [...cert.bands].map((band, k) => `${bandName(cert, band)} (${cert.codes[k]})`),
    arcs: arcsOf(cert),
    rows: pairs.reduce((sum, pair) => sum + pair.rows.length, 0),
    pairs: pairs.map(({number, tag}) => ({number, at: seconds(tag)})),
    begins: dateOf(times.reduce((a, b) => Math.min(a, b))), ends: dateOf(times.reduce((a, b) => Math.max(a, b))),
    sun: sunOf(inMetres(cert.base), times),
    base: cert.base.map(metres),
    places: isCertified ? placesOf(cert, seconds) : [],
    signals: signals.map(({isPhase, band}) => `${isPhase ? 'phase' : 'code'} ${bandName(cert, band)}`),
    box: micrometres(greatestRadius(cert)),
    residuals: residualsOf(cert).flatMap((rows, k) => rows.map((values, i) => (
      {arc: pairs[k].rows[i].arc, pair: k, values: values.map(x => Number(x) / 1000)}))),
    sky: pairs.map(({rows, point}) => rows.map(row => ({arc: row.arc, ...seenFrom(point, row.direction)}))),
  };
}

/**
 * The greatest radius of an observation's box, in the unit of a row.
 * @param {Certificate} cert
 */
const greatestRadius = ({pairs}) =>
  pairs.flatMap(({rows}) => rows).reduce((most, {yRadius}) => (yRadius > most ? yRadius : most), 0n);

/**
 * The mean solar time at a place.
 * @param {number[]} place
 * @param {number[]} times in milliseconds since 1980-01-06
 */
function sunOf(place, times) {
  const hours = times.map(ms => solarHour(place, ms));
  const [first, last] = [Math.min, Math.max].map(end => times.reduce((a, b) => end(a, b)));
  return {
    begins: clockOf(solarHour(place, first)), ends: clockOf(solarHour(place, last)),
    isNight: hours.every(hour => hour >= NIGHT.from || hour < NIGHT.to),
  };
}

/**
 * @param {Certificate} cert
 * @param {string} band
 */
const bandName = ({system}, band) => (system === 'E' ? `E${band}${band === '5' ? 'a' : ''}` : `L${band}`);

/**
 * @param {Certificate} cert
 * @returns {ShownArc[]}
 */
function arcsOf({system, arcs, pairs}) {
  const used = new Set(pairs.flatMap(pair => pair.rows.map(row => row.arc)));
  return arcs.map(({satellite, first, last, isDatum}, k) =>
    ({name: system + String(satellite).padStart(2, '0'), first, last, isDatum, isUsed: used.has(k)}));
}

/**
 * @param {Certificate} cert
 * @param {(tag: bigint) => number} seconds
 * @returns {Place[]}
 */
function placesOf(cert, seconds) {
  const base = inMetres(cert.base), bounds = boundsOf(cert);
  return vectorsOf(cert).map((tenths, k) => {
    const vector = inMetres(tenths), {number, tag} = cert.pairs[k], bound = bounds[k];
    const enu = eastNorthUp(base, vector), length = Math.hypot(...vector), rise = riseOf(base, vector);
    const near = bound === null ? '' : millimetres(bound);
    return {number, at: seconds(tag), xyz: tenths.map(metres), enu, length, rise, bound: near};
  });
}

/** @param {bigint[]} tenths of a millimetre */
const inMetres = tenths => tenths.map(x => Number(x) / 10_000);

/**
 * Where a satellite stands. A row has the direction from the satellite.
 * @param {bigint[]} point
 * @param {bigint[]} direction
 */
function seenFrom(point, direction) {
  const [east, north, up] = eastNorthUp(inMetres(point), direction.map(u => -Number(u)));
  return {azimuth: Math.atan2(east, north), elevation: Math.atan2(up, Math.hypot(east, north))};
}
