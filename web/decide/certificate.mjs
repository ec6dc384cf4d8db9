// Reading a certificate of `fix` or of `track` (FORMATS, "Certificates" and "Certificates of tracks").
import {LineReader, belowPower, inSize, numberOr, range} from './lines.mjs';
import {readTail} from './tail.mjs';

/**
 * What a row observes on a band: a carrier phase with its wavelength, or a code, whose wavelength is 0. The
 * wavelength is in the unit of a row, 2^-13 iota; the weight is that of DEFINITIONS, section 1.
 * @typedef {{band: string, isPhase: boolean, wavelength: bigint, weight: bigint}} Signal
 *
 * A stretch of one satellite's phases without a cycle slip, from the pair `first` to the pair `last`. `ambiguity`
 * numbers the free arcs from 0; a datum has -1, its integers are 0. The shifts are the whole cycles that were taken
 * off, one for each band; no decision uses them.
 * @typedef {object} Arc
 * @property {number} satellite
 * @property {number} first
 * @property {number} last
 * @property {boolean} isDatum
 * @property {number} ambiguity
 * @property {bigint[]} shifts
 *
 * One satellite in one pair of epochs: the centres y of its observations with one radius (2^-13 iota), and the
 * centres of its direction with their radii (2^-24).
 * @typedef {{arc: number, y: bigint[], yRadius: bigint, direction: bigint[], radii: bigint[]}} Row
 *
 * Two epochs, of base and rover. The tag is in ticks of 100 ns of GPS time, the group in iota. `point` is the rover's
 * of a track, else that of the head.
 * @typedef {{number: number, tag: bigint, group: bigint, point: bigint[], rows: Row[]}} Pair
 *
 * @typedef {object} Certificate
 * @property {boolean} isTrack
 * @property {bigint} ratio in thousandths
 * @property {bigint} budget of visits in a search
 * @property {string} system `G` or `E`
 * @property {bigint[]} base in 0.1 mm, as all points
 * @property {bigint[]} point the base's again for a track
 * @property {string} bands by their digits
 * @property {string[]} codes the letter of the codes of each band
 * @property {Signal[]} signals in the order of a row's numbers
 * @property {Arc[]} arcs
 * @property {number} freeArcs how many
 * @property {Pair[]} pairs
 * @property {import('./tail.mjs').Tail} tail
 *
 * What the lines before the arcs say.
 * @typedef {Pick<Certificate,
 *   'isTrack' | 'ratio' | 'budget' | 'system' | 'base' | 'point' | 'bands' | 'codes' | 'signals'>} Head
 */

/**
 * The wavelengths of the bands in iota, of which 7251.9 are a metre.
 * @type {Record<string, bigint>}
 */
const WAVELENGTHS = {1: 1380n, 2: 1771n, 5: 1848n};
const ROW_BITS = 13n;
const PHASE_WEIGHT = 10_000n, CODE_WEIGHT = 1n;
const MOST_FREE = 20, LAST_PAIR = 3599;
/** After how many pairs the reader says how far it is. */
const PAIRS_BETWEEN = 100;

/**
 * @param {string} band
 * @returns {Signal}
 */
const phase = band => ({band, isPhase: true, wavelength: WAVELENGTHS[band] << ROW_BITS, weight: PHASE_WEIGHT});

/**
 * @param {string} band
 * @returns {Signal}
 */
const code = band => ({band, isPhase: false, wavelength: 0n, weight: CODE_WEIGHT});

/** In the order of a row's numbers. */
const SIGNALS = [phase('1'), phase('2'), code('1'), code('2'), phase('5'), code('5')];
const BAND_SETS = ['12', '15', '125'];
/** @type {Record<string, string[]>} */
const CODES = {1: [...'CWXSL'], 2: [...'WXLSC'], 5: [...'QXI']};
const PLACE = Array(3).fill(inSize(70_000_000_000));
const Y = inSize(1n << 34n), DIRECTION = inSize(1 << 24), RADIUS = range(0, 1 << 20);

/**
 * @param {string} text one character for each byte
 * @param {(part: number) => void} [progress] is told how much of the text is read, from 0 to 1
 * @returns {Certificate}
 */
export function readCertificate(text, progress = () => {}) {
  const reader = new LineReader(text), head = readHead(reader, text.startsWith('baseline-track'));
  const arcs = readArcs(reader, head.bands.length), freeArcs = arcs.filter(arc => !arc.isDatum).length;
  /** @type {Pair[]} */
  const pairs = [];
  const [pairCount] = reader.take(['pairs', range(1, LAST_PAIR + 1)]).numbers;
  while (pairs.length < Number(pairCount)) {
    if (pairs.length % PAIRS_BETWEEN === 0) progress(reader.at / text.length);
    const least = pairs.length ? pairs[pairs.length - 1].number + 1 : 0;
    pairs.push(readPair(reader, head, arcs, least));
  }
  const {isTrack, budget} = head, integers = freeArcs * head.bands.length;
  const tail = readTail(reader, {isTrack, budget, integers, pairs: pairs.map(pair => pair.number)});
  reader.end();
  return {...head, arcs, freeArcs, pairs, tail};
}

/**
 * @param {LineReader} reader
 * @param {boolean} isTrack
 * @returns {Head}
 */
function readHead(reader, isTrack) {
  reader.take(isTrack ? ['baseline-track', '1'] : ['baseline-cert', '2']);
  const [ratio] = reader.take(['ratio', range(1000, 100_000)]).numbers;
  const [budget] = reader.take(['budget', range(1, 100_000_000)]).numbers;
  const [system] = reader.take(['system', ['G', 'E']]).chosen;
  const base = reader.take(['base', ...PLACE]).numbers;
  const point = isTrack ? base : reader.take(['point', ...PLACE]).numbers;
  const shapes = BAND_SETS.map(set => ['signals', [set], ...[...set].map(band => CODES[band])]);
  const [bands, ...codes] = reader.take(...shapes).chosen;
  const signals = SIGNALS.filter(signal => bands.includes(signal.band));
  return {isTrack, ratio, budget, system, base, point, bands, codes, signals};
}

/**
 * @param {LineReader} reader
 * @param {number} bands
 * @returns {Arc[]}
 */
function readArcs(reader, bands) {
  /** @type {Arc[]} */
  const arcs = [];
  const [count] = reader.take(['arcs', range(2, 200)]).numbers;
  let freeArcs = 0;
  while (arcs.length < Number(count)) {
    const isLast = arcs.length + 1 === Number(count);
    const kinds = freeArcs === MOST_FREE ? ['datum'] : isLast && freeArcs === 0 ? ['free'] : ['datum', 'free'];
    const words = reader.words(), lasts = {least: numberOr(words[2]), most: BigInt(LAST_PAIR)};
    const shape = ['arc', range(1, 36), range(0, LAST_PAIR), lasts, kinds, ...Array(bands).fill(belowPower(40))];
    const {chosen: [kind], numbers} = reader.match(words, shape), isDatum = kind === 'datum';
    const [satellite, first, last] = numbers.slice(0, 3).map(Number), ambiguity = isDatum ? -1 : freeArcs++;
    arcs.push({satellite, first, last, isDatum, ambiguity, shifts: numbers.slice(3)});
  }
  return arcs;
}

/**
 * @param {LineReader} reader
 * @param {Head} head
 * @param {Arc[]} arcs
 * @param {number} least the least number that the pair may have
 * @returns {Pair}
 */
function readPair(reader, {isTrack, point, signals}, arcs, least) {
  const shape = ['pair', range(least, LAST_PAIR), range(0, (1n << 63n) - 1n), belowPower(55), range(1, 15)];
  const [own, tag, group, count] = reader.take(shape).numbers, number = Number(own);
  const at = isTrack ? reader.take(['at', ...PLACE]).numbers : point;
  /** @type {Row[]} */
  const rows = [];
  while (rows.length < Number(count)) rows.push(readRow(reader, signals.length, arcs, number, rows[rows.length - 1]));
  return {number, tag, group, point: at, rows};
}

/**
 * @param {LineReader} reader
 * @param {number} signals
 * @param {Arc[]} arcs
 * @param {number} pair
 * @param {Row | undefined} before the row before it in the pair
 * @returns {Row}
 */
function readRow(reader, signals, arcs, pair, before) {
  const words = reader.words(), own = arcRange(words[1], arcs, pair, before ? before.arc + 1 : 0);
  const shape = ['row', own, ...Array(signals).fill(Y), RADIUS, ...Array(3).fill(DIRECTION), ...Array(3).fill(RADIUS)];
  const [arc, ...values] = reader.match(words, shape).numbers, after = values.slice(signals + 1);
  const y = values.slice(0, signals), yRadius = values[signals];
  return {arc: Number(arc), y, yRadius, direction: after.slice(0, 3), radii: after.slice(3)};
}

/**
 * The arc that a row names alone, where it may stand there, else no number.
 * @param {string} word
 * @param {Arc[]} arcs
 * @param {number} pair
 * @param {number} least
 */
function arcRange(word, arcs, pair, least) {
  const none = range(1, 0), named = numberOr(word);
  if (named < BigInt(least) || named >= BigInt(arcs.length)) return none;
  const {first, last} = arcs[Number(named)];
  return first <= pair && pair <= last ? range(named, named) : none;
}
