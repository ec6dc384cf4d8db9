// In which ways a text isn't as `fix` and `track` write it. The verdict doesn't depend on it: it is what a person
// should look at before he uses a vector. The words are those of recipes/check_certificate.py.
import {abs} from '../decide/whole.mjs';

/**
 * @typedef {import('../decide/certificate.mjs').Certificate} Certificate
 * @typedef {import('../decide/certificate.mjs').Row} Row
 */

/** The radii that `fix` and `track` never exceed (DEFINITIONS, sections 8 and 9). */
const MOST_Y_RADIUS = 470n, MOST_RADIUS = 32n;
/** The last satellite of GPS, and the sets of bands and letters of Galileo (FORMATS, "Observation files"). */
const LAST_OF_GPS = 32, OF_GALILEO = /^15 [CX] /;
/** The first tick of the year 2100: no date that is read is so late (FORMATS, "Dates"). */
const FIRST_OF_2100 = 43_825n * 864_000_000_000n;
/** The square of a direction's length one, in its unit of 2^-24. */
const UNIT_SQUARE = 1n << 48n;

/**
 * A line for each way, with its first place and how many more there are.
 * @param {Certificate} cert
 * @returns {string[]}
 */
export const notesOf = cert => [
  misnamed(cert), outOfOrder(cert), seenTwice(cert), standingTags(cert), lateTags(cert),
  oddRows(cert, row => !isDirection(row), 'the direction\'s length isn\'t one'),
  oddRows(cert, row => row.yRadius > MOST_Y_RADIUS, `RY is over ${MOST_Y_RADIUS}`),
  oddRows(cert, row => row.radii.some(radius => radius > MOST_RADIUS), `R is over ${MOST_RADIUS}`),
  strangeSatellites(cert), strangeSignals(cert),
].flatMap(noteOf);

/** @param {string[]} places */
function noteOf(places) {
  if (places.length === 0) return [];
  return [places[0] + (places.length > 1 ? ` (and ${places.length - 1} more)` : '')];
}

/**
 * The arcs that are called datum, or free, against the rule: in the order of first pair and satellite an arc is a
 * datum exactly where no arc before it reaches its first pair.
 * @param {Certificate} cert
 */
function misnamed({arcs}) {
  const inOrder = arcs.map((arc, at) => ({...arc, at})).sort((a, b) => a.first - b.first || a.satellite - b.satellite);
  const places = [];
  let reach = -1;
  for (const {first, last, isDatum, at} of inOrder) {
    const [wrong, right] = first > reach ? ['free', 'a datum'] : ['datum', 'free'];
    const why = `by its pairs it is ${right}, and integers of a datum are compared with nothing`;
    if (first > reach !== isDatum) places.push(`arc ${at} is called ${wrong}; ${why}`);
    reach = Math.max(reach, last);
  }
  return places;
}

/** @param {Certificate} cert */
const outOfOrder = ({arcs}) => arcs.flatMap((arc, at) => {
  const isAfter = at === 0 || (arc.first - arcs[at - 1].first || arc.satellite - arcs[at - 1].satellite) > 0;
  return isAfter ? [] : [`arc ${at} is out of order`];
});

/** @param {Certificate} cert */
const seenTwice = ({arcs, pairs}) => pairs.flatMap(({number, rows}) => {
  const satellites = new Set(rows.map(row => arcs[row.arc].satellite));
  return satellites.size < rows.length ? [`pair ${number} has a satellite twice`] : [];
});

/** @param {Certificate} cert */
const strangeSatellites = ({system, arcs}) => arcs.flatMap(({satellite}, at) =>
  (system === 'G' && satellite > LAST_OF_GPS ? [`arc ${at} has satellite ${satellite}, which GPS hasn't`] : []));

/** @param {Certificate} cert */
const strangeSignals = ({system, bands, codes}) => {
  const signals = [bands, ...codes].join(' ');
  return system === 'E' && !OF_GALILEO.test(signals) ? [`the signals ${signals} aren't those of Galileo`] : [];
};

/** @param {Certificate} cert */
const standingTags = ({pairs}) => pairs.flatMap(({number, tag}, k) =>
  (k > 0 && tag <= pairs[k - 1].tag ? [`pair ${number} isn't later than the pair before it`] : []));

/** @param {Certificate} cert */
const lateTags = ({pairs}) => pairs.flatMap(({number, tag}) =>
  (tag >= FIRST_OF_2100 ? [`pair ${number} is later than 2099, the last year that is read`] : []));

/**
 * @param {Certificate} cert
 * @param {(row: Row) => boolean} isOdd
 * @param {string} what
 */
const oddRows = ({pairs}, isOdd, what) => pairs.flatMap(({number, rows}) =>
  rows.flatMap(row => (isOdd(row) ? [`pair ${number} arc ${row.arc}: ${what}`] : [])));

/**
 * Whether the boxes of a direction, one unit wider, hold a vector of length one.
 * @param {Row} row
 */
function isDirection({direction, radii}) {
  let least = 0n, most = 0n;
  for (const [i, u] of direction.entries()) {
    const far = abs(u) + radii[i] + 1n, near = abs(u) - radii[i] - 1n;
    most += far * far;
    if (near > 0n) least += near * near;
  }
  return least <= UNIT_SQUARE && UNIT_SQUARE <= most;
}
