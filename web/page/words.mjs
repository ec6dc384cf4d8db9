// What the page says of a verdict, for someone who gets a vector and wasn't there.
import {BASE_ERROR, HEIGHT_COST, NIGHT, SCALE} from './usual.mjs';
import {USUAL_CODE, USUAL_HEIGHT, USUAL_HOURS, USUAL_LENGTH, USUAL_PHASE, USUAL_RATIO} from './usual.mjs';
import {roundedDown, roundedUp} from './dom.mjs';

/**
 * @typedef {import('./view.mjs').View} View
 * @typedef {import('./view.mjs').Session} Session
 *
 * How a verdict is shown: `good`, `look` or `bad`, its title and what it means.
 * @typedef {{mood: string, title: string, text: string}} Headline
 *
 * A thing to look at, and whether it stands out.
 * @typedef {{isOut: boolean, text: string}} Look
 */

/** @type {Record<string, string>} */
const CAUSES = {
  unseparated: 'other integers fit nearly as well',
  weak: 'the observations are too few or too weak',
  overwidth: 'a number is too large for the decision',
  spent: 'the search ends without integers at the budget that the text names',
};
const CHANGED = 'somebody or something has changed it. Don\u2019t use its vector.';

/**
 * @param {View} view
 * @returns {Headline}
 */
export function headline({kind, words, session}) {
  if (kind === 'refused' || !session) {
    return bad('Not a certificate', 'The text isn\u2019t spelled as one. It vouches for nothing.');
  }
  if (kind === 'certified') return certified(session);
  const [cause] = words.replace('not certified ', '').split(' ');
  return cause === 'tail' ? tailed(session) : unfixed(session, cause);
}

/**
 * @param {string} title
 * @param {string} text
 * @returns {Headline}
 */
const bad = (title, text) => ({mood: 'bad', title, text});

/**
 * The rows give a fix, and the tail says another thing.
 * @param {Session} session
 */
function tailed({saysFixed}) {
  if (!saysFixed) {
    return bad('Not certified: the text itself says no fix',
      `Its last line declines, though its rows give a fix: ${CHANGED}`);
  }
  return bad('Not certified: the text says another thing than its rows',
    `Its last lines aren\u2019t those that the rows give: ${CHANGED}`);
}

/**
 * The rows give no fix.
 * @param {Session} session
 * @param {string} cause
 */
function unfixed({saysFixed}, cause) {
  const text = saysFixed ? `The text says \u201cfixed\u201d, and its rows don\u2019t give a fix: ${CHANGED}`
    : 'The text says so itself. There is no vector to use.';
  return bad(`No fix: ${CAUSES[cause] ?? cause}`, text);
}

/**
 * Green only where nothing in the text itself speaks against its vector.
 * @param {Session} session
 * @returns {Headline}
 */
function certified(session) {
  const {notes, ratio} = session, name = vectorName(session);
  if (notes.length) {
    const isOdd = 'But the text isn\u2019t as Baseline writes one, so somebody made or changed it.';
    const text = `${claim(session)} ${isOdd} Don\u2019t use this ${name} before you know why.`;
    return {mood: 'look', title: 'Certified, but not as the program writes it', text};
  }
  if (ratio < USUAL_RATIO) {
    const isLow = `But the text asks for less than the usual ${USUAL_RATIO}: the smaller the ratio, the more easily wrong `
      + `integers pass. Don\u2019t use this ${name} before you know why.`;
    return {mood: 'look', title: `Certified, but only for the ratio ${ratio}`, text: `${claim(session)} ${isLow}`};
  }
  return {mood: 'good', title: 'Certified', text: claim(session)};
}

/** @param {Session} session */
const claim = session => `No other ${integers(session)}, with any ${rivalName(session)}, fit the numbers in this text as well `
  + `as the printed ones: all others fit ${times(session)} as badly, wherever in their boxes the observations lie. A box `
  + `covers the rounding of what is computed (here at most ${radius(session)} to each side), not noise.`;

/** @param {Session} session */
const vectorName = session => (session.isTrack ? 'track' : 'vector');

/** @param {Session} session */
const rivalName = session => (session.isTrack ? 'places of the rover' : 'vector');

/** @param {Session} session */
function integers({notes, arcs}) {
  const name = 'integers (carrier-phase ambiguities)', free = arcs.filter(arc => !arc.isDatum).length;
  return notes.length ? `${name} of the arcs that the text calls free, ${free} of ${arcs.length}` : name;
}

/**
 * The ratio that was reached.
 * @param {Session} session
 */
const times = ({reached}) => (reached === null ? 'any number of times' : `at least ${roundedDown(reached, 1)} times`);

/** @param {Session} session */
const radius = ({box}) => `${roundedUp(box, 2)} \u00b5m`;

/** @param {number[]} values */
const greatest = values => values.reduce((most, x) => Math.max(most, Math.abs(x)), 0);

/**
 * What `certified` says.
 * @param {Session} session
 * @returns {string[]}
 */
export function proved(session) {
  const {isTrack, notes, ratio} = session, free = notes.length ? ' of the arcs called free' : '';
  return [
    `All other integers${free}, with any ${rivalName(session)}, have ${times(session)} the weighted sum of squares of the `
      + `printed integers with the printed correction${isTrack ? 's' : ''} (move).`,
    'This holds wherever in their boxes the observations and the directions to the satellites lie. A box is a tiny '
      + `interval in place of a number, here at most ${radius(session)} to each side of an observation. It is decided in `
      + 'whole numbers, exactly.',
    ...nearest(session),
    `The machine\u2019s proof is of the program \u201cbaseline ${isTrack ? 'check-track' : 'check'}\u201d and says `
      + `${ratio} times, the ratio asked for. This page decides the same again and computes the ratio that is reached; it was `
      + 'tested, not proved.',
  ];
}

/**
 * How near the vector is to the one that fits best. Of a track each place is compared with the one that fits its own pair,
 * and the greatest of their bounds is said.
 * @param {Session} session
 */
function nearest({isTrack, places}) {
  if (places.some(place => place.bound === '')) return [];
  const far = greatest(places.map(place => Number(place.bound))).toFixed(2);
  const [line, each, rows] = isTrack ? ['at', 'each place', ' the rows of its pair'] : ['point', 'the vector', ''];
  return [`If the lines base and ${line} are those that the rows were computed with (no check can see this), ${each}, before `
    + `it is rounded to 0.1 mm, is within ${far} mm of the one that fits${rows} best with the printed integers, in each of `
    + 'X, Y and Z (in space up to 1.7 times as far): with these weights, without an atmosphere, wherever in their boxes '
    + 'the observations lie. This isn\u2019t an accuracy.'];
}

/**
 * What `certified` doesn't say.
 * @param {Session} session
 * @returns {string[]}
 */
export function notProved(session) {
  const name = vectorName(session);
  return [
    'That the integers are the right ones. They fit best; noise, atmosphere and multipath can make wrong ones fit best, '
      + `and then the ${name} is wrong by decimetres. docs/FIXED.md in the repository of the program says how often that `
      + 'was seen in simulated sessions.',
    'That the observations are yours. A text made from edited files, or from none, is certified too.',
    `That the lines base and ${session.isTrack ? 'at' : 'point'} are right. No check uses them, and whoever changes them `
      + `changes the ${name}. Nor does it use the satellites\u2019 names, the times, and the letters of system and codes.`,
    `That the ${name} is right to a millimetre. It is computed without an atmosphere: a level line is some ${SCALE.night} `
      + `ppm too long by night, and about ${SCALE.tecu} ppm shorter for each 10 TECU of the ionosphere\u2019s electron content `
      + '(5 by night, 20 by day, 40 at noon of a solar maximum). Noise, multipath and errors of antennas and broadcast '
      + 'orbits remain.',
    `That the base\u2019s position is right. ${BASE_ERROR} m there change the ${name} by about a quarter of a millionth of `
      + 'its length.',
    'Anything of antenna heights: it goes from one antenna\u2019s phase centre to the other\u2019s.',
  ];
}

/**
 * The greatest residual of the phases or of the codes, in millimetres.
 * @param {Session} session
 * @param {string} kind
 */
const worst = ({signals, residuals}, kind) => greatest(signals.flatMap((name, q) =>
  (name.startsWith(kind) ? [greatest(residuals.map(row => row.values[q]))] : [])));

/** @param {number} metres */
const distance = metres => (metres < 10_000 ? `${metres.toFixed(0)} m` : `${(metres / 1000).toFixed(1)} km`);

/**
 * The seconds from the first pair to the latest.
 * @param {Session} session
 */
export const lastsOf = ({pairs}) => pairs.reduce((most, pair) => Math.max(most, pair.at), 0);

/** @param {number} seconds */
export function duration(seconds) {
  if (seconds < 600) return `${seconds.toFixed(0)} s`;
  if (seconds < 10_800) return `${(seconds / 60).toFixed(1)} minutes`;
  return seconds < 259_200 ? `${(seconds / 3600).toFixed(1)} hours` : `${(seconds / 86_400).toFixed(0)} days`;
}

/**
 * What a person has to look at, what stands out first.
 * @param {Session} session
 * @returns {Look[]}
 */
export function looks(session) {
  const {ratio, places, notes, sun} = session, phase = worst(session, 'phase'), code = worst(session, 'code') / 1000;
  const length = greatest(places.map(place => place.length)), rise = greatest(places.map(place => place.rise));
  const part = sun.isNight ? 'night' : 'day', most = USUAL_LENGTH[part];
  const below = session.sky.flat().filter(row => row.elevation < 0).length;
  const datums = session.arcs.filter(arc => arc.isDatum).length, seconds = lastsOf(session);
  /** @type {Look[]} */
  const items = [
    {isOut: ratio < USUAL_RATIO, text: `The text asks for the ratio ${ratio} (its line ratio is in thousandths); `
      + `${USUAL_RATIO} or more is usual.`},
    {isOut: length > most, text: `The receivers are ${distance(length)} apart; by ${part} use it up to ${most / 1000} km. `
      + `(${sun.begins} to ${sun.ends} by mean solar time, from the text\u2019s base and times; ${NIGHT.from} h to ${NIGHT.to} h `
      + 'is taken as night.)'},
    {isOut: rise > USUAL_HEIGHT, text: `They differ in height (over the ellipsoid) by ${rise.toFixed(1)} m; each metre costs `
      + `about ${HEIGHT_COST} mm, and up to ${USUAL_HEIGHT} m is usual.`},
    {isOut: seconds > USUAL_HOURS * 3600,
      text: `The session lasts ${duration(seconds)} by the text\u2019s times; up to ${USUAL_HOURS} hours is usual.`},
    {isOut: phase > USUAL_PHASE,
      text: `The greatest residual of a phase is ${phase.toFixed(1)} mm; within some ${USUAL_PHASE} mm is usual.`},
    {isOut: code > USUAL_CODE,
      text: `The greatest residual of a code is ${code.toFixed(2)} m; within some ${USUAL_CODE} m is usual.`},
  ];
  if (below) {
    const text = `${below} rows have a satellite below the horizon: no real session at this place has them.`;
    items.unshift({isOut: true, text});
  }
  if (datums > 1 && !notes.length) {
    const why = `the session falls into ${datums} parts that share no pair.`;
    items.push({isOut: false, text: `There are ${datums} reference arcs (datum): ${why}`});
  }
  return [...items.filter(item => item.isOut), ...items.filter(item => !item.isOut)];
}

/**
 * What a person may ask for.
 * @param {Session} session
 * @returns {string[]}
 */
export const asks = session => [
  'The observation files, the navigation file and the options: on them \u201cbaseline '
    + `${session.isTrack ? 'track' : 'fix'}\u201d must write this text, byte for byte (\u201cbaseline-survey verify\u201d `
    + 'compares). Only this shows that the text comes from these files. That the files are true, no program shows: get '
    + 'the base\u2019s from the network\u2019s own archive.',
  'A second session at another time of the day: it shows what noise, atmosphere and multipath do.'
    + (session.isTrack ? '' : ' It should give the same vector within some centimetres; wrong integers are off by decimetres.'),
  'The antennas, their heights and the coordinates of the base.',
];
