// The pictures of every session: ratio, sky and residuals.
import {DOT, timesOf, verticalAxis, wayOf, words} from './strokes.mjs';
import {USUAL_CODE, USUAL_PHASE} from './usual.mjs';
import {coloured, satellitesOf} from './satellites.mjs';
import {picture, roundedDown, shape} from './dom.mjs';
import {ticks, timeAxis} from './axis.mjs';

/** @typedef {import('./view.mjs').Session} Session */

/** From how many rows on the dots are fine, and the height from which on an axis has more marks. */
const MANY_ROWS = 3000, TALL = 120;
const RATIO_MARKS = [1, 2, 5, 10, 20, 50, 100, 200, 500, 1000];
/** The greatest size of the sky, and how many points of an arc it has. */
const MOST_SKY = 420, MOST_POINTS = 150;

/**
 * The ratio asked for and reached, on a logarithmic bar, which is grey where nothing vouches for it.
 * @param {Session} session
 * @param {boolean} isCertified
 * @param {number} width
 */
export function ratioPicture({ratio, reached}, isCertified, width) {
  const got = reached ?? Infinity, most = Math.max(10, ratio * 2, Math.min(1000, got) * 1.3);
  const left = 8, right = width - 8, bar = {x: left, y: 24, height: 22, rx: 4};
  const part = (/** @type {number} */ r) => Math.log(Math.min(most, Math.max(1, r))) / Math.log(most);
  const x = (/** @type {number} */ r) => left + (right - left) * part(r);
  const end = x(got), isInside = end - left > 150, isRight = x(ratio) > width - 110;
  const label = reached === null ? 'any number' : `at least ${roundedDown(reached, 2)}`;
  return picture(width, 76, `Ratio asked for ${ratio}, reached ${label}`,
    shape('rect', {...bar, width: right - left, class: 'trough'}),
    shape('rect', {...bar, width: Math.max(1, end - left), class: isCertified ? 'bar' : 'bar claimed'}),
    shape('line', {x1: x(ratio), x2: x(ratio), y1: 18, y2: 52, class: 'asked'}),
    words(x(ratio) + (isRight ? -5 : 5), 15, isRight ? 'end' : 'start', '', `asked for ${ratio}`),
    words(isInside ? end - 8 : end + 8, 40, isInside ? 'end' : 'start', isInside ? 'on-bar' : 'strong', label),
    ...RATIO_MARKS.filter(r => r <= most).map(r => words(x(r), 66, r === 1 ? 'start' : 'middle', 'tick', String(r))));
}

/**
 * Where the satellites stood.
 * @param {Session} session
 * @param {number} width
 */
export function skyPicture(session, width) {
  const size = Math.min(width, MOST_SKY), middle = size / 2, radius = middle - 26, all = satellitesOf(session);
  const made = picture(size, size, 'The sky: where each satellite stood', ...skyRings(middle, radius),
    words(middle, 16, 'middle', '', 'N'), words(size - 12, middle + 4, 'middle', '', 'E'),
    words(middle, size - 8, 'middle', '', 'S'), words(12, middle + 4, 'middle', '', 'W'));
  for (const [arc, places] of skyPaths(session)) {
    const points = places.map(({azimuth, elevation}) => {
      const r = radius * (1 - elevation / (Math.PI / 2));
      return [middle + r * Math.sin(azimuth), middle - r * Math.cos(azimuth)];
    });
    const {name} = session.arcs[arc], [x, y] = points[points.length - 1], isRight = x > size - 60;
    const label = words(isRight ? x - 8 : x + 8, y + 4, isRight ? 'end' : 'start', 'name', name);
    const end = shape('circle', {cx: x, cy: y, r: 4.5, class: 'dot'});
    const path = shape('path', {d: wayOf(points), class: 'arc'});
    made.append(...[path, end, label].map(it => coloured(it, name, all)));
  }
  return made;
}

/**
 * The horizon, two circles above it, and the cross.
 * @param {number} middle
 * @param {number} radius
 */
function skyRings(middle, radius) {
  const rings = [0, 30, 60].flatMap(degrees => {
    const r = radius * (1 - degrees / 90);
    const label = words(middle + 3, middle - r + 12, 'start', 'tick', `${degrees}\u00b0`);
    return [shape('circle', {cx: middle, cy: middle, r, class: 'ring'}), label];
  });
  const cross = `M${middle},${middle - radius}v${2 * radius}M${middle - radius},${middle}h${2 * radius}`;
  return [...rings, shape('path', {d: cross, class: 'ring'})];
}

/**
 * The places of each arc above the horizon: some, and the last.
 * @param {Session} session
 */
function skyPaths({sky}) {
  const step = Math.max(1, Math.floor(sky.length / MOST_POINTS));
  /** @type {Map<number, {azimuth: number, elevation: number}[]>} */
  const paths = new Map();
  for (const {arc, azimuth, elevation} of sky.flat()) {
    if (!paths.has(arc)) paths.set(arc, []);
    if (elevation >= 0) paths.get(arc)?.push({azimuth, elevation});
  }
  const isKept = (/** @type {number} */ k, /** @type {number} */ count) => k % step === 0 || k === count - 1;
  return [...paths].filter(([, places]) => places.length > 0)
    .map(([arc, places]) => /** @type {const} */ ([arc, places.filter((_, k) => isKept(k, places.length))]));
}

/**
 * The residuals of one signal over time, by satellite.
 * @param {Session} session
 * @param {number} q the signal's place in a row
 * @param {number} width
 * @param {number} height
 */
export function residualPicture(session, q, width, height) {
  const name = session.signals[q], usual = name.startsWith('phase') ? USUAL_PHASE : USUAL_CODE * 1000;
  const box = {left: 46, right: width - 10, top: 8, bottom: height - 22}, {seconds, x} = timesOf(session, box);
  const worst = session.residuals.reduce((most, row) => Math.max(most, Math.abs(row.values[q])), 0);
  const most = Math.max(worst * 1.06, usual * 1.2), middle = (box.top + box.bottom) / 2;
  const y = (/** @type {number} */ v) => middle - ((box.bottom - box.top) / 2) * (v / most);
  const shade = {x: box.left, y: y(usual), width: box.right - box.left, height: y(-usual) - y(usual), class: 'usual'};
  return picture(width, height, `Residuals of ${name} in millimetres, the greatest ${worst.toFixed(1)}`,
    shape('rect', shade), ...verticalAxis(box, ticks(-most, most, height > TALL ? 5 : 3), y),
    ...timeAxis(box, seconds, x), ...residualDots(session, q, x, y),
    words(box.left + 6, box.top + 12, 'start', 'strong halo', name));
}

/**
 * A path for each satellite, with one dot for each place, so that a long session stays quick to draw.
 * @param {Session} session
 * @param {number} q
 * @param {(seconds: number) => number} x
 * @param {(millimetres: number) => number} y
 */
function residualDots(session, q, x, y) {
  const half = (/** @type {number} */ v) => (Math.round(v * 2) / 2).toFixed(1), all = satellitesOf(session);
  /** @type {Map<string, Set<string>>} */
  const dots = new Map(all.map(name => [name, new Set()]));
  for (const {arc, pair, values} of session.residuals) {
    dots.get(session.arcs[arc].name)?.add(`M${half(x(session.pairs[pair].at))},${half(y(values[q]))}h${DOT}`);
  }
  const size = session.residuals.length > MANY_ROWS ? 'points fine' : 'points';
  return [...dots].map(([name, places]) => coloured(shape('path', {d: [...places].join(''), class: size}), name, all));
}
