// The pictures of a track: its places over time and from above.
import {dotsOf, timesOf, verticalAxis, wayOf, words} from './strokes.mjs';
import {picture, shape} from './dom.mjs';
import {tickLabel, ticks, timeAxis} from './axis.mjs';

/** @typedef {import('./view.mjs').Session} Session */

/** From how many places on the dots are fine, and the height from which on an axis has more marks. */
const MANY_PLACES = 400, TALL = 120;
/** The greatest size of the plan, and the least width that it shows, in metres. */
const MOST_PLAN = 420, LEAST_SPAN = 0.002;
const NAMES = ['east', 'north', 'up'];

/**
 * The line and the dots of a way.
 * @param {number[][]} points
 */
const way = points => [shape('path', {d: wayOf(points), class: 'way'}),
  shape('path', {d: dotsOf(points), class: points.length > MANY_PLACES ? 'place fine' : 'place'})];

/**
 * The scale of one coordinate of a track's places.
 * @param {Session} session
 * @param {number} i of east, north, up
 * @param {number} height
 */
function scaleOf({places}, i, height) {
  const values = places.map(place => place.enu[i]);
  const least = values.reduce((a, b) => Math.min(a, b)), most = values.reduce((a, b) => Math.max(a, b));
  const margin = Math.max((most - least) * 0.08, 0.001);
  return {values, least, most, margin, marks: ticks(least - margin, most + margin, height > TALL ? 5 : 3)};
}

/**
 * One coordinate of a track's places over time, in metres. All three have the same left end.
 * @param {Session} session
 * @param {number} i of east, north, up
 * @param {number} width
 * @param {number} height
 */
export function placePicture(session, i, width, height) {
  const scales = NAMES.map((_, k) => scaleOf(session, k, height)), {values, least, most, margin, marks} = scales[i];
  const labels = scales.flatMap(({marks: {at, step}}) => at.map(v => tickLabel(v, step).length));
  const left = Math.max(46, 14 + 6.6 * Math.max(...labels));
  const box = {left, right: width - 10, top: 8, bottom: height - 22}, {seconds, x} = timesOf(session, box);
  const unit = (box.bottom - box.top) / (most - least + 2 * margin);
  const y = (/** @type {number} */ v) => box.bottom - unit * (v - least + margin);
  const points = session.places.map((place, k) => [x(place.at), y(values[k])]);
  const title = `The rover's ${NAMES[i]} over time, from ${least.toFixed(4)} to ${most.toFixed(4)} m`;
  return picture(width, height, title, ...verticalAxis(box, marks, y), ...timeAxis(box, seconds, x), ...way(points),
    words(box.left + 6, box.top + 12, 'start', 'strong halo', `${NAMES[i]}, m`));
}

/**
 * A track from above, one scale for both directions.
 * @param {Session} session
 * @param {number} width
 */
export function planPicture(session, width) {
  const size = Math.min(width, MOST_PLAN), scales = [0, 1].map(i => scaleOf(session, i, size));
  const [east, north] = scales.map(({least, most}) => (least + most) / 2);
  const span = Math.max(...scales.map(({least, most}) => most - least), LEAST_SPAN) * 1.1, unit = (size - 30) / span;
  const points = session.places.map(({enu}) => [size / 2 + (enu[0] - east) * unit, size / 2 - (enu[1] - north) * unit]);
  const ruler = ticks(0, span / 2, 1).step, [x, y] = points[0], ends = `m0,-4v8M16,${size - 20}v8`;
  return picture(size, size, 'The way of the rover from above, north up',
    shape('rect', {x: 1, y: 1, width: size - 2, height: size - 2, rx: 6, class: 'ring'}), ...way(points),
    shape('circle', {cx: x, cy: y, r: 5, class: 'start'}), words(x + 8, y + 4, 'start', 'halo', 'start'),
    shape('path', {d: `M16,${size - 16}h${(ruler * unit).toFixed(1)}${ends}`, class: 'asked'}),
    words(16, size - 26, 'start', 'halo', `${Number(ruler.toPrecision(2))} m, north up`));
}
