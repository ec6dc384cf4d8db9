// What the pictures draw with: words, lines of an axis, ways and dots.
import {shape} from './dom.mjs';
import {tickLabel} from './axis.mjs';

/**
 * The length of a line that is to be a dot by its round ends: a browser's print may draw a line of no length
 * otherwise.
 */
export const DOT = 0.1;

/**
 * Words in a picture.
 * @param {number} x
 * @param {number} y
 * @param {string} anchor
 * @param {string} name of its class
 * @param {string} words
 */
export const words = (x, y, anchor, name, words) => shape('text', {x, y, 'text-anchor': anchor, class: name}, words);

/**
 * The lines of a vertical axis.
 * @param {import('./axis.mjs').Box} box
 * @param {{step: number, at: number[]}} marks
 * @param {(v: number) => number} y
 */
export const verticalAxis = (box, {step, at}, y) => at.flatMap(v => [
  shape('line', {x1: box.left, x2: box.right, y1: y(v), y2: y(v), class: v === 0 ? 'zero' : 'grid'}),
  words(box.left - 6, y(v) + 4, 'end', 'tick', tickLabel(v, step)),
]);

/**
 * A line through points.
 * @param {number[][]} points
 */
export const wayOf = points => `M${points.map(point => point.map(v => v.toFixed(1)).join(',')).join('L')}`;

/**
 * A dot at each point.
 * @param {number[][]} points
 */
export const dotsOf = points => points.map(point => `M${point.map(v => v.toFixed(1)).join(',')}h${DOT}`).join('');

/**
 * The seconds from the first pair to the last, and where a time stands in a picture.
 * @param {import('./view.mjs').Session} session
 * @param {import('./axis.mjs').Box} box
 */
export function timesOf(session, box) {
  const seconds = session.pairs.reduce((most, pair) => Math.max(most, pair.at), 0) || 1;
  const inside = (/** @type {number} */ t) => Math.min(1, Math.max(0, t / seconds));
  return {seconds, x: (/** @type {number} */ t) => box.left + (box.right - box.left) * inside(t)};
}
