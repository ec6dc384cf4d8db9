// Axes of the pictures.
import {shape} from './dom.mjs';

/**
 * The ends of a picture's inside.
 * @typedef {{left: number, right: number, top: number, bottom: number}} Box
 */

/**
 * Round numbers from one end to the other, at most so many.
 * @param {number} from
 * @param {number} to
 * @param {number} most
 */
export function ticks(from, to, most) {
  const rough = (to - from) / Math.max(1, most), power = 10 ** Math.floor(Math.log10(rough || 1));
  const step = [1, 2, 5, 10].map(k => k * power).find(it => it >= rough * 0.999) ?? power;
  const found = [];
  for (let k = Math.ceil(from / step - 1e-9); k * step <= to + step * 1e-9; k++) found.push(k * step);
  return {step, at: found};
}

/**
 * With as many places as the step needs.
 * @param {number} x
 * @param {number} step
 */
export const tickLabel = (x, step) => x.toFixed(Math.max(0, Math.ceil(-Math.log10(step) - 1e-9)));

/**
 * The unit of an axis of so many seconds.
 * @param {number} seconds
 */
function timeUnit(seconds) {
  if (seconds > 10_800) return {name: 'h', length: 3600};
  return seconds > 180 ? {name: 'min', length: 60} : {name: 's', length: 1};
}

/**
 * A horizontal axis of time.
 * @param {Box} box
 * @param {number} seconds
 * @param {(seconds: number) => number} x
 */
export function timeAxis(box, seconds, x) {
  const unit = timeUnit(seconds), most = Math.max(2, (box.right - box.left) / 90);
  const {step, at} = ticks(0, seconds / unit.length, most);
  return at.map((t, k) => {
    const place = x(t * unit.length), anchor = k === 0 ? 'start' : place > box.right - 30 ? 'end' : 'middle';
    const label = tickLabel(t, step) + (k === at.length - 1 ? ` ${unit.name}` : '');
    return shape('text', {x: place, y: box.bottom + 15, 'text-anchor': anchor, class: 'tick'}, label);
  });
}
