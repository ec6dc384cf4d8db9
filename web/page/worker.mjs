// The worker's side: reads the bytes, decides, answers. It isn't the page's thread, so that the page stays live and
// can stop it.
import {MOST_BYTES} from '../decide/lines.mjs';
import {check} from '../decide/decide.mjs';
import {viewOf} from './view.mjs';

/** Milliseconds between two reports. */
const BETWEEN = 80;

/**
 * A report while it works, that the file can't be read, or the answer.
 * @typedef {{step: string, part: number}} Report
 * @typedef {{isUnread: true}} Unread
 * @typedef {{view: import('./view.mjs').View, sum: string, seconds: number}} Answer
 */

/**
 * The SHA-256 of the bytes, where the browser gives it to a page from disk, else ''.
 * @param {ArrayBuffer} bytes
 */
async function sumOf(bytes) {
  try {
    const sum = new Uint8Array(await crypto.subtle.digest('SHA-256', bytes));
    return [...sum].map(byte => byte.toString(16).padStart(2, '0')).join('');
  } catch {
    return '';
  }
}

onmessage = async ({data}) => {
  /** @type {Blob} */
  const file = data, began = Date.now();
  let last = 0;
  const progress = (/** @type {string} */ step, /** @type {number} */ part) => {
    if (Date.now() - last < BETWEEN) return;
    last = Date.now();
    postMessage({step, part});
  };
  const bytes = await file.slice(0, MOST_BYTES + 1).arrayBuffer().catch(() => null);
  if (bytes === null) return postMessage({isUnread: true});
  // windows-1252 has one character for each byte, as Latin-1 has, and the same ones for all that a certificate holds
  const text = new TextDecoder('windows-1252').decode(bytes);
  const sum = text.length > MOST_BYTES ? '' : await sumOf(bytes), verdict = check(text, {progress});
  progress('the pictures', 1);
  postMessage({view: viewOf(verdict, text), sum, seconds: (Date.now() - began) / 1000});
};
// what fails in an async function reaches the page as an error
self.addEventListener('unhandledrejection', event => { throw event.reason; });
