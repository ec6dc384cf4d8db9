import assert from 'node:assert/strict';
import {describe, it} from 'node:test';
import {example} from './texts.mjs';
import {hintOf} from '../look/hints.mjs';

const utf16 = (/** @type {boolean} */ isBig) =>
  [...example()].map(letter => (isBig ? `\0${letter}` : `${letter}\0`)).join('');

describe('the hint of a text that was sent about', () => {
  /** @type {[string, string, RegExp][]} */
  const table = [
    ['cut off', example().slice(0, 9000), /cut off/],
    ['quoted', `> ${example()}`, /quoted from a mail/],
    ['CR LF', example().replaceAll('\n', '\r\n'), /end with CR LF/],
    ['CR alone', example().replaceAll('\n', '\r'), /end with CR,/],
    ['a byte order mark', `\u00ef\u00bb\u00bf${example()}`, /byte order mark/],
    ['two bytes a letter, the low one first', utf16(false), /two bytes for each letter/],
    ['two bytes a letter, the high one first', utf16(true), /two bytes for each letter/],
    ['a blank line more', `${example()}\n`, /something after the last line/],
    ['a signature', `${example()}-- \nSent from a telephone\n`, /something after the last line/],
    ['a NUL', `${example()}\0`, /something after the last line/],
    ['no end of the last line', example().slice(0, -1), /The end of the last line is missing/],
    ['none', 'ab\n', /^$/],
  ];
  for (const [name, text, form] of table) it(name, () => assert.match(hintOf(text), form));
});
