// What the page calls usual is what docs/FIXED.md tells a client, and no number of either stands alone.
import assert from 'node:assert/strict';
import {readFileSync} from 'node:fs';
import {join} from 'node:path';
import {describe, it} from 'node:test';
import {ROOT} from './texts.mjs';
import {
  BASE_ERROR, HEIGHT_COST, SCALE, USUAL_CODE, USUAL_HEIGHT, USUAL_HOURS, USUAL_LENGTH, USUAL_PHASE, USUAL_RATIO,
} from '../page/usual.mjs';

const FIXED = readFileSync(join(ROOT, 'docs', 'FIXED.md'), 'utf8');

describe('docs/FIXED.md says, as the page does', () => {
  for (const words of [
    `the line \`ratio\`: ${USUAL_RATIO * 1000} or more`,
    `up to ${USUAL_LENGTH.night / 1000} km by night and ${USUAL_LENGTH.day / 1000} km by day`,
    `up to ${USUAL_HEIGHT} m: each metre costs about ${HEIGHT_COST} mm`,
    `the session, up to ${USUAL_HOURS} hours;`,
    `some ${USUAL_PHASE} mm of a phase and ${USUAL_CODE} m of a code`,
    `some ${SCALE.night} ppm too long by night, and about ${SCALE.tecu} ppm shorter for each 10 TECU`,
    `${BASE_ERROR} m there change the vector by about a quarter of a millionth of its length`,
  ]) it(words, () => assert.ok(FIXED.includes(words)));
});
