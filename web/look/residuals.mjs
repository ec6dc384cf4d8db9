// The residuals as `baseline residuals` prints them (FORMATS, "Certificates": `residuals` prints for each row ..).
import {nearestDiv} from '../decide/whole.mjs';
import {residualOf} from '../decide/upper.mjs';

/** The unit of a row, 2^-13 iota, in micrometres, as a fraction. */
const UNIT_NUM = 2_997_924_580n, UNIT_DEN = 178_100_600_832n;

/**
 * Units of a row in micrometres.
 * @param {bigint} units
 */
export const micrometres = units => (Number(units) * Number(UNIT_NUM)) / Number(UNIT_DEN);

/**
 * For each pair, row and signal in micrometres, at the printed integers and moves; none where the tail has no
 * vectors.
 * @param {import('../decide/certificate.mjs').Certificate} cert
 * @returns {bigint[][][]}
 */
export function residualsOf(cert) {
  const vectors = cert.tail.vectors;
  if (!vectors) return [];
  return cert.pairs.map((pair, k) => {
    const n = BigInt(pair.rows.length), move = vectors.moves[cert.isTrack ? k : 0];
    const bySignal = cert.signals.map((_, q) => {
      const residuals = pair.rows.map(row => residualOf(cert, row, q, vectors.z1, move));
      const sum = residuals.reduce((a, b) => a + b, 0n);
      return residuals.map(s => nearestDiv((n * s - sum) * UNIT_NUM, n * UNIT_DEN));
    });
    return pair.rows.map((_, i) => bySignal.map(column => column[i]));
  });
}
