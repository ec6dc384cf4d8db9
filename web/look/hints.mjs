// Why a text may be refused that was sent about, where it can be seen. Nothing of the text is repeated.

const AGAIN = 'Ask for the file as it was written, zipped.';

/** @type {[RegExp, string][]} */
const HINTS = [
  [/^baseline-cert 1\n/, 'This is a certificate of version 1. Ask for it in version 2: `baseline migrate` writes it.'],
  [/^baseline-(cert|track) ([3-9]|[1-9][0-9]+)\n/, 'This is a certificate of a later version than this page reads.'],
  [/^declined /, 'This is the answer of a run that made no certificate: the session was declined.'],
  [/^(\u00fe\u00ff|\u00ff\u00fe|\u00ef\u00bb\u00bf)/,
    `The text begins with a byte order mark: a program has saved it in another encoding. ${AGAIN}`],
  [/^(b\u0000a\u0000|\u0000b\u0000a)/, `A program has saved the text with two bytes for each letter. ${AGAIN}`],
  [/^PK\u0003\u0004/, 'This is a zip file. Unpack it, and choose the certificate in it.'],
  // the second byte, by Latin-1 and by the windows-1252 of browsers
  [/^\u001f[\u008b\u2039]/, 'This is a gzip file. Unpack it, and choose the certificate in it.'],
  [/^\s{0,9}<(!doctype|html|\?xml)/i, 'This is a web page or a report, and no certificate.'],
  [/^.{60}(RINEX VERSION|CRINEX VERS)/, 'This is a file of observations or of orbits, and no certificate.'],
  [/^[^\n]*\r\n/, `The lines end with CR LF: a mail program or an editor has changed them. ${AGAIN}`],
  [/^baseline-[^\n]*\r[^\n]/, `The lines end with CR, as of an old Macintosh: a program has changed them. ${AGAIN}`],
  [/^>/, 'The text seems to be quoted from a mail. Ask for the file as an attachment, zipped.'],
  [/\n(fixed|declined [a-z0-9 -]*)\n[^]+$/,
    `There is something after the last line, such as a blank line that a mail program has put there. ${AGAIN}`],
  [/\n(fixed|declined [^\n]*)$/, `The end of the last line is missing, as after copying from a mail. ${AGAIN}`],
];
const BEGINS = /^baseline-(cert|track) /, ENDS = /\n(fixed|declined [a-z0-9 -]*)\n$/;
const CUT = 'The text begins as a certificate does and doesn\u2019t end as one: it may have been cut off on its way. '
  + AGAIN;
/** How many bytes of each end are looked at. */
const LOOKED_AT = 200;

/**
 * A sentence or none.
 * @param {string} text one character for each byte
 */
export function hintOf(text) {
  const ends = text.length > 2 * LOOKED_AT ? text.slice(0, LOOKED_AT) + text.slice(-LOOKED_AT) : text;
  const found = HINTS.find(([form]) => form.test(ends));
  if (found) return found[1];
  return BEGINS.test(text) && !ENDS.test(ends) ? CUT : '';
}
