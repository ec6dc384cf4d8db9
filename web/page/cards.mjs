// What the page shows of a certificate, card by card.
import {asks, duration, lastsOf, looks, notProved, proved} from './words.mjs';
import {coloured, satellitesOf} from './satellites.mjs';
import {element, shape} from './dom.mjs';
import {placePicture, planPicture} from './track_pictures.mjs';
import {ratioPicture, residualPicture, skyPicture} from './pictures.mjs';
import {drawn} from './drawn.mjs';

/** @typedef {import('./view.mjs').Session} Session */

/** The heights of a picture over time, on the screen and on paper. */
const PLACE_HEIGHT = [150, 80], RESIDUAL_HEIGHT = [160, 84];
const FRAME = 'X, Y and Z in the Earth-fixed frame of the broadcast orbits (WGS 84)';

/**
 * @param {Session} session
 * @param {boolean} isCertified
 * @returns {HTMLElement[]}
 */
export function cardsOf(session, isCertified) {
  const vectorOf = session.isTrack ? trackCard : vectorCard;
  const claims = isCertified ? [vectorOf(session), ...claimCards(session)] : [];
  const places = isCertified && session.isTrack ? [placesCard(session)] : [];
  const ratio = session.reached !== null || isCertified ? [ratioCard(session, isCertified)] : [];
  const residuals = session.residuals.length ? [residualCard(session, isCertified)] : [];
  const middle = [element('div', {className: 'half stack'}, ...ratio, sessionCard(session)), skyCard(session)];
  return [...claims, ...places, ...middle, ...residuals];
}

/**
 * @param {string[][]} rows
 * @param {string} [className]
 */
export function table(rows, className = '') {
  const row = (/** @type {string[]} */ [name, value]) =>
    element('tr', {}, element('th', {scope: 'row', textContent: name}), element('td', {textContent: value}));
  return element('table', {className}, ...rows.map(row));
}

/**
 * @param {string[]} texts
 * @param {string} [className]
 */
export const list = (texts, className = '') =>
  element('ul', {className}, ...texts.map(text => element('li', {textContent: text})));

/**
 * @param {string} title
 * @param {string} className
 * @param {...(Node | string)} children
 */
const card = (title, className, ...children) =>
  element('section', {className: `card ${className}`}, element('h2', {textContent: title}), ...children);

/** @param {string} text */
const remark = text => element('p', {className: 'soft', textContent: text});

/** @param {number} metres */
const four = metres => `${metres.toFixed(4)} m`;

/** @param {Session} session */
function vectorCard({places: [{xyz, enu, length, bound}], base}) {
  const earth = ['X', 'Y', 'Z'].map((axis, i) => [axis, `${xyz[i]} m`]);
  const local = [...['east', 'north', 'up'].map((axis, i) => [axis, four(enu[i])]), ['length', four(length)]];
  const near = bound === '' ? '' : ` Before it is rounded to 0.1 mm, the vector is within ${bound} mm of the one that fits `
    + 'best, in each of X, Y and Z, if base and point are those of the rows.';
  return card('The vector, from the base to the rover', 'vector',
    element('div', {className: 'two'}, table(earth, 'numbers'), table(local, 'numbers')),
    remark(`${FRAME}; base ${base.join(' ')} m.${near}`));
}

/** @param {Session} session */
function trackCard({places, base}) {
  const [first] = places, last = places[places.length - 1];
  const rows = [['places', String(places.length)], ['first', `${first.xyz.join(' ')} m`],
    ['last', `${last.xyz.join(' ')} m`], ['base', `${base.join(' ')} m`]];
  return card('The track, from the base to the rover', 'track', table(rows, 'numbers'), remark(`${FRAME}.`));
}

/** @param {Session} session */
function claimCards(session) {
  const checks = looks(session).map(({isOut, text}) => element('li', {className: isOut ? 'out' : 'in'},
    element('b', {textContent: isOut ? 'Look: ' : 'Usual: '}), text));
  return [
    card('What is proved', 'third', list(proved(session))),
    card('What isn\u2019t', 'third', list(notProved(session))),
    card('What to look at and ask for', 'third look',
      element('p', {textContent: 'These are numbers from the text itself. Whoever edits it can make them usual.'}),
      element('ul', {className: 'checks'}, ...checks),
      element('p', {textContent: 'Before you rely on it, ask for:'}), list(asks(session))),
  ];
}

/**
 * @param {Session} session
 * @param {boolean} isCertified
 */
function ratioCard(session, isCertified) {
  const title = isCertified ? 'The ratio, asked for and reached'
    : 'The ratio by the text\u2019s own numbers (not vouched for)';
  return card(title, 'ratio', drawn(width => ratioPicture(session, isCertified, width)),
    remark('All other integers have at least this many times the weighted sum of squares of the printed ones, wherever '
      + 'in their boxes the observations lie.'));
}

/** @param {Session} session */
function sessionCard(session) {
  const {begins, ends, sun, pairs, rows, system, bands, arcs, last} = session;
  const until = begins.day === ends.day ? ends.time : `${ends.day} ${ends.time}`;
  const used = `${pairs.length} pairs of epochs, ${rows} rows of satellites`;
  const facts = table([['day', begins.day], ['GPS time', `${begins.time} to ${until}`],
    ['solar time', `${sun.begins} to ${sun.ends} at the base (mean)`], ['lasts', duration(lastsOf(session))], ['used', used],
    ['signals', `${system}: ${bands.join(', ')}`], ['last line', last], ['arcs', '']]);
  const names = arcs.map(arc => {
    const title = `pairs ${arc.first} to ${arc.last}, ${arc.isDatum ? 'datum' : 'free'}`;
    return element('span', {className: arc.isDatum ? 'datum' : '', textContent: arc.name, title});
  });
  facts.querySelector('tr:last-child td')?.append(element('span', {className: 'arcs'}, ...names));
  return card('The session', 'session', facts, remark('An arc is a stretch of one satellite\u2019s phases without a '
    + 'cycle slip; it has one integer for each band. Only differences between satellites count, so those of the '
    + 'reference arc (datum, outlined) are 0. A pair has an epoch of each receiver. From the text and not checked: the '
    + 'day, the times, the names of satellites, and the letters of system and codes.'));
}

/** @param {Session} session */
const skyCard = session => card('Where the satellites stood', 'half sky', drawn(width => skyPicture(session, width)),
  remark('From the directions in the rows. The dot is where an arc ends. From the text and not checked: the point from '
    + 'which they are seen, and the names.'));

/** @param {Session} session */
function placesCard(session) {
  const overTime = [0, 1, 2].map(i =>
    drawn((width, isPaper) => placePicture(session, i, width, PLACE_HEIGHT[Number(isPaper)])));
  const plan = drawn(width => planPicture(session, width));
  return card('The places over time', 'places',
    element('div', {className: 'with-plan'}, element('div', {}, ...overTime), plan),
    element('details', {}, element('summary', {textContent: `All ${session.places.length} places in metres`}),
      element('div', {className: 'scroll', tabIndex: '0'}, placesTable(session))));
}

/** @param {Session} session */
function placesTable({places}) {
  const line = (/** @type {string} */ cell, /** @type {string[]} */ texts) =>
    element('tr', {}, ...texts.map(text => element(cell, {textContent: text})));
  const rows = places.map(({number, at, xyz, enu, bound}) =>
    line('td', [String(number), at.toFixed(1), ...xyz, ...enu.map(x => x.toFixed(4)), bound]));
  const head = line('th', ['pair', 's', 'X', 'Y', 'Z', 'east', 'north', 'up', 'bound, mm']);
  return element('table', {className: 'numbers all'}, element('thead', {}, head), element('tbody', {}, ...rows));
}

/**
 * @param {Session} session
 * @param {boolean} isCertified
 */
function residualCard(session, isCertified) {
  const title = isCertified ? 'Residuals in mm, by satellite'
    : 'Residuals in mm at the integers that the text names (not vouched for)';
  const made = card(title, 'residuals'), satellites = satellitesOf(session);
  const buttons = satellites.map(name => coloured(satelliteButton(name, () => hideAgain(made)), name, satellites));
  const panels = session.signals.map((_, q) => drawn(
    (width, isPaper) => residualPicture(session, q, width, RESIDUAL_HEIGHT[Number(isPaper)]), () => hideAgain(made)));
  made.append(element('div', {className: 'legend'}, ...buttons), element('div', {className: 'panels'}, ...panels),
    remark('What is left of each observation, less the mean of its pair of epochs. Shaded: what is usual, 20 mm of a '
      + 'phase and 2 m of a code.'));
  return made;
}

/**
 * A button that shows and hides a satellite.
 * @param {string} name
 * @param {() => void} changed
 */
function satelliteButton(name, changed) {
  const dot = shape('svg', {viewBox: '0 0 10 10', width: 10, height: 10, 'aria-hidden': 'true'},
    shape('circle', {cx: 5, cy: 5, r: 5}));
  const button = element('button', {type: 'button', 'aria-pressed': 'true'}, dot, name);
  button.addEventListener('click', () => {
    button.setAttribute('aria-pressed', String(button.getAttribute('aria-pressed') !== 'true'));
    changed();
  });
  return button;
}

/**
 * Hides the satellites whose buttons are off.
 * @param {HTMLElement} room
 */
function hideAgain(room) {
  const buttons = [...room.querySelectorAll('button[aria-pressed=false]')];
  const off = new Set(buttons.map(button => button.getAttribute('data-satellite')));
  for (const path of room.querySelectorAll('path.satellite')) {
    path.classList.toggle('off', off.has(path.getAttribute('data-satellite')));
  }
}
