// The page: takes a file, hands it to the worker, shows what comes.
import {drawAgain, forgetPictures, fromPaper, toPaper} from './drawn.mjs';
import {cardsOf, list, table} from './cards.mjs';
import {element, shownName} from './dom.mjs';
import {headline} from './words.mjs';

/** @typedef {import('./worker.mjs').Answer} Answer */

/** @param {string} id */
const byId = id => /** @type {HTMLElement} */ (document.getElementById(id));

/** Seconds after which the page says that the text makes it long. */
const LONG = 60;
const UNREAD_WORDS = 'Nothing was decided. It may be a folder, or a file that was moved or changed after it was chosen.';
const LONG_WORDS = '. A text may name a search of many minutes: stop it if you don\u2019t trust it';

/** @type {Worker | null} */
let worker = null;
let began = 0;
const TITLE = document.title;
const input = /** @type {HTMLInputElement} */ (byId('file'));

/**
 * The worker's program, from the page's own text. A page of trusted types takes an address of a program from a
 * policy alone.
 */
function workerAddress() {
  const address = URL.createObjectURL(new Blob([byId('worker').textContent ?? ''], {type: 'text/javascript'}));
  const types = /** @type {any} */ (window).trustedTypes;
  return types ? types.createPolicy('worker', {createScriptURL: () => address}).createScriptURL('') : address;
}
const address = workerAddress();

/**
 * Checks what was chosen or dropped, where it is one file: of several the others would pass unseen.
 * @param {FileList | null | undefined} files
 */
function take(files) {
  if (!files?.length) return;
  if (files.length === 1) return check(files[0]);
  clear();
  input.value = '';
  say('look', 'More than one file: nothing was checked', `These are ${files.length} files. Choose or drop one at a time.`);
}

/** Takes the last answer away, and what is under way. */
function clear() {
  stop();
  byId('answer').replaceChildren();
  document.title = TITLE;
  forgetPictures();
}

/** @param {File} file */
function check(file) {
  clear();
  hold(file);
  worker = new Worker(address);
  began = Date.now();
  byId('busy').hidden = false;
  report('starting', 0, file);
  worker.onmessage = ({data}) => {
    if (data.step) return report(data.step, data.part, file);
    stop();
    if (data.isUnread) say('bad', 'This file can\u2019t be read', UNREAD_WORDS);
    else show(file, data);
  };
  worker.onerror = event => {
    event.preventDefault();
    stop();
    const why = event.message || 'the browser gave no reason; it may be out of memory';
    say('bad', 'This page failed', `Nothing was decided: ${why}.`);
  };
  worker.postMessage(file);
}

/**
 * Has the input name the file, which a drop alone doesn't.
 * @param {File} file
 */
function hold(file) {
  const held = new DataTransfer();
  held.items.add(file);
  input.files = held.files;
}

/**
 * @param {string} step
 * @param {number} part
 * @param {File} file
 */
function report(step, part, file) {
  const seconds = Math.round((Date.now() - began) / 1000), taken = seconds > 2 ? `, ${seconds} s` : '';
  byId('step').textContent = `${shownName(file.name)}: ${step}${taken}${seconds > LONG ? LONG_WORDS : ''}`;
  const bar = /** @type {HTMLProgressElement} */ (byId('bar'));
  if (part > 0) bar.value = part;
  else bar.removeAttribute('value');
}

function stop() {
  if (worker) worker.terminate();
  worker = null;
  byId('busy').hidden = true;
}

/**
 * Puts a verdict on the page and takes the reader there.
 * @param {string} mood
 * @param {string} title
 * @param {string} text
 * @param {...(Node | string)} more
 */
function say(mood, title, text, ...more) {
  const properties = {className: `card verdict ${mood}`, id: 'verdict', tabIndex: '-1', 'aria-label': 'Verdict'};
  const head = element('section', properties, element('h2', {textContent: title}), element('p', {textContent: text}),
    ...more);
  byId('answer').replaceChildren(head);
  head.focus({preventScroll: true});
}

/**
 * @param {File} file
 * @param {Answer} answer
 */
function show(file, {view, sum, seconds}) {
  const {mood, title, text} = headline(view), {session, words, hint} = view, name = shownName(file.name);
  const notes = session?.notes.length ? [list(session.notes.map(note => `note: ${note}`), 'notes')] : [];
  const hints = hint ? [element('p', {className: 'hint', textContent: hint})] : [];
  const checked = `checked on ${today()} in ${seconds.toFixed(1)} s`;
  const facts = [['this page\u2019s answer', words], ['file', `${name}, ${file.size} bytes, ${checked}`]];
  const named = sum ? [['its SHA-256', `${sum} (says which text was checked; the page\u2019s own is in RELEASE)`]] : [];
  say(mood, title, text, ...notes, ...hints, table([...facts, ...named], 'facts'));
  if (session) byId('answer').append(...cardsOf(session, view.kind === 'certified'));
  document.title = `${title} \u2013 ${name}`;
  drawAgain();
}

function today() {
  const now = new Date(), parts = [now.getFullYear(), now.getMonth() + 1, now.getDate()];
  return parts.map(part => String(part).padStart(2, '0')).join('-');
}

/**
 * What the input held before it was emptied.
 * @type {File | undefined}
 */
let last;
input.addEventListener('change', () => take(input.files));
// a browser reports the choice of a file that the input holds already only where it is emptied first
input.addEventListener('click', () => {
  last = input.files?.[0];
  input.value = '';
});
input.addEventListener('cancel', () => last && hold(last));
byId('stop').addEventListener('click', () => {
  stop();
  say('look', 'Stopped: nothing was decided',
    'You have stopped the check. The text may be true or false; the program decides it faster.');
});
addEventListener('keydown', event => {
  if (event.key === 'Escape' && worker) byId('stop').click();
});
byId('print').addEventListener('click', () => print());
for (const kind of ['dragover', 'dragleave', 'drop']) {
  addEventListener(kind, event => {
    event.preventDefault();
    byId('drop').classList.toggle('over', kind === 'dragover');
    if (kind === 'drop') take(/** @type {DragEvent} */ (event).dataTransfer?.files);
  });
}
addEventListener('beforeprint', () => toPaper(byId('page')));
addEventListener('afterprint', fromPaper);
let width = innerWidth, waiting = 0;
addEventListener('resize', () => {
  if (innerWidth === width) return;
  width = innerWidth;
  clearTimeout(waiting);
  waiting = setTimeout(drawAgain, 120);
});
