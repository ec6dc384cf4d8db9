// Drives a headless Chromium over its pipe, without a package: opens the page, gives it a file, waits for the verdict.
import {spawn, spawnSync} from 'node:child_process';
import {mkdtempSync, rmSync} from 'node:fs';
import {tmpdir} from 'node:os';
import {dirname, join} from 'node:path';
import {fileURLToPath, pathToFileURL} from 'node:url';

const NAMES = ['chromium', 'chromium-browser', 'google-chrome'];
/** The first browser of these that is there, or ''. */
export const chromium = NAMES.find(name => spawnSync(name, ['--version']).status === 0) ?? '';
/** The page as it is delivered. */
export const PAGE = join(dirname(fileURLToPath(import.meta.url)), '..', 'certificate.html');

const OPTIONS = ['--headless=new', '--no-sandbox', '--disable-gpu', '--no-first-run', '--disable-background-networking',
  '--remote-debugging-pipe'];

const sleep = (/** @type {number} */ ms) => new Promise(resolve => setTimeout(resolve, ms));

export class Browser {
  constructor() {
    this.profile = mkdtempSync(join(tmpdir(), 'certificate-page-'));
    const words = [...OPTIONS, `--user-data-dir=${this.profile}`];
    this.process = spawn(chromium, words, {stdio: ['ignore', 'ignore', 'ignore', 'pipe', 'pipe']});
    this.number = 0;
    /** @type {Map<number, (message: any) => void>} */
    this.waiting = new Map();
    /** @type {any[]} */
    this.events = [];
    this.listen(/** @type {any} */ (this.process.stdio[4]));
  }

  /**
   * Takes messages from a stream, each ended by a byte 0.
   * @param {import('node:stream').Readable} stream
   */
  listen(stream) {
    let held = '';
    const decoder = new TextDecoder();
    stream.on('data', (/** @type {Buffer} */ data) => {
      const parts = (held + decoder.decode(data, {stream: true})).split('\0');
      held = parts.pop() ?? '';
      for (const message of parts.map(part => JSON.parse(part))) {
        if (message.id) this.waiting.get(message.id)?.(message);
        else this.events.push(message);
      }
    });
  }

  /**
   * @param {string} method
   * @param {object} [params]
   * @param {string} [sessionId]
   * @returns {Promise<any>}
   */
  send(method, params = {}, sessionId) {
    const id = ++this.number;
    return new Promise((resolve, reject) => {
      this.waiting.set(id, ({error, result}) =>
        (error ? reject(new Error(`${method}: ${error.message}`)) : resolve(result)));
      /** @type {any} */ (this.process.stdio[3]).write(`${JSON.stringify({id, method, params, sessionId})}\0`);
    });
  }

  /**
   * The delivered page in a new tab.
   * @param {{width?: number, isDark?: boolean}} [look]
   */
  async open({width = 1200, isDark = false} = {}) {
    const {targetId} = await this.send('Target.createTarget', {url: 'about:blank'});
    const {sessionId} = await this.send('Target.attachToTarget', {targetId, flatten: true});
    const page = new Page(this, sessionId), scheme = {name: 'prefers-color-scheme', value: isDark ? 'dark' : 'light'};
    for (const domain of ['Page', 'Runtime', 'Log', 'Network']) await page.send(`${domain}.enable`);
    await page.send('Target.setAutoAttach', {autoAttach: true, waitForDebuggerOnStart: false, flatten: true});
    const metrics = {width, height: 900, deviceScaleFactor: 1, mobile: width < 500};
    await page.send('Emulation.setDeviceMetricsOverride', metrics);
    await page.send('Emulation.setEmulatedMedia', {features: [scheme]});
    await page.send('Page.navigate', {url: pathToFileURL(PAGE).href});
    await page.until('document.readyState === "complete" && !!document.querySelector("#file")', 60);
    return page;
  }

  async close() {
    await Promise.race([this.send('Browser.close').catch(() => {}), sleep(3000)]);
    const ended = this.process.exitCode !== null || new Promise(resolve => this.process.once('exit', resolve));
    await Promise.race([ended, sleep(5000)]);
    this.process.kill('SIGKILL');
    await sleep(300);
    try {
      rmSync(this.profile, {recursive: true, force: true, maxRetries: 10, retryDelay: 300});
    } catch { /* its last processes may still write there */ }
  }
}

export class Page {
  /**
   * @param {Browser} browser
   * @param {string} session
   */
  constructor(browser, session) {
    this.browser = browser;
    this.session = session;
    this.before = browser.events.length;
  }

  /** What the browser told since this page was opened. */
  get events() {
    return this.browser.events.slice(this.before);
  }

  /**
   * @param {string} method
   * @param {object} [params]
   */
  send(method, params) {
    return this.browser.send(method, params, this.session);
  }

  /**
   * What an expression of JavaScript gives in the page.
   * @param {string} expression
   * @returns {Promise<any>}
   */
  async value(expression) {
    const asked = {expression, returnByValue: true, awaitPromise: true};
    const {result, exceptionDetails} = await this.send('Runtime.evaluate', asked);
    if (exceptionDetails) throw new Error(exceptionDetails.exception?.description ?? exceptionDetails.text);
    return result.value;
  }

  /**
   * @param {string} expression
   * @param {number} seconds
   */
  async until(expression, seconds) {
    for (let left = seconds * 10; !(await this.value(expression)); left--) {
      if (left <= 0) throw new Error(`not within ${seconds} s: ${expression}`);
      await sleep(100);
    }
  }

  /**
   * Gives a file by the dialog's input, or by a drop, which may have several.
   * @param {string | string[]} path
   * @param {'choose' | 'drop'} [how]
   */
  async give(path, how = 'choose') {
    if (how === 'choose') {
      const {root} = await this.send('DOM.getDocument');
      const {nodeId} = await this.send('DOM.querySelector', {nodeId: root.nodeId, selector: '#file'});
      await this.send('DOM.setFileInputFiles', {files: [path].flat(), nodeId});
      return;
    }
    const data = {items: [], files: [path].flat(), dragOperationsMask: 1};
    for (const type of ['dragEnter', 'dragOver', 'drop']) {
      await this.send('Input.dispatchDragEvent', {type, x: 100, y: 120, data});
    }
  }

  /**
   * Presses a key.
   * @param {{key: string, code: string, windowsVirtualKeyCode: number, text?: string}} key
   */
  async press(key) {
    for (const type of ['keyDown', 'keyUp']) await this.send('Input.dispatchKeyEvent', {type, ...key});
  }

  /**
   * The title of the verdict, once there is one.
   * @param {number} [seconds]
   */
  async verdict(seconds = 120) {
    await this.until('!!document.querySelector("#verdict")', seconds);
    return this.value('document.querySelector("#verdict h2").textContent');
  }

  /** All words of the page. */
  words() {
    return this.value('document.querySelector("#page").innerText');
  }

  /** The whole page as PNG. */
  async shot() {
    await sleep(250);
    const {cssContentSize: {width, height}} = await this.send('Page.getLayoutMetrics');
    const clip = {x: 0, y: 0, width, height, scale: 1};
    const {data} = await this.send('Page.captureScreenshot', {format: 'png', captureBeyondViewport: true, clip});
    return Buffer.from(data, 'base64');
  }

  /** The page as PDF. */
  async print() {
    const {data} = await this.send('Page.printToPDF', {printBackground: true, preferCSSPageSize: false});
    return Buffer.from(data, 'base64');
  }

  /** What went wrong so far: errors of scripts, lines of the log, refused policies. */
  faults() {
    const isError = (/** @type {any} */ {method, params}) => /exceptionThrown|Log\.entryAdded/.test(method)
      || (method === 'Runtime.consoleAPICalled' && params.type === 'error');
    const told = (/** @type {any} */ {params}) => params.exceptionDetails ?? params.entry ?? params.args;
    return this.events.filter(isError).map(event => JSON.stringify(told(event)).slice(0, 400));
  }

  /** What was asked of anything but the page and its worker. */
  requests() {
    const asked = this.events.filter(event => event.method === 'Network.requestWillBeSent');
    return asked.map(event => event.params.request.url).filter(url => !/^(file|blob):/.test(url));
  }
}
