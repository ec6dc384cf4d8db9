// Elements of the page. Words reach it as text alone: nothing here reads markup, and the policy of the page forbids
// it.

/**
 * @param {string} name
 * @param {Record<string, string | boolean | ((event: Event) => void)>} [properties] those with a dash as attributes
 * @param {...(Node | string)} children
 */
export function element(name, properties = {}, ...children) {
  const made = document.createElement(name);
  for (const [key, value] of Object.entries(properties)) {
    if (key.includes('-')) made.setAttribute(key, String(value));
    else Object.assign(made, {[key]: value});
  }
  made.append(...children);
  return made;
}

/**
 * @param {string} name
 * @param {Record<string, string | number>} [attributes]
 * @param {...(Node | string)} children
 */
export function shape(name, attributes = {}, ...children) {
  const made = document.createElementNS('http://www.w3.org/2000/svg', name);
  for (const [key, value] of Object.entries(attributes)) made.setAttribute(key, String(value));
  made.append(...children);
  return made;
}

/**
 * A picture with its title for those who don't see it.
 * @param {number} width
 * @param {number} height
 * @param {string} title
 * @param {...Node} children
 */
export const picture = (width, height, title, ...children) =>
  shape('svg', {viewBox: `0 0 ${width} ${height}`, width, height, role: 'img', 'aria-label': title},
    shape('title', {}, title), ...children);

/**
 * A file's name on the screen: no control character, and none that turns the direction of writing.
 * @param {string} name
 */
export const shownName = name => name.replace(/[\p{C}\p{Zl}\p{Zp}]/gu, '\u00b7');

/**
 * A number with so many places, rounded up: no less than there is.
 * @param {number} x
 * @param {number} places
 */
export const roundedUp = (x, places) => (Math.ceil(x * 10 ** places - 1e-9) / 10 ** places).toFixed(places);

/**
 * A number with so many places, rounded down: no more than was reached.
 * @param {number} x
 * @param {number} places
 */
export const roundedDown = (x, places) => (Math.floor(x * 10 ** places + 1e-9) / 10 ** places).toFixed(places);
