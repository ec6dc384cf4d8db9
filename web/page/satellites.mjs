// The satellites of a session and their colours.

/**
 * In the order of their names, those that rows name.
 * @param {import('./view.mjs').Session} session
 */
export const satellitesOf = session =>
  [...new Set(session.arcs.filter(arc => arc.isUsed).map(arc => arc.name))].sort();

/**
 * Gives something the colour of a satellite, which the style sheet makes lighter or darker.
 * @template {HTMLElement | SVGElement} T
 * @param {T} made
 * @param {string} satellite
 * @param {string[]} all
 * @returns {T}
 */
export function coloured(made, satellite, all) {
  const at = all.indexOf(satellite);
  made.classList.add('satellite');
  made.setAttribute('data-satellite', satellite);
  made.style.setProperty('--hue', String(Math.round((360 * at) / all.length)));
  made.style.setProperty('--shade', at % 2 ? '1' : '0');
  return made;
}
