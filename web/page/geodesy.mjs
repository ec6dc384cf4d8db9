// For the pictures and the east-north-up of the page alone, with floating point: no decision uses this.

/** WGS 84, in metres. */
const RADIUS = 6_378_137, FLATTENING = 1 / 298.257223563, ECCENTRICITY = FLATTENING * (2 - FLATTENING);
/** Far more than the latitude needs to settle to a double. */
const STEPS = 10;

/** The hours of a turn of the Earth against the sun, and the milliseconds of an hour. */
const TURN = 24, HOUR = 3_600_000;

/**
 * The geodetic latitude and the longitude of a place in metres, in radians.
 * @param {number[]} place
 */
function latitudeOf([x, y, z]) {
  const across = Math.hypot(x, y);
  let latitude = Math.atan2(z, across * (1 - ECCENTRICITY));
  for (let k = 0; k < STEPS; k++) {
    const normal = RADIUS / Math.sqrt(1 - ECCENTRICITY * Math.sin(latitude) ** 2);
    latitude = Math.atan2(z + ECCENTRICITY * normal * Math.sin(latitude), across);
  }
  return {latitude, longitude: Math.atan2(y, x)};
}

/**
 * A vector's east, north and up at a place, all in metres.
 * @param {number[]} place
 * @param {number[]} vector
 */
export function eastNorthUp(place, [x, y, z]) {
  const {latitude, longitude} = latitudeOf(place);
  const [sinLat, cosLat] = [Math.sin(latitude), Math.cos(latitude)];
  const [sinLon, cosLon] = [Math.sin(longitude), Math.cos(longitude)], out = cosLon * x + sinLon * y;
  return [cosLon * y - sinLon * x, cosLat * z - sinLat * out, cosLat * out + sinLat * z];
}

/**
 * The height of a place over the ellipsoid, in metres.
 * @param {number[]} place
 */
function heightOf([x, y, z]) {
  const {latitude} = latitudeOf([x, y, z]), sin = Math.sin(latitude);
  const onEllipsoid = RADIUS * Math.sqrt(1 - ECCENTRICITY * sin ** 2);
  return Math.hypot(x, y) * Math.cos(latitude) + z * sin - onEllipsoid;
}

/**
 * By how much the end of a vector is higher over the ellipsoid than the place where it begins, all in metres. Over some
 * kilometres this isn't the vector's up.
 * @param {number[]} place
 * @param {number[]} vector
 */
export const riseOf = (place, vector) => heightOf(place.map((x, i) => x + vector[i])) - heightOf(place);

/**
 * The hour of mean solar time at a place, from 0 to 24. GPS time serves as UTC here, as it does to a minute.
 * @param {number[]} place
 * @param {number} ms since 1980-01-06, a midnight
 */
export function solarHour(place, ms) {
  const hours = ms / HOUR + (latitudeOf(place).longitude / Math.PI) * (TURN / 2);
  return hours - Math.floor(hours / TURN) * TURN;
}

/** 1980-01-06 00:00:00 of GPS time, in milliseconds of JavaScript, and the ticks of a millisecond. */
const GPS_ZERO = Date.UTC(1980, 0, 6), TICKS = 10_000;

/**
 * Milliseconds since 1980-01-06.
 * @param {bigint} tag
 */
export const milliseconds = tag => Number(tag) / TICKS;

/** @param {number} x */
const twoDigits = x => String(x).padStart(2, '0');

/**
 * An hour of the day as `09:18`, rounded down to the minute.
 * @param {number} hour
 */
export const clockOf = hour => [Math.floor(hour), Math.floor((hour % 1) * 60)].map(twoDigits).join(':');

/**
 * A date of GPS time, to the second.
 * @param {number} ms since 1980-01-06
 */
export function dateOf(ms) {
  const date = new Date(GPS_ZERO + Math.round(ms / 1000) * 1000);
  const day = [date.getUTCFullYear(), date.getUTCMonth() + 1, date.getUTCDate()].map(twoDigits).join('-');
  return {day, time: [date.getUTCHours(), date.getUTCMinutes(), date.getUTCSeconds()].map(twoDigits).join(':')};
}
