// What the guide calls usual (GUIDE, "How far it reaches", and FIXED, which test/usual.test.mjs holds to these): the page
// compares with it, and no verdict does.

/** The ratio that is asked for. */
export const USUAL_RATIO = 2;
/** The greatest length by night and by day, in metres. */
export const USUAL_LENGTH = {night: 10_000, day: 5000};
/**
 * The hours of mean solar time that are taken for night. The day of the broadcast model of the ionosphere (IS-GPS-200)
 * is half a wave about 14 h: of a period up to 32 hours it lies between these.
 */
export const NIGHT = {from: 22, to: 6};
/** The greatest difference of height, in metres, and what a metre of it costs, in millimetres. */
export const USUAL_HEIGHT = 30;
export const HEIGHT_COST = 1;
/** The longest session, in hours. */
export const USUAL_HOURS = 24;
/** The greatest residual of a phase, in millimetres. */
export const USUAL_PHASE = 20;
/** The greatest residual of a code, in metres. */
export const USUAL_CODE = 2;
/** By how much a level line is too long by night, and how much shorter for each 10 TECU, in millionths. */
export const SCALE = {night: 2, tecu: 1};
/** How far off the base is taken to be, in metres, where it changes the vector by a quarter of a millionth. */
export const BASE_ERROR = 10;
