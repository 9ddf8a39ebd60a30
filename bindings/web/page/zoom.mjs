// Which part of a drawing is seen: how that changes when a person zooms and pans. Numbers are parts of the drawing's width and
// height, so that they hold at any size. It imports nothing.

/**
 * @typedef {object} Zoom
 * @property {number} scale 1 where all is seen
 * @property {number} x the left side of what is seen, from 0 to 1
 * @property {number} y the upper side
 */

/** @type {Zoom} all is seen */
export const WHOLE = Object.freeze({ scale: 1, x: 0, y: 0 });

const MOST_SCALE = 400;

/**
 * A zoom inside the drawing.
 *
 * @param {number} scale
 * @param {number} x
 * @param {number} y
 * @returns {Zoom}
 */
function within(scale, x, y) {
    const most = 1 - 1 / scale;
    return { scale, x: Math.min(Math.max(x, 0), most), y: Math.min(Math.max(y, 0), most) };
}

/**
 * Zooms by a factor. A place of the window, from 0 to 1 in each direction, stays where it is.
 *
 * @param {Zoom} zoom
 * @param {number} factor
 * @param {[number, number]} [at]
 * @returns {Zoom}
 */
export function zoomedBy({ scale, x, y }, factor, at = [0.5, 0.5]) {
    const [across, down] = at;
    const next = Math.min(Math.max(scale * factor, 1), MOST_SCALE);
    return within(next, x + across / scale - across / next, y + down / scale - down / next);
}

/**
 * Moves what is seen by parts of the window.
 *
 * @param {Zoom} zoom
 * @param {number} across
 * @param {number} down
 * @returns {Zoom}
 */
export function movedBy({ scale, x, y }, across, down) {
    return within(scale, x + across / scale, y + down / scale);
}

/**
 * The part of a drawing that is seen.
 *
 * @param {Zoom} zoom
 * @param {{ width: number, height: number }} drawing
 * @returns {[number, number, number, number]}
 */
export function boxOf({ scale, x, y }, { width, height }) {
    return [x * width, y * height, width / scale, height / scale];
}

/**
 * What a key does to the zoom of a drawing that has the focus; undefined if it does nothing.
 *
 * @param {Zoom} zoom
 * @param {string} key
 * @returns {Zoom | undefined}
 */
export function zoomByKey(zoom, key) {
    switch (key) {
        case "+":
        case "=":
            return zoomedBy(zoom, 1.5);
        case "-":
            return zoomedBy(zoom, 1 / 1.5);
        case "0":
            return WHOLE;
        case "ArrowLeft":
            return movedBy(zoom, -0.2, 0);
        case "ArrowRight":
            return movedBy(zoom, 0.2, 0);
        case "ArrowUp":
            return movedBy(zoom, 0, -0.2);
        case "ArrowDown":
            return movedBy(zoom, 0, 0.2);
        default:
            return undefined;
    }
}
