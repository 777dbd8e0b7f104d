// Text within HTML and SVG.

const SIGNS = { '&': '&amp;', '<': '&lt;', '>': '&gt;', '"': '&quot;', "'": '&#39;' };

/** Text as HTML: nothing in it is taken for a mark. */
export function escaped(text) {
    return String(text).replace(/[&<>"']/g, (sign) => SIGNS[sign]);
}
