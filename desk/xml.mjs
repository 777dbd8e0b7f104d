// XML as far as workbooks have it: tags, their attributes and texts, one after another. Names go without the part
// before a colon.

const TOKEN = new RegExp(
    [
        /<!--[^]*?-->|<\?[^]*?\?>|<!\[CDATA\[([^]*?)\]\]>|<![^>]*>/, // remarks and the like; text as it stands
        /<(\/?)(?:[^\s\/>:]+:)?([^\s\/>:]+)((?:[^>"']|"[^"]*"|'[^']*')*?)(\/?)>/, // a tag
        /([^<]+)/,
    ].map(({ source }) => source).join('|'),
    'g',
);

/** Gives all to the listener, in order: `open(name, attributes)`, `close(name)` and `text(text)`. */
export function readXml(xml, { open, close, text }) {
    for (const [, verbatim, ends, name, attributes, empty, plain] of xml.matchAll(TOKEN)) {
        if (plain !== undefined) text(decoded(plain));
        else if (verbatim !== undefined) text(verbatim);
        else if (name !== undefined && !ends) open(name, attributes);
        if (name !== undefined && (ends || empty)) close(name);
    }
}

/** Of a tag's attributes the one of a name; null where it is not there. */
export function attributeIn(attributes, name) {
    const found = ATTRIBUTES[name].exec(attributes);
    return found === null ? null : decoded(found[1] ?? found[2]);
}

const NAMES = ['r', 's', 't', 'id', 'Id', 'Target', 'numFmtId', 'formatCode', 'date1904'];
const ATTRIBUTES = Object.fromEntries(NAMES.map((name) => {
    return [name, new RegExp(`(?:^|[\\s:])${name}\\s*=\\s*(?:"([^"]*)"|'([^']*)')`)];
}));

const SIGNS = { lt: '<', gt: '>', amp: '&', quot: '"', apos: "'" };

function decoded(text) {
    if (!text.includes('&')) return text;
    return text.replace(/&(?:#x([0-9a-f]+)|#(\d+)|(\w+));/gi, (whole, hex, number, name) => {
        if (name) return SIGNS[name] ?? whole;
        const sign = hex ? Number.parseInt(hex, 16) : Number(number);
        return sign <= 0x10ffff ? String.fromCodePoint(sign) : whole;
    });
}
