// RPSL as the registry reads it: names, prefixes, and the objects of an answer.
import {RESERVED, TABLE} from './tables.js';

export const KINDS = Object.keys(TABLE);

// Names and numbers.
const TOP = 2 ** 32 - 1;
export const NAME = /^[a-z](?:[a-z0-9_-]{0,78}[a-z0-9])?$/i;
const isName = text => NAME.test(text) && !RESERVED.includes(text.toLowerCase());
export const isMaintainer = text => isName(text) && !/^[ar]s-/i.test(text);

export function asNumber(text) {
    const found = /^as([0-9]{1,10})$/i.exec(text);
    return found && Number(found[1]) <= TOP ? Number(found[1]) : null;
}

export const isAs = text => asNumber(text) !== null;

// The kind of a set's name, `as` or `rs`; null for another text.
export function setKind(text) {
    const names = text.split(':').filter(part => !isAs(part));
    const kinds = new Set(names.map(part => isName(part) ? part.slice(0, 3).toLowerCase() : ''));
    const [kind] = kinds;
    const isOne = kinds.size === 1 && /^[ar]s-$/.test(kind) && text.length <= 255;
    return isOne ? kind.slice(0, 2) : null;
}

export const isSet = text => setKind(text) !== null;
// The name of a set in the one spelling by which it is known.
export const setName = text =>
    text.split(':').map(part => isAs(part) ? `AS${asNumber(part)}` : part.toUpperCase()).join(':');

// Addresses, prefixes and spans.
export const textOf = address => [24, 16, 8, 0].map(shift => address >>> shift & 255).join('.');
export const prefixText = prefix => `${textOf(prefix.first)}/${prefix.length}`;
export const blockOf = (address, length) =>
    ({first: length ? (address & -1 << 32 - length) >>> 0 : 0, length});
export const lastOf = prefix => prefix.first + 2 ** (32 - prefix.length) - 1;

// A map reads a hundred thousand of these, so nothing is made of its parts.
export function prefixOf(text) {
    if (!/^\s*\d{1,3}(?:\.\d{1,3}){3}(?:\/\d{1,2})?\s*$/.test(text)) return null;
    let address = 0, number = 0, isLength = false;
    for (let at = 0; at <= text.length; at += 1) {
        const code = text.charCodeAt(at);
        if (code >= 48 && code <= 57) number = number * 10 + code - 48;
        else if (code === 46 || code === 47 || (at === text.length && !isLength)) {
            if (number > 255) return null;
            address = address * 256 + number;
            number = 0;
            isLength = code === 47;
        }
    }
    return number > 32 ? null : blockOf(address, isLength ? number : 32);
}

export function spanOf(text) {
    const [first, last = first, more] = text.split('-').map(prefixOf);
    if (!first || !last || more !== undefined || (text.includes('-') && text.includes('/')))
        return null;
    return first.first <= last.first ? {first: first.first, last: lastOf(last)} : null;
}

// What an object of a class and name takes of the space, if it takes any; and the smallest prefix
// round a span.
export const spaceOf = (kind, name) => kind === 'inetnum' || kind === 'route' ? spanOf(name) : null;
export const around = span => blockOf(span.first, Math.clz32(span.first ^ span.last));

// An object of an answer. What is in it is read when it is asked for: a map has a hundred thousand
// objects, and shows few of them in words.
const BEGINS = {}, VALUE = /[^\n]*(?:\n[ \t+][^\n]*)*/y;
export class RpslObject {
    constructor(text) {
        this.text = text;
        this.kind = KINDS.find(kind => text.startsWith(kind) && text[kind.length] === ':');
        this.name = this.meaning(this.kind);
    }

    get key() { return this.kind === 'route' ? `${this.name} ${this.meaning('origin')}` : this.name;
        }
    get holders() { return this.held ??= this.items('mnt-by'); }
    // The comment on the source, which in a view says where the object is from.
    get source() { return /\nsource:[^\n#]*#[ \t]*([A-Za-z][A-Za-z0-9_-]*)[ \t]*(?:\n|$)/.exec(
        this.text)?.[1] ?? ''; }

    // All attributes, each with its lines.
    get attributes() {
        const found = [];
        for (const line of this.text.split('\n')) {
            const end = ' \t+'.includes(line[0]) ? 0 : line.indexOf(':'),
                value = line.slice(end + 1).trim();
            if (end) found.push([line.slice(0, end), [value]]);
            else found.at(-1)?.[1].push(value);
        }
        return found;
    }

    // The text of all attributes of a name, without comments; and its items. Lines end in LF alone,
    // and a value may hold a CR.
    meaning(name) {
        const {text} = this, begin = BEGINS[name] ??= new RegExp(`(?:^|\\n)${name}:`, 'g'),
            values = [];
        for (begin.lastIndex = 0; begin.test(text);) {
            const from = VALUE.lastIndex = begin.lastIndex;
            VALUE.test(text);
            values.push(text.slice(from, VALUE.lastIndex));
        }
        if (values.length === 1 && !/[\n#]/.test(values[0])) return values[0].trim();
        return values.join('\n ').split(/\n[ \t+]/).map(line =>
            line.split('#', 1)[0].trim()).filter(Boolean).join(' ');
    }

    items(name) {
        return this.meaning(name).split(/[\s,]+/).filter(Boolean);
    }
}
