// Whose word a new object needs: the object that decides, and whom it names (RFC 2725, 9).
import {objectsOf} from './client.js';
import {isAs, lastOf, prefixOf, spanOf} from './rpsl.js';

const MOST = 32 << 20;           // bytes of a dump that are read for its as-blocks
const upper = names => [...new Set(names.map(name => name.toUpperCase()))];

export const lowerNames = object => {
    const lower = object.kind === 'mntner' ? [] : object.items('mnt-lower');
    return upper(lower.length ? lower : object.items('mnt-by'));
};

// The entries of `mnt-routes`: a name each, with ranges, or null where any prefix is granted.
function grantsOf(object) {
    const found = [];
    let ranges = null;
    const words = object.meaning('mnt-routes').replace(/[{}]/g, ' $& ');
    for (const word of words.split(/[\s,]+/).filter(Boolean)) {
        if (word === '{') found.at(-1).ranges = ranges = [];
        else if (word === '}') ranges = null;
        else if (ranges) ranges.push(word);
        else if (!/^any$/i.test(word)) found.push({name: word, ranges: null});
    }
    return found;
}

function admits(range, asked) {
    const [front, operator] = range.split('^'), held = prefixOf(front);
    const [from, to = from] = operator?.split('-') ?? [];
    const [low, high] = operator === undefined ? [held.length, held.length]
        : operator === '+' ? [held.length, 32]
            : operator === '-' ? [held.length + 1, 32] : [Number(from), Number(to)];
    return held.first <= asked.first && lastOf(asked) <= lastOf(held) &&
        low <= asked.length && asked.length <= high;
}

export function routeNames(object, prefix) {
    const grants = grantsOf(object);
    if (grants.length) {
        return upper(grants.filter(({ranges}) => !ranges || ranges.some(one => admits(one, prefix)))
            .map(({name}) => name));
    }
    return object.kind === 'aut-num' ? upper(object.items('mnt-by')) : lowerNames(object);
}

export function decision(object, names, what) {
    const who = names.length ? names.join(', ') : 'nobody';
    return `${object.kind} ${object.key} decides: ${who} may add ${what}.`;
}

// What a key takes: addresses, or AS numbers.
function spaceOf(kind, key) {
    if (kind === 'inetnum') return spanOf(key);
    const ends = key.split('-').map(part => part.trim());
    return ends.every(isAs) ? {
        first: Number(ends[0].slice(2)), last: Number(ends.at(-1).slice(2)),
    } : null;
}

// The object with the smallest space that covers a new one and is not the same.
export function closestSpan(objects, kind, key) {
    const own = spaceOf(kind, key), size = one => one.space.last - one.space.first;
    return objects.map(object => ({object, space: spaceOf(object.kind, object.key)}))
        .filter(({space}) => space.first <= own.first && own.last <= space.last &&
            (space.first !== own.first || space.last !== own.last || kind === 'aut-num'))
        .sort((one, other) => size(one) - size(other)).slice(0, 1).map(({object}) => object);
}

// The as-blocks, which no query gives: those of the dump, whose second class they are.
export async function allBlocks(signal) {
    const cut = new AbortController(), end = () => cut.abort();
    signal.addEventListener('abort', end);
    try {
        const reply = await fetch('/dump', {signal: cut.signal, redirect: 'error'});
        const reader = reply.body.getReader();
        const decoder = new TextDecoder('latin1');
        let text = '';
        for (let next = await reader.read(); !next.done; next = await reader.read()) {
            text += decoder.decode(next.value, {stream: true});
            if (/\n\n(?:aut-num|inetnum|route|as-set|route-set):/.test(text)) break;
            if (text.length > MOST) return [];
        }
        const from = text.indexOf('\n\nas-block:') + 2, rest = text.slice(from);
        const length = rest.search(/\n\n(?!as-block:)/) + 2;
        return from < 2 || length < 2 ? [] : await objectsOf(rest.slice(0, length), signal);
    } finally {
        signal.removeEventListener('abort', end);
        cut.abort();
    }
}
