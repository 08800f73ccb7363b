// Asking the registry of this address, and no other.
import {$, counted, shown} from './nodes.js';
import {KINDS, RpslObject} from './rpsl.js';
import {base} from './served.js';

const MOST = 32 << 20;           // bytes of an answer that this page takes in
const PATIENCE = 200;            // seconds without a byte of an answer
export const STRANGE = 'The server sent an answer that no registry of this kind gives.';
const ERRORS = {
    1: 'This is not a query: see what can be asked, above.',
    2: 'The query is too long: it may have at most 1,024 bytes.',
    3: 'The set has more members than this registry expands. Ask for the sets in it one by one.',
    4: 'The registry ran out of memory. Ask again later.',
    5: 'The registry\'s database failed. Report it to the operator.',
    6: 'The registry is stopped, because its database failed earlier. Report it to the operator.',
};
const STATUSES = {
    400: 'The server did not understand the request.',
    401: 'The server requires a user name and a password, and accepted none.',
    403: 'The server does not let you do this: ask its operator.',
    404: 'The server has no such page: its operator has to forward it to the registry.',
    405: 'The server does not let you do this: ask its operator.',
    413: 'The text is longer than the server accepts: send it in parts.',
    414: 'The query is too long: it may have at most 1,024 bytes.',
    421: 'The server does not have this name: correct the address.',
    422: 'The answer is longer than the server allows: ask for less.',
    429: 'Too many requests came from you, or from all together: wait a minute, and ask again.',
    431: 'The query is too long: it may have at most 1,024 bytes.',
    502: 'The registry does not answer: it is down, or being started. Ask again in a minute.',
    503: 'The registry is stopped, or does not answer. Ask again in a minute; if that does not ' +
        'help, report it to the operator.',
    504: 'The registry did not answer in time: it is busy. Ask again in a minute.',
};
export const UNKNOWN =
    ' It is not known whether any item was carried out. Look the objects up, or send the same ' +
    'text again: what is registered already is reported as "unchanged".';

// A Trouble is what goes to people in place of an answer.
export class Trouble extends Error {}

// Asks for a view: one thing at a time, of which a newer one ends the older one. The line of status
// of the view says how it stands.
export class Client {
    constructor(name, isOfView = true) {
        this.isOfView = isOfView;
        this.said = $(`${name}-said`);
        this.stop = $(`${name}-stop`);
        this.current = null;
        this.stop.addEventListener('click', () => {
            this.said.focus();
            this.current?.abort();
        });
    }

    say(words, bad = false) {
        this.said.textContent = shown(words);
        this.said.classList.toggle('bad', bad);
    }

    // What is no longer wanted says nothing more.
    end() {
        const old = this.current;
        this.current = null;
        this.stop.hidden = true;
        old?.abort();
    }

    async run(work) {
        this.end();
        const mine = this.current = new AbortController();
        this.stop.hidden = false;
        try {
            await work(mine.signal);
        } catch (error) {
            if (this.current !== mine) return;
            this.say(error instanceof Trouble ? error.message
                : `This page failed: ${error}. Load it again.`, true);
        } finally {
            if (this.current === mine) this.stop.hidden = true;
        }
    }

    // The whole text that a path answers, or a Trouble.
    async ask(signal, path, body, type = 'text/plain') {
        const cut = new AbortController(), end = () => cut.abort();
        const doubt = body === undefined ? '' : UNKNOWN;
        let heard = performance.now(), told = heard, size = 0;
        signal.addEventListener('abort', end);
        const clock = setInterval(() => {
            const now = performance.now();
            if (now - heard > PATIENCE * 1000) cut.abort();
            else if (now - told > 2500 && signal === this.current?.signal) {
                told = now + 5000;
                this.say(size ? `${(size / 1e6).toFixed(1)} MB have come so far.`
                    : 'Waiting for the registry, which answers one request at a time.');
            }
        }, 500);
        try {
            const reply =
                await fetch(path,
                {method: body === undefined ? 'GET'
                : 'POST', body, signal: cut.signal, cache: 'no-store', redirect: 'error'})
                .catch(() => {
                    const words = 'The server can\'t be reached, or it ended the connection. ' +
                        `Ask again in a minute.${doubt}`;
                    throw new Trouble(this.why(signal, cut, words, doubt));
                });
            const given = reply.headers.get('Content-Type') ?? '';
            if (reply.status !== 200 && type !== 'text/plain' && given.startsWith('text/plain')) {
                const words = /^% (.+)\n$/.exec(await reply.text());
                if (words) throw new Trouble(`The server says: ${words[1]}.`);
            }
            if (reply.status !== 200)
                throw new Trouble((STATUSES[reply.status]
                ?? `The server answers with status ${reply.status}.`)
                + (reply.status >= 500 ? doubt : ''));
            if (given.split(';')[0].trim().toLowerCase() !== type)
                throw new Trouble(
                `What answers is not a registry: the server's operator has to hand ${path.split(
                '/')[1]} on to it.`);
            const parts = [], reader = reply.body.getReader();
            for (;;) {
                const next = await reader.read().catch(() => {
                    const words = `The answer was cut off after ${counted(size, 'byte')}. ` +
                        `None of it is shown, because the rest is missing. Ask again.${doubt}`;
                    throw new Trouble(this.why(signal, cut, words, doubt));
                });
                if (next.done) break;
                heard = performance.now();
                parts.push(next.value);
                size += next.value.length;
                if (size > MOST) {
                    throw new Trouble(`The answer has more than ${MOST >> 20} MB, which is too ` +
                        'much for this page, so none of it is shown. Ask for less, or fetch it ' +
                        'by curl or irr.');
                }
            }
            return {text: decoded(parts, size), isSized: reply.headers.has('Content-Length')};
        } finally {
            clearInterval(clock);
            signal.removeEventListener('abort', end);
            cut.abort();
        }
    }

    why(signal, cut, otherwise, doubt) {
        if (signal.aborted) return `Stopped waiting.${doubt}`;
        return cut.signal.aborted ? `Nothing came for ${PATIENCE} seconds. Ask again later.${doubt}`
            : otherwise;
    }

    // What a path answers in JSON.
    async json(signal, path) {
        const {text} = await this.ask(signal, path, undefined, 'application/json');
        try {
            return JSON.parse(text);
        } catch {
            throw new Trouble(STRANGE);
        }
    }

    async query(signal, words) {
        const query = words.trim();
        // A browser takes these two out of a path.
        if (query === '.' || query === '..') return '% error 1\n';
        const place = this.isOfView ? base() : '';
        const path = `${place}/query/${encodeURIComponent(query.toWellFormed?.() ?? query)}`;
        const {text, isSized} = await this.ask(signal, path);
        const kind = kindOf(text);
        if (kind === 'cut')
            throw new Trouble(
            'The answer was cut off. Nothing of it is shown, since the rest is missing. Ask ' +
            'again.');
        if (kind === 'strange') throw new Trouble(STRANGE);
        // A list of members shows no end of its own, so it is asked for twice, unless its length
        // was given.
        if (kind === 'expansion' && !isSized && (await this.ask(signal, path)).text !== text) {
            throw new Trouble(
                'Two answers differ: one was cut off, or the set has just changed. Nothing of ' +
                'them is shown. Ask again.');
        }
        return text;
    }
}

// UTF-8, and line by line Latin-1 where a line is not: registries have both.
function decoded(parts, size) {
    const bytes = new Uint8Array(size);
    parts.reduce((at, part) => (bytes.set(part, at), at + part.length), 0);
    const text = new TextDecoder('utf-8', {ignoreBOM: true}).decode(bytes);
    if (!text.includes('\ufffd')) return text;
    const strict = new TextDecoder('utf-8', {fatal: true, ignoreBOM: true}), lines = [];
    for (let from = 0, end; from <= size; from = end + 1) {
        end = bytes.indexOf(10, from);
        if (end < 0) end = size;
        try {
            lines.push(strict.decode(bytes.subarray(from, end)));
        } catch {
            lines.push(Array.from(bytes.subarray(from, end), byte =>
                String.fromCharCode(byte)).join(''));
        }
    }
    return lines.join('\n');
}

export const MEMBER = /^(?:AS\d{1,10}|\d[\d.]{6,14}\/\d{1,2}(?:\^(?:[+-]|\d{1,2}(?:-\d{1,2})?))?)$/;
export const MISSING = /^% missing ([A-Z0-9:_-]+)$/;

export function kindOf(text) {
    if (text === '% no entries\n' || text === '% empty\n') return 'none';
    if (/^% error [1-6]\n$/.test(text)) return 'error';
    if (KINDS.includes(text.slice(0, text.indexOf(':'))))
        return text.endsWith('\n\n') ? 'objects' : 'cut';
    if (!text.endsWith('\n'))
        return /^[%A\d]/.test(text) || KINDS.some(kind => kind.startsWith(text)) ? 'cut'
        : 'strange';
    return text.slice(0, -1).split('\n').every(line => MEMBER.test(line) || MISSING.test(line))
        ? 'expansion' : 'strange';
}

export const wordsOf = text => text === '% no entries\n' ? 'Nothing is registered there.' :
    text === '% empty\n' ? 'The set is registered, and it has no members.' : ERRORS[text[8]];

// Gives the page room to breathe within long work.
export function breather(signal) {
    let until = performance.now() + 25;
    return async () => {
        if (performance.now() < until) return;
        await new Promise(resolve => setTimeout(resolve));
        if (signal.aborted) throw new Trouble('Stopped.');
        until = performance.now() + 25;
    };
}

export async function objectsOf(text, signal) {
    const found = [], breathe = breather(signal);
    for (let from = 0, end; from < text.length; from = end + 2) {
        end = text.indexOf('\n\n', from);
        const object = new RpslObject(text.slice(from, end));
        if (!object.kind) throw new Trouble(STRANGE);
        if (found.push(object) % 100 === 0) await breathe();
    }
    return found;
}
