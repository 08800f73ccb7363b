// Nodes of the page. Nothing that came from elsewhere is ever read as markup.
import {prefixText} from './rpsl.js';

const AT_ONCE = 100;             // objects, members or rows that are put on the page at once
export const $ = name => document.getElementById(name);
const ODD = new RegExp('[\\x00-\\x08\\x0a-\\x1f\\x7f-\\x9f\\u00ad\\u061c' +
    '\\u200b-\\u200f\\u2028-\\u202e\\u2060-\\u206f\\ufeff]', 'g');
export const shown = text =>
    text.replace(ODD, odd => odd < '\u0100'
    ? `\\x${odd.charCodeAt(0).toString(16).padStart(2, '0')}`
    : `\\u${odd.charCodeAt(0).toString(16).padStart(4, '0')}`);
// Not toLocaleString, whose first call takes a tenth of a second.
export const decimal = number => String(number).replace(/\B(?=(?:\d{3})+$)/g, ',');
export const counted = (number, thing) => `${decimal(number)} ${thing}${number === 1 ? '' : 's'}`;

export function el(name, given = {}, ...inside) {
    const made = document.createElement(name);
    for (const [key, value] of Object.entries(given)) {
        if (typeof value === 'function') made.addEventListener(key, value);
        else if (typeof value === 'boolean') made.toggleAttribute(key, value);
        else made.setAttribute(key, value);
    }
    made.append(...inside);
    return made;
}

export const addressOf = (view, text) =>
    `#${view}=${encodeURIComponent(text.toWellFormed?.()
    ?? text).replace(/%(2F|3A|2C|5E|2B)/g, escape => decodeURIComponent(escape))}`;
export const link = (query, text = query) => el('a', {href: addressOf('q', query)}, shown(text));
export const mapLink = (prefix, text = prefixText(prefix)) =>
    el('a', {href: addressOf('map', prefixText(prefix))}, text);

// Puts things on the page a hundred at a time, each further hundred when it is asked for.
export function listing(place, things, make) {
    let next = 0;
    const button = el('button', {type: 'button', click: () => more()});
    const more = () => {
        const from = next;
        for (next = Math.min(things.length, next + AT_ONCE); place.childElementCount < next;)
            place.append(make(things[place.childElementCount]));
        button.textContent =
            `Show ${Math.min(AT_ONCE, things.length - next)} more of ${decimal(things.length)}`;
        if (next === things.length) button.remove();
        if (from) place.children[from].querySelector('a, button')?.focus();
    };
    more();
    return next < things.length ? [place, button] : [place];
}

export async function copy(text, said, words) {
    try {
        await navigator.clipboard.writeText(text);
    } catch {
        // Without TLS there is no such clipboard: the old way, by a selection.
        const held = el('textarea', {'aria-hidden': 'true'}), before = document.activeElement;
        held.value = text;
        document.body.append(held);
        held.select();
        const done = document.execCommand('copy');
        held.remove();
        before?.focus();
        if (!done) words = 'This browser did not let the page copy: select the text by hand.';
    }
    said.textContent = words;
}
