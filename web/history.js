// What an object was: the states of it that the registry's history has, and what differs between
// two of them.
import {Client} from './lib/client.js';
import {$, addressOf, counted, el, link, listing, shown} from './lib/nodes.js';
import {KINDS} from './lib/rpsl.js';
import {addView} from './page.js';

const client = new Client('history');
const STATE = /^(?:[0-9a-f]{40})?\.\.[0-9a-f]{40}$/;

const timeOf = one => `${one.time.replace('T', ' ').replace('Z', ' UTC')}`;
const wordsOf = one =>
    `${timeOf(one)}: ${one.word}${one.serial === null ? '' : `, serial ${one.serial}`}`;

// What changed from one state to another, line by line: a sign begins each that went or came.
function linesOf(lines) {
    if (!lines.length) return el('p', {}, 'The two states are the same.');
    const made = {'+': 'ins', '-': 'del', ' ': 'span'};
    return el('pre', {tabindex: '0', role: 'group', 'aria-label': 'What changed'},
        ...lines.map(([sign, text]) => el(made[sign] ?? 'span', {}, `${sign} ${shown(text)}\n`)));
}

function chooser(id, words, states, chosen, isOpen) {
    const select = el('select', {id}, ...isOpen ? [el('option', {value: ''}, 'nothing')] : [],
        ...states.map(one => el('option', {value: one.state}, wordsOf(one))));
    select.value = chosen;
    return [el('label', {for: id}, words), select];
}

function comparing(name, states, [from, to]) {
    const go = event => {
        event.preventDefault();
        location.hash = addressOf('history', `${name} ${$('history-from').value}..${
            $('history-to').value}`);
    };
    return el('form', {class: 'buttons', submit: go, 'aria-label': 'Compare two states'},
        ...chooser('history-from', 'Compare', states, from, true),
        ...chooser('history-to', 'with', states, to, false), el('button', {}, 'Compare'));
}

async function tell(signal, kind, key, pair, isInside) {
    const path = `/history/${kind}/${encodeURIComponent(key)}`, name = `${kind} ${key}`;
    const {states, more, looked} = await client.json(signal, path);
    if (!states.length) return client.say(`${name} was never seen by the history.`);
    const two = pair ? pair.split('..') : [states[1]?.state ?? '', states[0].state];
    const {lines} = await client.json(signal, `${path}?from=${two[0]}&to=${two[1]}`);
    if (signal.aborted) return;
    const known = states.find(one => one.state === two[1]);
    const before = at => states[at + 1]?.state ?? '';
    const item = one => el('li', {}, `${wordsOf(one)} `, el('a', {href: addressOf('history',
        `${name} ${before(states.indexOf(one))}..${one.state}`)}, 'what changed'));
    $('states').replaceChildren(
        el('h2', {tabindex: '-1'}, `What changed${known ? ` by ${timeOf(known)}` : ''}`),
        linesOf(lines), comparing(name, states, two), el('h2', {}, 'States'),
        el('p', {class: 'also'}, link(`object ${name}`, 'The object now')),
        ...listing(el('ol', {class: 'chain'}), states, item));
    if (isInside) $('states').querySelector('h2').focus();
    const end = more ? ', of which these are the last' : '';
    client.say(`${counted(states.length, 'state')} of ${name}${end}. The registry was last ` +
        `looked at ${looked ? timeOf({time: looked}) : 'at no known time'}.`);
}

function showHistory(given) {
    const words = given.trim().split(/\s+/), pair = STATE.test(words.at(-1)) ? words.pop() : '';
    const [kind = '', ...rest] = words, key = rest.join(' ');
    const isGood = KINDS.includes(kind.toLowerCase()) && key;
    $('history-key').value = words.join(' ');
    $('history-key').setAttribute('aria-invalid', String(Boolean(given && !isGood)));
    const isInside = $('states').contains(document.activeElement);
    $('states').replaceChildren();
    client.end();
    client.say(given && !isGood
        ? 'Write a class and a key, as route 192.0.2.0/24 AS64496, or mntner A-MNT.' : '', true);
    if (isGood) client.run(signal => tell(signal, kind.toLowerCase(), key, pair, isInside));
}

addView('history', {show: showHistory});
