// Why a prefix is in a set: the chains of objects from the set to the prefix, or what is nearest.
import {Client} from './lib/client.js';
import {$, addressOf, counted, el, link, shown} from './lib/nodes.js';
import {isAs, isSet, prefixOf} from './lib/rpsl.js';
import {viewAsked} from './lib/served.js';
import {addView} from './page.js';

const why = new Client('why');

const nameOf = name => /^[ar]s-any$/i.test(name) ? shown(name) : link(`object ${name}`, name);
const byWords = holders => holders ? `maintained by ${holders.join(', ')}` : 'not registered';

const sourceOf = one => one.source ? ` of ${shown(one.source)}` : '';

function stepItem(step) {
    const words = [byWords(step['mnt-by']), step.says, `gives ${step.range ?? 'nothing'}`];
    return el('li', {}, nameOf(step.object), sourceOf(step),
        el('p', {class: 'hint'}, shown(words.filter(Boolean).join('; '))));
}

const chainList = chain => el('ol', {class: 'chain'}, ...chain.map(stepItem));

function chainsOf(found) {
    const {prefix, set, chains, more, all} = found, many = chains.length + more;
    const words = `${prefix} is in ${set}, by ${all ? '' : 'at least '}${counted(many, 'chain')}.`;
    const parts = chains.flatMap((chain, at) =>
        [el('h2', {}, `Chain ${at + 1} of ${many}`), chainList(chain)]);
    if (more || !all)
        parts.push(el('p', {}, all ? `And ${counted(more, 'more chain')}.`
        : 'There are more, which were not searched for.'));
    return [words, parts];
}

function nearOf(found) {
    const {prefix, set, nearest, near} = found, parts = [];
    if (nearest.length) {
        const last = nearest.at(-1).range, is = nearest[0].range
            ?? `${last}, of which the operators on the way leave nothing`;
        parts.push(el('h2', {}, `The nearest that the set has: ${shown(is)}`), chainList(nearest));
    }
    if (near.length)
        parts.push(el('h2', {}, 'What is not in the set'), el('ul', {class: 'chain', role: 'list'},
        ...near.map(one => el('li', {}, one['mnt-by'] ? nameOf(one.object) : shown(one.object),
            sourceOf(one),
            el('p', {class: 'hint'}, shown(`${byWords(one['mnt-by'])}; ${one.why}`))))));
    if (!parts.length)
        parts.push(el('p', {}, 'No route covers it, and no set that is reached lists a range ' +
        'that covers it.'));
    return [`${prefix} is not in ${set}.`, parts];
}

function showWhy(given) {
    const [prefix = '', set = '', ...rest] = given.trim().split(/\s+/);
    const isPrefix = Boolean(prefixOf(prefix)), isName = (isSet(set) || isAs(set)) && !rest.length;
    $('why-prefix').value = prefix;
    $('why-set').value = [set, ...rest].join(' ');
    $('why-prefix').setAttribute('aria-invalid', String(Boolean(given) && !isPrefix));
    $('why-set').setAttribute('aria-invalid', String(Boolean(given) && isPrefix && !isName));
    $('chains').replaceChildren();
    why.end();
    why.say('');
    if (!given) return;
    if (!isPrefix)
        return why.say('This is not a prefix: write four numbers and a length, as 192.0.2.0/24.',
        true);
    if (!isName)
        return why.say('This is not a set or an AS number: write it as AS64496:AS-CUSTOMERS, ' +
        'or AS64496.', true);
    why.run(async signal => {
        const view = viewAsked() && `?view=${encodeURIComponent(viewAsked())}`;
        const found = await why.json(signal,
            `/why/${encodeURIComponent(prefix)}/${encodeURIComponent(set)}${view}`);
        const [words, parts] = found.found ? chainsOf(found) : nearOf(found);
        if (signal.aborted) return;
        $('chains').replaceChildren(...parts);
        why.say(words);
    });
}

$('why-form').addEventListener('submit', event => {
    event.preventDefault();
    const to = addressOf('why', `${$('why-prefix').value.trim()} ${$('why-set').value.trim()}`);
    if (location.hash === to) showWhy($('why-prefix').value + ' ' + $('why-set').value);
    else location.hash = to;
});
addView('why', {show: showWhy});
