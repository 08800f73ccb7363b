// The page for people: its views, a file each, and the addresses that lead to them.
import {$, addressOf, el, shown} from './lib/nodes.js';
import {ageWords, served, sourceAsked, viewAsked} from './lib/served.js';

// The ids of the views' sections, by the words of addresses, so that what is shown can be sent on:
// #q=QUERY, #set=SET, #why=PREFIX SET, #map=PREFIX, #history=CLASS KEY, #submit.
const SECTIONS = {
    __proto__: null, q: 'look', set: 'tree', why: 'why', map: 'map', history: 'history',
    submit: 'submit',
};
const COMING = 'This part of the page is still loading.';
const LACKING =
    'This part of the page did not load. Load the page again; if that does not help, the ' +
    'server\'s operator has to serve all of its files.';
// The views that are there: a file that did not load has added none, and none waits for another.
const views = {};
let search = location.search;     // by which what is shown was asked
let areAllHere = false;          // whether each file has run, or did not load

export function addView(name, view) {
    views[name] = view;
    $(`${name}-said`).textContent = '';
    if (!$(name).hidden) show();
}

export function change(object) {
    views.submit?.change(object);
    location.hash = '#submit';
}

function show(isAnew = false) {
    const [, name, rest] = /^#?([a-z]*)=?([^]*)$/.exec(location.hash) ?? ['', '', ''];
    const view = SECTIONS[name] ?? 'look';
    let given = rest;
    try { given = decodeURIComponent(rest); } catch { /* It stays as it was written. */ }
    const isMoved = Object.values(SECTIONS).some(id => id !== view && !$(id).hidden);
    for (const section of Object.values(SECTIONS)) $(section).hidden = section !== view;
    for (const at of document.querySelectorAll('[data-view]')) {
        if (at.dataset.view === view) at.setAttribute('aria-current', 'page');
        else at.removeAttribute('aria-current');
    }
    const heading = $(`${view}-title`);
    const words = view === 'look' && given ? given : `${heading.textContent} ${given}`.trim();
    document.title = `${shown(words)} · routing registry`;
    if (isMoved) heading.focus();
    if (view in views) views[view].show(given, isAnew);
    else if (!areAllHere) $(`${view}-said`).textContent = COMING;
    else $(view).replaceChildren(heading, el('p', {class: 'warn', role: 'alert'}, LACKING));
}

function asked(view, input) {
    return event => {
        event.preventDefault();
        const to = addressOf(view, input.value.trim());
        if (location.hash === to) show(true); else location.hash = to;
    };
}

// The choice of what is asked: the registry, a view, or what is of one source of a view.
function offer() {
    const chosen = `${viewAsked()}/${sourceAsked()}`, known = [['/', served.name]];
    for (const {name, sources} of served.views) {
        known.push([`${name}/`, `${name}: ${sources.map(one => one.name).join(', ')}`]);
        if (sources.length > 1)
            for (const one of sources)
                known.push([`${name}/${one.name}`, `${one.name} of ${name}`]);
    }
    if (!known.some(([value]) => value === chosen))
        known.push([chosen, chosen.split('/').reverse().filter(Boolean).join(' of ')]);
    $('source').replaceChildren(...known.map(([value, words]) => el('option', {value}, words)));
    $('source').value = chosen;
    $('sources').hidden = known.length < 2;
    const view = served.views.find(one => one.name === viewAsked());
    const words = view?.sources.map(({name, age, stands}) =>
        `${name}${age === null ? '' : `, seen ${ageWords(age)}`}${stands
        ? ', which is not renewed' : ''}`).join('; ');
    $('source-said').textContent = view ? `${view.name} has, in this order: ${words}. Of two ` +
        `objects with one key that of the first source is shown.${sourceAsked()
        ? ` Objects that are not of ${sourceAsked()} are left out; expansions are of all.` : ''}`
        : '';
    $('source-said').hidden = !view;
}

function choose() {
    const [view, of] = $('source').value.split('/'), words = new URLSearchParams();
    if (view) words.set('view', view);
    if (of) words.set('of', of);
    history.pushState(null, '', `${location.pathname}${words.size ? `?${words}` : ''}${
        location.hash}`);
    search = location.search;
    learn().then(() => show(true));
}

// What the server says of itself; what it does not say is not shown.
async function learn() {
    const reply = await fetch('/about', {cache: 'no-store'}).catch(() => null);
    const isSaid = reply?.ok && reply.headers.get('Content-Type') === 'application/json';
    const said = isSaid ? await reply.json().catch(() => ({})) : {};
    const {name, why, history: hasStates, views: found} = said;
    served.name = String(name ?? 'the registry');
    served.views = Array.isArray(found) ? found : [];
    document.documentElement.classList.toggle('has-why', why === true);
    document.documentElement.classList.toggle('has-history', hasStates === true);
    offer();
}

$('site').textContent = location.host;
$('source').addEventListener('change', choose);
learn();
$('look-form').addEventListener('submit', asked('q', $('words')));
$('tree-form').addEventListener('submit', asked('set', $('set')));
$('map-form').addEventListener('submit', asked('map', $('prefix')));
$('history-form').addEventListener('submit', asked('history', $('history-key')));
addEventListener('hashchange', () => show());
// Back to what was asked elsewhere.
addEventListener('popstate', () => {
    if (location.search === search) return;
    search = location.search;
    offer();
    show(true);
});
show();
document.addEventListener('DOMContentLoaded', () => {
    areAllHere = true;
    if (Object.values(SECTIONS).some(name => !(name in views) && !$(name).hidden)) show();
});
