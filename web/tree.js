// A set as the tree of what it refers to, opened step by step.
import {Client, MISSING, Trouble, kindOf, objectsOf, wordsOf} from './lib/client.js';
import {$, counted, el, link, listing, shown} from './lib/nodes.js';
import {isAs, isSet, prefixOf, setKind, setName} from './lib/rpsl.js';
import {sourceOf} from './lib/served.js';
import {addView} from './page.js';

const ANY = ['AS-ANY', 'RS-ANY'];
const tree = new Client('tree');
// The sets of the tree by their names, each with the element that has it; and those that are not
// registered.
let seen = new Map(), missing = new Set();

const frontOf = item => item.split('^')[0];
const classOf = name => setKind(name) === 'as' ? 'as-set' : 'route-set';
const isMissing = name => missing.has(name);

async function objectOf(signal, name) {
    const text = await tree.query(signal, `object ${classOf(name)} ${name}`), kind = kindOf(text);
    if (kind === 'error') throw new Trouble(wordsOf(text));
    if (signal.aborted) throw new Trouble('Stopped.');
    return kind === 'objects' ? (await objectsOf(text, signal))[0] : null;
}

// The names of the sets that are reached and not registered, and what is said of the whole.
async function expanded(signal, name) {
    const text = await tree.query(signal, `expand ${name}`), kind = kindOf(text);
    if (kind !== 'expansion') return [new Set(), wordsOf(text), text === '% no entries\n'];
    const lines = text.slice(0, -1).split('\n');
    const names = lines.filter(line => MISSING.test(line)).map(line => MISSING.exec(line)[1]);
    const what = setKind(name) === 'as' ? 'AS number' : 'range';
    const lacking = names.length ? `, and ${counted(names.length, 'set')} not registered` : '';
    return [new Set(names), `It comes to ${counted(lines.length - names.length, what)}${lacking}.`];
}

// What is opened where it stands, once: a line, and what comes below it.
function opened(words, fill) {
    const place = el('div', {class: 'inside'});
    let isFilled = false;
    const whole = el('details', {toggle: () => {
        if (!whole.open || isFilled) return;
        isFilled = true;
        tree.run(async signal => {
            try {
                await fill(place, signal);
            } catch (error) {
                isFilled = whole.open = false;
                throw error;
            }
        });
    }}, el('summary', {}, ...words), place);
    return whole;
}

function go(name) {
    const there = seen.get(name);
    there.scrollIntoView({block: 'center'});
    there.querySelector('summary').focus();
}

function setNode(item) {
    const name = setName(frontOf(item)), rest = item.slice(frontOf(item).length);
    if (ANY.includes(name)) return el('li', {}, `${shown(item)}: all that is registered`);
    if (isMissing(name))
        return el('li', {class: 'lacking'}, shown(item), ' is not registered, and adds nothing');
    if (seen.has(name)) {
        const button = el('button', {type: 'button', click: () => go(name)}, 'go there');
        return el('li', {}, `${shown(item)} is in the tree already: `, button);
    }
    const whole = opened([shown(name), rest && ` by ${shown(rest)}`], (place, signal) =>
        fillSet(place, signal, name));
    seen.set(name, whole);
    return el('li', {}, whole);
}

function memberNode(item) {
    const front = frontOf(item);
    if (isSet(front)) return setNode(item);
    return el('li', {}, isAs(front) || prefixOf(front) ? link(front, item) : shown(item));
}

// The objects that join a set by a maintainer which it names.
async function joined(signal, name, kind, maintainers) {
    const found = new Map();
    for (const maintainer of maintainers) {
        const text = await tree.query(signal, `inverse mnt ${maintainer}`), is = kindOf(text);
        if (is === 'error') throw new Trouble(wordsOf(text));
        const objects = is === 'objects' ? await objectsOf(text, signal) : [];
        for (const object of objects) {
            const isIn = object.kind === 'route' || object.kind === kind;
            const isHeld = object.holders.some(one => one.toUpperCase() === maintainer);
            const names = isIn && isHeld ? object.items('member-of').map(setName) : [];
            if (names.includes(name)) found.set(`${object.kind} ${object.key}`, object);
        }
    }
    return [...found.values()];
}

function byReference(object, name) {
    const kind = object.kind === 'as-set' ? 'aut-num' : 'route';
    const takers = [...new Set(object.items('mbrs-by-ref').map(one => one.toUpperCase()))];
    if (!takers.length) return [];
    if (takers.includes('ANY'))
        return [el('li', {}, 'By reference: each object that names it in member-of. ',
            link(`expand ${name}`, 'All that it comes to'))];
    const words = [`By reference, of ${takers.map(one => shown(one)).join(', ')}`];
    return [el('li', {}, opened(words, async (place, signal) => {
        const found = await joined(signal, name, kind, takers);
        place.append(el('p', {class: 'hint'}, `${counted(found.length, 'member')} by reference.`),
            ...listing(el('ul', {class: 'branch', role: 'list'}), found, one =>
            el('li', {}, link(`object ${one.kind} ${one.key}`, `${one.kind} ${one.key}`))));
        tree.say(`${counted(found.length, 'member')} of ${name} by reference.`);
    }))];
}

async function fillSet(place, signal, name) {
    const object = await objectOf(signal, name);
    if (!object) {
        missing.add(name);
        place.append(el('p', {class: 'lacking'}, 'It is not registered, and adds nothing.'));
        return tree.say(`${name} is not registered.`);
    }
    const items = object.items('members'), sets = items.filter(item => isSet(frontOf(item)));
    const others = items.filter(item => !isSet(frontOf(item)));
    const gone = sets.filter(item => isMissing(setName(frontOf(item)))).length;
    const words = `${counted(items.length, 'member')}${sets.length
        ? `, ${counted(sets.length, 'set')} of them` : ''}${gone
        ? `, ${gone} not registered` : ''}`;
    const of = sourceOf(object) && `, of ${sourceOf(object)}`;
    const list = el('ul', {class: 'branch', role: 'list'});
    place.append(el('p', {class: 'hint'}, `${words}. Maintained by ${shown(object.holders.join(
        ', '))}${shown(of)}.`), el('p', {class: 'also'}, link(`object ${object.kind} ${name}`,
        'The object'), link(`prefixes ${name}`, 'Its prefixes')));
    place.append(...listing(list, [...sets, ...others], memberNode));
    const joins = byReference(object, name);
    if (joins.length) place.append(el('ul', {class: 'branch', role: 'list'}, ...joins));
    tree.say(`${name}: ${words}.`);
}

function showTree(given) {
    const name = given.trim() && setName(given.trim()), isGood = isSet(name);
    $('set').value = given;
    $('set').setAttribute('aria-invalid', String(Boolean(given && !isGood)));
    $('branches').replaceChildren();
    tree.end();
    tree.say(given && !isGood
        ? 'This is not a set: write a name as AS64496:AS-CUSTOMERS, or AS64496:RS-CUSTOMERS.' : '',
        true);
    if (!isGood) return;
    tree.run(async signal => {
        seen = new Map();
        missing = new Set();
        const [names, words, isNone] = await expanded(signal, name);
        if (signal.aborted) return;
        if (isNone) return tree.say(words);
        missing = names;
        const whole = el('details', {open: true}, el('summary', {}, shown(name)),
            el('div', {class: 'inside'}));
        seen.set(name, whole);
        $('branches').replaceChildren(el('h2', {}, `What ${shown(name)} has`),
            el('p', {}, words), el('ul', {class: 'branch', role: 'list'}, el('li', {}, whole)));
        await fillSet(whole.lastChild, signal, name);
    });
}

addView('tree', {show: showTree});
