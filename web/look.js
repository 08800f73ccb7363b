// Looking up.
import {Client, MEMBER, MISSING, kindOf, objectsOf, wordsOf} from './lib/client.js';
import {
    $, addressOf, copy, counted, decimal, el, link, listing, mapLink, shown,
} from './lib/nodes.js';
import {
    KINDS, around, isAs, isMaintainer, isSet, prefixOf, prefixText, spaceOf,
} from './lib/rpsl.js';
import {ofSource, sourceOf, viewAsked} from './lib/served.js';
import {TABLE} from './lib/tables.js';
import {addView, change} from './page.js';

const WIDEST = 8;                // prefixes that are shorter make no good filter
const look = new Client('look');

const queryFor = {
    mntner: ['What names it', object => `inverse mnt ${object.key}`],
    'aut-num': ['Its routes', object => `inverse origin ${object.key}`],
    'as-set': ['Its members', object => `expand ${object.key}`],
    'route-set': ['Its members', object => `expand ${object.key}`],
};

// A line of a value, with a link in place of each name, number and prefix that the registry reads
// there.
function linked(object, name, line) {
    if (name !== object.kind && !(name in TABLE[object.kind])) return [shown(line)];
    const end = line.indexOf('#') < 0 ? line.length : line.indexOf('#');
    const isNamed = name.startsWith('mnt-') || name === 'mbrs-by-ref' || name === 'mntner';
    return [...line.slice(0, end).split(/([\s,{}]+)/).map(item => {
        const plain = item.split('^')[0];
        const isLinked = prefixOf(plain) || isAs(plain) || isSet(plain)
            || (isNamed && isMaintainer(item));
        return isLinked ? link(plain, item) : shown(item);
    }), shown(line.slice(end))];
}

function objectBox(object) {
    const span = spaceOf(object.kind, object.name), place = span && prefixOf(object.name);
    const also = queryFor[object.kind]
        ? [link(queryFor[object.kind][1](object), queryFor[object.kind][0])] : [];
    if (object.kind.endsWith('-set'))
        also.push(link(`prefixes ${object.key}`, 'Its prefixes'),
        el('a', {href: addressOf('set', object.key)}, 'As a tree'));
    if (place) also.push(link(`less ${prefixText(place)}`, 'Around it'),
        link(`more ${prefixText(place)}`, 'Inside it'));
    if (span) also.push(mapLink(around(span), 'Map'));
    const name = `${object.kind} ${shown(object.key)}`;
    const source = sourceOf(object), isOwn = !viewAsked();
    if (isOwn)
        also.push(el('a', {href: addressOf('history', `${object.kind} ${object.key}`),
        class: 'of-history'}, 'History'));
    return el('article', {class: 'object', 'aria-label': name},
        el('h3', {}, `${object.kind} `, link(`object ${object.kind} ${object.key}`, object.key),
            ...source ? [' ', el('span', {class: 'source'}, `of ${source}`)] : []),
        el('dl', {},
            ...object.attributes.flatMap(([attribute, lines]) => [el('dt', {}, shown(attribute)),
            el('dd', {},
                ...lines.flatMap((line, at) =>
                [...at ? ['\n'] : [], ...linked(object, attribute, line)]))])),
        el('p', {class: 'also'}, ...also,
            el('button',
                {type: 'button', 'aria-label': `Copy ${name}`, click: () =>
                copy(`${object.text}\n`, look.said, `${name} is copied.`)}, 'Copy'),
            ...isOwn ? [el('button',
                {type: 'button', 'aria-label': `Change ${name}`,
                click: () => change(object)},
                'Change')] : []));
}

// The lines of an expansion for BIRD and FRR; RFC 2622, 2: ^- leaves out the prefix itself, ^+ does
// not.
function readRange(line) {
    const [prefix, operator = ''] = line.split('^'), least = Number(prefix.split('/')[1]),
        [from, to] = operator.split('-');
    if (!operator) return {prefix, least, low: least, high: least};
    if (operator === '+') return {prefix, least, low: least, high: 32};
    return operator === '-' ? {prefix, least, low: least + 1, high: 32}
        : {prefix, least, low: Number(from), high: Number(to ?? from)};
}

function written(format, set, members, made) {
    const name = set.toUpperCase().replace(/[^A-Z0-9]+/g, '_'), areNumbers = isAs(members[0]),
        ranges = areNumbers ? [] : members.map(readRange);
    if (format === 'plain') return members.map(member => `${member}\n`).join('');
    if (format === 'BIRD') {
        const lines = areNumbers ? members.map(member => member.slice(2))
            : ranges.map(({prefix, low, high}) => `${prefix}{${low},${high}}`);
        return `# ${made}\ndefine ${name} = [\n    ${lines.join(',\n    ')}\n];\n`;
    }
    const lines = areNumbers
        ? members.map((member, at) =>
        `bgp as-path access-list ${name} seq ${5 * at + 5} permit _${member.slice(2)}$`) :
        [...ranges.map(({prefix, least, low, high}, at) =>
            `ip prefix-list ${name} seq ${5 * at + 5} permit ${prefix}` +
            (low > least ? ` ge ${low}` : '') + (high > low || low > least ? ` le ${high}` : '')),
                `ip prefix-list ${name} seq ${5 * ranges.length + 5} deny any`];
    return `! ${made}\n${lines.join('\n')}\n`;
}

function expansion(query, text) {
    const lines = text.slice(0, -1).split('\n'),
        missing = lines.filter(line => MISSING.test(line)).map(line => MISSING.exec(line)[1]);
    const members = lines.filter(line => MEMBER.test(line)),
        wide = members.filter(member => Number(/\/(\d+)/.exec(member)?.[1] ?? 32) < WIDEST);
    const set = query.split(/\s+/).at(-1), what = isAs(members[0] ?? '') ? 'AS number' : 'range',
        parts = [];
    const made =
        `Made of ${query} at ${location.origin}${missing.length
        ? `, without sets that are not registered: ${missing.join(' ')}` : ''}`;
    const doubts =
        [...missing.length
        ? [el('p', {}, 'These sets are not registered, so their members are missing: ',
        ...missing.flatMap(name => [link(name), ' ']))] : [],
        ...wide.length
            ? [el('p', {},
            `These ranges are wider than a /${WIDEST}: ${wide.slice(0, 20).join(' ')}`)] : []];
    const buttons =
        ['BIRD', 'FRR', 'plain'].map(format =>
        el('button', {type: 'button', disabled: doubts.length > 0,
        click: () =>
            copy(written(format, set, members, made), look.said,
            `${counted(members.length, what)} copied as ${format}.`)}, format === 'plain'
            ? 'Copy plain' : `Copy as ${format}`));
    if (doubts.length) {
        const allow =
            el('input', {type: 'checkbox', change: () =>
            buttons.forEach(button => { button.disabled = !allow.checked; })});
        parts.push(el('div', {class: 'warn'}, ...doubts, ...members.length
            ? [el('label', {class: 'check'}, allow, ' Let me copy it nevertheless')] : []));
    }
    if (members.length)
        parts.push(el('div', {class: 'buttons'}, ...buttons),
        ...listing(el('ul', {class: 'list', role: 'list'}), members, member =>
        el('li', {}, link(member.split('^')[0], member))));
    return [`${counted(members.length, what)}${missing.length
        ? `, ${counted(missing.length, 'set')} not registered` : ''}.`, parts];
}

// How many objects are of each source, in a view.
function sourceWords(objects) {
    const counts = new Map();
    for (const source of objects.map(sourceOf).filter(Boolean))
        counts.set(source, (counts.get(source) ?? 0) + 1);
    const words = [...counts].map(([source, count]) => `${decimal(count)} of ${source}`);
    return words.length ? ` ${words.join(', ')}.` : '';
}

function grouped(all) {
    const objects = ofSource(all), others = all.length - objects.length;
    const left = others ? ` ${decimal(others)} of other sources left out.` : '';
    const groups =
        KINDS.map(kind => [kind, objects.filter(object => object.kind === kind)]).filter(group =>
        group[1].length);
    const parts =
        groups.flatMap(([kind, ones]) =>
        [el('h2', {}, `${kind} (${decimal(ones.length)})`),
        ...listing(el('div'), ones, objectBox)]);
    return [`${counted(objects.length, 'object')}: ${groups.map(([kind, ones]) =>
        `${decimal(ones.length)} ${kind}`).join(', ') || 'none'}.${sourceWords(objects)}${left}`,
    parts];
}

function showLook(query) {
    const isInside = [$('answer'), $('look-title')].some(
        one => one.contains(document.activeElement)) || document.activeElement === document.body;
    $('words').value = query;
    $('words').setAttribute('aria-invalid', 'false');
    $('answer').replaceChildren();
    $('queries').open = !query;
    look.say('');
    look.end();
    if (!query) return;
    look.run(async signal => {
        const text = await look.query(signal, query), kind = kindOf(text);
        if (kind === 'none' || kind === 'error') {
            $('words').setAttribute('aria-invalid', String(/^% error [12]/.test(text)));
            return look.say(wordsOf(text), kind === 'error');
        }
        const [words, parts] = kind === 'expansion' ? expansion(query, text)
            : grouped(await objectsOf(text, signal));
        if (signal.aborted) return;
        const title = el('h2', {tabindex: '-1'}, `Answer to ${shown(query)}`);
        $('answer').replaceChildren(title, ...parts);
        look.say(words);
        if (isInside) title.focus();
    });
}

addView('look', {show: showLook});
