// Submitting, by a form or as text.
import {Client, Trouble, UNKNOWN, kindOf, objectsOf} from './lib/client.js';
import {allBlocks, closestSpan, decision, lowerNames, routeNames} from './lib/deciding.js';
import {blocksOf, cautionsOf, faultsOf, isUsable, mntnerOf} from './lib/grammar.js';
import {$, counted, el, link, shown} from './lib/nodes.js';
import {
    KINDS, NAME, around, isAs, isMaintainer, isSet, prefixOf, prefixText, setKind, spaceOf, spanOf,
    textOf,
} from './lib/rpsl.js';
import {CODES, TABLE} from './lib/tables.js';
import {addView} from './page.js';

const BODY = 1 << 20;            // bytes of a submission that the registry takes in
const MOST_LINES = 5, MOST_DECIDED = 20;
const NOT_SENT = 'Nothing was sent: read the warnings above the button, and allow it there if ' +
    'you mean it.';
let source;                      // the registry's name

// What the fields of the form take.
const isPrefix = text => Boolean(prefixOf(text)) && text.includes('/');
const isRange = text => /^[^^]+(?:\^(?:[+-]|\d{1,2}(?:-\d{1,2})?))?$/.test(text)
    && isPrefix(text.split('^')[0]);
const isGrants = text =>
    /^name(?: any| \{(?: range)* \})?(?: name(?: any| \{(?: range)* \})?)*$/.test(
    (text.match(/[{}]|[^\s,{}]+/g) || [])
    .map(item => /[{}]/.test(item) ? item : /^any$/i.test(item) ? 'any' : isMaintainer(item)
        ? 'name' : isRange(item) ? 'range' : 'bad').join(' '));
const isBound = item => !item.includes('^')
    || isRange(`0.0.0.0/0^${item.split('^').slice(1).join('^')}`);
const each = check => text => text.split(/[\s,]+/).filter(Boolean).every(check);
const ATTRIBUTES = {
    'auth': ['a password\'s hash, one per line: SHA256-PW, a salt, a colon, 64 digits', text =>
        text.split('\n').every(line => isUsable(line.trim()))],
    'origin': ['the AS that announces it, such as AS64496', isAs],
    'mbrs-by-ref': [
        'maintainers whose objects join by member-of, or ANY: anybody can name one of these in ' +
        'mnt-by, and so join', each(item => isMaintainer(item) || /^any$/i.test(item))],
    'member-of': ['sets that it wants to be in', each(item => isSet(item))],
    'mnt-lower': ['maintainers who may add below it, in place of those in mnt-by',
        each(isMaintainer)],
    'mnt-routes': [
        'maintainers who may add routes, in place of both; after a name {192.0.2.0/24^24-26} or ' +
        'ANY', isGrants],
    'mnt-by': ['maintainers who may change and delete it', each(isMaintainer)],
    'source': ['this registry\'s name', text => NAME.test(text)],
};
const asMember = item => isAs(item) || setKind(item) === 'as' || /^as-any$/i.test(item);
const isGroup = name => isAs(name) || isSet(name) || /^[ar]s-any$/i.test(name);
const rangeMember = item => isRange(item) || (isGroup(item.split('^')[0]) && isBound(item));
const PARENT =
    'the parent: its name without the last component, such as the aut-num AS64496; a name of ' +
    'one component needs none, and the first to register it has it';
// Of each class: a key, what is one, and whose word a new object needs; of sets what members are,
// in words and as a check.
const FORMS = {
    'mntner': ['A-MNT', isMaintainer, ''],
    'as-block': ['AS64496 - AS64511', text => /^\s*as\d+\s*-\s*as\d+\s*$/i.test(text)
        && text.split('-').every(part => isAs(part.trim())),
        'the closest block around it; it may overlap no other block'],
    'aut-num': ['AS64496', isAs, 'the closest as-block around it'],
    'inetnum': ['192.0.2.0 - 192.0.2.255, or 192.0.2.0/24', text =>
        Boolean(spanOf(text)), 'the closest inetnum around it; it may overlap no other inetnum'],
    'route': ['192.0.2.0/24', isPrefix,
        'the origin\'s aut-num, and one for the closest route around it, or for the closest ' +
        'inetnum if there is no such route'],
    'as-set': ['AS64496:AS-CUSTOMERS', text =>
        setKind(text) === 'as', PARENT, 'AS numbers, as-sets, AS-ANY', each(asMember)],
    'route-set': ['AS64496:RS-OUT', text =>
        setKind(text) === 'rs', PARENT,
    'ranges such as 192.0.2.0/24^24-26, AS numbers, sets, each with at most one operator',
    each(rangeMember)],
};

// The form.
const send = new Client('submit', false);
const fields = {};
const isSafe = location.protocol === 'https:'
    || /^(?:localhost|127(?:\.\d{1,3}){3}|\[::1\])$/.test(location.hostname);
const isText = () => $('by-text').checked;

// What is wrong with a field stands below it: a line that is empty until then. `mark` gives
// whether it is wrong.
const faultLine = id => el('p', {id: `fault-${id}`, class: 'fault', hidden: true});

function mark(input, words) {
    const line = $(`fault-${input.id}`);
    line.textContent = words;
    line.hidden = !words;
    input.setAttribute('aria-invalid', String(Boolean(words)));
    return Boolean(words);
}

function passwordField() {
    const number = $('passwords').childElementCount + 1;
    return el('div', {class: 'field tall'},
        el('label', {for: `password-${number}`}, `Password ${number}`),
        el('input', {id: `password-${number}`, type: 'password',
            autocomplete: 'current-password', spellcheck: 'false',
            'aria-describedby': `fault-password-${number}`}),
        faultLine(`password-${number}`));
}

const passwordInputs = () => [...$('passwords').querySelectorAll('input')];

function addPassword(password) {
    const free = passwordInputs().find(input => !input.value || input.value === password);
    if (!free) $('passwords').append(passwordField());
    (free ?? passwordInputs().at(-1)).value = password;
}

// The fields of a class: each with what it takes, and a line for what is wrong with it.
function field(name, needs, about, check, isLong) {
    const input =
        el(isLong ? 'textarea'
        : 'input', {id: `field-${name}`, 'aria-describedby': `about-${name} fault-field-${name}`,
        spellcheck: 'false', autocapitalize: 'none', ...isLong ? {rows: '3'} : {}});
    fields[name] = {input, check, needs};
    if (needs.startsWith('1')) input.setAttribute('aria-required', 'true');
    return el('div', {class: 'field tall', 'data-name': name},
        el('label', {for: `field-${name}`},
        (name === 'other' ? 'other attributes' : name)
        + {'1': '', '1+': ' (one or more)', '0+': ' (if any)'}[needs]),
        input, el('p', {id: `about-${name}`, class: 'hint'}, about), faultLine(`field-${name}`));
}

function showClass() {
    const kind = $('class').value, [example, check, needs, ...members] = FORMS[kind];
    const before = Object.entries(fields).map(([name, {input}]) => [name, input.value]);
    for (const name of Object.keys(fields)) delete fields[name];
    const rows =
        Object.entries(TABLE[kind]).map(([name, [need]]) =>
        field(name, need, ...ATTRIBUTES[name] ?? members, name === 'auth' || name === 'members'));
    const other =
        field('other', '0+',
        'Any other attributes, one per line, such as "descr: Example Networks". They are kept as ' +
        'text and published.',
        text => text.split('\n').every(line => /^(?:[a-z][\w-]{0,63}\s*:|[ \t+])/i.test(line)
            && !/^(?:password|delete)\s*:/i.test(line)), true);
    $('class-needs').textContent =
        `A new one needs a password for its own mnt-by${needs && `, and one for ${needs}`}.`;
    $('attributes').replaceChildren(field(kind, '1', `as ${example}`, check), ...kind === 'mntner'
        ? [digestMaker()] : [], other, ...rows);
    // What was written for another class stays where this one has the same attribute.
    for (const [name, value] of before)
        if (name in fields && name !== 'members') fields[name].input.value = value;
    preview();
}

async function digestOf(text) {
    const digest = await crypto.subtle.digest('SHA-256', new TextEncoder().encode(text));
    const bytes = Array.from(new Uint8Array(digest));
    return bytes.map(byte => byte.toString(16).padStart(2, '0')).join('');
}

// What NIST asks of a password that stands alone (SP 800-63B).
const LEAST = 15;

// Makes an auth line of a password, which stays in the password fields. If it is short, the button
// has to be pressed twice.
function digestMaker() {
    let short = '';
    const input =
        el('input', {id: 'new-password', type: 'password', autocomplete: 'new-password',
        'aria-describedby': 'about-new fault-new-password'});
    const make = async () => {
        const salt =
            Array.from(crypto.getRandomValues(new Uint8Array(8)), byte =>
            (byte % 16).toString(16)).join('');
        const line = `SHA256-PW ${salt}:${await digestOf(salt + input.value)}`;
        fields.auth.input.value = [fields.auth.input.value.trim(), line].filter(Boolean).join('\n');
        addPassword(input.value);
        input.value = '';
        send.say('The auth line is made, and the password is in a field below.');
        preview();
    };
    return el('fieldset', {}, el('legend', {}, 'A new password for it'),
        el('div', {class: 'field tall'}, el('label', {for: 'new-password'}, 'New password'), input,
        el('p', {id: 'about-new', class: 'hint'},
            'The registry keeps a salted SHA-256 hash of it, which is made on this page. Anybody ' +
            'who obtains the hash can try billions of passwords a second, so use a long random ' +
            'one.'), faultLine('new-password')),
        el('button', {type: 'button', click: () => {
            const fault = !isSafe ? 'Without TLS no password is accepted.' : faultOf(input.value)
                || (input.value ? '' : 'Enter the new password first.')
                || (input.value.length >= LEAST || input.value === short ? ''
                    : `A password of fewer than ${LEAST} characters is soon found from its ` +
                    'hash. To use it nevertheless, press the button again.');
            short = input.value;
            if (!mark(input, fault)) return make();
            send.say(fault, true);
            input.focus();
        }}, 'Make its auth line'));
}

const coded = text => text.split('`').map((part, place) => place % 2 ? el('code', {}, part) : part);
const faultOf = password => password !== password.trim()
    ? 'A password must not begin or end with a space or tab: the registry removes these.' :
    /[\x00-\x1f\x7f]/.test(password) ? 'A password must not have control characters.' : '';
const attributeLine = (name, value) => `${`${name}:`.padEnd(15)} ${value}`;

function composed() {
    const kind = $('class').value,
        values = name =>
        (fields[name]?.input.value ?? '').split('\n').map(line => line.trimEnd()).filter(Boolean);
    const lines = name => values(name).map(value => attributeLine(name, value.trim()));
    if ($('delete').checked)
        return [...lines(kind), ...lines('origin'), attributeLine('delete', 'yes')].join('\n')
        + '\n';
    const others = Object.keys(TABLE[kind]).filter(name => name !== 'origin');
    return [...lines(kind), ...lines('origin'), ...values('other'),
        ...others.flatMap(lines)].join('\n') + '\n';
}

const preview = () => { $('preview').textContent = composed(); };

// Marks each field that has a fault, and gives the first one.
function faultyField() {
    const kind = $('class').value, isDeletion = $('delete').checked;
    const wrong = Object.entries(fields).filter(([name, {input, check, needs}]) => {
        const value = input.value.trim(),
            isAsked = !isDeletion || name === kind || name === 'origin';
        return mark(input, !isAsked ? '' : !value ? needs.startsWith('1') ? `${name} is needed.`
            : '' : check(value) ? ''
            : `This is not a valid value of ${name === 'other' ? 'these attributes' : name}.`);
    });
    return wrong[0]?.[1].input;
}

const PASSWORD = /^password[ \t\r]*:[ \t\r]*(.*)(?:\n|$)/gim;

// A text has no passwords in it, since everybody near may read a text.
function lookAtText() {
    const found = [...$('text').value.matchAll(PASSWORD)];
    $('move-passwords').hidden = !mark($('text'), found.length
        ? `The text has ${counted(found.length,
        'password')} in it, for all to read: move it into its field.` : '');
    return found;
}

// Puts an object below what the text has, and shows the text.
function addText(object) {
    $('text').value = [$('text').value.trimEnd(), object].filter(Boolean).join('\n\n');
    $('by-text').checked = true;
    showHow();
}

// Puts an object in place of what the text has, to be changed.
function change(object) {
    const hides = object.attributes.some(given => given[0] === 'auth');
    $('text').value = '';
    addText(object.text.split('\n').filter(line => !/^auth:/.test(line)).join('\n') + '\n');
    send.say(hides
        ? 'Answers hide the auth lines: enter all of them, or the registry refuses the mntner.'
        : 'Change the text, and give the password of its mnt-by.');
}

function showHow() {
    $('form-part').hidden = isText();
    $('text-part').hidden = !isText();
    lookAtText();
}

const ITEM =
    /^(\d+) (?:(-)|([a-z-]+) (.+)): (?:(added|changed|unchanged|deleted)|refused (E\d\d))$/;
const ENDS =
    [[/^% items (\d+)$/, ''],
    [/^% read fault after (\d+) items$/,
    'The rest of the text did not arrive. Send what follows this item again.'],
    [/^% stopped after (\d+) items$/,
        'The registry\'s database failed, and the rest was not read. Report it to the operator, ' +
        'and send that item and the rest again later.'],
    [/^% memory after (0) items$/,
        'The registry ran out of memory, and nothing was done. Send it again later.']];

// What to look at after a refusal, asked from the registry.
function hints(code, kind, key) {
    const span = spaceOf(kind, key?.split(' AS')[0]), block = span && prefixText(around(span)),
        parent = key?.split(':').slice(0, -1).join(':');
    const queries =
        {E11: [`object ${kind} ${key}`], E12: [block && `closest ${block}`],
        E13: [block && `closest ${block}`, kind?.endsWith('-set') && parent],
        E15: [key?.split(' ')[1]],
        E16: span ? [`less ${textOf(span.first)}`, `less ${textOf(span.last)}`]
            : [], E17: [`inverse mnt ${key}`], E18: [block && `exact ${block}`]}[code] ?? [];
    return key ? queries.filter(Boolean) : [];
}

// What looks like a mistake; what is grave is sent only once it is said to be meant.
let meant = '';

function showCautions(found, text) {
    const box = $('cautions'), isGrave = found.some(one => one.isGrave);
    const allow = el('input', {
        type: 'checkbox', id: 'anyway', change: () => { meant = allow.checked ? text : ''; },
    });
    allow.checked = isGrave && meant === text;
    box.hidden = !found.length;
    box.replaceChildren(
        el('ul', {}, ...found.map(one => el('li', {}, ...coded(shown(lineWords(one)))))),
        ...isGrave ? [el('label', {class: 'check'}, allow, ' Send it nevertheless')] : []);
    return isGrave && meant !== text;
}

const lineWords = ({line, attribute, words}) =>
    `Line ${line}, \`${attribute}\`: ${words}${words.endsWith('?') ? '' : '.'}`;

async function objectsAt(signal, query) {
    const text = await send.query(signal, query);
    return kindOf(text) === 'objects' ? objectsOf(text, signal) : [];
}

// The mntners of a text that change themselves so that no password given here would fit any more,
// or that others alone could change them. An item may be refused: what is registered counts beside
// what those before it make of one.
async function lockouts(signal, blocks, passwords) {
    const found = [], own = new Set();
    for (const block of passwords.length ? blocks : []) {
        const mntner = mntnerOf(block);
        if (!mntner?.auths.length || faultsOf(block).length) continue;
        const {name, line, holders} = mntner;
        const wasOwn = own.has(name), isOwn = holders.includes(name);
        if (isOwn) own.add(name);
        if (isOwn && await fits(mntner.auths, passwords)) continue;
        const old = wasOwn ? [name] : (await objectsAt(signal, `object mntner ${name}`))
            .flatMap(object => object.holders.map(holder => holder.toUpperCase()));
        if (!old.includes(name)) continue;
        const others = holders.filter(holder => holder !== name);
        const what = isOwn ? 'no password that is given here fits the new `auth`'
            : 'it no longer maintains itself';
        const rest = others.length ? `then ${others.join(', ')} alone may change it`
            : 'give its new password too';
        found.push({
            line, attribute: 'mntner', words: `${what}; ${rest}`, isGrave: !others.length,
        });
    }
    return found;
}

// Whether one of the passwords fits one of the hashes, each a salt, a colon and a digest.
async function fits(auths, passwords) {
    for (const auth of auths) {
        const [salt, digest] = auth.split(':');
        const digests = await Promise.all(passwords.map(word => digestOf(salt + word)));
        if (digests.includes(digest.toLowerCase())) return true;
    }
    return false;
}

// What decided about items that were refused E13 or E15, as the registry is now.
async function showDecisions(signal, items, boxes) {
    const refused = items.map((item, at) => [item, boxes[at]])
        .filter(([item]) => ['E13', 'E15'].includes(item[6]) && item[4]);
    for (const [[, , , kind, key, , code], box] of refused.slice(0, MOST_DECIDED)) {
        const found = await deciders(signal, code, kind, key).catch(() => []);
        box.append(...found.map(words => el('p', {class: 'decides'}, shown(words))));
    }
}

async function deciders(signal, code, kind, key) {
    const [text, origin] = key.split(' AS'), ask = query => objectsAt(signal, query);
    if (kind === 'route') {
        const prefix = prefixOf(text), of = object => routeNames(object, prefix);
        if (code === 'E15') {
            return (await ask(`object aut-num AS${origin}`)).map(
                found => decision(found, of(found), `a route ${text} of it`));
        }
        const near = (await ask(`closest ${text}`)).filter(found => found.key !== key);
        const routes = near.filter(found => found.kind === 'route');
        return (routes.length ? routes : near).map(
            found => decision(found, of(found), `a route ${text}`));
    }
    const below = found => decision(found, lowerNames(found), 'below it');
    if (kind.endsWith('-set')) return (await ask(key.split(':').slice(0, -1).join(':'))).map(below);
    const near = kind === 'inetnum'
        ? (await ask(`less ${textOf(spanOf(key).first)}`)).filter(found => found.kind === kind)
        : await allBlocks(signal);
    return closestSpan(near, kind, key).map(below);
}

function itemBox([, number, none, kind, key, word, code], block) {
    const lines = code && block
        ? faultsOf(block, source).filter(one => one.code === code).slice(0, MOST_LINES) : [];
    const [sentence, remedy] = CODES[code]
        ?? ['This page does not know this code.', 'Ask the operator.'],
        queries = hints(code, kind, key);
    return el('li', {class: word ?? 'refused'},
        `${number}. `, ...none ? []
            : [`${kind} `, link(`object ${kind} ${key}`, key), ': '],
        el('span', {class: 'word'}, word ?? `refused ${code}`),
        ...none && block ? [el('pre', {}, shown(block.lines[0][1].slice(0, 200)))] : [],
        ...lines.map(one => el('p', {class: 'fault'}, ...coded(shown(lineWords(one))))),
        ...code ? [el('p', {}, ...coded(sentence)),
            el('p', {}, el('b', {}, 'What helps: '), ...coded(remedy))] : [],
        ...queries.length
            ? [el('p', {}, 'Look at: ', ...queries.flatMap(query => [link(query), ' ']))] : []);
}

function report(signal, text, blocks) {
    const lines = text.split('\n').slice(0, -1), last = lines.at(-1) ?? '',
        end = ENDS.find(([form]) => form.test(last)),
        items = lines.slice(0, end ? -1 : undefined).map(line => ITEM.exec(line));
    if (items.some(item => !item))
        throw new Trouble(`The server is not a registry of this kind.${UNKNOWN}`);
    const isWhole = end && text.endsWith('\n')
        && Number(end[0].exec(last)[1]) + (/stopped/.test(last) ? 1 : 0) === items.length
        && items.every((item, at) => Number(item[1]) === at + 1);
    const isMatched = items.length === blocks.length;
    const boxes = items.map((item, at) => itemBox(item, isMatched && blocks[at]));
    const list = el('ol', {class: 'items', role: 'list'}, ...boxes);
    const counts =
        ['added', 'changed', 'unchanged', 'deleted', 'refused'].map(word =>
        [items.filter(item => (item[5] ?? 'refused') === word).length, word]).filter(pair =>
        pair[0]);
    const words =
        `${counted(items.length, 'item')}: ${counts.map(pair => pair.join(' ')).join(', ')
        || 'nothing was in the text'}.`;
    const trouble = !isWhole
        ? `The report was cut off after ${counted(items.length, 'item')}.${UNKNOWN}` : end[1];
    $('report').replaceChildren(el('h2', {tabindex: '-1'}, 'Report'), ...trouble
        ? [el('p', {class: 'warn'}, trouble)] : [], list);
    send.say(trouble ? `${words} ${trouble}` : words, Boolean(trouble)
        || items.some(item => item[6]));
    $('report').firstChild.focus();
    return showDecisions(signal, items, boxes);
}

function submit() {
    const passwords = passwordInputs().map(input => input.value).filter(Boolean);
    const stop = (words, place) => { send.say(words, true); place?.focus(); };
    if (!isSafe) return;
    if (isText() ? lookAtText().length : false)
        return stop($('fault-text').textContent, $('move-passwords'));
    const wrong = isText() ? null : faultyField();
    if (wrong) return stop('A field has a fault: see the line below it.', wrong);
    const text = isText() ? $('text').value.replaceAll('\r\n', '\n') : composed(),
        blocks = blocksOf(text);
    if (!blocks.length) return stop('There is nothing to submit.', $('text'));
    const [bad] = passwordInputs().filter(input => mark(input, faultOf(input.value)));
    if (bad) return stop(faultOf(bad.value), bad);
    const body =
        passwords.map(password => `password: ${password}\n`).join('')
        + (passwords.length ? '\n' : '') + text;
    if (new TextEncoder().encode(body).length > BODY)
        return stop('The text is over 1,048,576 bytes, which is more than the registry accepts ' +
        'at once: send it in parts.', $('text'));
    $('report').replaceChildren();
    send.say('');
    $('send').disabled = true;
    send.run(async signal => {
        const locked = await lockouts(signal, blocks, passwords);
        const cautions = [...blocks.flatMap(cautionsOf), ...locked];
        if (showCautions(cautions, text)) return stop(NOT_SENT, $('anyway'));
        for (const input of passwordInputs()) input.value = '';
        await report(signal, (await send.ask(signal, '/submissions', body)).text, blocks);
    }).finally(() => {
        $('send').disabled = !isSafe;
        if (document.activeElement === document.body) $('send').focus();
    });
}

async function showSubmit() {
    const warning = $('without-tls');
    warning.hidden = isSafe;
    if (!isSafe)
        warning.textContent =
        'This page came without TLS from another machine, so anybody on the path could read your ' +
        'passwords, and could have changed this page. Nothing can be submitted from here: use ' +
        'the address with https.';
    $('send').disabled = !isSafe;
    if (fields.source.input.value) return;
    // The registry's name is that of the inetnum of all addresses.
    const found = await send.query(new AbortController().signal, 'exact 0.0.0.0/0').catch(() => '');
    source = /^source:[ \t]+(\S+)$/m.exec(found)?.[1]?.toUpperCase();
    if (source && !fields.source.input.value) fields.source.input.value = source;
    preview();
}

$('class').append(...KINDS.map(kind => el('option', {value: kind}, kind)));
$('class').addEventListener('change', showClass);
$('submit-form').addEventListener('input', () => { preview(); lookAtText(); });
$('submit-form').addEventListener('submit', event => { event.preventDefault(); submit(); });
for (const name of ['by-form', 'by-text']) $(name).addEventListener('change', showHow);
$('to-text').addEventListener('click', () => { addText(composed()); $('text').focus(); });
$('move-passwords').addEventListener('click', () => {
    for (const found of lookAtText()) addPassword(found[1].trim());
    $('text').value = $('text').value.replace(PASSWORD, '');
    lookAtText();
    $('text').focus();
});
$('more-passwords').addEventListener('click',
    () => { $('passwords').append(passwordField()); passwordInputs().at(-1).focus(); });
$('passwords').append(passwordField());
showClass();
addView('submit', {show: showSubmit, change});
