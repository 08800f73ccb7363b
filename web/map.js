// The map: the boxes of the prefix that was asked for, and the one prefix of it that is shown.
import {
    Client, STRANGE, Trouble, breather, kindOf, objectsOf, wordsOf,
} from './lib/client.js';
import {$, addressOf, counted, decimal, el, link, listing, mapLink, shown} from './lib/nodes.js';
import {around, blockOf, lastOf, prefixOf, prefixText, spanOf} from './lib/rpsl.js';
import {ofSource} from './lib/served.js';
import {addView} from './page.js';

const map = new Client('map');
const canvas = $('canvas');
const isDark = matchMedia('(prefers-color-scheme: dark)');
const space =
    {root: null, boxes: [], shown: null, inside: [], kinds: {}, chosen: -1, drawings: 0,
    picture: el('canvas')};

function hueOf(name) {
    let sum = 7;
    for (const letter of name) sum = (sum * 31 + letter.charCodeAt(0)) >>> 0;
    return Math.round(sum * 137.508 % 360);
}

const colourOf = name => `hsl(${hueOf(name)} ${isDark.matches ? '38% 27%' : '62% 83%'})`;
const isShown = object => space.kinds[object.kind];
const isInetnum = object => object.kind === 'inetnum';

// Where a prefix lies in the square of the root, of side 1: each bit halves the place, by height
// and by width in turn.
function placeOf(prefix, root) {
    let x = 0, y = 0, w = 1, h = 1;
    for (let bit = root.length; bit < prefix.length; bit += 1) {
        const isSecond = prefix.first >>> 31 - bit & 1;
        if ((bit - root.length) % 2) {
            w /= 2;
            x += isSecond * w;
        } else {
            h /= 2;
            y += isSecond * h;
        }
    }
    return {x, y, w, h};
}

function addressAt(x, y, root) {
    let address = root.first;
    for (let bit = root.length; bit < 32; bit += 1) {
        const isWide = (bit - root.length) % 2, at = (isWide ? x : y) * 2;
        if (at >= 1) address += 2 ** (31 - bit);
        if (isWide) x = at % 1; else y = at % 1;
    }
    return address;
}

// The prefixes that make up a span.
function blocksOf(span) {
    const blocks = [];
    for (let first = span.first; first <= span.last; first = lastOf(blocks.at(-1)) + 1) {
        let length = first ? 32 - Math.min(31, 31 - Math.clz32(first & -first)) : 0;
        while (lastOf({first, length}) > span.last) length += 1;
        blocks.push({first, length});
    }
    return blocks;
}

// One box a span, with its objects: in order of addresses, the larger ones first.
class Box {
    constructor({first, last}, object) {
        this.first = first;
        this.last = last;
        this.objects = [object];
    }

    // The smallest prefix round it, and the prefixes that make it up.
    get prefix() { return around(this); }
    get blocks() {
        const {prefix} = this;
        return lastOf(prefix) === this.last ? [prefix] : blocksOf(this);
    }
}

async function boxesOf(objects, signal) {
    const breathe = breather(signal), boxes = [];
    for (const [at, object] of objects.entries()) {
        const span = spanOf(object.name);
        if (!span) throw new Trouble(STRANGE);
        boxes.push(new Box(span, object));
        if (at % 200 === 0) await breathe();
    }
    boxes.sort((one, other) => one.first - other.first || other.last - one.last);
    await breathe();
    let latest = null;
    return boxes.filter(box => {
        const isNew = box.first !== latest?.first || box.last !== latest.last;
        if (isNew) latest = box; else latest.objects.push(box.objects[0]);
        return isNew;
    });
}

const namesOf = box =>
    [...new Set(box.objects.filter(isShown).flatMap(object => object.kind === 'route'
    ? object.meaning('origin') : object.holders))].join(' ');

const colours = () => isDark.matches
    ? {ink: '#e6e8ea', page: '#1e2125', edge: '#868d96', route: '#f3c76b'}
    : {ink: '#1c1e21', page: '#ffffff', edge: '#767c85', route: '#7a4b00'};
const placesOf = box => box.blocks.map(block => placeOf(block, space.shown));

const sizeOf = () => Math.round(canvas.clientWidth * (devicePixelRatio || 1));

// Small boxes are put in as pixels, over the larger ones, which are drawn: the small ones may be a
// hundred thousand.
async function draw(turn = space.drawings += 1) {
    const breathe = breather({aborted: false}), scale = devicePixelRatio || 1,
        side = canvas.clientWidth;
    if (!side) return;
    const pen = canvas.getContext('2d'), {ink, page, edge, route} = colours(), labels = [],
        known = new Map();
    const size = canvas.width = canvas.height = space.picture.width = space.picture.height =
        sizeOf();
    const dots = pen.createImageData(size, size), pixels = new Uint32Array(dots.data.buffer);
    pen.scale(scale, scale);
    pen.font = '11px ui-monospace, "DejaVu Sans Mono", monospace';
    pen.textBaseline = 'top';
    pen.lineJoin = 'round';
    // A maintainer's colour as a pixel, whose bytes are red, green, blue and opaque.
    const pixelOf = holder => {
        if (!known.has(holder)) {
            pen.fillStyle = colourOf(holder);
            const [red, green, blue] =
                pen.fillStyle.match(/[0-9a-f]{2}/g).map(digits => parseInt(digits, 16));
            known.set(holder, new Uint32Array(new Uint8Array([red, green, blue, 255]).buffer)[0]);
        }
        return known.get(holder);
    };
    // Which box is seen in each square of 8 points: the last one drawn there.
    const letter = pen.measureText('0').width, columns = Math.ceil(side / 8) + 1,
        seen = new Int32Array(columns * columns).fill(-1);
    const cells = (x, y, w, h) => [x, y, x + w, y + h].map(at => Math.floor(at / 8));
    const pixelAt = at => Math.floor(at * size);
    for (const [at, box] of space.inside.entries()) {
        if (at % 50 === 0) await breathe();
        if (turn !== space.drawings) return;
        const holder = space.kinds.inetnum && box.objects.find(isInetnum),
            isRouted = space.kinds.route && !box.objects.every(isInetnum);
        if (!holder && !isRouted) continue;
        const [fill] = (holder || box.objects[0]).holders;
        for (const place of placesOf(box)) {
            const x = place.x * side, y = place.y * side, w = place.w * side, h = place.h * side;
            if (Math.min(w, h) < 5) {
                const left = pixelAt(place.x),
                    right = Math.max(left + 1, pixelAt(place.x + place.w)), top = pixelAt(place.y),
                    pixel = pixelOf(fill);
                for (let row = top; row === top || row < pixelAt(place.y + place.h); row += 1)
                    pixels.fill(pixel, row * size + left, row * size + right);
                seen[Math.floor(y / 8) * columns + Math.floor(x / 8)] = at;
                continue;
            }
            const [left, top, right, bottom] = cells(x, y, w - 1, h - 1);
            for (let row = top; row <= bottom; row += 1)
                seen.fill(at, row * columns + left, row * columns + right + 1);
            pen.fillStyle = colourOf(fill);
            if (holder) pen.fillRect(x, y, w, h);
            pen.lineWidth = 1;
            pen.strokeStyle = edge;
            if (holder) pen.strokeRect(x + .5, y + .5, w - 1, h - 1);
            pen.lineWidth = 2;
            pen.strokeStyle = route;
            if (isRouted) pen.strokeRect(x + 2.5, y + 2.5, w - 5, h - 5);
            if (w > 9 * letter && h > 19)
                labels.push({x: x + 5, y: y + 5, w: w - 10, end: y + h - 14, at, box});
        }
    }
    space.picture.getContext('2d').putImageData(dots, 0, 0);
    pen.drawImage(space.picture, 0, 0, side, side);
    // The smallest boxes are named first; a larger one in a line where nothing else is seen, or
    // else in one without a name.
    pen.fillStyle = ink;
    const taken = [];
    const isFree = (x, y, right) =>
        !taken.some(other => other.x < right && x < other.right && other.y < y + 13
        && y < other.y + 13);
    const isOwn = (x, y, right, at) => {
        const [left, top, end, bottom] = cells(x, y, right - x, 11);
        for (let row = top; row <= bottom; row += 1)
            for (let column = left; column <= end; column += 1)
            if (seen[row * columns + column] !== at) return false;
        return true;
    };
    for (const label of labels.sort((one, other) =>
        one.w * (one.end - one.y) - other.w * (other.end - other.y))) {
        const text =
            shown(`${label.box.objects[0].name} ${namesOf(label.box)}`).slice(0,
            Math.floor(label.w / letter)), right = label.x + text.length * letter;
        const lines = [];
        for (let y = label.y; y <= label.end && lines.length < 60; y += 13) lines.push(y);
        const y = lines.find(line => isFree(label.x, line, right)
            && isOwn(label.x, line, right, label.at))
            ?? lines.find(line => isFree(label.x, line, right));
        if (y === undefined) continue;
        pen.lineWidth = 3;
        pen.strokeStyle = page;
        pen.strokeText(text, label.x, y);
        pen.fillText(text, label.x, y);
        taken.push({x: label.x, y, right});
    }
    space.picture.getContext('2d').drawImage(canvas, 0, 0);
    canvas.dataset.drawn = prefixText(space.shown);
}

const wordsOfBox = box => shown(box.objects.filter(isShown).map(object =>
    `${object.kind} ${object.key}, ${object.holders.join(' ')}`).join('; '));

// Gives a screen reader the map as a list, of which it has one box: the first, or the chosen one.
function offer(boxes) {
    const at = Math.max(0, space.chosen), isChosen = space.chosen >= 0;
    canvas.setAttribute('role', boxes.length ? 'listbox' : 'img');
    canvas.replaceChildren(...boxes.slice(at, at + 1).map(box => el('div', {
        id: `box-${at}`, role: 'option', 'aria-selected': String(isChosen),
        'aria-posinset': String(at + 1), 'aria-setsize': String(boxes.length),
    }, wordsOfBox(box))));
    if (isChosen) canvas.setAttribute('aria-activedescendant', `box-${at}`);
    else canvas.removeAttribute('aria-activedescendant');
}

// Points at a box: on the canvas, and in words.
function point(box, isMarked) {
    if (isMarked) {
        const pen = canvas.getContext('2d'), scale = devicePixelRatio || 1,
            side = canvas.width / scale;
        pen.setTransform(1, 0, 0, 1, 0, 0);
        pen.drawImage(space.picture, 0, 0);
        pen.scale(scale, scale);
        pen.lineWidth = 4;
        pen.strokeStyle = colours().ink;
        for (const place of placesOf(box))
            pen.strokeRect(place.x * side + 2, place.y * side + 2, Math.max(3, place.w * side - 4),
            Math.max(3, place.h * side - 4));
    }
    $('pointed').textContent = box ? wordsOfBox(box) : '';
}

const isBoxShown = box => box.objects.some(isShown);
const hit = event =>
    addressAt(event.offsetX / canvas.clientWidth, event.offsetY / canvas.clientHeight, space.shown);
const boxesAt = address =>
    space.inside.filter(box => box.first <= address && address <= box.last && isBoxShown(box));
const zoom = prefix => { location.hash = addressOf('map', prefixText(prefix)); };

// To the largest box under the pointer, or to the sixteenth of the square that it lies in where it
// is small there.
function clicked(event) {
    const address = hit(event),
        box = boxesAt(address).find(one => one.prefix.length > space.shown.length);
    if (!box) return point(boxesAt(address).at(-1), false);
    zoom(box.prefix.length <= space.shown.length + 8 ? box.prefix
        : blockOf(address, space.shown.length + 4));
}

function prefixesAround(prefix) {
    const lengths =
        new Set([0, 8, 16, 24,
        ...space.boxes.filter(box => box.first <= prefix.first
        && lastOf(prefix) <= box.last).map(box => box.prefix.length)]);
    return [...lengths].filter(length => length < prefix.length).sort((one, other) =>
        one - other).map(length => blockOf(prefix.first, length));
}

function keyed(event) {
    const step = {ArrowRight: 1, ArrowDown: 1, ArrowLeft: -1, ArrowUp: -1}[event.key],
        boxes = space.inside.filter(isBoxShown);
    if (event.key === 'Escape' && prefixesAround(space.shown).length)
        zoom(prefixesAround(space.shown).at(-1));
    else if (event.key === 'Enter' && boxes[space.chosen]) zoom(boxes[space.chosen].prefix);
    else if (step && boxes.length) {
        space.chosen = space.chosen < 0 ? 0 : (space.chosen + step + boxes.length) % boxes.length;
        point(boxes[space.chosen], true);
        offer(boxes);
    } else return;
    event.preventDefault();
}

async function present(prefix) {
    const turn = space.drawings += 1, breathe = breather({aborted: false}), last = lastOf(prefix),
        name = prefixText(prefix);
    space.shown = prefix;
    space.chosen = -1;
    space.kinds = {inetnum: $('with-inetnums').checked, route: $('with-routes').checked};
    space.inside = space.boxes.filter(box => prefix.first <= box.first && box.last <= last);
    const objects = [], holders = new Map();
    for (const [at, box] of space.inside.entries()) {
        objects.push(...box.objects.filter(isShown));
        const [holder] = (space.kinds.inetnum && box.objects.find(isInetnum))?.holders ?? [];
        if (holder) holders.set(holder, (holders.get(holder) ?? 0) + 1);
        if (at % 100 === 0) await breathe();
        if (turn !== space.drawings) return;
    }
    const inetnums = objects.filter(isInetnum).length;
    const counts =
        `${counted(inetnums, 'inetnum')} and ${counted(objects.length - inetnums, 'route')}`;
    const words = objects.length ? `${counts} inside ${name}`
        : `Nothing is registered inside ${name}`;
    const largest = [...holders].sort((one, other) => other[1] - one[1]).slice(0, 12);
    const holderItem = ([holder, number]) => {
        const swatch = el('span', {class: 'swatch'});
        swatch.style.background = colourOf(holder);
        return el('li', {}, swatch, link(holder), ` ${counted(number, 'inetnum')}`);
    };
    $('legend').replaceChildren(
        el('ul', {class: 'legend', role: 'list'}, ...largest.map(holderItem)),
        ...holders.size > 12 ? [`and ${counted(holders.size - 12, 'other maintainer')}`] : []);
    const head =
        el('tr', {},
        ...['Prefix or range', 'Class', 'Origin', 'Maintainers', 'Addresses'].map(text =>
        el('th', {scope: 'col'}, text)));
    const row = object => {
        const span = spanOf(object.name), box = around(span);
        return el('tr', {}, el('th', {scope: 'row'}, mapLink(box, shown(object.name))),
            el('td', {}, link(`object ${object.kind} ${object.key}`, object.kind)),
            el('td', {}, ...object.kind === 'route' ? [link(object.meaning('origin'))] : []),
            el('td', {}, ...object.holders.flatMap(holder => [link(holder), ' '])),
                el('td', {class: 'number'}, decimal(span.last - span.first + 1)));
    };
    const [body, ...more] = listing(el('tbody'), objects, row);
    $('listed').replaceChildren(el('table', {},
        el('caption', {}, `${words}, in order of addresses.`), el('thead', {}, head), body),
        ...more);
    $('above').replaceChildren(...prefixesAround(prefix).flatMap(each =>
        [mapLink(each), ' › ']), el('b', {'aria-current': 'location'}, name));
    canvas.setAttribute('aria-label', `Map of ${name}: ${counts}`);
    offer(space.inside.filter(isBoxShown));
    $('map-shown').hidden = false;
    point(null, false);
    map.say(`${words}.`);
    await draw(turn);
}

// Shows a prefix. Who was at a part of the old map goes on there, or at the table if it is gone.
function showMap(given, isAnew = false) {
    const prefix = prefixOf(given), held = document.activeElement;
    const isInside = $('map-shown').contains(held);
    const goOn = () => {
        if (isInside && document.activeElement === document.body)
            (held.isConnected ? held : $('listed')).focus();
    };
    $('prefix').value = given;
    $('prefix').setAttribute('aria-invalid', String(Boolean(given && !prefix)));
    if (prefix && space.root && !isAnew && space.root.first <= prefix.first
        && lastOf(prefix) <= lastOf(space.root)) return present(prefix).then(goOn);
    map.end();
    space.root = null;
    space.drawings += 1;
    delete canvas.dataset.drawn;
    $('map-shown').hidden = true;
    map.say(given && !prefix
        ? 'This is not a prefix: write four numbers and a length, as 192.0.2.0/24.' : '', true);
    if (!prefix) return $('prefix').focus();
    map.run(async signal => {
        const text = await map.query(signal, `more ${prefixText(prefix)}`), kind = kindOf(text);
        if (kind === 'error') throw new Trouble(wordsOf(text));
        const objects = kind === 'objects' ? ofSource(await objectsOf(text, signal)) : [];
        const boxes = await boxesOf(objects, signal);
        if (signal.aborted) return;
        Object.assign(space, {root: prefix, boxes});
        await present(prefix);
        goOn();
    });
}

canvas.addEventListener('click', clicked);
canvas.addEventListener('keydown', keyed);
canvas.addEventListener('pointermove',
    event => { if (space.inside.length) point(boxesAt(hit(event)).at(-1), false); });
for (const place of [isDark, $('with-inetnums'), $('with-routes')])
    place.addEventListener('change', () => { if (space.root) present(space.shown); });
addEventListener('resize',
    () => { if (space.root && !$('map').hidden && canvas.width !== sizeOf()) draw(); });
addView('map', {show: showMap});
