// Run in the page as the body of a function: what of the page as it stands breaks WCAG 2.2 AA, each
// after the number of its criterion; and how many texts, fields and targets were looked at.
const found = [];
const all = (selector, root = document) => [...root.querySelectorAll(selector)]
    .filter(one => one.checkVisibility());
const told = one => `${one.tagName.toLowerCase()}${one.id && `#${one.id}`} ` +
    `"${(one.getAttribute("aria-label") ?? one.textContent).trim().slice(0, 40)}"`;
const bad = (criterion, one, words) => found.push(`${criterion}: ${told(one)} ${words}`);
const named = (one, attribute) => (one.getAttribute(attribute) ?? "").split(" ").filter(Boolean);

// 1.4.3 and 1.4.11: contrast, from computed styles.
const parse = text => {
    const [r, g, b, a = 1] = text.match(/[\d.]+/g).map(Number);
    return [r, g, b, a];
};
const linear = part => {
    const c = part / 255;
    return c <= .03928 ? c / 12.92 : ((c + .055) / 1.055) ** 2.4;
};
const luminance = ([r, g, b]) => .2126 * linear(r) + .7152 * linear(g) + .0722 * linear(b);
const behind = start => {
    for (let one = start; one; one = one.parentElement) {
        const colour = parse(getComputedStyle(one).backgroundColor);
        if (colour[3] === 1) return colour;
    }
    return matchMedia("(prefers-color-scheme: dark)").matches ? [0, 0, 0] : [255, 255, 255];
};
const ratioOf = (one, other) => {
    const [light, low] = [luminance(one), luminance(other)].sort((a, b) => b - a);
    return (light + .05) / (low + .05);
};
const fields = all("input, textarea, select");
let texts = 0;
for (const one of all("body *")) {
    const hasText = [...one.childNodes].some(node => node.nodeType === 3 && node.data.trim());
    if (one.disabled || !hasText && !fields.includes(one)) continue;
    const style = getComputedStyle(one), size = parseFloat(style.fontSize);
    const isLarge = size >= 24 || size >= 18.66 && style.fontWeight >= 700;
    const ratio = ratioOf(parse(style.color), behind(one));
    texts += 1;
    if (ratio < (isLarge ? 3 : 4.5)) bad("1.4.3", one, `has a contrast of ${ratio.toFixed(2)}`);
    if (one.placeholder && !one.value) {
        const hint = ratioOf(parse(getComputedStyle(one, "::placeholder").color), behind(one));
        if (hint < 4.5) bad("1.4.3", one, "has a pale placeholder");
    }
}
for (const one of all("button:enabled, input:not([type=checkbox], [type=radio]), textarea, " +
    "select, canvas")) {
    const edge = parse(getComputedStyle(one).borderTopColor);
    if (ratioOf(edge, behind(one.parentElement)) < 3) bad("1.4.11", one, "has a pale edge");
}

// 2.5.8: targets of 24 by 24 points, or so far apart; links within a line of text are left out.
const targets = all("a[href], button, input, select, textarea, summary, canvas").map(one => {
    const holder = one.labels?.length && /checkbox|radio/.test(one.type) ? one.labels[0] : one;
    const box = holder.getBoundingClientRect();
    return {one, box, x: box.left + box.width / 2, y: box.top + box.height / 2,
        isSmall: Math.min(box.width, box.height) < 24};
});
const isInline = one => one.matches("p:not(.also) a, dd a, .warn a, #legend a");
const gap = (x, y, box) => Math.hypot(
    Math.max(box.left - x, 0, x - box.right), Math.max(box.top - y, 0, y - box.bottom));
for (const {one, x, y, isSmall} of targets) {
    if (!isSmall || isInline(one)) continue;
    const near = targets.find(other => other.one !== one && (gap(x, y, other.box) < 12 ||
        other.isSmall && !isInline(other.one) && Math.hypot(other.x - x, other.y - y) < 24));
    if (near) bad("2.5.8", one, `is small, and beside ${told(near.one)}`);
}

// 1.3.1, 2.4.6 and 3.3.2: headings, labels and lists; 3.1.1 and 2.4.2: language and title.
const levels = all("h1, h2, h3, h4, h5, h6").map(one => Number(one.tagName[1]));
if (levels.filter(level => level === 1).length !== 1 || levels[0] !== 1) {
    found.push(`1.3.1: headings ${levels}`);
}
levels.forEach((level, at) => {
    if (level - (levels[at - 1] ?? 0) > 1) found.push(`1.3.1: headings ${levels}`);
});
for (const one of fields) if (!one.labels.length) bad("3.3.2", one, "has no label");
for (const one of all("ul, ol")) {
    const isBare = getComputedStyle(one).listStyleType === "none";
    if (isBare && one.getAttribute("role") !== "list") bad("1.3.1", one, "is no list to Safari");
}
if (document.documentElement.lang !== "en") found.push("3.1.1: no language");
if (!/^\S.* · routing registry$/.test(document.title)) found.push(`2.4.2: ${document.title}`);

// 4.1.2: names and roles. ARIA 1.2 names no generic element, and an application takes all keys from
// a screen reader.
const GENERIC = "b, code, dd, div, dt, i, p, pre, span";
for (const one of all("[aria-label], [aria-labelledby]")) {
    if (one.matches(GENERIC) && !one.hasAttribute("role")) bad("4.1.2", one, "has a name, no role");
    const seen = one.matches("a, button") ? one.textContent.trim() : "";
    const name = one.getAttribute("aria-label") ?? "";
    if (seen && !name.toLowerCase().includes(seen.toLowerCase())) {
        bad("2.5.3", one, `has another name than ${seen}`);
    }
}
for (const one of all("[role=application]")) bad("4.1.2", one, "takes all keys");
const ids = [...document.querySelectorAll("[id]")].map(one => one.id);
for (const id of ids) if (ids.indexOf(id) !== ids.lastIndexOf(id)) found.push(`4.1.2: two #${id}`);
const POINTERS = ["aria-describedby", "aria-labelledby", "aria-activedescendant", "for"];
for (const attribute of POINTERS) {
    for (const one of document.querySelectorAll(`[${attribute}]`)) {
        const gone = named(one, attribute).filter(id => !ids.includes(id));
        if (gone.length) bad("1.3.1", one, `names ${gone}, which is not there`);
    }
}

// 3.3.1: an error is tied to its field. 4.1.3: what is said is announced.
const faults = fields.filter(one => one.getAttribute("aria-invalid") === "true");
for (const one of faults) {
    const words = named(one, "aria-describedby").map(id => document.getElementById(id))
        .filter(part => part.matches(".fault, .said.bad") && part.checkVisibility());
    if (!words.some(part => part.textContent)) bad("3.3.1", one, "is wrong, and nothing says why");
}
for (const one of all("form .fault")) {
    const isTied = faults.some(field => named(field, "aria-describedby").includes(one.id));
    if (!isTied) bad("3.3.1", one, "is tied to no field");
}
for (const one of all(".said")) {
    if (one.getAttribute("role") !== "status") bad("4.1.3", one, "is not announced");
}
// 3.3.8: a password manager may fill the fields.
for (const one of all("input[type=password]")) {
    if (!/^(current|new)-password$/.test(one.autocomplete)) bad("3.3.8", one, "is not filled");
}
return [found, texts, targets.length];
