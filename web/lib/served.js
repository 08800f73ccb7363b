// What the server has, as it says of itself: an old one, or the program alone, says nothing.
export const served = {name: '', views: []};

// The view that is asked, and the source of it whose objects are shown, as the page's address names
// them: ?view=ALL&of=RADB.
const named = name => new URLSearchParams(location.search).get(name) ?? '';
export const viewAsked = () => named('view');
export const sourceAsked = () => named('of');
export const base = () => viewAsked() ? `/views/${encodeURIComponent(viewAsked())}` : '';
// Where an object of a view is from; elsewhere a comment on its source says nothing.
export const sourceOf = object => viewAsked() ? object.source : '';
export const ofSource = objects =>
    objects.filter(object => !sourceAsked() || sourceOf(object) === sourceAsked());

// What each source was when the server was asked, in words.
export function ageWords(seconds) {
    const [many, unit] = [[86400, 'day'], [3600, 'hour'], [60, 'minute'], [0, 'second']].find(
        ([least]) => seconds >= 2 * least);
    const count = Math.round(seconds / (many || 1));
    return `${count} ${unit}${count === 1 ? '' : 's'} ago`;
}
