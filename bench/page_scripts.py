"""What bench/audit_page runs in a page to read it."""

# Reads the title, the findings and the tables, as the page has them.
CONTENT = """
const text = (inside, selector) => inside.querySelector(selector)?.textContent;
const cell = (it) => ({
    kind: it.className, methods: text(it, 'b'), shown: text(it, 'summary'),
    why: [...it.childNodes].slice(1).map((node) => node.textContent).join('')});
const row = (it) => ({
    pattern: text(it, 'th code'), paths: text(it, 'th small'), answers: text(it, 'td.by'),
    cells: [...it.querySelectorAll('details')].map(cell)});
const section = (it) => ({
    context: text(it, 'h2 code'), file: text(it, 'h2 small'), column: text(it, 'th:nth-child(3)'),
    notes: [...it.querySelectorAll('p')].map((note) => note.textContent),
    rows: [...it.querySelectorAll('tr')].slice(1).map(row)});
const finding = (it) => ({
    kind: it.className, context: text(it, 'code'), text: it.textContent});
return {
    title: document.title,
    notes: [...document.querySelectorAll('body > p')].map((note) => note.textContent),
    findings: [...document.querySelectorAll('li')].map(finding),
    sections: [...document.querySelectorAll('section')].map(section)};
"""

# Lists what makes a browser load something or run a script.
LOADING = """
const names = new Set(['src', 'srcset', 'href', 'xlink:href', 'data', 'action', 'formaction', 'poster', 'background', 'ping',
    'style', 'srcdoc', 'manifest', 'http-equiv']);
// The browser asks for an icon of the site by itself.
const requests = performance.getEntriesByType('resource').map((it) => it.name).filter((it) => !it.endsWith('/favicon.ico'));
const found = requests.map((it) => 'a request for ' + it);
for (const it of document.querySelectorAll('*')) {
    const name = it.localName;
    if (['script', 'link', 'iframe', 'frame', 'object', 'embed', 'img', 'base', 'form', 'svg'].includes(name))
        found.push('an element ' + name);
    for (const {name: attribute, value} of it.attributes)
        if (names.has(attribute) || attribute.startsWith('on') || /^\\w+:\\/\\//.test(value))
            found.push('an attribute ' + attribute + ' of ' + name);
    if (name == 'style' && /url\\s*\\(|@import|@font-face|image-set/i.test(it.textContent))
        found.push('a style sheet that loads');
}
return found;
"""

# Lists tables and notes of tables that are not below everything that is said of findings.
ORDER = """
const findings = [...document.querySelectorAll('li')];
const none = [...document.querySelectorAll('body > p')];
const said = findings.length ? findings : none;
const end = Math.max(...said.map((it) => it.getBoundingClientRect().bottom));
return said.length == 0 ? ['nothing is said of findings'] : [...document.querySelectorAll('section')].filter((it) =>
    !(said.at(-1).compareDocumentPosition(it) & Node.DOCUMENT_POSITION_FOLLOWING) || it.getBoundingClientRect().top < end
).map((it) => it.querySelector('h2').textContent);
"""

# Returns how each cell looks: its class, and its colors and border.
LOOKS = """
return [...document.querySelectorAll('details')].map((it) => {
    const style = getComputedStyle(it);
    return [style.backgroundColor, style.color, style.borderTopStyle].join(' ');
});
"""

# Shared by the scripts below: the texts that are not within closed cells, and the colors of a text and of its background.
TEXTS = """
const texts = [];
const walk = document.createTreeWalker(document.body, NodeFilter.SHOW_TEXT);
while (walk.nextNode()) {
    const node = walk.currentNode, parent = node.parentElement;
    const closed = parent.closest('details:not([open])');
    if (node.data.trim() && !(closed && !parent.closest('summary'))) texts.push(node);
}
const channels = (color) => {
    const numbers = color.match(/[\\d.]+/g).map(Number);
    return {rgb: numbers.slice(0, 3), alpha: numbers.length > 3 ? numbers[3] : 1};
};
const over = (front, back, alpha) => front.map((it, place) => it * alpha + back[place] * (1 - alpha));
const ground = (element) => {
    if (!element) return [255, 255, 255];
    const {rgb, alpha} = channels(getComputedStyle(element).backgroundColor);
    return alpha == 1 ? rgb : over(rgb, ground(element.parentElement), alpha);
};
const light = (rgb) => {
    const [red, green, blue] = rgb.map((it) => it / 255).map((it) => it <= 0.04045 ? it / 12.92 : ((it + 0.055) / 1.055) ** 2.4);
    return 0.2126 * red + 0.7152 * green + 0.0722 * blue;
};
"""

# Returns the least contrast of a text, by WCAG 2.1, with the text and its colors.
CONTRAST = (
    TEXTS
    + """
let least = [22, '', '', ''];
for (const node of texts) {
    const element = node.parentElement, back = ground(element);
    const {rgb, alpha} = channels(getComputedStyle(element).color);
    const front = over(rgb, back, alpha), [bright, dim] = [light(front), light(back)].sort((a, b) => b - a);
    const contrast = (bright + 0.05) / (dim + 0.05);
    if (contrast < least[0]) least = [contrast, node.data.trim(), front.join(', '), back.join(', ')];
}
return least;
"""
)

# Returns how wide the page's content and the window are.
WIDTHS = "return [document.documentElement.scrollWidth, document.documentElement.clientWidth];"

# Lists the texts of colored cells, of findings and of the table's cells that are wider than their boxes.
SPILLED = """
const boxes = [...document.querySelectorAll('details, li, td, th')];
return boxes.filter((it) => it.scrollWidth > it.clientWidth + 1).map((it) => it.innerText.trim());
"""

# Lists texts that have no place on the paper, or that a box around them cuts.
UNPRINTED = (
    TEXTS
    + """
const range = document.createRange(), width = document.documentElement.clientWidth;
const cut = (rect, element) => {
    if (element == document.body) return rect.right > width + 1 || rect.left < -1;
    const style = getComputedStyle(element), box = element.getBoundingClientRect();
    const hides = style.visibility != 'visible' || style.opacity == 0;
    const clips = style.overflowX != 'visible' || style.overflowY != 'visible';
    const outside = rect.right > box.right + 1 || rect.left < box.left - 1 || rect.bottom > box.bottom + 1 || rect.top < box.top - 1;
    return hides || (clips && outside) || cut(rect, element.parentElement);
};
return texts.filter((node) => {
    range.selectNodeContents(node);
    const rects = [...range.getClientRects()];
    return rects.length == 0 || rects.some((rect) => cut(rect, node.parentElement));
}).map((node) => node.data.trim());
"""
)

# Returns the text that a reader sees.
SEEN = "return document.body.innerText;"

# Opens or closes all cells.
OPEN_ALL = "for (const it of document.querySelectorAll('details')) it.open = true;"
CLOSE_ALL = "for (const it of document.querySelectorAll('details')) it.open = false;"
