"""Looks at a page for what WCAG 2.2 AA asks and a program can see: names of controls by the tree that Chromium gives to
screen readers, contrast as it is computed, heads of tables, and that nothing is wider than the window."""

FAULTS = r"""(() => {
  const found = [];
  const seen = (it) => it.getClientRects().length > 0;
  const all = (selector) => [...document.querySelectorAll(selector)].filter(seen);
  const say = (what, it) => found.push(`${what}: ${it.outerHTML.slice(0, 90)}`);
  if (!document.documentElement.lang) found.push('no language');
  if (!document.title) found.push('no title');
  if (!document.querySelector('meta[name=viewport]')) found.push('no viewport');
  if (document.querySelectorAll('main').length !== 1) found.push('not one main part');
  const ids = [...document.querySelectorAll('[id]')].map((it) => it.id);
  ids.filter((it, k) => ids.indexOf(it) !== k).forEach((it) => found.push(`an id twice: ${it}`));
  let level = 0;
  for (const it of all('h1, h2, h3, h4')) {
    if (Number(it.tagName[1]) > level + 1) say('a heading leaves a level out', it);
    level = Number(it.tagName[1]);
  }
  all('th:not([scope])').forEach((it) => say('a head without a scope', it));
  all('table').forEach((it) => { if (!it.caption && !it.closest('[aria-label], [aria-labelledby]')) say('a table without a name', it); });
  all('.scroll').forEach((it) => { if (it.tabIndex < 0 && it.querySelector('table, svg') && it.scrollWidth > it.clientWidth) say('what scrolls is not reached by keys', it); });
  all('a[href^="#"]').forEach((it) => { if (!document.getElementById(it.getAttribute('href').slice(1))) say('a link to nothing', it); });
  const rgb = (text) => { const [r, g, b, a = 1] = text.match(/[\d.]+/g).map(Number); return [r, g, b, a]; };
  const ground = (it) => {
    for (let at = it; at; at = at.parentElement) {
      const colour = rgb(getComputedStyle(at).backgroundColor);
      if (colour[3] > 0.99) return colour;
    }
    return matchMedia('(prefers-color-scheme: dark)').matches ? [18, 18, 18] : [255, 255, 255];
  };
  const light = (colour) => {
    const [r, g, b] = colour.slice(0, 3).map((it) => (it /= 255) <= 0.04045 ? it / 12.92 : ((it + 0.055) / 1.055) ** 2.4);
    return 0.2126 * r + 0.7152 * g + 0.0722 * b;
  };
  const contrast = (a, b) => { const [x, y] = [light(a), light(b)]; return (Math.max(x, y) + 0.05) / (Math.min(x, y) + 0.05); };
  for (const it of all('body *')) {
    const style = getComputedStyle(it);
    const speaks = [...it.childNodes].some((node) => node.nodeType === 3 && node.data.trim());
    const is_svg = it instanceof SVGElement;
    if (speaks && !is_svg && !it.disabled && contrast(rgb(style.color), ground(it)) < 4.5) say('text of too little contrast', it);
    if (speaks && is_svg && it.tagName === 'text' && contrast(rgb(style.fill), ground(it.closest('svg'))) < 4.5) say('text of too little contrast', it);
    if (it.matches('td, th, button, input:not([type=range], [type=file]), select') && !it.disabled
        && contrast(rgb(style.borderTopColor), ground(it.closest('table, .input, header, main') || document.body)) < 3) say('a border of too little contrast', it);
    if (it.matches('button, select, input') && !it.matches('[type=range]') && (it.offsetHeight < 24 || it.offsetWidth < 24)) say('a target of less than 24 pixels', it);
  }
  if (document.documentElement.scrollWidth > document.documentElement.clientWidth) found.push('wider than the window');
  return found;
})()"""

NAMED = {"button", "link", "textbox", "spinbutton", "slider", "switch", "combobox", "image", "region", "group"}


def faults(page):
    """What is wrong with a page, as lines."""
    found = page.value(FAULTS)
    for node in page.ask("Accessibility.getFullAXTree")["nodes"]:
        role = node.get("role", {}).get("value", "").lower()
        if role in NAMED and role != "group" and not node.get("ignored") and not node.get("name", {}).get("value"):
            found.append(f"a {role} without a name")
    return found


def faults_in_each(page):
    """The faults at 1,400 and 400 pixels, on a light and a dark ground, and as large as 200 percent make it."""
    found = {}
    for width, is_dark in ((1400, False), (400, True)):
        page.size(width, 900)
        page.dark(is_dark)
        found[f"{width} pixels, {'dark' if is_dark else 'light'}"] = faults(page)
    page.dark(False)
    page.size(700, 450, 2)  # what a window of 1,400 pixels has at 200 percent
    found["200 percent"] = faults(page)
    page.size(1400, 900)
    return {name: it for name, it in found.items() if it}
