// Run inside a page: the texts whose contrast with what is behind them is below `least`, by WCAG's formula.
export function lowContrast(least) {
  const pen = Object.assign(document.createElement("canvas"), { width: 1, height: 1 }).getContext("2d", { willReadFrequently: true });
  const known = new Map();

  // red, green, blue and opacity of a colour in any notation
  function parts(colour) {
    if (!known.has(colour)) {
      pen.clearRect(0, 0, 1, 1);
      pen.fillStyle = colour;
      pen.fillRect(0, 0, 1, 1);
      known.set(colour, [...pen.getImageData(0, 0, 1, 1).data]);
    }
    return known.get(colour);
  }

  // the nearest colour behind an element that hides what is behind it
  function behind(element) {
    for (let at = element; at; at = at.parentElement) {
      const colour = parts(getComputedStyle(at).backgroundColor);
      if (colour[3] === 255) return colour;
    }
    return [255, 255, 255, 255];
  }

  const linear = (x) => (x / 255 <= 0.04045 ? x / 255 / 12.92 : ((x / 255 + 0.055) / 1.055) ** 2.4);
  const brightness = ([r, g, b]) => 0.2126 * linear(r) + 0.7152 * linear(g) + 0.0722 * linear(b);

  function ratio(a, b) {
    const [low, high] = [brightness(a), brightness(b)].sort((x, y) => x - y);
    return (high + 0.05) / (low + 0.05);
  }

  const shown = (element) => element.checkVisibility() && element.getBoundingClientRect().width > 1 && !element.closest(".unseen, .skip, option, svg, script, style");
  const texts = document.createTreeWalker(document.body, NodeFilter.SHOW_TEXT);
  const found = new Set();
  while (texts.nextNode()) {
    const element = texts.currentNode.parentElement, words = texts.currentNode.data.trim();
    if (words === "" || !shown(element)) continue;
    const seen = ratio(parts(getComputedStyle(element).color), behind(element));
    if (seen < least) found.add(`${words.slice(0, 30)} (${element.className || element.tagName}): ${seen.toFixed(2)}`);
  }
  return [...found];
}
