// What a reader of the page would complain of, as a list of lines. Text that is cut or overlaps
// other text, is less than 10 pixels high, or has too little contrast; parts beside the window.
(() => {
  const found = new Set();
  const wide = document.documentElement.clientWidth;
  const name = (part) => `${part.tagName} ${part.textContent.trim().slice(0, 40)}`;
  const isText = (node) => node.nodeType === Node.TEXT_NODE && node.textContent.trim() !== "";

  // The numbers of a colour as Chromium writes it: red, green and blue, and how much is seen.
  const parsed = (colour) => {
    const [red, green, blue, seen = 1] = colour.match(/[\d.]+/g).map(Number);
    return { channels: [red, green, blue], seen };
  };
  const luminance = (colour) => {
    const [red, green, blue] = parsed(colour).channels.map((channel) => {
      const share = channel / 255;
      return share <= 0.04045 ? share / 12.92 : ((share + 0.055) / 1.055) ** 2.4;
    });
    return 0.2126 * red + 0.7152 * green + 0.0722 * blue;
  };
  const contrast = (one, other) => {
    const [dark, light] = [luminance(one), luminance(other)].sort((a, b) => a - b);
    return (light + 0.05) / (dark + 0.05);
  };
  const behind = (part) => {
    for (let each = part; each; each = each.parentElement) {
      const colour = getComputedStyle(each).backgroundColor;
      if (parsed(colour).seen === 1) return colour;
    }
    return "rgb(255, 255, 255)";
  };

  if (document.documentElement.scrollWidth > wide) found.add("the page is wider than its window");
  for (const part of document.querySelectorAll("body *")) {
    const box = part.getBoundingClientRect();
    if (box.width === 0 && box.height === 0) continue;
    const style = getComputedStyle(part);
    if (box.left < -0.5 || box.right > wide + 0.5) found.add(`beside the window: ${name(part)}`);
    if (part instanceof HTMLElement && style.display !== "inline" && part.scrollWidth > part.clientWidth + 1) {
      found.add(`wider than its place: ${name(part)}`);
    }
    if (part.tagName === "title" || ![...part.childNodes].some(isText)) continue;
    const svg = part.ownerSVGElement;
    const scale = svg ? svg.getBoundingClientRect().width / svg.viewBox.baseVal.width : 1;
    const high = parseFloat(style.fontSize) * scale;
    if (high < 10) found.add(`only ${high.toFixed(1)} pixels high: ${name(part)}`);
    const share = contrast(svg ? style.fill : style.color, behind(part));
    if (share < 4.5) found.add(`contrast ${share.toFixed(2)}: ${name(part)}`);
  }

  for (const svg of document.querySelectorAll("figure svg")) {
    const inside = svg.getBoundingClientRect();
    const texts = [...svg.querySelectorAll("text")].map((text) => [text, text.getBoundingClientRect()]);
    const shown = texts.filter(([, box]) => box.width > 0);
    if (svg.querySelector(".tip")) {
      // (The other text in the middle names the axis.)
      if (shown.filter(([text]) => text.matches(".mid")).length < 2) found.add(`no number below ${svg.getAttribute("aria-label")}`);
      const drawn = [...svg.querySelectorAll(".line, circle")].map((part) => part.getBoundingClientRect());
      // (A line through one point is drawn, but can't be seen.)
      if (!drawn.some((box) => box.width > 0.5)) found.add(`nothing drawn in ${svg.getAttribute("aria-label")}`);
    }
    shown.forEach(([text, box], place) => {
      const isHigh = box.top < inside.top - 3 || box.bottom > inside.bottom + 2;
      if (isHigh || box.left < inside.left - 0.5 || box.right > inside.right + 0.5) {
        found.add(`cut: ${name(text)} of ${svg.getAttribute("aria-label")}`);
      }
      for (const [other, its] of shown.slice(place + 1)) {
        const wideBoth = Math.min(box.right, its.right) - Math.max(box.left, its.left);
        const highBoth = Math.min(box.bottom, its.bottom) - Math.max(box.top, its.top);
        // (The box of a text has room above and below its letters.)
        if (wideBoth > 0.5 && highBoth > 0.4 * Math.min(box.height, its.height)) {
          found.add(`overlap: ${name(text)} and ${name(other)} of ${svg.getAttribute("aria-label")}`);
        }
      }
    });
  }
  return [...found];
})()
