// How the page is seen, and by whom.

import { all, at, choose, differ, frame, later, load, paste, settled } from './frame.mjs';

const SIZES = [[1440, 900], [1280, 800], [1024, 768], [768, 1024], [720, 450], [844, 390], [390, 664], [320, 568]];

const LONG_WORDS = 'Green becomes blue: columns move, then suits are renamed.';

// What does not fit a screen of this size: both boards are in sight at once, and the controls are with them.
function tooLarge(wide, high) {
  const { scrollWidth } = frame.contentDocument.documentElement;
  const letters = parseFloat(getComputedStyle(all('#left .card.last .index')[0]).fontSize);
  const [left, right] = ['#left', '#right'].map((part) => all(part)[0].getBoundingClientRect());
  const isFoot = getComputedStyle(all('.middle')[0]).position === 'fixed';
  const end = isFoot ? all('.middle')[0].getBoundingClientRect().top : high;
  return [...differ(`${wide}: ${scrollWidth} px wide`, scrollWidth <= wide, true),
    ...differ(`${wide}: letters of ${letters} px`, letters >= 9, true),
    ...differ(`${wide}: boards from ${left.top} px`, left.top >= 0, true),
    ...differ(`${wide}: boards to ${right.bottom} px of ${end}`, right.bottom <= end, true),
    ...outOfReach(wide, high)];
}

// The controls between the boards, or at the foot, that are not in sight.
function outOfReach(wide, high) {
  return all('.bar button').filter((button) => button.getClientRects().length > 0).flatMap((button) => {
    const { right, bottom } = button.getBoundingClientRect();
    return differ(`${button.id} to ${right} of ${wide}, ${bottom} of ${high}`, right <= wide && bottom <= high, true);
  });
}

// What is smaller than 24 pixels of what can be pressed, but for cards that others cover: `One card more` takes those.
function tooSmall(wide) {
  const controls = all('button, input:not([type=file]), select, textarea, summary, .pile, .card.last')
    .filter((it) => it.offsetParent);
  return controls.flatMap((it) => {
    const { width, height } = it.getBoundingClientRect();
    const name = it.id || it.className || it.outerHTML.slice(0, 60);
    return differ(`${wide}: ${name}: ${width} by ${height}`, width >= 24 && height >= 24, true);
  });
}

async function resize(wide, high) {
  Object.assign(frame, { width: wide, height: high });
  await load();
}

// At each size both boards are seen at once, nothing is wider than the screen, and what is pressed is large enough.
export async function fitting({ example, records: [{ name }] }) {
  const { width, height } = frame;
  const found = [];
  for (const [wide, high] of SIZES) {
    await resize(wide, high);
    paste(example);
    choose(name);
    at('shuffle').click();
    at('counter').textContent = LONG_WORDS;
    await later(400);
    found.push(...await settled(() => tooLarge(wide, high)), ...tooSmall(wide));
  }
  await resize(width, height);
  return found;
}

// Where letters are larger, of 20 pixels, nothing is wider than the screen, and the controls are in reach.
export async function largeLetters({ example }) {
  const { width, height } = frame;
  await resize(390, 664);
  frame.contentDocument.documentElement.style.fontSize = '20px';
  paste(example);
  const look = () => {
    const { scrollWidth } = frame.contentDocument.documentElement;
    return [...differ(`${scrollWidth} px wide`, scrollWidth <= 390, true), ...outOfReach(390, 664)];
  };
  const found = await settled(look);
  await resize(width, height);
  return found;
}

// Each control has a name, and each pile says what it is.
export function named({ example }) {
  paste(example);
  const nameOf = (it) => it.ariaLabel ?? (it.labels?.[0] ?? it).textContent;
  const controls = all('button, input, select, textarea, progress, pre, [tabindex]');
  return controls.flatMap((it) => differ(it.outerHTML.slice(0, 80), /[a-z\d]/i.test(nameOf(it)), true));
}

// No id is there twice, headings go down one by one, what scrolls can have the focus, and what is looked for is there.
export function structured({ example }) {
  paste(example);
  for (const it of all('details')) it.open = true;
  const ids = all('[id]').map((it) => it.id);
  const levels = all('h1, h2, h3, h4').map((it) => Number(it.tagName[1]));
  const isScrolled = (it) => ['auto', 'scroll'].includes(frame.contentWindow.getComputedStyle(it).overflowY);
  const isReached = (it) => it.tabIndex >= 0 || it.querySelector('button, a, input') !== null;
  const out = all('main *').filter((it) => isScrolled(it) && it.offsetParent && !isReached(it)).map((it) => it.id);
  const places = all('a[href^="#"]').filter((it) => at(it.getAttribute('href').slice(1)) === null);
  return [...differ('ids', ids.length, new Set(ids).size),
    ...differ('headings', levels.every((level, place) => level <= (levels[place - 1] ?? 0) + 1), true),
    ...differ('what scrolls without the focus', out.join(), ''), ...differ('links to nothing', places.length, 0)];
}

// Letters, borders and marks stand out from what is behind them, in light and in dark.
export function contrasts() {
  const [{ cssRules }] = frame.contentDocument.styleSheets;
  const isDark = (rule) => rule.conditionText?.includes('prefers-color-scheme: dark');
  const light = cssRules[0].style, dark = [...cssRules].find(isDark).cssRules[0].style;
  const letters = ['ink paper', 'ink panel', 'soft paper', 'soft panel', 'accent paper', 'accent panel',
    'on-accent accent', 'bad paper', 'on-felt left-felt', 'on-felt right-felt', 'gold left-felt', 'gold right-felt',
    'red card', 'black card', 'red lit', 'black lit', ...[1, 2, 3, 4, 5, 6, 7, 8].map((place) => `on-place place-${place}`)];
  const borders = ['control paper', 'control panel', 'focus paper', 'focus panel', 'slot left-felt', 'slot right-felt',
    'slot left-deep', 'slot right-deep', 'mark card', 'swapped card', 'gold left-deep', 'gold right-deep'];
  const pairs = [...letters.map((pair) => [pair, 4.5]), ...borders.map((pair) => [pair, 3])];
  return [['light', [light]], ['dark', [dark, light]]].flatMap(([theme, styles]) => {
    const colour = (name) => colourOf(styles.map((it) => it.getPropertyValue(`--${name}`)).find((it) => it));
    return pairs.flatMap(([pair, least]) => {
      const ratio = contrastOf(...pair.split(' ').map(colour));
      return differ(`${theme}: ${pair}: ${ratio.toFixed(2)}`, ratio >= least, true);
    });
  });
}

// Red, green, blue and how much of it covers what is behind, each 0 to 1.
function colourOf(written) {
  const digits = written.trim().slice(1);
  const long = digits.length < 6 ? [...digits].map((digit) => digit + digit).join('') : digits;
  const [red, green, blue, cover = 1] = long.match(/../g).map((it) => parseInt(it, 16) / 255);
  return [red, green, blue, cover];
}

// How much two colours differ, as WCAG 2.2 counts it: 1 to 21.
function contrastOf(front, back) {
  const mixed = [0, 1, 2].map((it) => front[it] * front[3] + back[it] * (1 - front[3]));
  const linear = (part) => (part <= 0.04045 ? part / 12.92 : ((part + 0.055) / 1.055) ** 2.4);
  const luminance = ([red, green, blue]) =>
    0.2126 * linear(red) + 0.7152 * linear(green) + 0.0722 * linear(blue);
  const [dim, bright] = [luminance(mixed), luminance(back)].sort((one, other) => one - other);
  return (bright + 0.05) / (dim + 0.05);
}

// A control that is worked keeps the focus, or one that is seen takes it, also where it then has nothing more to do.
export async function focused({ example, lists: [{ name }] }) {
  paste(example);
  choose(name);
  const ids = ['shuffle', 'swap', 'swap', 'on', 'last', 'first', 'back', 'sort', 'keep', 'undo', 'redo', 'moves', 'run',
    'run', 'link', 'copy', 'save-printed', 'more', 'carry', 'forget', 'undo', 'redo'];
  const found = [];
  for (const id of ids) {
    if (!at(id).offsetParent) continue;
    at(id).focus();
    at(id).click();
    await later(50);  // what is hidden loses the focus when the page is drawn
    found.push(...await settled(() => {
      const { activeElement, body } = frame.contentDocument;
      const isSeen = activeElement !== body && activeElement.offsetParent !== null && !activeElement.disabled;
      return differ(`focus after ${id}`, isSeen, true);
    }));
  }
  return found;
}
