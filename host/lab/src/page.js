'use strict';
const el = id => document.getElementById(id);
const layer = el('cells');
const clean = [0, 0, 0];
let cells = [], shown = [], zones = [], at = -1, latest = 0, pinned = -1, timer = 0, zoom = 1, scale = 1, form = 0;

// The world at step n: every step's changes from the first on, then only what differs is drawn.
function go(n) {
  n = Math.max(0, Math.min(lab.steps.length - 1, n));
  if (n < at || at < 0) { cells = []; zones = []; at = -1; }
  for (let i = at + 1; i <= n; i++) {
    const step = lab.steps[i];
    for (const [first, pages, kind, edges, words] of step.runs) {
      for (let k = first; k < first + pages; k++) cells[k] = [kind, edges, words];
      latest = first + pages - 1;
    }
    for (const [b, css, words] of step.zones) zones[b] = [css, words];
  }
  at = n;
  draw();
}

// The step that the address names (#5 is the fifth), else the first.
function start() { go((parseInt(location.hash.slice(1)) || 1) - 1); }

function name(k) { return `page ${k} (block ${Math.floor(k / lab.pages)}, page ${k % lab.pages})`; }

function place(k) { return [lab.left + Math.floor(k / lab.pages) * lab.column, lab.top + (k % lab.pages) * lab.row]; }

function tell(k) {
  const [kind, , words] = cells[k] || clean;
  const told = lab.words[words][4];
  return name(k) + ': ' + (told ? told + ' - ' : '') + lab.kinds[kind][2];
}

function markup(k) {
  const [kind, edges, words] = cells[k], [x, y] = place(k), [css, letter] = lab.kinds[kind];
  const [one, two, mark, version, , , sizes] = lab.words[words];
  const part = { x, y, k, css, letter, line: edges >> 2, sides: edges & 3, nr: one.split(' ')[1] || '', one, two, mark, version, tell: tell(k) };
  sizes[form].forEach((size, i) => part['s' + i] = size);
  return lab.forms[form][0].replace(/\{(\w+)\}/g, (_, field) => part[field]);
}

function draw() {
  const step = lab.steps[at], changed = [];
  for (let k = 0; k < lab.blocks * lab.pages; k++)
    if (String(cells[k] || clean) !== String(shown[k] || clean)) changed.push(k);
  const present = k => cells[k] && cells[k][0];
  if (changed.length > 300) {
    let all = '';
    for (let k = 0; k < lab.blocks * lab.pages; k++) if (present(k)) all += markup(k);
    layer.innerHTML = all;
  } else {
    for (const k of changed) {
      const old = el('p' + k);
      if (old) old.remove();
      if (present(k)) layer.insertAdjacentHTML('beforeend', markup(k));
    }
  }
  shown = cells.slice();
  zones.forEach(([css, words], b) => {
    const block = el('b' + b), word = block.querySelector('.zone');
    block.setAttribute('class', 'block ' + css);
    word.innerHTML = lab.short ? lab.letters[css] : words;
  });
  const next = el('next');
  next.style.display = step.next < 0 ? 'none' : '';
  if (step.next >= 0) next.setAttribute('transform', `translate(${place(step.next)})`);
  el('pointer').setAttribute('transform', `translate(${lab.left + step.pointer * lab.column},0)`);
  el('slider').value = at;
  el('count').textContent = `step ${at + 1} of ${lab.steps.length}`;
  el('text').innerHTML = step.text;
  el('said').innerHTML = step.said;
  el('state').innerHTML = step.state;
  follow();
  pin();
}

// The step that is shown, marked in the list and in its view.
function follow() {
  const box = el('steps'), li = box.children[at];
  box.querySelectorAll('.now').forEach(other => other.classList.remove('now'));
  li.classList.add('now');
  if (li.offsetTop < box.scrollTop || li.offsetTop + li.offsetHeight > box.scrollTop + box.clientHeight) box.scrollTop = li.offsetTop - box.clientHeight / 2;
}

// The page that was clicked stays in the line, and the pages of its identifier are marked.
function pin() {
  document.querySelectorAll('.same').forEach(g => g.classList.remove('same'));
  if (pinned < 0) return;
  el('tell').innerHTML = tell(pinned);
  const id = k => cells[k] && cells[k][0] ? lab.words[cells[k][2]][5] : 0;
  const mine = id(pinned);
  for (const g of layer.children) {
    const k = +g.id.slice(1);
    if (k === pinned || (mine && id(k) === mine)) g.classList.add('same');
  }
}

function pageAt(event) {
  const p = new DOMPoint(event.clientX, event.clientY).matrixTransform(el('flash').getScreenCTM().inverse());
  const b = Math.floor((p.x - lab.left) / lab.column), q = Math.floor((p.y - lab.top) / lab.row);
  return b >= 0 && b < lab.blocks && q >= 0 && q < lab.pages ? b * lab.pages + q : -1;
}

function play() {
  if (timer) { clearInterval(timer); timer = 0; }
  else {
    if (at === lab.steps.length - 1) go(0);
    timer = setInterval(() => { if (at === lab.steps.length - 1) play(); else go(at + 1); }, 900);
  }
  el('play').textContent = timer ? 'stop' : 'play';
}

// All cells in another form.
function reform(to) {
  if (to === form) return;
  el('flash').classList.replace('f' + form, 'f' + to);
  form = to;
  shown = [];
  draw();
}

// At zoom 1 the flash fills the room that there is. The middle of the view stays, or that page comes there; and the cells tell as much
// as can be read at this size.
function size(page = -1) {
  const pane = el('picture'), half = [pane.clientWidth / 2, pane.clientHeight / 2];
  const [x, y] = page < 0 ? [(pane.scrollLeft + half[0]) / scale, (pane.scrollTop + half[1]) / scale] : place(page);
  scale = zoom * Math.min(pane.offsetWidth / lab.width, pane.offsetHeight / lab.height);
  el('flash').style.width = `${scale * lab.width}px`;
  pane.scrollTo(x * scale - half[0], y * scale - half[1]);
  reform(lab.forms.reduce((last, [, least], i) => scale >= least ? i : last, 0));
}

// Towards the page that was clicked, else the one that changed last, where it is in view.
function magnify(factor) {
  const pane = el('picture'), page = pinned < 0 ? latest : pinned;
  const [x, y] = place(page).map(v => v * scale), [left, top] = [x - pane.scrollLeft, y - pane.scrollTop];
  const seen = left >= 0 && left < pane.clientWidth && top >= 0 && top < pane.clientHeight;
  zoom = factor ? Math.max(.5, Math.min(16, zoom * factor)) : 1;
  size(seen ? page : -1);
}

function toggle(part) {
  el(part).setAttribute('aria-pressed', document.body.classList.toggle(part));
  size();
  follow();
}

const buttons = {
  first: () => go(0), back: () => go(at - 1), on: () => go(at + 1), last: () => go(lab.steps.length - 1), play,
  smaller: () => magnify(1 / 1.5), fit: () => magnify(0), larger: () => magnify(1.5), list: () => toggle('list'), key: () => toggle('key'),
};
const keys = { Home: 'first', ArrowLeft: 'back', ArrowRight: 'on', End: 'last', '-': 'smaller', 0: 'fit', '+': 'larger', '=': 'larger', s: 'list', l: 'key' };
for (const id in buttons) el(id).onclick = buttons[id];
document.addEventListener('keydown', e => {
  const named = e.key.length > 1, id = keys[named ? e.key : e.key.toLowerCase()];
  if (!id || e.ctrlKey || e.metaKey || e.altKey || (named && e.target.id === 'slider')) return;
  buttons[id]();
  e.preventDefault();
});
el('steps').innerHTML = lab.steps.map((s, i) => `<li>${i + 1} <b>${s.text}</b> ${s.said}</li>`).join('');
el('steps').addEventListener('click', e => { const li = e.target.closest('li'); if (li) go([...el('steps').children].indexOf(li)); });
el('slider').max = lab.steps.length - 1;
el('slider').addEventListener('input', e => go(+e.target.value));
el('picture').addEventListener('mousemove', e => { const k = pageAt(e); if (k >= 0) el('tell').innerHTML = tell(k); else if (pinned >= 0) el('tell').innerHTML = tell(pinned); });
el('picture').addEventListener('click', e => { const k = pageAt(e); pinned = k === pinned ? -1 : k; pin(); });
addEventListener('beforeprint', () => reform(lab.paper));
addEventListener('afterprint', () => size());
addEventListener('hashchange', start);
new ResizeObserver(() => size()).observe(el('picture'));
start();
toggle('list');
