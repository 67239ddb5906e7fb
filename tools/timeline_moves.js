// What is moved and chosen, by buttons, keys, the wheel and drags; and the first picture.
const wholeFrom = run.parts[0][0], wholeTo = Math.max(run.parts.at(-1)[1], wholeFrom + 1);
const quarter = () => (shown.to - shown.from) / 4;
Object.assign(overview, { from: wholeFrom, to: wholeTo });

// The names of the parts of the picture that belong to a choice: itself, and of a unit the PDUs that carry it.
function partsOfChoice(id) {
  const [kind, track, index] = id.split('-');
  if (kind !== 'unit') return [id];
  const unit = unitOf(tracks[track], index), stay = tracks[track].stay[index];
  return [id, ...pdusOf(unit).map(([, event, subevent]) => `pdu-${stay}-${unit.track.stream}-${event}-${subevent}`)];
}

function drawAll() {
  draw();
  if (shown.id) for (const part of partsOfChoice(shown.id)) byId(part)?.classList.add('chosen');
  drawOverview();
  tellShown();
}

function setWindow(from, to) {
  if (!Number.isFinite(from) || !Number.isFinite(to)) return;
  shown.from = Math.max(wholeFrom, Math.min(from, wholeTo - 1));
  shown.to = Math.min(wholeTo, Math.max(to, shown.from + 1));
  drawAll();
}

function zoom(factor, around) {
  setWindow(around - (around - shown.from) * factor, around + (shown.to - around) * factor);
}

function move(by) {
  const moved = Math.min(Math.max(by, wholeFrom - shown.from), wholeTo - shown.to);
  setWindow(shown.from + moved, shown.to + moved);
}

// What the buttons zoom around: the unit that is chosen, where it is in the window, else the middle.
function focus() {
  const [kind, track, index] = (shown.id ?? '').split('-'), time = kind === 'unit' ? tracks[track].at[index] : NaN;
  return time >= shown.from && time <= shown.to ? time : (shown.from + shown.to) / 2;
}

// Tells of a part of the picture, and marks it.
function choose(id) {
  const told = toldOf(id);
  if (!told) return;
  shown.id = id;
  byId('detail').replaceChildren(...told);
  byId('detail').scrollTop = 0;
  drawAll();
}

// Goes to a gap, so near that its units are told from each other.
function toGap(place) {
  const gap = gaps[place], source = sourceOf(gap.track, gap.first), room = byId('picture').clientWidth - LABELS;
  const most = Math.max(source.sdu * room / (2 * thinOf(room)), 3 * (gap.until - gap.at)), length = Math.min(shown.to - shown.from, most);
  if (gap.at < shown.from || gap.until > shown.to || length < shown.to - shown.from) {
    const around = (gap.at + gap.until) / 2, from = Math.max(wholeFrom, Math.min(around - length / 2, wholeTo - length));
    Object.assign(shown, { from, to: Math.min(wholeTo, from + length) });
  }
  choose(`unit-${tracks.indexOf(gap.track)}-${gap.first}`);
  const ring = document.querySelector('.ring');
  ring.style.scrollMarginBottom = `${byId('detail').offsetHeight + 8}px`;
  ring.scrollIntoView({ block: 'nearest' });
  byId('loss').textContent = `Loss ${counted(place + 1)} of ${counted(gaps.length)}: ${several(gap.count, 'unit')} of ` +
    `${run.lanes[gap.track.lane]}.`;
}

// The gap behind the unit that is chosen, or before it; without one that is chosen, the first in the window or the last before it.
function stepGap(step) {
  const [kind, number, index] = (shown.id ?? '').split('-'), track = kind === 'unit' ? tracks[number] : null;
  const here = track ? [track.at[index], track.lane] : [shown.from, step > 0 ? -1 : Infinity];
  const order = (gap) => gap.at - here[0] || gap.track.lane - here[1];
  const place = step > 0 ? gaps.findIndex((it) => order(it) > 0) : gaps.findLastIndex((it) => order(it) < 0);
  if (place >= 0) toGap(place);
  else byId('loss').textContent = gaps.length ? `No loss is ${step > 0 ? 'behind' : 'before'} this one.` : 'No unit is lost.';
}

// A page's address may name a window, in µs, and what is chosen: #from=20000&to=80000&show=unit-0-1.
function readAddress() {
  const asked = new URLSearchParams(location.hash.slice(1));
  setWindow(Number(asked.get('from') ?? wholeFrom), Number(asked.get('to') ?? wholeTo));
  if (asked.get('show')) choose(asked.get('show'));
}

const BUTTONS = {
  previous: () => stepGap(-1), next: () => stepGap(1), all: () => setWindow(wholeFrom, wholeTo), in: () => zoom(0.5, focus()),
  out: () => zoom(2, focus()), earlier: () => move(-quarter()), later: () => move(quarter()),
};
const KEYS = { p: 'previous', n: 'next', a: 'all', '+': 'in', '=': 'in', '-': 'out', ArrowLeft: 'earlier', ArrowRight: 'later' };

function listenToButtons() {
  for (const [id, act] of Object.entries(BUTTONS)) byId(id).addEventListener('click', act);
  for (const id of ['from', 'to']) {
    byId(id).addEventListener('change', () => setWindow(Number(byId('from').value) * 1000, Number(byId('to').value) * 1000));
  }
  document.addEventListener('keydown', (event) => {
    if (event.target.closest('input') || event.ctrlKey || event.altKey || event.metaKey || !KEYS[event.key]) return;
    event.preventDefault();
    BUTTONS[KEYS[event.key]]();
  });
}

// The wheel scrolls the page, unless Ctrl (zoom) or Shift (move) is held.
function listenToWheel(picture) {
  picture.addEventListener('wheel', (event) => {
    if (!event.ctrlKey && !event.metaKey && !event.shiftKey) return;
    event.preventDefault();
    const turned = event.deltaY || event.deltaX;
    if (event.shiftKey) move(Math.sign(turned) * quarter() / 2);
    else zoom(turned < 0 ? 0.8 : 1.25, shown.scale.time(event.clientX - picture.getBoundingClientRect().left));
  }, { passive: false });
}

// A press and a release on one place choose; a drag moves the window.
function listenToPointer(picture) {
  let held = null;
  picture.addEventListener('pointerdown', (event) => {
    if (event.button === 0) held = { x: event.clientX, from: shown.from, to: shown.to, isDrag: false };
  });
  window.addEventListener('pointermove', (event) => {
    if (!held || !(held.isDrag ||= Math.abs(event.clientX - held.x) > 4)) return;
    const by = (held.x - event.clientX) / shown.scale.perMicrosecond;
    move(held.from + by - shown.from);
  });
  window.addEventListener('pointercancel', () => { held = null; });
  window.addEventListener('pointerup', (event) => {
    if (held && !held.isDrag) choose(event.target.closest?.('[id]')?.id ?? '');
    held = null;
  });
}

// A press in the overview brings its time to the middle of the window, which is a tenth of the run where it was the whole.
function listenToOverview(picture) {
  picture.addEventListener('click', (event) => {
    const time = overview.scale.time(event.clientX - picture.getBoundingClientRect().left);
    const isWhole = shown.from <= wholeFrom && shown.to >= wholeTo, length = (shown.to - shown.from) / (isWhole ? 10 : 1);
    const from = Math.max(wholeFrom, Math.min(time - length / 2, wholeTo - length));
    setWindow(from, from + length);
  });
}

tellLegend();
tellSummary();
tellRates((sink, stream, from) => toGap(gaps.findIndex((it) => it.track.sink === sink && it.track.stream === stream && it.at === from)));
listenToButtons();
listenToWheel(byId('picture'));
listenToPointer(byId('picture'));
listenToOverview(byId('overview'));
byId('signs').open = window.innerWidth >= NARROW;
window.addEventListener('resize', drawAll);
window.addEventListener('hashchange', readAddress);
readAddress();
performance.mark('drawn');
