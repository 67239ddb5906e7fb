// The picture: where a time stands, and what is drawn of a window. A lane is as high as LANE, one of PDUs as PDUS.
const LANE = 30, PDUS = 20, AXIS = 20, NARROW = 640, LABELS = 130, MARGIN = 8, NAME = 15, FOLD = 26;
const THIN = 3, LEAST = 1 / 3; // px: units thinner than this are drawn in cells, and the least part of a cell that a loss fills
const MOST_BOXES = 6000; // about; of more lanes units are drawn in wider cells
const MOST_PUSHED = 60; // px, how far a mark is moved to the right to stand beside another
const PDU = 5; // px that a PDU and what is behind it take at least
// The kinds of marks by how they are drawn; all others tell something.
const MARKS = { begins: ['start', 'begun', 'joined'], ends: ['stop', 'left', 'dropped', 'stale', 'refused'], noticed: ['notice', 'read'] };
const SHAPES = { begins: 'M-5 -7L6 0L-5 7z', ends: 'M-5 -5h10v10h-10z', noticed: 'M-5 0a5 5 0 1 0 10 0a5 5 0 1 0 -10 0z',
  told: 'M-5 0l5 -7l5 7l-5 7z' };
const shown = { from: 0, to: 1, id: null, scale: null, rows: [], stacks: new Map() };

const byId = (id) => document.getElementById(id);
const counted = (number) => number.toLocaleString('en');
const milliseconds = (time) => (time / 1000).toLocaleString('en', { minimumFractionDigits: 3 });
const percent = (rate) => `${(100 * rate).toFixed(2)} %`;
const markKind = (kind) => Object.keys(MARKS).find((name) => MARKS[name].includes(kind)) ?? 'told';

function element(name, attributes, ...children) {
  const isDrawn = ['svg', 'rect', 'line', 'text', 'path', 'title', 'g'].includes(name);
  const made = isDrawn ? document.createElementNS('http://www.w3.org/2000/svg', name) : document.createElement(name);
  for (const [key, value] of Object.entries(attributes)) made.setAttribute(key, value);
  made.append(...children);
  return made;
}

// Where times stand between two places of a picture: the parts of the run in this window, with a fold between each two.
function scaleOf(from, to, left, right) {
  const parts = run.parts.map(([begin, end]) => [Math.max(begin, from), Math.min(end, to)]).filter(([begin, end]) => begin <= end);
  const length = parts.reduce((sum, [begin, end]) => sum + end - begin, 0) || 1;
  const fold = Math.min(FOLD, (right - left) / 2 / parts.length), room = right - left - fold * Math.max(0, parts.length - 1);
  let x = left;
  const pieces = parts.map(([begin, end]) => {
    const piece = { from: begin, to: end, x, width: room * (end - begin) / length };
    x += piece.width + fold;
    return piece;
  });
  const within = (part) => Math.min(1, Math.max(0, part));
  const find = (isBefore) => {
    let low = 0, high = pieces.length - 1;
    while (low < high) {
      const middle = (low + high) >> 1;
      if (isBefore(pieces[middle])) low = middle + 1;
      else high = middle;
    }
    return pieces[low];
  };
  return {
    pieces, fold, perMicrosecond: room / length,
    place(time) {
      const piece = pieces.length === 1 ? pieces[0] : find((it) => it.to < time);
      return piece ? piece.x + piece.width * within((time - piece.from) / (piece.to - piece.from || 1)) : left;
    },
    time(at) {
      const piece = find((it) => it.x + it.width < at);
      return piece ? piece.from + (piece.to - piece.from) * within((at - piece.x) / (piece.width || 1)) : from;
    },
  };
}

// How far the PDUs of a stream stand from each other.
const pduStep = (source) => source.nse > 1 && source.sub > 0 ? source.sub : source.interval;

// Whether the PDUs of a track are told from each other in this window.
function showsPdus(track, scale) {
  return run.stays.some((stay) => {
    if (stay.sink !== track.sink || !stay.letters[track.stream]) return false;
    const source = sources[stay.source], events = (shown.to - shown.from) / source.interval;
    return pduStep(source) * scale.perMicrosecond >= 4 && events * source.nse * tracks.length <= MOST_BOXES;
  });
}

// The rows of the picture from above: the lanes, and below that of a stream one of its PDUs where these are told from each other.
function rowsOf(scale, isNarrow) {
  const rows = [];
  let y = AXIS;
  const put = (row, height) => {
    y += isNarrow ? NAME : 0;
    rows.push({ ...row, y, height });
    y += height + 4;
  };
  run.lanes.forEach((name, lane) => {
    const track = tracks.find((it) => it.lane === lane);
    put({ name, lane, track }, LANE - 4);
    if (track && showsPdus(track, scale)) put({ name: isNarrow ? `${name}: PDUs` : 'its PDUs', lane, track, isOfPdus: true }, PDUS - 4);
  });
  return { rows, height: y };
}

const laneRow = (lane) => shown.rows.find((it) => it.lane === lane && !it.isOfPdus);

function box(id, kind, row, from, to, title, more = {}) {
  const x = shown.scale.place(from), width = Math.max(2, shown.scale.place(to) - x - (more.isTight ? 0 : 1));
  const inset = row.isOfPdus ? 2 : 4, tall = row.height - 2 * inset, part = more.part ?? 1;
  return element('rect', { id, class: kind, x: x.toFixed(2), y: (row.y + inset + tall * (1 - part)).toFixed(2), width: width.toFixed(2),
    height: (tall * part).toFixed(2), ...more.data }, element('title', {}, title));
}

function drawLanes(left, width, height, isNarrow) {
  const drawn = shown.rows.map((row) => element('g', {},
    element('rect', { class: 'lane', x: left, y: row.y, width: width - left, height: row.height }),
    element('text', { class: 'name', x: row.isOfPdus && !isNarrow ? 12 : 0, y: row.y + (isNarrow ? -3 : row.height / 2 + 4) }, row.name)));
  for (const piece of shown.scale.pieces) drawn.push(...ticksOf(piece, width, height));
  shown.scale.pieces.slice(1).forEach((piece, place) => {
    const skipped = piece.from - shown.scale.pieces[place].to, wide = Math.max(1, shown.scale.fold - 12);
    const x = piece.x - shown.scale.fold / 2 - wide / 2;
    drawn.push(element('rect', { class: 'fold', x, y: AXIS - 4, width: wide, height: height - AXIS + 4 },
      element('title', {}, `${milliseconds(skipped)} ms in which nothing is`)));
  });
  return drawn;
}

function ticksOf(piece, width, height) {
  const drawn = [], least = 90 / shown.scale.perMicrosecond;
  const power = 10 ** Math.ceil(Math.log10(Math.max(least, 1)));
  const step = [power / 5, power / 2, power].find((it) => it >= least);
  for (let time = Math.ceil(piece.from / step) * step; time <= piece.to; time += step) {
    const x = shown.scale.place(time), label = step >= 1e6 ? `${counted(time / 1e6)} s` : `${counted(+(time / 1000).toFixed(3))} ms`;
    drawn.push(element('line', { class: 'tick', x1: x, x2: x, y1: AXIS - 4, y2: height }));
    if (x + 60 < width) drawn.push(element('text', { x: x + 2, y: 12 }, label));
  }
  return drawn;
}

// The events of the sources. Where they are thin, all of a part of the run are one box.
function drawEvents() {
  return Object.values(sources).flatMap((source) => {
    const row = laneRow(run.lanes.indexOf(`source ${source.number}`)), isThin = source.interval * shown.scale.perMicrosecond < THIN;
    return shown.scale.pieces.flatMap((piece) => {
      const first = Math.max(0, Math.ceil((piece.from - source.sync - source.origin) / source.interval));
      const end = Math.min(eventsOf(source), Math.floor((piece.to - source.origin) / source.interval) + 1);
      const anchor = (place) => source.origin + place * source.interval;
      if (first >= end) return [];
      if (isThin) {
        return [box(`events-${source.number}-${first}-${end - 1}`, 'event', row, anchor(first), anchor(end - 1) + source.sync,
          `${counted(end - first)} events from ${source.first + first} on`)];
      }
      return Array.from({ length: end - first }, (_, it) => first + it).map((place) => box(`event-${source.number}-${place}`, 'event', row,
        anchor(place), anchor(place) + source.sync, `event ${source.first + place} at ${milliseconds(anchor(place))} ms`));
    });
  });
}

function unitBox(row, track, index) {
  const fate = FATES[track.fate[index]];
  return box(`unit-${tracks.indexOf(track)}-${index}`, `unit ${fate}`, row, track.at[index], track.at[index] + sourceOf(track, index).sdu,
    `${fate} at ${milliseconds(track.at[index])} ms`, { data: { 'data-lane': row.name } });
}

// How many px a unit must have to be drawn for itself. A cell of thinner ones is 1 px less.
const thinOf = (width) => Math.max(THIN, width * tracks.length / MOST_BOXES);

// The units of a stretch of a track in cells of a few px: of each cell its first and last unit, and how many have each fate.
function cellsOf(track, first, end) {
  const cells = [], wide = thinOf(byId('picture').clientWidth) - 1;
  let cell = { until: -Infinity };
  for (let index = first; index < end; index += 1) {
    if (track.at[index] >= cell.until) {
      const x = Math.floor(shown.scale.place(track.at[index]) / wide);
      cell = { x, until: shown.scale.time((x + 1) * wide), first: index, counts: [0, 0, 0, 0] };
      cells.push(cell);
    }
    cell.last = index;
    cell.counts[track.fate[index]] += 1;
  }
  return cells;
}

// Neighbouring cells that are drawn alike become one: those with a part above 0 that is the same, and no gap between.
function joined(cells, partOf) {
  const runs = [];
  for (const cell of cells) {
    const part = partOf(cell.counts), last = runs.at(-1);
    if (!part) continue;
    if (last && last.part === part && cell.x - last.x <= 2) Object.assign(last, { x: cell.x, last: cell.last });
    else runs.push({ x: cell.x, part, first: cell.first, last: cell.last });
  }
  return runs;
}

// How high a loss is drawn in a cell: by the part of its units that is lost, in steps.
function lossPart(counts) {
  const missing = counts[LOST] + counts[UNBEGUN], share = missing / (missing + counts[VALID] || 1);
  return missing && Math.max(LEAST, Math.ceil(share * 6) / 6);
}

function drawCells(row, track, first, end) {
  const cells = cellsOf(track, first, end);
  const boxes = (kind, partOf) => joined(cells, partOf).map((it) => {
    const counts = countsIn(track, it.first, it.last + 1), lost = counts[LOST] + counts[UNBEGUN];
    const title = `${counted(it.last + 1 - it.first)} units, ${counted(lost)} lost or never begun`;
    return box(`part-${tracks.indexOf(track)}-${it.first}-${it.last}`, `part ${kind}`, row, track.at[it.first],
      track.at[it.last] + sourceOf(track, it.last).sdu, title,
      { part: it.part, isTight: true, data: { 'data-lane': row.name, 'data-units': it.last + 1 - it.first, 'data-lost': lost } });
  });
  return [boxes('empty', (counts) => counts[EMPTY] ? 1 : 0), boxes('valid', (counts) => counts[VALID] ? 1 : 0), boxes('lost', lossPart)];
}

// The units of all streams; losses last.
function drawUnits() {
  const under = [], above = [], thin = thinOf(byId('picture').clientWidth);
  for (const row of shown.rows.filter((it) => it.track && !it.isOfPdus)) {
    const [first, end] = unitsIn(row.track, shown.from, shown.to);
    if (end > first && sourceOf(row.track, first).sdu * shown.scale.perMicrosecond < thin) {
      const [empty, valid, lost] = drawCells(row, row.track, first, end);
      under.push(...empty, ...valid);
      above.push(...lost);
    } else {
      for (let index = first; index < end; index += 1) {
        (isMissing(row.track.fate[index]) ? above : under).push(unitBox(row, row.track, index));
      }
    }
  }
  return [...under, ...above];
}

function drawPdus() {
  return shown.rows.filter((it) => it.isOfPdus).flatMap((row) => run.stays.flatMap((stay, number) => {
    const letters = stay.letters[row.track.stream];
    return stay.sink === row.track.sink && letters ? pduBoxes(row, stay, number, letters) : [];
  }));
}

function pduBoxes(row, stay, number, letters) {
  const source = sources[stay.source], { stream } = row.track, drawn = [];
  const first = Math.max(0, Math.floor((shown.from - anchorOf(source, stay.since)) / source.interval) - 1);
  for (let place = first * source.nse; place < letters.length; place += 1) {
    const event = stay.since + Math.floor(place / source.nse), subevent = place % source.nse, at = sentAt(source, event, stream, subevent);
    if (anchorOf(source, event) > shown.to) break;
    if (at > shown.to || at + source.longest < shown.from) continue;
    const [kind] = LETTERS[letters[place]].split(' ');
    const until = at + Math.max(source.longest, PDU / shown.scale.perMicrosecond);
    drawn.push(box(`pdu-${number}-${stream}-${event}-${subevent}`, `pdu ${kind}`, row, at, until,
      `event ${event}, subevent ${subevent}: ${LETTERS[letters[place]]}`, { data: { 'data-lane': run.lanes[row.lane] } }));
  }
  return drawn;
}

// Marks that would lie on each other are moved to the right, and those that would be moved too far become one with the last of them.
function drawMarks() {
  const last = {}, drawn = [];
  shown.stacks.clear();
  run.marks.forEach((mark, place) => {
    if (mark.at < shown.from || mark.at > shown.to) return;
    const before = last[mark.lane], x = shown.scale.place(mark.at), pushed = Math.max(x, (before?.x ?? -9) + 13);
    if (pushed - x > MOST_PUSHED) before.places.push(place);
    else drawn.push(last[mark.lane] = { x: pushed, places: [place], mark });
  });
  return drawn.map(({ x, places, mark }) => {
    const row = laneRow(mark.lane), isStack = places.length > 1, id = `mark-${places[0]}`, kind = isStack ? 'told' : markKind(mark.kind);
    if (isStack) shown.stacks.set(id, places);
    return element('path', { id, class: `mark ${kind}`, 'data-lane': row.name, 'data-marks': places.length, d: SHAPES[kind],
      transform: `translate(${x.toFixed(2)} ${row.y + row.height / 2})` },
    element('title', {}, isStack ? `${counted(places.length)} marks` : `${mark.kind} ${mark.text}`));
  });
}

// A ring around the unit that is chosen, however thin that is.
function drawRing() {
  const [kind, track, index] = (shown.id ?? '').split('-'), at = kind === 'unit' ? tracks[track]?.at[index] : undefined;
  if (at === undefined || at > shown.to || at + sourceOf(tracks[track], index).sdu < shown.from) return [];
  const row = laneRow(tracks[track].lane), x = shown.scale.place(at), end = shown.scale.place(at + sourceOf(tracks[track], index).sdu);
  const width = Math.max(8, end - x + 1);
  return [element('rect', { class: 'ring', x: (x + end - 1 - width) / 2, y: row.y + 1, width, height: row.height - 2, rx: 2 })];
}

function draw() {
  const picture = byId('picture'), width = picture.clientWidth || 1000, isNarrow = width < NARROW, left = isNarrow ? 0 : LABELS;
  shown.scale = scaleOf(shown.from, shown.to, left, width - MARGIN);
  const { rows, height } = rowsOf(shown.scale, isNarrow);
  shown.rows = rows;
  picture.setAttribute('viewBox', `0 0 ${width} ${height}`);
  picture.setAttribute('height', height);
  picture.replaceChildren(...drawLanes(left, width, height, isNarrow), ...drawEvents(), ...drawUnits(), ...drawPdus(), ...drawMarks(),
    ...drawRing());
}

// The bars of the loss rate over the whole run: of each the units that are valid, and those that are lost or never begun.
const overview = { bars: [], width: 0, most: 0, scale: null, from: 0, to: 1 };

function countBars(scale, left, width) {
  const bars = Array.from({ length: Math.ceil((width - left) / 6) }, () => ({ valid: 0, missing: 0 }));
  for (const track of tracks) {
    track.at.forEach((at, index) => {
      const bar = bars[Math.min(bars.length - 1, Math.floor((scale.place(at) - left) / 6))];
      if (track.fate[index] === VALID) bar.valid += 1;
      else if (track.fate[index] !== EMPTY) bar.missing += 1;
    });
  }
  return bars.map(({ valid, missing }) => ({ valid, missing, rate: missing / (valid + missing || 1) }));
}

function drawOverview() {
  const picture = byId('overview'), width = picture.clientWidth || 1000, isNarrow = width < NARROW, left = isNarrow ? 0 : LABELS;
  if (overview.width !== width) {
    overview.scale = scaleOf(overview.from, overview.to, left, width - MARGIN);
    overview.bars = countBars(overview.scale, left, width - MARGIN);
    Object.assign(overview, { width, most: Math.max(0, ...overview.bars.map((it) => it.rate)) });
  }
  const top = isNarrow ? NAME : 2, tall = 34, x = overview.scale.place(shown.from), end = Math.max(x + 2, overview.scale.place(shown.to));
  const bars = overview.bars.map((it, place) => {
    if (!it.missing) return '';
    const height = Math.max(2, tall * it.rate / overview.most), title = `${percent(it.rate)}: ${counted(it.missing)} of ` +
      `${counted(it.valid + it.missing)} units`;
    return element('rect', { class: 'bar', x: left + 6 * place, y: top + tall - height, width: 5, height, 'data-missing': it.missing },
      element('title', {}, title));
  });
  const scaleText = overview.most ? `up to ${percent(overview.most)}` : 'no unit is lost';
  picture.setAttribute('viewBox', `0 0 ${width} ${top + tall + 2}`);
  picture.setAttribute('height', top + tall + 2);
  picture.replaceChildren(element('rect', { class: 'lane', x: left, y: top, width: width - left, height: tall }), ...bars,
    element('text', { class: 'name', x: 0, y: isNarrow ? 11 : top + 14 }, isNarrow ? `loss rate, ${scaleText}` : 'loss rate'),
    isNarrow ? '' : element('text', { x: 0, y: top + 29 }, scaleText),
    element('rect', { class: 'shade', x, y: top, width: end - x, height: tall }),
    ...[x, end].map((it) => element('line', { class: 'edge', x1: it, x2: it, y1: top, y2: top + tall })));
}
