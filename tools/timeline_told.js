// What stands around the picture in words: the summary, the legend, the rates of the streams, and what is chosen.
const row = (...cells) => element('tr', {}, ...cells.map((cell) => element('td', {}, cell)));
const heads = (...cells) => element('tr', {}, ...cells.map((cell) => element('th', {}, cell)));
const code = (text) => element('code', {}, text);
const at = (time) => `${milliseconds(time)} ms`;
const several = (number, one, more = `${one}s`) => `${counted(number)} ${number === 1 ? one : more}`;

const LEGEND = {
  units: [['unit valid', 'valid'], ['unit lost', 'lost'], ['unit unbegun', 'never begun: its start was not heard'],
    ['unit empty', 'lost, and no unit was given for the slot']],
  PDUs: [['pdu heard', 'heard'], ['pdu repeated', 'heard again'], ['pdu missed', 'missed'], ['pdu late', 'heard too late'],
    ['pdu injected', 'injected'], ['pdu before', 'sent before the sink joined']],
  marks: [['begins', 'start, begun, joined'], ['ends', 'stop, left, dropped, stale, refused'], ['noticed', 'notices and reads'],
    ['told', 'all others: trains, answers, writes, states, sums']],
  sources: [['event', 'an event, from its anchor for BIG_Sync_Delay']],
};

function tellLegend() {
  const drawn = (kind) => SHAPES[kind] ? element('path', { class: `mark ${kind}`, d: SHAPES[kind] }) :
    element('rect', { class: kind, x: -6, y: -6, width: 12, height: 12 });
  const sign = (kind) => element('svg', { viewBox: '-7 -7 14 14' }, drawn(kind));
  byId('legend').replaceChildren(...Object.entries(LEGEND).flatMap(([group, items]) => [element('span', { class: 'quiet' }, group),
    element('span', { class: 'names' }, ...items.map(([kind, text]) => element('span', {}, sign(kind), text)))]));
}

const totals = (() => {
  const counts = tracks.map((it) => countsIn(it, 0, it.at.length));
  const sum = (...fates) => counts.reduce((total, it) => total + fates.reduce((part, fate) => part + it[fate], 0), 0);
  return { units: sum(VALID, LOST, EMPTY, UNBEGUN), missing: sum(LOST, UNBEGUN) };
})();

function tellSummary() {
  const events = Object.values(sources).reduce((sum, it) => sum + eventsOf(it), 0), sinks = new Set(run.stays.map((it) => it.sink)).size;
  const cut = Object.values(sources).map((it) => it.given.octets.reduce((most, octets) => Math.max(most, octets.length / 2), 0));
  const isCut = Object.values(sources).some((it) => it.given.octets.some((octets, place) => octets.length / 2 < it.given.length[place]));
  const facts = [`${several(Object.keys(sources).length, 'source')}, ${several(events, 'event')}, ${several(sinks, 'sink')} on a group, ` +
    `${several(totals.units, 'unit')}, of which ${counted(totals.missing)} ${totals.missing === 1 ? 'is' : 'are'} lost or never begun.`];
  if (isCut) facts.push(`Of each unit the first ${Math.max(...cut)} octets are kept here.`);
  for (const [kind, count] of Object.entries(run.left_out)) facts.push(`${counted(count)} marks "${kind}" are left out.`);
  byId('summary').textContent = facts.join(' ');
  byId('refusal').textContent = run.refusal ? `The run ends with a refusal: ${run.refusal}` : '';
}

// How many of how many units and losses are in the window.
function tellShown() {
  let units = 0, missing = 0;
  for (const track of tracks) {
    const [first, end] = unitsIn(track, shown.from, shown.to), counts = countsIn(track, first, end);
    units += end - first;
    missing += counts[LOST] + counts[UNBEGUN];
  }
  byId('shown').textContent = `Shown: ${at(shown.to - shown.from)}, ${counted(units)} of ${counted(totals.units)} units, ` +
    `${counted(missing)} of ${counted(totals.missing)} lost or never begun.`;
  byId('from').value = (shown.from / 1000).toFixed(3);
  byId('to').value = (shown.to / 1000).toFixed(3);
}

function tellRates(toGap) {
  const rows = run.rates.map((it) => {
    const [count, from, until] = it.longest, names = [it.sink, it.source, it.stream].map(String);
    const cells = row(...names, ...FATES.map((fate) => counted(it[fate])), it.rate === null ? '-' : percent(it.rate));
    const button = count ? element('button', { class: 'gap' }, `${several(count, 'unit')}, ${at(until - from)}, at ${at(from)}`) : '-';
    if (count) button.addEventListener('click', () => toGap(it.sink, it.stream, from));
    cells.append(element('td', {}, button));
    return cells;
  });
  const names = ['sink', 'source', 'stream', 'valid', 'lost', 'empty slots', 'never begun', 'lost of those given', 'longest gap'];
  byId('rates').replaceChildren(...rows.length ? [element('table', {}, heads(...names), ...rows)] : []);
}

function tellUnit(unit) {
  const { given, source, track } = unit, facts = element('table', {}, row('unit', `${run.lanes[track.lane]}, of source ${source.number}`),
    row('rendered at', at(unit.at)), row('fate', unit.fate), row('told at', `line ${unit.line}`));
  if (unit.event >= 0) facts.append(row('event', unit.slot < 0 ? `${unit.event}` : `${unit.event}, slot ${unit.slot}`));
  if (given) {
    const isCut = given.octets.length / 2 < given.length;
    facts.append(row('given by', `line ${given.line}${given.time < 0 ? '' : `, with the time ${given.time}`}`));
    facts.append(row('octets', code(`${given.length}: ${given.octets || '-'}${isCut ? ' ..' : ''}`)));
  } else {
    facts.append(row('given by', unit.fate === 'empty' ? 'no line: the slot is empty' : 'no line that is known here'));
  }
  if (unit.handed) facts.append(row('handed up', code(unit.handed)));
  return [facts, tablePdus(pdusOf(unit))];
}

const tablePdus = (pdus) => element('table', { id: 'pdus' }, heads('payload', 'event', 'subevent', 'sent at', 'the sink'),
  ...pdus.map(([number, event, subevent, sent, fate]) => row(`${number}`, `${event}`, `${subevent}`, at(sent), fate)));

// A stretch of units that are too thin to be told from each other.
function tellPart(track, first, last) {
  const counts = countsIn(track, first, last + 1), until = track.at[last] + sourceOf(track, last).sdu;
  const button = element('button', { id: 'closer' }, 'show these');
  button.addEventListener('click', () => setWindow(track.at[first], until));
  return [element('table', {}, row('units', `${run.lanes[track.lane]}: ${counted(last + 1 - first)}`),
    row('from, to', `${at(track.at[first])}, ${at(until)}`),
    row('of these', FATES.map((fate, place) => `${counted(counts[place])} ${fate}`).join(', '))), button];
}

function tellEvent(source, place) {
  const event = source.first + place, numbers = Array.from({ length: source.nse }, (_, subevent) =>
    row(`${subevent}`, `${numberOf(source, event, subevent)}`));
  return [element('table', {}, row('event', `${event}`), row('anchor', at(anchorOf(source, event))),
    row('performed at', `line ${source.events[place]}`)),
  element('table', { id: 'pdus' }, heads('subevent', 'payload of each stream'), ...numbers)];
}

function tellEvents(source, first, last) {
  return [element('table', {}, row('events', `${source.first + first} to ${source.first + last}`),
    row('anchors', `${at(anchorOf(source, source.first + first))} to ${at(anchorOf(source, source.first + last))}`))];
}

function tellPdu(stay, stream, event, subevent) {
  const source = sources[stay.source], number = numberOf(source, event, subevent);
  return [element('table', {}, row('PDU', `sink ${stay.sink}, stream ${stream}, of source ${stay.source}`)),
    tablePdus(copiesOf(source, number).map(([copy, part]) =>
      [number, copy, part, sentAt(source, copy, stream, part), fateOfPdu(stay, stream, copy, part)]))];
}

function tellMark(mark) {
  const [text, rows, notes] = run.lines[mark.line];
  return [element('table', {}, row('line', code(`${mark.line} ${text}`)), row('where', run.lanes[mark.lane]),
    row(mark.kind, code(mark.text)), ...rows.map((it) => row('row', code(it))), ...notes.map((it) => row('note', it)))];
}

function tellMarks(places) {
  return [element('table', {}, heads('line', 'marks'), ...places.slice(0, 200).map((it) =>
    row(`${run.marks[it].line}`, code(`${run.marks[it].kind} ${run.marks[it].text}`)))),
  element('p', { class: 'quiet' }, places.length > 200 ? `the first 200 of ${counted(places.length)} marks` : '')];
}

// What is told of the part of the picture with this name, or null.
function toldOf(id) {
  const [kind, ...rest] = id.split('-'), numbers = rest.map(Number), [first, second, third, fourth] = numbers;
  if (kind === 'unit' && tracks[first]?.at.length > second) return tellUnit(unitOf(tracks[first], second));
  if (kind === 'part' && tracks[first]) return tellPart(tracks[first], second, third);
  if (kind === 'event' && sources[first]?.events.length > second) return tellEvent(sources[first], second);
  if (kind === 'events' && sources[first]) return tellEvents(sources[first], second, third);
  if (kind === 'pdu' && run.stays[first]) return tellPdu(run.stays[first], second, third, fourth);
  if (kind === 'mark' && shown.stacks.has(id)) return tellMarks(shown.stacks.get(id));
  return kind === 'mark' && run.marks[first] ? tellMark(run.marks[first]) : null;
}
