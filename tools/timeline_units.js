'use strict';
// The run as it is embedded: its sources, the stays of its sinks, and of each stream of a sink its units and its gaps. Times are µs.
const run = JSON.parse(document.getElementById('run').textContent);
const FATES = ['valid', 'lost', 'empty', 'unbegun'], VALID = 0, LOST = 1, EMPTY = 2, UNBEGUN = 3;
// What a PDU was to a sink, by its letter.
const LETTERS = { h: 'heard', r: 'repeated', l: 'late', i: 'injected', m: 'missed', b: 'before it joined' };

// A column of numbers: the page has each difference to the number before, and how often it stands in a row.
function columnOf(runs) {
  let length = 0;
  for (let place = 1; place < runs.length; place += 2) length += runs[place];
  const column = new Float64Array(length);
  for (let place = 0, row = 0, value = 0; place < runs.length; place += 2) {
    for (const end = row + runs[place + 1]; row < end; row += 1) {
      value += runs[place];
      column[row] = value;
    }
  }
  return column;
}

function withColumns(embedded, names) {
  return { ...embedded, ...Object.fromEntries(names.map((name) => [name, columnOf(embedded[name])])) };
}

const sources = Object.fromEntries(Object.entries(run.sources).map(([number, it]) => [number, {
  ...withColumns(it, ['events']), number: Number(number),
  given: withColumns(it.given, ['stream', 'line', 'time', 'number', 'pdus', 'length']),
}]));
const tracks = run.tracks.map((it) => withColumns(it, ['at', 'fate', 'stay', 'line', 'event', 'slot', 'given']));

const sourceOf = (track, index) => sources[run.stays[track.stay[index]].source];
const isMissing = (fate) => fate === LOST || fate === UNBEGUN;
const anchorOf = (source, event) => source.origin + (event - source.first) * source.interval;
const eventsOf = (source) => source.events.length;

// The gaps of all streams in the order of time: units of a stream that are lost or never begun in a row.
const gaps = tracks.flatMap((track) => {
  const [firsts, lasts, counts] = track.gaps.map(columnOf);
  return [...firsts].map((first, place) => ({ track, first, last: lasts[place], count: counts[place], at: track.at[first],
    until: track.at[lasts[place]] + sourceOf(track, first).sdu }));
}).sort((one, other) => one.at - other.at || one.track.lane - other.track.lane);

// The first place of a rising column that holds this value or more.
function placeIn(column, value) {
  let low = 0, high = column.length;
  while (low < high) {
    const middle = (low + high) >> 1;
    if (column[middle] < value) low = middle + 1;
    else high = middle;
  }
  return low;
}

// The units of a track that are on between two times: the place of the first, and the place behind the last.
function unitsIn(track, from, to) {
  let first = placeIn(track.at, from);
  while (first > 0 && track.at[first - 1] + sourceOf(track, first - 1).sdu > from) first -= 1;
  return [first, placeIn(track.at, to)];
}

function laterOf(source, subevent) {
  const carrier = Math.floor(subevent / source.bn);
  return carrier < source.irc ? 0 : source.pto * (carrier - source.irc + 1);
}

const numberOf = (source, event, subevent) => (event + laterOf(source, subevent)) * source.bn + subevent % source.bn;
const sentAt = (source, event, stream, subevent) => anchorOf(source, event) + (stream - 1) * source.spacing + subevent * source.sub;

// The events and subevents in which a payload is sent, in the order of time.
function copiesOf(source, number) {
  const copies = [];
  for (let subevent = number % source.bn; subevent < source.nse; subevent += source.bn) {
    copies.push([Math.floor(number / source.bn) - laterOf(source, subevent), subevent]);
  }
  return copies.filter(([event]) => event >= source.first).sort((one, other) => one[0] - other[0] || one[1] - other[1]);
}

// What a PDU was to a sink in one of its stays.
function fateOfPdu(stay, stream, event, subevent) {
  const source = sources[stay.source];
  if (event >= source.first + eventsOf(source)) return 'not sent';
  if (event < stay.since) return LETTERS.b;
  return LETTERS[stay.letters[stream]?.[(event - stay.since) * source.nse + subevent]] ?? 'after it left';
}

// All that is known of a unit.
function unitOf(track, index) {
  const stay = run.stays[track.stay[index]], source = sources[stay.source], place = track.given[index];
  const given = place < 0 ? null : Object.fromEntries(Object.keys(source.given).map((key) => [key, source.given[key][place]]));
  return { track, index, stay, source, given, at: track.at[index], fate: FATES[track.fate[index]], line: track.line[index],
    event: track.event[index], slot: track.slot[index], handed: track.handed[index] ?? null };
}

// The PDUs that carry a unit: payload number, event, subevent, when it is sent, and what it was to the sink.
function pdusOf({ track, stay, source, given }) {
  const numbers = Array.from({ length: given?.pdus ?? 0 }, (_, place) => given.number + place);
  return numbers.flatMap((number) => copiesOf(source, number).map(([event, subevent]) =>
    [number, event, subevent, sentAt(source, event, track.stream, subevent), fateOfPdu(stay, track.stream, event, subevent)]));
}

// How many units of a stretch of a track have each fate.
function countsIn(track, first, end) {
  const counts = [0, 0, 0, 0];
  for (let index = first; index < end; index += 1) counts[track.fate[index]] += 1;
  return counts;
}
