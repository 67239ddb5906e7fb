'use strict';
const sweep = JSON.parse(document.getElementById('sweep').textContent);
const HEIGHT = 380, LEFT = 64, RIGHT = 24, TOP = 16, BOTTOM = 44, BARS = 150;
let listener = -1, chosen = -1; // -1: the listener that loses most; no choice

function element(name, attributes, text) {
    const made = document.createElementNS('http://www.w3.org/2000/svg', name);
    for (const [key, value] of Object.entries(attributes)) made.setAttribute(key, value);
    if (text !== undefined) made.textContent = text;
    return made;
}

// What of a choice is shown: the figures of the listener that is asked for.
function figures(choice) {
    const worst = choice.listeners.reduce((one, other) => other.loss > one.loss ? other : one);
    return listener < 0 ? worst : choice.listeners[listener];
}

const percent = (value) => value === null ? '-' : (100 * value).toPrecision(3) + ' %';
const ran = () => sweep.choices.map((choice, place) => [choice, place]).filter(([choice]) => choice.listeners.length);

// The scale of losses: by tens, and below the least of them a line for none.
function lossScale() {
    const losses = ran().map(([choice]) => figures(choice).loss).filter((loss) => loss > 0);
    const low = losses.length ? Math.floor(Math.log10(Math.min(...losses))) : -4;
    const high = losses.length ? Math.max(low + 1, Math.ceil(Math.log10(Math.max(...losses)))) : -1;
    const room = HEIGHT - TOP - BOTTOM;
    const place = (loss) => loss > 0 && Math.log10(loss) >= low - 0.5
        ? Math.max(0, TOP + room * (high - Math.log10(loss)) / (high - low + 1)) : HEIGHT - BOTTOM;
    return { low, high, place };
}

function latencyScale(width) {
    const latencies = ran().map(([choice]) => choice.latency);
    const least = Math.min(...latencies), most = Math.max(...latencies), edge = Math.max(5, (most - least) * 0.08);
    const low = least - edge, high = most + edge;
    const step = [1, 2, 5, 10, 20, 50, 100, 200, 500, 1000, 2000, 5000].find((it) => (high - low) / it <= 10) ?? 10000;
    return { low, high, step, place: (latency) => LEFT + (width - LEFT - RIGHT) * (latency - low) / (high - low) };
}

function axes(plot, width, across, down) {
    for (let power = down.low; power <= down.high; power += 1) {
        const y = down.place(10 ** power);
        plot.append(element('line', { class: 'grid', x1: LEFT, x2: width - RIGHT, y1: y, y2: y }),
            element('text', { x: LEFT - 6, y: y + 4, 'text-anchor': 'end' }, `${Number((100 * 10 ** power).toPrecision(1))} %`));
    }
    const bottom = HEIGHT - BOTTOM;
    plot.append(element('line', { class: 'grid', x1: LEFT, x2: width - RIGHT, y1: bottom, y2: bottom }),
        element('text', { x: LEFT - 6, y: bottom + 4, 'text-anchor': 'end' }, 'no loss'));
    for (let at = Math.ceil(across.low / across.step) * across.step; at <= across.high; at += across.step) {
        plot.append(element('text', { x: across.place(at), y: bottom + 18, 'text-anchor': 'middle' }, `${at}`));
    }
    plot.append(element('text', { x: width - RIGHT, y: bottom + 34, 'text-anchor': 'end' }, 'latency in ms, with the presentation delay'));
}

function drawPlot() {
    const plot = document.getElementById('plot'), width = Math.max(320, plot.clientWidth);
    plot.replaceChildren();
    plot.setAttribute('height', HEIGHT);
    if (!ran().length) return;
    const across = latencyScale(width), down = lossScale();
    axes(plot, width, across, down);
    // The greatest circles first, so that none hides another.
    for (const [choice, place] of ran().sort(([one], [other]) => other.air - one.air)) {
        const found = figures(choice), x = across.place(choice.latency), y = down.place(found.loss);
        if (found.low !== null && found.high !== null) {
            plot.append(element('line', { class: 'interval', x1: x, x2: x, y1: down.place(found.low), y2: down.place(found.high) }));
        }
        const circle = element('circle', {
            class: `choice${choice.best ? ' best' : ''}${place === chosen ? ' chosen' : ''}`, id: `choice-${place}`, cx: x, cy: y,
            r: 3 + 16 * Math.sqrt(choice.air),
        });
        circle.append(element('title', {}, `${choice.name}: ${percent(found.loss)}, ${choice.latency.toFixed(2)} ms`));
        circle.addEventListener('click', () => choose(place));
        plot.append(circle);
    }
}

// How many gaps have how many units, of all runs.
function gapBars(found) {
    const lengths = Object.keys(found.gaps).map(Number), most = Math.max(...Object.values(found.gaps), 1);
    const longest = Math.max(...lengths, 1), wide = Math.max(6, Math.min(28, 700 / longest));
    const bars = element('svg', { class: 'gaps', height: BARS + 34, role: 'img', 'aria-label': 'how many gaps have which length' });
    for (const length of lengths) {
        const count = found.gaps[length], high = Math.max(1, BARS * Math.log1p(count) / Math.log1p(most)), x = 40 + (length - 1) * wide;
        const bar = element('rect', { class: 'gap', x, y: BARS - high + 12, width: wide - 2, height: high });
        bar.append(element('title', {}, `${count} of ${(length * sweep.sdu / 1000).toFixed(1)} ms`));
        const label = (y, text) => bars.append(element('text', { x: x + wide / 2 - 1, y, 'text-anchor': 'middle' }, `${text}`));
        bars.append(bar);
        if (wide > 20) label(BARS - high + 9, count);
        if (wide > 14 || length % 5 === 0) label(BARS + 26, length);
    }
    return bars;
}

function drawDetail() {
    const detail = document.getElementById('detail'), choice = sweep.choices[chosen];
    detail.replaceChildren();
    if (!choice || !choice.listeners.length) return;
    const title = document.createElement('h2'), told = document.createElement('p'), found = figures(choice);
    title.textContent = choice.name;
    const count = Object.values(found.gaps).reduce((one, other) => one + other, 0);
    const written = (number) => number.toLocaleString('en');
    told.textContent = `${found.name}: ${written(found.lost + found.unbegun)} of ${written(found.units)} SDUs lost, `
        + `${percent(found.loss)}, ${percent(found.low)} to ${percent(found.high)}. ${written(count)} gaps, `
        + `${found.rate.toFixed(1)} a minute, the longest ${found.longest.toFixed(1)} ms. Below: how many gaps have how many SDUs.`;
    detail.append(title, told);
    if (choice.timeline) {
        const link = document.createElement('a');
        link.id = 'timeline';
        link.href = choice.timeline;
        link.textContent = 'the timeline of its first run';
        detail.append(link);
    }
    detail.append(gapBars(found));
}

const COLUMNS = [['choice', (it) => `${it.best ? '* ' : ''}${it.name}`], ['air', (it) => percent(it.air)],
    ['latency ms', (it) => it.latency.toFixed(2)], ['sync ms', (it) => it.sync.toFixed(2)], ['loss', (it) => percent(figures(it).loss)],
    ['low', (it) => percent(figures(it).low)], ['high', (it) => percent(figures(it).high)],
    ['gap ms', (it) => figures(it).longest.toFixed(1)],
    ['gaps a minute', (it) => figures(it).rate.toFixed(1)]];

function drawTable() {
    const table = document.createElement('table'), head = table.createTHead().insertRow(), body = table.createTBody();
    for (const [name] of COLUMNS) {
        head.append(Object.assign(document.createElement('th'), { textContent: name }));
    }
    sweep.choices.forEach((choice, place) => {
        const row = body.insertRow();
        row.id = `row-${place}`;
        if (!choice.listeners.length) {
            row.insertCell().textContent = choice.name;
            Object.assign(row.insertCell(), { colSpan: COLUMNS.length - 1, textContent: choice.refusal ?? 'no run was made' });
            return;
        }
        row.classList.toggle('chosen', place === chosen);
        for (const [, told] of COLUMNS) row.insertCell().textContent = told(choice);
        row.addEventListener('click', () => {
            choose(place);
            document.getElementById('detail').scrollIntoView({ block: 'nearest' });
        });
    });
    document.getElementById('table').replaceChildren(table);
}

function draw() {
    const buttons = ['the worst', ...sweep.listeners].map((name, place) => {
        const button = Object.assign(document.createElement('button'), { textContent: name, id: `listener-${place}` });
        button.setAttribute('aria-pressed', place - 1 === listener);
        button.addEventListener('click', () => { listener = place - 1; draw(); });
        return button;
    });
    document.getElementById('listeners').replaceChildren(...buttons);
    drawPlot();
    drawDetail();
    drawTable();
}

function choose(place) {
    chosen = place;
    draw();
}

document.getElementById('summary').textContent = sweep.summary;
addEventListener('resize', drawPlot);
draw();
