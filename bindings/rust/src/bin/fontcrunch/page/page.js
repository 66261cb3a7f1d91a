'use strict';
// The page of a letter, or of many: it reads the traces that stand in it, draws them, and tells of what is pointed at.
// docs/trace.schema.json says what a trace holds; the geometry here is for drawing and pointing alone.

const byId = id => document.getElementById(id);
const parsed = element => JSON.parse(element.textContent);
const META = parsed(byId('meta'));
const LETTERS = [...document.querySelectorAll('script.letter')].map((element, i) => ({element, i}));
const SVG = 'http://www.w3.org/2000/svg';
const EDITIONS = META.penalties.length;
const EDITION_NAMES = EDITIONS > 1 ? ['a', 'b'] : [''];

// ---- small helpers

function made(name, attributes = {}, ...children) {
  const element = document.createElement(name);
  for (const [key, value] of Object.entries(attributes)) {
    if (key === 'class') element.className = value;
    else if (key.startsWith('on')) element.addEventListener(key.slice(2), value);
    else if (value !== null && value !== undefined) element.setAttribute(key, value);
  }
  element.append(...children.filter(child => child !== null && child !== undefined && child !== ''));
  return element;
}

function drawn(name, attributes = {}, text = '') {
  const element = document.createElementNS(SVG, name);
  for (const [key, value] of Object.entries(attributes)) element.setAttribute(key, value);
  if (text !== '') element.textContent = text;
  return element;
}

const short = (value, decimals = 2) => {
  const number = Number(value);
  return Number.isFinite(number) ? String(Number(number.toFixed(decimals))).replace('-', '\u2212') : String(value);
};
const at = ([x, y]) => `(${short(x)}, ${short(y)})`;
const counted = (count, what) => `${count.toLocaleString('en')} ${what}${count === 1 ? '' : 's'}`;
const clamp = (value, low, high) => Math.min(Math.max(value, low), high);

// ---- outlines

// The curves of any row of points, implied ones put in: [start, control or null, end] each.
function curvesOf(points) {
  if (!points.length) return [];
  const middle = (a, b) => [(a[0] + b[0]) / 2, (a[1] + b[1]) / 2];
  const place = p => [p[0], p[1]];
  const [first, last] = [points[0], points[points.length - 1]];
  let start, rest;
  if (first[2]) [start, rest] = [place(first), points.slice(1)];
  else if (last[2]) [start, rest] = [place(last), points.slice(0, -1)];
  else [start, rest] = [middle(last, first), points];
  const curves = [];
  let [from, control] = [start, null];
  for (const point of rest) {
    if (!point[2] && control === null) { control = place(point); continue; }
    const end = point[2] ? place(point) : middle(control, point);
    curves.push([from, control, end]);
    [from, control] = [end, point[2] ? null : place(point)];
  }
  curves.push([from, control, start]);
  return curves;
}

const step = ([, control, end]) => control ? `Q${control[0]} ${control[1]} ${end[0]} ${end[1]}` : `L${end[0]} ${end[1]}`;
const pathOf = curve => `M${curve[0][0]} ${curve[0][1]}${step(curve)}`;
const closedPath = curves => curves.length ? `M${curves[0][0][0]} ${curves[0][0][1]}${curves.map(step).join('')}Z` : '';

function along([a, control, b], t) {
  if (!control) return [a[0] + t * (b[0] - a[0]), a[1] + t * (b[1] - a[1])];
  const u = 1 - t;
  return [u * u * a[0] + 2 * u * t * control[0] + t * t * b[0], u * u * a[1] + 2 * u * t * control[1] + t * t * b[1]];
}

const flat = curve => Array.from({length: curve[1] ? 17 : 2}, (_, i) => along(curve, i / (curve[1] ? 16 : 1)));

// ---- letters

// A segment or a piece with its curve; as a polygon only where it is asked for, since a page may hold many.
class Drawn {
  constructor(curve, held) {
    Object.assign(this, held, {curve});
  }

  get line() {
    return this.polygon ||= flat(this.curve);
  }
}

// What came of a contour in an edition: its pieces in one list, with their curves and runs.
function readEdition(trace) {
  const pieces = [];
  trace.runs.forEach((run, r) => run.pieces.forEach((piece, i) => {
    const told = piece.written || piece.beside;
    if (!told) return;
    const control = piece.written ? piece.written.control || null : !piece.control || piece.beside.straight ? null : piece.control;
    const curve = [told.start, control, told.end].map(place => place && place.map(Number));
    if (curve.some(place => place && !place.every(Number.isFinite))) return;
    pieces.push(new Drawn(curve, {piece, run, r, last: i === run.pieces.length - 1}));
  }));
  const out = trace.crunch ? trace.crunch.points : null;
  return {trace, pieces, out, curves: out ? curvesOf(out) : []};
}

function readContour(contour, c) {
  if (contour.malformed !== undefined) return {c, malformed: contour.malformed, line: contour.line, editions: [], segments: [], curves: [], points: []};
  const trace = contour.traces[0];
  const segments = trace.segments.map(segment => {
    return new Drawn([segment.start, segment.control || null, segment.end], {segment});
  });
  return {c, points: trace.points, curves: curvesOf(trace.points), segments, limit: trace.beside.limit, editions: contour.traces.map(readEdition)};
}

function letterOf(entry) {
  if (!entry.letter) {
    const data = parsed(entry.element);
    const contours = data.contours.map(readContour);
    entry.letter = {name: data.name, refused: data.refused || null, writtenOut: data.stood !== undefined, contours, ...counts(contours, data)};
  }
  return entry.letter;
}

// A glyph that is refused stays as it stands in its file, where implied points may not be written.
function counts(contours, {stood, refused}) {
  const real = contours.filter(contour => contour.malformed === undefined);
  const before = stood === undefined ? real.reduce((sum, contour) => sum + contour.points.length, 0) : stood;
  const came = e => real.reduce((sum, {points, editions}) => sum + (editions[e].out || points).length, 0);
  const after = EDITION_NAMES.map((_, e) => refused && stood !== undefined ? stood : came(e));
  const farthest = Math.max(0, ...real.flatMap(({editions}) => editions.flatMap(({pieces}) => pieces.map(distanceOf))));
  const lost = real.reduce((sum, {editions}) => sum + editions[0].trace.beside.lost.length, 0);
  return {before, after, farthest, lost, malformed: contours.length - real.length};
}

function distanceOf({piece}) {
  const far = piece.beside && piece.beside.distance;
  return Number.isFinite(far) ? far : 0;
}

function boxOf(contours) {
  const places = contours.flatMap(contour => [...contour.points, ...contour.editions.flatMap(edition => edition.out || [])]);
  if (!places.length) return [0, 0, 100, 100];
  const [xs, ys] = [places.map(p => p[0]), places.map(p => p[1])];
  const low = row => row.reduce((a, b) => Math.min(a, b)), high = row => row.reduce((a, b) => Math.max(a, b));
  return [low(xs), low(ys), high(xs), high(ys)];
}

// A contour that is refused fills as it came, so that what it surrounds is still told from it; in the crate's mode others come out reversed.
function filledAfter(contour, e) {
  const edition = contour.editions[e];
  if (!edition) return '';
  if (edition.out) return closedPath(edition.curves);
  const points = edition.trace.settings.closed ? contour.points : [...contour.points].reverse();
  return closedPath(curvesOf(points));
}

// ---- words

// Where a stretch is not written, its points are not saved but gone with it, and no per cent are told.
function changeWords(before, after, lost = 0) {
  const change = `${before.toLocaleString('en')} \u2192 ${counted(after, 'point')}`;
  if (lost) return `${change}, ${counted(lost, 'segment')} not written`;
  return after < before ? `${change} (\u2212${Math.round(100 * (before - after) / before)}\u00a0%)` : change;
}

const LISTED = {x: 'x', y: 'y'};

function cornerWords(segment, limit) {
  const why = segment.why, told = [];
  const turns = why.filter(name => LISTED[name]);
  if (turns.length) told.push(`turns back in ${turns.join(' and in ')}`);
  const zero = why.filter(name => name === 'before' || name === 'after');
  if (zero.length) told.push(`zero tangent${zero.length > 1 ? 's' : ''} ${zero.join(' and ')}`);
  if (segment.beside) {
    const {degrees} = segment.beside, bend = short(degrees, degrees < 2 ? 2 : 1), most = short(limit.degrees);
    if (why.includes('angle')) told.push(`bend of ${bend} degrees, limit ${most}`);
    else if (degrees > 90) told.push(`turns round by ${bend} degrees, within ${most} of a half turn, which is no corner by angle`);
    else told.push(`bend of ${bend} degrees, within the limit of ${most}`);
  }
  return told.join('; ');
}

// In a glyph of a file implied points are written out first, so that a contour has more than stand there.
function contourWords(contour, {out, trace}) {
  if (!state.letter.writtenOut) return changeWords(contour.points.length, out.length, trace.beside.lost.length);
  return `${counted(contour.points.length, 'point')} with those implied \u2192 ${out.length.toLocaleString('en')}`;
}

const away = distance => `${distance > 0 && distance < .01 ? 'under 0.01' : short(distance)} units`;

const span = ([first, last]) => first === last ? `segment ${first}` : `segments ${first} to ${last}`;

// The numbers of the segments from the first to the last, going round.
function spread([first, last], total) {
  const count = (last < first ? last + total : last) - first + 1;
  return Array.from({length: count}, (_, i) => (first + i) % total);
}

const inRun = (run, s, total) => (s - run.first + total) % total < run.count;

// ---- state

const LAYERS = [['fill', 'Fill', '--after'], ['pieces', 'Pieces', '--after'], ['segments', 'Segments', '--before'], ['corners', 'Corners', '--corner'],
  ['breaks', 'Breaks', '--break'], ['points', 'Points', '--before'], ['numbers', 'Numbers', '--quiet'], ['grid', 'Grid', '--base']];
const VIEWS = EDITIONS > 1 ? [['beside', 'Editions beside each other'], ['side', 'Before, a, b'], ['overlay', 'All overlaid']]
  : [['overlay', 'Overlaid'], ['side', 'Side by side']];
const PICKS = [['piece', 'Pieces'], ['segment', 'Segments'], ['corner', 'Corners']];

const state = {
  letter: null, entry: null, view: VIEWS[0][0], pick: 'piece', edition: 0, hidden: new Set(['points', 'numbers']), chosen: null, pointed: null,
  scale: 1, x: 0, y: 0, panes: [],
};
const stage = byId('stage');

function panesWanted() {
  const label = e => EDITIONS > 1 ? `${EDITION_NAMES[e]}: penalty ${META.penalties[e]}` : 'after';
  const all = EDITION_NAMES.map((_, e) => e);
  if (state.view === 'overlay') return [{before: true, editions: all, label: EDITIONS > 1 ? 'before, a and b' : 'before and after'}];
  if (state.view === 'beside') return all.map(e => ({before: true, editions: [e], label: label(e)}));
  return [{before: true, editions: [], label: 'before'}, ...all.map(e => ({before: false, editions: [e], label: label(e)}))];
}

// ---- drawing

function layOut() {
  stage.replaceChildren();
  const wanted = panesWanted();
  stage.classList.toggle('many', wanted.length > 1);
  stage.classList.toggle('overlaid', state.view === 'overlay');
  state.panes = wanted.map(want => {
    const svg = drawn('svg', {'aria-hidden': 'true'});
    const world = drawn('g', {class: 'world'}), marks = drawn('g', {class: 'marks'}), lights = drawn('g', {class: 'world lights'});
    const labels = drawn('g', {class: 'marks lights'});
    svg.append(world, lights, marks, labels);
    const element = made('div', {class: 'pane'}, svg, made('div', {class: 'label'}, paneLabel(want)));
    stage.append(element);
    const pane = {...want, element, svg, world, marks, lights, labels, moved: [], lit: [], grid: drawn('path', {class: 'grid'})};
    fillPane(pane);
    return pane;
  });
  state.readout = made('div', {class: 'readout'});
  stage.append(state.readout);
  if (!state.letter.contours.length) stage.append(made('div', {class: 'empty'}, 'There is no contour: nothing is drawn.'));
  placeNow();
  light();
}

function paneLabel(want) {
  const {letter} = state;
  if (!want.editions.length) return `${want.label}: ${counted(letter.before, 'point')}`;
  if (want.editions.length > 1) return want.label;
  return `${want.label}: ${changeWords(letter.before, letter.after[want.editions[0]], letter.lost)}`;
}

function fillPane(pane) {
  const {world} = pane, {contours} = state.letter;
  world.append(pane.grid, drawn('path', {class: 'base', d: 'M-1000000 0H1000000'}));
  if (pane.before) world.append(drawn('path', {class: 'fill-before', d: contours.map(({curves}) => closedPath(curves)).join('')}));
  for (const e of pane.editions) {
    world.append(drawn('path', {class: `fill-${e ? 'b' : 'a'}`, d: contours.map(contour => filledAfter(contour, e)).join('')}));
  }
  for (const contour of contours) {
    drawHalos(pane, contour);
    if (pane.before) drawSegments(pane, contour);
    for (const e of pane.editions) drawPieces(pane, contour, e);
    drawMarks(pane, contour);
  }
}

function drawHalos(pane, contour) {
  const shown = pane.editions.length ? pane.editions : EDITION_NAMES.map((_, e) => e);
  for (const e of shown) {
    const edition = contour.editions[e];
    if (!edition) continue;
    const total = contour.segments.length;
    for (const run of edition.trace.runs) {
      const kind = run.came === 'refused' ? 'refused' : run.chain && run.chain.fallen ? 'fell' : null;
      if (!kind) continue;
      const d = spread([run.first, (run.first + run.count - 1) % total], total).map(s => pathOf(contour.segments[s].curve)).join('');
      pane.world.append(drawn('path', {class: `halo ${kind}`, d}));
    }
    // refused before runs are looked at: the whole contour
    if (!edition.out && !edition.trace.runs.some(run => run.came === 'refused')) {
      pane.world.append(drawn('path', {class: 'halo refused', d: closedPath(contour.curves)}));
    }
  }
}

function drawSegments(pane, contour) {
  const lost = new Set(contour.editions.flatMap(({trace}) => trace.beside.lost));
  contour.segments.forEach(({curve}, s) => {
    pane.world.append(drawn('path', {class: `seg${lost.has(s) ? ' lost' : ''}`, d: pathOf(curve), 'data-s': `${contour.c}.${s}`}));
  });
  if (!contour.segments.length) pane.world.append(drawn('path', {class: 'seg', d: closedPath(contour.curves)}));
  drawPoints(pane, contour.points, contour.curves, '');
}

function drawPieces(pane, contour, e) {
  const edition = contour.editions[e], name = e ? 'b' : 'a';
  if (!edition) return;
  edition.pieces.forEach(({piece, curve}, p) => {
    const written = piece.written ? '' : ' unwritten';
    pane.world.append(drawn('path', {class: `piece ${name}${written}`, d: pathOf(curve), 'data-p': `${contour.c}.${name}.${p}`}));
  });
  if (!edition.out) return;
  // what closes the outline is no piece
  const closing = edition.trace.beside.unchanged ? edition.curves : edition.trace.settings.closed ? [] : edition.curves.slice(-1);
  closing.forEach(curve => pane.world.append(drawn('path', {class: edition.trace.beside.unchanged ? `piece ${name}` : 'closing', d: pathOf(curve)})));
  drawPoints(pane, edition.out, edition.curves, name);
}

// An element that stays as large as it is while the letter is zoomed.
function mark(pane, layer, place, element, off = [0, 0]) {
  pane.moved.push({element, place, off, layer});
  pane.marks.append(element);
}

// Beside the middle of a curve, so many pixels to its left.
function aside([from, control, to], pixels) {
  const [dx, dy] = [to[0] - from[0], to[1] - from[1]], length = Math.hypot(dx, dy) || 1;
  return [-dy / length * pixels, -dx / length * pixels];
}

function drawPoints(pane, points, curves, name) {
  const handles = points.map((point, i) => {
    const next = points[(i + 1) % points.length];
    return point[2] && next[2] ? '' : `M${point[0]} ${point[1]}L${next[0]} ${next[1]}`;
  });
  pane.world.append(drawn('path', {class: 'handle', d: handles.join('')}));
  for (const point of points) {
    const shape = point[2] ? drawn('rect', {class: `on ${name}`, x: -3, y: -3, width: 6, height: 6}) : drawn('circle', {class: `off ${name}`, r: 3});
    mark(pane, 'points', point, shape);
  }
  if (name || !curves.length) return;
  const [from, control, end] = curves[0], to = control || end;
  const turn = Math.atan2(-(to[1] - from[1]), to[0] - from[0]) * 180 / Math.PI;
  const group = drawn('g');
  group.append(drawn('polygon', {class: 'arrow', points: '20,0 10,-5 10,5', transform: `rotate(${turn})`}));
  mark(pane, 'points', from, group);
}

function drawMarks(pane, contour) {
  contour.segments.forEach(({segment, curve}, s) => {
    if (pane.before) mark(pane, 'numbers', along(curve, .5), drawn('text', {class: 'number'}, s), aside(curve, 12));
    if (!segment.why.length) return;
    mark(pane, 'corners', segment.start, drawn('circle', {class: 'ring', r: 7.5, 'data-k': `${contour.c}.${s}`}));
  });
  for (const e of pane.editions) {
    const edition = contour.editions[e];
    if (!edition) continue;
    edition.pieces.forEach(({curve, last}, p) => {
      mark(pane, 'numbers', along(curve, .5), drawn('text', {class: `number ${e ? 'b' : 'a'}`}, p), aside(curve, e ? -26 : -12));
      if (last) return;
      const [, control, end] = curve, from = control || curve[0];
      const turn = Math.atan2(-(end[1] - from[1]), end[0] - from[0]) * 180 / Math.PI;
      const tick = drawn('g');
      tick.append(drawn('line', {class: 'tick', y1: -8, y2: 8, transform: `rotate(${turn})`}));
      mark(pane, 'breaks', end, tick);
    });
  }
}

// ---- where things are on the screen

const onScreen = ([x, y]) => [state.x + x * state.scale, state.y - y * state.scale];
const inUnits = ([x, y]) => [(x - state.x) / state.scale, (state.y - y) / state.scale];
const paneSize = () => {
  const box = state.panes[0].element.getBoundingClientRect();
  return [Math.max(box.width, 50), Math.max(box.height, 50)];
};

function fit(box = boxOf(state.letter.contours), most = 60) {
  const [width, height] = paneSize(), [left, low, right, high] = box;
  const margin = Math.min(width, height) * .09 + 14;
  const scale = Math.min((width - 2 * margin) / Math.max(right - left, 1), (height - 2 * margin) / Math.max(high - low, 1));
  state.scale = clamp(scale, 1e-4, most);
  state.x = width / 2 - (left + right) / 2 * state.scale;
  state.y = height / 2 + (low + high) / 2 * state.scale;
  placeNow();
}

function zoom(factor, [x, y] = paneSize().map(side => side / 2)) {
  const [ux, uy] = inUnits([x, y]);
  state.scale = clamp(state.scale * factor, 1e-4, 400);
  state.x = x - ux * state.scale;
  state.y = y + uy * state.scale;
  place();
}

function move(dx, dy) {
  state.x += dx;
  state.y += dy;
  place();
}

// What has moved is drawn with the next frame, however often it has moved until then.
function place() {
  if (!state.placing) state.placing = requestAnimationFrame(placeNow);
}

function placeNow() {
  state.placing = null;
  if (!state.letter) return;
  const matrix = `matrix(${state.scale} 0 0 ${-state.scale} ${state.x} ${state.y})`;
  const [width, height] = paneSize();
  const grid = gridPath(width, height);
  for (const pane of state.panes) {
    pane.world.setAttribute('transform', matrix);
    pane.lights.setAttribute('transform', matrix);
    pane.grid.setAttribute('d', grid.d);
    placeMarks(pane.moved.filter(({layer}) => !state.hidden.has(layer)), width, height);
    placeMarks(pane.lit, width, height);
    if (!state.hidden.has('numbers')) thinNumbers(pane);
  }
  state.gridWords = grid.words;
  readOut(null);
}

// What is outside the pane, before and now, is left where it is.
function placeMarks(marks, width, height) {
  for (const held of marks) {
    const [x, y] = onScreen(held.place), outside = x < -60 || y < -60 || x > width + 60 || y > height + 60;
    if (!outside || !held.outside) {
      held.element.setAttribute('transform', `translate(${(x + held.off[0]).toFixed(2)} ${(y + held.off[1]).toFixed(2)})`);
    }
    held.outside = outside;
  }
}

// Numbers that would stand over others are left out until there is room for them.
function thinNumbers(pane) {
  const taken = new Map();
  for (const {element, place: where, off, layer} of pane.moved) {
    if (layer !== 'numbers') continue;
    const [x, y] = onScreen(where), [column, line] = [Math.round((x + off[0]) / 9), Math.round((y + off[1]) / 8)];
    const near = [-2, -1, 0, 1, 2].some(dx => [-1, 0, 1].some(dy => taken.has(`${column + dx} ${line + dy}`)));
    element.style.visibility = near ? 'hidden' : '';
    if (!near) taken.set(`${column} ${line}`, true);
  }
}

// The grid that breaks are rounded to where there is room for it; else one of 1, 10, 100 .. units.
function gridPath(width, height) {
  const fine = META.whole_units ? 1 : .5;
  let gap = fine;
  for (const next of [fine, 1, 2, 5, 10, 20, 50, 100, 200, 500, 1000, 2000, 5000, 10000, 100000]) {
    gap = next;
    if (gap * state.scale >= (gap === fine ? 8 : 26)) break;
  }
  const [left, high] = inUnits([0, 0]), [right, low] = inUnits([width, height]);
  let d = '';
  for (let x = Math.ceil(left / gap) * gap; x <= right; x += gap) d += `M${x} ${low}V${high}`;
  for (let y = Math.ceil(low / gap) * gap; y <= high; y += gap) d += `M${left} ${y}H${right}`;
  return {d, words: gap === fine ? `grid of breaks: ${fine === 1 ? 'whole' : 'half'} units` : `grid: ${gap.toLocaleString('en')} units`};
}

function readOut(where) {
  const grid = state.hidden.has('grid') ? '' : ` \u00b7 ${state.gridWords}`;
  const zoomed = state.scale >= 1 ? `1 unit = ${short(state.scale, 1)} px` : `1 px = ${short(1 / state.scale, 1)} units`;
  state.readout.textContent = `${where ? `${at(where.map(v => Math.round(v * 10) / 10))} \u00b7 ` : ''}${zoomed}${grid}`;
}

// ---- pointing

const keyOf = thing => thing && `${thing.kind} ${thing.c} ${thing.kind === 'piece' ? thing.e : ''} ${thing.i}`;

function distanceTo(line, [x, y]) {
  let best = Infinity;
  for (let i = 1; i < line.length; i++) {
    const [a, b] = [line[i - 1], line[i]];
    const [dx, dy] = [b[0] - a[0], b[1] - a[1]];
    const t = clamp(((x - a[0]) * dx + (y - a[1]) * dy) / (dx * dx + dy * dy || 1), 0, 1);
    best = Math.min(best, (a[0] + t * dx - x) ** 2 + (a[1] + t * dy - y) ** 2);
  }
  return Math.sqrt(best);
}

// What is pointed at in a pane: what is nearest, of the kind that is picked first.
function found(pane, where, reach) {
  const units = inUnits(where), far = reach / state.scale;
  const best = {piece: [far], segment: [far], corner: [far * .8]};
  const offer = (kind, distance, thing) => { if (distance < best[kind][0]) best[kind] = [distance, thing]; };
  for (const contour of state.letter.contours) {
    const {c} = contour;
    contour.segments.forEach(({segment, line}, i) => {
      if (segment.why.length && !state.hidden.has('corners')) {
        offer('corner', Math.hypot(segment.start[0] - units[0], segment.start[1] - units[1]), {kind: 'corner', c, i});
      }
      if (pane.before && !state.hidden.has('segments')) offer('segment', distanceTo(line, units), {kind: 'segment', c, i});
    });
    if (state.hidden.has('pieces')) continue;
    const order = pane.editions.includes(state.edition) ? [state.edition, ...pane.editions.filter(e => e !== state.edition)] : pane.editions;
    for (const e of order) {
      if (contour.editions[e]) contour.editions[e].pieces.forEach(({line}, i) => offer('piece', distanceTo(line, units), {kind: 'piece', c, e, i}));
    }
  }
  const order = [state.pick, 'corner', 'piece', 'segment'];
  // a ring is small and on an outline: nearer than half its reach it is what is meant
  if (best.corner[1] && best.corner[0] < far * .4) return best.corner[1];
  return order.map(kind => best[kind][1]).find(thing => thing) || null;
}

function things(kind, contour, e) {
  if (contour.malformed !== undefined) return [];
  if (kind === 'piece') return (contour.editions[e] || {pieces: []}).pieces.map((_, i) => i);
  const all = contour.segments.map((_, i) => i);
  return kind === 'corner' ? all.filter(i => contour.segments[i].segment.why.length) : all;
}

function exists(thing) {
  const contour = thing && state.letter.contours[thing.c];
  return Boolean(contour) && (thing.kind === 'contour' || things(thing.kind, contour, thing.e || 0).includes(thing.i));
}

function choose(thing, {keep = false} = {}) {
  state.chosen = thing && exists(thing) ? thing : null;
  state.pointed = null;
  if (state.chosen && state.chosen.kind === 'piece' && state.edition !== state.chosen.e) {
    state.edition = state.chosen.e;
    fillList();
  }
  light();
  if (!keep) history.replaceState(null, '', addressOf(state.entry, state.chosen));
}

function next(by) {
  const kind = state.pick, {contours} = state.letter;
  const all = contours.flatMap(contour => things(kind, contour, state.edition).map(i => ({kind, c: contour.c, e: state.edition, i})));
  if (!all.length) return;
  const here = all.findIndex(thing => keyOf(thing) === keyOf(state.chosen));
  const from = here >= 0 ? here : by > 0 ? -1 : 0;
  choose(all[(from + by + all.length) % all.length]);
  keepInView();
}

function nextContour(by) {
  const {contours} = state.letter;
  if (!contours.length) return;
  const c = ((state.chosen ? state.chosen.c + by : 0) + contours.length) % contours.length;
  const [i] = things(state.pick, contours[c], state.edition);
  choose(i === undefined ? {kind: 'contour', c, i: 0} : {kind: state.pick, c, e: state.edition, i});
  keepInView();
}

function boxAround(thing) {
  const contour = state.letter.contours[thing.c];
  const lines = thing.kind === 'contour' ? contour.curves.map(flat)
    : thing.kind === 'piece' ? [contour.editions[thing.e].pieces[thing.i].line] : [contour.segments[thing.i].line];
  const places = thing.kind === 'corner' ? [contour.segments[thing.i].segment.start] : lines.flat();
  const [xs, ys] = [places.map(p => p[0]), places.map(p => p[1])];
  return [Math.min(...xs), Math.min(...ys), Math.max(...xs), Math.max(...ys)];
}

function keepInView() {
  if (!state.chosen || !state.letter.contours[state.chosen.c].curves.length) return;
  const [left, low, right, high] = boxAround(state.chosen), [width, height] = paneSize();
  const [x, y] = onScreen([(left + right) / 2, (low + high) / 2]);
  if (x < 30 || y < 30 || x > width - 30 || y > height - 30) move(width / 2 - x, height / 2 - y);
}

// ---- lighting up what belongs together

function related(thing) {
  if (!thing || thing.kind === 'contour') return {pieces: [], segments: thing ? state.letter.contours[thing.c].segments.map((_, i) => i) : []};
  const contour = state.letter.contours[thing.c], total = contour.segments.length;
  if (thing.kind === 'piece') {
    return {pieces: [[thing.e, thing.i]], segments: spread(contour.editions[thing.e].pieces[thing.i].piece.segments, total)};
  }
  if (thing.kind === 'corner') return {pieces: [], segments: []};
  return {pieces: contour.editions.flatMap((edition, e) => owners(edition, thing.i, total).map(p => [e, p])), segments: [thing.i]};
}

// The pieces of an edition that replace a segment.
function owners(edition, segment, total) {
  return edition.pieces.flatMap(({piece}, p) => spread(piece.segments, total).includes(segment) ? [p] : []);
}

function light() {
  const thing = state.pointed || state.chosen;
  const contour = thing && state.letter.contours[thing.c];
  const {pieces, segments} = related(thing);
  for (const pane of state.panes) {
    pane.lights.replaceChildren();
    pane.labels.replaceChildren();
    pane.lit = [];
    if (!thing) continue;
    for (const s of segments) lightSegment(pane, contour, s, thing);
    for (const [e, p] of pieces) if (pane.editions.includes(e)) lightPiece(pane, contour, e, p);
    if (thing.kind === 'corner') label(pane, contour.segments[thing.i].segment.start, drawn('circle', {class: 'ring chosen', r: 10}));
    if (thing.kind === 'piece') lightFarthest(pane, contour.editions[thing.e].pieces[thing.i].piece);
    placeMarks(pane.lit, ...paneSize());
  }
  tell(thing);
  document.querySelectorAll('#list [aria-current]').forEach(button => button.removeAttribute('aria-current'));
  const row = state.chosen && document.querySelector(`#list [data-key="${keyOf(state.chosen)}"]`);
  if (row) {
    row.setAttribute('aria-current', 'true');
    row.scrollIntoView({block: 'nearest'});
  }
}

function label(pane, where, element, off = [0, 0]) {
  pane.lit.push({element, place: where, off});
  pane.labels.append(element);
}

function lightSegment(pane, contour, s, thing) {
  const {curve} = contour.segments[s];
  pane.lights.append(drawn('path', {class: 'lit', d: pathOf(curve), 'data-lit': s}));
  if (thing.kind === 'segment') pane.lights.append(drawn('path', {class: 'chosen seg-chosen', d: pathOf(curve)}));
  if (pane.before && thing.kind !== 'contour') label(pane, along(curve, .5), drawn('text', {class: 'number lit'}, s), aside(curve, 16));
}

function lightPiece(pane, contour, e, p) {
  const {curve} = contour.editions[e].pieces[p];
  pane.lights.append(drawn('path', {class: `chosen ${e ? 'b' : 'a'}`, d: pathOf(curve), 'data-chosen': p}));
}

function lightFarthest(pane, piece) {
  const far = piece.beside && piece.beside.distance;
  if (!(far > 0)) return;
  const cross = drawn('g', {class: 'far-mark'});
  cross.append(drawn('path', {class: 'far', d: 'M-5 -5L5 5M-5 5L5 -5'}));
  label(pane, piece.beside.at, cross);
}

// ---- the card

const row = (name, value, beside = false) => [made('dt', beside ? {class: 'beside'} : {}, name), made('dd', {}, ...[value].flat())];
const pick = (thing, words) => made('button', {class: 'pick', type: 'button', onclick: () => { choose(thing); keepInView(); }}, words);
const curveWords = ([a, control, b]) => control ? `${at(a)} by ${at(control)} to ${at(b)}` : `${at(a)} to ${at(b)}`;
const FOOT = '\u25e6 worked out beside the library\u2019s entries';

function tell(thing) {
  const card = byId('card');
  if (!thing) return card.replaceChildren(...letterCard());
  const contour = state.letter.contours[thing.c];
  const cards = {piece: pieceCard, segment: segmentCard, corner: cornerCard, contour: contourCard};
  card.replaceChildren(...cards[thing.kind](contour, thing));
}

function title(words, small) {
  return made('h2', {}, words, made('small', {}, small));
}

const editionWords = e => EDITIONS > 1 ? `edition ${EDITION_NAMES[e]}, ` : '';

function pieceCard(contour, {c, e, i}) {
  const {piece, run, r, curve} = contour.editions[e].pieces[i];
  const told = piece.beside, rows = [];
  const copied = run.came === 'copied';
  const kind = copied ? 'a copied line' : told && told.straight ? 'straight' : 'bent';
  const segments = spread(piece.segments, contour.segments.length);
  const lead = `replaces ${span(piece.segments)}${told && told.distance !== undefined && !copied ? `; at most ${away(told.distance)} away` : ''}`;
  rows.push(...row('shape', `${kind}, ${curveWords(curve)}`, !copied));
  if (!copied && told) {
    rows.push(...row('distance', `${away(told.distance)} at ${at(told.at)}${told.distance > 0 ? ', the cross' : ''}`, true));
    const penalties = `${told.penalties} ${told.penalties === 1 ? 'penalty' : 'penalties'}`;
    rows.push(...row('share', `${short(told.share)} of the run\u2019s score ${short(run.chain.score)}: ${penalties} ` +
      `of ${short(META.penalties[e] / 16, 4)}, and ${short(told.measure)} for its distance`, true));
  }
  if (piece.breaks) rows.push(...row('breaks', `${piece.breaks[0]} to ${piece.breaks[1]}`));
  if (piece.breaks && told) rows.push(...row('places', `${at(told.start)} to ${at(told.end)}, of ${counted(run.beside.breaks, 'break')}`, true));
  const table = made('table', {}, made('tbody', {}, ...segments.map(s => {
    const {curve: own} = contour.segments[s];
    return made('tr', {}, made('td', {}, pick({kind: 'segment', c, i: s}, String(s))), made('td', {}, `${own[1] ? 'curve' : 'line'} ${curveWords(own)}`));
  })));
  const unwritten = piece.written ? null : made('p', {class: 'warn'}, 'Not written: the contour is refused or left unchanged.');
  return [title(`Piece ${i}`, `${editionWords(e)}contour ${c}, run ${r}`), made('p', {class: 'lead'}, lead), unwritten, made('dl', {}, ...rows),
    made('p', {class: 'foot'}, counted(segments.length, 'uploaded segment'), ':'), table, made('p', {class: 'foot'}, FOOT)].filter(Boolean);
}

function segmentCard(contour, {c, i}) {
  const {segment, curve} = contour.segments[i], rows = [], total = contour.segments.length;
  rows.push(...row('shape', `${curve[1] ? 'curve' : 'line'}, ${curveWords(curve)}`));
  contour.editions.forEach((edition, e) => {
    const mine = owners(edition, i, total);
    const name = EDITIONS > 1 ? `pieces of ${EDITION_NAMES[e]}` : 'pieces';
    if (mine.length) rows.push(...row(name, mine.map(p => pick({kind: 'piece', c, e, i: p}, `piece ${p}`))));
    else rows.push(...row(name, edition.trace.beside.lost.includes(i) ? 'none: not written, since it lies outside the first and the last corner' : 'none'));
    const r = edition.trace.runs.findIndex(run => inRun(run, i, total));
    if (r >= 0 && e === 0) rows.push(...runRows(edition.trace.runs[r], r));
  });
  const corner = segment.why.length
    ? [made('p', {class: 'lead'}, pick({kind: 'corner', c, i}, 'starts at a corner'), `: ${cornerWords(segment, contour.limit)}`)] : [];
  return [title(`Segment ${i}`, `contour ${c}`), ...corner, made('dl', {}, ...rows), ...refusedWords(contour), made('p', {class: 'foot'}, FOOT)];
}

function runRows(run, r) {
  const size = `${short(run.beside.length, 1)} units long${run.beside.breaks ? `, ${counted(run.beside.breaks, 'break')}` : ''}`;
  const rows = row('run', `${r}: ${span([run.first, run.first + run.count - 1])}, ${size}`, true);
  if (run.chain) rows.push(...row('work', `${counted(run.chain.pairs, 'pair')} tried, score ${short(run.chain.score)}`));
  if (run.chain && run.chain.fallen) {
    rows.push(...row('lookups', `${counted(run.chain.fallen, 'lookup')} fell past the samples, ${run.chain.found_fallen} of them in the chain that was found`));
  }
  return rows;
}

function cornerCard(contour, {c, i}) {
  const {segment} = contour.segments[i];
  const before = (i + contour.segments.length - 1) % contour.segments.length;
  const [one, other] = [before, i].map(k => pick({kind: 'segment', c, i: k}, `segment ${k}`));
  const rows = [...row('reasons', segment.why.join(', ')), ...row('between', [one, ' and ', other])];
  if (segment.beside) {
    rows.push(...row('bend', `${short(segment.beside.degrees, 3)} degrees; its sine ${short(segment.beside.sine, 4)}, limit ${contour.limit.sine}`, true));
  }
  const words = `segment ${i} at ${at(segment.start)}: ${cornerWords(segment, contour.limit)}`;
  return [title(`Corner at segment ${i}`, `contour ${c}`), made('p', {class: 'lead'}, words), made('dl', {}, ...rows), made('p', {class: 'foot'}, FOOT)];
}

function refusedWords(contour) {
  if (contour.malformed !== undefined) return [made('p', {class: 'warn'}, `Line ${contour.line} is malformed: ${contour.malformed}`)];
  return contour.editions.flatMap(({trace}, e) => {
    const words = [];
    if (trace.refused) {
      const whose = EDITIONS > 1 ? `Edition ${EDITION_NAMES[e]} of contour` : 'Contour';
      words.push(made('p', {class: 'warn'}, made('strong', {}, `${whose} ${contour.c} is refused by ${trace.refused.number}: `),
        `${trace.refused.reason}.`, trace.beside.hint ? ` Hint: ${trace.beside.hint}.` : ''));
    }
    if (trace.beside.unchanged) words.push(made('p', {class: 'lead'}, `Contour ${contour.c} is left unchanged: ${trace.beside.unchanged}.`));
    return words;
  });
}

function contourCard(contour, {c}) {
  const rows = contour.editions.flatMap((edition, e) => row(EDITIONS > 1 ? `edition ${EDITION_NAMES[e]}` : 'points',
    edition.out ? contourWords(contour, edition) : counted(contour.points.length, 'point')));
  return [title(`Contour ${c}`, counted(contour.segments.length, 'segment')), ...refusedWords(contour), made('dl', {}, ...rows)];
}

function letterCard() {
  const {letter} = state;
  const bad = letter.contours.flatMap(refusedWords);
  const whole = letter.refused ? [made('p', {class: 'warn'}, `The glyph is refused by ${letter.refused.number}: ${letter.refused.reason}.`)] : [];
  const {lost} = letter;
  const points = letter.after.flatMap((after, e) => row(EDITIONS > 1 ? `edition ${EDITION_NAMES[e]}` : 'points', changeWords(letter.before, after, lost)));
  const rows = [...row('contours', String(letter.contours.length)), ...points, ...row('farthest', `${away(letter.farthest)} from the upload`, true)];
  const outside = `${counted(lost, 'segment')} outside the first and the last corner ${lost === 1 ? 'is' : 'are'} not written, and dashed.`;
  const lostWords = lost ? [made('p', {class: 'lead'}, `${outside} In closed mode nothing is lost.`)] : [];
  return [title('Point at a piece', 'or at a segment or a corner'), ...whole, ...bad, ...lostWords, made('dl', {}, ...rows), made('p', {class: 'foot'}, FOOT)];
}

// ---- the list

function fillList() {
  const list = byId('list'), e = state.edition;
  list.replaceChildren(...state.letter.contours.flatMap(contour => {
    const {c} = contour, edition = contour.editions[e];
    if (!edition) return [made('h3', {class: 'refused'}, `Line ${contour.line}: malformed`)];
    const head = made('h3', edition.out ? {} : {class: 'refused'}, `${editionWords(e)}contour ${c}: ` +
      (edition.out ? contourWords(contour, edition) : `refused by ${edition.trace.refused.number}`));
    const held = run => span([run.first, (run.first + run.count - 1) % contour.segments.length]);
    const rows = edition.trace.runs.flatMap((run, r) => [
      made('li', {class: `run${run.came === 'refused' ? ' refused' : ''}`}, `run ${r}: ${held(run)}, ${cameWords(run)}`),
      ...edition.pieces.flatMap((piece, i) => piece.run === run ? [pieceRow(c, e, i, piece)] : [])]);
    return [head, made('ol', {}, ...rows)];
  }));
}

const cameWords = run => run.came === 'refused' ? `refused by ${run.refused.number}` : run.came === 'found' ? `score ${short(run.chain.score)}` : run.came;

function pieceRow(c, e, i, {piece, run}) {
  const thing = {kind: 'piece', c, e, i};
  const far = piece.beside && run.came !== 'copied' && piece.beside.distance !== undefined ? away(piece.beside.distance) : '';
  return made('li', {}, made('button', {type: 'button', 'data-key': keyOf(thing), onclick: () => { choose(thing); keepInView(); }},
    made('span', {}, `piece ${i}`), made('span', {}, span(piece.segments)), made('span', {}, far)));
}

// ---- switches

function switches(id, options, chosen, onChoose) {
  const group = byId(id);
  group.querySelectorAll('button').forEach(button => button.remove());
  for (const [value, words] of options) {
    const attributes = {type: 'button', role: 'radio', 'data-value': value, 'aria-checked': String(value === chosen())};
    group.append(made('button', {...attributes, onclick: () => onChoose(value)}, words));
  }
}

function checked(id, value) {
  byId(id).querySelectorAll('button').forEach(button => button.setAttribute('aria-checked', String(button.dataset.value === value)));
}

function setView(view) {
  state.view = view;
  checked('views', view);
  layOut();
  fit();
}

function setPick(kind) {
  state.pick = kind;
  checked('picks', kind);
}

function setLayer(name) {
  if (!state.hidden.delete(name)) state.hidden.add(name);
  showLayers();
}

function showLayers() {
  for (const [name] of LAYERS) {
    stage.classList.toggle(`hide-${name}`, state.hidden.has(name));
    byId('layers').querySelector(`[data-value="${name}"]`).setAttribute('aria-pressed', String(!state.hidden.has(name)));
  }
  if (state.letter) place();
}

function addSwitches() {
  switches('views', VIEWS, () => state.view, setView);
  switches('picks', PICKS, () => state.pick, setPick);
  LAYERS.forEach(([name, words, colour], i) => byId('layers').append(made('button',
    {type: 'button', 'data-value': name, 'aria-pressed': 'true', title: `${words.toLowerCase()} (${i + 1})`, onclick: () => setLayer(name)},
    made('span', {class: 'swatch', 'data-colour': colour}), words)));
  document.querySelectorAll('[data-colour]').forEach(swatch => { swatch.style.background = `var(${swatch.dataset.colour})`; });
  byId('nearer').onclick = () => zoom(1.4);
  byId('farther').onclick = () => zoom(1 / 1.4);
  byId('fit').onclick = () => fit();
  byId('help').onclick = () => byId('keys').showModal();
  byId('keys').querySelector('button').onclick = () => byId('keys').close();
  showLayers();
}

// ---- mouse and touch

const pointers = new Map();
let dragged = 0;

function paneUnder(event) {
  return state.panes.find(({element}) => {
    const box = element.getBoundingClientRect();
    return event.clientX >= box.left && event.clientX < box.right && event.clientY >= box.top && event.clientY < box.bottom;
  });
}

function inPane(pane, event) {
  const box = pane.element.getBoundingClientRect();
  return [event.clientX - box.left, event.clientY - box.top];
}

const apart = () => {
  const [a, b] = [...pointers.values()];
  return Math.hypot(a.clientX - b.clientX, a.clientY - b.clientY);
};

stage.addEventListener('pointerdown', event => {
  stage.focus({preventScroll: true});
  stage.setPointerCapture(event.pointerId);
  pointers.set(event.pointerId, event);
  dragged = pointers.size > 1 ? 99 : 0;
});

stage.addEventListener('pointermove', event => {
  const held = pointers.get(event.pointerId), pane = paneUnder(event);
  if (!held) return pane ? point(pane, event) : undefined;
  const [dx, dy] = [event.clientX - held.clientX, event.clientY - held.clientY];
  dragged += Math.abs(dx) + Math.abs(dy);
  const before = pointers.size === 2 ? apart() : 0;
  pointers.set(event.pointerId, event);
  if (pointers.size === 2 && pane) {
    const [a, b] = [...pointers.values()].map(one => inPane(pane, one));
    zoom(apart() / (before || 1), [(a[0] + b[0]) / 2, (a[1] + b[1]) / 2]);
    move(dx / 2, dy / 2);
  } else if (dragged > 4) {
    stage.classList.add('panning');
    showTip(null);
    move(dx, dy);
  }
});

function point(pane, event) {
  const where = inPane(pane, event);
  const thing = found(pane, where, event.pointerType === 'touch' ? 24 : 13);
  readOut(inUnits(where));
  if (keyOf(thing) !== keyOf(state.pointed)) {
    state.pointed = thing;
    light();
    readOut(inUnits(where));
  }
  showTip(thing, event);
}

function showTip(thing, event) {
  let tip = stage.querySelector('.tip');
  if (!thing || !event || event.pointerType === 'touch') return tip && tip.remove();
  if (!tip) stage.append(tip = made('div', {class: 'tip'}));
  tip.textContent = tipWords(thing);
  const box = stage.getBoundingClientRect();
  const [x, y] = [event.clientX - box.left, event.clientY - box.top];
  tip.style.left = `${clamp(x + 16, 4, Math.max(4, box.width - tip.offsetWidth - 6))}px`;
  tip.style.top = `${y + 18 + tip.offsetHeight > box.height ? y - tip.offsetHeight - 12 : y + 18}px`;
}

function tipWords({kind, c, e, i}) {
  const contour = state.letter.contours[c];
  if (kind === 'corner') return `segment ${i} at ${at(contour.segments[i].segment.start)}: ${cornerWords(contour.segments[i].segment, contour.limit)}`;
  if (kind === 'segment') return `segment ${i} of contour ${c}`;
  const {piece, run} = contour.editions[e].pieces[i];
  const far = piece.beside && run.came !== 'copied' && piece.beside.distance !== undefined ? `, ${away(piece.beside.distance)} away` : '';
  return `${editionWords(e)}piece ${i} replaces ${span(piece.segments)}${far}`;
}

function released(event) {
  const held = pointers.delete(event.pointerId), pane = paneUnder(event);
  stage.classList.remove('panning');
  if (!held || event.type !== 'pointerup' || dragged > 4 || !pane) return;
  choose(found(pane, inPane(pane, event), event.pointerType === 'touch' ? 24 : 13));
}

stage.addEventListener('pointerup', released);
stage.addEventListener('pointercancel', released);
stage.addEventListener('pointerleave', () => {
  showTip(null);
  if (!state.pointed) return;
  state.pointed = null;
  light();
});
stage.addEventListener('wheel', event => {
  const pane = paneUnder(event);
  if (!pane) return;
  event.preventDefault();
  zoom(Math.exp(-event.deltaY * (event.deltaMode ? .05 : .0016) * (event.ctrlKey ? 4 : 1)), inPane(pane, event));
}, {passive: false});

// ---- keys

const KEYS = {
  ArrowRight: () => next(1), ArrowLeft: () => next(-1), ArrowDown: () => nextContour(1), ArrowUp: () => nextContour(-1),
  '+': () => zoom(1.4), '=': () => zoom(1.4), '-': () => zoom(1 / 1.4), '0': () => fit(),
  Enter: () => state.chosen && fit(boxAround(state.chosen), 40),
  p: () => setPick('piece'), s: () => setPick('segment'), c: () => setPick('corner'),
  v: () => setView(VIEWS[(VIEWS.findIndex(([name]) => name === state.view) + 1) % VIEWS.length][0]),
  e: () => otherEdition(),
  Escape: () => state.chosen ? choose(null) : LETTERS.length > 1 && (location.hash = '#/'),
};
const PANS = {ArrowRight: [-40, 0], ArrowLeft: [40, 0], ArrowDown: [0, -40], ArrowUp: [0, 40]};

function otherEdition() {
  if (EDITIONS < 2) return;
  state.edition = 1 - state.edition;
  fillList();
  choose(state.chosen && state.chosen.kind === 'piece' ? {...state.chosen, e: state.edition} : state.chosen);
}

document.addEventListener('keydown', event => {
  if (event.ctrlKey || event.metaKey || event.altKey || byId('keys').open) return;
  const inField = /^(INPUT|SELECT|TEXTAREA)$/.test(event.target.tagName);
  if (inField) return;
  if (event.key === '?') return byId('keys').showModal();
  if (!state.letter) return;
  if (event.key === 'Enter' && /^(A|BUTTON)$/.test(event.target.tagName)) return;
  const pan = event.shiftKey && PANS[event.key];
  const layer = LAYERS[Number(event.key) - 1];
  const act = pan ? () => move(...pan) : layer ? () => setLayer(layer[0]) : KEYS[event.key.length === 1 ? event.key.toLowerCase() : event.key];
  if (!act) return;
  event.preventDefault();
  act();
});

// ---- addresses: #/glyph/NAME/contour/1/b/piece/4, parts of it left out

const addressed = new Map();

function addressName(entry) {
  if (!entry.address) {
    const {name} = letterOf(entry), count = (addressed.get(name) || 0) + 1;
    addressed.set(name, count);
    entry.address = count > 1 ? `${name}~${count}` : name;
  }
  return entry.address;
}

function addressOf(entry, thing) {
  const letter = LETTERS.length > 1 ? `/glyph/${encodeURIComponent(addressName(entry))}` : '';
  if (!thing) return `#${letter || '/'}`;
  if (thing.kind === 'contour') return `#${letter}/contour/${thing.c}`;
  const edition = EDITIONS > 1 && thing.kind === 'piece' ? `/${EDITION_NAMES[thing.e]}` : '';
  return `#${letter}/contour/${thing.c}${edition}/${thing.kind}/${thing.i}`;
}

function decoded(text) {
  try {
    return decodeURIComponent(text);
  } catch {
    return text;
  }
}

function follow() {
  const parts = location.hash.replace(/^#\/?/, '').split('/').filter(Boolean);
  let entry = LETTERS.length === 1 ? LETTERS[0] : null;
  if (parts[0] === 'glyph') {
    const name = decoded(parts[1] || '');
    LETTERS.forEach(addressName);
    entry = LETTERS.find(one => one.address === name) || entry;
    parts.splice(0, 2);
  }
  if (!entry) return showIndex();
  const thing = {kind: 'contour', c: Number(parts[1]), e: 0, i: 0};
  let rest = parts.slice(2);
  if (rest.length && EDITION_NAMES.includes(rest[0])) [thing.e, rest] = [EDITION_NAMES.indexOf(rest[0]), rest.slice(1)];
  if (rest.length >= 2) Object.assign(thing, {kind: rest[0], i: Number(rest[1])});
  showLetter(entry, parts[0] === 'contour' ? thing : null);
}

// ---- the two sides of the page

function settingsWords() {
  const one = penalty => `${short(penalty / 16, 4)} (${counted(penalty, 'sixteenth')})`;
  const penalties = EDITIONS > 1 ? `penalties ${one(META.penalties[0])} for a and ${one(META.penalties[1])} for b` : `penalty ${one(META.penalties[0])}`;
  const why = META.given ? '' : ', that of the crate, since none was given';
  const other = META.penalties.every(penalty => penalty !== META.usual) ? `; an order\u2019s default is another, ${one(META.usual)}` : '';
  const mode = META.closed ? 'closed mode' : 'the crate\u2019s mode: what lies outside the first and the last corner is not written';
  return [made('strong', {}, penalties), `${why}${other}. Breaks on ${META.whole_units ? 'whole' : 'half'} units. In ${mode}.`];
}

function summaryWords(letter) {
  const changes = letter.after.map((after, e) => (EDITIONS > 1 ? `${EDITION_NAMES[e]}: ` : '') + changeWords(letter.before, after, letter.lost));
  const faults = [letter.refused && 'the glyph is refused', letter.malformed && counted(letter.malformed, 'malformed line')].filter(Boolean);
  return [[counted(letter.contours.length, 'contour'), ...changes].join(', '), ...faults].join('; ');
}

function showLetter(entry, thing) {
  const fresh = state.entry !== entry || !state.letter;
  byId('index').hidden = true;
  byId('letter').hidden = false;
  byId('back').hidden = LETTERS.length < 2;
  if (fresh) {
    Object.assign(state, {entry, letter: letterOf(entry), chosen: null, pointed: null});
    const {letter} = state;
    byId('title').textContent = letter.name;
    byId('summary').textContent = summaryWords(letter);
    document.title = `${letter.name} \u00b7 fontcrunch`;
    layOut();
    fit();
    fillList();
  }
  if (thing && ['piece', 'segment', 'corner'].includes(thing.kind)) setPick(thing.kind);
  choose(thing, {keep: true});
  keepInView();
}

function showIndex() {
  Object.assign(state, {letter: null, entry: null, chosen: null, pointed: null});
  byId('index').hidden = false;
  byId('letter').hidden = true;
  byId('back').hidden = true;
  const letters = LETTERS.map(letterOf);
  const total = of => letters.reduce((sum, letter) => sum + of(letter), 0);
  const [before, after, lost] = [total(letter => letter.before), total(letter => letter.after[0]), total(letter => letter.lost)];
  const refused = letters.filter(isRefused).length;
  byId('title').textContent = META.title;
  const change = `${counted(letters.length, META.what)}, ${changeWords(before, after, lost)}`;
  byId('summary').textContent = [change, META.more, refused && `${refused} refused`].filter(Boolean).join('; ');
  document.title = `${META.title} \u00b7 fontcrunch`;
  fillIndex();
}

const isRefused = letter => Boolean(letter.refused) || letter.contours.some(({editions}) => editions.some(({out}) => !out));
const dropped = letter => isRefused(letter) ? 0 : Math.max(...letter.after.map(after => Math.abs(letter.before - after)));
const SORTS = {
  change: (a, b) => dropped(b) - dropped(a),
  share: (a, b) => dropped(b) / (b.before || 1) - dropped(a) / (a.before || 1),
  distance: (a, b) => b.farthest - a.farthest,
  points: (a, b) => b.before - a.before,
  refused: (a, b) => isRefused(b) - isRefused(a),
  name: (a, b) => a.name < b.name ? -1 : a.name > b.name ? 1 : 0,
  order: () => 0,
};

function fillIndex() {
  const words = byId('find').value.trim().toLowerCase();
  const entries = LETTERS.filter(entry => letterOf(entry).name.toLowerCase().includes(words));
  entries.sort((a, b) => SORTS[byId('sort').value](letterOf(a), letterOf(b)) || a.i - b.i);
  byId('counted').textContent = words ? `${entries.length} of ${LETTERS.length}` : '';
  byId('cards').replaceChildren(...entries.map(indexCard));
}

function indexCard(entry) {
  const letter = letterOf(entry);
  const bad = isRefused(letter);
  const changes = letter.after.map(after => changeWords(letter.before, after, letter.lost));
  const svg = drawn('svg', {'aria-hidden': 'true', preserveAspectRatio: 'xMidYMid meet'});
  const card = made('a', {href: addressOf(entry, null)}, svg, made('span', {class: 'who', title: letter.name}, letter.name),
    made('span', {class: `what${bad ? ' bad' : ''}`}, bad ? refusedBy(letter) : changes.join('; ')));
  watch.observe(card);
  card.draw = () => thumbnail(svg, letter, bad);
  return card;
}

function refusedBy(letter) {
  if (letter.refused) return `refused by ${letter.refused.number}`;
  const numbers = letter.contours.flatMap(({editions}) => editions.flatMap(({trace}) => trace.refused ? [trace.refused.number] : []));
  return `refused by ${[...new Set(numbers)].join(', ')}`;
}

function thumbnail(svg, letter, bad) {
  const [left, low, right, high] = boxOf(letter.contours), [width, height] = [Math.max(right - left, 1), Math.max(high - low, 1)];
  const margin = Math.max(width, height) * .05;
  svg.setAttribute('viewBox', `${left - margin} ${-high - margin} ${width + 2 * margin} ${height + 2 * margin}`);
  const group = drawn('g', {transform: 'scale(1 -1)'});
  group.append(drawn('path', {class: bad ? 'is refused' : 'is', d: letter.contours.map(contour => filledAfter(contour, 0)).join('')}),
    drawn('path', {class: 'was', d: letter.contours.map(({curves}) => closedPath(curves)).join('')}));
  svg.replaceChildren(group);
}

// a picture is drawn when it is about to be seen
const watch = new IntersectionObserver(seen => seen.forEach(({isIntersecting, target}) => {
  if (!isIntersecting) return;
  watch.unobserve(target);
  target.draw();
}), {rootMargin: '400px'});

// ---- light and dark

const THEMES = ['auto', 'light', 'dark'];
const prefersDark = matchMedia('(prefers-color-scheme: dark)');
let theme = 'auto';

function setTheme(name) {
  theme = name;
  byId('theme').textContent = {auto: 'Light or dark: auto', light: 'Light', dark: 'Dark'}[name];
  document.documentElement.dataset.theme = name === 'auto' ? (prefersDark.matches ? 'dark' : 'light') : name;
}

byId('theme').onclick = () => setTheme(THEMES[(THEMES.indexOf(theme) + 1) % THEMES.length]);
prefersDark.addEventListener('change', () => setTheme(theme));

// ---- start

setTheme('auto');
addSwitches();
byId('settings').replaceChildren(...settingsWords());
byId('find').addEventListener('input', fillIndex);
byId('sort').addEventListener('change', fillIndex);
addEventListener('hashchange', follow);
addEventListener('resize', () => state.letter && place());
follow();
