"""How the page of a picture looks, by day, by night and on paper, and the few lines of its script."""

STYLE = """
:root { --ground: #ffffff; --text: #1d2329; --faint: #5d6872; --lane: #f1f4f7; --lane-dark: #e6ebf0; --line: #c8d0d8;
  --done: #2b6cb0; --denied: #c0341d; --denied-light: #f6c9c0; --failed: #a86400; --aborted: #7a4fa3;
  --waiting: #5d6872; --up: #22794c; --focus: #1a56db; --hover: #fff3c4; }
@media (prefers-color-scheme: dark) { :root { --ground: #14181c; --text: #e6eaee; --faint: #9aa6b1; --lane: #1d2329;
  --lane-dark: #262d35; --line: #3c4650; --done: #63a7ee; --denied: #ff7a63; --denied-light: #5b241b; --failed: #f0ae4a;
  --aborted: #c199ec; --waiting: #9aa6b1; --up: #5cc48e; --focus: #8ab4ff; --hover: #3a3413; } }
* { box-sizing: border-box; }
body { margin: 0; background: var(--ground); color: var(--text); font: 15px/1.5 system-ui, "DejaVu Sans", sans-serif; }
main { padding: 20px 24px 90px; }
h1 { font-size: 1.5rem; margin: 0 0 4px; overflow-wrap: anywhere; }
h2 { font-size: 1.15rem; margin: 28px 0 6px; }
p { margin: 0 0 10px; color: var(--faint); }
.legend { list-style: none; display: flex; flex-wrap: wrap; gap: 4px 18px; margin: 0 0 14px; padding: 0;
  font-size: 13px; }
.legend li { display: flex; align-items: center; gap: 6px; }
svg.part { display: block; margin: 0 0 12px; max-width: none; overflow: visible; }
svg text { font: 12px system-ui, "DejaVu Sans", sans-serif; fill: var(--text); }
.lane { fill: var(--lane); } .lane.controller { fill: var(--lane-dark); }
.lane.media { fill: none; stroke: var(--line); stroke-dasharray: 4 3; }
svg .title { font-weight: 600; text-anchor: middle; }
svg .subtitle, svg .number { fill: var(--faint); font-size: 11px; text-anchor: middle; }
svg .number { text-anchor: end; }
svg .line { font-family: ui-monospace, "DejaVu Sans Mono", monospace; font-size: 11.5px; }
svg .words { fill: var(--faint); }
.event.denied .words { fill: var(--denied); font-weight: 600; }
.row { fill: transparent; } .event:hover .row { fill: var(--hover); fill-opacity: .55; }
.event:focus, .command:focus { outline: none; }
.event:focus .row { fill: var(--hover); stroke: var(--focus); stroke-width: 2; }
.span, .held { stroke-width: 1.5; }
.done .span, .done .held { fill: var(--done); stroke: var(--done); }
.denied .span, .denied .held { fill: url(#stripes); stroke: var(--denied); }
.failed .span, .failed .held { fill: none; stroke: var(--failed); stroke-width: 3; }
.aborted .span, .aborted .held { fill: none; stroke: var(--aborted); stroke-dasharray: 4 2; stroke-width: 2; }
.waiting .span, .waiting .held { fill: none; stroke: var(--waiting); stroke-dasharray: 1 3; stroke-width: 2; }
.held { opacity: .8; } .open { fill: none; stroke: var(--waiting); stroke-width: 1.5; }
.stop, .cross { stroke: var(--denied); stroke-width: 3; fill: none; }
.stripe { fill: var(--denied); } .stripe-ground { fill: var(--denied-light); }
.command:hover .span, .command:hover .held, .command:focus .span, .command:focus .held { stroke: var(--focus);
  stroke-width: 3; }
.mark { pointer-events: none; }
.arrow { fill: none; stroke: var(--faint); stroke-width: 1.3; } .arrow.poll { stroke-dasharray: 5 2; }
.reach { fill: none; stroke: var(--done); stroke-width: 1.3; }
.changes { fill: var(--done); } .looks, .flushes, .other { fill: var(--ground); stroke: var(--done); stroke-width: 2; }
svg .rule { fill: var(--denied); font-size: 10.5px; font-weight: 600; text-anchor: end; }
.band { fill: none; stroke: var(--up); stroke-width: 1.5; } .band.reset,
.band.power { fill: var(--aborted); stroke: none; }
svg .band-text { text-anchor: middle; fill: var(--up); font-size: 11px; font-weight: 600; }
svg .band-text.reset, svg .band-text.power { fill: var(--ground); }
table { border-collapse: collapse; font-size: 14px; } th, td { text-align: left; padding: 3px 14px 3px 0;
  border-bottom: 1px solid var(--line); vertical-align: top; }
.head { max-width: 90ch; } .first { color: var(--denied); font-weight: 600; } .first a { color: inherit; }
.tools { display: flex; flex-wrap: wrap; gap: 6px; align-items: center; position: sticky; top: 0; z-index: 1;
  margin: 0 0 10px; padding: 6px 0; background: var(--ground); }
.tools input, .tools button { font: inherit; font-size: 13px; color: var(--text); background: var(--lane);
  border: 1px solid var(--line); border-radius: 5px; padding: 3px 9px; }
.tools .keys { color: var(--faint); font-size: 12.5px; }
.pictures { overflow-x: auto; }
.access.key rect { fill: var(--lane-dark); stroke: var(--up); stroke-width: 1.5; }
.access.holds rect { fill: var(--up); }
.caption rect { fill: var(--lane-dark); } svg .caption text { font-style: italic; }
.lane.access { fill: none; stroke: var(--line); }
details { margin-top: 24px; } summary { cursor: pointer; } ol { font-size: 14px; }
code { font-family: ui-monospace, "DejaVu Sans Mono", monospace; font-size: 12.5px; }
#details { position: fixed; left: 0; right: 0; bottom: 0; padding: 10px 24px; background: var(--lane-dark);
  border-top: 1px solid var(--line); font-size: 14px; }
@page { size: A4 landscape; margin: 9mm; }
@media print { :root { --ground: #fff; --text: #000; --faint: #444; --lane: #f4f4f4; --lane-dark: #e8e8e8; --line: #aaa;
  --done: #2b6cb0; --denied: #b02a14; --denied-light: #f6c9c0; --failed: #8a5200; --aborted: #6b4291; --up: #22794c; }
  * { print-color-adjust: exact; -webkit-print-color-adjust: exact; }
  main { padding: 0; } #details, .tools { display: none; } .pictures { overflow: visible; }
  svg.part { width: 100%; height: auto; break-inside: avoid; } tr { break-inside: avoid; } }
"""

PANEL = """
(function () {
  var panel = document.getElementById('details');
  function show(it) {
    var found = it.target.closest ? it.target.closest('.event, .command') : null;
    if (found) { panel.textContent = found.getAttribute('aria-label'); panel.hidden = false; }
  }
  document.addEventListener('focusin', show);
  document.addEventListener('mouseover', show);
  document.addEventListener('keydown', function (key) {
    if (key.key === 'Escape') { panel.hidden = true; }
    var rows = Array.prototype.slice.call(document.querySelectorAll('.event'));
    var step = { ArrowDown: 1, ArrowUp: -1 }[key.key], next = rows[rows.indexOf(document.activeElement) + (step || 0)];
    if (step && next) { next.focus(); key.preventDefault(); }
  });
})();
"""

SCRIPT = """
(function () {
  'use strict';
  var panel = document.getElementById('details'), pictures = document.querySelector('.pictures');
  var rooms = Array.prototype.slice.call(document.querySelectorAll('.room'));
  var search = document.getElementById('search'), packed = document.getElementById('packed');
  var store = null, at = 0, zoom = 1, last = rooms.length ? +rooms[rooms.length - 1].dataset.last : 0;
  function show(it) { panel.textContent = it.getAttribute('aria-label'); panel.hidden = false; }
  function fill(room) {
    if (!store || room.firstElementChild) { return; }
    room.innerHTML = store.parts[rooms.indexOf(room)];
    room.style.height = room.style.width = '';
  }
  function row(number) {
    var room = rooms.filter(function (it) { return number >= +it.dataset.first && number <= +it.dataset.last; })[0];
    if (!room) { return null; }
    fill(room);
    return room.querySelector('[data-event="' + number + '"]');
  }
  function go(number) {
    var it = row(number);
    if (!it) { return; }
    it.focus({ preventScroll: true });
    it.querySelector('.number').scrollIntoView({ block: 'center', inline: 'nearest' });
    var x = +it.dataset.x * zoom, wide = pictures.clientWidth;
    pictures.scrollLeft = x > wide - 180 ? x - wide / 2 : 0;
  }
  function labels() {
    return Array.prototype.map.call(document.querySelectorAll('.event'), function (it) {
      return it.getAttribute('aria-label'); });
  }
  function texts() { return store ? store.texts : labels(); }
  function denied() {
    if (store) { return store.denied; }
    return Array.prototype.map.call(document.querySelectorAll('.event.stopped'), function (it) {
      return +it.dataset.event; });
  }
  function next(step) {
    var found = denied().filter(function (it) { return step > 0 ? it > at : it < at; });
    if (found.length) { go(step > 0 ? found[0] : found[found.length - 1]); }
  }
  function find() {
    var wanted = search.value.toLowerCase(), all = texts();
    for (var n = 0; wanted && n < all.length; n++) {
      var place = (at + n) % all.length;
      if (all[place].toLowerCase().indexOf(wanted) >= 0) { go(place + 1); return; }
    }
    panel.textContent = wanted ? 'No event has ' + search.value : ''; panel.hidden = !wanted;
  }
  function scale(wanted) { zoom = Math.min(3, Math.max(0.2, wanted)); pictures.style.zoom = zoom; }
  function fit() {
    pictures.style.zoom = 1;
    var first = pictures.querySelector('svg.part');
    if (first) { scale(Math.min(1, Math.max(0.7, pictures.clientWidth / first.getBoundingClientRect().width))); }
  }
  document.addEventListener('focusin', function (it) {
    var found = it.target.closest ? it.target.closest('.event, .command') : null;
    if (found) { show(found); at = found.dataset.event ? +found.dataset.event : at; }
  });
  document.addEventListener('mouseover', function (it) {
    var found = it.target.closest ? it.target.closest('.part .event, .part .command') : null;
    if (found) { show(found); }
  });
  document.addEventListener('click', function (it) {
    var link = it.target.closest('[data-go]'), button = it.target.closest('[data-do]');
    if (link) { go(+link.dataset.go); it.preventDefault(); }
    if (!button) { return; }
    ({ denied: function () { next(1); }, smaller: function () { scale(zoom / 1.2); },
       larger: function () { scale(zoom * 1.2); }, fit: fit })[button.dataset.do]();
  });
  document.querySelector('.tools').addEventListener('submit', function (it) { find(); it.preventDefault(); });
  document.addEventListener('keydown', function (key) {
    if (key.target === search || key.ctrlKey || key.metaKey || key.altKey) { return; }
    var calls = {
      Escape: function () { panel.hidden = true; },
      ArrowDown: function () { go(Math.min(last, at + 1)); }, ArrowUp: function () { go(Math.max(1, at - 1)); },
      n: function () { next(1); }, N: function () { next(-1); }, '/': function () { search.focus(); },
      '+': function () { scale(zoom * 1.2); }, '-': function () { scale(zoom / 1.2); }, '0': fit
    };
    if (calls[key.key]) { calls[key.key](); key.preventDefault(); }
  });
  function watch() {
    var observer = new IntersectionObserver(function (seen) {
      seen.forEach(function (it) { if (it.isIntersecting) { fill(it.target); } });
    }, { rootMargin: '1200px' });
    rooms.forEach(function (it) { observer.observe(it); });
  }
  if (packed) {
    var bytes = Uint8Array.from(atob(packed.textContent), function (it) { return it.charCodeAt(0); });
    new Response(new Blob([bytes]).stream().pipeThrough(new DecompressionStream('gzip'))).json().then(function (it) {
      store = it; watch(); });
  }
  if (pictures && pictures.scrollWidth > pictures.clientWidth) { fit(); }
})();
"""
