function choose(figure, kernel, end) {
  figure.querySelectorAll('g').forEach(function (cell) {
    var row = +cell.dataset.row, column = +cell.dataset.column;
    cell.classList.toggle('out', kernel > 0 && !(row >= kernel && column < kernel) && !(row === kernel && column === kernel));
    cell.classList.toggle('slipped', end === 'slipped' && row === kernel && column === kernel);
  });
  figure.querySelectorAll('.kernel').forEach(function (shape) {
    shape.style.display = +shape.dataset.kernel === kernel ? 'inline' : 'none';
  });
}

// A slide is a table with the choice of a kernel, or a walk through steps or turns. Each can be moved on, and back; false at its end.
var slides = [];

document.querySelectorAll('.table .slide').forEach(function (slide) {
  var figure = slide.querySelector('figure'), said = slide.querySelector('[role=status]'), chosen = 0;
  var inputs = slide.querySelectorAll('input[type=radio]');
  function point(element, kernel) {
    element.addEventListener('mouseenter', function () { choose(figure, kernel); });
    element.addEventListener('mouseleave', function () { choose(figure, chosen); });
  }
  function set(input) {
    input.checked = true; chosen = +input.value; choose(figure, chosen); said.textContent = input.dataset.said;
  }
  inputs.forEach(function (input) {
    input.addEventListener('change', function () { set(input); });
    point(input.parentElement, +input.value);
  });
  figure.querySelectorAll('.step').forEach(function (step) { point(step, +step.dataset.row); });
  slides.push({part: slide, go: function (to) {
    var next = to === 'first' ? 0 : to === 'last' ? inputs.length - 1 : chosen + to;
    if (!inputs[next]) return false;
    set(inputs[next]);
    return true;
  }});
});

document.querySelectorAll('.walk').forEach(function (part) {
  var slider = part.querySelector('input'), items = part.querySelectorAll('.items > li');
  var figures = part.querySelectorAll('.beside > figure'), play = part.querySelector('.play'), timer = 0;
  function show() {
    items.forEach(function (item, at) { item.hidden = at !== +slider.value - +slider.min; });
    var item = items[slider.value - slider.min];
    slider.setAttribute('aria-valuetext', item.querySelector('.line').textContent);
    var kernels = (item.dataset.kernel || '').split(' '), ends = (item.dataset.end || '').split(' ');
    figures.forEach(function (figure, at) { choose(figure, +kernels[at] || -1, ends[at]); });
  }
  function go(to) {
    var next = to === 'first' ? +slider.min : to === 'last' ? +slider.max : +slider.value + to;
    if (next < +slider.min || next > +slider.max) return false;
    slider.value = next; show();
    return true;
  }
  function pause() {
    clearInterval(timer); timer = 0; play.textContent = 'Play';
  }
  function toggle() {
    if (timer) { pause(); return; }
    if (slider.value === slider.max) go('first');
    play.textContent = 'Pause';
    timer = setInterval(function () { if (!go(1)) pause(); }, 2000);
  }
  part.querySelector('.slider').hidden = false;
  slider.addEventListener('input', function () { pause(); show(); });
  play.addEventListener('click', toggle);
  slides.push({part: part, go: go, toggle: toggle, pause: pause}); show();
});

// A search is a tree that is gone through by the arrow keys: to the right it opens a node, or goes to the first one behind it; to the left
// it folds it, or goes back.
document.querySelectorAll('.search').forEach(function (search) {
  var tree = search.querySelector('[role=tree]'), said = search.querySelector('[role=status]');
  var slider = search.querySelector('input'), nodes = Array.from(tree.querySelectorAll('li')), chosen = nodes[0];
  function fold(item, isFolded) {
    if (!item.hasAttribute('aria-expanded')) return;
    item.setAttribute('aria-expanded', !isFolded); item.lastElementChild.hidden = isFolded;
  }
  function above(item) { return item.parentElement.closest('li'); }
  function isSeen(item) { return !item.closest('[hidden]'); }
  function choose(item) {
    if (!item) return false;
    chosen.tabIndex = -1; chosen = item; chosen.tabIndex = 0;
    said.textContent = item.dataset.said; chosen.focus();
    return true;
  }
  function go(to) {
    var seen = nodes.filter(isSeen);
    return choose(seen[to === 'first' ? 0 : to === 'last' ? seen.length - 1 : seen.indexOf(chosen) + to]);
  }
  if (slider) {
    slider.closest('p').hidden = false;
    slider.addEventListener('input', function () {
      nodes.forEach(function (item) { fold(item, +item.dataset.level >= +slider.value); });
      while (!isSeen(chosen)) { chosen.tabIndex = -1; chosen = above(chosen); chosen.tabIndex = 0; }
    });
  }
  tree.addEventListener('click', function (event) {
    var item = event.target.closest('.node') && event.target.closest('li');
    if (!item) return;
    if (item === chosen) fold(item, item.getAttribute('aria-expanded') === 'true');
    choose(item);
  });
  tree.addEventListener('focusin', function (event) { said.textContent = event.target.dataset.said || ''; });
  tree.addEventListener('keydown', function (event) {
    var opened = chosen.getAttribute('aria-expanded');
    if (event.ctrlKey || event.altKey || event.metaKey) return;
    if (event.key === 'ArrowDown') go(1);
    else if (event.key === 'ArrowUp') go(-1);
    else if (event.key === 'ArrowRight' && opened === 'false') fold(chosen, false);
    else if (event.key === 'ArrowRight' && opened) choose(chosen.lastElementChild.firstElementChild);
    else if (event.key === 'ArrowLeft' && opened === 'true') fold(chosen, true);
    else if (event.key === 'ArrowLeft') choose(above(chosen));
    else if (event.key === 'Home') go('first');
    else if (event.key === 'End') go('last');
    else if (event.key === 'Enter' || event.key === ' ') fold(chosen, opened === 'true');
    else return;
    event.preventDefault(); event.stopPropagation();
  });
  slides.push({part: search, go: go});
});

// One slide at a time, over the whole window, and over the whole screen where the browser allows that.
var shown = null, back = null;
slides.sort(function (one, other) { return one.part.compareDocumentPosition(other.part) & 4 ? -1 : 1; });

function present(slide) {
  if (shown) { shown.part.classList.remove('shown'); if (shown.pause) shown.pause(); }
  if (slide && !shown) {
    back = document.activeElement;
    if (document.documentElement.requestFullscreen) document.documentElement.requestFullscreen().catch(function () {});
  }
  shown = slide;
  document.body.classList.toggle('presenting', !!slide);
  if (slide) {
    slide.part.classList.add('shown'); slide.part.focus();
  } else {
    if (document.fullscreenElement) document.exitFullscreen();
    if (back) { back.focus(); back.scrollIntoView({block: 'center'}); }
  }
}

function turn(by) {
  var next = slides[slides.indexOf(shown) + by];
  if (!next) return;
  present(next); next.go(by > 0 ? 'first' : 'last');
}

slides.forEach(function (slide) {
  var full = slide.part.querySelector('.full');
  full.hidden = false;
  full.addEventListener('click', function () { present(shown ? null : slide); });
});
document.addEventListener('fullscreenchange', function () { if (!document.fullscreenElement && shown) present(null); });
document.addEventListener('keydown', function (event) {
  var step = {ArrowRight: 1, ArrowLeft: -1}[event.key], page = {PageDown: 1, PageUp: -1}[event.key];
  if (!shown || event.ctrlKey || event.altKey || event.metaKey) return;
  if (step) { if (!shown.go(step)) turn(step); }
  else if (page) turn(page);
  else if (event.key === 'Escape') present(null);
  else if (event.key === ' ' && event.target.localName !== 'button' && shown.toggle) shown.toggle();
  else return;
  event.preventDefault();
});

var projector = document.getElementById('projector');
if (projector) {
  projector.parentElement.hidden = false;
  projector.addEventListener('click', function () {
    projector.setAttribute('aria-pressed', document.body.classList.toggle('projector'));
  });
}

// A picture that is wider than its place says so; and what is folded is printed.
var sizes = new ResizeObserver(function (entries) {
  entries.forEach(function (entry) { entry.target.classList.toggle('wide', entry.target.scrollWidth > entry.target.clientWidth + 1); });
});
document.querySelectorAll('figure').forEach(function (figure) { sizes.observe(figure); });
window.addEventListener('beforeprint', function () {
  document.querySelectorAll('details:not([open])').forEach(function (folded) { folded.open = true; folded.dataset.folded = 'yes'; });
});
window.addEventListener('afterprint', function () {
  document.querySelectorAll('details[data-folded]').forEach(function (folded) { folded.open = false; delete folded.dataset.folded; });
});
