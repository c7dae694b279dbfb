'use strict';
const told = JSON.parse(document.getElementById('told').textContent);
const part = {};
document.querySelectorAll('[id]').forEach((element) => { part[element.id] = element; });
const area = part.text, KEPT = 'planex script ';

// The scripts that the browser keeps, by name. Where it keeps none, the page works without.
const kept = {
  names() {
    try {
      return Object.keys(localStorage).filter((key) => key.startsWith(KEPT)).map((key) => key.slice(KEPT.length)).sort();
    } catch (error) { return []; }
  },
  text(name) { try { return localStorage.getItem(KEPT + name); } catch (error) { return null; } },
  put(name, text) {
    try { localStorage.setItem(KEPT + name, text); return true; } catch (error) { return false; }
  },
  drop(name) { try { localStorage.removeItem(KEPT + name); } catch (error) { /* nothing is kept */ } },
  last(name) {
    try {
      if (name !== undefined) localStorage.setItem('planex last', name);
      return localStorage.getItem('planex last');
    } catch (error) { return null; }
  },
};

// The editor: a transparent text over the same text in colours, of which the lines that are seen are drawn.
const TOKEN = /#.*|\?[\p{L}_][\p{L}\p{N}_]*|[\p{L}_][\p{L}\p{N}_]*|\d+|[$~+=-]/gu;
const LINE = 20, LONGEST = 4000;
let lines = [''], fault = 0;

function kind(token, line, at) {
  if (token[0] === '#') return 'comment';
  if (token[0] === '?') return 'variable';
  if (/\d/.test(token[0])) return 'number';
  if (/[$~+=-]/.test(token[0])) return 'sign';
  if (!line.slice(0, at).trim()) return Object.hasOwn(told.words, token) ? told.words[token] : '';
  return /^\s*\(/.test(line.slice(at + token.length)) ? 'predicate' : '';
}

function coloured(line) {
  const row = document.createElement('div');
  if (line.length > LONGEST) {
    row.textContent = line;
    return row;
  }
  let end = 0;
  for (const found of line.matchAll(TOKEN)) {
    row.append(line.slice(end, found.index));
    const sign = document.createElement('span');
    sign.textContent = found[0];
    sign.className = kind(found[0], line, found.index);
    row.append(sign);
    end = found.index + found[0].length;
  }
  row.append(line.slice(end) || '\u200b');
  return row;
}

function draw() {
  const first = Math.floor(area.scrollTop / LINE), last = Math.min(lines.length, first + Math.ceil(area.clientHeight / LINE) + 1);
  const texts = [], numbers = [];
  for (let at = first; at < last; at++) {
    const text = coloured(lines[at]), number = document.createElement('div');
    number.textContent = at + 1;
    for (const row of [text, number]) row.classList.toggle('fault', at + 1 === fault);
    texts.push(text);
    numbers.push(number);
  }
  const down = first * LINE - area.scrollTop;
  for (const [box, rows, left] of [[part.coloured, texts, -area.scrollLeft], [part.numbers, numbers, 0]]) {
    box.firstElementChild.replaceChildren(...rows);
    box.firstElementChild.style.transform = `translate(${left}px, ${down}px)`;
  }
}

function changed() {
  lines = area.value.split('\n');
  if (fault) clear();
  draw();
}

function clear() {
  fault = 0;
  part.fault.replaceChildren();
  area.removeAttribute('aria-invalid');
}

function go(line) {
  const start = lines.slice(0, line - 1).reduce((sum, text) => sum + text.length + 1, 0);
  area.focus();
  area.setSelectionRange(start, start + lines[line - 1].length);
  area.scrollTop = Math.max(0, (line - 1) * LINE - area.clientHeight / 2);
  area.scrollLeft = 0;
}

function mark(line, said) {
  fault = Math.min(line, lines.length);
  area.setAttribute('aria-invalid', 'true');
  const button = document.createElement('button');
  button.type = 'button';
  button.textContent = `Go to line ${fault}`;
  button.addEventListener('click', () => go(fault));
  part.fault.replaceChildren(`Line ${fault}: ${said}`, button);
  area.scrollTop = Math.max(0, (fault - 1) * LINE - area.clientHeight / 2);
  draw();
}

// The menu: scripts that are kept, and examples. An example that is changed is kept under a name of its own.
let example = '';

function free(name) {
  const taken = kept.names();
  let number = 2;
  if (!taken.includes(name)) return name;
  while (taken.includes(`${name} ${number}`)) number++;
  return `${name} ${number}`;
}

function fill() {
  const groups = [['kept in this browser', kept.names().map((name) => ['kept ' + name, name])]];
  told.examples.forEach(([title, scripts], group) => {
    groups.push([title, scripts.map(([name], place) => [`example ${group} ${place}`, name])]);
  });
  part.menu.replaceChildren();
  for (const [title, options] of groups) {
    const group = document.createElement('optgroup');
    group.label = title;
    for (const [value, name] of options) group.append(new Option(name, value));
    if (options.length) part.menu.append(group);
  }
  const now = example || 'kept ' + part.name.value;
  if (![...part.menu.options].some((option) => option.value === now)) part.menu.prepend(new Option(part.name.value || 'new', now));
  part.menu.value = now;
}

function show(name, text, from) {
  part.name.value = name;
  area.value = text;
  area.setSelectionRange(0, 0);
  area.scrollTop = area.scrollLeft = 0;
  example = from;
  kept.last(name);
  clear();
  changed();
  fill();
}

function keep() {
  if (example) {
    example = '';
    part.name.value = free(part.name.value);
  }
  if (!part.name.value.trim()) part.name.value = free('script');
  if (!kept.put(part.name.value, area.value)) say('This browser keeps no scripts, or has no room for this one: save it as a file.');
  kept.last(part.name.value);
  fill();
}

function open(value) {
  const [from, group, place] = value.split(' ');
  if (from === 'example') {
    const [name, text] = told.examples[group][1][place];
    show(name, text, value);
  } else {
    show(value.slice(5), kept.text(value.slice(5)) || '', '');
  }
}

function rename(name) {
  const old = part.menu.value;
  part.name.value = name.trim() && `kept ${name.trim()}` !== old ? free(name.trim()) : name.trim();
  if (old.startsWith('kept ') && part.name.value) kept.drop(old.slice(5));
  example = '';
  keep();
}

function save(text, name, type) {
  const link = document.createElement('a');
  link.href = URL.createObjectURL(new Blob([text], {type}));
  link.download = name;
  link.click();
  URL.revokeObjectURL(link.href);
}

// Runs.
let running = '', drawn = '';

function say(text) { part.state.textContent = text; }

function name_of_run() {
  return [...crypto.getRandomValues(new Uint8Array(20))].map((byte) => (byte % 36).toString(36)).join('');
}

function present(answer) {
  say(answer.end === 'refused' ? 'The script is refused, and no command of it is answered.' :
    answer.said || (answer.replies ? 'Answered.' : 'The script has no commands, so there is nothing to answer.'));
  if (answer.end === 'refused') mark(answer.line, answer.said);
  part.replies.textContent = answer.replies || '';
  part.words.hidden = !answer.replies;
  drawn = answer.page || '';
  part.keep.hidden = part.pictures.hidden = !drawn;
  part.pictures.srcdoc = drawn;
}

async function run() {
  if (running) return;
  const text = area.value, own = running = name_of_run();
  clear();
  draw();
  if (new Blob([text]).size > told.most) {
    running = '';
    say('This script has more than 1,048,576 bytes, and a script may not: divide it into smaller ones.');
    return;
  }
  part.run.disabled = true;
  part.stop.disabled = false;
  const began = Date.now();
  say('Running.');
  const clock = setInterval(() => { say(`Running, ${Math.round((Date.now() - began) / 1000)} s. Escape stops it.`); }, 5000);
  try {
    const came = await fetch('run/' + own, {method: 'POST', body: text});
    if (came.ok) present(await came.json());
    else say((await came.text()).trim());
  } catch (error) {
    say('The server doesn\'t answer: is it still running?');
  }
  clearInterval(clock);
  running = '';
  part.run.disabled = false;
  part.stop.disabled = true;
}

function stop() {
  if (!running) return;
  say('Stopping.');
  fetch('stop/' + running, {method: 'POST'}).catch(() => { say('The server doesn\'t answer: is it still running?'); });
}

area.addEventListener('input', () => { changed(); keep(); });
area.addEventListener('scroll', draw);
new ResizeObserver(draw).observe(area);
part.menu.addEventListener('change', () => open(part.menu.value));
part.name.addEventListener('change', () => rename(part.name.value));
part.new.addEventListener('click', () => { show(free('script'), '', ''); area.focus(); });
part.open.addEventListener('click', () => part.file.click());
part.file.addEventListener('change', async () => {
  const [file] = part.file.files;
  if (file) {
    show(free(file.name.replace(/\.[^.]*$/, '') || 'script'), await file.text(), '');
    keep();
  }
  part.file.value = '';
});
part.save.addEventListener('click', () => save(area.value, `${part.name.value || 'script'}.planex`, 'text/plain'));
part.keep.addEventListener('click', () => save(drawn, `${part.name.value || 'script'}.html`, 'text/html'));
part.delete.addEventListener('click', () => {
  if (!example) kept.drop(part.name.value);
  open(kept.names().length ? 'kept ' + kept.names()[0] : 'example 0 0');
});
part.run.addEventListener('click', run);
part.stop.addEventListener('click', stop);
document.addEventListener('keydown', (event) => {
  if (event.key === 'Enter' && (event.ctrlKey || event.metaKey)) {
    event.preventDefault();
    run();
  } else if (event.key === 'Escape') {
    stop();
  }
});
const last = kept.last();
open(last && kept.text(last) !== null ? 'kept ' + last : 'example 0 1');
