"""What the script of a page of der_dump does, in a frame: viewer.py PAGE WIDTH LINK OUT writes a page that holds it,
opened with the link, and says which behaviours are wrong. To see into the frame, chromium takes
--allow-file-access-from-files.
"""
import pathlib
import sys

HEIGHT = 800
SCRIPT = r"""
onload = () => {
  const frame = document.querySelector('iframe'), view = frame.contentWindow, page = frame.contentDocument;
  const all = (what, at = page) => [...at.querySelectorAll(what)], one = (what, at = page) => at.querySelector(what);
  const wrong = [];
  let checks = 0;
  const check = (name, is) => { checks += 1; if (!is && !wrong.includes(name)) wrong.push(name); };
  const send = (at, name, also) => at.dispatchEvent(new view.MouseEvent(name, { bubbles: true, ...also }));
  const press = (at, key, also) => at.dispatchEvent(new view.KeyboardEvent('keydown', { key, bubbles: true, ...also }));
  const isPhone = frame.width < 960, per = isPhone ? 8 : 16;
  const sections = all('section').filter(it => one('[data-offset]', it)), field = one('.bar input');
  const buttons = all('.bar button'), count = one('.bar output'), bar = one('.bar');
  const isInSight = line => {
    const box = line.getBoundingClientRect();
    return box.top >= bar.offsetHeight - 1 && box.bottom <= view.innerHeight * (isPhone ? .7 : 1) + 1;
  };

  // opened with a link, the line of the offset is chosen, in sight, and its bytes are
  const [, number = '1', digits] = /#(?:(\d+):)?(.*)/.exec(frame.src);
  const linked = one('.chosen'), home = sections[number - 1];
  check('link', linked && parseInt(digits, 16) === Number(linked.dataset.offset) && home.contains(linked));
  check('link in sight', linked && isInSight(linked));
  const pane = one('.octets', home), header = () => [...view.CSS.highlights.get('header')];
  const [first] = header(), inPane = first.getBoundingClientRect(), around = pane.getBoundingClientRect();
  check('bytes in sight', inPane.top >= around.top - 1 && inPane.bottom <= around.bottom + 1);
  check('title', page.title.includes(frame.src.split('/').pop().split('#')[0]) && page.title.length > 15);

  // nothing is wider than its place, and what a line says keeps its depth where it is broken
  const root = page.documentElement;
  check('wide', root.scrollWidth <= root.clientWidth);
  check('scroll bars', all('p, summary, .tree, .octets').every(it => it.scrollWidth <= it.clientWidth + 1));
  for (const said of all('.said')) {
    const [start, ...rows] = said.getClientRects();
    check('depth', rows.every(it => it.left >= start.left - 1));
  }
  check('numbers', !isPhone || one('.said').getClientRects()[0].left < view.innerWidth / 3);

  for (const [at, section] of sections.entries()) {
    const octets = one('.octets', section);
    const [offsets, hex, text] = ['.offsets', '.hex', '.text'].map(it => one(it, octets));
    const bytes = hex.textContent.split(/\s/).map(it => parseInt(it, 16)), rows = hex.textContent.split('\n');
    const starts = offsets.textContent.split('\n'), texts = text.textContent.split('\n');
    check('columns', rows.length === Math.ceil(bytes.length / per) && starts.length === rows.length
      && texts.length === rows.length);
    check('row', rows.every((it, row) => it.length === 3 * Math.min(per, bytes.length - per * row) - 1));
    check('offsets', starts.every((it, row) => parseInt(it, 16) === per * row));
    check('text', bytes.every((it, byte) => texts[Math.floor(byte / per)][byte % per]
      === (it > 31 && it < 127 ? String.fromCharCode(it) : '.')));

    const place = (column, from, size) => {
      const range = page.createRange();
      range.setStart(column.firstChild, from);
      range.setEnd(column.firstChild, from + size);
      const box = range.getBoundingClientRect();
      return { clientX: box.left + box.width / 2, clientY: box.top + box.height / 2 };
    };
    for (const line of all('[data-offset]', section)) {
      const offset = Number(line.dataset.offset), size = Number(line.dataset.header);
      const isMarked = () =>
        one('.pointed').dataset.offset === line.dataset.offset && section.contains(one('.pointed'));
      if (offset >= bytes.length || size === 0) continue;
      send(line, 'mouseover');
      const marked = header().map(it => it.toString());
      check('bytes of a line', isMarked() && marked[0].split(/\s/).length === Math.min(size, bytes.length - offset)
        && parseInt(marked[0], 16) === bytes[offset]
        && marked[1].replaceAll('\n', '') === texts.join('').slice(offset, offset + size));
      send(all('[data-offset]', section)[0], 'mouseover');
      send(octets, 'mousemove', place(hex, 3 * offset, 2));
      check('line of a byte', isMarked());
      send(all('[data-offset]', section)[0], 'mouseover');
      send(octets, 'mousemove', place(text, offset + Math.floor(offset / per), 1));
      check('line of a character', isMarked());
    }
    // a click in the folded page shows the line of the byte, and sets the link
    const last = all('[data-offset]', section).filter(it => it.dataset.header !== '0').pop();
    const offset = Number(last.dataset.offset);
    buttons[2].click();
    check('close all', all('details').every(it => !it.open));
    send(octets, 'click', place(hex, 3 * offset, 2));
    check('click', one('.chosen') === last && isInSight(last));
    check('click link', view.location.hash === `#${at ? `${at + 1}:` : ''}${offset.toString(16)}`);
    buttons[3].click();
    check('open all', all('details').every(it => it.open));
    const line = all('[data-offset]', section)[1];
    send(line, 'click');
    const number = Number(line.dataset.offset).toString(16);
    check('link of a line', view.location.hash === `#${at ? `${at + 1}:` : ''}${number}`);
  }

  // finds lines, forward and back, in folds too
  const wanted = all('p, summary').filter(it => (one('.said', it) || it).textContent.toUpperCase().includes('INTEGER'));
  buttons[3].click();
  buttons[2].click();
  field.value = 'integer';
  field.dispatchEvent(new view.Event('input', { bubbles: true }));
  check('find', count.textContent === `1 of ${wanted.length}` && one('.pointed') === wanted[0] && isInSight(wanted[0]));
  check('found marked', view.CSS.highlights.get('found').size === wanted.length);
  press(field, 'Enter');
  check('find next', one('.pointed') === wanted[1 % wanted.length]);
  press(field, 'Enter', { shiftKey: true });
  buttons[0].click();
  check('find previous', one('.pointed') === wanted[wanted.length - 1]);
  buttons[1].click();
  check('find around', one('.pointed') === wanted[0]);
  field.value = 'found nowhere';
  field.dispatchEvent(new view.Event('input', { bubbles: true }));
  check('find nothing', count.textContent === '0 of 0');

  // keys
  buttons[3].click();
  const fold = one('summary[data-offset]'), inside = all('p, summary')[all('p, summary').indexOf(fold) + 1];
  fold.focus();
  press(fold, 'ArrowDown');
  check('arrow down', page.activeElement === inside && one('.pointed') === inside);
  press(inside, 'ArrowUp');
  check('arrow up', page.activeElement === fold);
  press(fold, 'ArrowLeft');
  check('arrow left', !fold.parentNode.open);
  press(fold, 'ArrowRight');
  check('arrow right', fold.parentNode.open);
  press(fold, '/');
  check('slash', page.activeElement === field);
  document.body.innerHTML = `<p>viewer: ${checks} checks, wrong: ${wrong.join(', ') || 'none'} end`;
};
"""

page, width, link, out = pathlib.Path(sys.argv[1]), sys.argv[2], sys.argv[3], pathlib.Path(sys.argv[4])
out.write_text(f"""<!DOCTYPE html><meta charset="utf-8"><body>
<iframe width="{width}" height="{HEIGHT}" src="{page.resolve().as_uri()}{link}"></iframe>
<script>
{SCRIPT}</script></body>
""")
