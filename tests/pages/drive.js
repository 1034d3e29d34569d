// Works the page of the script that .ci/pages makes, as a reader would, and says in the document what was not as it has to
// be. Line 3 maps `a`, line 4 is refused, each odd line from 5 to 299 maps `b`, each even one ends that, and 300 reports.
'use strict';
{
  const by = id => document.getElementById(id);
  const item = number => by('script').children[number - 1];
  const changed = () => by('picture').querySelectorAll('.changed').length;
  const failed = [];
  let tried = 0;

  const check = (what, found, wanted) => {
    tried += 1;
    if (found !== wanted) failed.push(`${what} is ${found}, and not ${wanted}`);
  };
  const at = (what, number) => {
    check(what, by('place').textContent, `step ${number} of 300, line ${number}`);
    check(`${what}: the line that is marked`, item(number).getAttribute('aria-current'), 'step');
    check(`${what}: the marked lines`, by('script').querySelectorAll('[aria-current]').length, 1);
    check(`${what}: the picture`, by('picture').querySelector('.title').textContent.startsWith('After line '), true);
  };
  const press = (key, target = document.body) => target.dispatchEvent(new KeyboardEvent('keydown', { key, bubbles: true }));
  const put = (id, value, event) => {
    by(id).value = value;
    by(id).dispatchEvent(new Event(event));
  };
  const click = (target, x = 0) =>
    target.dispatchEvent(new MouseEvent('click', { bubbles: true, clientX: target.getBoundingClientRect().left + x }));

  at('the page as it opens', 1);
  press('ArrowRight');
  press('ArrowDown');
  at('the arrow keys', 3);
  check('what line 3 changed: the row of a, its block, and the hole behind it', changed(), 3);
  check('the report of line 3', by('report').textContent,
    'host 65536 device 65536 used 16\nmap 0x1000 16 at 0x100000000 structured 0 dynamic 1\nregions 0 events 1\n');
  check('what is new in it', by('report').querySelectorAll('mark').length, 3);
  press('ArrowRight');
  at('the line that is refused', 4);
  check('what it changed', changed(), 0);
  check('what it printed', item(4).querySelector('.printed').textContent, 'line 4: refused 11 NotPresent item 0\n');
  check('its explanation', item(4).querySelector('.reason').textContent.includes('no mapped range has any of these bytes'), true);
  check('lines with an explanation', document.querySelectorAll('.reason').length, 1);
  press('ArrowLeft');
  press('ArrowUp');
  at('the arrow keys back', 2);
  press('End');
  press('ArrowRight');
  at('the end', 300);
  press('PageUp');
  at('ten steps back', 290);
  press('Home');
  at('the begin', 1);
  put('slider', 298, 'input');
  at('the slider', 299);
  click(item(3).querySelector('code'));
  at('a click on a line', 3);
  click(by('on'));
  at('the button', 4);

  put('range', '0 0x1010', 'change');
  check('the counters of b', by('values').textContent, 'not mapped');
  press('ArrowRight');
  check('the counters of b when it is mapped', by('values').textContent, 'structured 0 dynamic 1 ');
  check('its name', by('range').selectedOptions[0].textContent, 'b 0x1010');
  check('how often b is mapped', by('chart').querySelector('.dynamic').getAttribute('d').split('M').length - 1, 148);
  click(by('chart'), by('chart').getBoundingClientRect().width * 0.501);
  at('a click on the counters', 151);
  click([...by('picture').querySelectorAll('text.name')].find(it => it.textContent === 'a'));
  check('a click on the row of a', by('range').value, '0 0x1000');

  press('/');
  check('the key of the search', document.activeElement, by('search'));
  put('search', 'NotPresent', 'input');
  check('the lines that are found', document.querySelectorAll('.found').length, 1);
  press('Enter', by('search'));
  at('the search', 4);
  press('ArrowRight', by('search'));
  at('an arrow key in the search', 4);
  put('search', '', 'input');

  const told = document.body.appendChild(document.createElement('pre'));
  told.id = 'told';
  told.textContent = failed.length ? failed.join('; ') : `all ${tried} are as they have to be`;
}
