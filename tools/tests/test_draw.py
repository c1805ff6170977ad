"""tools/draw: a map of many features, a window of it, and a page that a browser draws."""
import json
import os
import re
import shlex
import shutil
import subprocess
import unittest
import xml.etree.ElementTree as tree

from lib.replies import Origin, Origins
from lib.scenes import listed_last
from working import PROGRAM, Case, by_lines

BROWSER = next((path for path in map(shutil.which, ('chromium', 'chromium-browser', 'google-chrome')) if path), None)
SVG = '{http://www.w3.org/2000/svg}'


def town(count: int) -> list[str]:
    """So many squares in rows of 100, of which each tenth reaches into the next, and a well on each twentieth."""
    lines = ['class lots polygon', 'class wells point', 'rule polygon_must_not_overlap lots', 'rule point_must_be_disjoint wells', 'begin a']
    for n in range(count):
        x, y, wide = n % 100 * 20, n // 100 * 20, 21 if n % 10 == 3 else 20
        lines += ['# fid %d id "no %d"' % (n, n), 'by a add lots POLYGON ((%d %d, %d %d, %d %d, %d %d, %d %d))' % (x, y, x + wide, y, x + wide, y + 20, x, y + 20, x, y)]
        lines += ['by a add wells POINT (%d %d)' % (x + 5, y + 5)] * (n % 20 == 0)
    return lines + ['validate all', 'by a change 1 POLYGON ((0 0, 9 0, 9 9, 0 0))']


TIMED = """const times = [1.08, 0.4, 0.15].map(room => {
  show(data.box, room);
  const each = Array.from({ length: 9 }, () => { const start = performance.now(); view.x += 1; draw(); pen.getImageData(0, 0, 1, 1); return performance.now() - start; });
  return Math.min(...each).toFixed(1);
});
document.body.dataset.times = times.join(' ');"""


def many(features: int, errors: int) -> tuple[list[str], list[str]]:
    """A script of so many lots of six vertices, and replies with so many errors, of which a third are areas and the others lines."""
    script = ['# grid resolution 0.01', '# grid origin 3499000 5412000', 'class lots polygon', 'rule polygon_must_not_overlap lots',
              'rule polygon_must_not_have_gaps lots', 'begin a']
    replies, listed, found = ['ok 1', 'ok 1', 'ok 2', 'ok'], [], []
    for n in range(features):
        x, y = n % 200 * 20, n // 200 * 20
        ring = ', '.join('%d %d' % p for p in [(x, y), (x + 10, y + 1), (x + 20, y), (x + 20, y + 20), (x + 10, y + 21), (x, y + 20), (x, y)])
        script.append('by a add lots POLYGON ((%s))' % ring)
        replies.append('ok %d' % (n + 1))
        listed.append('feature %d lots POLYGON ((%s))' % (n + 1, ring))
        if n < errors // 3:
            found += ['error 1 %d %d cells %d %d %d %d' % (n + 1, n + 2, x + 19, y, x + 21, y + 20),
                      'cell 1 0 %d >, -1 0 %d >, 0 1 %d >, 0 -1 %d >' % (-x - 19, x + 21, -y, y + 20)]
        elif n < errors:
            found += ['error 2 %d 0 cells %d %d %d %d' % (n + 1, x, y, x + 20, y + 20), 'cell 0 1 %d =, 1 0 %d >=, -1 0 %d >=' % (-y, -x, x + 20),
                      'cell 1 0 %d =, 0 1 %d >=, 0 -1 %d >=' % (-x - 20, -y, y + 20)]
    return script, replies + listed + ['total %d' % features] + found + ['total %d' % errors, 'total 0']


class Maps(Case):
    def drawn(self, kind: str, out: str, count: int, *window: str) -> str:
        with open(self.path('s.topo'), 'w', encoding='utf-8') as script:
            script.write(by_lines(*town(count)))
        done = self.tool('draw', kind, shlex.join(PROGRAM), 's.topo', out, *window)
        self.assertEqual((done.status, done.told), (0, ''))
        with open(self.path(out), encoding='utf-8') as text:
            return text.read()

    def test_a_map_of_ten_thousand(self) -> None:
        text = self.drawn('--map', 'm.svg', 10000)
        page = tree.fromstring(text)
        groups = {group.get('id'): group for group in page.iter(SVG + 'g')}
        self.assertEqual((len(groups['class-lots']), len(groups['class-wells'])), (10000, 500))
        words = [each.text for each in page.iter(SVG + 'text')]
        for said in ('lots, 10,000', 'wells, 500', '1 polygon_must_not_overlap, 1,000', '2 point_must_be_disjoint, 0', 'dirty, 1'):
            self.assertIn(said, words)
        self.assertLess(len(text), 3_000_000)
        self.assertEqual(sum(word.startswith('no ') for word in words), 0, 'there is no room for a label')

    def test_a_window_with_labels(self) -> None:
        page = tree.fromstring(self.drawn('--map', 'w.svg', 1000, '100', '100', '300', '200'))
        words = [each.text for each in page.iter(SVG + 'text')]
        self.assertIn('no 607', words)
        self.assertNotIn('no 0', words)
        self.assertIn('from 100 100', words)

    @unittest.skipUnless(BROWSER, 'no Chromium is installed')
    def test_a_page_in_a_browser(self) -> None:
        text = self.drawn('--html', 'p.html', 1000)
        self.assertNotRegex(text, r'(src|href)="?http')
        self.assertEqual(self.seen('p.html'), '1050 features, 100 errors, 1 dirty')
        features, errors, _ = re.fullmatch(r'(\d+) features, (\d+) errors, (\d) dirty', self.seen('p.html#error=7')).groups()
        self.assertLess(int(features), 40)
        self.assertGreaterEqual(int(errors), 1)
        for chosen, wanted in (('#dirt', '1050 features, 100 errors, 0 dirty'), ('#classes input', '50 features, 100 errors, 1 dirty')):
            with open(self.path('clicked.html'), 'w', encoding='utf-8') as out:
                out.write(text.replace('</body>', "<script>document.querySelector('%s').click()</script></body>" % chosen))
            self.assertEqual(self.seen('clicked.html'), wanted)

    @unittest.skipUnless(BROWSER, 'no Chromium is installed')
    def test_the_list_follows_what_is_ticked(self) -> None:
        self.drawn('--html', 'p.html', 1000)
        self.assertEqual(self.said('p.html', 'listed'), '100')
        self.assertEqual(self.said(self.with_script('p.html', "document.querySelector('#groups input').click()"), 'listed'), '0')
        self.assertEqual(self.said(self.with_script('p.html', "byId('find').value = 'no 13 with'; search()"), 'listed'), '1')

    @unittest.skipUnless(BROWSER, 'no Chromium is installed')
    def test_a_large_page_opens_and_is_drawn_soon(self) -> None:
        """PAGE=40000 is the size that docs/your-data.md speaks of; here it is a tenth."""
        count = int(os.environ.get('PAGE', '4000'))
        text = self.page_of(count, count * 3 // 4)
        self.assertLess(len(text), 200 * count)
        timed = self.with_script('p.html', TIMED)
        self.assertLess(int(self.said(timed, 'opened')), 3000)
        for box, least in zip(self.said(timed, 'times').split(), (50, 50, 50)):
            self.assertLess(float(box), least, 'milliseconds of a redraw')

    def page_of(self, features: int, errors: int) -> str:
        """A page of so many features and errors, by a program that answers from a file."""
        script, replies = many(features, errors)
        for name, lines in (('s.topo', script), ('s.replies', replies)):
            with open(self.path(name), 'w', encoding='utf-8') as out:
                out.write(by_lines(*lines))
        program = shlex.join(['sh', '-c', 'cat > %s; cat %s' % (os.devnull, self.path('s.replies'))])
        done = self.tool('draw', '--html', program, 's.topo', 'p.html')
        self.assertEqual((done.status, done.told), (0, ''))
        with open(self.path('p.html'), encoding='utf-8') as page:
            return page.read()

    def with_script(self, page: str, script: str) -> str:
        """The same page with a script behind its own."""
        with open(self.path(page), encoding='utf-8') as text, open(self.path('more.html'), 'w', encoding='utf-8') as out:
            out.write(text.read().replace('</body>', '<script>%s</script></body>' % script))
        return 'more.html'

    def seen(self, page: str) -> str:
        """What the page says that it has drawn."""
        return self.said(page, 'drawn')

    def said(self, page: str, what: str) -> str:
        """What the page says of itself."""
        words = [BROWSER, '--headless', '--no-sandbox', '--disable-gpu', '--window-size=1200,800', '--user-data-dir=' + self.path('browser'),
                 '--dump-dom', 'file://' + self.path(page)]
        done = subprocess.run(words, capture_output=True, timeout=300)
        return re.search(r'data-%s="([^"]*)"' % what, done.stdout.decode())[1]


class Refused(Case):
    def draw(self, script: bytes, *words: str) -> tuple[int, str]:
        with open(self.path('s.topo'), 'wb') as out:
            out.write(script)
        done = self.tool('draw', *words, shlex.join(PROGRAM), 's.topo', 'out')
        return done.status, done.told

    def test_listings_at_the_end_are_not_asked_for_again(self) -> None:
        """The page is the same whatever listings the script ends with, and a listing with a change behind it is asked for again."""
        text, change = by_lines(*town(30)), by_lines('by a change 3 POLYGON ((20 0, 45 0, 45 20, 20 20, 20 0))')
        pages = {}
        for number, (script, own) in enumerate(((text, []), (text + 'cells\n', ['cells']), (text + 'errors\r\n cells\r\n# so far\n\ndirty\t', ['dirty', 'cells']),
                                                (text + by_lines('features', 'cells', 'dirty'), ['dirty', 'cells', 'features']),
                                                (text + by_lines('cells', 'rules', 'dirty'), ['dirty']), (text + 'cells\rdirty\n', []),
                                                (text + by_lines('cells') + change, []), (text + change, []))):
            with open(self.path('s.topo'), 'w', encoding='utf-8', newline='') as out:
                out.write(script)
            self.assertEqual(listed_last(self.path('s.topo')), own)
            self.assertEqual(self.tool('draw', '--html', shlex.join(PROGRAM), 's.topo', 'out.html').status, 0)
            with open(self.path('out.html'), encoding='utf-8') as page:
                pages[number] = page.read().replace('"refused":1', '"refused":0')
        self.assertEqual([number for number in pages if pages[number] != pages[0]], [6, 7])
        self.assertTrue(pages[6] == pages[7])

    def test_ids_that_are_read_as_they_stand(self) -> None:
        origins = Origins()
        remarks: list[list[str]] = [['# fid 7 id "A 1"'], ['# fid 7 id "A\\"1\\u00e9"'], ['# fid 7'], ['# fid 7 id ""'], ['# part 1 of 2', '# fid 7 id "B"'], ['# fid 7 id A'], []]
        for handle, told in enumerate(remarks, 1):
            origins.tell(handle, 'lots', told)
        origins[9] = Origin('lots', id='C')
        self.assertEqual([origins.id_of(handle) for handle in range(1, 11)], ['A 1', 'A"1\u00e9', '', '', 'B', '', '', '', 'C', ''])

    def test_what_is_no_script(self) -> None:
        with open(self.path('out'), 'w', encoding='utf-8') as out:
            out.write('older')
        ways: list[list[str]] = [[], ['--map'], ['--html']]
        for words in ways:
            for script, said in ((b'SQLite format 3\0\x10\0', 'this is no script: it has bytes that no script has'),
                                 (b'name,area\nlots,5\n', 'this is no script: none of its lines could be done'), (b'# nothing\n', 'the script has no lines')):
                self.assertEqual(self.draw(script, *words), (2, 'draw: %s\n' % said))
        self.assertEqual(os.listdir(self.folder).count('out'), 1)
        with open(self.path('out'), encoding='utf-8') as out:
            self.assertEqual(out.read(), 'older')

    def test_texts_of_every_kind_are_well_formed(self) -> None:
        ids = ''.join(map(chr, [*range(1, 9), 11, 12, *range(14, 32), 60, 38, 34, 39, 0x7f, 0x85, 0x2028, 0xfffe, 0xffff, 0x1f600]))
        script = by_lines('class wells point', 'begin a', '# fid 1 id %s' % json.dumps(ids + '</script>'), 'by a add wells POINT (0 0)',
                          'by a add wells POINT (90 90)')
        self.assertEqual(self.draw(script.encode(), '--map'), (0, ''))
        words = [each.text for each in tree.parse(self.path('out')).iter(SVG + 'text')]
        self.assertTrue(any('</script>' in word for word in words if word), words)
        self.assertEqual(self.draw(script.encode(), '--html'), (0, ''))
        with open(self.path('out'), encoding='utf-8') as page:
            self.assertEqual(page.read().count('</script>'), 2)


if __name__ == '__main__':
    unittest.main()
