"""make install and tools/package: into an empty root, used there, and taken away again; the manual pages have no warning."""
import glob
import os
import shutil
import subprocess
import unittest

from working import PROGRAM, TOOLS, Case, Done

ROOT = os.path.dirname(TOOLS)


TOOLS_INSTALLED = ('from-ogr', 'to-gis', 'answers', 'draw', 'report', 'changes', 'lapsed', 'fixes', 'marks', 'night', 'tiles', 'towns', 'serve', 'postgis')


def built() -> str:
    """The program itself, also where the launcher is named."""
    return os.path.join(ROOT, '.build', 'topo') if PROGRAM[0] == os.path.join(ROOT, 'topo') else PROGRAM[0]


@unittest.skipUnless(shutil.which('make'), 'make is not installed')
class Installed(Case):
    def make(self, *words: str) -> None:
        done = self.run_words(['make', '--silent', '-C', ROOT, 'PROGRAM=' + built(), *words])
        self.assertEqual(done.status, 0, done.told)

    def used(self, root: str) -> None:
        """Goes from a GeoPackage to layers with what is installed below the root."""
        lib, share = os.path.join(root, 'usr/lib/topo'), os.path.join(root, 'usr/share')
        words = {name: os.path.join(lib, name) for name in TOOLS_INSTALLED}
        self.assertEqual(self.run_words([os.path.join(share, 'doc/topo/examples/make_parcels'), 'p.gpkg']).status, 0)
        script = self.run_words([words['from-ogr'], 'p.gpkg', '--grid', '0.001', '--rule', 'polygon_must_not_overlap', 'parcels']).out
        replies = self.run_words([os.path.join(root, 'usr/bin/topo'), 'replay'], script.encode()).out
        for name, text in (('p.topo', script), ('p.replies', replies)):
            with open(self.path(name), 'w', encoding='utf-8') as out:
                out.write(text)
        self.assertIn('3 errors', self.run_words([words['to-gis'], 'p.topo', 'p.replies', 'e.gpkg']).told)
        self.assertEqual(self.run_words([words['answers'], 'p.topo', 'p.replies']).status, 0)
        self.assertEqual(self.run_words([words['report'], 'p.topo', 'p.replies']).out.count(',error,'), 3)
        self.assertEqual(self.run_words([words['draw'], '--html', os.path.join(root, 'usr/bin/topo'), 'p.topo', 'p.html']).status, 0)
        self.assertEqual(self.run_words([words['tiles'], 'split', 'p.gpkg', '--grid', '0.001', '--tiles', '1', '--into', 'tiles']).status, 0)
        with open(self.path('tiles/001.topo'), 'rb') as tile, open(self.path('tiles/001.replies'), 'w', encoding='utf-8') as out:
            out.write(self.run_words([os.path.join(root, 'usr/bin/topo'), 'replay'], tile.read()).out)
        self.assertEqual(self.run_words([words['tiles'], 'merge', 'tiles']).out, 'total 0\n')
        self.assertIn('changes PROJECT TABLE SCRIPT NEW_TABLE', self.run_words([words['changes'], '--help']).out)
        self.assertIn('lapsed EARLIER LATER', self.run_words([words['lapsed'], '--help']).out)
        self.assertIn('fixes PROJECT', self.run_words([words['fixes'], '--help']).out)
        self.assertIn('class parcels polygon', self.run_words([words['towns'], '--script', '7', '3']).out)
        self.served(root, words['serve'])
        for name in words:
            self.assertEqual(os.readlink(os.path.join(root, 'usr/bin/topo-' + name)), '../lib/topo/' + name)
        self.assertIn('name=topo errors', self.run_words(['cat', os.path.join(share, 'qgis/python/plugins/topo_errors/metadata.txt')]).out)
        self.assertTrue(os.path.exists(os.path.join(share, 'doc/topo/docs/your-data.md')))
        self.launched(os.path.join(root, 'usr/bin/topo'))

    def launched(self, topo: str) -> None:
        """The installed command answers its options, also where it is called by a link, and says why a run ended as it did."""
        with open(os.path.join(ROOT, 'packaging/version'), encoding='utf-8') as file:
            version = file.read().strip()
        os.symlink(topo, self.path('a link'))
        for word in (topo, self.path('a link')):
            self.assertEqual(self.run_words([word, '--version']), Done(0, 'topo %s\n' % version, ''))
        self.assertIn('topo check PROJECT', self.run_words([topo, '--help']).out)
        self.assertEqual(self.run_words([topo, 'check', 'none']), Done(11, '', 'topo: there is no file none\n'))
        self.assertEqual(self.run_words([topo, 'replay'], b'class a point\n'), Done(0, 'ok 1\n', ''))

    def pages(self, folder: str) -> None:
        """Each installed tool has a page, of which man has nothing to say."""
        for name in TOOLS_INSTALLED:
            page = glob.glob(os.path.join(folder, 'topo-%s.1*' % name))[0]
            done = self.run_words(['man', '--warnings', '-l', page])
            self.assertEqual((done.status, done.told), (0, ''))
            for head in ('NAME', 'SYNOPSIS', 'DESCRIPTION', 'SEE ALSO', 'topo-%s -' % name):
                self.assertIn(head, ' '.join(done.out.split()))

    def served(self, root: str, serve: str) -> None:
        """Begins a service with what is installed; its units name what is there."""
        self.assertIn('FOLDER', self.run_words([serve, '--help']).out)
        for unit in 'topo-serve@.service', 'topo-serve@.socket', 'topo-night@.service', 'topo-night@.timer':
            with open(os.path.join(root, 'usr/lib/systemd/system', unit), encoding='utf-8') as file:
                self.assertNotIn('@DOCDIR@', file.read())
        self.assertEqual(self.run_words([serve, 'town', '--script']).status, 1)

    def test_installed_and_taken_away(self) -> None:
        root = self.path('root')
        self.make('install', 'PREFIX=/usr', 'DESTDIR=' + root)
        self.used(root)
        if shutil.which('man'):
            self.pages(os.path.join(root, 'usr/share/man/man1'))
        for name in ('lib', 'lib/postgis', 'lib/serve'):
            shutil.rmtree(os.path.join(root, 'usr/lib/topo', name, '__pycache__'), ignore_errors=True)
        self.make('uninstall', 'PREFIX=/usr', 'DESTDIR=' + root)
        self.assertEqual([name for _, _, names in os.walk(root) for name in names], [])

    @unittest.skipUnless(shutil.which('dpkg-deb'), 'dpkg-deb is not installed')
    def test_a_debian_package(self) -> None:
        done = self.run_words([os.path.join(TOOLS, 'package'), built(), '.'])
        self.assertEqual(done.status, 0, done.told)
        package = done.out.strip()
        self.assertRegex(os.path.basename(package), r'^topo_[0-9.]+_amd64\.deb$')
        self.assertEqual(self.run_words(['dpkg-deb', '-x', package, 'root']).status, 0)
        self.used(self.path('root'))
        about = self.run_words(['dpkg-deb', '-I', package]).out
        self.assertIn('Depends: libc6, python3 (>= 3.10)', about)
        self.assertIn('Recommends: gdal-bin', about)
        for name in ('copyright', 'changelog.gz'):
            self.assertTrue(os.path.exists(self.path('root/usr/share/doc/topo/' + name)))

    @unittest.skipUnless(shutil.which('dpkg-deb'), 'dpkg-deb is not installed')
    def test_the_same_package_whatever_the_umask_is(self) -> None:
        made = []
        for umask in (0o077, 0):
            words = [os.path.join(TOOLS, 'package'), built(), self.path('made')]
            done = subprocess.run(words, umask=umask, capture_output=True, text=True, check=True)
            with open(done.stdout.strip(), 'rb') as package:
                made.append(package.read())
            shown = self.run_words(['dpkg-deb', '-c', done.stdout.strip()]).out.splitlines()
            self.assertLessEqual({line.split()[0] for line in shown}, {'-rw-r--r--', '-rwxr-xr-x', 'drwxr-xr-x', 'lrwxrwxrwx'})
        self.assertEqual(made[0], made[1])

    @unittest.skipUnless(shutil.which('dpkg-deb') and shutil.which('lintian'), 'lintian is not installed')
    def test_lintian_has_nothing_to_say(self) -> None:
        package = self.run_words([os.path.join(TOOLS, 'package'), built(), '.']).out.strip()
        done = self.run_words(['lintian', '--allow-root', '--fail-on', 'error,warning', package])
        self.assertEqual((done.status, done.out, done.told), (0, '', ''))

    @unittest.skipUnless(shutil.which('man'), 'man is not installed')
    def test_the_manual_page(self) -> None:
        done = self.run_words(['man', '--warnings', '-l', os.path.join(ROOT, 'packaging', 'topo.1')])
        self.assertEqual((done.status, done.told), (0, ''))
        for head in ('NAME', 'SYNOPSIS', 'ARGUMENTS', 'SCRIPT LINES', 'REPLIES', 'EXIT STATUS', 'FILES', 'EXAMPLES', 'SEE ALSO'):
            self.assertIn(head, done.out)


if __name__ == '__main__':
    unittest.main()
