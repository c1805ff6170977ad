"""./topo and what it shares with the installed topo, with an `rt` and a program that only pretend: which program answers, what is
kept, what is said of each status, and that streams, signals and the status are handed on."""
from __future__ import annotations

import os
import shutil
import signal
import subprocess
import time
import unittest

from working import TOOLS, Case, Done

ROOT = os.path.dirname(TOOLS)
STATUSES = range(2, 12)
# Answers each line with `ok 1`, or does what the word says.
PROGRAM = r'''#!/bin/sh
case ${1-} in
replay) while read -r line; do echo 'ok 1'; done; [ -z "${3-}" ] || echo saved >"$3" ;;
town) ;;
check) echo 'project refused line 6 range'; exit 6 ;;
status) exit "$2" ;;
kill) kill -s "$2" $$ ;;
sleep) echo asleep; exec sleep 9 ;;
esac
'''
# `try` writes the program into the folder for temporary files, where KEEPS is set, and runs it. The others write what they prove.
PROVER = r'''#!/bin/sh
echo "$1" >>"$NOTES"
case $1 in
version) echo 'a kit' ;;
lib) mkdir -p out/rlib && basename "$PWD" >out/rlib/stamp ;;
run) mkdir -p out && cp "$FAKE" out/topo ;;
try)
    shift 2
    [ -z "${REFUSES-}" ] || { echo 'not in the language' >&2; exit 1; }
    folder=$(mktemp -d)
    echo other >"$folder/other" && chmod +x "$folder/other"
    [ -z "${KEEPS-}" ] || cp "$FAKE" "$folder/a program"
    sleep 0.3
    "$FAKE" "$@"
    status=$?
    rm -rf "$folder"
    exit "$status" ;;
esac
'''


class Launched(Case):
    """A small checkout with ./topo, in which `rt` and the program only pretend."""

    def setUp(self) -> None:
        super().setUp()
        self.root = self.path('a checkout')
        for name in ('topo', 'packaging/version', 'tools/prove', 'tools/unproved'):
            os.makedirs(os.path.dirname(self.at(name)), exist_ok=True)
            shutil.copy2(os.path.join(ROOT, name), self.at(name))
        shutil.copytree(os.path.join(TOOLS, 'lib'), self.at('tools/lib'))
        self.write('crates/low/src/lib.rt', 'low')
        self.write('crates/topo/src/main.rt', 'main')
        self.write('crates.txt', 'low:\ntopo: low\n')
        self.write('HANDLES', '')
        self.write('fake', PROGRAM, 0o755)
        self.write('bin/rt', PROVER, 0o755)
        self.write('notes', '')
        known = {'FAKE': self.at('fake'), 'NOTES': self.at('notes'), 'KEEPS': 'yes'}
        self.given = {**os.environ, **known, 'PATH': self.at('bin') + ':' + os.environ['PATH']}

    def at(self, name: str) -> str:
        return os.path.join(self.root, name)

    def write(self, name: str, text: str, mode: int = 0o644) -> None:
        os.makedirs(os.path.dirname(self.at(name)), exist_ok=True)
        with open(self.at(name), 'w', encoding='utf-8') as out:
            out.write(text)
        os.chmod(self.at(name), mode)

    def text(self, name: str) -> str:
        with open(self.at(name), encoding='utf-8') as file:
            return file.read()

    def topo(self, *words: str, given: bytes = b'', **more: str) -> Done:
        done = subprocess.run([self.at('topo'), *words], input=given, capture_output=True, cwd=self.folder,
                              env={**self.given, **more}, check=False)
        return Done(done.returncode, done.stdout.decode(), done.stderr.decode())

    def prove(self) -> None:
        self.assertEqual(self.topo('--prove').status, 0)

    def tries(self) -> int:
        """How often the kit has built and run the program without a proof."""
        return self.text('notes').split().count('try')


class Answers(Launched):
    """Which program answers."""

    def test_the_first_answers_are_not_proved(self) -> None:
        first, second = [self.topo('replay', given=b'a\nb\n') for _ in range(2)]
        self.assertEqual((first.status, first.out), (0, 'ok 1\nok 1\n'))
        self.assertEqual((second.status, second.out), (0, 'ok 1\nok 1\n'))
        self.assertRegex(first.told, r'about a minute[^\n]*\n[^\n]* is not proved: \./topo --prove proves the program, in about 25 minutes[^\n]*\n$')
        self.assertEqual(second.told, first.told.splitlines(keepends=True)[1])
        self.assertEqual(self.tries(), 1)

    def test_a_proved_program_answers_without_a_word(self) -> None:
        self.topo('replay')
        self.prove()
        self.assertEqual(self.topo('replay', given=b'a\n'), Done(0, 'ok 1\n', ''))
        self.assertFalse(os.path.exists(self.at('.build/unproved')))
        self.assertEqual(self.topo('--prove'), Done(0, '', 'topo: the program is proved and built\n'))
        self.assertEqual(self.topo('--prove', 'replay', given=b'a\n'), Done(0, 'ok 1\n', ''))

    def test_a_changed_source_is_not_proved(self) -> None:
        self.prove()
        self.write('crates/low/src/a file\nof it.rt', 'more')
        self.assertIn('is not proved', self.topo('replay').told)
        self.write('crates/low/src/lib.rt', 'other')
        self.assertIn('about a minute', self.topo('replay').told)
        self.assertEqual(self.tries(), 2)
        self.prove()
        self.assertEqual(self.topo('replay').told, '')

    def test_files_are_opened_and_saved_before_the_proof(self) -> None:
        self.assertEqual(self.topo('replay', '-', 'target').status, 0)
        self.assertEqual(self.text('../target'), 'saved\n')

    def test_two_calls_build_once(self) -> None:
        calls = [subprocess.Popen([self.at('topo'), 'replay'], env=self.given, stdin=subprocess.DEVNULL, stderr=subprocess.PIPE) for _ in range(2)]
        told = [call.communicate()[1].decode() for call in calls]
        self.assertEqual([call.returncode for call in calls], [0, 0], told)
        self.assertEqual(self.tries(), 1)

    def test_sources_that_change_meanwhile(self) -> None:
        prover = PROVER.replace("sleep 0.3", "sleep 0.3; [ -n \"$(find ../low/src -name '*.more')\" ] || echo more >../low/src/lib.more")
        self.write('bin/rt', prover, 0o755)
        self.assertEqual(self.topo('replay', given=b'a\n').out, 'ok 1\n')
        self.assertEqual(self.tries(), 2)

    def test_a_kit_that_keeps_nothing(self) -> None:
        for _ in range(2):
            done = self.topo('replay', given=b'a\n', KEEPS='')
            self.assertEqual((done.status, done.out), (0, 'ok 1\n'))
            self.assertIn('is not proved', done.told)
        for words in (('replay', '-', 'target'), ('replay', 'p'), ('check', 'p'), ('report', 'p')):
            done = self.topo(*words, KEEPS='')
            self.assertEqual((done.status, done.out), (125, ''))
            self.assertIn('nothing was opened or saved: ./topo --prove', done.told)
        self.assertFalse(os.path.exists(self.path('target')))

    def test_sources_that_do_not_build(self) -> None:
        done = self.topo('replay', REFUSES='yes')
        self.assertEqual((done.status, done.out), (126, ''))
        self.assertIn('not in the language\ntopo: the program could not be built; the whole text is in .build/try/log\n', done.told)

    def test_no_kit(self) -> None:
        os.remove(self.at('bin/rt'))
        for words in (('replay',), ('--prove',)):
            done = self.topo(*words, PATH='/usr/bin:/bin')
            self.assertEqual((done.status, done.out), (127, ''))
            self.assertIn('README.md says how to get topo without it', done.told)

    def test_no_sum_of_part_of_the_sources(self) -> None:
        self.prove()
        os.symlink('nowhere', self.at('crates/low/src/more.rt'))
        self.assertEqual(self.topo('replay').status, 126)
        os.remove(self.at('crates/low/src/more.rt'))
        self.assertEqual(self.topo('replay'), Done(0, '', ''))
        os.remove(self.at('crates/topo/src/main.rt'))
        self.assertEqual(self.topo('replay').status, 126)

    def test_no_link_is_followed(self) -> None:
        self.write('mine', 'mine')
        os.makedirs(self.at('.build/try'))
        for name in ('unproved.new', 'unproved.stamp.new', 'try/log', 'try/program', 'topo.new', 'stamp.new', 'log', 'crates.new', 'lock'):
            os.symlink(self.at('mine'), self.at('.build/' + name))
        self.topo('replay')
        self.prove()
        self.assertEqual(self.topo('replay'), Done(0, '', ''))
        self.assertEqual(self.text('mine'), 'mine')
        shutil.rmtree(self.at('.build'))
        os.symlink(self.folder, self.at('.build'))
        self.assertEqual(self.topo('replay').status, 126)

    def test_modes_as_the_umask_has_them(self) -> None:
        was = os.umask(0o077)
        self.addCleanup(os.umask, was)
        self.topo('replay')
        self.prove()
        for where, folders, names in os.walk(self.at('.build')):
            for name in folders + names:
                self.assertEqual(os.stat(os.path.join(where, name)).st_mode & 0o077, 0, name)

    def test_options(self) -> None:
        self.assertEqual(self.topo('--version'), Done(0, 'topo %s\n' % self.text('packaging/version').strip(), ''))
        done = self.topo('--help')
        self.assertEqual((done.status, done.told), (0, ''))
        for word in ('replay PROJECT TARGET', 'check', 'report', 'town SEED N', '--prove'):
            self.assertIn(word, done.out)
        self.assertEqual(self.tries(), 0)


class Ends(Launched):
    """What is said of each end, and what is handed on."""

    def setUp(self) -> None:
        super().setUp()
        self.prove()

    def ends(self, status: int, said: str, *words: str, given: bytes = b'') -> None:
        """The program ends so, whatever it is asked; one line says why."""
        self.write('.build/topo', '#!/bin/sh\n[ "$1" != check ] || echo project refused line 6 range\nexit %d\n' % status, 0o755)
        done = self.topo(*words, given=given)
        self.assertEqual(done.status, status)
        self.assertRegex(done.told, r'\Atopo: [^\n]*%s[^\n]*\n\Z' % said)

    def test_each_status_has_a_line(self) -> None:
        for status in (*STATUSES, 77, 255):
            self.ends(status, '', 'replay', 'project', 'target')
        self.write('.build/topo', PROGRAM, 0o755)
        for status in (0, 1):
            self.assertEqual(self.topo('status', str(status)), Done(status, '', ''))

    def test_words(self) -> None:
        self.ends(2, 'say what to do')
        self.ends(2, 'no command `rplay`', 'rplay')
        self.ends(2, 'a PROJECT and a TARGET at most', 'replay', 'a', 'b', 'c')
        self.ends(2, 'one PROJECT', 'check')
        self.ends(2, 'two numbers', 'town', '1')

    def test_projects(self) -> None:
        self.ends(11, r'no file p; the PROJECT - begins', 'replay', 'p')
        self.ends(11, 'no file p', 'check', 'p')
        self.ends(11, 'its folder away is missing', 'report', 'away/p')
        self.ends(7, 'is a folder', 'check', self.folder)
        self.write('../p', '# grid 1\n')
        self.ends(6, r'p is a script and no project: give it as input, as in \./topo replay < p', 'replay', 'p')
        self.write('../p', 'topology 1\n')
        self.ends(6, 'p is no project, by its line 6: a number is out of its bounds', 'replay', 'p')
        self.write('../p', 'SQLite format 3\0')
        self.ends(6, 'tools/from-ogr makes a script', 'replay', 'p')
        self.ends(9, 'the errors of p', 'check', 'p')
        self.ends(11, r'no file a\?\[2Jb\?c', 'check', 'a\x1b[2Jb\nc')

    def test_targets(self) -> None:
        self.ends(8, 'there is no folder away', 'replay', '-', 'away/p')
        self.ends(8, 'it is a folder', 'replay', '-', self.folder)
        self.ends(8, 'its disk has [0-9]+ KiB left', 'replay', '-', 'p')
        self.write('../p.new', '')
        self.ends(8, r'p\.new is there', 'replay', '-', 'p')

    @unittest.skipIf(os.geteuid() == 0, 'the superuser may write everywhere')
    def test_no_leave_to_write(self) -> None:
        os.mkdir(self.path('closed'), 0o500)
        self.ends(8, 'permission denied', 'replay', '-', 'closed/p')

    def test_streams_that_fail(self) -> None:
        self.write('.build/topo', '#!/bin/sh\nexit 4\n', 0o755)
        for out, said in (('>&-', 'standard output is closed'), ('>/dev/full', '/dev/full takes no more'),
                          ('>out', 'out could not be written; its disk has'), ('| true', 'whatever read them has stopped')):
            done = self.run_words(['sh', '-c', '"%s" replay %s' % (self.at('topo'), out)])
            self.assertIn(said, done.told)
        self.write('.build/topo', '#!/bin/sh\nexit 3\n', 0o755)
        for source, said in (('<&-', 'standard input is closed'), ('</', 'standard input is a folder')):
            self.assertIn(said, self.run_words(['sh', '-c', '"%s" replay %s' % (self.at('topo'), source)]).told)

    def test_streams_are_the_programs_own(self) -> None:
        self.write('.build/topo', '#!/bin/sh\n[ -e /dev/fd/0 ] || exit 1\ncat && echo told >&2\n', 0o755)
        self.assertEqual(self.topo('replay', given=b'\0a\xc3\xbc'), Done(0, '\0aü', 'told\n'))
        self.assertEqual(self.run_words(['sh', '-c', '"%s" replay <&-' % self.at('topo')]).status, 1)
        with open(self.at('crates.txt'), encoding='utf-8') as part:
            part.seek(4)
            done = subprocess.run([self.at('topo'), 'replay'], stdin=part, capture_output=True, check=False)
        self.assertEqual(done.stdout, self.text('crates.txt')[4:].encode())

    def test_signals_are_handed_on(self) -> None:
        for number in (signal.SIGTERM, signal.SIGINT, signal.SIGHUP):
            with subprocess.Popen([self.at('topo'), 'sleep'], stdout=subprocess.PIPE, stderr=subprocess.PIPE) as run:
                self.assertEqual(run.stdout.readline(), b'asleep\n')
                begun = time.time()
                run.send_signal(number)
                # (the program has its output open until it ends)
                told = run.communicate()[1].decode()
            self.assertLess(time.time() - begun, 5)
            self.assertEqual(run.returncode, -number)
            self.assertIn('ended by the signal ' + number.name[3:], told)

    def test_a_program_that_is_killed(self) -> None:
        done = self.topo('kill', 'KILL')
        self.assertEqual((done.status, done.out), (-signal.SIGKILL, ''))
        self.assertIn('the program was killed, as the system does where memory runs out', done.told)
        self.assertEqual(len(done.told.splitlines()), 1)
        self.assertEqual(self.topo('kill', 'SEGV').status, -signal.SIGSEGV)

    def test_it_costs_little(self) -> None:
        """What both launchers add to a run, in the best of many."""
        self.write('own', '#!/bin/sh\nset -u\ncalled=topo beside= pages= version= more=\n. "%s"\nlaunch /bin/true\n' % self.at('tools/lib/launch.sh'), 0o755)

        def best(word: str) -> float:
            taken = []
            for _ in range(60):
                begun = time.perf_counter()
                subprocess.run([word], stdin=subprocess.DEVNULL, check=True)
                taken.append(time.perf_counter() - begun)
            return min(taken)

        self.assertLess(best(self.at('own')) - best('/bin/true'), 0.02)


if __name__ == '__main__':
    unittest.main()
