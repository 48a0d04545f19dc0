"""Tests of tools/demo: its words, and with ADX a short day."""
import http.client
import os
import subprocess
import sys
import tempfile
import unittest

from test_exchange import TOOLS
import world


def run(*words, **more):
    return subprocess.run([sys.executable, TOOLS + '/demo', *words], capture_output=True, timeout=120, env={**os.environ, **more})


class Words(unittest.TestCase):
    def test_refused(self):
        for words in (('--seconds', '0'), ('--seconds', '3601'), ('--rate', '0'), ('--rate', '201'), ('--rate', 'nan'), ('--port', '0'), ('--port', '65536'), ('day',)):
            found = run(*words, ADX='/bin/false')
            self.assertEqual((found.returncode, found.stdout), (2, b''), words)

    def test_no_program(self):
        with tempfile.TemporaryDirectory() as folder:
            for adx, said in (('/nowhere/adx', b'demo: /nowhere/adx: No such file or directory\n'), ('/bin/false', b'demo: adx bid doesn\'t take connections: \n')):
                found = run(ADX=adx, TMPDIR=folder)
                self.assertEqual((found.returncode, found.stdout, found.stderr), (1, b'', said))
                self.assertEqual(os.listdir(folder), [])
            found = run('--report', folder + '/nowhere/r.html', ADX='/bin/false', TMPDIR=folder)
            self.assertIn(b'nowhere/r.html: No such file', found.stderr)


@unittest.skipUnless(os.access(world.ADX, os.X_OK) and 'ADX' in os.environ, 'ADX names no program')
class Day(unittest.TestCase):
    def test_a_day(self):
        with tempfile.TemporaryDirectory() as folder:
            demo = subprocess.Popen([sys.executable, TOOLS + '/demo', '--seconds', '5', '--port', str(world.free_port())], stdout=subprocess.PIPE, stderr=subprocess.PIPE, env={**os.environ, 'TMPDIR': folder})
            try:
                demo.stdout.readline()
                url = demo.stdout.readline().decode().split(' ')[1]
                connection = http.client.HTTPConnection(url.split('/')[2], timeout=20)
                connection.request('GET', '/state')
                self.assertIn(b'"auctions":', connection.getresponse().read())
                connection.close()
                out, err = demo.communicate(timeout=120)
                self.assertEqual((demo.returncode, err), (0, b''))
                text = out.decode()
                self.assertIn('Checked                  no assignment earns more than the bound', text)
                self.assertIn('Committed of the bound', text)
                path = text.rstrip('\n').split('the report is ')[1]
                with open(path, encoding='utf-8') as file:
                    self.assertIn('Money over the day:', file.read())
                self.assertEqual(os.listdir(os.path.dirname(path)), ['report.html'])
                for process in subprocess.run(['ps', '-eo', 'args'], capture_output=True, text=True).stdout.splitlines() if os.access('/bin/ps', os.X_OK) else ():
                    self.assertNotIn(os.path.dirname(path), process)
            finally:
                demo.kill()
                demo.wait()
                demo.stdout.close()
                demo.stderr.close()

    def test_ended(self):
        """A signal ends it and all that it started, and it leaves nothing."""
        with tempfile.TemporaryDirectory() as folder:
            demo = subprocess.Popen([sys.executable, TOOLS + '/demo', '--seconds', '300', '--port', str(world.free_port())], stdout=subprocess.PIPE, stderr=subprocess.PIPE, env={**os.environ, 'TMPDIR': folder})
            demo.stdout.readline()
            url = demo.stdout.readline().decode().split(' ')[1]
            demo.terminate()
            _, err = demo.communicate(timeout=60)
            self.assertEqual((demo.returncode, err, os.listdir(folder)), (1, b'demo: ended by a signal\n', []))
            with self.assertRaises(OSError):
                http.client.HTTPConnection(url.split('/')[2], timeout=5).connect()


if __name__ == '__main__':
    unittest.main()
