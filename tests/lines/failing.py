# A program where its reads and writes fail: its status, what it wrote, and what it said on standard error.
import os, signal, subprocess, sys

class Program:
    """With strace, errors are put into single calls."""

    def __init__(self, path, strace=None):
        self.path, self.strace, self.tried = path, strace, 0
        self.name = os.path.basename(path)

    def expect(self, name, status, output, said, got):
        self.tried += 1
        if (got.returncode, got.stdout) != (status, output) or said not in got.stderr:
            sys.exit('tests: %s, %s: status %d, %r, %r' % (self.name, name, got.returncode, got.stdout, got.stderr))

    def run(self, **words):
        return subprocess.run([self.path], stderr=subprocess.PIPE, **words)

    def on_failing_files(self, given, first):
        """Outputs and inputs that fail by themselves; the first line is written before anything is read."""
        with open('/dev/full', 'wb') as full:
            self.expect('a full device', 1, None, b'No space left', self.run(input=given, stdout=full))
        self.expect('a closed output', 1, None, b'Bad file descriptor', self.run(input=given, preexec_fn=lambda: os.close(1)))
        self.expect('a closed input', 1, first, b'Bad file descriptor', self.run(stdout=subprocess.PIPE, preexec_fn=lambda: os.close(0)))
        folder = os.open('/', os.O_RDONLY)
        self.expect('a directory as input', 1, first, b'Is a directory', self.run(stdin=folder, stdout=subprocess.PIPE))
        os.close(folder)

    def on_broken_pipe(self):
        """A reader that has gone away; the signal that would end the program is ignored, and its input stays open."""
        reads, writes = os.pipe()
        os.close(reads)
        going = subprocess.Popen([self.path], stdin=subprocess.PIPE, stdout=writes, stderr=subprocess.PIPE, restore_signals=False,
                                 preexec_fn=lambda: signal.signal(signal.SIGPIPE, signal.SIG_IGN))
        os.close(writes)
        said = going.stderr.read()
        self.expect('a broken pipe', 1, None, b'Broken pipe', subprocess.CompletedProcess([], going.wait(), None, said))
        going.stdin.close()
        going.stderr.close()

    def ends_after(self, name, given, output):
        """Lines after which nothing is read, on an input that stays open."""
        going = subprocess.Popen([self.path], stdin=subprocess.PIPE, stdout=subprocess.PIPE, stderr=subprocess.PIPE)
        going.stdin.write(given)
        going.stdin.flush()
        got = going.stdout.read()
        self.expect(name, 0, output, b'', subprocess.CompletedProcess([], going.wait(), got, b''))
        for end in (going.stdin, going.stdout, going.stderr):
            end.close()

    def under_strace(self, call, error, when):
        return [self.strace, '-o', '/dev/null', '-e', 'trace=' + call, '-e', 'inject=%s:error=%s:when=%d' % (call, error, when), self.path]

    def injected(self, given, call, error, when):
        """The program on the whole input, with an error in the call of that name and number."""
        return subprocess.run(self.under_strace(call, error, when), input=given, stdout=subprocess.PIPE, stderr=subprocess.PIPE)

    def piecewise(self, error, first, second):
        """An error in the second read. The second piece is written once the program has answered the first."""
        going = subprocess.Popen(self.under_strace('read', error, 2), stdin=subprocess.PIPE, stdout=subprocess.PIPE, stderr=subprocess.PIPE)
        going.stdin.write(first)
        going.stdin.flush()
        output = going.stdout.readline() + going.stdout.readline()
        try:
            going.stdin.write(second)
            going.stdin.close()
        except BrokenPipeError:
            pass
        output += going.stdout.read()
        said = going.stderr.read()
        return subprocess.CompletedProcess([], going.wait(), output, said)

    def on_failing_writes(self, given, lines):
        """An error in each write, a line each: an interrupted one is made again, after any other no more is written."""
        for when in range(1, len(lines) + 1):
            self.expect('an interrupted write %d' % when, 0, b''.join(lines), b'', self.injected(given, 'write', 'EINTR', when))
            self.expect('a failed write %d' % when, 1, b''.join(lines[:when - 1]), b'Input/output error', self.injected(given, 'write', 'EIO', when))

    def print(self):
        print('%s: %d inputs and outputs that fail%s' % (self.name, self.tried, '' if self.strace else '; NOT TESTED with errors in single calls: no strace'))
