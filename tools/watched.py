"""Runs the built program under a library that refuses one of its allocations or notes its calls of the system, and reads what a
crash may leave of its journal, for `refuse-memory` and `kill-at-random`. The journal's form is that of docs/FORMATS.md, read here by
a plain program of its own.

The library is between the program and the C library (LD_PRELOAD), so the program is the one that was built, not another
build of it. It is compiled by the kit's clang, or by $CC.
"""
import os
import shutil
import struct
import subprocess
import sys

TOP = os.path.dirname(os.path.dirname(os.path.realpath(__file__)))
PROGRAM = TOP + '/crates/adx/out/adx'
SECONDS = 60

LIBRARY = r'''
typedef unsigned long size_t;
typedef long ssize_t;
struct part { const void *bytes; size_t length; };
struct head { long kind, file, at, length; };
extern void *__libc_malloc(size_t), *__libc_realloc(void *, size_t);
extern char *getenv(const char *);
extern long syscall(long, ...), atol(const char *);
static long refused, asked, notes = -1;

__attribute__((constructor)) static void begin(void) {
    const char *path = getenv("WATCHED_NOTES"), *number = getenv("WATCHED_REFUSED");
    if (path) {
        long file = syscall(2, path, 02001 | 0100, 0600); /* open to append, made where it isn't there */
        notes = syscall(72, file, 1030, 500);             /* out of the way of the program's files, closed in what it starts */
        syscall(3, file);
    }
    refused = number ? atol(number) : 0;
}

static void note(long kind, long file, long at, long length, const void *bytes, long kept) {
    struct head head = { kind, file, at, length };
    struct part parts[2] = { { &head, sizeof head }, { bytes, (size_t)kept } };
    if (notes >= 0) syscall(20, notes, parts, 2L);
}

static int refuses(void) {
    if (__atomic_add_fetch(&asked, 1, __ATOMIC_SEQ_CST) != refused) return 0;
    note('m', 0, refused, 0, 0, 0);
    return 1;
}

void *malloc(size_t size) { return refuses() ? 0 : __libc_malloc(size); }
void *realloc(void *old, size_t size) { return refuses() ? 0 : __libc_realloc(old, size); }

ssize_t pwrite(int file, const void *bytes, size_t length, long at) {
    note('w', file, at, (long)length, bytes, (long)length);
    return syscall(18, (long)file, bytes, length, at);
}
ssize_t pwrite64(int file, const void *bytes, size_t length, long at) { return pwrite(file, bytes, length, at); }

static int synced(long call, int file) {
    long done = syscall(call, (long)file);
    if (done == 0) note('s', file, 0, 0, 0, 0);
    return (int)done;
}
int fsync(int file) { return synced(74, file); }
int fdatasync(int file) { return synced(75, file); }

ssize_t write(int file, const void *bytes, size_t length) {
    note('p', file, 0, (long)length, 0, 0); /* before the call: what was synced later came after the answer */
    return syscall(1, (long)file, bytes, length);
}
'''


def library(folder):
    """Compiles the library into a folder, and gives its path."""
    rt = shutil.which('rt')
    clang = rt and os.path.join(os.path.dirname(os.path.dirname(os.path.realpath(rt))), 'toolchain/bin/clang')
    compiler = os.environ.get('CC') or (clang if clang and os.path.exists(clang) else 'cc')
    source, made = folder + '/watched.c', folder + '/watched.so'
    with open(source, 'w') as file:
        file.write(LIBRARY)
    target = ['--target=x86_64-unknown-linux-gnu'] if 'clang' in compiler else []
    subprocess.run([compiler, *target, '-shared', '-fPIC', '-O1', '-fno-builtin', '-nostdlib', '-o', made, source], check=True)
    return made


def built(words):
    """The program that the words name, or the one that was built here."""
    program = os.path.realpath(words[0]) if words else PROGRAM
    if not os.access(program, os.X_OK):
        sys.exit('%s: no such program: build it by ./adx' % program)
    return program


def surroundings(made, notes=None, refused=None):
    """The environment of a run: where its calls are noted, and the number from 1 of the allocation that it is refused."""
    around = {'PATH': os.environ.get('PATH', ''), 'LD_PRELOAD': made}
    if notes:
        around['WATCHED_NOTES'] = notes
    if refused:
        around['WATCHED_REFUSED'] = str(refused)
    return around


HEAD = struct.Struct('<4q')


def read_notes(path):
    """The calls that were noted, in order: (kind, file, place, length, bytes). A last one that was cut is left out."""
    found, at = [], 0
    data = b''
    if os.path.exists(path):
        with open(path, 'rb') as file:
            data = file.read()
    while at + HEAD.size <= len(data):
        kind, file, place, length = HEAD.unpack_from(data, at)
        at += HEAD.size
        kept = length if kind == ord('w') else 0
        if at + kept > len(data):
            break
        found.append((chr(kind), file, place, length, data[at:at + kept]))
        at += kept
    return found


class NoJournal(Exception):
    """The bytes are no journal."""


MARKS = {b'ADXJRNL1': 1, b'ADXJRNL2': 2}


def payloads(file):
    """The format and the payloads of a journal's bytes; none of an unfinished one."""
    unfinished = len(file) <= 1 or (len(file) <= 10 and file[0] == 0) or (len(file) == 10 and file[1:9] in MARKS and file[9] == 0)
    if unfinished:
        return 2, []
    if file[0] != 1 or file[1:9] not in MARKS:
        raise NoJournal('not a journal: %r' % file[:10])
    found, at = [], 9
    while True:
        if at >= len(file):
            raise NoJournal('no gate at %d' % at)
        if file[at] != 1:
            return MARKS[file[1:9]], found
        length = int.from_bytes(file[at + 1:at + 5], 'little')
        if at + 5 > len(file) or not 1 <= length <= 67108864 or at + 5 + length > len(file):
            raise NoJournal('bad length at %d' % at)
        found.append(file[at + 5:at + 5 + length])
        at += 5 + length


class Cursor:
    """Reads the numbers and texts of a payload of a format."""

    def __init__(self, form, data):
        self.form, self.data, self.at = form, data, 0

    def bytes(self, count):
        if self.at + count > len(self.data):
            raise NoJournal('an entry is cut')
        self.at += count
        return self.data[self.at - count:self.at]

    def number(self, width):
        if self.form == 1:
            return int.from_bytes(self.bytes(width), 'little')
        value, shift = 0, 0
        while True:
            byte = self.bytes(1)[0]
            value |= (byte & 127) << shift
            shift += 7
            if byte < 128:
                if byte == 0 and shift > 7 or value >= 1 << 8 * width:
                    raise NoJournal('a number is too long')
                return value

    def text(self):
        return self.bytes(self.number(4)).decode()


KINDS = {2: 'win', 3: 'bill', 4: 'loss'}


def entry(cursor):
    """One entry: ('ask', auction), ('bill', award), ('expire', moment) or ('budget', campaign, change)."""
    kind = cursor.bytes(1)[0]
    if kind in KINDS:
        return KINDS[kind], cursor.number(4)
    if kind == 5:
        return 'expire', cursor.number(8)
    if kind == 6:
        campaign, change, _ = cursor.number(4), cursor.number(4), cursor.number(8)
        return 'budget', campaign, change
    if kind != 1:
        raise NoJournal('no entry of kind %d' % kind)
    auction = cursor.text()
    cursor.bytes(32)
    cursor.number(8), cursor.number(4)
    for _ in range(cursor.number(1)):
        cursor.text()
    for _ in range(cursor.number(4)):
        for width in (1, 4, 8, 4, 2):
            cursor.number(width)
    for _ in range(cursor.number(4)):
        cursor.number(4)
        for _ in range(7):
            cursor.text()
    return 'ask', auction


def records(file):
    """The records of a journal's bytes, each a list of entries; none where it has no digest yet."""
    form, found = payloads(file)
    told = []
    for payload in found[1:]:
        cursor, entries = Cursor(form, payload), []
        while cursor.at < len(payload):
            entries.append(entry(cursor))
        told.append(entries)
    return told


def history(file):
    """The entries of a journal's bytes."""
    return [each for record in records(file) for each in record]


class Disk:
    """A file by the calls that were noted: what is synced, and the writes since the last sync, any of which a crash may lose."""

    def __init__(self, file):
        self.synced, self.waiting = bytearray(file), []

    def take(self, note):
        kind, _, at, _, data = note
        if kind == 'w':
            self.waiting.append((at, data))
        elif kind == 's':
            for at, data in self.waiting:
                put(self.synced, at, data)
            self.waiting = []

    def image(self, picks, fill):
        """What a crash may leave: the picked writes are there. Of another one the range is as it was (None) or has this byte."""
        left = bytearray(self.synced)
        for (at, data), picked in zip(self.waiting, picks):
            if picked:
                put(left, at, data)
            elif fill is not None:
                put(left, at, bytes([fill]) * len(data))
        return bytes(left)

    def images(self):
        """No write picked, and all; and each alone, and all but each where there are several."""
        count = len(self.waiting)
        rows = {(False,) * count, (True,) * count}
        for one in range(count):
            rows |= {tuple(place == one for place in range(count)), tuple(place != one for place in range(count))}
        return [self.image(row, fill) for row in sorted(rows) for fill in (None, 0, 1, 255)]


def put(file, at, data):
    if len(file) < at:
        file.extend(bytes(at - len(file)))
    file[at:at + len(data)] = data


def journal_of(notes):
    """The calls on the journal among those noted: the writes at a place and the syncs of that file, and all puts."""
    written = {note[1] for note in notes if note[0] == 'w'}
    return [note for note in notes if note[0] in 'pm' or note[1] in written]
