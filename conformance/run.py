#!/usr/bin/env python3
"""Runs the worked examples beside this file on a program, and prints unified diffs of the failures.

  run.py --prog "CMD" [--all] [--only NAME]... [--slow] [--list]

Each example names in `needs` the stages of the product that it waits for; `stages` lists the stages, each with the
word `built` where it is.
--all       runs the examples of stages that aren't built too.
--slow      runs the examples marked `slow` too.
--timeout S seconds for one run (default 60, as a test has).
The last line is 'N passed, M failed'; the status is 1 where M isn't 0."""
import argparse, difflib, os, shlex, subprocess, sys

HERE = os.path.dirname(os.path.abspath(__file__))


def words(path):
    with open(path, encoding='utf-8') as f:
        return [w for w in f.read().split('\n') if w != '']


def rows():
    for n in sorted(os.listdir(HERE)):
        d = os.path.join(HERE, n)
        if os.path.isfile(os.path.join(d, 'args')):
            yield n, d


def stages():
    """The stages, and those of them that are built."""
    lines = [line.split() for line in open(os.path.join(HERE, 'stages'))]
    return {w[0] for w in lines if w}, {w[0] for w in lines if w[1:2] == ['built']}


def needs_of(d, known):
    """The stages that an example waits for, and its marks."""
    w = open(os.path.join(d, 'needs')).read().split()
    marks = set(w) & {'slow'}
    unknown = set(w) - known - marks
    if unknown:
        sys.exit('%s/needs: no such stage: %s' % (os.path.basename(d), ' '.join(sorted(unknown))))
    return set(w) - marks, marks


def run(cmd, args, stdin, timeout):
    try:
        p = subprocess.run(cmd + args, input=stdin, stdout=subprocess.PIPE,
                           stderr=subprocess.PIPE, timeout=timeout)
        return p.returncode, p.stdout, p.stderr
    except subprocess.TimeoutExpired as e:
        return 'timeout', e.stdout or b'', e.stderr or b''


def show(data):
    try:
        t = data.decode('utf-8')
        if all(c in '\n\t' or c >= ' ' for c in t):
            return [l.replace('\t', '~') for l in t.splitlines(keepends=True)]
    except UnicodeDecodeError:
        pass
    return [data[i:i + 16].hex(' ') + '\n' for i in range(0, len(data), 16)]


def main():
    ap = argparse.ArgumentParser()
    ap.add_argument('--prog', required=True)
    ap.add_argument('--all', action='store_true')
    ap.add_argument('--only', action='append', default=[])
    ap.add_argument('--slow', action='store_true')
    ap.add_argument('--timeout', type=float, default=60)
    ap.add_argument('--list', action='store_true')
    a = ap.parse_args()
    cmd = shlex.split(a.prog)
    known, built = stages()
    passed = failed = skipped = 0
    for name, d in rows():
        if a.only and name not in a.only:
            continue
        waits, marks = needs_of(d, known)
        if (waits - built and not a.all) or ('slow' in marks and not a.slow):
            skipped += 1
            continue
        if a.list:
            print(name)
            continue
        args = words(os.path.join(d, 'args'))
        gen = os.path.join(d, 'gen.py')
        if os.path.exists(gen):
            stdin = subprocess.run([sys.executable, gen], stdout=subprocess.PIPE, check=True).stdout
        else:
            stdin = open(os.path.join(d, 'stdin'), 'rb').read()
        want_status = 0
        if os.path.exists(os.path.join(d, 'status')):
            want_status = int(open(os.path.join(d, 'status')).read())
        status, out, err = run(cmd, args, stdin, a.timeout)
        bad = []
        if os.path.exists(os.path.join(d, 'then')):
            # the first run's bytes go into a second run of the program
            if status != 0:
                bad.append('first run: status %s' % status)
            status, out, err = run(cmd, words(os.path.join(d, 'then')), out, a.timeout)
        if os.path.exists(os.path.join(d, 'like')):
            # what another run of the program on the same input writes, less some lines
            s2, o2, _ = run(cmd, words(os.path.join(d, 'like')), stdin, a.timeout)
            drop = int(open(os.path.join(d, 'like_drop')).read())
            want = b''.join(o2.splitlines(keepends=True)[drop:])
            if s2 != 0 or not want:
                bad.append('the run to compare with: status %s, %d bytes' % (s2, len(o2)))
        else:
            want = open(os.path.join(d, 'stdout'), 'rb').read()
        if status != want_status:
            bad.append('status %s, want %s' % (status, want_status))
        if out != want:
            bad.append(''.join(difflib.unified_diff(show(want), show(out), name + '/stdout',
                                                    'program', n=3)).rstrip('\n'))
        if bad:
            failed += 1
            print('FAIL %s' % name)
            for b in bad:
                print('  ' + b.replace('\n', '\n  '))
            if err.strip():
                print('  stderr: ' + err.decode('utf-8', 'replace').strip()[-400:])
        else:
            passed += 1
            print('pass %s' % name)
    if skipped:
        print('%d skipped' % skipped)
    print('%d passed, %d failed' % (passed, failed))
    return 1 if failed else 0


if __name__ == '__main__':
    sys.exit(main())
