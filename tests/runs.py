"""What the scripts share that try built programs: runs, growths of memory that are refused in turn,
processor times, and the count of tests."""
import os
import resource
import shutil
import subprocess
import tempfile

HERE = os.path.dirname(os.path.abspath(__file__))
MOST_GROWTHS = 50000
# The exit status of a program where memory is refused.
REFUSED = 5
# Times as long for four times as much that are still about four times: both are measured while
# others run, and so more than once before a test fails. A square would take sixteen times.
ABOUT_FOUR = 8
ATTEMPTS = 8


class Failed(Exception):
    """A test failed, for this reason."""


def read(path):
    with open(path, 'rb') as file:
        return file.read()


def sized(reader, documents):
    """Documents one after the other for a built test_readers, each behind a line with the letter of
    its reader and its length."""
    return b''.join(b'%b%09d\n%b' % (reader, len(it), it) for it in documents)


def ended(command, given, seconds, **how):
    """Status, standard output and standard error of a run on these bytes."""
    try:
        done = subprocess.run(command, input=given, stdout=subprocess.PIPE, stderr=subprocess.PIPE,
                              timeout=seconds, **how)
    except subprocess.TimeoutExpired:
        raise Failed('it had not ended after %d seconds' % seconds)
    return done.returncode, done.stdout, done.stderr


def measured(command, **how):
    """Status, standard output and standard error of a run without input, its processor time in seconds
    and its most memory in bytes. (The memory is at least that of this process.)"""
    with tempfile.TemporaryFile() as out, tempfile.TemporaryFile() as error:
        process = subprocess.Popen(command, stdin=subprocess.DEVNULL, stdout=out, stderr=error, **how)
        _, status, used = os.wait4(process.pid, 0)
        process.returncode = os.waitstatus_to_exitcode(status)
        out.seek(0)
        error.seek(0)
        return process.returncode, out.read(), error.read(), used.ru_utime + used.ru_stime, used.ru_maxrss * 1024


def at_most(memory):
    """What a process calls before it starts, so that it gets no more memory than this."""
    return lambda: resource.setrlimit(resource.RLIMIT_AS, (memory, memory))


def with_stack(size):
    """What a process calls before it starts, so that its stack gets no larger than this."""
    return lambda: resource.setrlimit(resource.RLIMIT_STACK, (size, size))


# Memory


def compiled(folder):
    """What refuses the nth growth of a process, preloaded."""
    compiler = next((it for it in map(shutil.which, ('cc', 'gcc', 'clang')) if it), None)
    if not compiler:
        raise Failed('no C compiler is here, so that no growth of memory can be refused')
    made = folder + '/refuse.so'
    source = HERE + '/documents/refuse.c'
    subprocess.run([compiler, '-shared', '-fPIC', '-O1', '-o', made, source, '-ldl'], check=True,
                   stderr=subprocess.DEVNULL)
    return made


def refused_in_turn(run, unread=REFUSED):
    """Runs a program with each growth of memory refused in turn, until none is: `run` gives status,
    standard output and standard error in an environment. A run ends with the answer that it has
    where none is refused; or it prints nothing, and ends with the status REFUSED, or with `unread`
    before it says `read` on standard error. Gives how many growths were refused, and how many of
    them behind a first `read`."""
    answer = run(None)[1]
    in_reading = 0
    with tempfile.TemporaryDirectory(prefix='growths-') as folder:
        shim = compiled(folder)
        for n in range(1, MOST_GROWTHS):
            status, out, error = run({'LD_PRELOAD': shim, 'REFUSE': str(n)})
            calls, was_refused, _ = error.partition(b'!')
            wanted = (REFUSED,) if b'read' in calls else (REFUSED, unread)
            is_told = was_refused and status in wanted and not out
            if (status, out) != (0, answer) and not is_told:
                raise Failed('growth %d: status %d, %r, %r' % (n, status, out[:200], error[-200:]))
            if not was_refused:
                return n - 1, in_reading
            in_reading += status == REFUSED and calls == b'read\n'
    raise Failed('more than %d growths' % MOST_GROWTHS)


# Time


def processor_time(who, call):
    """The processor time of a call without that of the system, the least of three, and what it
    returned. (What the system takes for a page of memory differs by machines.)"""
    times = []
    for _ in range(3):
        before = resource.getrusage(who)
        returned = call()
        after = resource.getrusage(who)
        times.append(after.ru_utime - before.ru_utime)
    return min(times), returned


def grows_evenly(name, seconds, small, large, measurable):
    """Whether four times as much takes about four times as long, where `seconds` measures. The
    least times of some attempts count, and the first that is so ends them. What takes less than
    `measurable` can't be told from nothing."""
    times = [float('inf')] * 2
    is_even = False
    for _ in range(ATTEMPTS):
        times = [min(time, seconds(it)) for time, it in zip(times, (small, large))]
        is_even = times[1] <= ABOUT_FOUR * max(times[0], measurable)
        if is_even:
            break
    print('%s: %.2f s, %.2f s for four times as much' % (name, *times))
    return is_even


# All of it


def count(tests, *first):
    """Runs tests, each a name, a call, and arguments that follow the first ones. Prints how many
    passed and failed, and gives the exit status."""
    passed = failed = 0
    for name, call, *arguments in tests:
        try:
            call(*first, *arguments)
            passed += 1
        except Failed as error:
            failed += 1
            print('FAILED %s\n    %s' % (name, str(error).replace('\n', '\n    ')))
    print('%d passed, %d failed' % (passed, failed))
    return 1 if failed else 0
