"""What the scripts that measure have in common: their one argument, the programs, processor times, and the line that says where they ran."""
import os
import re
import resource
import shutil
import subprocess
import sys

TOP = os.path.dirname(os.path.dirname(os.path.abspath(__file__)))


def stop(why):
    """Ends the script, which says what it wants in one line."""
    print(f'{os.path.relpath(sys.argv[0], TOP)}: {why}', file=sys.stderr)
    sys.exit(2)


def runs(usual):
    """How many runs are asked for, by the one argument that there may be."""
    words = sys.argv[1:]
    if len(words) > 1 or not all(re.fullmatch('[1-9][0-9]{0,5}', word) for word in words):
        stop(f'give the number of runs, from 1 on, or nothing for {usual}')
    return int(words[0]) if words else usual


def the_program():
    """Where the program hsts lies, which its launcher builds where it isn't built of these very texts."""
    try:
        done = subprocess.run([os.path.join(TOP, 'hsts')], env={**os.environ, 'HSTS_LAUNCHER': 'path'}, stdin=subprocess.DEVNULL, stdout=subprocess.PIPE, text=True)
    except OSError as error:
        stop(f'the launcher hsts does not start: {error.strerror}')
    if done.returncode != 0:
        stop('the program hsts is needed, and could not be built')
    return done.stdout.rstrip('\n')


def program_of(crate):
    """Where another program of the repository lies, which rt builds where that isn't done of these very texts."""
    if not shutil.which('rt'):
        stop("the program has to be built, and the Rattle kit's command rt isn't on the path")
    folder = os.path.join(TOP, 'crates', crate)
    if subprocess.run(['rt', 'run'], cwd=folder, stdin=subprocess.DEVNULL, stdout=subprocess.DEVNULL).returncode != 0:
        stop(f'the program {crate} is needed, and could not be built: see above')
    return os.path.join(folder, 'out', crate)


def processor_seconds(words, text, status):
    """The processor time of one run on a text, which has to end with that status."""
    before = resource.getrusage(resource.RUSAGE_CHILDREN)
    done = subprocess.run(words, input=text, capture_output=True)
    after = resource.getrusage(resource.RUSAGE_CHILDREN)
    if done.returncode != status:
        stop(f'{os.path.basename(words[0])} {" ".join(words[1:])} ended with status {done.returncode} in place of {status}: {done.stdout[:100]}')
    return after.ru_utime + after.ru_stime - before.ru_utime - before.ru_stime


def answer(*words):
    """The first line that a command writes, or nothing."""
    try:
        done = subprocess.run(words, cwd=TOP, capture_output=True, text=True)
    except OSError:
        return ''
    return done.stdout.split('\n')[0] if done.returncode == 0 else ''


def place():
    """What figures depend on beside the program's text: the commit, the kit and the machine."""
    with open('/proc/cpuinfo', encoding='utf-8') as file:
        processors = re.findall(r'(?m)^model name\s*: (.*)', file.read())
    commit = answer('git', 'describe', '--always', '--dirty') or 'no commit'
    machine = f'{len(processors)} processors {processors[0]}' if processors else 'unknown processors'
    return f'{commit}; {answer("rt", "version") or "no kit"}; {machine}; load {os.getloadavg()[0]:.1f}'
