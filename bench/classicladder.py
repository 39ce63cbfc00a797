# ClassicLadder, the ladder interpreter of linuxcnc-uspace, on rungs of six contacts and a coil: writes the project, runs it with halrun as an
# ordinary user, and reads how long a refresh takes. Run alone it prints the refresh times of 64 and of 256 rungs.
import os, pwd, shutil, signal, statistics, subprocess, tempfile, time

readings = 200
limit = 60  # seconds of a session
counter = r'''
#include <stdio.h>
#include <time.h>
#include <x86intrin.h>
static double now(void) { struct timespec t; clock_gettime(CLOCK_MONOTONIC_RAW, &t); return t.tv_sec * 1e9 + t.tv_nsec; }
int main(void) {
    double begin = now(); unsigned long long first = __rdtsc();
    while (now() - begin < 2e8) nanosleep(&(struct timespec){0, 1000000}, 0);
    double end = now(); unsigned long long last = __rdtsc();
    printf("%.9f\n", (end - begin) / (last - first));
}
'''
# The keys of the shared memory that HAL, RTAPI and ClassicLadder make.
memory_keys = {0x48414C32, 0x48484C34, 0x434C522B}


class Failed(Exception):
    pass


def installed():
    return all(shutil.which(name) for name in ('halrun', 'halcmd', 'rtapi_app', 'classicladder'))


# ---- the project

# ClassicLadder's name (type/number) of a variable. Variables 0 to 6 are inputs %I, whose pins are set to true: then rung 0 makes variable 7
# true, rung 1 variable 8, and so on, so that all 100 are true from the first scan on. The last rung's coil is output %Q0, whose pin is read.
def variable(number, last):
    if number < 7:
        return '50/%d' % number
    return '60/0' if number == last else '0/%d' % number


# Six rows of ten cells, a cell being kind-connected above-variable: 1 a contact, 9 a wire, 50 a coil, 0 nothing.
def rung(index, rungs):
    last = (rungs - 1 + 7) % 100
    cells = ['1-0-' + variable((index + i) % 100, last) for i in range(6)] + ['9-0-0/0'] * 3
    rows = [' , '.join(cells + ['50-0-' + variable((index + 7) % 100, last)])] + [' , '.join(['0-0-0/0'] * 10)] * 5
    following = index + 1 if index + 1 < rungs else -1
    return '\n'.join(['#VER=2.0', '#LABEL=', '#COMMENT=', '#PREVRUNG=%d' % (index - 1), '#NEXTRUNG=%d' % following] + rows) + '\n'


def project(path, rungs):
    parts = {'rung_%d.csv' % i: rung(i, rungs) for i in range(rungs)}
    parts['sections.csv'] = '#VER=1.0\n#NAME000=Rungs\n000,0,-1,0,%d,0\n' % (rungs - 1)
    with open(path, 'w') as file:
        file.write('_FILES_CLASSICLADDER\n')
        for name, text in parts.items():
            file.write('_FILE-%s\n%s_/FILE-%s\n' % (name, text, name))
        file.write('_/FILES_CLASSICLADDER\n')


# ---- the session

# The commands of the session: load, run, and read the output's pin with the inputs true, with input 0 false and true again, then the times.
def session(path, rungs):
    wait = 'loadusr -w sleep '
    lines = ['loadrt classicladder_rt numRungs=%d numBits=100' % rungs, 'loadusr -w classicladder --nogui ' + path,
             'loadrt threads name1=scan period1=1000000', 'addf classicladder.0.refresh scan']
    lines += ['setp classicladder.0.in-%02d 1' % i for i in range(7)] + ['start', wait + '0.3', 'getp classicladder.0.out-00']
    for value in (0, 1):
        lines += ['setp classicladder.0.in-00 %d' % value, wait + '0.1', 'getp classicladder.0.out-00']
    lines += [wait + '0.005', 'getp classicladder.0.refresh.time'] * readings
    return '\n'.join(lines) + '\n'


# The user and group that the session runs as: nobody's, if we are root.
def ordinary():
    if os.getuid() != 0:
        return os.getuid(), os.getgid()
    nobody = pwd.getpwnam('nobody')
    return nobody.pw_uid, nobody.pw_gid


# Runs the session; with no new privileges, so that the set-user-id bit of rtapi_app gives none.
def run(folder):
    drop = ['setpriv', '--no-new-privs']
    if os.getuid() == 0:
        drop += ['--reuid=%d' % ordinary()[0], '--regid=%d' % ordinary()[1], '--clear-groups']
    place = dict(PATH='/usr/bin:/bin:/usr/sbin:/sbin', HOME=folder, TMP=folder, TMPDIR=folder, LANG='C')
    with open(os.path.join(folder, 'output'), 'w') as output, open(os.path.join(folder, 'errors'), 'w') as errors:
        return subprocess.run(drop + ['halrun', os.path.join(folder, 'session.hal')], cwd=folder, env=place, stdin=subprocess.DEVNULL,
                              stdout=output, stderr=errors, start_new_session=True, timeout=limit).returncode


# The processes that have our folder as HOME.
def processes(folder):
    for name in filter(str.isdigit, os.listdir('/proc')):
        try:
            with open('/proc/%s/environ' % name, 'rb') as file:
                if ('HOME=' + folder).encode() in file.read().split(b'\0'):
                    yield int(name)
        except OSError:
            pass


# Whether a HAL session runs, of any user: there can be only one.
def hal_running():
    listed = subprocess.run(['ps', '-C', 'rtapi_app', '-o', 'stat='], capture_output=True, text=True).stdout.split()
    return any(state[0] != 'Z' for state in listed)


# The shared memories of such sessions of the user.
def memories():
    with open('/proc/sysvipc/shm') as file:
        rows = [[int(x) for x in line.split()[:8]] for line in file.readlines()[1:]]
    return {row[1] for row in rows if row[0] & 0xffffffff in memory_keys and row[7] == ordinary()[0]}


# Ends what is left of the session and removes its folder and its shared memory.
def clean(folder, before):
    for _ in range(20):
        left = list(processes(folder))
        if not left:
            break
        for number in left:
            try:
                os.kill(number, signal.SIGKILL)
            except OSError:
                pass
        time.sleep(0.1)
    for number in memories() - before:
        subprocess.run(['ipcrm', '-m', str(number)], stderr=subprocess.DEVNULL)
    shutil.rmtree(folder, ignore_errors=True)


# Nanoseconds of a tick of HAL's clock, which on x86 is the time stamp counter (rtapi_get_clocks is rdtsc).
def tick(folder):
    if os.uname().machine not in ('x86_64', 'i686'):
        raise Failed('the unit of its refresh time is known on x86 only')
    source, program = os.path.join(folder, 'counter.c'), os.path.join(folder, 'counter')
    with open(source, 'w') as file:
        file.write(counter)
    subprocess.run(['gcc', '-O2', '-o', program, source], check=True, stderr=subprocess.DEVNULL)
    return float(subprocess.run([program], capture_output=True, text=True, check=True).stdout)


# The readings of a refresh in nanoseconds, in order of time.
def refresh_times(folder, rungs):
    path = os.path.join(folder, 'rungs.clp')
    project(path, rungs)
    with open(os.path.join(folder, 'session.hal'), 'w') as file:
        file.write(session(path, rungs))
    scale = tick(folder)
    if os.getuid() == 0:
        os.chown(folder, *ordinary())
    code = run(folder)
    with open(os.path.join(folder, 'output')) as output, open(os.path.join(folder, 'errors')) as errors:
        words, complaints = output.read().split(), errors.read().split()
    if code != 0:
        raise Failed('halrun ended with %d: %s' % (code, ' '.join(complaints)[-300:]))
    pins = [word for word in words if word in ('TRUE', 'FALSE')]
    if pins != ['TRUE', 'FALSE', 'TRUE']:
        raise Failed('the last coil does not follow the first contact: ' + ' '.join(pins))
    times = [int(word) * scale for word in words if word.isdigit()]
    if len(times) != readings:
        raise Failed('%d readings in place of %d' % (len(times), readings))
    return times


# The least and the median nanoseconds of a refresh of so many rungs. Raises Failed with the reason.
def refresh_time(rungs):
    folder, before = tempfile.mkdtemp(prefix='classicladder-'), memories()
    try:
        if hal_running():
            raise Failed('another HAL session is running')
        times = refresh_times(folder, rungs)
        return min(times), statistics.median(times)
    except subprocess.TimeoutExpired:
        raise Failed('halrun took more than %d seconds' % limit)
    except (OSError, KeyError, ValueError, subprocess.SubprocessError) as reason:
        raise Failed(str(reason))
    finally:
        clean(folder, before)


if __name__ == '__main__':
    for rungs in (64, 256):
        print('%d rungs: least %.0f ns, median %.0f ns' % ((rungs,) + refresh_time(rungs)))
