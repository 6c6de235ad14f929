"""Opens what a stop leaves of images, at each call of a run.

stops.py PROGRAM FOLDER DEVICES OLD EVERY GROUP=FILE..

The run names so many images, of which the first OLD ones are the pool's and the others are attached. The folder holds
the images before and after the run (`start`, `end`), its writes and syncs (`trace`, of strace), and a script that reads
all blocks (`reads`). Each FILE holds the answers to it that are those of this group.
A stop after some of the calls keeps each write that its device has synced since. Of the others it may keep all,
none, single ones, parts, or leave other bytes there. Whatever it left, the next run has to answer the blocks of a
group that is not older than the last one synced by then, also where one more image is gone. Where images are
attached, a run has to do so without them too; where no word stands for one that the pool has, it is refused.
Where the folder has a script that copies and then reads all blocks (`copies`), each state that a stop left is opened
without each one of the images in turn, and the run behind the one over all images copies: it has to end the expansion
to the width that the group chosen has, and to answer the same blocks, as has a run behind it without one of the images.
There are many writes then, so of those of blocks and jobs one of EVERY is followed by a stop, which leaves some of what
it may.
"""
import pathlib
import re
import subprocess
import sys

SECTOR = 512
RING = 32 * SECTOR
# The calls that a run makes most of: those on the scratch area and on the data rows.
INDEX = range(64 * SECTOR, 192 * SECTOR)
# Of what a stop may leave, so many are tried where it is one of many stops.
TRIED = 3
CALL = re.compile(r' (pwrite64|fdatasync)\(\d+<([^>]*)>(?:, "([^"]*)", \d+, (\d+))?\) += \d+$')
ANSWER = re.compile(r'^\d+ a\.\d+ (get|sum) (\d+) at \d+ (.*)$')
COPIED = re.compile(r'^(\d+) a\.1 copy done width (\d+)$')

program, folder = sys.argv[1], pathlib.Path(sys.argv[2])
devices, old, every = (int(word) for word in sys.argv[3:6])
answers = {int(group): pathlib.Path(file).read_text() for group, file in (word.split('=') for word in sys.argv[6:])}
copies = (folder / 'copies').exists()


def fail(text):
    sys.exit(f'FAILED {text}')


def images(path):
    return {int(file.name[4:]): bytearray(file.read_bytes()) for file in sorted(path.glob('disk*'))}


def plain(text):
    """The bytes that strace has spelled in hexadecimal digits."""
    return bytes.fromhex(text.replace('\\x', ''))


def calls():
    """The calls: a device, and of a write also the offset and the bytes of each of its sectors, one by one."""
    for line in (folder / 'trace').read_text().splitlines():
        if '+++ exited' in line:
            continue
        match = CALL.search(line)
        if not match:
            fail(f'a call that is neither a write of a sector nor a sync: {line[:150]}')
        name, path, text, offset = match.groups()
        device = int(plain(path).decode().rpartition('/disk')[2])
        if name == 'fdatasync':
            yield device, None, None
        else:
            row = plain(text)
            for at in range(0, len(row), SECTOR):
                yield device, int(offset) + at, row[at:at + SECTOR]


def group_of(uberblock):
    return int.from_bytes(uberblock[24:32], 'big') if uberblock[:6] == b'RZXPUB' else 0


def newest(image):
    return max(group_of(image[at:at + SECTOR]) for at in range(0, RING, SECTOR))


def note_width(uberblock):
    """The width that the pool has once the expansion of this group has ended, if it has one."""
    widths[group_of(uberblock)] = int.from_bytes(uberblock[40:44], 'big')


def last_synced():
    """The last group that is synced on all images that show one."""
    return min(group for group in ended.values() if group)


def choices(count, written_on):
    """What becomes of so many writes that are not synced: of each the part that is kept, or None for a filling."""
    yield 'all kept', [SECTOR] * count
    yield 'none kept', [0] * count
    if count == 0:
        return
    yield 'other bytes', [None] * count
    yield 'halves', [SECTOR // 2] * count
    for device in set(written_on):
        yield f'disk{device} alone', [SECTOR if each == device else 0 for each in written_on]
    for one in sorted({0, count // 2, count - 1}) if copies else range(count):
        yield f'write {one} alone', [SECTOR if each == one else 0 for each in range(count)]
        yield f'all but write {one}', [0 if each == one else SECTOR for each in range(count)]


def left(synced, loose, parts):
    stopped = {device: bytearray(image) for device, image in synced.items()}
    for (device, offset, data), part in zip(loose, parts):
        data = b'\xa5' * SECTOR if part is None else data[:part]
        stopped[device][offset:offset + len(data)] = data
    return stopped


def replay(script, named):
    """Replays a script over the first so many images, as they stand in the folder."""
    words = [program] + [str(folder / f'disk{device}') for device in range(named)] + ['--', 'replay']
    return subprocess.run(words, stdin=open(folder / script), capture_output=True, text=True)


def run(script, named, name):
    """The lines of such a replay."""
    ran = replay(script, named)
    if ran.returncode != 0:
        fail(f'{name}: status {ran.returncode}, {ran.stdout}')
    return ran.stdout.splitlines()


def read_in(lines):
    return ''.join(' '.join(match.groups()) + '\n' for match in map(ANSWER.match, lines) if match)


def put_back(stopped):
    for device in range(devices):
        file = folder / f'disk{device}'
        file.unlink(missing_ok=True)
        if device in stopped:
            file.write_bytes(stopped[device])


def look(stopped, named, lowest, highest, name):
    """Opens the first so many images; the answers have to be those of one group of these, which is given."""
    put_back(stopped)
    lines = run('reads', named, name)
    chosen = int(lines[0].split()[2]) - 2
    if not lowest <= chosen <= highest or read_in(lines) != answers[chosen]:
        fail(f'{name}: group {chosen}, of groups {lowest} to {highest}, {lines}')
    return chosen


def look_at_old(stopped, lowest, highest, name):
    """Opens the old images, with a word for each other one; then without, which is refused where the pool has these."""
    alone = {device: image for device, image in stopped.items() if device < old}
    width = widths[look(alone, devices, lowest, highest, name)]
    if width <= old:
        look(stopped, old, lowest, highest, f'{name}, and no others named')
        return
    put_back(stopped)
    refused = replay('reads', old)
    wanted = 'too many failed ' + ' '.join(str(device) for device in range(old, width)) + '\n'
    if (refused.returncode, refused.stdout) != (4, wanted) or images(folder) != stopped:
        fail(f'{name}, and no others named: status {refused.returncode}, {refused.stdout}')


def copy_on(chosen, gone, name):
    """Copies what stands in the folder to its end, and looks at it once more without an image."""
    lines = run('copies', devices, name)
    answered = next((match for match in map(COPIED.match, lines) if match), None)
    if not answered:
        fail(f'{name}: {lines}')
    count, width = (int(word) for word in answered.groups())
    groups = [f'{item} group {chosen + 4 + item} after {item}' for item in range(count)]
    if width != widths[chosen] or lines[:count] != groups or read_in(lines) != answers[chosen]:
        fail(f'{name}: from group {chosen} on {lines}')
    (folder / f'disk{gone}').unlink()
    lines = run('reads', devices, f'{name}, then without disk{gone}')
    if read_in(lines) != answers[chosen]:
        fail(f'{name}, then without disk{gone}: {lines}')


def looks(stopped, name):
    """Opens what a stop has left, with all images and without some."""
    lowest, highest = last_synced(), max(begun.values())
    chosen = look(stopped, devices, lowest, highest, name)
    gone = opened % (devices + 1)
    if copies and len(stopped) == devices:
        copy_on(chosen, opened % devices, f'{name}, and copied')
    if old < devices:
        look_at_old(stopped, lowest, highest, f'{name}, and with the old images alone')
    for gone in range(devices) if copies else [gone]:
        if len(stopped) == devices and gone in stopped:
            fewer = {device: image for device, image in stopped.items() if device != gone}
            look(fewer, devices, lowest, highest, f'{name}, and without disk{gone}')


written, synced, loose = images(folder / 'start'), images(folder / 'start'), []
begun = {device: newest(image) for device, image in written.items()}
ended = dict(begun)
widths = {}
for image in written.values():
    for at in range(0, RING, SECTOR):
        note_width(image[at:at + SECTOR])
stops = opened = on_data = 0
for count, (device, offset, data) in enumerate([(None, None, None), *calls()]):
    if offset is not None:
        written[device][offset:offset + SECTOR] = data
        loose.append((device, offset, data))
        if offset < RING:
            begun[device] = group_of(data)
            note_width(data)
        elif offset not in INDEX:
            on_data += 1
            if on_data % every:
                continue
    elif device is not None:
        synced[device] = bytearray(written[device])
        loose = [write for write in loose if write[0] != device]
        ended[device] = begun[device]
    left_so = list(choices(len(loose), [write[0] for write in loose]))
    if copies:
        left_so = [left_so[(stops * TRIED + one) % len(left_so)] for one in range(min(TRIED, len(left_so)))]
    seen = []
    for name, parts in left_so:
        stopped = left(synced, loose, parts)
        if stopped in seen:
            continue
        seen.append(stopped)
        looks(stopped, f'stopped after {count} calls, {name}')
        opened += 1
    stops += 1
if loose:
    fail('writes that are never synced: ' + ' '.join(f'disk{device} {offset}' for device, offset, _ in loose))
if written != images(folder / 'end'):
    fail('the calls give the images that the run has left')
print(f'{stops} stops of {count + 1}, {opened} images' if every > 1 else f'{stops} stops, {opened} images')
