# Writes data/, args and stdout: the jobs that `beside store` chooses, and the records of tools/checks.py by their number, which is known from how
# they are made. All answers are those of the Rust's text: build tools/beside first. Run in this folder: python3 make.py
import os
import struct
import subprocess
import sys
import tempfile

sys.path.append("../../tools")
import checks

ORACLE = "../../tools/beside/target/release/beside"
JOBS = 420
MOST_FILE = 32_768  # a file is filled to so many bytes; a longer record has one of its own
LENT = 65_536


def printed(*words):
    return subprocess.run([ORACLE, *words], capture_output=True, check=True, text=True).stdout


# ---- the records of tools/checks.py

def stored(number, record, answer):
    return struct.pack(">IBI", LENT, number, len(record)) + record + struct.pack(">I", len(answer)) + answer


def records_of(number, folder):
    for expected, name, record in checks.CASES:
        if expected == number:
            told, answer = printed("answer", os.path.join(folder, name), str(LENT)).split()
            assert int(told) == number, name
            yield stored(number, record, b"" if answer == "-" else bytes.fromhex(answer))


def files_of(records):
    """As many records to a file as fit, at least one."""
    files, room = [], 0
    for record in records:
        if len(record) > room:
            files.append([])
            room = MOST_FILE - 4
        room -= min(room, len(record))
        files[-1].append(record)
    return [struct.pack(">I", len(records)) + b"".join(records) for records in files]


def write_checks():
    with tempfile.TemporaryDirectory() as folder:
        checks.write(folder)
        for number in sorted({number for number, _, _ in checks.CASES}):
            for i, data in enumerate(files_of(records_of(number, folder))):
                with open(f"data/check-{number}-{i}.jobs", "wb") as out:
                    out.write(data)


# ---- what is expected

def count_in(name):
    with open(os.path.join("data", name), "rb") as file:
        return struct.unpack(">I", file.read(4))[0]


os.makedirs("data", exist_ok=True)
for old in os.listdir("data"):
    os.remove(os.path.join("data", old))
print(printed("store", str(JOBS), "data"), end="")
write_checks()
names = sorted(os.listdir("data"))
assert sum(map(count_in, names)) == JOBS + len(checks.CASES)
with open("args", "w") as out:
    out.write("".join(f"{name}\n" for name in names))
with open("stdout", "w") as out:
    out.write("".join(f"{name} {count_in(name)} agree, 0 differ\n" for name in names))
