"""roundtrip.py TYPES PROGRAM COUNT SEED: requires that a test program that `driver.py` wrote answers about COUNT messages as the oracle."""
import os
import subprocess
import sys

import kinds
from cases import Cases

AT_ONCE = 50_000


def differences(program, cases, batch):
    """Returns how the program's answers to a batch of messages differ from those that it must give."""
    lines = "".join(f"{name} {message.hex()}\n" for name, message in batch)
    done = subprocess.run([program], input=lines, capture_output=True, text=True, check=False)
    answers = done.stdout.split("\n")[:-1]
    wrong = [] if done.returncode == 0 else [f"{program}: status {done.returncode} after {len(answers)} messages: {done.stderr[-2000:]}"]
    for (name, message), answer in zip(batch, answers):
        wanted = cases.line(name, message)
        if answer != wanted:
            wrong.append(f"{name} {message.hex()}\n    is {answer[:300]}\n    not {wanted[:300]}")
    return wrong


def main():
    types, program, count, seed = sys.argv[1], os.path.abspath(sys.argv[2]), int(sys.argv[3]), int(sys.argv[4])
    cases, batch, total, wrong = Cases(kinds.read(types), seed), [], 0, []
    for each in cases.all(count):
        batch.append(each)
        total += 1
        if len(batch) == AT_ONCE:
            wrong, batch = wrong + differences(program, cases, batch), []
    wrong += differences(program, cases, batch)
    for line in wrong[:5]:
        print(line)
    print(f"{os.path.basename(types)}: {total} messages of {len(cases.names)} types in C, {len(wrong)} differ")
    return 1 if wrong or total < count else 0


if __name__ == "__main__":
    sys.exit(main())
