#!/usr/bin/env python3
"""make.py: writes the machine files of this folder. make.py --check: says whether they are what it writes.

A machine file is a run of records behind two-byte marks: TK (period, deadline, compute as two bytes each, low byte first;
criticality; flag), CN (sender, receiver, kind: 0 single sample delay, 1 undelayed), EN at the end.
"""
import os
import sys

DELAYED, UNDELAYED = 0, 1


def task(period, deadline=None, compute=1, criticality=0, flag=0):
    words = (period, period if deadline is None else deadline, compute)
    return b'TK' + b''.join(w.to_bytes(2, 'little') for w in words) + bytes((criticality, flag))


def connection(sender, receiver, kind):
    return b'CN' + bytes((sender, receiver, kind))


END = b'EN'

MACHINES = {
    # the session of the rules' worked numbers
    'session': [
        task(5, 5, 1, 1), task(20, 20, 3, 1), task(10, 10, 2, 1),
        connection(0, 1, UNDELAYED), connection(0, 2, UNDELAYED), connection(1, 2, UNDELAYED), END,
    ],
    # weigh, price, label, belt
    'labeller': [
        task(20, 10, 4, 1, 1), task(40, 40, 5, 2), task(40, 40, 8, 2), task(10, 10, 2, 0, 1),
        connection(0, 1, UNDELAYED), connection(1, 2, UNDELAYED), connection(0, 2, UNDELAYED),
        connection(3, 0, DELAYED), connection(2, 3, DELAYED), END,
    ],
    # label, price, weigh
    'cheese': [
        task(20, 20, 6, 1), task(20, 20, 4, 1), task(20, 10, 3, 1),
        connection(2, 1, UNDELAYED), connection(1, 0, UNDELAYED), END,
    ],
    'refusal-01': [END],
    'refusal-03': [task(10), task(10001, 10), END],
    'refusal-04': [task(10), task(10), connection(0, 1, DELAYED), connection(1, 2, DELAYED), END],
    'refusal-05': [task(4), task(6), connection(0, 1, DELAYED), connection(0, 1, UNDELAYED), END],
    'refusal-06': [
        task(10), task(10), task(10),
        connection(0, 1, UNDELAYED), connection(1, 2, UNDELAYED), connection(2, 1, UNDELAYED), END,
    ],
    'refusal-07': [
        task(10, criticality=3), task(10, criticality=1), connection(0, 1, DELAYED), connection(0, 1, UNDELAYED), END,
    ],
    'refusal-08': [task(1000), task(721), END],
    'refusal-10': [task(10), b'XX', END],
    'refusal-11': [task(10), task(10)[:9]],
    'refusal-12': [task(10)] * 33 + [END],
    'refusal-13': [task(10), END, b'\n'],
}


def main():
    folder = os.path.dirname(os.path.abspath(__file__))
    check = sys.argv[1:] == ['--check']
    wrong = []
    for name, records in MACHINES.items():
        path = os.path.join(folder, name + '.machine')
        made = b''.join(records)
        if not check:
            with open(path, 'wb') as out:
                out.write(made)
        elif not os.path.exists(path) or open(path, 'rb').read() != made:
            wrong.append(name)
    others = {f for f in os.listdir(folder) if f.endswith('.machine')} - {n + '.machine' for n in MACHINES}
    for name in sorted(wrong) + sorted(others):
        print('not what make.py writes:', name)
    print(f'{len(MACHINES) - len(wrong)} machine files as written')
    sys.exit(1 if wrong or others else 0)


main()
