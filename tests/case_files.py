"""Where the scripts beside this one put their cases."""
import os

CRATES = os.path.join(os.path.dirname(os.path.abspath(__file__)), '..', 'crates')


def write(program, files):
    """The records of each file to the program's data/, and to its stdout what it has to print of them: no differences."""
    data = os.path.join(CRATES, program, 'data')
    os.makedirs(data, exist_ok=True)
    for name, records in files.items():
        with open(os.path.join(data, name), 'wb') as out:
            out.write(b''.join(records))
    counts = [(name, len(records)) for name, records in files.items()]
    counts.append(('total', sum(count for _, count in counts)))
    report = ''.join('%s: %d cases, 0 differences\n' % pair for pair in counts)
    with open(os.path.join(CRATES, program, 'stdout'), 'w') as out:
        out.write(report)
    print(report, end='')
