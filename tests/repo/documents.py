"""Documents: tables that a reader sees as tables, and no path of one machine."""
import re
import subprocess


def cells(line):
    """How many cells a row has: a bar divides unless a backslash stands before it, in code too."""
    return len(re.findall(r'(?<!\\)\|', line)) - 1


def check_tables(root, faults):
    """A table begins with its header and the line below it, no blank line divides it, and each row has as many cells as the header."""
    count = 0
    for file in [root / 'README.md', *sorted(root.glob('docs/*.md'))]:
        fenced, header = False, 0
        lines = file.read_text().split('\n')
        for i, line in enumerate(lines):
            where = f'{file.relative_to(root)}:{i + 1}'
            fenced ^= line.startswith('```')
            if fenced or not line.lstrip().startswith('|'):
                header = 0
                continue
            if not header:
                header = cells(line)
                count += 1
                if not re.match(r'\s*\|(?: *:?-+:? *\|)+\s*$', lines[i + 1] if i + 1 < len(lines) else ''):
                    faults.append(f'{where}: begins a table without a header; no blank line divides a table')
            if not line.rstrip().endswith('|') or cells(line) != header:
                faults.append(f'{where}: a row of {cells(line)} cells in a table of {header}')
    return count


def check_paths(root, faults):
    files = subprocess.run(['git', 'ls-files', '-z'], cwd=root, check=True, capture_output=True).stdout.decode().split('\0')
    machine = re.compile(r'(^|[^\w.-])/(' + '|'.join(['work', 'tmp', 'root', 'home', 'opt']) + r')/\w')
    for name in filter(None, files):
        try:
            text = (root / name).read_text()
        except UnicodeDecodeError:
            continue
        for i, line in enumerate(text.split('\n'), 1):
            if machine.search(line):
                faults.append(f'{name}:{i}: names a path of one machine')
    return len(files) - 1
