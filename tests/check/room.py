"""The folder that the cases of a script run in: copies of the repository, stand-ins, and the commands that the script may use."""
import os
import pathlib
import shutil
import subprocess
import sys

root = pathlib.Path(__file__).resolve().parent.parent.parent
TOOLS = '''bash cat chmod cmp cp cut dirname env find flock grep head ln mkdir mkfifo mktemp mv readlink rm sed setpriv sh sha256sum sleep sort stat
    tail tee timeout touch true xargs'''.split()


def made_from(name):
    """The crates of the repository that a crate is made from, each behind those that it depends on, itself last."""
    lines = [line.split('#')[0].split(':') for line in (root / 'crates.txt').read_text().split('\n') if ':' in line.split('#')[0]]
    needs = {head.split()[0]: tail.split() for head, tail in lines}
    order = []

    def visit(crate):
        if crate in needs and crate not in order:
            for below in needs[crate]:
                visit(below)
            order.append(crate)

    visit(name)
    return order


def copy(source, target):
    subprocess.run(['cp', '-a', '--', source, target], check=True)


def copy_crates(source, target):
    """The crates without what rt has made of them."""
    for crate in sorted(source.iterdir()):
        (target / crate.name).mkdir(parents=True)
        for part in sorted(crate.iterdir()):
            if part.name != 'out':
                copy(part, target / crate.name)


def remove(folder):
    if folder.exists():
        subprocess.run(['chmod', '-R', 'u+rwX', '--', folder], check=True)
        subprocess.run(['rm', '-r', '--', folder], check=True)


class Room:
    """kit/ has the stand-ins for rt and rattle, compilers/ those for cargo and clang, tools/ the other commands. The script and the program behind it
    are those of ./check; another class may name others, and words that begin each case's text in bash (`prelude`)."""
    script = 'check'
    crate = 'checker'
    first_call = ['./check', 'samples/p1.batch']
    tools = TOOLS
    prelude = ''

    def __init__(self, folder, script):
        self.folder = folder
        self.repo = folder / 'repo'
        self.used = True
        self.environment = {
            'ROOM': str(folder), 'HOME': str(folder), 'TMPDIR': str(folder), 'LC_ALL': 'C', 'FAKE_KIT': 'fake kit 1', 'FAKE_LOG': str(folder / 'log'),
            'FAKE_GO': str(folder / 'go'), 'FAKE_PRODUCT': str(folder / 'product'),
            'NOBODY': 'setpriv --reuid=65534 --regid=65534 --clear-groups --no-new-privs' if os.geteuid() == 0 else '',
        }
        folder.chmod(0o755)
        for name in ['tools', 'kit', 'kit/bin', 'compilers']:
            (folder / name).mkdir()
        for tool in self.tools:
            (folder / 'tools' / tool).symlink_to(shutil.which(tool) or sys.exit(f'{tool} is missing'))
        for name, place in [('rt', 'kit'), ('rattle', 'kit/bin'), ('cargo', 'compilers'), ('clang', 'compilers')]:
            shutil.copy(root / 'tests' / 'check' / 'stubs' / name, folder / place / name)
        shutil.copy(root / 'target' / 'bin' / self.crate, folder / 'product')
        self.copy_sources(folder / 'sources', script)
        copy(folder / 'sources', folder / 'built')
        self.make_thin(folder / 'built')
        self.build_thin(folder / 'built')

    def copy_sources(self, target, script):
        target.mkdir()
        for name in ['README.md', 'check', 'crates.txt', 'include', 'mounts', 'samples', 'scripts', 'tests', *(['HANDLES'] if (root / 'HANDLES').exists() else [])]:
            copy(root / name, target / name)
        copy_crates(root / 'crates', target / 'crates')
        if script:
            shutil.copy(script, target / self.script)
            (target / self.script).chmod(0o755)
        subprocess.run(['chmod', '-R', 'u+rwX,go+rX,go-w', '--', target], check=True)

    def make_thin(self, target):
        """Leaves two files of each source folder: a copy is made for each case, and nothing of it is proved."""
        for crate in list((target / 'crates').iterdir()):
            if crate.name.endswith('_cases'):
                shutil.rmtree(crate)
                continue
            for folder in ['src', 'specs', 'proofs', 'must-fail']:
                files = sorted(f for f in (crate / folder).rglob('*') if f.is_file())
                for file in [f for f in files if f.name not in ('lib.rt', 'main.rt')][1:]:
                    file.unlink()
        for file in (target / 'tests').rglob('*'):
            if file.is_file() and file.name not in ('build', 'run'):
                file.unlink()
        subprocess.run(['find', target, '-depth', '-type', 'd', '-empty', '-delete'], check=True)

    def build_thin(self, target):
        environment = self.environment | {'PATH': f'{self.folder}/kit:{self.folder}/tools'}
        subprocess.run(self.first_call, cwd=target, env=environment, capture_output=True)

    def prepare(self, case):
        """The copy of a case. Real cases share one, and a copy that no case has changed is used again."""
        if case.kit != 'real':
            (self.folder / 'go').unlink(missing_ok=True)
            if self.used:
                remove(self.repo)
                copy(self.folder / 'built', self.repo)
            return self.repo
        real = self.folder / 'real'
        if not real.exists():
            copy(self.folder / 'sources', real)
            (real / 'target').mkdir()
            copy(root / 'target' / 'bin', real / 'target' / 'bin')
        return real

    def place(self, repo):
        """The folder in which a case's commands are given."""
        return repo

    def path(self, case):
        paths = {'fake': f'{self.folder}/kit:{self.folder}/tools', 'none': f'{self.folder}/tools', 'real': os.environ['PATH']}
        return paths[case.kit]
