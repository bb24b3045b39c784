"""What the tests of the library share: how they count, and how they run programs and read files."""
import os
import shutil
import subprocess

EMBED = os.path.dirname(os.path.dirname(os.path.abspath(__file__)))
OUT = f'{EMBED}/out'
ROOT = os.path.dirname(EMBED)
passed, failures, left_out = [], [], []


def hold(holds, what):
    """Counts a test."""
    if holds:
        passed.append(what)
    else:
        failures.append(what)
        print(f'FAILED: {what}')


def has_tool(name, what):
    """Whether there is a program of this name, without which something is left out."""
    if shutil.which(name):
        return True
    left_out.append(f'{what}: there is no {name}')
    return False


def ran(*words, timeout=600, **how):
    """What a program gave and how it ended. Others may run beside it."""
    return subprocess.run(words, capture_output=True, timeout=timeout, **how)


def read(path):
    """The bytes of a file."""
    with open(path, 'rb') as file:
        return file.read()


def first_example():
    """A document, and the text that it prints."""
    return read(f'{ROOT}/examples/first.json'), read(f'{ROOT}/examples/first.txt')


def plain(node):
    """The text of a tree or of a node of an answer."""
    if isinstance(node, list):
        return ''.join(map(plain, node))
    if 'children' in node:
        return plain(node['children'])
    return node.get('text', node.get('markup', ''))


def printed(answer):
    """What docs/ANSWER.md says that an answer is printed as."""
    lines = [plain(citation['content']) for citation in answer['citations']]
    if 'bibliography' in answer:
        items = answer['bibliography']['items']
        lines += ['',
                  *[item['key'] + '\t' + plain(item.get('first_field', [])) + plain(item['content'])
                    for item in items]]
    return ''.join(line + '\n' for line in lines)
