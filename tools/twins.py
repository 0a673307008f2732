"""Lists functions in src/ whose bodies are the same but for names and numbers: places to look for twins."""
import glob
import re
from collections import defaultdict

# a function at the left margin or in an impl: its name, and its body
FUNCTION = re.compile(
    r'^( *)(?:pub )?fn (\w+)[^\n]*(?:\n(?!\1\{\n| *(?:pub )?fn )[^\n]*)*(?:\n\1)?\{\n(.*?)\n\1\}$',
    re.M | re.S,
)


def shape(body):
    """The body without comments, each number and constant as N, each word as x."""
    body = re.sub(r'//[^\n]*', '', body)
    body = re.sub(r'\b\d+\b|\b[A-Z][A-Z0-9_]+\b', 'N', body)
    return re.sub(r'\s+', ' ', re.sub(r'\b[A-Za-z_]\w*\b', 'x', body)).strip()


groups = defaultdict(list)
for path in sorted(glob.glob('crates/*/src/*.rt')):
    text = open(path, encoding='utf-8').read()
    for _, name, body in FUNCTION.findall(text):
        groups[shape(body)].append(path.split('/')[1] + '::' + name)
for body, names in sorted(groups.items(), key=lambda group: -len(group[1])):
    if len(names) > 1:
        print(len(names), body[:60], '|', ', '.join(names))
