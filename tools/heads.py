"""The heads of the functions in crates/*/src, by their text: what `promises` and `silent-buffers` read. Nothing is proved here."""
import collections
import re

# `requires` and `ensures` are the texts of these clauses, one after another; `public` and `exported` tell `pub fn` and `extern "C" fn`
Head = collections.namedtuple('Head', 'path line name public exported parameters requires ensures')

FUNCTION = re.compile(r'(?m)^[ \t]*(pub )?(extern "C" )?fn +(\w+)')
# the type of the result, up to the first clause or the body
RESULT = re.compile(r'[^{]*?(?=\s*(?:\b(?:requires|ensures|ghost)\b|\{|\Z))')
CLAUSE = re.compile(r'\s*(requires|ensures|ghost)\b[^{]*')


def behind(text, at, opens, closes):
    """The place behind the bracket that closes the one at `at`."""
    depth = 0
    for i in range(at, len(text)):
        depth += (text[i] == opens) - (text[i] == closes)
        if depth == 0:
            return i + 1
    return len(text)


def read(text, path):
    """The head of each function of a file."""
    text = re.sub(r'//[^\n]*', '', text)
    for m in FUNCTION.finditer(text):
        begin = text.index('(', m.end())
        end = behind(text, begin, '(', ')')
        clauses = {'requires': '', 'ensures': '', 'ghost': ''}
        at = RESULT.match(text, end).end()
        while clause := CLAUSE.match(text, at):
            at = behind(text, clause.end(), '{', '}')
            clauses[clause[1]] += text[clause.end():at] + '\n'
        yield Head(path, text[:m.start(3)].count('\n') + 1, m[3], bool(m[1]), bool(m[2]), text[begin + 1:end - 1], clauses['requires'], clauses['ensures'])


def of_crate(crate):
    """The heads of a crate's functions, file by file."""
    for path in sorted((crate / 'src').rglob('*.rt')):
        yield from read(path.read_text(), path)
